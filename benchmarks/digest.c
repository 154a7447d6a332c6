/* Times the part's SHA-256 beside Mbed TLS (portable C) and OpenSSL, in one run on one core, and first compares
 * the answers of the three on an input of every length from 0 to 4,096 bytes. Prints a table as Markdown. */
#include <mbedtls/sha256.h>
#include <openssl/sha.h>
#include <stdint.h>
#include <stdio.h>
#include <stdlib.h>
#include <string.h>
#include <time.h>

uint8_t dilkortxi_digest(const uint8_t *input, size_t input_len, uint8_t *out, size_t out_len);

static uint8_t input[4097];
static uint64_t seed = 0x9e3779b97f4a7c15u;

static uint64_t next(void) /* xorshift64: the inputs need only be many and various */
{
    seed ^= seed << 13;
    seed ^= seed >> 7;
    seed ^= seed << 17;
    return seed;
}

static void ours(size_t len, uint8_t *out) { dilkortxi_digest(input, len, out, 32); }
static void mbed(size_t len, uint8_t *out) { mbedtls_sha256_ret(input, len, out, 0); }
static void openssl(size_t len, uint8_t *out) { SHA256(input, len, out); }

static void compare(void)
{
    uint8_t a[32], b[32], c[32];
    int count = 0;
    for (int turn = 0; turn < 4; turn++)
        for (size_t len = 0; len <= 4096; len++) {
            for (size_t i = 0; i < len; i++)
                input[i] = (uint8_t)next();
            ours(len, a);
            mbed(len, b);
            openssl(len, c);
            if (memcmp(a, b, 32) || memcmp(a, c, 32)) {
                printf("the digests of an input of %zu bytes differ\n", len);
                exit(1);
            }
            count++;
        }
    uint8_t kept[32];
    memset(kept, 7, 32);
    if (dilkortxi_digest(input, 4097, kept, 32) != 2 || kept[0] != 7 || kept[31] != 7) {
        printf("an input of 4097 bytes is not refused as it should be\n");
        exit(1);
    }
    printf("%d digests are those of Mbed TLS and OpenSSL; 4,097 bytes are refused.\n\n", count);
}

static double seconds(void)
{
    struct timespec t;
    clock_gettime(CLOCK_PROCESS_CPUTIME_ID, &t);
    return (double)t.tv_sec + (double)t.tv_nsec * 1e-9;
}

/* The best of several turns, in bytes a second: the least disturbed one. */
static double rate(void (*hash)(size_t, uint8_t *), size_t len)
{
    uint8_t out[32];
    size_t times = 8000000 / (len + 64) + 1;
    double best = 0;
    for (int turn = 0; turn < 9; turn++) {
        double start = seconds();
        for (size_t i = 0; i < times; i++) {
            hash(len, out);
            input[0] ^= out[0]; /* so that no call can be left out */
        }
        double speed = (double)(len * times) / (seconds() - start);
        if (speed > best)
            best = speed;
    }
    return best;
}

int main(void)
{
    static const size_t lens[] = {32, 64, 100, 256, 1024, 4096};
    compare();
    printf("| Bytes | Dilkortxi MB/s | Mbed TLS MB/s | OpenSSL MB/s | beside Mbed TLS | beside OpenSSL |\n");
    printf("|---|---|---|---|---|---|\n");
    for (size_t i = 0; i < sizeof lens / sizeof *lens; i++) {
        double a = rate(ours, lens[i]), b = rate(mbed, lens[i]), c = rate(openssl, lens[i]);
        printf("| %zu | %.1f | %.1f | %.1f | %.2f | %.2f |\n", lens[i], a / 1e6, b / 1e6, c / 1e6, a / b, a / c);
    }
    return 0;
}
