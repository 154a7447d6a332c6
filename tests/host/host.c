/* Tries the decoding of both groups, as a C program links it, against a reckoning of its own.
 *
 * What is expected is computed here from the definitions of the groups alone: a power is a product of
 * so many factors, a multiple is a sum of so many summands. Nothing is shared with the library.
 * At the first difference the program names the bytes and ends with status 1. */
#include <stdio.h>
#include <stdlib.h>
#include <string.h>

#include "dilkortxi.h"

typedef uint8_t decoder(const uint8_t *code, size_t length);

/* One of the groups: how it is called here, and what its definition says of a code. */
struct kind {
    const char *name;
    size_t width;
    decoder *decode;
    int (*is_code)(const uint8_t *code);
    unsigned long tried;
    unsigned long elements;
};

static unsigned two_bytes(const uint8_t *p)
{
    return p[0] * 256u + p[1];
}

static void put_two(uint8_t *p, unsigned n)
{
    p[0] = (uint8_t)(n / 256);
    p[1] = (uint8_t)(n % 256);
}

/* res2039: the numbers a from 1 to 2038 whose power 1019 is one, modulo 2039. */
static int is_residue(const uint8_t *code)
{
    unsigned a = two_bytes(code);
    unsigned power = 1;

    if (a < 1 || a > 2038)
        return 0;
    for (int i = 0; i < 1019; i++)
        power = power * a % 2039;
    return power == 1;
}

/* circ523: the points of the circle x^2 + y^2 = 1 modulo 523 whose 131-fold sum is (1, 0). */
static int on_circle(unsigned x, unsigned y)
{
    return x < 523 && y < 523 && (x * x + y * y) % 523 == 1;
}

static int is_point(const uint8_t *code)
{
    long x = two_bytes(code), y = two_bytes(code + 2);
    long sx = 1, sy = 0;

    if (!on_circle((unsigned)x, (unsigned)y))
        return 0;
    for (int i = 0; i < 131; i++) {
        long tx = ((sx * x - sy * y) % 523 + 523) % 523;
        long ty = (sx * y + x * sy) % 523;
        sx = tx;
        sy = ty;
    }
    return sx == 1 && sy == 0;
}

static void try(struct kind *kind, const uint8_t *code, size_t length)
{
    unsigned expected = 0;
    unsigned told;
    uint8_t *run = malloc(length ? length : 1);

    if (!run) {
        fprintf(stderr, "host: no memory\n");
        exit(2);
    }
    /* a run of its own, so that a reader of bytes past its end is seen by a memory checker */
    memcpy(run, code, length);
    if (length != kind->width)
        expected = 2;
    else if (!kind->is_code(run))
        expected = 6;
    told = kind->decode(run, length);
    kind->tried++;
    if (told != expected || memcmp(run, code, length) != 0) {
        fprintf(stderr, "host: %s: the bytes", kind->name);
        for (size_t i = 0; i < length; i++)
            fprintf(stderr, " %02x", code[i]);
        fprintf(stderr, " (%zu of them): %u expected, %u told", length, expected, told);
        fprintf(stderr, memcmp(run, code, length) ? ", and the bytes were written\n" : "\n");
        exit(1);
    }
    free(run);
}

/* All lengths from 0 to 8: the fronts of a code, the code, and the code with more bytes after it. */
static void try_lengths(struct kind *kind, const uint8_t *code, uint8_t more)
{
    uint8_t run[8];

    memset(run, more, sizeof run);
    memcpy(run, code, kind->width);
    for (size_t length = 0; length <= sizeof run; length++)
        try(kind, run, length);
}

static void try_pair(struct kind *kind, unsigned x, unsigned y)
{
    uint8_t code[4];

    put_two(code, x);
    put_two(code + 2, y);
    try(kind, code, 4);
}

/* Every two-byte string, and around each of those that are codes every other length. */
static void try_residues(struct kind *kind)
{
    uint8_t code[2];

    for (unsigned a = 0; a < 65536; a++) {
        put_two(code, a);
        try(kind, code, 2);
        if (is_residue(code)) {
            kind->elements++;
            try_lengths(kind, code, 0);
            try_lengths(kind, code, 0xff);
        }
    }
}

/* Around a point of the circle: neighbours, swapped, with 523 added, low bytes first, one bit turned. */
static void try_near(struct kind *kind, unsigned x, unsigned y)
{
    uint8_t code[4];

    for (unsigned dx = 0; dx < 3; dx++)
        for (unsigned dy = 0; dy < 3; dy++)
            try_pair(kind, (x + dx + 65535) % 65536, (y + dy + 65535) % 65536);
    try_pair(kind, y, x);
    for (unsigned more = 523; more + 522 < 65536; more += 523) {
        try_pair(kind, x + more, y);
        try_pair(kind, x, y + more);
        try_pair(kind, x + more, y + more);
    }
    try_pair(kind, x % 256 * 256 + x / 256, y % 256 * 256 + y / 256);
    put_two(code, x);
    put_two(code + 2, y);
    for (unsigned bit = 0; bit < 32; bit++) {
        code[bit / 8] ^= (uint8_t)(1u << bit % 8);
        try(kind, code, 4);
        code[bit / 8] ^= (uint8_t)(1u << bit % 8);
    }
    try_lengths(kind, code, 0);
    try_lengths(kind, code, 0xff);
}

/* Every pair of numbers below 1,100, which holds the whole plane modulo 523 twice over each way, and
 * what is near to each point of the circle. */
static void try_points(struct kind *kind)
{
    uint8_t code[4];

    for (unsigned x = 0; x < 1100; x++)
        for (unsigned y = 0; y < 1100; y++) {
            try_pair(kind, x, y);
            if (!on_circle(x, y))
                continue;
            put_two(code, x);
            put_two(code + 2, y);
            kind->elements += is_point(code);
            try_near(kind, x, y);
        }
}

/* How much was tried; that the definitions here give as many elements as the group's order. */
static void report(const struct kind *kind, unsigned long order)
{
    if (kind->elements != order) {
        fprintf(stderr, "host: %s: %lu elements reckoned here, its order is %lu\n", kind->name, kind->elements, order);
        exit(1);
    }
    printf("host: %s: %lu runs of bytes tried around %lu elements, all told right\n", kind->name, kind->tried, kind->elements);
}

int main(void)
{
    struct kind residues = {"res2039", 2, dilkortxi_res2039_decode, is_residue, 0, 0};
    struct kind points = {"circ523", 4, dilkortxi_circ523_decode, is_point, 0, 0};

    try_residues(&residues);
    report(&residues, 1019);
    try_points(&points);
    report(&points, 131);
    return 0;
}
