/* dilkortxi.h: decoding of group elements, for programs in C and C++.
 *
 * An element travels as its code, a run of bytes. Each function below takes such a run and tells
 * whether it is the code of an element of its group:
 *
 *     0                     the bytes are the code of one element
 *     DILKORTXI_LENGTH  2   the run has not the length of a code
 *     DILKORTXI_ELEMENT 6   the length fits, and the bytes are the code of no element
 *
 * Nothing else is ever answered. The bytes are read and never written, nothing is kept, nothing is
 * allocated, and no call depends on an earlier one: any thread may call at any time.
 *
 * The caller owes that `code` points to `length` bytes that may be read; with a length of 0 it must
 * still not be a null pointer. Link with libhost.a (docs/HOST.md says how to build it).
 */
#ifndef DILKORTXI_H
#define DILKORTXI_H

#include <stddef.h>
#include <stdint.h>

#ifdef __cplusplus
extern "C" {
#endif

enum {
    DILKORTXI_LENGTH = 2,
    DILKORTXI_ELEMENT = 6
};

/* res2039: 2 bytes, big-endian, a number a from 1 to 2038 with a^1019 = 1 modulo 2039. */
uint8_t dilkortxi_res2039_decode(const uint8_t *code, size_t length);

/* circ523: 4 bytes, x and then y, each in 2 bytes, big-endian: numbers from 0 to 522 with
 * x*x + y*y = 1 modulo 523, whose 131-fold sum on the circle is (1, 0). Being on the circle alone
 * is not enough. */
uint8_t dilkortxi_circ523_decode(const uint8_t *code, size_t length);

#ifdef __cplusplus
}
#endif

#endif
