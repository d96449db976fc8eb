/* Whether the calling thread's floating-point environment is the one that the promises of zegrafult.h are about: round to nearest,
 * ties to even, and subnormals kept, both as results and as operands. A host that is linked with -ffast-math, or that called
 * fesetround or set the flush bits, has another; then digits move, and at 1e-160 an answer 0 becomes 8. Ask once in each thread
 * that calls the library, before its first call. The test is arithmetic of the host's own, on volatile numbers, so that no
 * flag of the compiler answers it beforehand. docs/CONVENTIONS.md */
#ifndef ZEGRAFULT_ENVIRONMENT_H
#define ZEGRAFULT_ENVIRONMENT_H

#include <stdbool.h>
#include <stdint.h>
#include <string.h>

static inline double zg_from_bits(uint64_t bits) {
    double x;
    memcpy(&x, &bits, sizeof x);
    return x;
}

static inline uint64_t zg_to_bits(double x) {
    uint64_t bits;
    memcpy(&bits, &x, sizeof bits);
    return bits;
}

static inline bool zg_environment(void) {
    volatile double one = 1.0, minus = -1.0, two = 2.0, half = 0.5;
    volatile double tie = zg_from_bits(0x3CA0000000000000u);         /* 2^-53 */
    volatile double above = zg_from_bits(0x3CA8000000000000u);       /* 1.5 * 2^-53 */
    volatile double least = zg_from_bits(0x0010000000000000u);       /* 2^-1022, the least normal number */
    volatile double subnormal = zg_from_bits(0x0008000000000000u);   /* 2^-1023 */
    volatile double up, down, cut, kept, taken;

    up = one + tie;           /* 1, not rounded upward */
    down = minus - tie;       /* -1, not rounded downward */
    cut = one + above;        /* the next float above 1, not cut off */
    kept = least * half;      /* a subnormal result */
    taken = subnormal * two;  /* a subnormal operand */
    return zg_to_bits(up) == 0x3FF0000000000000u && zg_to_bits(down) == 0xBFF0000000000000u && zg_to_bits(cut) == 0x3FF0000000000001u &&
           zg_to_bits(kept) == 0x0008000000000000u && zg_to_bits(taken) == 0x0010000000000000u;
}

#endif
