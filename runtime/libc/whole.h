/* The nearest whole numbers in each direction, by a double's bits. */
#ifndef GEYSERPAN_WHOLE_NUMBER_H
#define GEYSERPAN_WHOLE_NUMBER_H

#include "../soft/soft.h"

#define ONE 0x3FF0000000000000ULL

/* The bits behind the point; of a number below 1 that is all, and from 2^52 on there is none. */
static inline u64 behind_point(u64 bits) {
    int exponent = exponent_of(bits) - 1023;
    return exponent >= 52 ? 0 : (HIDDEN - 1) >> exponent;
}

/* Towards 0, or away from it. */
static inline u64 cut_off(u64 bits, int away) {
    if (exponent_of(bits) < 1023) return sign_of(bits) | (away && magnitude_of(bits) ? ONE : 0);
    u64 behind = behind_point(bits);
    if (away && bits & behind) bits += behind; /* (a carry goes into the exponent, and is right there) */
    return bits & ~behind;
}

#endif
