/* The parts of musl's own libm.h that sin, cos and atan name. */
#ifndef LIBM_H
#define LIBM_H
#include <float.h>
#include <stdint.h>

#define FORCE_EVAL(x) ((void)(x))
#define predict_false(x) __builtin_expect(x, 0)
#define GET_HIGH_WORD(high, d)                                                                               \
    do {                                                                                                     \
        union { double f; uint64_t i; } word_ = {d};                                                         \
        (high) = word_.i >> 32;                                                                              \
    } while (0)
#define GET_LOW_WORD(low, d)                                                                                 \
    do {                                                                                                     \
        union { double f; uint64_t i; } word_ = {d};                                                         \
        (low) = (uint32_t)word_.i;                                                                           \
    } while (0)
#ifndef M_PI_4
#define M_PI_4 0.78539816339744830962
#endif

int __rem_pio2_large(double *, double *, int, int, int);
int __rem_pio2(double, double *);
double __sin(double, double, int);
double __cos(double, double);
double scalbn(double, int);
#endif
