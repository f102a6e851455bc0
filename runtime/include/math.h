/* What the library has is exact, or rounded to nearest as IEEE 754 has it; errno and flags are left alone, and what has
   no answer is the quiet NaN. sin, exp, pow, log and their kin are declared alone, for programs that bring them. */
#ifndef GEYSERPAN_MATH_H
#define GEYSERPAN_MATH_H

#ifdef __cplusplus
extern "C" {
#endif

typedef float float_t;
typedef double double_t;

#define HUGE_VAL __builtin_huge_val()
#define HUGE_VALF __builtin_huge_valf()
#define INFINITY __builtin_inff()
#define NAN __builtin_nanf("")

/* Neither errno nor flags tell of an error: this is 0, as of a machine that has none of them. */
#define MATH_ERRNO 1
#define MATH_ERREXCEPT 2
#define math_errhandling 0

#define FP_NAN 0
#define FP_INFINITE 1
#define FP_ZERO 2
#define FP_SUBNORMAL 3
#define FP_NORMAL 4
#define FP_ILOGB0 (-2147483647 - 1)
#define FP_ILOGBNAN (-2147483647 - 1)

#define M_E 2.7182818284590452354
#define M_LOG2E 1.4426950408889634074
#define M_LOG10E 0.43429448190325182765
#define M_LN2 0.69314718055994530942
#define M_LN10 2.30258509299404568402
#define M_PI 3.14159265358979323846
#define M_PI_2 1.57079632679489661923
#define M_PI_4 0.78539816339744830962
#define M_1_PI 0.31830988618379067154
#define M_2_PI 0.63661977236758134308
#define M_2_SQRTPI 1.12837916709551257390
#define M_SQRT2 1.41421356237309504880
#define M_SQRT1_2 0.70710678118654752440

#ifndef __cplusplus
#define fpclassify(x) __builtin_fpclassify(FP_NAN, FP_INFINITE, FP_NORMAL, FP_SUBNORMAL, FP_ZERO, x)
#define isfinite(x) __builtin_isfinite(x)
#define isinf(x) __builtin_isinf_sign(x)
#define isnan(x) __builtin_isnan(x)
#define isnormal(x) __builtin_isnormal(x)
#define signbit(x) __builtin_signbit(x)
#define isgreater(x, y) __builtin_isgreater(x, y)
#define isgreaterequal(x, y) __builtin_isgreaterequal(x, y)
#define isless(x, y) __builtin_isless(x, y)
#define islessequal(x, y) __builtin_islessequal(x, y)
#define islessgreater(x, y) __builtin_islessgreater(x, y)
#define isunordered(x, y) __builtin_isunordered(x, y)
#endif

double fabs(double);
double copysign(double, double);
double sqrt(double);
double floor(double);
double ceil(double);
double trunc(double);
/* Halves away from 0; */
double round(double);
/* halves to even. */
double rint(double);
double nearbyint(double);
long lround(double);
long long llround(double);
long lrint(double);
long long llrint(double);
double fmod(double, double);
double remainder(double, double);
double frexp(double, int *);
double ldexp(double, int);
double scalbn(double, int);
double scalbln(double, long);
double modf(double, double *);
double logb(double);
int ilogb(double);
double nextafter(double, double);
double fmin(double, double);
double fmax(double, double);
double fdim(double, double);
double nan(const char *);

float fabsf(float);
float copysignf(float, float);
float sqrtf(float);
float floorf(float);
float ceilf(float);
float truncf(float);
float roundf(float);
float rintf(float);
float nearbyintf(float);
long lroundf(float);
long long llroundf(float);
long lrintf(float);
long long llrintf(float);
float fmodf(float, float);
float remainderf(float, float);
float frexpf(float, int *);
float ldexpf(float, int);
float scalbnf(float, int);
float scalblnf(float, long);
float modff(float, float *);
float logbf(float);
int ilogbf(float);
float nextafterf(float, float);
float fminf(float, float);
float fmaxf(float, float);
float fdimf(float, float);
float nanf(const char *);

long double fabsl(long double);
long double sqrtl(long double);
long double floorl(long double);
long double ceill(long double);
long double truncl(long double);
long double roundl(long double);
long double rintl(long double);
long double nearbyintl(long double);
long double logbl(long double);
long double fmodl(long double, long double);
long double remainderl(long double, long double);
long double copysignl(long double, long double);
long double nextafterl(long double, long double);
long double fminl(long double, long double);
long double fmaxl(long double, long double);
long double fdiml(long double, long double);
long lroundl(long double);
long long llroundl(long double);
long lrintl(long double);
long long llrintl(long double);
int ilogbl(long double);
long double frexpl(long double, int *);
long double ldexpl(long double, int);
long double scalbnl(long double, int);
long double scalblnl(long double, long);
long double modfl(long double, long double *);
long double nanl(const char *);

/* The library has none of these: a program that calls one names a source that has it. */
#ifndef __cplusplus
double acos(double);
double acosh(double);
double asin(double);
double asinh(double);
double atan(double);
double atanh(double);
double cbrt(double);
double cos(double);
double cosh(double);
double erf(double);
double erfc(double);
double exp(double);
double exp2(double);
double expm1(double);
double lgamma(double);
double log(double);
double log10(double);
double log1p(double);
double log2(double);
double sin(double);
double sinh(double);
double tan(double);
double tanh(double);
double tgamma(double);
double atan2(double, double);
double hypot(double, double);
double pow(double, double);
float acosf(float);
float acoshf(float);
float asinf(float);
float asinhf(float);
float atanf(float);
float atanhf(float);
float cbrtf(float);
float cosf(float);
float coshf(float);
float erff(float);
float erfcf(float);
float expf(float);
float exp2f(float);
float expm1f(float);
float lgammaf(float);
float logf(float);
float log10f(float);
float log1pf(float);
float log2f(float);
float sinf(float);
float sinhf(float);
float tanf(float);
float tanhf(float);
float tgammaf(float);
float atan2f(float, float);
float hypotf(float, float);
float powf(float, float);
#endif

#ifdef __cplusplus
}
#endif

#endif
