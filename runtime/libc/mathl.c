/* math.h for long doubles, which are doubles. */
#include <math.h>

long double fabsl(long double x) { return fabs((double)x); }
long double sqrtl(long double x) { return sqrt((double)x); }
long double floorl(long double x) { return floor((double)x); }
long double ceill(long double x) { return ceil((double)x); }
long double truncl(long double x) { return trunc((double)x); }
long double roundl(long double x) { return round((double)x); }
long double rintl(long double x) { return rint((double)x); }
long double nearbyintl(long double x) { return nearbyint((double)x); }
long double logbl(long double x) { return logb((double)x); }
long double fmodl(long double x, long double y) { return fmod((double)x, (double)y); }
long double remainderl(long double x, long double y) { return remainder((double)x, (double)y); }
long double copysignl(long double x, long double y) { return copysign((double)x, (double)y); }
long double nextafterl(long double x, long double to) { return nextafter((double)x, (double)to); }
long double fminl(long double x, long double y) { return fmin((double)x, (double)y); }
long double fmaxl(long double x, long double y) { return fmax((double)x, (double)y); }
long double fdiml(long double x, long double y) { return fdim((double)x, (double)y); }
long lroundl(long double x) { return lround((double)x); }
long long llroundl(long double x) { return llround((double)x); }
long lrintl(long double x) { return lrint((double)x); }
long long llrintl(long double x) { return llrint((double)x); }
int ilogbl(long double x) { return ilogb((double)x); }
long double frexpl(long double x, int *exponent) { return frexp((double)x, exponent); }
long double ldexpl(long double x, int by) { return scalbn((double)x, by); }
long double scalbnl(long double x, int by) { return scalbn((double)x, by); }
long double scalblnl(long double x, long by) { return scalbln((double)x, by); }
long double nanl(const char *text) { return nan(text); }

long double modfl(long double x, long double *whole) {
    double part, rest = modf((double)x, &part);
    *whole = part;
    return rest;
}
