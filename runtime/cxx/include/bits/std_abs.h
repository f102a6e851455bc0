/* std::abs of each type that has a sign. */
#ifndef GEYSERPAN_STD_ABS_H
#define GEYSERPAN_STD_ABS_H

#include <stdlib.h>

namespace std {
using ::abs;
inline long abs(long x) { return x < 0 ? -x : x; }
inline long long abs(long long x) { return x < 0 ? -x : x; }
inline float abs(float x) { return __builtin_fabsf(x); }
inline double abs(double x) { return __builtin_fabs(x); }
inline long double abs(long double x) { return __builtin_fabsl(x); }
} // namespace std

#endif
