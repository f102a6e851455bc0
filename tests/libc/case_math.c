/* math.h. */
#include "beside.h"

#ifndef OURS
#include <math.h>
#endif

static double to_whole(int which, double x) {
#ifndef OURS
    switch (which) {
    case 0: return floor(x);
    case 1: return ceil(x);
    case 2: return trunc(x);
    case 3: return round(x);
    case 4: return rint(x);
    default: return nearbyint(x);
    }
#else
    return which + x;
#endif
}

static void directions(double x) {
    SAME(bits(gp_floor(x)), bits(to_whole(0, x)));
    SAME(bits(gp_ceil(x)), bits(to_whole(1, x)));
    SAME(bits(gp_trunc(x)), bits(to_whole(2, x)));
    SAME(bits(gp_round(x)), bits(to_whole(3, x)));
    SAME(bits(gp_rint(x)), bits(to_whole(4, x)));
    SAME(bits(gp_nearbyint(x)), bits(to_whole(5, x)));
    if (x > -9e18 && x < 9e18) SAME(gp_llround(x), llround(x));
    if (x > -9e18 && x < 9e18) SAME(gp_llrint(x), llrint(x));
}

static void float_directions(float x) {
    SAME(float_bits(gp_floorf(x)), float_bits(floorf(x)));
    SAME(float_bits(gp_ceilf(x)), float_bits(ceilf(x)));
    SAME(float_bits(gp_truncf(x)), float_bits(truncf(x)));
    SAME(float_bits(gp_roundf(x)), float_bits(roundf(x)));
    SAME(float_bits(gp_rintf(x)), float_bits(rintf(x)));
}

static void parts(double x, int by) {
    double our_part = 0, their_part = 0;
    int ours = 0, theirs = 0;
    SAME(bits(gp_fabs(x)), bits(fabs(x)));
    SAME(bits(gp_frexp(x, &ours)), bits(frexp(x, &theirs)));
    SAME(ours, theirs);
    SAME(bits(gp_modf(x, &our_part)), bits(modf(x, &their_part)));
    SAME(bits(our_part), bits(their_part));
    SAME(bits(gp_ldexp(x, by)), bits(ldexp(x, by)));
    SAME(bits(gp_scalbn(x, by)), bits(scalbn(x, by)));
    SAME(bits(gp_logb(x)), bits(logb(x)));
    SAME(gp_ilogb(x), ilogb(x));
    (void)theirs, (void)their_part;
}

static void float_parts(float x, int by) {
    float our_part = 0, their_part = 0;
    int ours = 0, theirs = 0;
    SAME(float_bits(gp_fabsf(x)), float_bits(fabsf(x)));
    SAME(float_bits(gp_frexpf(x, &ours)), float_bits(frexpf(x, &theirs)));
    SAME(ours, theirs);
    SAME(float_bits(gp_modff(x, &our_part)), float_bits(modff(x, &their_part)));
    SAME(float_bits(our_part), float_bits(their_part));
    SAME(float_bits(gp_ldexpf(x, by)), float_bits(ldexpf(x, by)));
    SAME(float_bits(gp_logbf(x)), float_bits(logbf(x)));
    (void)theirs, (void)their_part;
}

/* (either zero is the lesser one) */
static int are_zeros(double x, double y) { return x == 0 && y == 0; }

static void of_two(double x, double y) {
    SAME(bits(gp_copysign(x, y)), bits(copysign(x, y)));
    SAME(bits(gp_fmod(x, y)), bits(fmod(x, y)));
    /* (the other library's own remainder takes the wrong one of two for some subnormal numbers; the machine's is
       right) */
    SAME(bits(gp_remainder(x, y)), bits((double)remainderl(x, y)));
    SAME(bits(gp_nextafter(x, y)), bits(nextafter(x, y)));
    SAME(bits(gp_fdim(x, y)), bits(fdim(x, y)));
    if (are_zeros(x, y)) return;
    SAME(bits(gp_fmin(x, y)), bits(fmin(x, y)));
    SAME(bits(gp_fmax(x, y)), bits(fmax(x, y)));
}

static void floats_of_two(float x, float y) {
    SAME(float_bits(gp_copysignf(x, y)), float_bits(copysignf(x, y)));
    SAME(float_bits(gp_fmodf(x, y)), float_bits(fmodf(x, y)));
    SAME(float_bits(gp_remainderf(x, y)), float_bits((float)remainderl(x, y)));
    SAME(float_bits(gp_nextafterf(x, y)), float_bits(nextafterf(x, y)));
    SAME(float_bits(gp_fdimf(x, y)), float_bits(fdimf(x, y)));
    if (are_zeros(x, y)) return;
    SAME(float_bits(gp_fminf(x, y)), float_bits(fminf(x, y)));
    SAME(float_bits(gp_fmaxf(x, y)), float_bits(fmaxf(x, y)));
}

static int class_of(int which, double x) {
#ifndef OURS
    switch (which) {
    case 0: return isnan(x) != 0;
    case 1: return isinf(x) ? x < 0 ? -1 : 1 : 0;
    case 2: return isfinite(x) != 0;
    case 3: return isnormal(x) != 0;
    case 4: return signbit(x) != 0;
    default: return isnan(x) ? 0 : isinf(x) ? 1 : x == 0 ? 2 : isnormal(x) ? 4 : 3;
    }
#else
    return which + (x > 0);
#endif
}

static int order_of(int which, double x, double y) {
    const int orders[] = {x > y, x >= y, x < y, x <= y, x < y || x > y, x != x || y != y};
    return orders[which];
}

static void classes(double x, double y) {
    for (int which = 0; which < 6; which++) SAME(gp_wrapped_class(which, x), class_of(which, x));
    for (int which = 0; which < 6; which++) SAME(gp_wrapped_order(which, x, y), order_of(which, x, y));
}

/* Signaling ones become quiet on their way, or not: left out. */
static double quiet(double x) { return x != x ? __builtin_nan("") : x; }
static float quiet_float(float x) { return x != x ? __builtin_nanf("") : x; }

static int some_power(void) { return below(8) ? (int)below(200) - 100 : (int)(random_bits() & 8191) - 4096; }

static void all_directions(void) {
    directions(quiet(random_double()));
    float_directions(quiet_float(random_float()));
}

static void all_parts(void) {
    int by = some_power();
    parts(quiet(random_double()), by);
    float_parts(quiet_float(random_float()), by);
}

static void all_of_two(void) {
    double x = quiet(random_double()), y = quiet(random_double());
    of_two(x, y);
    float one = quiet_float(random_float()), other = quiet_float(random_float());
    floats_of_two(one, other);
    classes(x, y);
}

static void pairs(void) {
    double x = quiet(edge((unsigned)(case_number / EDGES))), y = quiet(edge((unsigned)(case_number % EDGES)));
    directions(x), float_directions((float)x);
    parts(x, some_power()), float_parts((float)x, some_power());
    of_two(x, y), floats_of_two((float)x, (float)y);
    classes(x, y);
}

const struct test math_tests[] = {
    {"floor,round,rint..", all_directions, CASES * 5L},
    {"frexp,ldexp,modf..", all_parts, CASES * 5L},
    {"fmod,fmin,nextafter..", all_of_two, CASES},
    {"math.h of edges", pairs, EDGES * EDGES},
    {NULL, NULL, 0},
};
