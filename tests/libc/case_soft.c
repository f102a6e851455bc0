/* The floating point runtime beside the machine's unit. */
#include "beside.h"

#ifndef OURS
#include <math.h>
#endif

static void operate(double a, double b) {
    SAME(bits(gp___adddf3(a, b)), bits(a + b));
    SAME(bits(gp___subdf3(a, b)), bits(a - b));
    SAME(bits(gp___muldf3(a, b)), bits(a * b));
    SAME(bits(gp___divdf3(a, b)), bits(a / b));
    SAME(bits(gp___negdf2(a)), bits(-a));
    SAME(gp___eqdf2(a, b) == 0, a == b);
    SAME(gp___nedf2(a, b) != 0, a != b);
    SAME(gp___ltdf2(a, b) < 0, a < b);
    SAME(gp___ledf2(a, b) <= 0, a <= b);
    SAME(gp___gtdf2(a, b) > 0, a > b);
    SAME(gp___gedf2(a, b) >= 0, a >= b);
    SAME(gp___unorddf2(a, b) != 0, __builtin_isunordered(a, b));
}

static void operate_float(float a, float b) {
    SAME(float_bits(gp___addsf3(a, b)), float_bits(a + b));
    SAME(float_bits(gp___subsf3(a, b)), float_bits(a - b));
    SAME(float_bits(gp___mulsf3(a, b)), float_bits(a * b));
    SAME(float_bits(gp___divsf3(a, b)), float_bits(a / b));
    SAME(float_bits(gp___negsf2(a)), float_bits(-a));
    SAME(gp___eqsf2(a, b) == 0, a == b);
    SAME(gp___nesf2(a, b) != 0, a != b);
    SAME(gp___ltsf2(a, b) < 0, a < b);
    SAME(gp___lesf2(a, b) <= 0, a <= b);
    SAME(gp___gtsf2(a, b) > 0, a > b);
    SAME(gp___gesf2(a, b) >= 0, a >= b);
    SAME(gp___unordsf2(a, b) != 0, __builtin_isunordered(a, b));
}

static void convert(double a) {
    SAME(bits(gp_sqrt(a)), bits(sqrt(a)));
    SAME(float_bits(gp___truncdfsf2(a)), float_bits((float)a));
    if (a > -2147483649.0 && a < 2147483648.0) SAME(gp___fixdfsi(a), (int)a);
    if (a > -1.0 && a < 4294967296.0) SAME(gp___fixunsdfsi(a), (unsigned)a);
    if (a >= -9223372036854775808.0 && a < 9223372036854775808.0) SAME(gp___fixdfdi(a), (long long)a);
    if (a > -1.0 && a < 18446744073709551616.0) SAME(gp___fixunsdfdi(a), (unsigned long long)a);
}

static void convert_float(float a) {
    SAME(float_bits(gp_sqrtf(a)), float_bits(sqrtf(a)));
    SAME(bits(gp___extendsfdf2(a)), bits((double)a));
    if (a >= -2147483648.0F && a < 2147483648.0F) SAME(gp___fixsfsi(a), (int)a);
    if (a > -1.0F && a < 4294967296.0F) SAME(gp___fixunssfsi(a), (unsigned)a);
    if (a >= -9223372036854775808.0F && a < 9223372036854775808.0F) SAME(gp___fixsfdi(a), (long long)a);
    if (a > -1.0F && a < 18446744073709551616.0F) SAME(gp___fixunssfdi(a), (unsigned long long)a);
}

static void from_whole(uint64_t number) {
    SAME(bits(gp___floatsidf((int)number)), bits((double)(int)number));
    SAME(bits(gp___floatunsidf((unsigned)number)), bits((double)(unsigned)number));
    SAME(bits(gp___floatdidf((long long)number)), bits((double)(long long)number));
    SAME(bits(gp___floatundidf(number)), bits((double)number));
    SAME(float_bits(gp___floatsisf((int)number)), float_bits((float)(int)number));
    SAME(float_bits(gp___floatunsisf((unsigned)number)), float_bits((float)(unsigned)number));
    SAME(float_bits(gp___floatdisf((long long)number)), float_bits((float)(long long)number));
    SAME(float_bits(gp___floatundisf(number)), float_bits((float)number));
}

/* A neighbour of a number, so that much is cancelled. */
static double near(double a) {
    union {
        double number;
        uint64_t bits;
    } both = {a};
    both.bits += below(9) - 4;
    if (below(2)) both.bits ^= 1ULL << 63;
    return both.number;
}

static void operations(void) {
    double a = random_double();
    operate(a, below(8) ? random_double() : near(a));
}

static void float_operations(void) {
    float a = random_float(), b = random_float();
    operate_float(a, b);
}
static void conversions(void) { convert(random_double()); }
static void float_conversions(void) { convert_float(random_float()); }

/* The squares of doubles with few bits, and their neighbours: where a root is nearly exact, or nearly in the
   middle. */
static void roots(void) {
    double a = (double)(some_bits(30) >> 11), square = a * a;
    SAME(bits(gp_sqrt(square)), bits(sqrt(square)));
    square = near(square);
    SAME(bits(gp_sqrt(square)), bits(sqrt(square)));
}

/* Quotients whose digits are near the ends, and exact ones. */
static void quotients(void) {
    double a = (double)(some_bits(42) >> 11), b = (double)(some_bits(42) >> 11 | 1);
    SAME(bits(gp___divdf3(a, b)), bits(a / b));
    SAME(bits(gp___divdf3(a * b, b)), bits(a * b / b));
    double product = near(a * b);
    SAME(bits(gp___divdf3(product, b)), bits(product / b));
}

static void whole_numbers(void) {
    uint64_t number = some_bits(63);
    if (below(2)) number = -number;
    if (below(4) == 0) {
        number = (uint64_t)below(3) << 20;
        number <<= below(40);
        number += 1ULL << below(64);
        number += (uint64_t)below(5) - 2;
    }
    from_whole(number);
}

static void pairs(void) {
    double a = edge((unsigned)(case_number / EDGES)), b = edge((unsigned)(case_number % EDGES));
    operate(a, b);
    operate_float((float)a, (float)b);
    convert(a);
    convert_float((float)a);
}

static void powers(void) {
    double a = random_double(), power = 1, base = a;
    int exponent = (int)below(60) - 30;
    unsigned left = exponent < 0 ? (unsigned)-exponent : (unsigned)exponent;
    for (power = left & 1 ? base : 1; left >>= 1;) {
        base *= base;
        if (left & 1) power *= base;
    }
    SAME(bits(gp___powidf2(a, exponent)), bits(exponent < 0 ? 1 / power : power));
}

const struct test soft_tests[] = {
    {"double operations", operations, CASES * 20L},
    {"float operations", float_operations, CASES * 20L},
    {"double conversions, sqrt", conversions, CASES * 20L},
    {"float conversions, sqrtf", float_conversions, CASES * 20L},
    {"whole to double, float", whole_numbers, CASES * 20L},
    {"roots nearly exact", roots, CASES * 10L},
    {"quotients nearly exact", quotients, CASES * 10L},
    {"edges, by pairs", pairs, EDGES * EDGES},
    {"powers", powers, CASES},
    {NULL, NULL, 0},
};
