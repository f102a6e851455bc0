/* stdlib.h's numbers, and what a compiler calls for whole numbers. */
#include "beside.h"

#ifndef OURS
#include <errno.h>
#include <stdlib.h>
#include <string.h>
#endif

/* A number's text: blanks, a sign, 0x, digits of some base, and something behind; near the ends of the types now and
   then. */
static char *number_text(int base) {
    static const char blanks[] = " \t\n\v\f\r", *const ends[] = {"2147483647",
                                                                 "2147483648",
                                                                 "2147483649",
                                                                 "4294967295",
                                                                 "4294967296",
                                                                 "9223372036854775807",
                                                                 "9223372036854775808",
                                                                 "9223372036854775809",
                                                                 "18446744073709551615",
                                                                 "18446744073709551616",
                                                                 "7fffffff",
                                                                 "80000000",
                                                                 "ffffffff",
                                                                 "100000000",
                                                                 "7fffffffffffffff",
                                                                 "8000000000000000",
                                                                 "ffffffffffffffff",
                                                                 "10000000000000000"};
    char *text = fresh(64);
    int size = 0, digits = (int)below(below(3) ? 12 : 26), span = base ? base : 16;
    while (below(4) == 0 && size < 6) text[size++] = blanks[below(6)];
    if (below(3) == 0) text[size++] = "+-"[below(2)];
    if (below(4) == 0) text[size++] = '0';
    if (below(6) == 0) text[size++] = "xX"[below(2)];
    if (below(4) == 0) {
        for (const char *end = ends[below(18)]; *end; end++) text[size++] = *end;
    } else {
        for (int i = 0; i < digits; i++) {
            unsigned digit = below((unsigned)span);
            text[size++] = (char)(digit < 10 ? '0' + digit : (below(2) ? 'a' : 'A') + digit - 10);
        }
    }
    if (below(4) == 0) text[size++] = (char)(1 + below(255));
    text[size] = 0;
    return text;
}

#ifndef OURS
/* What strtol and strtoul give where long has 32 bits. */
static long long held(long long number, long long least, long long most) {
    if (number >= least && number <= most) return number;
    errno = ERANGE;
    return number < least ? least : most;
}

static unsigned long long unsigned_32(const char *text, char **end, int base) {
    unsigned long long number = strtoull(text, end, base),
                       magnitude = *end && memchr(text, '-', (size_t)(*end - text)) ? -number : number;
    if (errno == ERANGE || magnitude > 0xFFFFFFFF) {
        errno = ERANGE;
        return 0xFFFFFFFF;
    }
    return number & 0xFFFFFFFF;
}
#endif

static void text_to_number(void) {
    static const int bases[] = {0, 2, 8, 10, 16, 36, 7, 1, -1, 37};
    int base = bases[below(below(10) ? 7 : 10)];
    int is_base = base == 0 || (base > 1 && base < 37);
    char *text = number_text(is_base ? base : 10), *ours = NULL, *theirs = NULL;
#ifndef OURS
    int is_long_64 = sizeof(long) == 8 && sizeof(int) == 4;
#ifdef THEIRS
    is_long_64 = 0;
#endif
#endif
    BOTH(gp_errno = 0, errno = 0);
    SAME(gp_strtoll(text, &ours, base), strtoll(text, &theirs, base));
    SAME(gp_errno, errno);
    if (is_base) SAME(ours - text, theirs - text);
    BOTH(gp_errno = 0, errno = 0);
    SAME(gp_strtoull(text, &ours, base), strtoull(text, &theirs, base));
    SAME(gp_errno, errno);
    if (is_base) SAME(ours - text, theirs - text);
    BOTH(gp_errno = 0, errno = 0);
    SAME((long long)gp_strtol(text, &ours, base),
         is_long_64 ? strtol(text, &theirs, base) : held(strtoll(text, &theirs, base), -2147483648LL, 2147483647LL));
    SAME(gp_errno, errno);
    BOTH(gp_errno = 0, errno = 0);
    SAME((unsigned long long)gp_strtoul(text, &ours, base),
         is_long_64 ? strtoul(text, &theirs, base) : unsigned_32(text, &theirs, base));
    SAME(gp_errno, errno);
    if (is_base) SAME(ours - text, theirs - text);
    SAME(gp_atoll(text), atoll(text));
    (void)ours, (void)theirs;
}

static void small_text(void) {
    char *text = number_text(10);
    long long number = gp_strtoll(text, NULL, 10);
    if (number != (int)number) return;
    SAME(gp_atoi(text), atoi(text));
    SAME((long long)gp_atol(text), (long long)atol(text));
}

static void magnitudes(void) {
    int number = (int)random_bits() | 1;
    long long wide = (long long)(some_bits(63)) | 1;
    SAME(gp_abs(number), abs(number));
    SAME((long long)gp_labs(number), (long long)labs(number));
    SAME(gp_llabs(wide), llabs(wide));
}

/* The standard's example, C11 7.22.2. */
static unsigned long next = 1;
static int standard_rand(void) {
    next = (next * 1103515245 + 12345) & 0xFFFFFFFF;
    return (int)((unsigned)(next / 65536) % 32768);
}

static void random_numbers(void) {
    if (case_number % 100 == 0) {
        unsigned seed = (unsigned)random_bits();
        gp_srand(seed);
        next = seed;
    }
    SAME(gp_rand(), standard_rand());
    SAME(gp_getenv("PATH") == NULL, 1);
}

static void shifts(void) {
    uint64_t number = random_bits();
    int by = (int)below(64);
    SAME(gp___ashldi3(number, by), number << by);
    SAME(gp___lshrdi3(number, by), number >> by);
    SAME(gp___ashrdi3((long long)number, by), (long long)number >> by);
    SAME(gp___bswapdi2(number), __builtin_bswap64(number));
    SAME(gp___bswapsi2((unsigned)number), __builtin_bswap32((unsigned)number));
}

static void counts(void) {
    uint64_t number = some_bits(63);
    number <<= below(64);
    unsigned word = (unsigned)(some_bits(63) >> 32);
    word <<= below(32);
    SAME(gp___ffsdi2(number), __builtin_ffsll((long long)number));
    SAME(gp___ffssi2(word), __builtin_ffs((int)word));
    SAME(gp___popcountdi2(number), __builtin_popcountll(number));
    SAME(gp___popcountsi2(word), __builtin_popcount(word));
    SAME(gp___paritydi2(number), __builtin_parityll(number));
    SAME(gp___paritysi2(word), __builtin_parity(word));
    SAME(gp___clrsbdi2((long long)number), __builtin_clrsbll((long long)number));
    SAME(gp___clrsbsi2((int)word), __builtin_clrsb((int)word));
    if (number == 0 || word == 0) return;
    SAME(gp___clzdi2(number), __builtin_clzll(number));
    SAME(gp___ctzdi2(number), __builtin_ctzll(number));
    SAME(gp___clzsi2(word), __builtin_clz(word));
    SAME(gp___ctzsi2(word), __builtin_ctz(word));
}

static void arithmetic(void) {
    uint64_t a = some_bits(63), b = some_bits(63);
    if (below(4) == 0) a = -a;
    if (below(4) == 0) b = -b;
    if (below(4) == 0) a = a * b + below(3) - 1; /* (beside a multiple, where a quotient is off by one first) */
    SAME(gp___muldi3(a, b), a * b);
    SAME(gp___negdi2((long long)a), (long long)-a);
    SAME(gp___cmpdi2((long long)a, (long long)b), (long long)a < (long long)b ? 0 : a == b ? 1 : 2);
    SAME(gp___ucmpdi2(a, b), a < b ? 0 : a == b ? 1 : 2);
    if (b == 0 || (a == 1ULL << 63 && b == -1ULL)) return;
    SAME(gp___udivdi3(a, b), a / b);
    SAME(gp___umoddi3(a, b), a % b);
    SAME(gp___divdi3((long long)a, (long long)b), (long long)a / (long long)b);
    SAME(gp___moddi3((long long)a, (long long)b), (long long)a % (long long)b);
}

const struct test number_tests[] = {
    {"strtol,strtoull..", text_to_number, CASES},
    {"atoi,atol", small_text, CASES},
    {"abs,labs,llabs", magnitudes, CASES},
    {"rand", random_numbers, CASES},
    {"64-bit shifts", shifts, CASES},
    {"bits' counts", counts, CASES},
    {"64-bit arithmetic", arithmetic, CASES},
    {NULL, NULL, 0},
};
