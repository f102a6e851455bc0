/* What a compiler calls unasked: it copies and clears structures by memcpy and memset, and computes with 64 bits by
   functions of these names. Of the program's own calls plug.h has the bodies. */
typedef __SIZE_TYPE__ size_t;
typedef unsigned long long u64;
typedef long long s64;
typedef unsigned int u32;

int __clzsi2(u32 x);

void *memcpy(void *to, const void *from, size_t n) {
    for (size_t i = 0; i < n; i++) ((char *)to)[i] = ((const char *)from)[i];
    return to;
}

void *memmove(void *to, const void *from, size_t n) {
    if (to < from) {
        for (size_t i = 0; i < n; i++) ((char *)to)[i] = ((const char *)from)[i];
    } else {
        while (n-- > 0) ((char *)to)[n] = ((const char *)from)[n];
    }
    return to;
}

void *memset(void *to, int c, size_t n) {
    for (size_t i = 0; i < n; i++) ((char *)to)[i] = (char)c;
    return to;
}

int memcmp(const void *a, const void *b, size_t n) {
    for (size_t i = 0; i < n; i++) {
        int less = ((const unsigned char *)a)[i] - ((const unsigned char *)b)[i];
        if (less) return less;
    }
    return 0;
}

static u32 high(u64 x) { return (u32)(x >> 32); }
static u32 low(u64 x) { return (u32)x; }
static u64 joined(u32 high, u32 low) { return (u64)high << 32 | low; }

u64 __ashldi3(u64 x, int n) {
    if (n & 32) return joined(low(x) << (n & 31), 0);
    return n ? joined(high(x) << n | low(x) >> (32 - n), low(x) << n) : x;
}

u64 __lshrdi3(u64 x, int n) {
    if (n & 32) return high(x) >> (n & 31);
    return n ? joined(high(x) >> n, low(x) >> n | high(x) << (32 - n)) : x;
}

s64 __ashrdi3(s64 x, int n) {
    int top = (int)high((u64)x);
    if (n & 32) return (s64)joined((u32)(top >> 31), (u32)(top >> (n & 31)));
    return n ? (s64)joined((u32)(top >> n), low((u64)x) >> n | (u32)top << (32 - n)) : x;
}

static u64 product(u32 a, u64 b) { return (u64)a * low(b) + joined(a * high(b), 0); }

u64 __muldi3(u64 a, u64 b) { return product(low(a), b) + joined(high(a) * low(b), 0); }

/* The quotient of two words by one that is above the upper of them, so that it is a word. */
static u32 quotient_of(u32 upper, u32 lower, u32 by) {
#ifdef __sparc__
    u32 quotient;
    __asm__("wr %1, 0, %%y\n\tnop\n\tnop\n\tnop\n\tudiv %2, %3, %0"
            : "=r"(quotient) : "r"(upper), "r"(lower), "r"(by));
    return quotient;
#else
    return (u32)(joined(upper, lower) / by);
#endif
}

/* By two words: the quotient of the 32 bits that a divisor begins with is too great by 1 at the most, so that it is
   taken one less, and one more where what is left is too much (H. S. Warren, Hacker's Delight, 9-5). */
static u32 divided_by_two(u64 n, u64 by) {
    int shift = __clzsi2(high(by));
    u32 begin = high(by) << shift | low(by) >> 1 >> (31 - shift);
    u32 quotient = quotient_of(high(n >> 1), low(n >> 1), begin) >> (31 - shift);
    if (quotient) quotient--;
    return quotient + (n - product(quotient, by) >= by);
}

static u64 divided(u64 n, u64 by) {
    if (high(by)) return divided_by_two(n, by);
    u32 upper = high(n), first = 0;
    if (upper >= low(by)) {
        first = upper / low(by);
        upper -= first * low(by);
    }
    return joined(first, quotient_of(upper, low(n), low(by)));
}

static u64 left_of(u64 n, u64 by) {
    u64 quotient = divided(n, by);
    return high(by) ? n - product(low(quotient), by) : low(n) - low(quotient) * low(by);
}

static u64 magnitude(s64 x) { return x < 0 ? -(u64)x : (u64)x; }

u64 __udivdi3(u64 n, u64 by) { return divided(n, by); }
u64 __umoddi3(u64 n, u64 by) { return left_of(n, by); }

s64 __divdi3(s64 n, s64 by) {
    u64 quotient = divided(magnitude(n), magnitude(by));
    return (s64)((n < 0) != (by < 0) ? -quotient : quotient);
}

s64 __moddi3(s64 n, s64 by) {
    u64 rest = left_of(magnitude(n), magnitude(by));
    return (s64)(n < 0 ? -rest : rest);
}

/* 0, 1 or 2: less, equal, greater. */
int __cmpdi2(s64 a, s64 b) { return a < b ? 0 : a == b ? 1 : 2; }
int __ucmpdi2(u64 a, u64 b) { return a < b ? 0 : a == b ? 1 : 2; }

/* (by halves, and not in a loop, which would take from the meter of all that divide or round) */
int __clzsi2(u32 x) {
    int n = 0;
    if (x >> 16 == 0) n += 16, x <<= 16;
    if (x >> 24 == 0) n += 8, x <<= 8;
    if (x >> 28 == 0) n += 4, x <<= 4;
    if (x >> 30 == 0) n += 2, x <<= 2;
    return n + (x >> 31 == 0);
}

int __ctzsi2(u32 x) { return 31 - __clzsi2(x & -x); }

int __ffssi2(u32 x) { return x ? __ctzsi2(x) + 1 : 0; }

int __popcountsi2(u32 x) {
    x -= x >> 1 & 0x55555555;
    x = (x & 0x33333333) + (x >> 2 & 0x33333333);
    x = (x + (x >> 4)) & 0x0F0F0F0F;
    return (int)(x * 0x01010101 >> 24);
}

int __paritysi2(u32 x) { return __popcountsi2(x) & 1; }

u32 __bswapsi2(u32 x) { return x << 24 | (x & 0xFF00) << 8 | (x >> 8 & 0xFF00) | x >> 24; }
