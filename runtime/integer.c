/* What a compiler calls for bits of whole numbers where the machine has no instruction, beside what plug.c has:
   counts and reversals of 64 bits, and sign bits. As with a compiler's own, the counts of 0 are left open where C's
   builtins leave them open. */
typedef unsigned long long u64;
typedef long long s64;
typedef unsigned int u32;

int __clzsi2(u32 x);
int __ctzsi2(u32 x);
int __popcountsi2(u32 x);

static u32 high(u64 x) { return (u32)(x >> 32); }
static u32 low(u64 x) { return (u32)x; }

static u32 swapped(u32 x) { return x << 24 | (x & 0xFF00) << 8 | (x >> 8 & 0xFF00) | x >> 24; }

u64 __bswapdi2(u64 x) { return (u64)swapped(low(x)) << 32 | swapped(high(x)); }

int __clzdi2(u64 x) { return high(x) ? __clzsi2(high(x)) : 32 + __clzsi2(low(x)); }
int __ctzdi2(u64 x) { return low(x) ? __ctzsi2(low(x)) : 32 + __ctzsi2(high(x)); }
int __ffsdi2(u64 x) { return x ? __ctzdi2(x) + 1 : 0; }
int __popcountdi2(u64 x) { return __popcountsi2(high(x)) + __popcountsi2(low(x)); }
int __paritydi2(u64 x) { return __popcountsi2(high(x) ^ low(x)) & 1; }

/* The bits below the highest that are like it. */
int __clrsbsi2(int x) {
    u32 unlike = (u32)(x ^ x >> 31);
    return unlike ? __clzsi2(unlike) - 1 : 31;
}

int __clrsbdi2(s64 x) {
    u64 unlike = (u64)(x ^ x >> 63);
    return unlike ? __clzdi2(unlike) - 1 : 63;
}

s64 __negdi2(s64 x) { return (s64) - (u64)x; }
