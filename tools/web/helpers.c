/* What compiled code calls by name and the kit's linker brings for its own targets: comparing, and 128-bit
   multiplication and division. */
typedef __SIZE_TYPE__ size_t;
typedef unsigned __int128 u128;
typedef __UINT64_TYPE__ u64;

int memcmp(const void *one, const void *other, size_t length)
{
    const unsigned char *a = one, *b = other;
    for (size_t i = 0; i < length; i++)
        if (a[i] != b[i])
            return a[i] < b[i] ? -1 : 1;
    return 0;
}

int bcmp(const void *one, const void *other, size_t length)
{
    return memcmp(one, other, length);
}

static u128 joined(u64 high, u64 low)
{
    return (u128)high << 64 | low;
}

u128 __multi3(u128 a, u128 b)
{
    const u64 half = 0xFFFFFFFF;
    u64 a_low = a, a_high = a >> 64, b_low = b, b_high = b >> 64;
    u64 a0 = a_low & half, a1 = a_low >> 32, b0 = b_low & half, b1 = b_low >> 32;
    u64 first = a0 * b0;
    u64 second = a1 * b0 + (first >> 32);
    u64 third = a0 * b1 + (second & half);
    u64 high = a1 * b1 + (second >> 32) + (third >> 32) + a_low * b_high + a_high * b_low;
    return joined(high, third << 32 | (first & half));
}

/* Bit by bit: the divisor is taken off wherever what is left is as great. */
u128 __udivti3(u128 a, u128 b)
{
    u64 high = a >> 64, low = a, quotient_high = 0, quotient_low = 0;
    if (high == 0 && b >> 64 == 0)
        return low / (u64)b;
    u128 rest = 0;
    for (int bit = 0; bit < 128; bit++) {
        rest = rest << 1 | high >> 63;
        high = high << 1 | low >> 63;
        low <<= 1;
        quotient_high = quotient_high << 1 | quotient_low >> 63;
        quotient_low <<= 1;
        if (rest >= b) {
            rest -= b;
            quotient_low |= 1;
        }
    }
    return joined(quotient_high, quotient_low);
}
