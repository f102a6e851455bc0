/* XXH32, XXH64, XXH3 of 64 and 128 bits (xxHash). */
#include "unit.h"
#define XXH_INLINE_ALL
#include "xxhash.h"
static void put_long(unsigned long long x) {
    put_word(x >> 32);
    put_word(x);
}
int main(void) {
    int n = read_input();
    put_word(XXH32(in, n, 7));
    put_long(XXH64(in, n, 7));
    put_long(XXH3_64bits(in, n));
    XXH128_hash_t h = XXH3_128bits_withSeed(in, n, 0x123456789abcdefULL);
    put_long(h.high64);
    put_long(h.low64);
    XXH64_state_t s;
    XXH64_reset(&s, 1);
    for (int i = 0; i < n; i += 37) XXH64_update(&s, in + i, n - i < 37 ? n - i : 37);
    put_long(XXH64_digest(&s));
    return 0;
}
