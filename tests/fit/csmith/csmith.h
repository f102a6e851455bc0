/* What random programs take from csmith.h, over the three services of plug.h: runtime's, or that of tests/fit/qemu. */
#ifndef CSMITH_H
#define CSMITH_H
#include <float.h>
#include <stdint.h>
#define INT_MAX 2147483647
#define INT_MIN (-INT_MAX - 1)
#define CHAR_BIT 8
#define LONG_MIN (-2147483647L - 1)
#define LONG_MAX 2147483647L
#include "plug.h"
#define STATIC static
#define UNDEFINED(x) (x)
#define LOG_INDEX
#define LOG_EXEC
#define FUNC_NAME(x) (safe_##x)
#define assert(x)
#include "safe_math.h"
#define printf(...) ((void)0)
static uint32_t crc32_context = 0xFFFFFFFFu;
static void crc32_gentab(void) {}
static void platform_main_begin(void) {}
static void transparent_crc(uint64_t v, const char *name, int flag) {
    (void)name;
    (void)flag;
    for (int k = 0; k < 8; k++) {
        crc32_context = crc32_context * 33 ^ (uint32_t)(v >> (8 * k) & 255);
        crc32_context ^= crc32_context >> 15;
    }
}
static void platform_main_end(uint32_t x, int flag) {
    (void)flag;
    for (int k = 28; k >= 0; k -= 4) put("0123456789abcdef"[x >> k & 15]);
    put('\n');
}
#endif
