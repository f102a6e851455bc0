/* Common to the units: the input in an array, and what is put out of results. */
#ifndef UNIT_H
#define UNIT_H

#include "plug.h"
#include <ctype.h>
#include <errno.h>
#include <stddef.h>
#include <stdint.h>
#include <stdio.h>
#include <stdlib.h>
#include <string.h>

#ifndef IN_MAX
#define IN_MAX 16384
#endif

static unsigned char in[IN_MAX + 8];

/* Reads the input, as much as there is room for; returns how many bytes it has. */
static int read_input(void) {
    int n = 0;
    for (int c; n < IN_MAX && (c = get()) >= 0;) in[n++] = c;
    return n;
}

static inline void put_hex(const unsigned char *bytes, int n) {
    for (int i = 0; i < n; i++) {
        put("0123456789abcdef"[bytes[i] >> 4]);
        put("0123456789abcdef"[bytes[i] & 15]);
    }
    put('\n');
}

static inline void put_word(unsigned long word) {
    unsigned char bytes[4] = {word >> 24, word >> 16, word >> 8, word};
    put_hex(bytes, 4);
}

static inline void put_bytes(const void *bytes, int n) {
    for (int i = 0; i < n; i++) put(((const unsigned char *)bytes)[i]);
}

static inline void put_text(const char *text) {
    while (*text) put(*text++);
}

#endif
