/* Services that cost about what they do in an image, for counting instructions: a store in the place of a trap. */
#ifndef PLUG_H
#define PLUG_H

extern volatile unsigned char counted_byte;

static inline int get(void) { return counted_byte; }
static inline void put(int c) { counted_byte = (unsigned char)c; }

static inline void quit(int word) {
    register long status __asm__("o0") = word != 0, number __asm__("g1") = 1;
    __asm__ volatile("ta 0x10" : : "r"(number), "r"(status));
    __builtin_unreachable();
}

#endif
