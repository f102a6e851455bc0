/* What a program sees of its host: three services, and a little of string.h. Compiled with -DNATIVE it runs under
   an ordinary system: get, put and quit are stdio's and stdlib's then. */
#ifndef PLUG_H
#define PLUG_H

#ifdef NATIVE

#include <stdio.h>
#include <stdlib.h>
#include <string.h>

static inline int get(void) { return getchar(); }
static inline void put(int c) { putchar(c & 255); }
static inline void quit(int word) { exit(word != 0); }

#else

typedef __SIZE_TYPE__ size_t;
#undef NULL
#define NULL 0
/* The next byte of the input, 0 to 255; -1 at its end, and from then on. */
static inline int get(void) {
    register int c __asm__("o0");
    __asm__ volatile("ta 1" : "=r"(c));
    return c;
}

/* Puts out the low byte. */
static inline void put(int c) {
    register int byte __asm__("o0") = c;
    __asm__ volatile("ta 2" : : "r"(byte));
}

/* Ends the run with that exit word. What main returns does the same. */
static inline void quit(int word) {
    register int left __asm__("o0") = word;
    __asm__ volatile("ta 0" : : "r"(left));
    __builtin_unreachable();
}

/* Each is a part of the function that calls it, so that its loop takes from the meter of that one. */
static inline void *plug_memcpy(void *to, const void *from, size_t n) {
    for (size_t i = 0; i < n; i++) ((char *)to)[i] = ((const char *)from)[i];
    return to;
}

static inline void *plug_memmove(void *to, const void *from, size_t n) {
    if (to < from) return plug_memcpy(to, from, n);
    while (n-- > 0) ((char *)to)[n] = ((const char *)from)[n];
    return to;
}

static inline void *plug_memset(void *to, int c, size_t n) {
    for (size_t i = 0; i < n; i++) ((char *)to)[i] = (char)c;
    return to;
}

static inline int plug_memcmp(const void *a, const void *b, size_t n) {
    for (size_t i = 0; i < n; i++) {
        int less = ((const unsigned char *)a)[i] - ((const unsigned char *)b)[i];
        if (less) return less;
    }
    return 0;
}

static inline void *plug_memchr(const void *s, int c, size_t n) {
    for (size_t i = 0; i < n; i++)
        if (((const unsigned char *)s)[i] == (unsigned char)c) return (char *)s + i;
    return NULL;
}

static inline size_t plug_strlen(const char *s) {
    size_t n = 0;
    while (s[n]) n++;
    return n;
}

static inline int plug_strcmp(const char *a, const char *b) {
    while (*a && *a == *b) a++, b++;
    return (unsigned char)*a - (unsigned char)*b;
}

static inline int plug_strncmp(const char *a, const char *b, size_t n) {
    for (; n > 0; a++, b++, n--)
        if (!*a || *a != *b) return (unsigned char)*a - (unsigned char)*b;
    return 0;
}

static inline char *plug_strcpy(char *to, const char *from) {
    for (size_t i = 0; (to[i] = from[i]); i++) {}
    return to;
}

static inline char *plug_strchr(const char *s, int c) {
    for (; *s != (char)c; s++)
        if (!*s) return NULL;
    return (char *)s;
}

/* Where string.h is included, too, in whatever order, its functions are meant. */
#ifndef GEYSERPAN_STRING_H
#define memcpy(to, from, n) plug_memcpy(to, from, n)
#define memmove(to, from, n) plug_memmove(to, from, n)
#define memset(to, c, n) plug_memset(to, c, n)
#define memcmp(a, b, n) plug_memcmp(a, b, n)
#define memchr(s, c, n) plug_memchr(s, c, n)
#define strlen(s) plug_strlen(s)
#define strcmp(a, b) plug_strcmp(a, b)
#define strncmp(a, b, n) plug_strncmp(a, b, n)
#define strcpy(to, from) plug_strcpy(to, from)
#define strchr(s, c) plug_strchr(s, c)
#endif

#endif
#endif
