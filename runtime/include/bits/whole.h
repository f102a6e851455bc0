/* Of stdio.h: a program that prints and reads no doubles has no code for them.

   Each function of printf's and scanf's kind is there twice: under the standard's name, for everything, and as
   __NAME_whole, without the conversions of doubles (%a, %e, %f, %g). The functions below have the standard's names
   and become a part of their callers. Where the compiler knows the format, which it does of a string in the call, it
   finds while it compiles whether a double may be converted, by plain functions of strings that it works out; and
   what is left is a call of the one or of the other. A format that it doesn't know, or one of more than 16
   conversions, is left to the function for everything, as are calls through pointers, and all calls by -O0. printf and
   fprintf are there a third time, as __NAME_short, for formats that ask for little: printf_short.c.

   So the whole is right without this file, and no weak symbol, section or linker has a part in it: what is called
   decides, in one file, in several that are compiled into one assembly (-flto, -fwhole-program), or where unreached
   functions are left out later. vprintf and kin have formats that aren't known, as a rule. GEYSERPAN_NO_DOUBLES says
   that there is none in any: such a conversion ends the run then. */
#ifndef GEYSERPAN_WHOLE_H
#define GEYSERPAN_WHOLE_H

#ifdef __cplusplus
extern "C" {
#endif

int __printf_short(const char *, ...);
int __fprintf_short(FILE *, const char *, ...);
int __printf_whole(const char *, ...);
int __fprintf_whole(FILE *, const char *, ...);
int __sprintf_whole(char *, const char *, ...);
int __snprintf_whole(char *, size_t, const char *, ...);
int __vprintf_whole(const char *, va_list);
int __vfprintf_whole(FILE *, const char *, va_list);
int __vsprintf_whole(char *, const char *, va_list);
int __vsnprintf_whole(char *, size_t, const char *, va_list);
int __scanf_whole(const char *, ...);
int __fscanf_whole(FILE *, const char *, ...);
int __sscanf_whole(const char *, const char *, ...);
int __vscanf_whole(const char *, va_list);
int __vfscanf_whole(FILE *, const char *, va_list);
int __vsscanf_whole(const char *, const char *, va_list);

#ifdef GEYSERPAN_NO_DOUBLES

int printf(const char *, ...) __asm__("__printf_whole");
int fprintf(FILE *, const char *, ...) __asm__("__fprintf_whole");
int sprintf(char *, const char *, ...) __asm__("__sprintf_whole");
int snprintf(char *, size_t, const char *, ...) __asm__("__snprintf_whole");
int vprintf(const char *, va_list) __asm__("__vprintf_whole");
int vfprintf(FILE *, const char *, va_list) __asm__("__vfprintf_whole");
int vsprintf(char *, const char *, va_list) __asm__("__vsprintf_whole");
int vsnprintf(char *, size_t, const char *, va_list) __asm__("__vsnprintf_whole");
int scanf(const char *, ...) __asm__("__scanf_whole");
int fscanf(FILE *, const char *, ...) __asm__("__fscanf_whole");
int sscanf(const char *, const char *, ...) __asm__("__sscanf_whole");
int vscanf(const char *, va_list) __asm__("__vscanf_whole");
int vfscanf(FILE *, const char *, va_list) __asm__("__vfscanf_whole");
int vsscanf(const char *, const char *, va_list) __asm__("__vsscanf_whole");

#elif defined __GNUC__ && !defined __clang__ && defined __OPTIMIZE__ && !defined GEYSERPAN_LIBRARY

int __printf_any(const char *, ...) __asm__("printf");
int __fprintf_any(FILE *, const char *, ...) __asm__("fprintf");
int __sprintf_any(char *, const char *, ...) __asm__("sprintf");
int __snprintf_any(char *, size_t, const char *, ...) __asm__("snprintf");
int __vprintf_any(const char *, va_list) __asm__("vprintf");
int __vfprintf_any(FILE *, const char *, va_list) __asm__("vfprintf");
int __vsprintf_any(char *, const char *, va_list) __asm__("vsprintf");
int __vsnprintf_any(char *, size_t, const char *, va_list) __asm__("vsnprintf");
int __scanf_any(const char *, ...) __asm__("scanf");
int __fscanf_any(FILE *, const char *, ...) __asm__("fscanf");
int __sscanf_any(const char *, const char *, ...) __asm__("sscanf");
int __vscanf_any(const char *, va_list) __asm__("vscanf");
int __vfscanf_any(FILE *, const char *, va_list) __asm__("vfscanf");
int __vsscanf_any(const char *, const char *, va_list) __asm__("vsscanf");

#define __INLINE extern __inline __attribute__((__always_inline__, __gnu_inline__, __artificial__))

/* What is asked of a format: whether it may convert a double, and whether it has a conversion that printf_short.c
   hasn't. */
enum { __DOUBLES = 1, __OTHERS = 2 };

/* The same of each letter, by its number; and 4 of the lengths that printf_short.c has: l, z and t, where a long is an
   int. A long double counts as a double. */
#define __16_OTHERS "\2\2\2\2\2\2\2\2\2\2\2\2\2\2\2\2"
#define __LETTERS \
    __16_OTHERS __16_OTHERS "\2\2\2\2\2\0\2\2\2\2\2\2\2\2\2\2" __16_OTHERS /* % */ \
    "\2\3\2\2\2\3\3\3\2\2\2\2\3\2\2\2" /* A E F G L */ \
    "\2\2\2\2\2\2\2\2\0\2\2\2\2\2\2\2" /* X */ \
    "\2\3\2\0\0\3\3\3\2\0\2\2\6\2\2\0" /* a c d e f g i l o */ \
    "\2\2\2\0\6\0\2\2\0\2\6\2\2\2\2\2" /* s t u x z */ \
    __16_OTHERS __16_OTHERS __16_OTHERS __16_OTHERS __16_OTHERS __16_OTHERS __16_OTHERS __16_OTHERS
#define __LETTER __letters[(unsigned char)*__at]

/* Over one conversion: up to it, to its letter, and behind that. Before its other flags and lengths stands what
   printf_short.c has of these: a width, - and 0, and one length. The compiler goes through each step of each call, so
   that there are few, and no branches. */
#define __BEGIN \
    __at += __builtin_strcspn(__at, "%"); \
    __is_one = *__at != 0; \
    __at += __is_one;
#define __SHORT \
    __at += __builtin_strspn(__at, "-0123456789"); \
    __at += sizeof(long) == sizeof(int) ? __LETTER >> 2 : 0; \
    __found |= -__is_one & __LETTER & __OTHERS;
#define __END \
    __at += __builtin_strspn(__at, "-+ #'0123456789.*hljztq"); \
    __found |= __LETTER & __DOUBLES; \
    __at += *__at != 0;
#define __STEP __BEGIN __END
#define __STEP_SHORT __BEGIN __SHORT __END

/* In a set of scanf's (%[..]) a sign of a conversion counts as one, which is on the safe side. */
__INLINE int __converts_doubles(const char *__at) {
    const char *const __letters = __LETTERS;
    int __found = 0, __is_one;
    __STEP __STEP __STEP __STEP __STEP __STEP __STEP __STEP
    __STEP __STEP __STEP __STEP __STEP __STEP __STEP __STEP
    return __at[__builtin_strcspn(__at, "%")] ? __DOUBLES : __found;
}

__INLINE int __converts_any(const char *__at) {
    const char *const __letters = __LETTERS;
    int __found = 0, __is_one;
    __STEP_SHORT __STEP_SHORT __STEP_SHORT __STEP_SHORT __STEP_SHORT __STEP_SHORT __STEP_SHORT __STEP_SHORT
    __STEP_SHORT __STEP_SHORT __STEP_SHORT __STEP_SHORT __STEP_SHORT __STEP_SHORT __STEP_SHORT __STEP_SHORT
    return __at[__builtin_strcspn(__at, "%")] ? __DOUBLES | __OTHERS : __found;
}

/* What the compiler finds in a format. One whose first byte it doesn't know isn't looked at: the loops that look for
   conversions would stay there, though nobody asks what they find. */
#define __FOUND(converts, format) (__builtin_constant_p(*(format)) ? converts(format) : __DOUBLES | __OTHERS)
#define __LACKS(found, what) (__builtin_constant_p(found) && !((found) & what))
#define __CHOOSE(name, format, ...) \
    const int __found = __FOUND(__converts_doubles, format); \
    if (__LACKS(__found, __DOUBLES)) return __##name##_whole(__VA_ARGS__); \
    return __##name##_any(__VA_ARGS__)
#define __CHOOSE_SHORT(name, format, ...) \
    const int __found = __FOUND(__converts_any, format); \
    if (__LACKS(__found, __OTHERS)) return __##name##_short(__VA_ARGS__); \
    if (__LACKS(__found, __DOUBLES)) return __##name##_whole(__VA_ARGS__); \
    return __##name##_any(__VA_ARGS__)
#define __REST __builtin_va_arg_pack()

__INLINE int printf(const char *__format, ...) {
    __CHOOSE_SHORT(printf, __format, __format, __REST);
}
__INLINE int fprintf(FILE *__to, const char *__format, ...) {
    __CHOOSE_SHORT(fprintf, __format, __to, __format, __REST);
}
__INLINE int sprintf(char *__to, const char *__format, ...) {
    __CHOOSE(sprintf, __format, __to, __format, __REST);
}
__INLINE int snprintf(char *__to, size_t __size, const char *__format, ...) {
    __CHOOSE(snprintf, __format, __to, __size, __format, __REST);
}
__INLINE int vprintf(const char *__format, va_list __arguments) {
    __CHOOSE(vprintf, __format, __format, __arguments);
}
__INLINE int vfprintf(FILE *__to, const char *__format, va_list __arguments) {
    __CHOOSE(vfprintf, __format, __to, __format, __arguments);
}
__INLINE int vsprintf(char *__to, const char *__format, va_list __arguments) {
    __CHOOSE(vsprintf, __format, __to, __format, __arguments);
}
__INLINE int vsnprintf(char *__to, size_t __size, const char *__format, va_list __arguments) {
    __CHOOSE(vsnprintf, __format, __to, __size, __format, __arguments);
}
__INLINE int scanf(const char *__format, ...) {
    __CHOOSE(scanf, __format, __format, __REST);
}
__INLINE int fscanf(FILE *__from, const char *__format, ...) {
    __CHOOSE(fscanf, __format, __from, __format, __REST);
}
__INLINE int sscanf(const char *__from, const char *__format, ...) {
    __CHOOSE(sscanf, __format, __from, __format, __REST);
}
__INLINE int vscanf(const char *__format, va_list __arguments) {
    __CHOOSE(vscanf, __format, __format, __arguments);
}
__INLINE int vfscanf(FILE *__from, const char *__format, va_list __arguments) {
    __CHOOSE(vfscanf, __format, __from, __format, __arguments);
}
__INLINE int vsscanf(const char *__from, const char *__format, va_list __arguments) {
    __CHOOSE(vsscanf, __format, __from, __format, __arguments);
}

#undef __INLINE
#undef __16_OTHERS
#undef __LETTERS
#undef __LETTER
#undef __BEGIN
#undef __SHORT
#undef __END
#undef __STEP
#undef __STEP_SHORT
#undef __FOUND
#undef __LACKS
#undef __CHOOSE
#undef __CHOOSE_SHORT
#undef __REST

#endif

#ifdef __cplusplus
}
#endif

#endif
