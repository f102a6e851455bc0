#ifndef GEYSERPAN_STDDEF_H
#define GEYSERPAN_STDDEF_H

typedef __SIZE_TYPE__ size_t;
typedef __PTRDIFF_TYPE__ ptrdiff_t;
#ifndef __cplusplus
typedef __WCHAR_TYPE__ wchar_t;
#endif

#undef NULL
#ifdef __cplusplus
#define NULL __null
typedef decltype(nullptr) nullptr_t;
#else
#define NULL ((void *)0)
#endif

typedef struct {
    long long __whole __attribute__((__aligned__(__alignof__(long long))));
    double __number __attribute__((__aligned__(__alignof__(double))));
} max_align_t;

#define offsetof(type, member) __builtin_offsetof(type, member)

#endif
