/* Wide characters of one byte each, for musl's regular expressions. */
#ifndef TRE_WCHAR
#define TRE_WCHAR
#include <limits.h>
#include <stddef.h>
#include <stdint.h>
typedef unsigned wint_t;
typedef struct { int x; } mbstate_t;
#define WEOF 0xffffffffU
#define CHARCLASS_NAME_MAX 14
#define RE_DUP_MAX 255
#undef MB_CUR_MAX
#define MB_CUR_MAX 1
#undef MB_LEN_MAX
#define MB_LEN_MAX 4
int tre_mbtowc(wchar_t *, const char *, size_t);
#define mbtowc tre_mbtowc
#endif
