#ifndef GEYSERPAN_INTTYPES_H
#define GEYSERPAN_INTTYPES_H

#include <stdint.h>
#include <stdlib.h>

#ifdef __cplusplus
extern "C" {
#endif

typedef struct { intmax_t quot, rem; } imaxdiv_t;

static __inline intmax_t imaxabs(intmax_t __number) { return __number < 0 ? -__number : __number; }
static __inline imaxdiv_t imaxdiv(intmax_t __number, intmax_t __by) {
    imaxdiv_t __both = {__number / __by, __number % __by};
    return __both;
}
static __inline intmax_t strtoimax(const char *__text, char **__end, int __base) {
    return strtoll(__text, __end, __base);
}
static __inline uintmax_t strtoumax(const char *__text, char **__end, int __base) {
    return strtoull(__text, __end, __base);
}

#ifdef __cplusplus
}
#endif

/* The lengths of each type's conversions. A fast type is an int, or where the compiler has it shorter a short. */
#if __SIZEOF_LONG__ == 8
#define __64 "l"
#else
#define __64 "ll"
#endif
#if __INT_FAST16_MAX__ == __SHRT_MAX__
#define __FAST16 "h"
#elif __INT_FAST16_MAX__ == __INT_MAX__
#define __FAST16 ""
#else
#define __FAST16 "l"
#endif
#if __INT_FAST32_MAX__ == __INT_MAX__
#define __FAST32 ""
#else
#define __FAST32 "l"
#endif
#if __SIZEOF_POINTER__ == __SIZEOF_INT__
#define __POINTER ""
#else
#define __POINTER "l"
#endif


#define PRId8 "hhd"
#define PRId16 "hd"
#define PRId32 "d"
#define PRId64 __64 "d"
#define PRIdLEAST8 "hhd"
#define PRIdLEAST16 "hd"
#define PRIdLEAST32 "d"
#define PRIdLEAST64 __64 "d"
#define PRIdFAST8 "hhd"
#define PRIdFAST16 __FAST16 "d"
#define PRIdFAST32 __FAST32 "d"
#define PRIdFAST64 __64 "d"
#define PRIdMAX "jd"
#define PRIdPTR __POINTER "d"

#define PRIi8 "hhi"
#define PRIi16 "hi"
#define PRIi32 "i"
#define PRIi64 __64 "i"
#define PRIiLEAST8 "hhi"
#define PRIiLEAST16 "hi"
#define PRIiLEAST32 "i"
#define PRIiLEAST64 __64 "i"
#define PRIiFAST8 "hhi"
#define PRIiFAST16 __FAST16 "i"
#define PRIiFAST32 __FAST32 "i"
#define PRIiFAST64 __64 "i"
#define PRIiMAX "ji"
#define PRIiPTR __POINTER "i"

#define PRIo8 "hho"
#define PRIo16 "ho"
#define PRIo32 "o"
#define PRIo64 __64 "o"
#define PRIoLEAST8 "hho"
#define PRIoLEAST16 "ho"
#define PRIoLEAST32 "o"
#define PRIoLEAST64 __64 "o"
#define PRIoFAST8 "hho"
#define PRIoFAST16 __FAST16 "o"
#define PRIoFAST32 __FAST32 "o"
#define PRIoFAST64 __64 "o"
#define PRIoMAX "jo"
#define PRIoPTR __POINTER "o"

#define PRIu8 "hhu"
#define PRIu16 "hu"
#define PRIu32 "u"
#define PRIu64 __64 "u"
#define PRIuLEAST8 "hhu"
#define PRIuLEAST16 "hu"
#define PRIuLEAST32 "u"
#define PRIuLEAST64 __64 "u"
#define PRIuFAST8 "hhu"
#define PRIuFAST16 __FAST16 "u"
#define PRIuFAST32 __FAST32 "u"
#define PRIuFAST64 __64 "u"
#define PRIuMAX "ju"
#define PRIuPTR __POINTER "u"

#define PRIx8 "hhx"
#define PRIx16 "hx"
#define PRIx32 "x"
#define PRIx64 __64 "x"
#define PRIxLEAST8 "hhx"
#define PRIxLEAST16 "hx"
#define PRIxLEAST32 "x"
#define PRIxLEAST64 __64 "x"
#define PRIxFAST8 "hhx"
#define PRIxFAST16 __FAST16 "x"
#define PRIxFAST32 __FAST32 "x"
#define PRIxFAST64 __64 "x"
#define PRIxMAX "jx"
#define PRIxPTR __POINTER "x"

#define PRIX8 "hhX"
#define PRIX16 "hX"
#define PRIX32 "X"
#define PRIX64 __64 "X"
#define PRIXLEAST8 "hhX"
#define PRIXLEAST16 "hX"
#define PRIXLEAST32 "X"
#define PRIXLEAST64 __64 "X"
#define PRIXFAST8 "hhX"
#define PRIXFAST16 __FAST16 "X"
#define PRIXFAST32 __FAST32 "X"
#define PRIXFAST64 __64 "X"
#define PRIXMAX "jX"
#define PRIXPTR __POINTER "X"

#define SCNd8 "hhd"
#define SCNd16 "hd"
#define SCNd32 "d"
#define SCNd64 __64 "d"
#define SCNdLEAST8 "hhd"
#define SCNdLEAST16 "hd"
#define SCNdLEAST32 "d"
#define SCNdLEAST64 __64 "d"
#define SCNdFAST8 "hhd"
#define SCNdFAST16 __FAST16 "d"
#define SCNdFAST32 __FAST32 "d"
#define SCNdFAST64 __64 "d"
#define SCNdMAX "jd"
#define SCNdPTR __POINTER "d"

#define SCNi8 "hhi"
#define SCNi16 "hi"
#define SCNi32 "i"
#define SCNi64 __64 "i"
#define SCNiLEAST8 "hhi"
#define SCNiLEAST16 "hi"
#define SCNiLEAST32 "i"
#define SCNiLEAST64 __64 "i"
#define SCNiFAST8 "hhi"
#define SCNiFAST16 __FAST16 "i"
#define SCNiFAST32 __FAST32 "i"
#define SCNiFAST64 __64 "i"
#define SCNiMAX "ji"
#define SCNiPTR __POINTER "i"

#define SCNo8 "hho"
#define SCNo16 "ho"
#define SCNo32 "o"
#define SCNo64 __64 "o"
#define SCNoLEAST8 "hho"
#define SCNoLEAST16 "ho"
#define SCNoLEAST32 "o"
#define SCNoLEAST64 __64 "o"
#define SCNoFAST8 "hho"
#define SCNoFAST16 __FAST16 "o"
#define SCNoFAST32 __FAST32 "o"
#define SCNoFAST64 __64 "o"
#define SCNoMAX "jo"
#define SCNoPTR __POINTER "o"

#define SCNu8 "hhu"
#define SCNu16 "hu"
#define SCNu32 "u"
#define SCNu64 __64 "u"
#define SCNuLEAST8 "hhu"
#define SCNuLEAST16 "hu"
#define SCNuLEAST32 "u"
#define SCNuLEAST64 __64 "u"
#define SCNuFAST8 "hhu"
#define SCNuFAST16 __FAST16 "u"
#define SCNuFAST32 __FAST32 "u"
#define SCNuFAST64 __64 "u"
#define SCNuMAX "ju"
#define SCNuPTR __POINTER "u"

#define SCNx8 "hhx"
#define SCNx16 "hx"
#define SCNx32 "x"
#define SCNx64 __64 "x"
#define SCNxLEAST8 "hhx"
#define SCNxLEAST16 "hx"
#define SCNxLEAST32 "x"
#define SCNxLEAST64 __64 "x"
#define SCNxFAST8 "hhx"
#define SCNxFAST16 __FAST16 "x"
#define SCNxFAST32 __FAST32 "x"
#define SCNxFAST64 __64 "x"
#define SCNxMAX "jx"
#define SCNxPTR __POINTER "x"

#endif
