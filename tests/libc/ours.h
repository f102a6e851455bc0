/* The library under test: its symbols have been renamed, so that it stands in one program beside another one. */
#ifndef OURS_H
#define OURS_H

#include <stdarg.h>
#include <stddef.h>
#include <stdint.h>

void *gp_memchr(const void *, int, size_t), *gp_memrchr(const void *, int, size_t),
    *gp_memccpy(void *, const void *, int, size_t);
void *gp_mempcpy(void *, const void *, size_t), *gp_memmem(const void *, size_t, const void *, size_t);
void *gp_memcpy(void *, const void *, size_t), *gp_memmove(void *, const void *, size_t),
    *gp_memset(void *, int, size_t);
int gp_memcmp(const void *, const void *, size_t), gp_bcmp(const void *, const void *, size_t);
void gp_bcopy(const void *, void *, size_t), gp_bzero(void *, size_t);
size_t gp_strlen(const char *), gp_strnlen(const char *, size_t), gp_strxfrm(char *, const char *, size_t);
int gp_strcmp(const char *, const char *), gp_strncmp(const char *, const char *, size_t),
    gp_strcoll(const char *, const char *);
int gp_strcasecmp(const char *, const char *), gp_strncasecmp(const char *, const char *, size_t);
char *gp_strcpy(char *, const char *), *gp_strncpy(char *, const char *, size_t), *gp_stpcpy(char *, const char *);
char *gp_stpncpy(char *, const char *, size_t), *gp_strcat(char *, const char *),
    *gp_strncat(char *, const char *, size_t);
char *gp_strchr(const char *, int), *gp_strrchr(const char *, int), *gp_strchrnul(const char *, int);
char *gp_index(const char *, int), *gp_rindex(const char *, int);
char *gp_strstr(const char *, const char *), *gp_strpbrk(const char *, const char *);
size_t gp_strspn(const char *, const char *), gp_strcspn(const char *, const char *);
char *gp_strsep(char **, const char *), *gp_strtok_r(char *, const char *, char **), *gp_strtok(char *, const char *);
char *gp_strdup(const char *), *gp_strndup(const char *, size_t), *gp_strerror(int);
int gp_ffs(int), gp_ffsl(long), gp_ffsll(long long);

extern int gp_errno;
int gp_abs(int), gp_atoi(const char *), gp_rand(void);
long gp_labs(long), gp_strtol(const char *, char **, int), gp_atol(const char *);
long long gp_llabs(long long), gp_strtoll(const char *, char **, int), gp_atoll(const char *);
unsigned long gp_strtoul(const char *, char **, int);
unsigned long long gp_strtoull(const char *, char **, int);
double gp_strtod(const char *, char **), gp_atof(const char *);
float gp_strtof(const char *, char **);
void gp_srand(unsigned);
void gp_qsort(void *, size_t, size_t, int (*)(const void *, const void *));
void *gp_bsearch(const void *, const void *, size_t, size_t, int (*)(const void *, const void *));
void *gp_malloc(size_t), *gp_calloc(size_t, size_t), *gp_realloc(void *, size_t), gp_free(void *);
void *gp_aligned_alloc(size_t, size_t), *gp_reallocarray(void *, size_t, size_t);
int gp_posix_memalign(void **, size_t, size_t);
void gp_abort(void), gp_exit(int);
int gp_atexit(void (*)(void));
char *gp_getenv(const char *);

int gp_snprintf(char *, size_t, const char *, ...), gp_sprintf(char *, const char *, ...),
    gp_printf(const char *, ...);
int gp_asprintf(char **, const char *, ...), gp___snprintf_whole(char *, size_t, const char *, ...);
int gp_sscanf(const char *, const char *, ...), gp___sscanf_whole(const char *, const char *, ...),
    gp_scanf(const char *, ...);

double gp___adddf3(double, double), gp___subdf3(double, double), gp___muldf3(double, double),
    gp___divdf3(double, double);
double gp___negdf2(double), gp_sqrt(double), gp___extendsfdf2(float), gp___powidf2(double, int);
float gp___addsf3(float, float), gp___subsf3(float, float), gp___mulsf3(float, float), gp___divsf3(float, float);
float gp___negsf2(float), gp_sqrtf(float), gp___truncdfsf2(double), gp___powisf2(float, int);
int gp___eqdf2(double, double), gp___nedf2(double, double), gp___ltdf2(double, double), gp___ledf2(double, double);
int gp___gtdf2(double, double), gp___gedf2(double, double), gp___unorddf2(double, double);
int gp___eqsf2(float, float), gp___nesf2(float, float), gp___ltsf2(float, float), gp___lesf2(float, float);
int gp___gtsf2(float, float), gp___gesf2(float, float), gp___unordsf2(float, float);
int gp___fixdfsi(double), gp___fixsfsi(float);
unsigned gp___fixunsdfsi(double), gp___fixunssfsi(float);
long long gp___fixdfdi(double), gp___fixsfdi(float);
unsigned long long gp___fixunsdfdi(double), gp___fixunssfdi(float);
double gp___floatsidf(int), gp___floatunsidf(unsigned), gp___floatdidf(long long),
    gp___floatundidf(unsigned long long);
float gp___floatsisf(int), gp___floatunsisf(unsigned), gp___floatdisf(long long),
    gp___floatundisf(unsigned long long);

unsigned long long gp___ashldi3(unsigned long long, int), gp___lshrdi3(unsigned long long, int);
long long gp___ashrdi3(long long, int), gp___divdi3(long long, long long), gp___moddi3(long long, long long),
    gp___negdi2(long long);
unsigned long long gp___muldi3(unsigned long long, unsigned long long),
    gp___udivdi3(unsigned long long, unsigned long long);
unsigned long long gp___umoddi3(unsigned long long, unsigned long long), gp___bswapdi2(unsigned long long);
unsigned gp___bswapsi2(unsigned);
int gp___cmpdi2(long long, long long), gp___ucmpdi2(unsigned long long, unsigned long long);
int gp___clzsi2(unsigned), gp___ctzsi2(unsigned), gp___ffssi2(unsigned), gp___popcountsi2(unsigned),
    gp___paritysi2(unsigned);
int gp___clzdi2(unsigned long long), gp___ctzdi2(unsigned long long), gp___ffsdi2(unsigned long long);
int gp___popcountdi2(unsigned long long), gp___paritydi2(unsigned long long), gp___clrsbsi2(int),
    gp___clrsbdi2(long long);

double gp_fabs(double), gp_copysign(double, double), gp_floor(double), gp_ceil(double), gp_trunc(double),
    gp_round(double);
double gp_rint(double), gp_nearbyint(double), gp_fmod(double, double), gp_remainder(double, double),
    gp_frexp(double, int *);
double gp_ldexp(double, int), gp_scalbn(double, int), gp_modf(double, double *), gp_logb(double),
    gp_nextafter(double, double);
double gp_fmin(double, double), gp_fmax(double, double), gp_fdim(double, double);
long long gp_llround(double), gp_llrint(double);
int gp_ilogb(double);
float gp_fabsf(float), gp_copysignf(float, float), gp_floorf(float), gp_ceilf(float), gp_truncf(float),
    gp_roundf(float);
float gp_rintf(float), gp_fmodf(float, float), gp_remainderf(float, float), gp_frexpf(float, int *),
    gp_ldexpf(float, int);
float gp_modff(float, float *), gp_logbf(float), gp_nextafterf(float, float), gp_fminf(float, float),
    gp_fmaxf(float, float);
float gp_fdimf(float, float);

/* What the headers have as macros or as functions of their own, each as a function: wrapped.c. */
int gp_wrapped_ctype(int which, int c);
int gp_wrapped_class(int which, double x);
int gp_wrapped_order(int which, double x, double y);
int gp_wrapped_assert(int condition);

#endif
