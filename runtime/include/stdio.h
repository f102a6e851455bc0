/* Streams over the three services of a sandbox: stdin reads the input, stdout puts out, each byte at once, and stderr
   takes what it is given and throws it away, as perror does. There are no files: fopen and kin fail as the standard has
   them fail, and the compiler says so at the call.

   printf and scanf know no characters of several bytes (%lc, %ls, %l[) and no positions (%1$d); such a conversion ends
   the run as abort does, so that nothing wrong is put out. */
#ifndef GEYSERPAN_STDIO_H
#define GEYSERPAN_STDIO_H

#include <stdarg.h>
#include <stddef.h>

#ifdef __cplusplus
extern "C" {
#endif

typedef struct __stream FILE;
typedef __PTRDIFF_TYPE__ ssize_t;
typedef long fpos_t;

extern FILE __stdin, __stdout, __stderr;
#define stdin (&__stdin)
#define stdout (&__stdout)
#define stderr (&__stderr)

#define EOF (-1)
#define BUFSIZ 512
#define FILENAME_MAX 256
#define FOPEN_MAX 3
#define L_tmpnam 20
#define TMP_MAX 25
#define SEEK_SET 0
#define SEEK_CUR 1
#define SEEK_END 2
#define _IOFBF 0
#define _IOLBF 1
#define _IONBF 2

int getchar(void);
int getc(FILE *);
int fgetc(FILE *);
/* One byte, at the least, may be pushed back; here it is one. */
int ungetc(int, FILE *);
char *fgets(char *, int, FILE *);
size_t fread(void *, size_t, size_t, FILE *);
ssize_t getline(char **, size_t *, FILE *);
ssize_t getdelim(char **, size_t *, int, FILE *);

int putchar(int);
int putc(int, FILE *);
int fputc(int, FILE *);
int puts(const char *);
int fputs(const char *, FILE *);
size_t fwrite(const void *, size_t, size_t, FILE *);

int feof(FILE *);
int ferror(FILE *);
void clearerr(FILE *);
/* Nothing waits to be put out: done at once. */
int fflush(FILE *);
int setvbuf(FILE *, char *, int, size_t);
void setbuf(FILE *, char *);
void setlinebuf(FILE *);
/* 0, 1 or 2. */
int fileno(FILE *);

/* There is one thread, so that nothing has a lock. */
#define getchar_unlocked getchar
#define getc_unlocked getc
#define fgetc_unlocked fgetc
#define fread_unlocked fread
#define putchar_unlocked putchar
#define putc_unlocked putc
#define fputc_unlocked fputc
#define fputs_unlocked fputs
#define fwrite_unlocked fwrite
#define feof_unlocked feof
#define ferror_unlocked ferror
#define fflush_unlocked fflush
#define flockfile(stream) ((void)(stream))
#define funlockfile(stream) ((void)(stream))

#define __PRINTS(format, first) __attribute__((__format__(__printf__, format, first)))
#define __READS(format, first) __attribute__((__format__(__scanf__, format, first)))

int printf(const char *, ...) __PRINTS(1, 2);
int fprintf(FILE *, const char *, ...) __PRINTS(2, 3);
int sprintf(char *, const char *, ...) __PRINTS(2, 3);
int snprintf(char *, size_t, const char *, ...) __PRINTS(3, 4);
int vprintf(const char *, va_list) __PRINTS(1, 0);
int vfprintf(FILE *, const char *, va_list) __PRINTS(2, 0);
int vsprintf(char *, const char *, va_list) __PRINTS(2, 0);
int vsnprintf(char *, size_t, const char *, va_list) __PRINTS(3, 0);
/* (of GNU: memory for the text by malloc) */
int asprintf(char **, const char *, ...) __PRINTS(2, 3);
int vasprintf(char **, const char *, va_list) __PRINTS(2, 0);

int scanf(const char *, ...) __READS(1, 2);
int fscanf(FILE *, const char *, ...) __READS(2, 3);
int sscanf(const char *, const char *, ...) __READS(2, 3);
int vscanf(const char *, va_list) __READS(1, 0);
int vfscanf(FILE *, const char *, va_list) __READS(2, 0);
int vsscanf(const char *, const char *, va_list) __READS(2, 0);

#ifdef __REFUSED
#elif defined __clang__
#define __FAILS(why)
#define __REFUSED(why) __attribute__((__unavailable__(why)))
#else
/* (a call that became a part of its caller wouldn't be told of) */
#define __FAILS(why) __attribute__((__warning__(why), __noinline__, __noclone__))
#define __REFUSED(why) __attribute__((__error__(why)))
#endif

FILE *fopen(const char *, const char *) __FAILS("there are no files in a sandbox: it returns NULL");
FILE *freopen(const char *, const char *, FILE *) __FAILS("there are no files in a sandbox: it returns NULL");
FILE *tmpfile(void) __FAILS("there are no files in a sandbox: it returns NULL");
int remove(const char *) __FAILS("there are no files in a sandbox: it fails");
int rename(const char *, const char *) __FAILS("there are no files in a sandbox: it fails");
int fseek(FILE *, long, int) __FAILS("the input is read once, from its begin: it fails");
long ftell(FILE *) __FAILS("the input is read once, from its begin: it returns -1");
void rewind(FILE *) __FAILS("the input is read once, from its begin: nothing is done");
int fgetpos(FILE *, fpos_t *) __FAILS("the input is read once, from its begin: it fails");
int fsetpos(FILE *, const fpos_t *) __FAILS("the input is read once, from its begin: it fails");
int fclose(FILE *);
void perror(const char *);

#ifdef __cplusplus
}
#endif

#include <bits/whole.h>

#endif
