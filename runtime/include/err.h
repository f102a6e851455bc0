/* Of BSD: messages to stderr, which are thrown away as all that goes there, and ends of the run behind them. */
#ifndef GEYSERPAN_ERR_H
#define GEYSERPAN_ERR_H

#include <stdarg.h>
#include <stdio.h>

#ifdef __cplusplus
extern "C" {
#endif

#define __ENDS __attribute__((__noreturn__))
void err(int, const char *, ...) __ENDS __PRINTS(2, 3);
void errx(int, const char *, ...) __ENDS __PRINTS(2, 3);
void verr(int, const char *, va_list) __ENDS __PRINTS(2, 0);
void verrx(int, const char *, va_list) __ENDS __PRINTS(2, 0);
#undef __ENDS
void warn(const char *, ...) __PRINTS(1, 2);
void warnx(const char *, ...) __PRINTS(1, 2);
void vwarn(const char *, va_list) __PRINTS(1, 0);
void vwarnx(const char *, va_list) __PRINTS(1, 0);

#ifdef __cplusplus
}
#endif

#endif
