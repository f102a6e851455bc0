/* The ends and warnings of err.h, without that: programs have headers of their own by this name. */
#include <stdarg.h>
#include <stdlib.h>

void err(int status, const char *format, ...) {
    (void)format;
    exit(status);
}

void errx(int status, const char *format, ...) {
    (void)format;
    exit(status);
}

void verr(int status, const char *format, va_list values) {
    (void)format, (void)values;
    exit(status);
}

void verrx(int status, const char *format, va_list values) {
    (void)format, (void)values;
    exit(status);
}

void warn(const char *format, ...) { (void)format; }

void warnx(const char *format, ...) { (void)format; }

void vwarn(const char *format, va_list values) { (void)format, (void)values; }

void vwarnx(const char *format, va_list values) { (void)format, (void)values; }
