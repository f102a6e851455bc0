/* scanf and kin, for every conversion. */
#define GEYSERPAN_LIBRARY
#include "scan.h"

int __scan_any(FILE *stream, const char *text, const char *format, va_list arguments) {
    __scan_begin(stream, text, format, arguments);
    while (__scan_on() && __scan_settle(__scan_double())) {
    }
    va_end(__scan.arguments);
    return __scan.assigned;
}

int vfscanf(FILE *stream, const char *format, va_list arguments) {
    return __scan_any(stream, NULL, format, arguments);
}
int vscanf(const char *format, va_list arguments) { return __scan_any(stdin, NULL, format, arguments); }
int vsscanf(const char *text, const char *format, va_list arguments) {
    return __scan_any(NULL, text, format, arguments);
}

int scanf(const char *format, ...) {
    va_list arguments;
    va_start(arguments, format);
    int count = vscanf(format, arguments);
    va_end(arguments);
    return count;
}

int fscanf(FILE *stream, const char *format, ...) {
    va_list arguments;
    va_start(arguments, format);
    int count = vfscanf(stream, format, arguments);
    va_end(arguments);
    return count;
}

int sscanf(const char *text, const char *format, ...) {
    va_list arguments;
    va_start(arguments, format);
    int count = vsscanf(text, format, arguments);
    va_end(arguments);
    return count;
}
