/* printf and kin, for every conversion. */
#define GEYSERPAN_LIBRARY
#include <stdlib.h>
#include "print.h"

void __print_any(const char *format, va_list arguments) {
    va_copy(__print_arguments, arguments);
    for (const char *at = format; (at = __print_on(at)) != NULL;) {
        __print_double(va_arg(__print_arguments, double));
    }
    va_end(__print_arguments);
}

int vfprintf(FILE *stream, const char *format, va_list arguments) {
    __sink_to(stream, NULL, 0);
    __print_any(format, arguments);
    return stream->kind >= INPUT ? EOF : (int)__sink.count;
}

int vprintf(const char *format, va_list arguments) { return vfprintf(stdout, format, arguments); }

int printf(const char *format, ...) {
    va_list arguments;
    va_start(arguments, format);
    int count = vprintf(format, arguments);
    va_end(arguments);
    return count;
}

int fprintf(FILE *stream, const char *format, ...) {
    va_list arguments;
    va_start(arguments, format);
    int count = vfprintf(stream, format, arguments);
    va_end(arguments);
    return count;
}

/* (a size of 0 has room for nothing, any other one for the text's end, too) */
int vsnprintf(char *to, size_t size, const char *format, va_list arguments) {
    __sink_to(NULL, to, size ? size - 1 : 0);
    __print_any(format, arguments);
    if (size) to[__sink.count < size ? __sink.count : size - 1] = 0;
    return (int)__sink.count;
}

int snprintf(char *to, size_t size, const char *format, ...) {
    va_list arguments;
    va_start(arguments, format);
    int count = vsnprintf(to, size, format, arguments);
    va_end(arguments);
    return count;
}

int vsprintf(char *to, const char *format, va_list arguments) { return vsnprintf(to, (size_t)-1, format, arguments); }

int sprintf(char *to, const char *format, ...) {
    va_list arguments;
    va_start(arguments, format);
    int count = vsprintf(to, format, arguments);
    va_end(arguments);
    return count;
}

int vasprintf(char **to, const char *format, va_list arguments) {
    va_list again;
    va_copy(again, arguments);
    int count = vsnprintf(NULL, 0, format, again);
    va_end(again);
    *to = malloc((size_t)count + 1);
    return *to ? vsnprintf(*to, (size_t)count + 1, format, arguments) : -1;
}

int asprintf(char **to, const char *format, ...) {
    va_list arguments;
    va_start(arguments, format);
    int count = vasprintf(to, format, arguments);
    va_end(arguments);
    return count;
}
