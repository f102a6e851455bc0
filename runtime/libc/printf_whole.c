/* printf and kin without conversions of doubles: bits/whole.h tells who calls them. */
#define GEYSERPAN_LIBRARY
#include "print.h"

int __vfprintf_whole(FILE *stream, const char *format, va_list arguments) {
    __sink_to(stream, NULL, 0);
    __print_whole(format, arguments);
    return stream->kind >= INPUT ? EOF : (int)__sink.count;
}

int __vprintf_whole(const char *format, va_list arguments) { return __vfprintf_whole(stdout, format, arguments); }

int __printf_whole(const char *format, ...) {
    va_list arguments;
    va_start(arguments, format);
    int count = __vprintf_whole(format, arguments);
    va_end(arguments);
    return count;
}

int __fprintf_whole(FILE *stream, const char *format, ...) {
    va_list arguments;
    va_start(arguments, format);
    int count = __vfprintf_whole(stream, format, arguments);
    va_end(arguments);
    return count;
}

/* (a size of 0 has room for nothing, any other one for the text's end, too) */
int __vsnprintf_whole(char *to, size_t size, const char *format, va_list arguments) {
    __sink_to(NULL, to, size ? size - 1 : 0);
    __print_whole(format, arguments);
    if (size) to[__sink.count < size ? __sink.count : size - 1] = 0;
    return (int)__sink.count;
}

int __snprintf_whole(char *to, size_t size, const char *format, ...) {
    va_list arguments;
    va_start(arguments, format);
    int count = __vsnprintf_whole(to, size, format, arguments);
    va_end(arguments);
    return count;
}

int __vsprintf_whole(char *to, const char *format, va_list arguments) {
    return __vsnprintf_whole(to, (size_t)-1, format, arguments);
}

int __sprintf_whole(char *to, const char *format, ...) {
    va_list arguments;
    va_start(arguments, format);
    int count = __vsprintf_whole(to, format, arguments);
    va_end(arguments);
    return count;
}
