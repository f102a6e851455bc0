/* scanf and kin without conversions of doubles: bits/whole.h tells who calls them. */
#define GEYSERPAN_LIBRARY
#include "scan.h"

int __vfscanf_whole(FILE *stream, const char *format, va_list arguments) {
    return __scan_whole(stream, NULL, format, arguments);
}
int __vscanf_whole(const char *format, va_list arguments) { return __scan_whole(stdin, NULL, format, arguments); }
int __vsscanf_whole(const char *text, const char *format, va_list arguments) {
    return __scan_whole(NULL, text, format, arguments);
}

int __scanf_whole(const char *format, ...) {
    va_list arguments;
    va_start(arguments, format);
    int count = __vscanf_whole(format, arguments);
    va_end(arguments);
    return count;
}

int __fscanf_whole(FILE *stream, const char *format, ...) {
    va_list arguments;
    va_start(arguments, format);
    int count = __vfscanf_whole(stream, format, arguments);
    va_end(arguments);
    return count;
}

int __sscanf_whole(const char *text, const char *format, ...) {
    va_list arguments;
    va_start(arguments, format);
    int count = __vsscanf_whole(text, format, arguments);
    va_end(arguments);
    return count;
}
