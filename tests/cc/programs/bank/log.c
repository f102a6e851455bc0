#include "log.h"
#include <stdarg.h>
#include <stdio.h>
enum log_level log_threshold = LOG_INFO;
static unsigned counts[4];
void log_line(enum log_level level, const char *format, ...) {
    static const char tags[] = "DIWE";
    counts[level]++;
    if (level < log_threshold) return;
    va_list ap;
    va_start(ap, format);
    printf("[%c] ", tags[level]);
    vprintf(format, ap);
    putchar('\n');
    va_end(ap);
}
unsigned log_count(enum log_level level) { return counts[level]; }
