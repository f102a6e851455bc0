#ifndef LOG_H
#define LOG_H
enum log_level { LOG_DEBUG, LOG_INFO, LOG_WARN, LOG_ERROR };
extern enum log_level log_threshold;
void log_line(enum log_level level, const char *format, ...) __attribute__((format(printf, 2, 3)));
unsigned log_count(enum log_level level);
#endif
