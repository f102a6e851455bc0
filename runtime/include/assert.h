/* An assertion that fails ends the run as abort does, with the exit word 00060000; nothing is printed, since stderr
   goes nowhere. (As the standard has it, the file may be included again with another NDEBUG.) */
#undef assert
#ifdef NDEBUG
#define assert(condition) ((void)0)
#else
#ifdef __cplusplus
extern "C"
#endif
void abort(void) __attribute__((__noreturn__));
#define assert(condition) ((condition) ? (void)0 : abort())
#endif

#ifndef __cplusplus
#undef static_assert
#define static_assert _Static_assert
#endif
