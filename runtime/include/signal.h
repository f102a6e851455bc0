/* No signal ever reaches a program here. What a program needs of this file to be compiled is there: the type, and the
   names. A call of signal or raise is refused by the compiler. */
#ifndef GEYSERPAN_SIGNAL_H
#define GEYSERPAN_SIGNAL_H

#ifdef __cplusplus
extern "C" {
#endif

typedef int sig_atomic_t;

#define SIGINT 2
#define SIGILL 4
#define SIGABRT 6
#define SIGFPE 8
#define SIGSEGV 11
#define SIGTERM 15

#define SIG_DFL ((void (*)(int))0)
#define SIG_IGN ((void (*)(int))1)
#define SIG_ERR ((void (*)(int))-1)

void (*signal(int, void (*)(int)))(int) __attribute__((__error__("no signal reaches a program here: leave it out")));
int raise(int) __attribute__((__error__("there are no signals here: call abort or exit")));

#ifdef __cplusplus
}
#endif

#endif
