/* Of an operating system there is what reads the input and writes the output: read of 0, write to 1 and, thrown away,
   to 2. What else a program calls of this file is refused by the compiler, at the call. */
#ifndef GEYSERPAN_UNISTD_H
#define GEYSERPAN_UNISTD_H

#include <stddef.h>
#include <stdio.h>
#include <sys/types.h>

#ifdef __cplusplus
extern "C" {
#endif

#define STDIN_FILENO 0
#define STDOUT_FILENO 1
#define STDERR_FILENO 2
#define F_OK 0
#define X_OK 1
#define W_OK 2
#define R_OK 4

ssize_t read(int, void *, size_t);
ssize_t write(int, const void *, size_t);
int close(int);
int isatty(int);
off_t lseek(int, off_t, int) __FAILS("the input is read once, from its begin: it returns -1");
int access(const char *, int) __FAILS("there are no files in a sandbox: it returns -1");
int unlink(const char *) __FAILS("there are no files in a sandbox: it returns -1");
void _exit(int) __attribute__((__noreturn__));

/* The options of a program's words; main is called with none, but a program may have words of its own. Nothing is told
   of an option that isn't known. */
int getopt(int, char *const[], const char *);
extern char *optarg;
extern int optind, opterr, optopt;

#define __NO_SYSTEM __REFUSED("a program of a sandbox has no operating system: leave it out")
int fork(void) __NO_SYSTEM;
int pipe(int[2]) __NO_SYSTEM;
int dup(int) __NO_SYSTEM;
int dup2(int, int) __NO_SYSTEM;
int execv(const char *, char *const[]) __NO_SYSTEM;
int execvp(const char *, char *const[]) __NO_SYSTEM;
int getpid(void) __NO_SYSTEM;
int getppid(void) __NO_SYSTEM;
unsigned getuid(void) __NO_SYSTEM;
int chdir(const char *) __NO_SYSTEM;
char *getcwd(char *, size_t) __NO_SYSTEM;
unsigned alarm(unsigned) __REFUSED("a program of a sandbox has no clock: leave it out");
unsigned sleep(unsigned) __REFUSED("a program of a sandbox has no clock: leave it out");
int usleep(unsigned) __REFUSED("a program of a sandbox has no clock: leave it out");
#undef __NO_SYSTEM

#ifdef __cplusplus
}
#endif

#endif
