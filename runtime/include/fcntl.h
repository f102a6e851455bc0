/* There are no files: open and creat fail as where a file isn't there, and the compiler says so at the call. The names
   are here for sources that need them to be compiled. */
#ifndef GEYSERPAN_FCNTL_H
#define GEYSERPAN_FCNTL_H

#include <sys/types.h>
#include <stdio.h>

#ifdef __cplusplus
extern "C" {
#endif

#define O_RDONLY 0
#define O_WRONLY 1
#define O_RDWR 2
#define O_ACCMODE 3
#define O_CREAT 0100
#define O_EXCL 0200
#define O_NOCTTY 0400
#define O_TRUNC 01000
#define O_APPEND 02000
#define O_NONBLOCK 04000
#define O_CLOEXEC 02000000

int open(const char *, int, ...) __FAILS("there are no files in a sandbox: it returns -1");
int creat(const char *, mode_t) __FAILS("there are no files in a sandbox: it returns -1");
int fcntl(int, int, ...) __REFUSED("there are no files in a sandbox: leave it out");

#ifdef __cplusplus
}
#endif

#endif
