/* The three services by Linux's system calls, for units that are compared under qemu's user mode: of the same
   words, and in the same order of bytes, as the images. */
#ifndef PLUG_H
#define PLUG_H
#include <stddef.h>

int get(void);
void put(int c);
void quit(int word) __attribute__((noreturn));
#endif
