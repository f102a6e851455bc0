/* The begin, the end and the output of a program under qemu's user mode, by Linux's system calls. */
#include <stddef.h>

static long system_call(long number, long a, long b, long c) {
    register long g1 __asm__("g1") = number, o0 __asm__("o0") = a, o1 __asm__("o1") = b, o2 __asm__("o2") = c;
    __asm__ volatile("ta 0x10" : "+r"(o0) : "r"(g1), "r"(o1), "r"(o2) : "memory", "cc");
    return o0;
}

void show(const char *text) {
    size_t size = 0;
    while (text[size]) size++;
    system_call(4, 1, (long)text, (long)size);
}

void finish(int status) {
    system_call(1, status, 0, 0);
    __builtin_unreachable();
}

long system_read(void *to, long size) { return system_call(3, 0, (long)to, size); }
void system_write(const void *from, long size) { system_call(4, 1, (long)from, size); }

int main(void);

/* (a program of the library ends by its exit) */
void exit(int status) __attribute__((weak, noreturn));

void _start(void) {
    int status = main();
    if (exit) exit(status);
    finish(status);
}
