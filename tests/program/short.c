/* Stands before the C library in a process: each read of a file or a stream gives one byte at most. the suite program builds and uses it. */
#include <sys/syscall.h>
#include <unistd.h>

ssize_t read(int file, void *to, size_t count) { return syscall(SYS_read, file, to, count > 1 ? 1 : count); }
