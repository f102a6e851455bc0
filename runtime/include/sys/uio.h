/* Of POSIX: pieces of memory, which nothing here reads or writes by itself. */
#ifndef GEYSERPAN_SYS_UIO_H
#define GEYSERPAN_SYS_UIO_H

#include <sys/types.h>

struct iovec {
    void *iov_base;
    size_t iov_len;
};

#endif
