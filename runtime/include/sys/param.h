/* Of BSD: the order of bytes. */
#include <endian.h>
#include <sys/types.h>
