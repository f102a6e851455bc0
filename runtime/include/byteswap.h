/* Of Linux: the other order of bytes. */
#ifndef GEYSERPAN_BYTESWAP_H
#define GEYSERPAN_BYTESWAP_H

#include <stdint.h>

#define bswap_16(number) __builtin_bswap16(number)
#define bswap_32(number) __builtin_bswap32(number)
#define bswap_64(number) __builtin_bswap64(number)

#endif
