/* Of BSD and Linux: the order of bytes, and conversions to and from it. */
#ifndef GEYSERPAN_ENDIAN_H
#define GEYSERPAN_ENDIAN_H

#include <stdint.h>

#define __LITTLE_ENDIAN 1234
#define __BIG_ENDIAN 4321
#define LITTLE_ENDIAN __LITTLE_ENDIAN
#define BIG_ENDIAN __BIG_ENDIAN
#if __BYTE_ORDER__ == __ORDER_BIG_ENDIAN__
#define __BYTE_ORDER __BIG_ENDIAN
#define __TO_BIG(bits, number) ((uint##bits##_t)(number))
#define __TO_LITTLE(bits, number) __builtin_bswap##bits(number)
#else
#define __BYTE_ORDER __LITTLE_ENDIAN
#define __TO_BIG(bits, number) __builtin_bswap##bits(number)
#define __TO_LITTLE(bits, number) ((uint##bits##_t)(number))
#endif
#define BYTE_ORDER __BYTE_ORDER

#define htobe16(number) __TO_BIG(16, number)
#define htobe32(number) __TO_BIG(32, number)
#define htobe64(number) __TO_BIG(64, number)
#define be16toh(number) __TO_BIG(16, number)
#define be32toh(number) __TO_BIG(32, number)
#define be64toh(number) __TO_BIG(64, number)
#define htole16(number) __TO_LITTLE(16, number)
#define htole32(number) __TO_LITTLE(32, number)
#define htole64(number) __TO_LITTLE(64, number)
#define le16toh(number) __TO_LITTLE(16, number)
#define le32toh(number) __TO_LITTLE(32, number)
#define le64toh(number) __TO_LITTLE(64, number)

#endif
