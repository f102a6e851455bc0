/* Of POSIX: the order of a network's bytes, and types, as far as they mean something without a network. */
#ifndef GEYSERPAN_NETINET_IN_H
#define GEYSERPAN_NETINET_IN_H

#include <endian.h>
#include <stdint.h>

typedef uint16_t in_port_t;
typedef uint32_t in_addr_t;

struct in_addr {
    in_addr_t s_addr;
};

struct in6_addr {
    uint8_t s6_addr[16];
};

#define INET_ADDRSTRLEN 16
#define INET6_ADDRSTRLEN 46
#define INADDR_ANY ((in_addr_t)0)
#define INADDR_LOOPBACK ((in_addr_t)0x7F000001)
#define INADDR_NONE ((in_addr_t)0xFFFFFFFF)

static __inline uint32_t htonl(uint32_t __number) { return htobe32(__number); }
static __inline uint16_t htons(uint16_t __number) { return htobe16(__number); }
static __inline uint32_t ntohl(uint32_t __number) { return be32toh(__number); }
static __inline uint16_t ntohs(uint16_t __number) { return be16toh(__number); }

#endif
