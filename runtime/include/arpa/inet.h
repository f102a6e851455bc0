/* Of POSIX: the order of a network's bytes. */
#ifndef GEYSERPAN_ARPA_INET_H
#define GEYSERPAN_ARPA_INET_H

#include <netinet/in.h>

#endif
