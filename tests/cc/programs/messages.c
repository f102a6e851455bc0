/* Paths, a line each, as messages with a head in the order of bytes of networks, which are then read back: what sources
   of BSD and of networks ask of a system's headers. */
#include <arpa/inet.h>
#include <byteswap.h>
#include <err.h>
#include <libgen.h>
#include <stdint.h>
#include <stdio.h>
#include <string.h>
#include <sysexits.h>

#define MOST 2048

struct head {
    uint16_t length, kind;
    uint32_t sum;
};

static unsigned char room[MOST];
static size_t used;

static uint32_t sum_of(const char *text, size_t length) {
    uint32_t sum = 5381;
    while (length-- > 0) sum = sum * 33 + (unsigned char)*text++;
    return sum;
}

static void put_message(uint16_t kind, const char *text) {
    size_t length = strlen(text);
    struct head head = {htons((uint16_t)length), htons(kind), htonl(sum_of(text, length))};
    if (used + sizeof head + length > MOST) errx(EX_SOFTWARE, "no room for %zu bytes", length);
    memcpy(room + used, &head, sizeof head);
    memcpy(room + used + sizeof head, text, length);
    used += sizeof head + length;
}

static void tell(uint16_t kind, char *text, uint32_t sum) {
    char again[256];
    strcpy(again, text);
    printf("%u %08x %08x %04x", kind, (unsigned)sum, (unsigned)bswap_32(sum), bswap_16(kind));
    printf(" [%s] [%s]\n", dirname(text), basename(again));
}

static size_t read_message(size_t at) {
    struct head head;
    char text[256];
    memcpy(&head, room + at, sizeof head);
    size_t length = ntohs(head.length);
    if (length >= sizeof text) err(EX_DATAERR, "a message of %zu bytes", length);
    memcpy(text, room + at + sizeof head, length);
    text[length] = 0;
    if (sum_of(text, length) != ntohl(head.sum)) warnx("message at %zu: its sum is another", at);
    tell(ntohs(head.kind), text, ntohl(head.sum));
    return at + sizeof head + length;
}

int main(void) {
    char line[300];
    uint16_t kind = 1;
    while (fgets(line, sizeof line, stdin)) {
        line[strcspn(line, "\n")] = 0;
        put_message(kind++, line);
    }
    for (size_t at = 0; at < used;) at = read_message(at);
    printf("%d bytes, %016llx\n", (int)used, (unsigned long long)bswap_64((uint64_t)used << 8 | kind));
    if (used == 0) errx(EX_NOINPUT, "nothing to send");
    return EX_OK;
}
