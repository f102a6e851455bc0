#include "plug.h"
static unsigned table[256];
static void make_table(void) {
    for (unsigned n = 0; n < 256; n++) {
        unsigned c = n;
        for (int k = 0; k < 8; k++) c = c & 1 ? 0xEDB88320u ^ (c >> 1) : c >> 1;
        table[n] = c;
    }
}
int main(void) {
    unsigned crc = 0xFFFFFFFFu;
    int c;
    make_table();
    while ((c = get()) != -1) {
        crc = table[(crc ^ c) & 255] ^ (crc >> 8);
    }
    crc = ~crc;
    for (int i = 28; i >= 0; i -= 4) put("0123456789ABCDEF"[(crc >> i) & 15]);
    put('\n');
    return 0;
}
