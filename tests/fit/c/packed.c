/* accepted, big-endian */
#include "plug.h"
struct __attribute__((packed)) r {
    unsigned char k;
    unsigned v;
    unsigned short w;
};
static union {
    struct r r[9];
    unsigned char b[63];
} x;
int main(void) {
    for (int i = 0; i < 63; i++) {
        int c = get();
        if (c < 0) break;
        x.b[i] = c;
    }
    unsigned s = 0;
    for (int i = 0; i < 9; i++) s += x.r[i].v + x.r[i].w * x.r[i].k;
    for (int k = 28; k >= 0; k -= 4) put("0123456789abcdef"[s >> k & 15]);
    put(10);
    return 0;
}
