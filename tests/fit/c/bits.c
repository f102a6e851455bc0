/* accepted, big-endian */
#include "plug.h"
struct header { unsigned version : 4, kind : 12; signed level : 5; unsigned flag : 1, rest : 10; };
static union { struct header h; unsigned char b[4]; } x;
int main(void) {
    for (int c; (c = get()) >= 0;) {
        x.b[c & 3] = c;
        x.h.level += 1;
        if (x.h.flag) x.h.kind = x.h.kind * 3 + x.h.version;
        x.h.rest ^= c;
    }
    for (int i = 0; i < 4; i++) {
        put("0123456789abcdef"[x.b[i] >> 4]);
        put("0123456789abcdef"[x.b[i] & 15]);
    }
    put('a' + (x.h.level & 15));
    put('\n');
    return 0;
}
