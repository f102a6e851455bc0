/* The stems of English words (snowball). */
#include "unit.h"
#include "runtime/api.h"
#include "gen/stem_english.h"
int main(void) {
    struct SN_env *z = english_create_env();
    if (!z) return 2;
    unsigned char w[64];
    for (int c, n = 0;;) {
        c = get();
        if (c >= 'A' && c <= 'Z') c += 32;
        if (c >= 'a' && c <= 'z' && n < 63)
            w[n++] = c;
        else {
            if (n) {
                SN_set_current(z, n, w);
                if (english_stem(z) < 0) return 3;
                put_bytes(z->p, z->l);
                put('\n');
                n = 0;
            }
            if (c < 0) break;
        }
    }
    return 0;
}
