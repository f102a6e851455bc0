/* Speech at 13 kbit/s both ways (libgsm). */
#include "unit.h"
#include "src/add.c"
#include "src/code.c"
#include "src/decode.c"
#include "src/gsm_create.c"
#include "src/gsm_decode.c"
#include "src/gsm_encode.c"
#include "src/gsm_destroy.c"
#include "src/long_term.c"
#undef saturate
#include "src/lpc.c"
#include "src/preprocess.c"
#include "src/rpe.c"
#include "src/short_term.c"
#include "src/table.c"
int main(void) {
    int n = read_input();
    gsm e = gsm_create(), d = gsm_create();
    if (!e || !d) return 2;
    for (int i = 0; i + 320 <= n; i += 320) {
        gsm_signal s[160];
        gsm_byte f[33];
        for (int k = 0; k < 160; k++) s[k] = (short)(in[i + 2 * k] << 8 | in[i + 2 * k + 1]);
        gsm_encode(e, s, f);
        put_bytes(f, 33);
        gsm_decode(d, f, s);
        for (int k = 0; k < 160; k++) {
            put(s[k] >> 8);
            put(s[k]);
        }
    }
    return 0;
}
