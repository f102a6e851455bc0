/* sin, cos and atan of doubles (musl). */
#include "unit.h"
#include <math.h>
#ifdef NATIVE
#include <endian.h>
#endif
#define hidden
#define weak_alias(a, b)
#define __sin musl___sin
#define __cos musl___cos
#define scalbn musl_scalbn
#define sin musl_sin
#define cos musl_cos
#define atan musl_atan
#include "src/math/scalbn.c"
#include "src/math/__rem_pio2_large.c"
#undef pS0
#include "src/math/__rem_pio2.c"
#include "src/math/__sin.c"

#include "src/math/__cos.c"
#include "src/math/sin.c"
#include "src/math/cos.c"
#include "src/math/atan.c"
int main(void) {
    int n = read_input();
    for (int i = 0; i + 8 <= n; i += 8) {
        union {
            double d;
            uint32_t w[2];
            uint64_t u;
        } x;
        x.u = 0;
        for (int k = 0; k < 8; k++) x.u = x.u << 8 | in[i + k];
        x.u = (x.u & 0x800fffffffffffffULL) | (uint64_t)(1013 + (in[i] & 31)) << 52;
        double r[3] = {musl_sin(x.d), musl_cos(x.d), musl_atan(x.d)};
        for (int k = 0; k < 3; k++) {
            x.d = r[k];
            put_word(x.u >> 32);
            put_word(x.u);
        }
    }
    return 0;
}
