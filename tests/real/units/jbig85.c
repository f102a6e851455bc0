/* Pictures of JBIG unpacked (jbigkit). */
#include "unit.h"
#include "libjbig/jbig_ar.c"
#include "libjbig/jbig85.c"
static int line(const struct jbg85_dec_state *s, unsigned char *start, size_t n, unsigned long y, void *x) {
    put_bytes(start, n);
    return 0;
}
static unsigned char buf[4096];
int main(void) {
    int n = read_input();
    struct jbg85_dec_state s;
    size_t used;
    jbg85_dec_init(&s, buf, sizeof buf, line, NULL);
    int r = jbg85_dec_in(&s, in, n, &used);
    if (r == JBG_EAGAIN || r == JBG_EOK) r = jbg85_dec_end(&s);
    put_word(r);
    return 0;
}
