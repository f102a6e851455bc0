/* Pictures of QOI both ways (qoi). */
#define QOI_IMPLEMENTATION
#define QOI_NO_STDIO
#define IN_MAX 12288
#include "unit.h"
#include "qoi.h"
int main(void) {
    int n = read_input();
    qoi_desc d;
    int m = 0;
    unsigned char *p = qoi_decode(in, n, &d, 3);
    if (!p) return 1;
    put_word(d.width);
    put_word(d.height);
    put_bytes(p, d.width * d.height * 3);
    d.channels = 3;
    unsigned char *q = qoi_encode(p, &d, &m);
    put_bytes(q, m);
    return 0;
}
