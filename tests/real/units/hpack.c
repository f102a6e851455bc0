/* Header fields of HTTP/2 by HPACK (nghttp2): lines of name and value are packed and unpacked, then the input itself is
   unpacked. */
#include "unit.h"
#include "nghttp2_hd.h"
static unsigned char room[4096];
static nghttp2_hd_deflater d;
static nghttp2_hd_inflater i;
static void shown(const unsigned char *at, size_t n) {
    for (;;) {
        nghttp2_hd_nv nv;
        int flags = 0;
        ssize_t k = nghttp2_hd_inflate_hd_nv(&i, &nv, &flags, at, n, 1);
        if (k < 0) {
            put_word(k);
            return;
        }
        at += k;
        n -= k;
        if (flags & NGHTTP2_HD_INFLATE_EMIT) {
            put_bytes(nv.name->base, nv.name->len);
            put('=');
            put_bytes(nv.value->base, nv.value->len);
            put('\n');
        }
        if (flags & NGHTTP2_HD_INFLATE_FINAL) break;
        if (!(flags & NGHTTP2_HD_INFLATE_EMIT) && n == 0) break;
    }
    nghttp2_hd_inflate_end_headers(&i);
}
static void packed(unsigned char *line, int n) {
    unsigned char *colon = memchr(line, ':', n);
    int k = colon ? colon - line : n;
    nghttp2_nv nv = {line, colon ? colon + 1 : line, k, colon ? n - k - 1 : 0, NGHTTP2_NV_FLAG_NONE};
    ssize_t m = nghttp2_hd_deflate_hd(&d, room, sizeof room, &nv, 1);
    if (m < 0) {
        put_word(m);
        return;
    }
    put_hex(room, m);
    shown(room, m);
}
int main(void) {
    int n = read_input();
    nghttp2_mem *mem = nghttp2_mem_default();
    if (nghttp2_hd_deflate_init(&d, mem) || nghttp2_hd_inflate_init(&i, mem)) return 2;
    for (int at = 0, k; at < n; at = k + 1) {
        for (k = at; k < n && in[k] != '\n';) k++;
        packed(in + at, k - at > 1000 ? 1000 : k - at);
    }
    shown(in, n);
    nghttp2_hd_deflate_free(&d);
    nghttp2_hd_inflate_free(&i);
    return 0;
}
