/* A stream of -lh5- unpacked, of -lzs- where its first byte says so (lhasa). */
#include "unit.h"
#include "lha_decoder.h"
extern LHADecoderType lha_lh5_decoder, lha_lzs_decoder;
static int at = 1, end;
static size_t more(void *to, size_t n, void *x) {
    if (n > end - at) n = end - at;
    memcpy(to, in + at, n);
    at += n;
    return n;
}
static unsigned char to[1000];
int main(void) {
    end = read_input();
    if (end < 1) return 1;
    LHADecoder *d = lha_decoder_new(in[0] == 's' ? &lha_lzs_decoder : &lha_lh5_decoder, more, NULL, 40000);
    if (!d) return 2;
    for (size_t n; (n = lha_decoder_read(d, to, sizeof to)) > 0;) put_bytes(to, n);
    put_word(lha_decoder_get_length(d));
    put_word(lha_decoder_get_crc(d));
    lha_decoder_free(d);
    return 0;
}
