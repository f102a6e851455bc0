/* Blocks of MSZIP unpacked, and after a byte the input by LZSS (libmspack). */
#include "unit.h"
#include "system.h"
#include "mszip.h"
#include "lzss.h"
static int at, end;
static int more(struct mspack_file *f, void *to, int n) {
    if (n > end - at) n = end - at;
    memcpy(to, in + at, n);
    at += n;
    return n;
}
static int out(struct mspack_file *f, void *from, int n) {
    put_bytes(from, n);
    return n;
}
static void *alloc(struct mspack_system *s, size_t n) { return malloc(n); }
static void copy(void *from, void *to, size_t n) { memcpy(to, from, n); }
static void message(struct mspack_file *f, const char *format, ...) {}
static struct mspack_system host = {.read = more, .write = out, .message = message, .alloc = alloc, .free = free,
                                    .copy = copy};
int main(void) {
    end = read_input();
    struct mspack_file *f = (struct mspack_file *)&host;
    struct mszipd_stream *z = mszipd_init(&host, f, f, 512, 0);
    if (!z) return 2;
    int came = mszipd_decompress(z, 60000);
    put_word(came);
    mszipd_free(z);
    if (came == MSPACK_ERR_OK) return 0;
    at = 0;
    came = lzss_decompress(&host, f, f, 300, LZSS_MODE_EXPAND);
    put_word(came);
    return came != MSPACK_ERR_OK;
}
