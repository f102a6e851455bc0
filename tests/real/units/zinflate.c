/* zlib and gzip streams unpacked (zlib). */
#include "unit.h"
#include "zlib.h"
static unsigned char to[4096];
int main(void) {
    z_stream z;
    memset(&z, 0, sizeof z);
    z.next_in = in;
    z.avail_in = read_input();
    if (inflateInit2(&z, 15 + 32) != Z_OK) return 2;
    int got;
    do {
        z.next_out = to;
        z.avail_out = sizeof to;
        got = inflate(&z, Z_NO_FLUSH);
        put_bytes(to, sizeof to - z.avail_out);
    } while (got == Z_OK);
    inflateEnd(&z);
    return got == Z_STREAM_END ? 0 : 1;
}
