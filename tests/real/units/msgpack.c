/* Values of MessagePack as text, and packed again (msgpack-c). */
#include "unit.h"
#include "msgpack.h"
static char shown[20000];
int main(void) {
    int n = read_input();
    size_t at = 0;
    msgpack_unpacked u;
    msgpack_unpacked_init(&u);
    msgpack_unpack_return came;
    while ((came = msgpack_unpack_next(&u, (char *)in, n, &at)) == MSGPACK_UNPACK_SUCCESS) {
        int k = msgpack_object_print_buffer(shown, sizeof shown, u.data);
        put_bytes(shown, k);
        put('\n');
        msgpack_sbuffer b;
        msgpack_packer p;
        msgpack_sbuffer_init(&b);
        msgpack_packer_init(&p, &b, msgpack_sbuffer_write);
        msgpack_pack_object(&p, u.data);
        put_hex((unsigned char *)b.data, b.size);
        msgpack_sbuffer_destroy(&b);
    }
    put_word(came);
    msgpack_unpacked_destroy(&u);
    return 0;
}
