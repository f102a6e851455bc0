/* A QR code of the input (qrencode). */
#include "unit.h"
#include "qrencode.h"
int main(void) {
    int n = read_input();
    QRcode *q = QRcode_encodeData(n, in, 0, QR_ECLEVEL_M);
    if (!q) {
        put_word(errno);
        return 1;
    }
    for (int y = 0; y < q->width; y++) {
        for (int x = 0; x < q->width; x++) put(q->data[y * q->width + x] & 1 ? '#' : '.');
        put('\n');
    }
    QRcode_free(q);
    return 0;
}
