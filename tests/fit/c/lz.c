/* accepted */
#include "plug.h"
/* A byte below 128 is itself; else a copy of so many bytes less 126 begins, from as far back as the next byte says. */
static unsigned char window[256];
int main(void) {
    unsigned at = 0;
    for (int c; (c = get()) >= 0;) {
        if (c < 128) {
            put(window[at++ & 255] = c);
        } else {
            int back = get();
            if (back < 0) return 1;
            for (int n = c - 126; n > 0; n--) {
                unsigned char byte = window[(at - back - 1) & 255];
                put(window[at++ & 255] = byte);
            }
        }
    }
    return 0;
}
