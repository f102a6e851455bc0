/* accepted */
#include "plug.h"
int main(void) {
    unsigned char b[8192];
    int n = 0, c;
    while (n < 8192 && (c = get()) >= 0) b[n++] = c;
    for (int i = n; i-- > 0;) put(b[i]);
    return 0;
}
