/* accepted */
#include "plug.h"
int main(void) {
    int last, have = 0;
    for (int i = 0; i < 10000; i++) {
        int c = get();
        if (c < 0) break;
        if (have && last == c)
            put('=');
        else
            put(c);
        last = c;
        have = 1;
    }
    put(10);
    return 0;
}
