#include "plug.h"
int main(void) {
    int c;
    while ((c = get()) != -1) {
        if (c >= 'a' && c <= 'z') c -= 32;
        put(c);
    }
    return 0;
}
