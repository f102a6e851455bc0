/* accepted */
/* A frame for which the compiler takes room from %sp twice. */
#include "plug.h"

int main(void) {
    char a[4200];
    for (int i = 0; i < 4200; i++) a[i] = get();
    for (int i = 4199; i >= 0; i -= 70) put(a[i]);
    return 0;
}
