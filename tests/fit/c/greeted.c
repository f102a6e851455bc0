/* accepted */
#include "plug.h"
/* The meter is set right before a call, whose slot then holds a part of that. */
static int count;

__attribute__((noinline)) static void greet(void) { put('>'); count++; }

int main(void) {
    greet();
    for (int c; (c = get()) >= 0;) put(c + count);
    return 0;
}
