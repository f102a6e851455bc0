/* accepted */
#include "plug.h"
static int up(int c) { return c - 32; } static int same(int c) { return c; } static int dot(int c) { return '.'; }
static int (*const kinds[3])(int) = { up, same, dot };
int main(void) { for (int c; (c = get()) >= 0;) put(kinds[c % 3](c)); return 0; }
