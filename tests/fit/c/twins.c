/* accepted */
#include "plug.h"
/* Functions that are alike, of which a compiler may make one with two names. */
__attribute__((noinline)) int first(int c) { for (int i = 0; i < (c & 7); i++) put('a' + i); return c; }
__attribute__((noinline)) int second(int c) { for (int i = 0; i < (c & 7); i++) put('a' + i); return c; }
int main(void) { for (int c; (c = get()) >= 0;) put(c & 1 ? first(c) : second(c)); return 0; }
