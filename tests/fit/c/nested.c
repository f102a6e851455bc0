/* accepted */
#include "plug.h"
/* Three functions in a row, each in a loop of the one before. */
static char b[64];
__attribute__((noinline)) static void fill(char *s, int c) { for (; *s; s++) *s = c; }
__attribute__((noinline)) static void rows(char *s) { while (*s) { fill(s, 'a'); s++; } }
__attribute__((noinline)) static void all(char *s) { while (*s) { rows(s); s++; } }
int main(void) { for (int i = 0; i < 10; i++) b[i] = get(); all(b); put(b[0]); return 0; }
