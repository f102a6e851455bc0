/* accepted */
#include "plug.h"
static const char *const name[10] = {"zero", "one", "two",   "three", "four",
                                     "five", "six", "seven", "eight", "nine"};
int main(void) {
    for (int i = 0; i < 10000; i++) {
        int c = get();
        if (c < 0) break;
        if (c >= '0' && c <= '9') {
            const char *s = name[c - '0'];
            while (*s) {
                put(*s++);
            }
            put(' ');
        }
    }
    put(10);
    return 0;
}
