/* accepted */
#include "plug.h"
#include <stdarg.h>
__attribute__((noinline)) static void say(const char *f, ...) {
    va_list a;
    va_start(a, f);
    for (; *f; f++) {
        if (*f == '%') {
            f++;
            int n = va_arg(a, int);
            put('0' + n % 10);
        } else
            put(*f);
    }
    va_end(a);
}
int main(void) {
    say("a%db%d\n", 3, 4);
    return 0;
}
