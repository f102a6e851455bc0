#include "plug.h"
static void decimal(unsigned n) {
    char digits[10];
    int k = 0;
    do { digits[k++] = '0' + n % 10; n /= 10; } while (n);
    while (k > 0) put(digits[--k]);
}
int main(void) {
    unsigned lines = 0, words = 0, chars = 0;
    int in = 0, c;
    while ((c = get()) >= 0) {
        chars++;
        if (c == '\n') lines++;
        if (c == ' ' || c == '\n' || c == '\t' || c == '\r') in = 0;
        else if (!in) { in = 1; words++; }
    }
    decimal(lines); put(' ');
    decimal(words); put(' ');
    decimal(chars); put('\n');
    return 0;
}
