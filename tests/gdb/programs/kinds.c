#include "plug.h"
#include <stdlib.h>

/* Each letter that is read does something that a test ends. */
static char name[32];
static int *lost;
static int deep(int n) { return n == 0 ? 0 : 1 + deep(n - 1) * 3; }
static int one(int n) { return n + 1; }
static int two(int n) { return n + 2; }
static int (*ways[2])(int) = {one, two};

int main(void) {
    int letter = get(), number = get() - '0';
    switch (letter) {
    case 'i':
        name[number * 10] = 1;
        put(name[number & 31]);
        break;
    case 'p':
        lost = (int *)(number * 0x1000);
        *lost = 1;
        break;
    case 'd':
        put('0' + 7 / number);
        break;
    case 'l':
        while (number != 10) number = number * 5 % 7;
        put(number);
        break;
    case 's':
        put(deep(number * 1000));
        break;
    case 'f':
        ways[1] = (int (*)(int))(number * 77);
        put(ways[number & 1](3));
        break;
    case 'a':
        abort();
    default:
        return letter;
    }
    return 0;
}
