#include "plug.h"

/* Two files of one name, whose tests stand in the same lines: the first letter that is read chooses the file, the
   second one the test. */
static char name[32];
static int *lost;
static int deep(int n) { return n == 0 ? 0 : 1 + deep(n - 1) * 3; }
static int one(int n) { return n + 1; }
static int two(int n) { return n + 2; }
static int (*ways[2])(int) = {one, two};
int beside(int letter, int number);

static int here(int letter, int number) {
    switch (letter) {
    case 'i': name[number * 10] = 1; return name[number & 31];
    case 'p': lost = (int *)(number * 0x1000); *lost = 1; return 0;
    case 'd': return 7 / number;
    case 'l': while (number != 10) number = number * 5 % 7; return number;
    case 's': return deep(number * 1000);
    case 'f': ways[1] = (int (*)(int))(number * 77); return ways[number & 1](3);
    case 'x': quit(0x0001000f);
    }
    return 0;
}

int main(void) {
    int file = get(), letter = get(), number = get() - '0';
    put(file == 'h' ? here(letter, number) : beside(letter, number));
    return 0;
}
