/* The other one, whose lines are those of the first. */



static char other[48];
static int *gone;
static int down(int n) { return n == 0 ? 1 : 2 + down(n - 1) * 5; }
static int three(int n) { return n + 3; }
static int four(int n) { return n * 4; }
static int (*others[2])(int) = {three, four};


int beside(int letter, int number) {
    switch (letter) {
    case 'i': other[number * 12] = 1; return other[number & 31];
    case 'p': gone = (int *)(number * 0x1001); *gone = 2; return 1;
    case 'd': return 9 / number;
    case 'l': while (number != 11) number = number * 4 % 5; return number;
    case 's': return down(number * 1000);
    case 'f': others[1] = (int (*)(int))(number * 79); return others[number & 1](3);
    }
    return 0;
}
