/* accepted */
#include "plug.h"

/* Arrays of variable size: several in a function, in loops, in functions that call themselves, with arguments
   in memory beside them; of two dimensions; and alloca in a loop. */
static int sum(const int *a, int n) {
    int s = 0;
    for (int i = 0; i < n; i++) s += a[i];
    return s;
}

static int many(int a, int b, int c, int d, int e, int f, int g, int h) {
    return a - b + c - d + e - f + g - h;
}

__attribute__((noinline)) static int walk(int depth, int n) {
    int row[n + 1], twice[2 * n + 2];
    for (int i = 0; i <= n; i++) row[i] = i * depth;
    for (int i = 0; i < 2 * n + 2; i++) twice[i] = i + depth;
    int below = depth > 0 ? walk(depth - 1, n + 1) : 0;
    return below + sum(row, n + 1) + sum(twice, 2 * n + 2) +
           many(depth, n, row[0], row[n], twice[1], twice[n], below, 3);
}

__attribute__((noinline)) static int table(int rows, int columns) {
    unsigned char t[rows][columns];
    for (int i = 0; i < rows; i++)
        for (int k = 0; k < columns; k++) t[i][k] = i * columns + k;
    int s = 0;
    for (int i = 0; i < rows; i++)
        for (int k = 0; k < columns; k++) s = s * 3 + t[i][k];
    return s;
}

__attribute__((noinline)) static int chain(int n) {
    struct link {
        struct link *next;
        int value;
    } *first = 0;
    for (int i = 0; i < n; i++) {
        struct link *it = __builtin_alloca(sizeof *it);
        it->next = first, it->value = i * i, first = it;
    }
    int s = 0;
    for (; first; first = first->next) s = s * 5 + first->value;
    return s;
}

static void tell(int n) {
    for (int i = 28; i >= 0; i -= 4) put("0123456789abcdef"[n >> i & 15]);
    put('\n');
}

int main(void) {
    for (int c; (c = get()) >= 0;) {
        int n = c % 13 + 1;
        char text[n];
        for (int i = 0; i < n; i++) text[i] = 'a' + (c + i) % 26;
        for (int i = 0; i < n; i++) put(text[i]);
        tell(walk(n % 5, n));
        tell(table(n, c % 7 + 1));
        tell(chain(c % 40));
    }
    return 0;
}
