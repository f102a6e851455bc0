#include <limits.h>
#include <stdbool.h>
#include <stdint.h>
#include <stdio.h>
#include <stdlib.h>
#include <string.h>
/* Queens by backtracking, a maze by breadth-first search, big factorials, permutations, Ackermann. */
static int queens(int n, int row, unsigned columns, unsigned left, unsigned right) {
    if (row == n) return 1;
    int count = 0;
    for (int c = 0; c < n; c++) {
        unsigned bit = 1u << c;
        if (columns & bit || left & 1u << (row + c) || right & 1u << (row - c + n)) continue;
        count += queens(n, row + 1, columns | bit, left | 1u << (row + c), right | 1u << (row - c + n));
    }
    return count;
}
static int ackermann(int m, int n) {
    return m == 0 ? n + 1 : n == 0 ? ackermann(m - 1, 1) : ackermann(m - 1, ackermann(m, n - 1));
}
static bool is_even(unsigned n);
static bool is_odd(unsigned n) { return n == 0 ? false : is_even(n - 1); }
static bool is_even(unsigned n) { return n == 0 ? true : is_odd(n - 1); }

static const char maze[][12] = {"###########", "#S#.....#.#", "#.#.###.#.#", "#...#.#...#", "#####.###.#",
                                "#.....#...#", "#.#####.#.#", "#.......#E#", "###########"};
struct place {
    int8_t row, column;
};
static int shortest(void) {
    static struct place queue[128];
    static int distance[9][11];
    unsigned head = 0, tail = 0;
    memset(distance, -1, sizeof distance);
    queue[tail++] = (struct place){1, 1};
    distance[1][1] = 0;
    while (head != tail) {
        struct place p = queue[head++];
        if (maze[p.row][p.column] == 'E') return distance[p.row][p.column];
        static const struct place steps[] = {{0, 1}, {1, 0}, {0, -1}, {-1, 0}};
        for (size_t i = 0; i < 4; i++) {
            struct place q = {p.row + steps[i].row, p.column + steps[i].column};
            if (maze[q.row][q.column] == '#' || distance[q.row][q.column] >= 0) continue;
            distance[q.row][q.column] = distance[p.row][p.column] + 1;
            queue[tail++] = q;
        }
    }
    return -1;
}
struct big {
    unsigned count;
    uint16_t digits[60];
};
static void multiply(struct big *b, unsigned by) {
    unsigned carry = 0;
    for (unsigned i = 0; i < b->count; i++) {
        unsigned v = b->digits[i] * by + carry;
        b->digits[i] = v % 10000;
        carry = v / 10000;
    }
    if (carry) b->digits[b->count++] = carry;
}
static void print_big(struct big b) {
    printf("%u", b.digits[b.count - 1]);
    for (unsigned i = b.count - 1; i-- > 0;) printf("%04u", b.digits[i]);
}
static void permute(char *s, int k, void (*visit)(const char *)) {
    if (!s[k]) {
        visit(s);
        return;
    }
    for (int i = k; s[i]; i++) {
        char t = s[k];
        s[k] = s[i];
        s[i] = t;
        permute(s, k + 1, visit);
        t = s[k];
        s[k] = s[i];
        s[i] = t;
    }
}
static unsigned visited;
static char last[16];
static void count(const char *s) {
    visited++;
    if (strcmp(s, last) > 0) strcpy(last, s);
}
static void say(const char *s) { printf("%s ", s); }

int main(void) {
    int n;
    while (scanf("%d", &n) == 1) {
        if (n < 1 || n > 8) {
            printf("%d is beyond\n", n);
            continue;
        }
        printf("queens(%d) = %d\n", n, queens(n, 0, 0, 0, 0));
    }
    printf("ackermann(2, 9) = %d, even(77) %d, odd(77) %d\n", ackermann(2, 9), is_even(77), is_odd(77));
    printf("maze: %d steps\n", shortest());
    struct big b = {1, {1}};
    for (unsigned i = 2; i <= 50; i++) multiply(&b, i);
    printf("50! = ");
    print_big(b);
    char abc[] = "abc", letters[] = "edcba";
    printf("\n");
    permute(abc, 0, say);
    permute(letters, 0, count);
    printf("%u, last %s\n", visited, last);
    uint64_t f = 1;
    for (int i = 1; i < 90; i++) {
        static uint64_t g = 0;
        uint64_t t = f + g;
        g = f;
        f = t;
    }
    printf("%llu %lld %llx\n", (unsigned long long)f, (long long)(f * 31) / -7,
           (unsigned long long)(f % 1000000007ULL));
    return INT_MAX > 0 ? 0 : 1;
}
