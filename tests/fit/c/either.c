/* accepted */
#include "plug.h"
/* Loads by pointers to constants and to what may be written: chosen, out of a table, by an index of one's
 * own, behind a structure's beginning. */
struct entry {
    const char *name;
    int order[40];
    short last;
    struct entry *next;
};
static const char *const words[4] = {"nothing", "", "a few of them", "many"};
static const int powers[8] = {1, 10, 100, 1000, 10000, 100000, 1000000, 10000000};
static char own[24];
static int counts[8];
static struct entry entries[3];
static const struct entry first = {"first", {1, 2, 3}, 4, &entries[1]};
static void say(const char *s) {
    while (*s) put(*s++);
    put('\n');
}
static void number(unsigned n) {
    if (n > 9) put('0' + n / 10 % 10);
    put('0' + n % 10);
    put(' ');
}
__attribute__((noipa)) static const char *name_of(int c) { return c & 4 ? own : words[c & 3]; }
__attribute__((noipa)) static const int *table_of(int c) { return c & 1 ? powers : counts; }
__attribute__((noipa)) static const struct entry *entry_of(int c) { return c & 8 ? &entries[c % 3] : &first; }
int main(void) {
    int n = 0, c;
    for (int i = 0; i < 3; i++) {
        entries[i].name = i == 1 ? own : "entry";
        entries[i].last = i * 7;
        entries[i].next = i < 2 ? &entries[i + 1] : NULL;
        for (int k = 0; k < 40; k++) entries[i].order[k] = i + k;
    }
    while ((c = get()) >= 0) {
        if (n < 23) own[n++] = c < 32 || c > 126 ? '#' : c;
        counts[c & 7]++;
        say(name_of(c));
        const int *t = table_of(c);
        number(t[c >> 3 & 7] + t[0]);
        for (const struct entry *e = entry_of(c); e; e = e->next) {
            number(e->order[c & 31] + e->last);
            say(e->name);
        }
    }
    return 0;
}
