/* Words counted in a hash table (uthash). */
#include "unit.h"
#include "uthash.h"
struct w {
    char name[16];
    int count;
    UT_hash_handle hh;
};
static int by(struct w *a, struct w *b) { return strcmp(a->name, b->name); }
int main(void) {
    struct w *all = NULL, *e, *t;
    char s[16];
    int n = 0;
    for (int c;;) {
        c = get();
        if ((c | 32) >= 'a' && (c | 32) <= 'z') {
            if (n < 15) s[n++] = c | 32;
            continue;
        }
        if (n) {
            s[n] = 0;
            n = 0;
            HASH_FIND_STR(all, s, e);
            if (!e) {
                e = calloc(1, sizeof *e);
                if (!e) return 2;
                strcpy(e->name, s);
                HASH_ADD_STR(all, name, e);
            }
            e->count++;
        }
        if (c < 0) break;
    }
    HASH_SORT(all, by);
    HASH_ITER(hh, all, e, t) {
        put_text(e->name);
        put(' ');
        put_word(e->count);
    }
    return 0;
}
