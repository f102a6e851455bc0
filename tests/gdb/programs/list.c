#include "plug.h"

/* Reads names, and puts out the first letters, the last name first. A name of more than 7 bytes runs into the pointer. */
struct item {
    char name[8];
    struct item *next;
};
static struct item items[8];
static struct item *first;

static void take(struct item *it) {
    int n = 0;
    for (int c; (c = get()) > ' ';) it->name[n++] = c;
}

int main(void) {
    for (int i = 0; i < 3; i++) {
        items[i].next = first;
        first = &items[i];
        take(&items[i]);
    }
    for (struct item *q = first; q; q = q->next) {
        put(q->name[0]);
        put('\n');
    }
    return 0;
}
