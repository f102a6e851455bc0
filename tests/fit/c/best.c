/* accepted */
/* The best so far, by a pointer that is undefined until there is one. */
#include "plug.h"

struct point { int x, y; };

static struct point points[8];

__attribute__((noinline)) static int distance(struct point *a, int k) { return a->x * k + a->y; }

int main(void) {
    struct point *best;
    int found = 0;
    for (int i = 0; i < 8; i++) {
        points[i].x = get();
        points[i].y = get();
    }
    for (int i = 0; i < 8; i++)
        if (!found || points[i].x > best->x) {
            if (found) put(distance(best, i));
            best = &points[i];
            found = 1;
        }
    put(distance(best, 3));
    return 0;
}
