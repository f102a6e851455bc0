/* The closest two of many points, in blocks at lines of 64 bytes: what POSIX has beside the standard's library. */
#include <errno.h>
#include <stdint.h>
#include <stdio.h>
#include <stdlib.h>
#include <strings.h>
#include <unistd.h>

#define LINE 64

struct point { int x, y; };

struct cell {
    struct point at;
    uint64_t seen; /* a bit for each of the first 64 others that are near */
    char name[LINE - sizeof(struct point) - sizeof(uint64_t)];
};

static struct point *points;
static size_t count, room;

static int next_number(int *number) {
    int c, sign = 1, value = 0;
    while ((c = getchar_unlocked()) != EOF && c != '-' && (c < '0' || c > '9')) continue;
    if (c == EOF) return 0;
    if (c == '-') sign = -1, c = getc_unlocked(stdin);
    for (; c >= '0' && c <= '9'; c = getchar_unlocked()) value = (value * 10 + c - '0') % 10000;
    ungetc(c, stdin);
    *number = sign * value;
    return 1;
}

static void add(struct point point) {
    if (count == room) {
        size_t wanted = room ? 2 * room : 4;
        struct point *more = reallocarray(points, wanted, sizeof *points);
        if (!more) {
            printf("no room for %u points\n", (unsigned)wanted);
            exit(2);
        }
        points = more;
        room = wanted;
    }
    points[count++] = point;
}

static unsigned distance(struct point a, struct point b) {
    return (unsigned)((a.x - b.x) * (a.x - b.x)) + (unsigned)((a.y - b.y) * (a.y - b.y));
}

/* A cell for a point, which lies in one line. */
static struct cell *cell_of(size_t which) {
    struct cell *cell = NULL;
    int failed = which % 2 ? posix_memalign((void **)&cell, LINE, sizeof *cell)
                           : (cell = aligned_alloc(LINE, sizeof *cell)) == NULL;
    if (failed) return NULL;
    *cell = (struct cell){points[which], 0, ""};
    snprintf(cell->name, sizeof cell->name, "point %u", (unsigned)which);
    for (size_t i = 0; i < count && i < 64; i++)
        if (i != which && distance(points[i], points[which]) < 10000) cell->seen |= (uint64_t)1 << i;
    return cell;
}

static void look(size_t which, struct cell *cell) {
    printf("%s (%d, %d):", cell->name, cell->at.x, cell->at.y);
    for (uint64_t left = cell->seen; left; left &= left - 1) printf(" %d", ffsll((long long)left) - 1);
    printf(" %s\n", (uintptr_t)cell % LINE ? "across lines" : "in a line");
}

/* Numbers of each kind stay in their range, and a seed gives the same ones again. */
static int is_random(void) {
    unsigned seed = 7, again = 7;
    long first;
    srandom(7);
    first = random();
    for (int i = 0; i < 50; i++)
        if (rand_r(&seed) != rand_r(&again) || random() < 0 || random() > 0x7FFFFFFF) return 0;
    srandom(7);
    return random() == first;
}

int main(void) {
    struct point point;
    while (next_number(&point.x) && next_number(&point.y)) add(point);
    for (size_t i = 0; i < count && i < 12; i++) {
        struct cell *cell = cell_of(i);
        if (!cell) break;
        look(i, cell);
        if (i % 3) free(cell);
    }
    free(points);
    printf("%d %d %d %d\n", fileno(stdin), fileno(stdout), fileno(stderr), is_random());
    printf("%d %d\n", ffsl(96L), reallocarray(NULL, (size_t)-1 / 2, 4) == NULL && errno == ENOMEM);
    if (count == 0) printf("%d\n", aligned_alloc(LINE, 0) == NULL);
    setlinebuf(stdout);
    fputs_unlocked("end\n", stdout);
    fflush(stdout);
    _exit(count > 12 ? 3 : 0);
}
