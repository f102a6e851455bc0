#include "score.h"
#include <stdlib.h>
#include <string.h>

#define MOST 32

static struct score scores[MOST];
static unsigned count;

int score_add(const char *name, int points) {
    unsigned at = 0;
    while (at < count && strcmp(scores[at].name, name)) at++;
    if (at == MOST) return 0;
    if (at == count) strncpy(scores[count++].name, name, sizeof scores[at].name - 1);
    scores[at].points += points;
    return 1;
}

static int by_points(const void *a, const void *b) {
    const struct score *one = a, *other = b;
    return one->points != other->points ? other->points - one->points : strcmp(one->name, other->name);
}

void score_each(void (*visit)(const struct score *)) {
    qsort(scores, count, sizeof *scores, by_points);
    for (unsigned at = 0; at < count; at++) visit(&scores[at]);
}
