#include <stdio.h>
#include "score.h"

static void show(const struct score *score) { printf("%-15s %5d\n", score->name, score->points); }

int main(void) {
    char name[16];
    int points;
    while (scanf("%15s %d", name, &points) == 2)
        if (!score_add(name, points * FACTOR)) return 1;
    score_each(show);
    return 0;
}
