/* Static variables that have the names of another file's, and of the library's. */
#include <stdio.h>
#include <stdlib.h>

int doubled(int c);

static int next = 5;
static int arena[2] = {4, 6};

int main(void)
{
    int c;
    char *kept = NULL;
    while ((c = getchar()) >= 0) {
        next += doubled(c);
        if (c == 'x') kept = malloc(arena[1]);
        arena[0] += next;
    }
    printf("%d %d %d\n", next, arena[0], kept != NULL);
    return 0;
}
