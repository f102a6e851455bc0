/* Reads a map of tiles, of '.' and '#', and tells for each field of '.' how large it is, largest first. */
#include <stdio.h>
#include <stdlib.h>
#include <string.h>

enum { WIDTH = 12, HEIGHT = 10, FIELDS = 16 };

struct field {
    int x, y;
    int tiles;
};

static char tiles[HEIGHT][WIDTH];
static struct field fields[FIELDS];
static int width, height, found;

static int is_free(int x, int y)
{
    return x >= 0 && x < width && y >= 0 && y <= height && tiles[y][x] == '.';
}

/* How many tiles hang together from one on; each is marked. */
static int fill(int x, int y, char mark)
{
    if (!is_free(x, y)) return 0;
    tiles[y][x] = mark;
    return 1 + fill(x + 1, y, mark) + fill(x - 1, y, mark) + fill(x, y + 1, mark) + fill(x, y - 1, mark);
}

static int larger_first(const void *a, const void *b)
{
    const struct field *one = a, *other = b;
    if (one->tiles != other->tiles) return other->tiles - one->tiles;
    return one->y != other->y ? one->y - other->y : one->x - other->x;
}

static int by_place(const void *a, const void *b)
{
    const struct field *one = a, *other = b;
    return one->y != other->y ? one->y - other->y : one->x - other->x;
}

static int read_tiles(void)
{
    char line[40];
    while (height < HEIGHT && fgets(line, sizeof line, stdin)) {
        int length = strcspn(line, "\n");
        if (length == 0) break;
        if (length > WIDTH) length = WIDTH;
        memset(tiles[height], '#', WIDTH);
        memcpy(tiles[height], line, length);
        if (length > width) width = length;
        height++;
    }
    return height > 0;
}

static void find_fields(void)
{
    for (int y = 0; y < height; y++)
        for (int x = 0; x < width; x++) {
            if (!is_free(x, y) || found == FIELDS) continue;
            struct field *field = &fields[found];
            field->x = x;
            field->y = y;
            field->tiles = fill(x, y, 'a' + found);
            found++;
        }
}

static void show(const char *title, int (*order)(const void *, const void *))
{
    qsort(fields, found, sizeof *fields, order);
    printf("%s:\n", title);
    for (int i = 0; i < found; i++) printf("  %2d tiles from %d,%d\n", fields[i].tiles, fields[i].x, fields[i].y);
}

static void show_tiles(void)
{
    for (int y = 0; y < height; y++) {
        for (int x = 0; x < width; x++) putchar(tiles[y][x]);
        putchar('\n');
    }
}

int main(void)
{
    if (!read_tiles()) {
        puts("no tiles");
        return 1;
    }
    find_fields();
    show_tiles();
    show("by size", larger_first);
    show("by place", by_place);
    return 0;
}
