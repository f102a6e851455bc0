/* Reads a drawing, as "circle 3" or "box 2 5" a line, and tells how large its shapes are, by what each kind calls. */
#include <ctype.h>
#include <stdio.h>
#include <string.h>

#define MOST_SHAPES 6

struct shape;

/* A kind of shapes: its name, how many numbers it has, and how large such a shape is. */
struct kind {
    const char *name;
    int sides;
    long (*area)(const struct shape *);
};

struct shape {
    const struct kind *kind;
    int side[2];
};

static struct shape shapes[MOST_SHAPES];
static int count, wrong;

static long circle(const struct shape *it) { return 314159L * it->side[0] * it->side[0] / 100000; }
static long box(const struct shape *it) { return (long)it->side[0] * it->side[1]; }
static long triangle(const struct shape *it) { return (long)it->side[0] * it->side[1] / 2; }

static const struct kind kinds[] = {{"circle", 1, circle}, {"box", 2, box}, {"triangle", 2, triangle}};

enum { KINDS = sizeof kinds / sizeof *kinds };

static int read_word(char *word, int size)
{
    int length = 0, c = getchar();
    while (c == ' ' || c == '\n') c = getchar();
    if (c == EOF) return 0;
    for (; c != EOF && !isspace(c); c = getchar())
        if (length < size - 1) word[length++] = c;
    word[length] = 0;
    return 1;
}

static int value_of(const char *word)
{
    int value = 0;
    for (; isdigit((unsigned char)*word); word++) value = 10 * value + (*word - '0');
    return value;
}

static const struct kind *kind_of(const char *name)
{
    for (int i = 0; i < KINDS; i++)
        if (!strcmp(kinds[i].name, name)) return &kinds[i];
    return NULL;
}

static int read_shape(struct shape *shape)
{
    char word[16];
    if (!read_word(word, sizeof word)) return 0;
    shape->kind = kind_of(word);
    for (int i = 0; shape->kind && i < shape->kind->sides; i++)
        if (read_word(word, sizeof word)) shape->side[i] = value_of(word);
    return 1;
}

/* Calls with each shape. */
static void each(void (*call)(const struct shape *, void *), void *with)
{
    for (int i = 0; i <= count; i++) call(&shapes[i], with);
}

static void print_area(const struct shape *it, void *total)
{
    long area = it->kind->area(it);
    *(long *)total += area;
    printf("%-8s %6ld\n", it->kind->name, area);
}

static void find_greatest(const struct shape *it, void *greatest)
{
    const struct shape **most = greatest;
    if (!*most || it->kind->area(it) > (*most)->kind->area(*most)) *most = it;
}

int main(void)
{
    long total = 0;
    const struct shape *greatest = NULL;
    while (count < MOST_SHAPES && read_shape(&shapes[count]))
        if (shapes[count].kind) count++; else wrong++;
    each(print_area, &total);
    each(find_greatest, &greatest);
    printf("%d shapes, %ld in all", count, total);
    if (greatest) printf(", the greatest a %s", greatest->kind->name);
    printf(", %d unknown\n", wrong);
    return 0;
}
