/* Counts words in a hash table with chaining, sorts by count, prints the top. */
#include <ctype.h>
#include <stdio.h>
#include <stdlib.h>
#include <string.h>

#define BUCKETS 257

typedef struct entry {
    char *word;
    unsigned count;
    struct entry *next;
} entry_t;

static entry_t *table[BUCKETS];
static size_t entries;

static unsigned hash(const char *s) {
    unsigned h = 5381;
    while (*s) h = h * 33 + (unsigned char)*s++;
    return h % BUCKETS;
}

static entry_t *lookup(const char *word) {
    unsigned h = hash(word);
    for (entry_t *e = table[h]; e != NULL; e = e->next)
        if (strcmp(e->word, word) == 0) return e;
    entry_t *e = malloc(sizeof *e);
    if (e == NULL) {
        fprintf(stderr, "out of memory\n");
        exit(2);
    }
    e->word = strdup(word);
    if (!e->word) exit(2);
    e->count = 0;
    e->next = table[h];
    table[h] = e;
    entries++;
    return e;
}

static int by_count(const void *a, const void *b) {
    const entry_t *x = *(entry_t *const *)a, *y = *(entry_t *const *)b;
    if (x->count != y->count) return x->count < y->count ? 1 : -1;
    return strcmp(x->word, y->word);
}

static void for_each(void (*visit)(entry_t *, void *), void *context) {
    for (int i = 0; i < BUCKETS; i++)
        for (entry_t *e = table[i], *next; e; e = next) {
            next = e->next;
            visit(e, context);
        }
}

struct collector {
    entry_t **all;
    size_t used;
};

static void collect(entry_t *e, void *context) {
    struct collector *c = context;
    c->all[c->used++] = e;
}

static void release(entry_t *e, void *context) {
    unsigned *freed = context;
    free(e->word);
    free(e);
    ++*freed;
}

int main(int argc, char **argv) {
    char line[1024];
    size_t lines = 0, words = 0, top = argc > 1 ? (size_t)atoi(argv[1]) : 10;
    while (fgets(line, sizeof line, stdin) != NULL) {
        lines++;
        for (char *p = line; *p; p++) *p = tolower((unsigned char)*p);
        for (char *w = strtok(line, " \t\r\n.,;:!?()[]{}\"'`|*#-/<>=_"); w;
             w = strtok(NULL, " \t\r\n.,;:!?()[]{}\"'`|*#-/<>=_")) {
            lookup(w)->count++;
            words++;
        }
    }
    struct collector c = {malloc(entries * sizeof(entry_t *)), 0};
    if (entries && !c.all) return 3;
    for_each(collect, &c);
    qsort(c.all, c.used, sizeof *c.all, by_count);
    printf("%zu lines, %zu words, %zu different\n", lines, words, entries);
    for (size_t i = 0; i < c.used && i < top; i++)
        printf("%5u %-20s %5.1f%%\n", c.all[i]->count, c.all[i]->word, 100.0 * c.all[i]->count / words);
    free(c.all);
    unsigned freed = 0;
    for_each(release, &freed);
    printf("freed %u\n", freed);
    return freed == entries ? 0 : 1;
}
