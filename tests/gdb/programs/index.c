/* Counts how often each word of a text comes, by a table of chains, and prints the words that come most often. */
#include <ctype.h>
#include <stdio.h>
#include <string.h>

#define MOST_WORDS 200
#define CHAINS 16
#define SHOWN 5

/* A word, how often it came, and the next one in its chain. */
struct entry {
    int count;
    char text[12];
    struct entry *next;
};

static struct entry entries[MOST_WORDS];
static struct entry *chains[CHAINS];
static int used;

static unsigned hash(const char *text)
{
    unsigned sum = 5381;
    while (*text) sum = sum * 33 + (unsigned char)*text++;
    return sum % CHAINS;
}

/* The next word of the input, in small letters; 0 at its end. */
static int read_word(char *word, int size)
{
    int length = 0, c = getchar();
    while (c != EOF && !isalpha(c)) c = getchar();
    if (c == EOF) return 0;
    for (; c != EOF && isalpha(c); c = getchar())
        if (length < size - 1) word[length++] = tolower(c);
    word[length] = 0;
    return 1;
}

static struct entry *find(const char *word)
{
    for (struct entry *at = chains[hash(word)]; at; at = at->next)
        if (!strcmp(at->text, word)) return at;
    return NULL;
}

static struct entry *add(const char *word)
{
    if (used == MOST_WORDS) return NULL;
    struct entry *made = &entries[used++], **chain = &chains[hash(word)];
    made->next = *chain;
    *chain = made;
    strcpy(made->text, word);
    return made;
}

static void count(const char *word)
{
    struct entry *found = find(word);
    if (!found) found = add(word);
    if (found) found->count++;
}

/* The entry that comes most often of those not yet shown; its count is taken away. */
static struct entry *take_most(int *times)
{
    struct entry *most = NULL;
    for (int chain = 0; chain < CHAINS; chain++)
        for (struct entry *at = chains[chain]; at; at = at->next)
            if (at->count && (!most || at->count > most->count)) most = at;
    if (most) {
        *times = most->count;
        most->count = 0;
    }
    return most;
}

static void report(void)
{
    for (int shown = 0; shown < SHOWN; shown++) {
        int times;
        struct entry *most = take_most(&times);
        if (!most) break;
        printf("%4d %s\n", times, most->text);
    }
}

int main(void)
{
    char word[32];
    while (read_word(word, sizeof word)) count(word);
    printf("%d words\n", used);
    report();
    return 0;
}
