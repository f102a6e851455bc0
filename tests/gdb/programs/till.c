/* Reads lines of a till, as "0730 tea 250", and prints how much was taken in each hour and for each kind of goods. */
#include <assert.h>
#include <ctype.h>
#include <stdio.h>
#include <string.h>

#define MOST_KINDS 8
#define MOST_LINE 80

/* A kind of goods: what it is called, how often it was sold, and for how much in all. */
struct kind {
    char name[12];
    int count;
    long cents;
};

/* The hours that the shop is open, from OPENS on. */
enum { OPENS = 7, CLOSES = 19, HOURS = CLOSES - OPENS };

static long taken[HOURS];
static struct kind kinds[MOST_KINDS];
static int used;

/* One line, without its end; 0 where there is none. */
static int read_line(char *line)
{
    int length = 0, c = getchar();
    if (c == EOF) return 0;
    for (; c != EOF && c != '\n'; c = getchar())
        if (length < MOST_LINE - 1) line[length++] = c;
    line[length] = 0;
    return 1;
}

static const char *skip(const char *at)
{
    while (isspace((unsigned char)*at)) at++;
    return at;
}

/* A number, and where it ends. */
static const char *number(const char *at, long *value)
{
    for (*value = 0; isdigit((unsigned char)*at); at++) *value = 10 * *value + (*at - '0');
    return at;
}

/* The kind of that name, which is made where there is none; the last one where there is no room. */
static struct kind *kind_of(const char *name, size_t length)
{
    if (length >= sizeof kinds->name) length = sizeof kinds->name - 1;
    for (int i = 0; i < used; i++)
        if (strlen(kinds[i].name) == length && !memcmp(kinds[i].name, name, length)) return &kinds[i];
    if (used == MOST_KINDS) return &kinds[MOST_KINDS - 1];
    memcpy(kinds[used].name, name, length);
    return &kinds[used++];
}

/* The place of a time, as 730 or 1845, among the hours that are open. */
static int hour_of(long time)
{
    long hour = time / 100, minutes = time % 100;
    if (minutes >= 30) hour++;
    if (hour < OPENS) return 0;
    return hour - OPENS;
}

static void enter(const char *line)
{
    long time, cents;
    const char *at = number(skip(line), &time), *name = skip(at);
    for (at = name; *at && !isspace((unsigned char)*at); at++) continue;
    struct kind *kind = kind_of(name, at - name);
    number(skip(at), &cents);
    kind->count++;
    kind->cents += cents;
    taken[hour_of(time)] += cents;
}

static void report(void)
{
    for (int hour = 0; hour < HOURS; hour++)
        if (taken[hour]) printf("%02d:00 %8ld.%02ld\n", OPENS + hour, taken[hour] / 100, taken[hour] % 100);
    for (int i = 0; i < used; i++)
        printf("%-12s %4d %5ld.%02ld\n", kinds[i].name, kinds[i].count, kinds[i].cents / 100, kinds[i].cents % 100);
}

/* What was taken in all hours is what was taken for all goods. */
static void check(void)
{
    long by_hour = 0, by_kind = 0;
    for (int hour = 0; hour < HOURS; hour++) by_hour += taken[hour];
    for (int i = 0; i < used; i++) by_kind += kinds[i].cents;
    assert(by_hour == by_kind);
}

int main(void)
{
    char line[MOST_LINE];
    while (read_line(line))
        if (*skip(line)) enter(line);
    check();
    report();
    return 0;
}
