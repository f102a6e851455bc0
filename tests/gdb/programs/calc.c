/* A calculator of whole numbers: lines as "x = 3 * (4 + 5)" or "max(x, 7) - 1". */
#include <ctype.h>
#include <setjmp.h>
#include <stdio.h>
#include <stdlib.h>
#include <string.h>

struct variable {
    char name[8];
    long value;
    struct variable *next;
};

typedef long (*function)(long, long);

struct builtin {
    const char *name;
    function call;
};

static struct variable *variables;
static jmp_buf wrong;
static const char *at;

static long least(long a, long b) { return a < b ? a : b; }
static long greatest(long a, long b) { return a > b ? a : b; }
static long power(long a, long b) { return b == 0 ? 1 : a * power(a, b - 1); }
static const struct builtin builtins[] = {{"min", least}, {"max", greatest}, {"pow", power}};

static void skip(void)
{
    while (isspace((unsigned char)*at)) at++;
}

static int takes(char c)
{
    skip();
    if (*at != c) return 0;
    at++;
    return 1;
}

static void word(char *to)
{
    skip();
    while (isalpha((unsigned char)*at)) *to++ = *at++;
    *to = 0;
}

/* The variable of that name, made with 0 where there is none. */
static struct variable *variable(const char *name)
{
    struct variable *it;
    for (it = variables; it; it = it->next)
        if (!strcmp(it->name, name)) return it;
    it = malloc(sizeof *it);
    if (!it) longjmp(wrong, 1);
    it->value = 0;
    it->next = variables;
    strcpy(it->name, name);
    return variables = it;
}

static long sum(void);

static long call(const struct builtin *builtin)
{
    long a = sum(), b = takes(',') ? sum() : 0;
    if (!takes(')')) longjmp(wrong, 2);
    return builtin->call(a, b);
}

static long factor(void)
{
    char name[32];
    skip();
    if (isdigit((unsigned char)*at)) return strtol(at, (char **)&at, 10);
    if (takes('-')) return -factor();
    if (takes('(')) {
        long value = sum();
        if (!takes(')')) longjmp(wrong, 2);
        return value;
    }
    word(name);
    if (!*name) longjmp(wrong, 3);
    if (!takes('(')) return variable(name)->value;
    for (size_t i = 0; i < sizeof builtins / sizeof *builtins; i++)
        if (!strcmp(builtins[i].name, name)) return call(&builtins[i]);
    longjmp(wrong, 4);
}

static long product(void)
{
    long value = factor();
    for (;;)
        if (takes('*')) value *= factor();
        else if (takes('/')) value /= factor();
        else return value;
}

static long sum(void)
{
    long value = product();
    for (;;)
        if (takes('+')) value += product();
        else if (takes('-')) value -= product();
        else return value;
}

int main(void)
{
    static const char *const why[] = {"", "no memory", "a ) lacks", "a number lacks", "no such function"};
    char line[80], name[32];
    while (fgets(line, sizeof line, stdin)) {
        int fault = setjmp(wrong);
        if (fault) { printf("? %s\n", why[fault]); continue; }
        at = line;
        word(name);
        if (*name && takes('=')) variable(name)->value = sum();
        else { at = line; printf("%ld\n", sum()); }
    }
    return 0;
}
