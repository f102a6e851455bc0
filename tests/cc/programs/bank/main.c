#include <inttypes.h>
#include <stdio.h>
#include <stdlib.h>
#include <string.h>
#include "account.h"
#include "log.h"

static account *root;

static void show(const account *a, void *context) {
    int64_t *total = context;
    printf("%6" PRIu32 " %-9s %-12s %8" PRId64 ".%02d\n", a->id, account_kind_name(a->kind), a->owner, a->cents / 100,
           (int)(llabs(a->cents) % 100));
    *total += a->cents;
}

static void goodbye(void) { printf("warnings: %u, errors: %u\n", log_count(LOG_WARN), log_count(LOG_ERROR)); }

static int command_open(char *rest) {
    unsigned id;
    char kind[12], owner[24];
    if (sscanf(rest, "%u %11s %23s", &id, kind, owner) != 3) return -1;
    for (int k = 0; k < KINDS; k++)
        if (!strcmp(kind, account_kind_name(k))) return account_insert(&root, id, k, owner) ? 0 : -2;
    return -3;
}

static int command_pay(char *rest) {
    unsigned from, to;
    long long cents;
    if (sscanf(rest, "%u %u %lld", &from, &to, &cents) != 3) return -1;
    account *a = account_find(root, from), *b = account_find(root, to);
    if (!a || !b) return -4;
    return account_move(a, b, cents) ? 0 : -5;
}

static int command_put(char *rest) {
    unsigned id;
    long long cents;
    if (sscanf(rest, "%u %lld", &id, &cents) != 2) return -1;
    account *a = account_find(root, id);
    if (!a) return -4;
    a->cents += cents;
    return 0;
}

static const struct {
    const char *name;
    int (*run)(char *);
} commands[] = {{"open", command_open}, {"pay", command_pay}, {"put", command_put}};

int main(void) {
    char line[128];
    atexit(goodbye);
    for (int number = 1; fgets(line, sizeof line, stdin); number++) {
        char *space = strchr(line, ' ');
        if (!space) continue;
        *space = 0;
        int status = -9;
        for (size_t i = 0; i < sizeof commands / sizeof *commands; i++)
            if (!strcmp(line, commands[i].name)) status = commands[i].run(space + 1);
        if (status) log_line(LOG_ERROR, "line %d: status %d", number, status);
    }
    int64_t total = 0;
    account_walk(root, show, &total);
    printf("total %" PRId64 "\n", total);
    return total < 0;
}
