#ifndef ACCOUNT_H
#define ACCOUNT_H
#include <stdbool.h>
#include <stdint.h>
enum account_kind { CHECKING, SAVINGS, CREDIT, KINDS };
typedef struct account {
    uint32_t id;
    enum account_kind kind;
    int64_t cents;
    char owner[24];
    struct account *left, *right;
} account;
account *account_insert(account **root, uint32_t id, enum account_kind kind, const char *owner);
account *account_find(account *root, uint32_t id);
bool account_move(account *from, account *to, int64_t cents);
void account_walk(const account *root, void (*visit)(const account *, void *), void *context);
const char *account_kind_name(enum account_kind kind);
#endif
