#include "account.h"
#include "log.h"
#include <stdlib.h>
#include <string.h>

static const char *const names[KINDS] = {[CHECKING] = "checking", [SAVINGS] = "savings", [CREDIT] = "credit"};
static const int64_t limits[KINDS] = {[CREDIT] = -100000};

const char *account_kind_name(enum account_kind kind) { return kind < KINDS ? names[kind] : "?"; }

account *account_insert(account **root, uint32_t id, enum account_kind kind, const char *owner) {
    while (*root) {
        if (id == (*root)->id) return NULL;
        root = id < (*root)->id ? &(*root)->left : &(*root)->right;
    }
    account *made = calloc(1, sizeof *made);
    if (!made) return NULL;
    made->id = id;
    made->kind = kind;
    strncpy(made->owner, owner, sizeof made->owner - 1);
    return *root = made;
}

account *account_find(account *root, uint32_t id) {
    while (root && root->id != id) root = id < root->id ? root->left : root->right;
    return root;
}

bool account_move(account *from, account *to, int64_t cents) {
    if (from->cents - cents < limits[from->kind]) {
        log_line(LOG_WARN, "account %u has only %lld of %lld", (unsigned)from->id, (long long)from->cents,
                 (long long)cents);
        return false;
    }
    from->cents -= cents;
    to->cents += cents;
    log_line(LOG_DEBUG, "moved %lld from %u to %u", (long long)cents, (unsigned)from->id, (unsigned)to->id);
    return true;
}

void account_walk(const account *root, void (*visit)(const account *, void *), void *context) {
    if (!root) return;
    account_walk(root->left, visit, context);
    visit(root, context);
    account_walk(root->right, visit, context);
}
