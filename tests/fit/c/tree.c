/* accepted */
#include "plug.h"
/* A binary tree of numbers, in nodes of an array, by pointers; printed in order with a stack of its own. */
struct node { int number, count; struct node *left, *right; };
static struct node nodes[100];
static int made;
static struct node *add(struct node *root, int number) {
    struct node **at = &root;
    while (*at) {
        if ((*at)->number == number) {
            (*at)->count++;
            return root;
        }
        at = number < (*at)->number ? &(*at)->left : &(*at)->right;
    }
    if (made < 100) {
        struct node *n = &nodes[made++];
        n->number = number;
        n->count = 1;
        *at = n;
    }
    return root;
}
int main(void) {
    struct node *root = NULL, *stack[100], *n;
    int top = 0;
    for (int c; (c = get()) >= 0;) root = add(root, c);
    for (n = root; n || top > 0;) {
        while (n && top < 100) {
            stack[top++] = n;
            n = n->left;
        }
        n = stack[--top];
        put("0123456789abcdef"[n->number >> 4 & 15]);
        put("0123456789abcdef"[n->number & 15]);
        put('a' + n->count % 26);
        n = n->right;
    }
    put('\n');
    return 0;
}
