#include "plug.h"

/* A tree of numbers that are read, each of two digits; puts out its depth and its sum. */
struct node {
    int left, right, key;
};
static struct node nodes[32];
static int used;

static int depth_of(int at) {
    if (at == 0) return 0;
    int left = depth_of(nodes[at & 31].left);
    int right = depth_of(nodes[at & 31].right);
    return 1 + (left > right ? left : right);
}

static int total_of(int at) {
    if (at == 0) return 0;
    return nodes[at & 31].key + total_of(nodes[at & 31].left) + total_of(nodes[at & 31].right);
}

static void insert(int key) {
    int *at = &used, made = ++used & 31;
    static int root;
    nodes[made].key = key;
    for (at = &root; *at; at = key < nodes[*at & 31].key ? &nodes[*at & 31].left : &nodes[*at & 31].right) {}
    *at = made;
}

int main(void) {
    for (int c; (c = get()) > ' ';) insert(10 * (c - '0') + get() - '0');
    put('0' + depth_of(1));
    put('0' + total_of(1) % 10);
    put('\n');
    return 0;
}
