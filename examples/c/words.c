#include "plug.h"
/* How often each word stands in the input: a hash table whose chains are pointers, shown in the order of the first places. */
#define NODES 500
#define BUCKETS 64
#define LONGEST 16
struct node { char name[LONGEST]; int count; struct node *next; };
static struct node nodes[NODES];
static int made;
static struct node *bucket[BUCKETS];
static char word[LONGEST];
static unsigned hash(void) {
    unsigned h = 5381;
    for (int i = 0; word[i]; i++) h = h * 33 ^ (unsigned char)word[i];
    return h & (BUCKETS - 1);
}
static void count(void) {
    unsigned h = hash();
    for (struct node *n = bucket[h]; n; n = n->next) {
        if (strcmp(n->name, word) == 0) { n->count++; return; }
    }
    if (made == NODES) quit(2);
    struct node *n = &nodes[made++];
    memcpy(n->name, word, LONGEST);
    n->count = 1;
    n->next = bucket[h];
    bucket[h] = n;
}
static void decimal(unsigned n) {
    char digits[10];
    int k = 0;
    do { digits[k++] = '0' + n % 10; n /= 10; } while (n);
    while (k > 0) put(digits[--k]);
}
int main(void) {
    int k = 0, c;
    do {
        c = get();
        if ((c >= 'a' && c <= 'z') || (c >= 'A' && c <= 'Z')) {
            if (k < LONGEST - 1) word[k++] = c | 32;
        } else if (k > 0) {
            while (k < LONGEST) word[k++] = 0;
            count();
            k = 0;
        }
    } while (c >= 0);
    for (int i = 0; i < made; i++) {
        for (int j = 0; nodes[i].name[j]; j++) put(nodes[i].name[j]);
        put(' '); decimal(nodes[i].count); put('\n');
    }
    return 0;
}
