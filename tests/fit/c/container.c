/* accepted */
/* From a field of bytes to what it is a field of: the address of the field is no multiple of 4. */
#include <stddef.h>
#include "plug.h"

struct node { unsigned count; char len; char text[7]; };

static struct node pool[4];
static char *names[4];

int main(void) {
    for (int i = 0; i < 4; i++) names[i] = pool[i].text;
    for (int c; (c = get()) >= 0;) {
        struct node *node = (struct node *)(names[c & 3] - offsetof(struct node, text));
        node->count++;
    }
    for (int i = 0; i < 4; i++) put('0' + pool[i].count);
    return 0;
}
