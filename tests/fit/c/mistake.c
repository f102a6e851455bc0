/* stopped: index */
#include "plug.h"
static unsigned char name[32];
int main(void) {
    int n = get(), i;
    for (i = 0; i <= n; i++) name[i] = get();
    for (i = n; i >= 0; i--) put(name[i]);
    return 0;
}
