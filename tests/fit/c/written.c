/* refused: a constant is stored to */
#include "plug.h"
/* A store that is seen to go to a constant, by an index that isn't known. */
static const char fixed[8] = "fixed";
int main(void) {
    ((char *)fixed)[get() & 7] = '!';
    for (int i = 0; i < 8; i++) put(fixed[i]);
    return 0;
}
