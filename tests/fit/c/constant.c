/* stopped: pointer */
#include "plug.h"
/* A store by a pointer to what may be a constant. */
static const char fixed[8] = "fixed";
static char loose[8];
__attribute__((noipa)) static char *chosen(int c) { return c > 100 ? (char *)fixed : loose; }
int main(void) {
    char *p = chosen(get());
    for (int i = 0; i < 8; i++) { int c = get(); p[i] = c < 0 ? '.' : c; }
    for (int i = 0; i < 8; i++) put(p[i]);
    return 0;
}
