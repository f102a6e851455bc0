/* accepted */
#include "plug.h"
static char line[100], best[100];
int main(void) {
    for (int k = 0; k < 1000; k++) {
        int n = 0, c;
        while ((c = get()) >= 0 && c != 10) {
            if (n < 99) line[n++] = c;
        }
        line[n] = 0;
        if (strlen(line) > strlen(best)) memcpy(best, line, sizeof best);
        if (c < 0) break;
    }
    for (int i = 0; best[i]; i++) put(best[i]);
    put(10);
    return 0;
}
