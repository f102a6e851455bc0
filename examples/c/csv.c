#include "plug.h"
/* The second and the fourth column of comma-separated lines, quotes undone, with a tab between them. */
#define ROOM 80
static char cell[2][ROOM];
static int used[2];
static void add(int which, int c) {
    if (used[which] < ROOM) cell[which][used[which]++] = c;
}
static void show(int which) {
    for (int i = 0; i < used[which]; i++) put(cell[which][i]);
    used[which] = 0;
}
int main(void) {
    int column = 0, quoted = 0, any = 0, c;
    while ((c = get()) >= 0) {
        any = 1;
        if (c == '"') { quoted = !quoted; continue; }
        if (!quoted && c == ',') { column++; continue; }
        if (!quoted && c == '\n') {
            show(0); put('\t'); show(1); put('\n');
            column = 0;
            any = 0;
            continue;
        }
        if (column == 1) add(0, c);
        if (column == 3) add(1, c);
    }
    if (any) { show(0); put('\t'); show(1); put('\n'); }
    return 0;
}
