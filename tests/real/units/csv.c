/* Comma-separated values (libcsv). */
#include "unit.h"
#include "libcsv.c"
static void one(void *s, size_t n, void *x) {
    put('[');
    put_bytes(s, n);
    put(']');
}
static void row(int c, void *x) { put('\n'); }
int main(void) {
    int n = read_input();
    struct csv_parser p;
    if (csv_init(&p, CSV_APPEND_NULL)) return 2;
    if (csv_parse(&p, in, n, one, row, NULL) != n) return 1;
    csv_fini(&p, one, row, NULL);
    return 0;
}
