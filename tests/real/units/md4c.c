/* Markdown to HTML (md4c). */
#include "unit.h"
#include "src/md4c.c"
#include "entity.c"
#define ISDIGIT_ ISDIGIT
#undef ISDIGIT
#undef ISLOWER
#undef ISUPPER
#undef ISALNUM
#include "md4c-html.c"
static void take(const MD_CHAR *s, MD_SIZE n, void *x) { put_bytes(s, n); }
int main(void) {
    int n = read_input();
    return md_html((char *)in, n, take, NULL, 0, 0) != 0;
}
