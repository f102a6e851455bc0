/* JSON read and written again (jansson). */
#include "unit.h"
#include "jansson.h"
volatile uint32_t hashtable_seed = 1;
void json_object_seed(size_t seed) {}
int main(void) {
    int n = read_input();
    json_error_t e;
    json_t *j = json_loadb((char *)in, n, JSON_DECODE_ANY | JSON_ALLOW_NUL, &e);
    if (!j) {
        printf("%d:%d: %s\n", e.line, e.column, e.text);
        return 1;
    }
    char *s = json_dumps(j, JSON_INDENT(2) | JSON_SORT_KEYS | JSON_ENCODE_ANY | JSON_ENSURE_ASCII);
    if (!s) return 2;
    puts(s);
    free(s);
    json_decref(j);
    return 0;
}
