/* The tokens of JSON (jsmn). */
#include "unit.h"
#include "jsmn.h"
static jsmntok_t t[512];
int main(void) {
    int n = read_input();
    jsmn_parser p;
    jsmn_init(&p);
    int m = jsmn_parse(&p, (char *)in, n, t, 512);
    put_word(m);
    for (int i = 0; i < m; i++) {
        put('0' + t[i].type);
        put_word(t[i].start);
        put_word(t[i].end);
        put_word(t[i].size);
    }
    return m < 0;
}
