/* Regular expressions (musl). */
#include "unit.h"
#include "regex_shim.h"
int main(void) {
    int n = read_input(), k = 0;
    in[n] = 0;
    while (k < n && in[k] != '\n') k++;
    in[k] = 0;
    regex_t r;
    regmatch_t m[4];
    int e = regcomp(&r, (char *)in, REG_EXTENDED);
    put_word(e);
    if (e) return 1;
    for (char *s = (char *)in + k + 1; s < (char *)in + n;) {
        char *t = s;
        while (*t && *t != '\n') t++;
        *t = 0;
        e = regexec(&r, s, 4, m, 0);
        if (!e)
            for (int i = 0; i < 4; i++) {
                put_word(m[i].rm_so);
                put_word(m[i].rm_eo);
            }
        else
            put('-');
        put('\n');
        s = t + 1;
    }
    return 0;
}
