/* The one locale. */
#include <limits.h>
#include <locale.h>
#include <string.h>

char *setlocale(int category, const char *name) {
    static char c_locale[] = "C";
    if (category < LC_CTYPE || category > LC_ALL) return NULL;
    return !name || !*name || strcmp(name, c_locale) == 0 || strcmp(name, "POSIX") == 0 ? c_locale : NULL;
}

struct lconv *localeconv(void) {
    static char point[] = ".", none[] = "";
    static struct lconv c_locale = {
        point,    none,     none,     none,     none,     none,     none,     none,
        none,     none,     CHAR_MAX, CHAR_MAX, CHAR_MAX, CHAR_MAX, CHAR_MAX, CHAR_MAX,
        CHAR_MAX, CHAR_MAX, CHAR_MAX, CHAR_MAX, CHAR_MAX, CHAR_MAX, CHAR_MAX, CHAR_MAX,
    };
    return &c_locale;
}
