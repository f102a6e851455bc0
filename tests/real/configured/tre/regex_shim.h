/* musl's regular expressions over characters of one byte. */
#include "include/regex.h"
#include "wctype.h"

int tre_mbtowc(wchar_t *wide, const char *s, size_t n) {
    if (!n) return -1;
    *wide = (unsigned char)*s;
    return *s != 0;
}

static const char *const classes[12] = {"alnum", "alpha", "blank", "cntrl", "digit", "graph",
                                        "lower", "print", "punct", "space", "upper", "xdigit"};

wctype_t wctype(const char *name) {
    for (int i = 0; i < 12; i++)
        if (!strcmp(name, classes[i])) return i + 1;
    return 0;
}

int iswctype(wint_t c, wctype_t kind) {
    switch (kind) {
    case 1: return isalnum(c);
    case 2: return isalpha(c);
    case 3: return isblank(c);
    case 4: return iscntrl(c);
    case 5: return isdigit(c);
    case 6: return isgraph(c);
    case 7: return islower(c);
    case 8: return isprint(c);
    case 9: return ispunct(c);
    case 10: return isspace(c);
    case 11: return isupper(c);
    case 12: return isxdigit(c);
    }
    return 0;
}

int iswupper(wint_t c) { return isupper(c); }
int iswlower(wint_t c) { return islower(c); }
int iswalnum(wint_t c) { return isalnum(c); }
wint_t towlower(wint_t c) { return tolower(c); }
wint_t towupper(wint_t c) { return toupper(c); }
