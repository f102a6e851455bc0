/* What the library's headers have as macros or as functions in their callers, as functions with names. */
#include <assert.h>
#include <ctype.h>
#include <math.h>

int wrapped_ctype(int which, int c) {
    switch (which) {
    case 0: return isalnum(c) != 0;
    case 1: return isalpha(c) != 0;
    case 2: return isblank(c) != 0;
    case 3: return iscntrl(c) != 0;
    case 4: return isdigit(c) != 0;
    case 5: return isgraph(c) != 0;
    case 6: return islower(c) != 0;
    case 7: return isprint(c) != 0;
    case 8: return ispunct(c) != 0;
    case 9: return isspace(c) != 0;
    case 10: return isupper(c) != 0;
    case 11: return isxdigit(c) != 0;
    case 12: return tolower(c);
    default: return toupper(c);
    }
}

int wrapped_class(int which, double x) {
    switch (which) {
    case 0: return isnan(x) != 0;
    case 1: return isinf(x);
    case 2: return isfinite(x) != 0;
    case 3: return isnormal(x) != 0;
    case 4: return signbit(x) != 0;
    default: return fpclassify(x);
    }
}

int wrapped_order(int which, double x, double y) {
    switch (which) {
    case 0: return isgreater(x, y);
    case 1: return isgreaterequal(x, y);
    case 2: return isless(x, y);
    case 3: return islessequal(x, y);
    case 4: return islessgreater(x, y);
    default: return isunordered(x, y);
    }
}

int wrapped_assert(int condition) {
    assert(condition);
    return 1;
}
