#include "plug.h"
/* Is the input one JSON value? An explicit stack of open brackets, 64 deep. */
static char stack[64];
static int depth, look;
static void next(void) { look = get(); }
static void blanks(void) { while (look == ' ' || look == '\n' || look == '\t' || look == '\r') next(); }
static int is_digit(int c) { return c >= '0' && c <= '9'; }
static int is_hex(int c) { return is_digit(c) || (c >= 'a' && c <= 'f') || (c >= 'A' && c <= 'F'); }
static int string(void) {
    next();
    while (look != '"') {
        if (look < 32) return 0;
        if (look == '\\') {
            next();
            switch (look) {
            case '"': case '\\': case '/': case 'b': case 'f': case 'n': case 'r': case 't': break;
            case 'u':
                for (int i = 0; i < 4; i++) { next(); if (!is_hex(look)) return 0; }
                break;
            default: return 0;
            }
        }
        next();
    }
    next();
    return 1;
}
static int number(void) {
    if (look == '-') next();
    if (look == '0') next();
    else { if (!is_digit(look)) return 0; while (is_digit(look)) next(); }
    if (look == '.') { next(); if (!is_digit(look)) return 0; while (is_digit(look)) next(); }
    if (look == 'e' || look == 'E') {
        next();
        if (look == '+' || look == '-') next();
        if (!is_digit(look)) return 0;
        while (is_digit(look)) next();
    }
    return 1;
}
static int literal(const char *s) {
    for (; *s; s++) { if (look != *s) return 0; next(); }
    return 1;
}
static int value(void) {
    /* states: 0 a value is asked for, 1 one was read */
    int state = 0;
    for (;;) {
        blanks();
        if (state == 0) {
            if (look == '{' || look == '[') {
                if (depth == sizeof stack) return 0;
                stack[depth++] = look;
                int open = look;
                next(); blanks();
                if (open == '[' && look == ']') { next(); depth--; state = 1; }
                else if (open == '{' && look == '}') { next(); depth--; state = 1; }
                else if (open == '{') {
                    if (look != '"' || !string()) return 0;
                    blanks();
                    if (look != ':') return 0;
                    next();
                }
            } else {
                int ok = look == '"' ? string() : look == 't' ? literal("true") : look == 'f' ? literal("false")
                       : look == 'n' ? literal("null") : number();
                if (!ok) return 0;
                state = 1;
            }
        } else {
            if (depth == 0) return look == -1;
            int top = stack[depth - 1];
            if (look == ',') {
                next();
                if (top == '{') {
                    blanks();
                    if (look != '"' || !string()) return 0;
                    blanks();
                    if (look != ':') return 0;
                    next();
                }
                state = 0;
            } else if ((look == ']' && top == '[') || (look == '}' && top == '{')) { next(); depth--; }
            else return 0;
        }
    }
}
int main(void) {
    next();
    int ok = value();
    put(ok ? 'y' : 'n'); put('\n');
    return !ok;
}
