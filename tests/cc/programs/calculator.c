/* A recursive-descent calculator over lines of standard input. */
#include <ctype.h>
#include <math.h>

#include <stdarg.h>
#include <stdio.h>
#include <stdlib.h>
#include <string.h>

struct parser {
    const char *at;
    int depth;
    int failed;
    char message[80];
};

static double variables[26];

static void fail(struct parser *p, const char *format, ...) {
    va_list ap;
    if (p->failed) return;
    va_start(ap, format);
    vsnprintf(p->message, sizeof p->message, format, ap);
    va_end(ap);
    p->failed = 1;
    p->at += strlen(p->at);
}

static void skip(struct parser *p) {
    while (isspace((unsigned char)*p->at)) p->at++;
}

static double sum(struct parser *p);

static double primary(struct parser *p) {
    skip(p);
    if (*p->at == '(') {
        p->at++;
        if (++p->depth > 20) fail(p, "nested too deeply at '%.10s'", p->at);
        double value = sum(p);
        skip(p);
        if (*p->at != ')') fail(p, "expected ) but found '%c'", *p->at ? *p->at : '$');
        p->at++;
        p->depth--;
        return value;
    }
    if (*p->at == '-') {
        p->at++;
        return -primary(p);
    }
    if (isalpha((unsigned char)*p->at)) {
        int name = tolower((unsigned char)*p->at++) - 'a';
        return variables[name];
    }
    char *end;
    double value = strtod(p->at, &end);
    if (end == p->at) fail(p, "expected a number at '%s'", p->at);
    p->at = end;
    return value;
}

static double power(struct parser *p) {
    double base = primary(p);
    skip(p);
    if (*p->at != '^') return base;
    p->at++;
    int n = (int)power(p);
    double result = 1;
    for (int i = 0; i < abs(n) && i < 1000; i++) result *= base;
    return n < 0 ? 1 / result : result;
}

static double product(struct parser *p) {
    double value = power(p);
    for (;;) {
        skip(p);
        if (*p->at == '*') {
            p->at++;
            value *= power(p);
        } else if (*p->at == '/') {
            p->at++;
            double by = power(p);
            if (by == 0) fail(p, "division by zero");
            value /= by;
        } else
            return value;
    }
}

static double sum(struct parser *p) {
    double value = product(p);
    for (;;) {
        skip(p);
        if (*p->at == '+') {
            p->at++;
            value += product(p);
        } else if (*p->at == '-') {
            p->at++;
            value -= product(p);
        } else
            return value;
    }
}

int main(void) {
    char line[256];
    int number = 0, errors = 0;
    while (fgets(line, sizeof line, stdin)) {
        struct parser p = {.at = line};
        number++;
        line[strcspn(line, "\n")] = '\0';
        if (line[0] == '\0') continue;
        int target = -1;
        if (isalpha((unsigned char)line[0]) && strchr(line, '=')) {
            target = tolower((unsigned char)line[0]) - 'a';
            p.at = strchr(line, '=') + 1;
        }
        double value = sum(&p);
        skip(&p);
        if (*p.at) fail(&p, "trailing '%s'", p.at);
        if (!p.failed) {
            if (target >= 0) variables[target] = value;
            printf("%d: %.10g (floor %g)\n", number, value, floor(value));
        } else {
            errors++;
            printf("%d: error: %s\n", number, p.message);
        }
    }
    printf("%d lines, %d errors\n", number, errors);
    return errors ? EXIT_FAILURE : EXIT_SUCCESS;
}
