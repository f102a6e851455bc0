/* Reads JSON into a tree, sorts the members, prints it indented. */
#include <ctype.h>
#include <stdbool.h>
#include <stdio.h>
#include <stdlib.h>
#include <string.h>

typedef enum { J_NULL, J_BOOL, J_NUMBER, J_STRING, J_ARRAY, J_OBJECT } kind_t;

typedef struct value value_t;
typedef struct {
    char *name;
    value_t *value;
} member_t;

struct value {
    kind_t kind;
    union {
        bool boolean;
        double number;
        char *string;
        struct {
            value_t **items;
            size_t count, room;
        } array;
        struct {
            member_t *members;
            size_t count, room;
        } object;
    } as;
};

static const char *text;
static size_t at;
static char *error;

static value_t *parse(void);

static void *checked(void *p) {
    if (!p) {
        puts("out of memory");
        exit(9);
    }
    return p;
}

static value_t *make(kind_t kind) {
    value_t *v = checked(calloc(1, sizeof *v));
    v->kind = kind;
    return v;
}

static void blanks(void) {
    while (isspace((unsigned char)text[at])) at++;
}

static value_t *fail(char *why) {
    if (!error) error = why;
    return NULL;
}

static char *parse_string(void) {
    size_t room = 8, used = 0;
    char *s = checked(malloc(room));
    at++;
    while (text[at] && text[at] != '"') {
        char c = text[at++];
        if (c == '\\') {
            switch (c = text[at++]) {
            case 'n': c = '\n'; break;
            case 't': c = '\t'; break;
            case '\0':
                fail("text ends in a string");
                free(s);
                return NULL;
            }
        }
        if (used + 1 == room) s = checked(realloc(s, room *= 2));
        s[used++] = c;
    }
    if (text[at] != '"') {
        free(s);
        fail("text ends in a string");
        return NULL;
    }
    at++;
    s[used] = 0;
    return s;
}

static value_t *parse_array(void) {
    value_t *v = make(J_ARRAY);
    at++;
    for (blanks(); text[at] != ']'; blanks()) {
        value_t *item = parse();
        if (!item) return NULL;
        if (v->as.array.count == v->as.array.room) {
            v->as.array.room = v->as.array.room ? 2 * v->as.array.room : 4;
            v->as.array.items = checked(realloc(v->as.array.items, v->as.array.room * sizeof(value_t *)));
        }
        v->as.array.items[v->as.array.count++] = item;
        blanks();
        if (text[at] == ',')
            at++;
        else if (text[at] != ']')
            return fail("expected , or ]");
    }
    at++;
    return v;
}

static value_t *parse_object(void) {
    value_t *v = make(J_OBJECT);
    at++;
    for (blanks(); text[at] != '}'; blanks()) {
        if (text[at] != '"') return fail("expected a name");
        char *name = parse_string();
        if (!name) return NULL;
        blanks();
        if (text[at++] != ':') return fail("expected :");
        value_t *item = parse();
        if (!item) return NULL;
        if (v->as.object.count == v->as.object.room) {
            v->as.object.room = v->as.object.room ? 2 * v->as.object.room : 4;
            v->as.object.members = checked(realloc(v->as.object.members, v->as.object.room * sizeof(member_t)));
        }
        v->as.object.members[v->as.object.count++] = (member_t){name, item};
        blanks();
        if (text[at] == ',')
            at++;
        else if (text[at] != '}')
            return fail("expected , or }");
    }
    at++;
    return v;
}

static value_t *parse(void) {
    blanks();
    value_t *v;
    switch (text[at]) {
    case '{': return parse_object();
    case '[': return parse_array();
    case '"':
        v = make(J_STRING);
        v->as.string = parse_string();
        return v->as.string ? v : NULL;
    case 't':
    case 'f':
        v = make(J_BOOL);
        v->as.boolean = text[at] == 't';
        at += v->as.boolean ? 4 : 5;
        return v;
    case 'n': at += 4; return make(J_NULL);
    default: break;
    }
    char *end;
    double number = strtod(text + at, &end);
    if (end == text + at) return fail("expected a value");
    at = end - text;
    v = make(J_NUMBER);
    v->as.number = number;
    return v;
}

static int by_name(const void *a, const void *b) {
    return strcmp(((const member_t *)a)->name, ((const member_t *)b)->name);
}

static void print(const value_t *v, int depth) {
    switch (v->kind) {
    case J_NULL: printf("null"); break;
    case J_BOOL: printf("%s", v->as.boolean ? "true" : "false"); break;
    case J_NUMBER: printf("%.12g", v->as.number); break;
    case J_STRING: printf("\"%s\"", v->as.string); break;
    case J_ARRAY:
        printf("[");
        for (size_t i = 0; i < v->as.array.count; i++) {
            printf("%s\n%*s", i ? "," : "", 2 * depth + 2, "");
            print(v->as.array.items[i], depth + 1);
        }
        printf("]");
        break;
    case J_OBJECT:
        qsort(v->as.object.members, v->as.object.count, sizeof(member_t), by_name);
        printf("{");
        for (size_t i = 0; i < v->as.object.count; i++) {
            printf("%s\n%*s\"%s\": ", i ? "," : "", 2 * depth + 2, "", v->as.object.members[i].name);
            print(v->as.object.members[i].value, depth + 1);
        }
        printf("}");
        break;
    }
}

int main(void) {
    static char input[8192];
    size_t n = fread(input, 1, sizeof input - 1, stdin);
    input[n] = 0;
    text = input;
    value_t *v = parse();
    if (!v) {
        printf("error at %zu: %s\n", at, error);
        return 1;
    }
    print(v, 0);
    putchar('\n');
    return 0;
}
