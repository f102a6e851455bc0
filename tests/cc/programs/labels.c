/* A machine whose instructions are reached by the addresses of their labels: a word of the input is a letter and, for
   some, a number. What its labels are called stands once, in a list. */
#include <stdio.h>
#include <stdlib.h>
#include <string.h>
#include <strings.h>

#define INSTRUCTIONS(X) \
    X(halt) X(push) X(add) X(sub) X(mul) X(dup) X(swap) X(print) X(jump) X(zero) X(call) X(back) X(bit)
#define LETTERS "hpasmdwojzcbf"

enum { WORDS = 128, DEEP = 32, MOST = 20000 };

static struct instruction {
    unsigned char kind;
    int number;
} code[WORDS];
static int words;

static int read_code(void) {
    char letter;
    while (words < WORDS && scanf(" %c", &letter) == 1 && letter != '.') {
        const char *at = strchr(LETTERS, letter);
        if (!at) return 0;
        code[words].kind = (unsigned char)(at - LETTERS);
        if (strchr("pjzc", letter) && scanf("%d", &code[words].number) != 1) return 0;
        words++;
    }
    return words > 0;
}

static const char *ran(int *steps) {
    static const void *const places[] = {
#define PLACE(name) &&name,
        INSTRUCTIONS(PLACE)
    };
    int stack[DEEP], calls[DEEP], top = 0, depth = 0, at = 0, value;
    const struct instruction *it;
    const void *next;
#define NEXT \
    do { \
        if (at < 0 || at >= words || ++*steps > MOST) goto *(at < 0 || at >= words ? &&outside : &&long_run); \
        it = &code[at++]; \
        goto *places[it->kind]; \
    } while (0)
#define NEED(count) \
    if (top < count) return "too few numbers"
    NEXT;
halt:
    return "halted";
push:
    if (top == DEEP) return "too many numbers";
    stack[top++] = it->number;
    NEXT;
add:
    NEED(2);
    top--;
    stack[top - 1] += stack[top];
    NEXT;
sub:
    NEED(2);
    top--;
    stack[top - 1] -= stack[top];
    NEXT;
mul:
    NEED(2);
    top--;
    stack[top - 1] *= stack[top];
    NEXT;
dup:
    NEED(1);
    if (top == DEEP) return "too many numbers";
    stack[top] = stack[top - 1];
    top++;
    NEXT;
swap:
    NEED(2);
    value = stack[top - 1];
    stack[top - 1] = stack[top - 2];
    stack[top - 2] = value;
    NEXT;
print:
    NEED(1);
    printf("%d\n", stack[--top]);
    NEXT;
jump:
    at = it->number;
    NEXT;
zero:
    NEED(1);
    next = stack[--top] == 0 ? &&jump : &&on;
    goto *next;
on:
    NEXT;
call:
    if (depth == DEEP) return "too many calls";
    calls[depth++] = at;
    at = it->number;
    NEXT;
back:
    if (depth == 0) return "no call";
    at = calls[--depth];
    NEXT;
bit:
    NEED(1);
    stack[top - 1] = ffs(stack[top - 1]);
    NEXT;
outside:
    return "outside";
long_run:
    return "too long";
}

int main(void) {
    int steps = 0;
    if (!read_code()) {
        puts("no code");
        return 1;
    }
    const char *why = ran(&steps);
    printf("%s after %d steps\n", why, steps);
    return strcmp(why, "halted") != 0;
}
