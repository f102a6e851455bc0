/* A tokenizer as a state machine, a compiler to a stack code, and a machine by a table of functions. */
#include <assert.h>
#include <ctype.h>
#include <stdarg.h>
#include <stdint.h>
#include <stdio.h>
#include <string.h>

enum state { START, IN_NUMBER, IN_WORD, IN_COMMENT, DONE };
enum token_kind { T_NUMBER, T_WORD, T_OP, T_NEWLINE, T_END };
struct token {
    enum token_kind kind;
    union {
        int32_t number;
        char word[16];
        char op;
    } u;
};

static int pushed = -2;
static unsigned line = 1;
static int next(void) {
    int c = pushed != -2 ? pushed : getchar();
    pushed = -2;
    return c;
}
static void unread(int c) { pushed = c; }

static struct token scan(void) {
    struct token t = {T_END, {0}};
    enum state state = START;
    size_t used = 0;
    while (state != DONE) {
        int c = next();
        switch (state) {
        case START:
            if (c == EOF)
                state = DONE;
            else if (c == '\n') {
                t.kind = T_NEWLINE;
                line++;
                state = DONE;
            } else if (isspace(c))
                ;
            else if (c == '#')
                state = IN_COMMENT;
            else if (isdigit(c)) {
                t.kind = T_NUMBER;
                t.u.number = c - '0';
                state = IN_NUMBER;
            } else if (isalpha(c)) {
                t.kind = T_WORD;
                t.u.word[used++] = (char)c;
                state = IN_WORD;
            } else {
                t.kind = T_OP;
                t.u.op = (char)c;
                state = DONE;
            }
            break;
        case IN_NUMBER:
            if (isdigit(c))
                t.u.number = t.u.number * 10 + (c - '0');
            else {
                unread(c);
                state = DONE;
            }
            break;
        case IN_WORD:
            if (isalnum(c)) {
                if (used < sizeof t.u.word - 1) t.u.word[used++] = (char)c;
            } else {
                t.u.word[used] = 0;
                unread(c);
                state = DONE;
            }
            break;
        case IN_COMMENT:
            if (c == '\n' || c == EOF) {
                unread(c);
                state = START;
            }
            break;
        case DONE: assert(0);
        }
    }
    return t;
}

typedef enum { OP_PUSH, OP_LOAD, OP_STORE, OP_ADD, OP_SUB, OP_MUL, OP_DIV, OP_PRINT, OP_HALT, OPS } op_t;
static struct {
    op_t op;
    int32_t arg;
} code[256];
static unsigned used_code, errors;
static int32_t stack[32], cells[26];
static int top;

static void complain(const char *format, ...) {
    va_list ap;
    va_start(ap, format);
    printf("line %u: ", line);
    vprintf(format, ap);
    printf("\n");
    va_end(ap);
    errors++;
}

static void emit(op_t op, int32_t arg) {
    if (used_code == sizeof code / sizeof code[0]) {
        complain("code is full");
        return;
    }
    code[used_code].op = op;
    code[used_code++].arg = arg;
}

static int32_t pop(void) { return top > 0 ? stack[--top] : (complain("stack is empty"), 0); }
static void push(int32_t v) {
    if (top < 32)
        stack[top++] = v;
    else
        complain("stack is full");
}
static void do_push(int32_t arg) { push(arg); }
static void do_load(int32_t arg) { push(cells[arg]); }
static void do_store(int32_t arg) { cells[arg] = pop(); }
static void do_add(int32_t arg) {
    (void)arg;
    int32_t b = pop();
    push(pop() + b);
}
static void do_sub(int32_t arg) {
    (void)arg;
    int32_t b = pop();
    push(pop() - b);
}
static void do_mul(int32_t arg) {
    (void)arg;
    int32_t b = pop();
    push(pop() * b);
}
static void do_div(int32_t arg) {
    (void)arg;
    int32_t b = pop(), a = pop();
    if (b)
        push(a / b);
    else
        complain("%d / 0", a);
}
static void do_print(int32_t arg) {
    (void)arg;
    printf("= %d (0x%08X)\n", top ? stack[top - 1] : 0, top ? (unsigned)stack[top - 1] : 0);
    top = 0;
}
static void (*const table[OPS])(int32_t) = {
    [OP_PUSH] = do_push, [OP_LOAD] = do_load, [OP_STORE] = do_store, [OP_ADD] = do_add,
    [OP_SUB] = do_sub,   [OP_MUL] = do_mul,   [OP_DIV] = do_div,     [OP_PRINT] = do_print};

int main(void) {
    for (struct token t = scan(); t.kind != T_END; t = scan()) {
        switch (t.kind) {
        case T_NUMBER: emit(OP_PUSH, t.u.number); break;
        case T_WORD:
            if (strlen(t.u.word) == 1)
                emit(OP_LOAD, tolower((unsigned char)t.u.word[0]) - 'a');
            else if (!strncmp(t.u.word, "set", 3) && t.u.word[3])
                emit(OP_STORE, tolower((unsigned char)t.u.word[3]) - 'a');
            else
                complain("what is %s?", t.u.word);
            break;
        case T_OP: {
            const char *ops = "+-*/.", *found = strchr(ops, t.u.op);
            if (found && *found)
                emit((op_t)(OP_ADD + (found - ops)), 0);
            else
                complain("what is '%c'?", t.u.op);
            break;
        }
        default: break;
        }
    }
    emit(OP_HALT, 0);
    for (unsigned pc = 0; code[pc].op != OP_HALT; pc++) table[code[pc].op](code[pc].arg);
    printf("%u instructions, %u errors\n", used_code, errors);
    return errors > 255 ? 255 : (int)errors;
}
