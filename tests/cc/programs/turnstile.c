/* Words of a small protocol by a stack of states, of which a state that isn't there ends the run, and shares of their
   letters: a compiler places what a branch leads to behind the call that never returns, and reads the codes of a
   quotient. */
#include <ctype.h>
#include <stdio.h>
#include <stdlib.h>
#include <string.h>

enum { START, WANT_NAME, WANT_EQUALS, WANT_VALUE, IN_LIST, LIST_COMMA, AFTER, BROKEN };

struct stack {
    unsigned char *states;
    size_t size, used;
};

static void push(struct stack *stack, int state) {
    if (stack->used == stack->size) {
        stack->size = stack->size ? 2 * stack->size : 4;
        stack->states = realloc(stack->states, stack->size);
        if (stack->states == NULL) exit(2);
    }
    stack->states[stack->used++] = (unsigned char)state;
}

#define HELD(stack) ((stack)->used > 0 ? (void)0 : abort())
#define TOP(stack) (HELD(stack), (stack)->states[(stack)->used - 1])
#define SET(stack, state) (HELD(stack), (stack)->states[(stack)->used - 1] = (state))

/* Takes a token; returns whether it fits. */
static int take(struct stack *stack, const char *token) {
again:
    switch (TOP(stack)) {
    case START:
        push(stack, WANT_NAME);
        goto again;
    case WANT_NAME:
        if (!isalpha((unsigned char)*token)) break;
        SET(stack, WANT_EQUALS);
        return 1;
    case WANT_EQUALS:
        if (strcmp(token, "=") != 0) break;
        SET(stack, WANT_VALUE);
        return 1;
    case WANT_VALUE:
        SET(stack, AFTER);
        if (strcmp(token, "[") == 0) push(stack, IN_LIST);
        return 1;
    case IN_LIST:
        if (strcmp(token, "[") == 0) return push(stack, IN_LIST), 1;
        if (strcmp(token, "]") == 0) return stack->used--, 1;
        SET(stack, LIST_COMMA);
        return 1;
    case LIST_COMMA:
        if (strcmp(token, "]") == 0) return stack->used--, 1;
        if (strcmp(token, ",") != 0) break;
        SET(stack, IN_LIST);
        return 1;
    case AFTER:
        if (strcmp(token, ";") != 0) break;
        stack->used--;
        return 1;
    case BROKEN:
        return 0;
    }
    SET(stack, BROKEN);
    return 0;
}

/* Parts a row of counts in so many groups, each of which has as much as is left for it. */
static void shared(const int *counts, int size, const int *groups, int many) {
    int left = 0, at = 0;
    for (int i = 0; i < size; i++) left += counts[i];
    for (int group = 0; group < many; group++) {
        int goal = left / groups[group], sum = 0, begin = at;
        while (sum < goal && at < size) sum += counts[at++];
        printf("%d..%d: %d of %d\n", begin, at, sum, goal);
        left -= sum;
    }
}

int main(void) {
    struct stack stack = {NULL, 0, 0};
    int counts[26] = {0}, groups[4] = {4, 3, 4, 1};
    char token[20];
    push(&stack, START);
    while (scanf("%19s", token) == 1) {
        for (const char *at = token; *at; at++)
            if (islower((unsigned char)*at)) counts[*at - 'a']++;
        int fits = take(&stack, token);
        printf("%s %d %zu\n", token, fits, stack.used);
        if (strcmp(token, "!") == 0) stack.used -= stack.used > 1, groups[2]--;
    }
    shared(counts, 26, groups, 4);
    return 0;
}
