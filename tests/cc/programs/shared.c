/* What sources that may run beside themselves do to count, to hand over and to lock: builtins of __atomic and of
   __sync, of each size. */
#include <stdbool.h>
#include <stdint.h>
#include <stdio.h>
#include <stdlib.h>

struct text {
    int references;
    char letters[12];
};

struct place {
    int x, y;
};

static struct text *held(struct text *text) {
    __atomic_fetch_add(&text->references, 1, __ATOMIC_RELAXED);
    return text;
}

static void dropped(struct text *text) {
    if (__atomic_sub_fetch(&text->references, 1, __ATOMIC_ACQ_REL) != 0) return;
    printf("%s goes\n", text->letters);
    free(text);
}

static bool is_locked;

static void locked(struct text **to, struct text *is) {
    while (__atomic_test_and_set(&is_locked, __ATOMIC_ACQUIRE)) puts("waits");
    *to = __atomic_exchange_n(to, is, __ATOMIC_SEQ_CST) == is ? NULL : is;
    __sync_synchronize();
    __atomic_clear(&is_locked, __ATOMIC_RELEASE);
}

#define SHOW(value) printf("%s %lld\n", #value, (long long)(value))

#define CHANGED(type, by)                                                                                  \
    do {                                                                                                   \
        static type it = (type)0x0123456789ABCDEFLL;                                                       \
        type expected = (type)(it - by);                                                                   \
        SHOW(__atomic_fetch_add(&it, by, __ATOMIC_SEQ_CST));                                               \
        SHOW(__atomic_sub_fetch(&it, 3 * by, __ATOMIC_SEQ_CST));                                           \
        SHOW(__atomic_fetch_and(&it, ~by, __ATOMIC_SEQ_CST));                                              \
        SHOW(__sync_or_and_fetch(&it, 2 * by));                                                            \
        SHOW(__sync_fetch_and_xor(&it, 5 * by));                                                           \
        SHOW(__atomic_nand_fetch(&it, by, __ATOMIC_SEQ_CST));                                              \
        SHOW(__sync_bool_compare_and_swap(&it, expected, by));                                             \
        SHOW(__atomic_compare_exchange_n(&it, &expected, by, false, __ATOMIC_SEQ_CST, __ATOMIC_RELAXED));  \
        SHOW(expected);                                                                                    \
        SHOW(__atomic_compare_exchange_n(&it, &expected, by, false, __ATOMIC_SEQ_CST, __ATOMIC_RELAXED));  \
        SHOW(__sync_val_compare_and_swap(&it, by, expected));                                              \
        SHOW(__sync_lock_test_and_set(&it, by));                                                           \
        SHOW(__atomic_exchange_n(&it, expected, __ATOMIC_SEQ_CST));                                        \
        __atomic_store_n(&it, expected + by, __ATOMIC_RELEASE);                                            \
        SHOW(__atomic_load_n(&it, __ATOMIC_ACQUIRE));                                                      \
        __sync_lock_release(&it);                                                                          \
        SHOW(it);                                                                                          \
    } while (0)

static struct place here __attribute__((aligned(8))) = {1, 2}, there = {4, 5}, was;

int main(void) {
    struct text *text = calloc(1, sizeof *text), *one = held(text), *two = held(text), *other = NULL;
    int by = 0;
    if (scanf("%11s %d", text->letters, &by) != 2) return 1;
    dropped(one);
    locked(&other, two);
    SHOW(other == two);
    CHANGED(int8_t, by);
    CHANGED(uint16_t, by);
    CHANGED(int, by);
    CHANGED(long long, by);
    __atomic_exchange(&here, &there, &was, __ATOMIC_SEQ_CST);
    SHOW(was.y * 100 + here.y);
    SHOW(__atomic_compare_exchange(&here, &was, &there, false, __ATOMIC_SEQ_CST, __ATOMIC_SEQ_CST));
    __atomic_load(&here, &there, __ATOMIC_SEQ_CST);
    SHOW(was.x + there.y);
    dropped(two);
    return 0;
}
