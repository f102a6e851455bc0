/* What a compiler calls for __atomic and __sync, which ordinary sources count references with. A program is one thread,
   so what is read is still there when the result is written, and the order that is asked for says nothing. */
typedef unsigned char u8;
typedef unsigned short u16;
typedef unsigned int u32;
typedef unsigned long long u64;
typedef unsigned long size;

void *memcpy(void *, const void *, size);
int memcmp(const void *, const void *, size);

/* A function by the name that compilers call it by, which in C is a builtin's. */
#define NAMED(result, name, parameters) result name parameters __asm__("__" #name); result name parameters

/* An operation: what was there, and what is there then. */
#define CHANGES(type, bytes, name, changed)                                                                   \
    NAMED(type, atomic_fetch_##name##_##bytes, (volatile void *at, type by, int order)) {                     \
        type was = *(volatile type *)at;                                                                      \
        (void)order;                                                                                          \
        *(volatile type *)at = (type)(changed);                                                               \
        return was;                                                                                           \
    }                                                                                                         \
    NAMED(type, atomic_##name##_fetch_##bytes, (volatile void *at, type by, int order)) {                     \
        type was = *(volatile type *)at, is = (type)(changed);                                                \
        (void)order;                                                                                          \
        return *(volatile type *)at = is;                                                                     \
    }                                                                                                         \
    NAMED(type, sync_fetch_and_##name##_##bytes, (volatile void *at, type by)) {                              \
        return atomic_fetch_##name##_##bytes(at, by, 0);                                                      \
    }                                                                                                         \
    NAMED(type, sync_##name##_and_fetch_##bytes, (volatile void *at, type by)) {                              \
        return atomic_##name##_fetch_##bytes(at, by, 0);                                                      \
    }

#define OF_SIZE(type, bytes)                                                                                  \
    CHANGES(type, bytes, add, was + by)                                                                       \
    CHANGES(type, bytes, sub, was - by)                                                                       \
    CHANGES(type, bytes, and, was & by)                                                                       \
    CHANGES(type, bytes, or, was | by)                                                                        \
    CHANGES(type, bytes, xor, was ^ by)                                                                       \
    CHANGES(type, bytes, nand, ~(was & by))                                                                   \
    NAMED(type, atomic_load_##bytes, (const volatile void *at, int order)) {                                  \
        (void)order;                                                                                          \
        return *(const volatile type *)at;                                                                    \
    }                                                                                                         \
    NAMED(void, atomic_store_##bytes, (volatile void *at, type is, int order)) {                              \
        (void)order;                                                                                          \
        *(volatile type *)at = is;                                                                            \
    }                                                                                                         \
    NAMED(type, atomic_exchange_##bytes, (volatile void *at, type is, int order)) {                           \
        type was = *(volatile type *)at;                                                                      \
        (void)order;                                                                                          \
        *(volatile type *)at = is;                                                                            \
        return was;                                                                                           \
    }                                                                                                         \
    NAMED(type, sync_lock_test_and_set_##bytes, (volatile void *at, type is)) {                               \
        return atomic_exchange_##bytes(at, is, 0);                                                            \
    }                                                                                                         \
    NAMED(type, sync_val_compare_and_swap_##bytes, (volatile void *at, type expected, type is)) {             \
        type was = *(volatile type *)at;                                                                      \
        if (was == expected) *(volatile type *)at = is;                                                       \
        return was;                                                                                           \
    }                                                                                                         \
    NAMED(_Bool, sync_bool_compare_and_swap_##bytes, (volatile void *at, type expected, type is)) {           \
        return sync_val_compare_and_swap_##bytes(at, expected, is) == expected;                               \
    }                                                                                                         \
    NAMED(_Bool, atomic_compare_exchange_##bytes,                                                             \
          (volatile void *at, void *expected, type is, int order, int otherwise)) {                           \
        type was = *(volatile type *)at;                                                                      \
        (void)order, (void)otherwise;                                                                         \
        if (was != *(type *)expected) return *(type *)expected = was, 0;                                      \
        *(volatile type *)at = is;                                                                            \
        return 1;                                                                                             \
    }

OF_SIZE(u8, 1)
OF_SIZE(u16, 2)
OF_SIZE(u32, 4)
OF_SIZE(u64, 8)

/* Of objects of other sizes. */
NAMED(void, atomic_load, (size bytes, const void *at, void *to, int order)) {
    (void)order;
    memcpy(to, at, bytes);
}

NAMED(void, atomic_store, (size bytes, void *at, const void *from, int order)) {
    (void)order;
    memcpy(at, from, bytes);
}

NAMED(void, atomic_exchange, (size bytes, void *at, const void *from, void *to, int order)) {
    (void)order;
    memcpy(to, at, bytes);
    memcpy(at, from, bytes);
}

NAMED(_Bool, atomic_compare_exchange,
      (size bytes, void *at, void *expected, const void *from, int order, int otherwise)) {
    _Bool is_same = memcmp(at, expected, bytes) == 0;
    (void)order, (void)otherwise;
    memcpy(is_same ? at : expected, is_same ? from : at, bytes);
    return is_same;
}
