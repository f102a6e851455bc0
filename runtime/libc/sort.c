/* qsort and bsearch. */
#include <stdint.h>
#include <stdlib.h>

/* (elements of any type are exchanged as words, where they lie at multiples of 4) */
typedef unsigned __attribute__((__may_alias__)) __word;

static void exchange_words(char *a, char *b, size_t size) {
    for (size_t at = 0; at < size; at += sizeof(__word)) {
        __word *one = (__word *)(a + at), *other = (__word *)(b + at), kept = *one;
        *one = *other;
        *other = kept;
    }
}

static void exchange_bytes(char *a, char *b, size_t size) {
    for (size_t at = 0; at < size; at++) {
        char kept = a[at];
        a[at] = b[at];
        b[at] = kept;
    }
}

struct heap {
    char *array;
    size_t size;
    int by_words;
    int (*compare)(const void *, const void *);
};

static void exchange(const struct heap *heap, char *a, char *b) {
    if (heap->by_words) exchange_words(a, b, heap->size);
    else exchange_bytes(a, b, heap->size);
}

/* Lets an element sink among the first so many (an offset in bytes) until no child is greater. */
static void sink(const struct heap *heap, size_t root, size_t end) {
    size_t child;
    while ((child = 2 * root + heap->size) < end) {
        char *greater = heap->array + child;
        if (child + heap->size < end && heap->compare(greater, greater + heap->size) < 0) greater += heap->size;
        if (heap->compare(heap->array + root, greater) >= 0) return;
        exchange(heap, heap->array + root, greater);
        root = (size_t)(greater - heap->array);
    }
}

void qsort(void *array, size_t count, size_t size, int (*compare)(const void *, const void *)) {
    struct heap heap = {array, size, ((uintptr_t)array | size) % sizeof(__word) == 0, compare};
    if (count < 2 || size == 0) return;
    for (size_t root = count / 2; root-- > 0;) sink(&heap, root * size, count * size);
    for (size_t end = (count - 1) * size; end > 0; end -= size) {
        exchange(&heap, heap.array, heap.array + end);
        sink(&heap, 0, end);
    }
}

void *bsearch(const void *key, const void *array, size_t count, size_t size,
              int (*compare)(const void *, const void *)) {
    const char *from = array;
    while (count > 0) {
        const char *middle = from + count / 2 * size;
        int order = compare(key, middle);
        if (order == 0) return (void *)middle;
        if (order > 0) {
            from = middle + size;
            count--;
        }
        count /= 2;
    }
    return NULL;
}
