/* Means of numbers, by long doubles, and words of C that ask for little here: a variable of each thread's own, perror.
   The numbers of the inputs are such that a double holds all that comes up. */
#include <float.h>
#include <math.h>
#include <stdio.h>
#include <stdlib.h>
#include <string.h>

#define MOST 50

static _Thread_local long double numbers[MOST];
static __thread int count;

static int calls(void) {
    static _Thread_local int made;
    return ++made;
}

static int by_size(const void *a, const void *b) {
    long double one = *(const long double *)a, other = *(const long double *)b;
    return (one > other) - (one < other);
}

static long double mean(void) {
    long double sum = 0;
    for (int i = 0; i < count; i++) sum += numbers[i];
    calls();
    return count ? sum / count : -1.0L;
}

static void parts_of(long double x) {
    long double whole, rest = modfl(x, &whole);
    int exponent;
    long double fraction = frexpl(x, &exponent);
    printf("%Lg + %Lg, %Lg * 2^%d, %ld, %lld\n", whole, rest, fraction, exponent, lroundl(x), (long long)x);
}

int main(void) {
    char word[40], *end;
    while (count < MOST && scanf("%39s", word) == 1) {
        numbers[count] = strtold(word, &end);
        if (*end) {
            perror(word);
            printf("%s is no number\n", word);
            break;
        }
        count++;
    }
    long double more, held = mean();
    if (scanf(" and %Lf", &more) == 1) numbers[count ? count - 1 : count++] = more;
    qsort(numbers, (size_t)count, sizeof *numbers, by_size);
    printf("%d: mean %Lf, %.3Le, %Lg\n", count, held, mean(), floorl(mean()));
    for (int i = 0; i < count; i++) {
        printf("%10.3Lf|%-8.2Lg|%+.1Le|", numbers[i], numbers[i], numbers[i]);
        parts_of(numbers[i]);
    }
    printf("%Lg %Lg %Lg\n", sqrtl(6.25L * (count + 1) * (count + 1)), fmaxl(held, 2), copysignl(3, held));
    printf("%d %d %d\n", (float)held == held, calls(), LDBL_MAX >= DBL_MAX && sizeof held >= sizeof(double));
    return count % 100;
}
