/* Whole numbers from text: strtol and kin. */
#include <ctype.h>
#include <errno.h>
#include <limits.h>
#include <stdlib.h>

/* The value of a digit or a letter; 36 and more of what is neither. */
static unsigned value_of(char c) {
    if (isdigit((unsigned char)c)) return (unsigned char)c - '0';
    return isalpha((unsigned char)c) ? ((unsigned char)c | 32) - 'a' + 10 : 99;
}

struct number {
    unsigned long long magnitude;
    int minus, beyond;
};

/* number * base + digit, by halves, since there is a product of 32 bits alone; beyond tells that it has more than
   64. */
static void append(struct number *number, unsigned base, unsigned digit) {
    unsigned long long low = (number->magnitude & 0xFFFFFFFF) * base + digit;
    unsigned long long high = (number->magnitude >> 32) * base + (low >> 32);
    if (high >> 32) number->beyond = 1;
    number->magnitude = high << 32 | (low & 0xFFFFFFFF);
}

/* What stands before the digits: blanks, a sign, and 0x or 0 where the base allows for it or is open (0). */
static const char *begin_of(const char *at, int *base, int *minus) {
    while (isspace((unsigned char)*at)) at++;
    *minus = *at == '-';
    if (*at == '-' || *at == '+') at++;
    int is_hex = at[0] == '0' && (at[1] | 32) == 'x' && value_of(at[2]) < 16;
    if (*base == 0) *base = is_hex ? 16 : *at == '0' ? 8 : 10;
    return *base == 16 && is_hex ? at + 2 : at;
}

/* The number at the begin of a text, as strtol has it; the end, where it is asked for, is the text's begin where
   there is no number. */
static struct number number_of(const char *text, char **end, int base) {
    struct number number = {0, 0, 0};
    if (end) *end = (char *)text;
    if (base < 0 || base == 1 || base > 36) {
        errno = EINVAL;
        return number;
    }
    const char *at = begin_of(text, &base, &number.minus);
    if (value_of(*at) >= (unsigned)base) return number;
    do append(&number, (unsigned)base, value_of(*at++));
    while (value_of(*at) < (unsigned)base);
    if (end) *end = (char *)at;
    return number;
}

/* With a sign: the most is that of the type, the least one more below 0. */
static long long held(struct number number, unsigned long long most) {
    if (number.beyond || number.magnitude > most + number.minus) {
        errno = ERANGE;
        number.magnitude = most + number.minus;
    }
    return (long long)(number.minus ? -number.magnitude : number.magnitude);
}

/* Without one: a minus sign takes the number from the type's range. */
static unsigned long long held_unsigned(struct number number, unsigned long long most) {
    if (number.beyond || number.magnitude > most) {
        errno = ERANGE;
        return most;
    }
    return number.minus ? -number.magnitude : number.magnitude;
}

long strtol(const char *text, char **end, int base) { return (long)held(number_of(text, end, base), LONG_MAX); }
long long strtoll(const char *text, char **end, int base) { return held(number_of(text, end, base), LLONG_MAX); }

unsigned long strtoul(const char *text, char **end, int base) {
    return (unsigned long)held_unsigned(number_of(text, end, base), ULONG_MAX);
}

unsigned long long strtoull(const char *text, char **end, int base) {
    return held_unsigned(number_of(text, end, base), ULLONG_MAX);
}

int atoi(const char *text) { return (int)strtol(text, NULL, 10); }
long atol(const char *text) { return strtol(text, NULL, 10); }
long long atoll(const char *text) { return strtoll(text, NULL, 10); }
