/* scanf's conversions of doubles: the bytes of a number, as far as they go, and strtod. */
#include <ctype.h>
#include <stdlib.h>
#include "scan.h"

/* A number of more bytes ends the run: what it says can't be told without them. */
#define MOST 1200

/* The bytes so far, and the next one, or EOF. */
static struct {
    char text[MOST + 1];
    int size, next;
} item;

static void keep(void) {
    if (item.size == MOST) abort();
    item.text[item.size++] = (char)item.next;
    item.next = take_of_field();
}

/* Keeps the bytes of a word, in whatever case, and tells whether all of it was there. */
static int keep_word(const char *word) {
    for (; *word; word++) {
        if (item.next < 0 || (item.next | 32) != *word) return 0;
        keep();
    }
    return 1;
}

static int keep_digits(int is_hex) {
    int count = 0;
    for (; is_hex ? isxdigit(item.next) : isdigit(item.next); count++) keep();
    return count;
}

/* Keeps an exponent, if there is one: it has to have a digit then. */
static int keep_exponent(char letter) {
    if (item.next < 0 || (item.next | 32) != letter) return 1;
    keep();
    if (item.next == '-' || item.next == '+') keep();
    return keep_digits(0) > 0;
}

/* Whether the bytes are a number; item has them, and the byte behind. */
static int keep_number(void) {
    int is_hex = 0, count = 0;
    if (item.next == '-' || item.next == '+') keep();
    if (item.next == 'n' || item.next == 'N') return keep_word("nan");
    if (item.next == 'i' || item.next == 'I')
        return keep_word("inf") &&
               ((item.next != 'i' && item.next != 'I') || keep_word("inity"));
    if (item.next == '0') {
        count = 1;
        keep();
        is_hex = item.next == 'x' || item.next == 'X';
    }
    if (is_hex) {
        count = 0;
        keep();
    }
    count += keep_digits(is_hex);
    if (item.next == '.') {
        keep();
        count += keep_digits(is_hex);
    }
    return count > 0 && keep_exponent(is_hex ? 'p' : 'e');
}

enum outcome __scan_double(void) {
    item.size = 0;
    item.next = take_of_field();
    if (item.next < 0) return ENDED;
    int is_number = keep_number();
    give_back(item.next);
    if (!is_number) return FAILED;
    item.text[item.size] = 0;
    if (!__scan.is_kept) return MATCHED;
    if (__scan.length == 'l' || __scan.length == 'L') *va_arg(__scan.arguments, double *) = strtod(item.text, NULL);
    else *va_arg(__scan.arguments, float *) = strtof(item.text, NULL);
    return MATCHED;
}
