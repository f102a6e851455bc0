/* scanf: formats and texts at random. */
#include "beside.h"

#ifndef OURS
#include <stdio.h>
#include <string.h>
#endif

#define SLOTS 4
#define ROOM 128

/* What a conversion stores into: H is char, h short, l long, q long long, f float, d double, s text, and -
   nothing. */
struct conversion {
    const char *text;
    char kind;
};

static const struct conversion conversions[] = {
    {"%d", 'i'},      {"%3d", 'i'},    {"%i", 'i'},    {"%5i", 'i'},    {"%u", 'i'},     {"%x", 'i'},
    {"%X", 'i'},      {"%o", 'i'},     {"%4x", 'i'},   {"%hhd", 'H'},   {"%hd", 'h'},    {"%hu", 'h'},
    {"%ld", 'l'},     {"%lu", 'l'},    {"%lld", 'q'},  {"%llx", 'q'},   {"%jd", 'q'},    {"%s", 's'},
    {"%3s", 's'},     {"%c", 's'},     {"%4c", 's'},   {"%[abc]", 's'}, {"%[^ ,]", 's'}, {"%5[0-9]", 's'},
    {"%[]x]", 's'},   {"%[^]x]", 's'}, {"%[a-]", 's'}, {"%*d", '-'},    {"%*s", '-'},    {"%*c", '-'},
    {"%*[a-c]", '-'}, {"%f", 'f'},     {"%lf", 'd'},   {"%le", 'd'},    {"%6lg", 'd'},   {"%*f", '-'},
    {"%n", 'i'},      {"%hhn", 'H'},   {"%%", '-'},    {" ", '-'},      {",", '-'},      {"a", '-'},
    {"\n", '-'},
};
#define CONVERSIONS (sizeof conversions / sizeof conversions[0])

union slot {
    char bytes[ROOM];
    short h;
    int i;
    long l;
    long long q;
    float f;
    double d;
};

static union slot ours[SLOTS], theirs[SLOTS];

static void clear(union slot *slots) {
    for (int i = 0; i < SLOTS; i++)
        for (int at = 0; at < ROOM; at++) slots[i].bytes[at] = 0x55;
}

static uint64_t value(const union slot *slot, char kind) {
    switch (kind) {
    case 'H': return (uint64_t)(unsigned char)slot->bytes[0];
    case 'h': return (uint64_t)(unsigned short)slot->h;
    case 'i': return (uint64_t)(unsigned)slot->i;
    case 'l': return (uint64_t)(unsigned)(int)slot->l;
    case 'q': return (uint64_t)slot->q;
    case 'f': return float_bits(slot->f);
    case 'd': return bits(slot->d);
    default: return hash(slot->bytes, ROOM);
    }
}

/* A text of what the conversions may like; numbers that fit in an int, and no 0x without a digit, which libraries
   read differently. */
static char *scanned_text(void) {
    static const char *const parts[] = {"12",      "-7",   "+99", "0",  "017",         "0x1f", "abc", "ab,c",
                                        "x]",      " ",    "  ",  "\t", "\n",          ",",    "%",   "1.5",
                                        "-0.25e3", "1e-5", ".5",  "7.", "0x1.8p2",     "inf",  "NaN", "infinity",
                                        "123456",  "cafe", "9,8", "-",  "12345678901", "a-b",  "bcb", "é"};
    char *text = fresh(ROOM);
    int size = 0;
    for (unsigned i = below(7); i > 0; i--)
        for (const char *part = parts[below(32)]; *part; part++) text[size++] = *part;
    text[size] = 0;
    return text;
}

/* What libraries, or the standard and they, see differently is left out: 0x without a digit behind, an exponent
   without one, and numbers that their type can't hold. */
static int is_clear(const char *text) {
    int digits = 0, hex_digits = 0;
    for (; *text; text++) {
        char next = text[1] ? text[1] : ' ';
        int is_digit = *text >= '0' && *text <= '9', is_hex = is_digit || ((*text | 32) >= 'a' && (*text | 32) <= 'f');
        digits = is_digit ? digits + 1 : 0;
        hex_digits = is_hex ? hex_digits + 1 : 0;
        if (digits > 9 || hex_digits > 8) return 0;
        if (is_digit && (next | 32) == 'x') return 0;
        if ((is_digit || *text == '.') && ((next | 32) == 'e' || (next | 32) == 'p')) return 0;
        if ((*text | 32) == 'i' || (*text | 32) == 'n') return 0;
    }
    return 1;
}

static int make_format(char *format, char *kinds, unsigned (*choose)(void)) {
    int size = 0, count = 0;
    for (unsigned i = 1 + below(5); i > 0; i--) {
        const struct conversion *conversion = &conversions[choose()];
        if (conversion->kind != '-' && count == SLOTS) continue;
        if (conversion->kind != '-') kinds[count++] = conversion->kind;
        for (const char *at = conversion->text; *at; at++) format[size++] = *at;
    }
    format[size] = 0;
    return count;
}

static unsigned any(void) { return below(CONVERSIONS); }

static void formats(void) {
    char *text = scanned_text(), format[64], kinds[SLOTS];
    if (!is_clear(text)) return;
    int count = make_format(format, kinds, any), our_count = 0, their_count = 0;
    clear(ours), clear(theirs);
    BOTH(our_count = gp_sscanf(text, format, &ours[0], &ours[1], &ours[2], &ours[3]),
         their_count = sscanf(text, format, &theirs[0], &theirs[1], &theirs[2], &theirs[3]));
    SAME(our_count, their_count);
    for (int i = 0; i < count; i++) SAME(value(&ours[i], kinds[i]), value(&theirs[i], kinds[i]));
    /* the same from a stream */
    clear(ours);
    input = (const unsigned char *)text;
    for (input_left = 0; text[input_left];) input_left++;
    OF_OURS(our_count = gp_scanf(format, &ours[0], &ours[1], &ours[2], &ours[3]));
    SAME(our_count, their_count);
    for (int i = 0; i < count; i++) SAME(value(&ours[i], kinds[i]), value(&theirs[i], kinds[i]));
    OF_OURS(gp_scanf("%*[^\1]")); /* (takes what was given back, too) */
}

/* One number of any kind, alone. */
static void numbers(void) {
    static const char *const alone[] = {"0x",          "0x1.8p2", "inf",      "NaN",   "infinity", "-Infinity",
                                        "1e5",         "1.5e-3x", "+.5e+10",  "0x1F",  "0xg0",     "2147483647",
                                        "-2147483648", "1e400",   "4.9e-324", "  12",  "",         "   ",
                                        "x",           "+",       "-x",       "00012", "08"};
    static const char *const kinds[] = {"%lf", "%le", "%lg"};
    unsigned which = below(23);
    double our_number = 1, their_number = 1;
    int our_count = 0, their_count = 0;
    if (which == 0 || which == 10) return;
    const char *format = kinds[below(3)];
    BOTH(our_count = gp_sscanf(alone[which], format, &our_number),
         their_count = sscanf(alone[which], format, &their_number));
    SAME(our_count, their_count);
    SAME(bits(our_number), bits(their_number));
    int our_word = 1, their_word = 1;
    if (which > 12 && which < 15) return;
    BOTH(our_count = gp___sscanf_whole(alone[which], "%i", &our_word),
         their_count = sscanf(alone[which], "%i", &their_word));
    SAME(our_count, their_count);
    SAME(our_word, their_word);
}

const struct test scan_tests[] = {
    {"scanf", formats, CASES * 5L}, {"scanf of numbers", numbers, CASES}, {NULL, NULL, 0}};
