/* string.h, strings.h and ctype.h. */
#include "beside.h"

#ifndef OURS
#include <ctype.h>
#include <errno.h>
#include <string.h>
#include <strings.h>
#endif

static long at(const void *place, const void *from) {
    return place ? (long)((const char *)place - (const char *)from) : -1;
}
static int sign(int order) { return (order > 0) - (order < 0); }

/* A byte of a text, or any. */
static int some_byte(const char *text, size_t size) {
    return size && below(4) ? text[below((unsigned)size)] : (int)below(256);
}

static size_t size_of(const char *text) {
    size_t size = 0;
    while (text[size]) size++;
    return size;
}

static void find_byte(void) {
    char *text = random_text(40);
    size_t size = size_of(text), part = below((unsigned)size + 1);
    int c = some_byte(text, size);
    SAME(at(gp_memchr(text, c, part), text), at(memchr(text, c, part), text));
    SAME(at(gp_memrchr(text, c, part), text), at(memrchr(text, c, part), text));
    SAME(at(gp_strchr(text, c), text), at(strchr(text, c), text));
    SAME(at(gp_strrchr(text, c), text), at(strrchr(text, c), text));
    SAME(at(gp_strchrnul(text, c), text), at(strchrnul(text, c), text));
    SAME(at(gp_index(text, c), text), at(index(text, c), text));
    SAME(at(gp_rindex(text, c), text), at(rindex(text, c), text));
}

static void find_text(void) {
    char *text = random_text(60), *part = random_text(below(8) ? 4 : 30);
    size_t size = size_of(text), part_size = size_of(part);
    SAME(at(gp_strstr(text, part), text), at(strstr(text, part), text));
    SAME(at(gp_strpbrk(text, part), text), at(strpbrk(text, part), text));
    SAME(gp_strspn(text, part), strspn(text, part));
    SAME(gp_strcspn(text, part), strcspn(text, part));
    SAME(at(gp_memmem(text, size, part, part_size), text), at(memmem(text, size, part, part_size), text));
}

static void size(void) {
    char *text = random_text(100);
    unsigned most = below(120);
    SAME(gp_strlen(text), strlen(text));
    SAME(gp_strnlen(text, most), strnlen(text, most));
}

/* A text that begins like another one. */
static char *like(const char *text) {
    size_t size = size_of(text);
    char *other = fresh(size + 2);
    for (size_t i = 0; i <= size; i++) other[i] = text[i];
    if (below(2)) {
        size_t place = below((unsigned)size + 1);
        other[place] = (char)below(256);
        if (place == size) other[size + 1] = 0;
        if (place == size && below(2)) other[size] = 0;
    } else if (size && below(2)) {
        other[below((unsigned)size)] ^= 32;
    }
    return other;
}

static void compare(void) {
    char *text = random_text(40), *other = below(4) ? like(text) : random_text(40);
    unsigned most = below(50), size = (unsigned)size_of(text), common = (unsigned)size_of(other);
    if (common > size) common = size;
    SAME(sign(gp_strcmp(text, other)), sign(strcmp(text, other)));
    SAME(sign(gp_strcoll(text, other)), sign(strcoll(text, other)));
    SAME(sign(gp_strncmp(text, other, most)), sign(strncmp(text, other, most)));
    SAME(sign(gp_strcasecmp(text, other)), sign(strcasecmp(text, other)));
    SAME(sign(gp_strncasecmp(text, other, most)), sign(strncasecmp(text, other, most)));
    SAME(sign(gp_memcmp(text, other, common)), sign(memcmp(text, other, common)));
    SAME(gp_bcmp(text, other, common) != 0, bcmp(text, other, common) != 0);
}

/* Two rooms with the same in them, and what becomes of them. */
struct rooms {
    char *ours, *theirs;
    size_t size;
};

static struct rooms rooms_of(size_t size) {
    struct rooms rooms = {fresh(size), fresh(size), size};
    for (size_t i = 0; i < size; i++) rooms.ours[i] = rooms.theirs[i] = (char)('.' + i % 50);
    return rooms;
}

static void same_rooms(const struct rooms *rooms) {
    SAME(hash(rooms->ours, rooms->size), hash(rooms->theirs, rooms->size));
}

static void copy(void) {
    char *from = random_text(40);
    size_t size = size_of(from), most = below(60);
    struct rooms rooms = rooms_of(size + 1 + below(4));
    SAME(at(gp_strcpy(rooms.ours, from), rooms.ours), at(strcpy(rooms.theirs, from), rooms.theirs));
    same_rooms(&rooms);
    rooms = rooms_of(size + 1 + below(4));
    SAME(at(gp_stpcpy(rooms.ours, from), rooms.ours), at(stpcpy(rooms.theirs, from), rooms.theirs));
    same_rooms(&rooms);
    rooms = rooms_of(most);
    SAME(at(gp_strncpy(rooms.ours, from, most), rooms.ours), at(strncpy(rooms.theirs, from, most), rooms.theirs));
    same_rooms(&rooms);
    rooms = rooms_of(most);
    SAME(at(gp_stpncpy(rooms.ours, from, most), rooms.ours), at(stpncpy(rooms.theirs, from, most), rooms.theirs));
    same_rooms(&rooms);
    rooms = rooms_of(most);
    size_t wanted = BOTH(gp_strxfrm(rooms.ours, from, most), strxfrm(rooms.theirs, from, most));
    SAME(wanted, wanted);
    if (wanted < most) same_rooms(&rooms);
}

static void append(void) {
    char *begin = random_text(20), *from = random_text(30);
    size_t begin_size = size_of(begin), size = size_of(from), most = below(40);
    struct rooms rooms = rooms_of(begin_size + size + 1);
    BOTH(gp_strcpy(rooms.ours, begin), strcpy(rooms.theirs, begin));
    SAME(at(gp_strcat(rooms.ours, from), rooms.ours), at(strcat(rooms.theirs, from), rooms.theirs));
    same_rooms(&rooms);
    rooms = rooms_of(begin_size + (size < most ? size : most) + 1);
    BOTH(gp_strcpy(rooms.ours, begin), strcpy(rooms.theirs, begin));
    SAME(at(gp_strncat(rooms.ours, from, most), rooms.ours), at(strncat(rooms.theirs, from, most), rooms.theirs));
    same_rooms(&rooms);
}

static void memory(void) {
    char *from = random_text(60);
    size_t size = size_of(from), to = below((unsigned)size + 1), begin = below((unsigned)size + 1), part;
    part = below((unsigned)(size - (to > begin ? to : begin)) + 1);
    int c = some_byte(from, size);
    struct rooms rooms = rooms_of(size);
    SAME(at(gp_memcpy(rooms.ours, from, size), rooms.ours), at(memcpy(rooms.theirs, from, size), rooms.theirs));
    SAME(at(gp_memmove(rooms.ours + to, rooms.ours + begin, part), rooms.ours),
         at(memmove(rooms.theirs + to, rooms.theirs + begin, part), rooms.theirs));
    same_rooms(&rooms);
    SAME(at(gp_memset(rooms.ours + to, c, part), rooms.ours), at(memset(rooms.theirs + to, c, part), rooms.theirs));
    SAME(at(gp_memccpy(rooms.ours, from, c, size), rooms.ours),
         at(memccpy(rooms.theirs, from, c, size), rooms.theirs));
    SAME(at(gp_mempcpy(rooms.ours + to, from, part), rooms.ours),
         at(mempcpy(rooms.theirs + to, from, part), rooms.theirs));
    same_rooms(&rooms);
    BOTH(gp_bcopy(rooms.ours + begin, rooms.ours + to, part), bcopy(rooms.theirs + begin, rooms.theirs + to, part));
    BOTH(gp_bzero(rooms.ours + begin, part), bzero(rooms.theirs + begin, part));
    same_rooms(&rooms);
}

static void split(void) {
    char *text = random_text(30), *set = random_text(3);
    size_t size = size_of(text);
    struct rooms rooms = rooms_of(size + 1), again = rooms_of(size + 1), once = rooms_of(size + 1);
    char *ours = NULL, *theirs = NULL, *our_rest, *their_rest;
    BOTH(gp_strcpy(rooms.ours, text), strcpy(rooms.theirs, text));
    BOTH(gp_strcpy(again.ours, text), strcpy(again.theirs, text));
    BOTH(gp_strcpy(once.ours, text), strcpy(once.theirs, text));
    our_rest = again.ours, their_rest = again.theirs;
    for (int i = 0; i < 8; i++)
        SAME(at(gp_strsep(&our_rest, set), again.ours), at(strsep(&their_rest, set), again.theirs));
    same_rooms(&again);
    for (int i = 0; i < 8; i++)
        SAME(at(gp_strtok_r(i ? NULL : rooms.ours, set, &ours), rooms.ours),
             at(strtok_r(i ? NULL : rooms.theirs, set, &theirs), rooms.theirs));
    same_rooms(&rooms);
    for (int i = 0; i < 8; i++)
        SAME(at(gp_strtok(i ? NULL : once.ours, set), once.ours),
             at(strtok(i ? NULL : once.theirs, set), once.theirs));
    same_rooms(&once);
    (void)ours, (void)theirs, (void)our_rest, (void)their_rest;
}

static void duplicate(void) {
    char *text = random_text(40);
    unsigned most = below(50);
    size_t size = size_of(text);
    char *ours = gp_strdup(text), *part = gp_strndup(text, most);
    SAME(hash(ours, size + 1), hash(text, size + 1));
    SAME(gp_strlen(part), size < most ? size : most);
    SAME(gp_strncmp(part, text, size < most ? size : most), 0);
    gp_free(ours);
    gp_free(part);
}

static void classes(void) {
    int c = (int)(case_number % 257) - 1, which = (int)(case_number / 257 % 14);
#ifndef OURS
    int (*const functions[])(int) = {isalnum, isalpha, isblank, iscntrl, isdigit,  isgraph, islower,
                                     isprint, ispunct, isspace, isupper, isxdigit, tolower, toupper};
#endif
    SAME(gp_wrapped_ctype(which, c), which < 12 ? functions[which](c) != 0 : functions[which](c));
}

static void errors(void) {
    static const int numbers[] = {0,         1,  2,  4,  5,  6,  7,  9,  11,  12,  13,   14, 16,
                                  17,        19, 20, 21, 22, 23, 24, 27, 28,  29,  30,   32, 33,
                                  34,        36, 38, 71, 74, 75, 84, 95, 105, 110, 9999, -1, -2147483647 - 1,
                                  2147483647};
    int number = numbers[case_number % (long)(sizeof numbers / sizeof numbers[0])];
    SAME(hash(gp_strerror(number), gp_strlen(gp_strerror(number))), hash(strerror(number), strlen(strerror(number))));
    int word = (int)some_bits(63);
    word &= (int)random_bits();
    SAME(gp_ffs(word), ffs(word));
    SAME(gp_ffsl(word), ffs(word));
    SAME(gp_ffsll((long long)word * 1048576), word ? ffs(word) + 20 : 0);
}

const struct test text_tests[] = {
    {"memchr,strchr..", find_byte, CASES},
    {"strstr,strspn..", find_text, CASES},
    {"strlen..", size, CASES},
    {"strcmp,memcmp..", compare, CASES},
    {"strcpy..", copy, CASES},
    {"strcat..", append, CASES},
    {"memcpy,memmove..", memory, CASES},
    {"strtok,strsep", split, CASES},
    {"strdup", duplicate, CASES / 10},
    {"ctype", classes, 257 * 14},
    {"strerror,ffs", errors, 400},
    {NULL, NULL, 0},
};
