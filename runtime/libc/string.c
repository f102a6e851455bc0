/* string.h and strings.h, but memcpy, memmove, memset and memcmp, which compilers call of themselves: runtime/plug.c
   has these. Bytes are taken one by one: a word that is read beyond the end of a text would be outside of its
   object. */
#include <ctype.h>
#include <stdlib.h>
#include <string.h>

void *memchr(const void *from, int c, size_t size) {
    const unsigned char *at = from;
    for (size_t i = 0; i < size; i++)
        if (at[i] == (unsigned char)c) return (void *)(at + i);
    return NULL;
}

void *memrchr(const void *from, int c, size_t size) {
    const unsigned char *at = from;
    while (size-- > 0)
        if (at[size] == (unsigned char)c) return (void *)(at + size);
    return NULL;
}

void *memccpy(void *to, const void *from, int c, size_t size) {
    for (size_t i = 0; i < size; i++) {
        ((unsigned char *)to)[i] = ((const unsigned char *)from)[i];
        if (((const unsigned char *)from)[i] == (unsigned char)c) return (unsigned char *)to + i + 1;
    }
    return NULL;
}

void *mempcpy(void *to, const void *from, size_t size) { return (char *)memcpy(to, from, size) + size; }

void *memmem(const void *from, size_t size, const void *part, size_t part_size) {
    if (part_size > size) return NULL;
    for (size_t at = 0; at <= size - part_size; at++)
        if (memcmp((const char *)from + at, part, part_size) == 0) return (char *)from + at;
    return NULL;
}

size_t strlen(const char *text) {
    size_t size = 0;
    while (text[size]) size++;
    return size;
}

size_t strnlen(const char *text, size_t size) {
    size_t i = 0;
    while (i < size && text[i]) i++;
    return i;
}

int strcmp(const char *a, const char *b) {
    while (*a && *a == *b) a++, b++;
    return (unsigned char)*a - (unsigned char)*b;
}

int strncmp(const char *a, const char *b, size_t size) {
    for (; size > 0; a++, b++, size--)
        if (!*a || *a != *b) return (unsigned char)*a - (unsigned char)*b;
    return 0;
}

int strcoll(const char *a, const char *b) { return strcmp(a, b); }

char *stpcpy(char *to, const char *from) {
    while ((*to = *from)) to++, from++;
    return to;
}

char *strcpy(char *to, const char *from) {
    stpcpy(to, from);
    return to;
}

char *stpncpy(char *to, const char *from, size_t size) {
    size_t copied = strnlen(from, size);
    memcpy(to, from, copied);
    memset(to + copied, 0, size - copied);
    return to + copied;
}

char *strncpy(char *to, const char *from, size_t size) {
    stpncpy(to, from, size);
    return to;
}

char *strcat(char *to, const char *from) {
    stpcpy(to + strlen(to), from);
    return to;
}

char *strncat(char *to, const char *from, size_t size) {
    char *end = to + strlen(to);
    size_t copied = strnlen(from, size);
    memcpy(end, from, copied);
    end[copied] = 0;
    return to;
}

size_t strxfrm(char *to, const char *from, size_t size) {
    size_t wanted = strlen(from);
    if (wanted < size) memcpy(to, from, wanted + 1);
    return wanted;
}

char *strchrnul(const char *text, int c) {
    while (*text && *text != (char)c) text++;
    return (char *)text;
}

char *strchr(const char *text, int c) {
    for (; *text != (char)c; text++)
        if (!*text) return NULL;
    return (char *)text;
}

char *strrchr(const char *text, int c) { return memrchr(text, c, strlen(text) + 1); }

char *strstr(const char *text, const char *part) {
    for (;; text++) {
        size_t i = 0;
        while (part[i] && text[i] == part[i]) i++;
        if (!part[i]) return (char *)text;
        if (!text[i]) return NULL;
    }
}

static int is_in(const char *set, char c) {
    for (; *set; set++)
        if (*set == c) return 1;
    return 0;
}

size_t strspn(const char *text, const char *set) {
    size_t size = 0;
    while (text[size] && is_in(set, text[size])) size++;
    return size;
}

size_t strcspn(const char *text, const char *set) {
    size_t size = 0;
    while (text[size] && !is_in(set, text[size])) size++;
    return size;
}

char *strpbrk(const char *text, const char *set) {
    text += strcspn(text, set);
    return *text ? (char *)text : NULL;
}

char *strsep(char **rest, const char *set) {
    char *part = *rest;
    if (!part) return NULL;
    char *end = part + strcspn(part, set);
    *rest = NULL;
    if (*end) {
        *end = 0;
        *rest = end + 1;
    }
    return part;
}

char *strtok_r(char *text, const char *set, char **rest) {
    if (!text) text = *rest;
    text += strspn(text, set);
    char *end = text + strcspn(text, set);
    *rest = end;
    if (*end) {
        *end = 0;
        *rest = end + 1;
    }
    return end == text ? NULL : text;
}

char *strtok(char *text, const char *set) {
    static char nothing[1], *rest = nothing;
    return strtok_r(text, set, &rest);
}

char *strndup(const char *text, size_t size) {
    size_t copied = strnlen(text, size);
    char *to = malloc(copied + 1);
    if (!to) return NULL;
    memcpy(to, text, copied);
    to[copied] = 0;
    return to;
}

char *strdup(const char *text) { return strndup(text, strlen(text)); }

int strncasecmp(const char *a, const char *b, size_t size) {
    for (; size > 0; a++, b++, size--) {
        int less = tolower((unsigned char)*a) - tolower((unsigned char)*b);
        if (less || !*a) return less;
    }
    return 0;
}

int strcasecmp(const char *a, const char *b) {
    for (;; a++, b++) {
        int less = tolower((unsigned char)*a) - tolower((unsigned char)*b);
        if (less || !*a) return less;
    }
}

int bcmp(const void *a, const void *b, size_t size) { return memcmp(a, b, size); }
void bcopy(const void *from, void *to, size_t size) { memmove(to, from, size); }
void bzero(void *to, size_t size) { memset(to, 0, size); }
char *index(const char *text, int c) { return strchr(text, c); }
char *rindex(const char *text, int c) { return strrchr(text, c); }
int ffs(int word) { return word == 0 ? 0 : __builtin_ctz((unsigned)word) + 1; }
int ffsl(long word) { return word == 0 ? 0 : __builtin_ctzl((unsigned long)word) + 1; }
int ffsll(long long word) { return word == 0 ? 0 : __builtin_ctzll((unsigned long long)word) + 1; }
