/* The parts of a path, as POSIX has them. */
#include <libgen.h>
#include <string.h>

/* Where the slashes end that a path has behind so many letters. */
static size_t without_slashes(const char *path, size_t length) {
    while (length > 0 && path[length - 1] == '/') length--;
    return length;
}

/* How many letters lie before the last part of so many. */
static size_t before_part(const char *path, size_t length) {
    while (length > 0 && path[length - 1] != '/') length--;
    return length;
}

char *basename(char *path) {
    static char none[] = ".", root[] = "/";
    if (!path || !*path) return none;
    size_t length = without_slashes(path, strlen(path));
    if (length == 0) return root;
    path[length] = 0;
    return path + before_part(path, length);
}

char *dirname(char *path) {
    static char none[] = ".", root[] = "/";
    if (!path || !*path) return none;
    size_t part = without_slashes(path, strlen(path));
    if (part == 0) return root;
    size_t before = before_part(path, part), length = without_slashes(path, before);
    if (before == 0) return none;
    if (length == 0) return root;
    path[length] = 0;
    return path;
}
