/* Replies of Redis (hiredis). */
#include "unit.h"
#include "alloc.c"
#include "sds.c"
#include "read.c"
/* Objects are lines of text: a number stands for each, since the reader keeps what is made. */
static void *made(const redisReadTask *task, char kind) {
    for (const redisReadTask *it = task->parent; it; it = it->parent) putchar(' ');
    putchar(kind);
    return (void *)1;
}
static void *string(const redisReadTask *task, char *text, size_t n) {
    made(task, "?$*:_+-"[task->type]);
    sds shown = sdscatrepr(sdsempty(), text, n);
    printf("%s\n", shown);
    sdsfree(shown);
    return (void *)1;
}
static void *array(const redisReadTask *task, int n) {
    made(task, '*');
    printf("%d\n", n);
    return (void *)1;
}
static void *integer(const redisReadTask *task, long long n) {
    made(task, ':');
    printf("%lld\n", n);
    return (void *)1;
}
static void *nil(const redisReadTask *task) {
    made(task, '_');
    putchar('\n');
    return (void *)1;
}
static void none(void *it) {}
static redisReplyObjectFunctions functions = {string, array, integer, nil, none};
int main(void) {
    int n = read_input();
    redisReader *r = redisReaderCreateWithFunctions(&functions);
    if (!r) return 2;
    void *reply;
    for (int at = 0; at < n; at += 100) {
        redisReaderFeed(r, (char *)in + at, n - at < 100 ? n - at : 100);
        do {
            reply = NULL;
            if (redisReaderGetReply(r, &reply)) {
                puts(r->errstr);
                return 1;
            }
        } while (reply);
    }
    redisReaderFree(r);
    return 0;
}
