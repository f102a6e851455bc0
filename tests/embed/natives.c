/* Runs of images by objects of native code, beside the same runs on the engine; for tests/run embed: natives MODE WORD
   It has an allocator of its own, which counts its blocks and refuses the growths that it is told to. What is wrong is
   told on standard error, with status 1. */
#include "geyserpan.h"
#include <pthread.h>
#include <stdatomic.h>
#include <stdio.h>
#include <stdlib.h>
#include <string.h>
#include <unistd.h>

#define HOLDS(what) ((what) ? (void)0 : (fprintf(stderr, "%s:%d: %s\n", __FILE__, __LINE__, #what), exit(1)))

enum { MOST = 1 << 21 };
static const geyserpan_terms all = { UINT64_MAX, UINT64_MAX, GEYSERPAN_ALL_SERVICES, 8 };

/* ---- memory ---- */

static atomic_long blocks, asked, refused = -1;
static char none;

static geyserpan_block grown(void *old, size_t bytes, size_t align)
{
    void *at = asked++ == refused ? NULL : realloc(old, bytes ? bytes : align);
    blocks += at && !old;
    return (geyserpan_block){ at != NULL, at ? at : &none };
}

geyserpan_block rattle_alloc(size_t bytes, size_t align) { return grown(NULL, bytes, align); }

geyserpan_block rattle_realloc(void *at, size_t kept, size_t bytes, size_t align)
{
    (void)kept;
    return grown(at, bytes, align);
}

void rattle_dealloc(void *at)
{
    blocks--;
    free(at);
}

/* ---- images ---- */

typedef struct {
    uint8_t *at;
    size_t length;
} bytes;

static bytes read_file(const char *path)
{
    FILE *file = fopen(path, "rb");
    bytes read = { malloc(MOST), 0 };
    HOLDS(file && read.at);
    read.length = fread(read.at, 1, MOST, file);
    fclose(file);
    return read;
}

static geyserpan_image opened(const char *path, const geyserpan_terms *terms)
{
    bytes image = read_file(path);
    geyserpan_image handle;
    geyserpan_why why;
    HOLDS(geyserpan_image_new(&handle) == GEYSERPAN_OK);
    HOLDS(geyserpan_open(&handle, image.at, image.length, terms, &why) == GEYSERPAN_OK);
    free(image.at);
    return handle;
}

static geyserpan_image opened_by(const char *path, const char *object, const geyserpan_terms *terms)
{
    geyserpan_image handle = opened(path, terms);
    HOLDS(geyserpan_native(&handle, object) == GEYSERPAN_OK);
    return handle;
}

/* ---- the same runs by both ways ---- */

typedef struct {
    size_t piece, room;
    uint64_t turns;
} pace;

static const pace paces[] = { { 1, 1, UINT64_MAX }, { 2, 3, 7 },   { 5, 3, 1000 },     { 7, 4096, 1 },
                              { 4096, 1, 4096 },    { 3, 0, 100 }, { 65536, 65536, 25 } };

/* What a run in pieces gave: its output stands in a room. */
typedef struct {
    size_t length;
    geyserpan_done done;
    uint32_t status;
} outcome;

/* What native code may make more than it is allowed. */
static uint64_t spare_of(geyserpan_image *image)
{
    geyserpan_facts facts;
    HOLDS(geyserpan_facts_of(image, &facts) == GEYSERPAN_OK);
    return UINT64_C(25) * facts.words;
}

/* A run in pieces, whose turns are never more than were allowed and those to spare. */
static outcome in_pieces(geyserpan_engine *engine, bytes input, uint8_t *room, pace by, uint64_t spare)
{
    static const uint8_t nothing;
    outcome out = { 0, { 0, 0, 0, 0, 0 }, GEYSERPAN_OK };
    size_t read = 0, most = by.room;
    uint64_t allowed = 0;
    do {
        size_t next = input.length - read < by.piece ? input.length - read : by.piece;
        const uint8_t guard = 0xA5;
        uint8_t *to = room + out.length;
        const uint8_t *from = next ? input.at + read : &nothing;
        uint64_t before = out.done.turns;
        to[most] = guard;
        out.status = geyserpan_engine_step(engine, by.turns, from, next, read + next == input.length, to, most,
                                           &out.done);
        /* turns that were allowed and not made are no longer allowed, but for those that are put by */
        allowed = before + by.turns < before ? UINT64_MAX : (allowed > before ? allowed : before) + by.turns;
        HOLDS(out.done.turns >= before && (allowed == UINT64_MAX || out.done.turns <= allowed + spare));
        HOLDS(out.done.read <= next && out.done.written <= most && to[most] == guard && !out.done.zero);
        HOLDS(out.status == GEYSERPAN_ENDED || !out.done.exit);
        HOLDS(out.status != GEYSERPAN_WANTS || (out.done.read == next && read + next < input.length));
        HOLDS(out.status != GEYSERPAN_FULL || out.done.written == most);
        read += out.done.read;
        out.length += out.done.written;
        HOLDS(out.length < MOST / 2);
        if (out.status == GEYSERPAN_FULL && !most)
            most = 1;
    } while (out.status == GEYSERPAN_WANTS || out.status == GEYSERPAN_FULL || out.status == GEYSERPAN_PAUSED);
    return out;
}

/* A run in pieces by an object, beside a whole run on the engine. */
static void compare_pieces(geyserpan_image *native, bytes input, const geyserpan_report *report, const uint8_t *wanted,
                           pace by)
{
    static uint8_t room[MOST];
    geyserpan_engine engine;
    geyserpan_done again;
    HOLDS(geyserpan_engine_new(&engine) == GEYSERPAN_OK && geyserpan_engine_begin(&engine, native) == GEYSERPAN_OK);
    outcome out = in_pieces(&engine, input, room, by, spare_of(native));
    HOLDS(out.status == GEYSERPAN_ENDED && out.length == report->output && !memcmp(room, wanted, out.length));
    HOLDS(out.done.exit == report->exit && out.done.turns == report->turns);
    HOLDS(geyserpan_engine_step(&engine, 9, input.at, input.length, 0, room, 9, &again) == GEYSERPAN_ENDED);
    HOLDS(again.exit == out.done.exit && again.turns == out.done.turns && !again.read && !again.written);
    geyserpan_engine_free(engine);
}

/* The runs of an image on an input; what the engine tells of it is printed: exit word, turns, overflows, underflows,
   output. */
static void compare(const char *image, const char *object, uint32_t windows, bytes input)
{
    static uint8_t wanted[MOST], came[MOST];
    const geyserpan_terms terms = { UINT64_MAX, UINT64_MAX, GEYSERPAN_ALL_SERVICES, windows };
    geyserpan_image engine = opened(image, &terms), native = opened_by(image, object, &terms);
    geyserpan_report report, same;
    memset(&report, 0xA5, sizeof report);
    memset(&same, 0x5A, sizeof same);
    HOLDS(geyserpan_engine_run(&engine, input.at, input.length, wanted, sizeof wanted, &report) == GEYSERPAN_OK);
    HOLDS(geyserpan_engine_run(&native, input.at, input.length, came, sizeof came, &same) == GEYSERPAN_OK);
    HOLDS(!memcmp(&report, &same, sizeof report) && !memcmp(wanted, came, report.output));
    /* paces that take a million steps are left out */
    for (size_t i = 0; i < sizeof paces / sizeof *paces; i++)
        if (report.turns < 1000000 || paces[i].turns >= 4096)
            compare_pieces(&native, input, &report, wanted, paces[i]);
    printf("%08X %llu %llu %llu ", (unsigned)report.exit, (unsigned long long)report.turns,
           (unsigned long long)report.overflows, (unsigned long long)report.underflows);
    for (size_t i = 0; i < report.output; i++)
        printf("%02X", wanted[i]);
    puts(report.output ? "" : "-");
    geyserpan_image_free(engine);
    geyserpan_image_free(native);
}

/* Rows of standard input: IMAGE OBJECT WINDOWS INPUT, the input in hexadecimal digits, - for none. */
static void rows(void)
{
    static char image[4096], object[4096], digits[MOST];
    unsigned windows, byte;
    while (scanf("%4095s %4095s %u %2097151s", image, object, &windows, digits) == 4) {
        bytes input = { malloc(strlen(digits) / 2 + 1), 0 };
        for (const char *at = digits; sscanf(at, "%2x", &byte) == 1; at += 2)
            input.at[input.length++] = (uint8_t)byte;
        compare(image, object, windows, input);
        free(input.at);
    }
}

/* ---- what is refused ---- */

static void says(uint32_t status)
{
    static const geyserpan_why why;
    uint8_t text[96];
    const geyserpan_facts facts = { 0 };
    size_t length = geyserpan_why_text(status, &why, text, sizeof text);
    HOLDS(length <= sizeof text && geyserpan_why_text(status, &why, text, 0) == length);
    printf("%u %.*s\n", (unsigned)status, (int)length, (const char *)text);
    HOLDS(geyserpan_terms_text(status, &facts, &all, text, sizeof text) <= sizeof text);
}

/* An image that goes by an object, and behind each of the paths its status; it then runs as it did before. */
static void refusals(const char *path, const char *object, char **paths)
{
    static uint8_t room[64], before[64];
    geyserpan_report report, same;
    geyserpan_image image = opened(path, &all), empty;
    HOLDS(geyserpan_engine_run(&image, (const uint8_t *)"HAL", 3, before, sizeof before, &report) == GEYSERPAN_OK);
    for (int round = 0; round < 2; round++) {
        for (char **at = paths; *at; at++) {
            long kept = blocks;
            uint32_t status = geyserpan_native(&image, *at);
            if (!round)
                says(status);
            HOLDS(status != GEYSERPAN_OK && blocks == kept);
            HOLDS(geyserpan_engine_run(&image, (const uint8_t *)"HAL", 3, room, sizeof room, &same) == GEYSERPAN_OK);
            HOLDS(!memcmp(&report, &same, sizeof same) && !memcmp(room, before, report.output));
        }
        HOLDS(geyserpan_native(&image, object) == GEYSERPAN_OK);
    }
    HOLDS(geyserpan_image_new(&empty) == GEYSERPAN_OK && geyserpan_native(&empty, object) == GEYSERPAN_HANDLE);
    geyserpan_close(&image);
    HOLDS(geyserpan_native(&image, object) == GEYSERPAN_HANDLE);
    geyserpan_image_free(image);
    geyserpan_image_free(empty);
}

/* ---- ends, of an image that puts out more than two bytes of its input ---- */

static const uint8_t *const given = (const uint8_t *)"HAL!";

static void limits(const char *path, const char *object)
{
    geyserpan_image image = opened_by(path, object, &all);
    geyserpan_engine engine;
    geyserpan_report report, none_told;
    geyserpan_facts facts;
    geyserpan_done done;
    geyserpan_why why;
    geyserpan_terms terms = all;
    bytes file = read_file(path);
    uint8_t room[64], small[64];
    HOLDS(geyserpan_engine_run(&image, given, 4, room, sizeof room, &report) == GEYSERPAN_OK && report.output > 2);
    HOLDS(geyserpan_engine_new(&engine) == GEYSERPAN_OK && geyserpan_facts_of(&image, &facts) == GEYSERPAN_OK);
    const size_t length = (size_t)report.output;

    /* a room that is too small; more output than is granted: nothing is written but the report */
    memset(small, 0xA5, sizeof small);
    for (size_t size = 0; size < length; size++) {
        memset(&none_told, 0, sizeof none_told);
        HOLDS(geyserpan_engine_run(&image, given, 4, small, size, &none_told) == GEYSERPAN_ROOM);
        HOLDS(!memcmp(&none_told, &report, sizeof report) && small[0] == 0xA5);
        terms.output = size;
        HOLDS(geyserpan_open(&image, file.at, file.length, &terms, &why) == GEYSERPAN_OK);
        HOLDS(geyserpan_native(&image, object) == GEYSERPAN_OK);
        HOLDS(geyserpan_engine_run(&image, given, 4, small, sizeof small, &none_told) == GEYSERPAN_OUTPUT);
        HOLDS(none_told.output == length && small[0] == 0xA5);
        HOLDS(geyserpan_engine_begin(&engine, &image) == GEYSERPAN_OK);
        for (int i = 0; i < 3; i++) {
            HOLDS(geyserpan_engine_step(&engine, i < 2 ? UINT64_MAX : 0, given + (i ? done.read : 0),
                                        i ? 4 - done.read : 4, 1, small, sizeof small, &done) == GEYSERPAN_OUTPUT);
            HOLDS(done.written == (i ? 0 : size) && small[size] == 0xA5 && (!i || !done.read));
            done.read = i ? done.read : 0;
        }
        HOLDS(geyserpan_engine_step(&engine, 9, given, 4, 1, small, 0, &done) == GEYSERPAN_FULL);
        memset(small, 0xA5, sizeof small);
        geyserpan_close(&image);
        HOLDS(geyserpan_open(&image, file.at, file.length, &all, &why) == GEYSERPAN_OK);
        HOLDS(geyserpan_native(&image, object) == GEYSERPAN_OK);
    }

    /* terms of a run's own: they deny it, and the run that there was goes on */
    HOLDS(geyserpan_engine_begin(&engine, &image) == GEYSERPAN_OK);
    HOLDS(geyserpan_engine_step(&engine, UINT64_MAX, given, 1, 0, room, sizeof room, &done) == GEYSERPAN_WANTS);
    const geyserpan_terms denials[] = { { all.turns, 9, 7, 3 }, { all.turns, 9, 7, 33 }, { all.turns, 9, 3, 8 },
                                        { facts.budget - 1, 9, 7, 8 } };
    const uint32_t wanted[] = { GEYSERPAN_WINDOWS, GEYSERPAN_WINDOWS, GEYSERPAN_SERVICES, GEYSERPAN_TURNS };
    for (int i = 0; i < 4; i++)
        HOLDS(geyserpan_engine_begin_with(&engine, &image, &denials[i]) == wanted[i]);
    HOLDS(geyserpan_engine_step(&engine, UINT64_MAX, given + 1, 3, 1, room + done.written, sizeof room - 9, &done)
          == GEYSERPAN_ENDED);
    HOLDS(done.turns == report.turns);
    for (terms = all, terms.turns = facts.budget, terms.windows = 4; terms.windows <= 32; terms.windows++) {
        HOLDS(geyserpan_engine_begin_with(&engine, &image, &terms) == GEYSERPAN_OK);
        HOLDS(geyserpan_engine_step(&engine, UINT64_MAX, given, 4, 1, room, sizeof room, &done) == GEYSERPAN_ENDED);
    }

    /* no turns; then nothing of the input; a room of nothing */
    HOLDS(geyserpan_engine_begin(&engine, &image) == GEYSERPAN_OK);
    HOLDS(geyserpan_engine_step(&engine, 0, given, 4, 1, room, sizeof room, &done) == GEYSERPAN_PAUSED);
    HOLDS(!done.turns && !done.read && !done.written && !done.exit && !done.zero);
    HOLDS(geyserpan_engine_step(&engine, UINT64_MAX, given, 0, 0, room, 0, &done) == GEYSERPAN_WANTS);
    HOLDS(geyserpan_engine_step(&engine, UINT64_MAX, given, 0, 0, room, 0, &done) == GEYSERPAN_WANTS);
    HOLDS(geyserpan_engine_step(&engine, UINT64_MAX, given, 4, 0, room, 0, &done) == GEYSERPAN_FULL && done.read);
    geyserpan_engine_end(&engine);
    memset(&done, 0xA5, sizeof done);
    HOLDS(geyserpan_engine_step(&engine, 9, given, 4, 1, room, 9, &done) == GEYSERPAN_HANDLE && done.zero);
    geyserpan_engine_free(engine);
    geyserpan_image_free(image);
    free(file.at);
}

/* Whether a run of a handle ends with so many bytes put out. */
static void ends(geyserpan_engine *engine, uint64_t length)
{
    uint8_t room[64];
    geyserpan_done done;
    HOLDS(geyserpan_engine_step(engine, UINT64_MAX, given, 4, 1, room, sizeof room, &done) == GEYSERPAN_ENDED);
    HOLDS(done.written == length);
}

/* Handles in each order of their ends; the file goes while it is loaded. */
static void orders(const char *path, const char *object)
{
    geyserpan_image image = opened_by(path, object, &all), shared, plain = opened(path, &all);
    geyserpan_engine first, second;
    geyserpan_report report;
    geyserpan_why why;
    geyserpan_done done;
    bytes file = read_file(path);
    uint8_t room[64];
    HOLDS(geyserpan_engine_run(&plain, given, 4, room, sizeof room, &report) == GEYSERPAN_OK);
    HOLDS(geyserpan_engine_new(&first) == GEYSERPAN_OK && geyserpan_engine_new(&second) == GEYSERPAN_OK);
    HOLDS(geyserpan_image_new(&shared) == GEYSERPAN_OK && geyserpan_image_share(&image, &shared) == GEYSERPAN_OK);
    HOLDS(geyserpan_engine_begin(&first, &image) == GEYSERPAN_OK);
    HOLDS(geyserpan_engine_begin(&second, &shared) == GEYSERPAN_OK);
    HOLDS(unlink(object) == 0 && geyserpan_native(&image, object) == GEYSERPAN_FILE);
    /* the image goes before its runs, and another one comes in its place */
    geyserpan_image_free(image);
    ends(&first, report.output);
    HOLDS(geyserpan_open(&shared, file.at, file.length, &all, &why) == GEYSERPAN_OK);
    ends(&second, report.output);
    /* from native to engine and back, in one handle; from one that shares to one that doesn't */
    HOLDS(geyserpan_engine_begin(&first, &shared) == GEYSERPAN_OK);
    ends(&first, report.output);
    HOLDS(geyserpan_image_share(&plain, &shared) == GEYSERPAN_OK);
    geyserpan_close(&plain);
    HOLDS(geyserpan_engine_begin(&first, &plain) == GEYSERPAN_HANDLE);
    HOLDS(geyserpan_engine_step(&first, 9, given, 4, 1, room, 9, &done) == GEYSERPAN_ENDED && !done.written);
    geyserpan_engine_free(second);
    geyserpan_image_free(shared);
    geyserpan_image_free(plain);
    geyserpan_engine_free(first);
    free(file.at);
    HOLDS(!blocks);
}

/* ---- refused growths ---- */

/* Makes each call that asks for memory, and refuses each growth in turn: how many there were. */
static long refuse_all(const char *path, const char *object)
{
    bytes file = read_file(path);
    long count = 0;
    for (long after = 0;; after++) {
        uint8_t room[MOST / 64];
        geyserpan_image image = { NULL };
        geyserpan_engine engine = { NULL };
        geyserpan_report report;
        geyserpan_why why;
        uint32_t status;
        asked = 0;
        refused = after;
        status = geyserpan_image_new(&image);
        if (status == GEYSERPAN_OK)
            status = geyserpan_engine_new(&engine);
        if (status == GEYSERPAN_OK)
            status = geyserpan_open(&image, file.at, file.length, &all, &why);
        if (status == GEYSERPAN_OK)
            status = geyserpan_native(&image, object);
        if (status == GEYSERPAN_OK)
            status = geyserpan_engine_begin(&engine, &image);
        if (status == GEYSERPAN_OK)
            status = geyserpan_engine_run(&image, file.at, file.length, room, sizeof room, &report);
        refused = -1;
        count = asked;
        if (engine.at)
            geyserpan_engine_free(engine);
        if (image.at)
            geyserpan_image_free(image);
        HOLDS(!blocks);
        if (status == GEYSERPAN_OK)
            break;
        HOLDS(status == GEYSERPAN_MEMORY);
    }
    free(file.at);
    return count;
}

/* ---- threads ---- */

typedef struct {
    pthread_t thread;
    geyserpan_image image;
    const char *path, *object;
    int runs;
} worker;

/* Runs whole and in pieces on a handle that shares an image; now and then on one of its own, by the same object. */
static void *work(void *at)
{
    worker *it = at;
    for (int i = 0; i < it->runs; i++) {
        uint8_t input[64], room[65];
        geyserpan_report report;
        geyserpan_engine engine;
        geyserpan_image mine = i % 50 ? it->image : opened_by(it->path, it->object, &all);
        for (size_t k = 0; k < sizeof input; k++)
            input[k] = (uint8_t)(i + (int)k);
        HOLDS(geyserpan_engine_run(&mine, input, sizeof input, room, sizeof room, &report) == GEYSERPAN_OK);
        HOLDS(report.output == sizeof input && !memcmp(input, room, sizeof input));
        HOLDS(geyserpan_engine_new(&engine) == GEYSERPAN_OK && geyserpan_engine_begin(&engine, &mine) == GEYSERPAN_OK);
        if (i % 50 == 0)
            geyserpan_image_free(mine);
        outcome out = in_pieces(&engine, (bytes){ input, sizeof input }, room, (pace){ 5, 1, 100 }, UINT64_MAX / 2);
        HOLDS(out.status == GEYSERPAN_ENDED && out.done.turns == report.turns && !memcmp(input, room, sizeof input));
        geyserpan_engine_free(engine);
    }
    geyserpan_image_free(it->image);
    return NULL;
}

/* So many threads on one image, which lets its own handle go while they run. */
static void threads(const char *path, const char *object, int count, int runs)
{
    geyserpan_image image = opened_by(path, object, &all);
    worker *workers = calloc((size_t)count, sizeof *workers);
    HOLDS(workers);
    for (int i = 0; i < count; i++) {
        workers[i] = (worker){ .path = path, .object = object, .runs = runs };
        HOLDS(geyserpan_image_new(&workers[i].image) == GEYSERPAN_OK);
        HOLDS(geyserpan_image_share(&image, &workers[i].image) == GEYSERPAN_OK);
        HOLDS(!pthread_create(&workers[i].thread, NULL, work, &workers[i]));
    }
    geyserpan_image_free(image);
    for (int i = 0; i < count; i++)
        HOLDS(!pthread_join(workers[i].thread, NULL));
    free(workers);
    HOLDS(!blocks);
}

int main(int count, char **words)
{
    HOLDS(count > 1);
    if (!strcmp(words[1], "rows"))
        return rows(), 0;
    HOLDS(count > 3);
    if (!strcmp(words[1], "refusals"))
        refusals(words[2], words[3], words + 4);
    else if (!strcmp(words[1], "limits"))
        limits(words[2], words[3]);
    else if (!strcmp(words[1], "orders"))
        orders(words[2], words[3]);
    else if (!strcmp(words[1], "growths"))
        printf("%ld ", refuse_all(words[2], words[3]));
    else if (!strcmp(words[1], "threads") && count == 6)
        threads(words[2], words[3], atoi(words[4]), atoi(words[5]));
    else
        HOLDS(!"a mode");
    puts(words[1]);
    return 0;
}
