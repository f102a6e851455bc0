/* Shares images between handles and threads, begins runs on terms of their own, and names images and exit words, for
   tests/run embed: shares threads IMG THREADS RUNS, shares terms IMG, shares hashes FILE. The image hands on its input,
   of which it reads at least 8 bytes. What is wrong is told on standard error, with status 1. */
#include "geyserpan.h"
#include <pthread.h>
#include <stdio.h>
#include <stdlib.h>
#include <string.h>

static uint8_t file[8 << 20];
static size_t file_length;
static const geyserpan_terms all = { UINT64_MAX, UINT64_MAX, GEYSERPAN_ALL_SERVICES, 8 };
static const uint8_t text[] = "abcdefgh";
#define LENGTH (sizeof text - 1)

#define HOLDS(what) ((what) ? (void)0 : (fprintf(stderr, "%s:%d: %s\n", __FILE__, __LINE__, #what), exit(1)))

static geyserpan_image made(void)
{
    geyserpan_image image;
    HOLDS(geyserpan_image_new(&image) == GEYSERPAN_OK);
    return image;
}

static geyserpan_image opened(const geyserpan_terms *terms)
{
    geyserpan_image image = made();
    geyserpan_why why;
    HOLDS(geyserpan_open(&image, file, file_length, terms, &why) == GEYSERPAN_OK);
    return image;
}

static geyserpan_image shared(geyserpan_image *image)
{
    geyserpan_image other = made();
    HOLDS(geyserpan_image_share(image, &other) == GEYSERPAN_OK);
    return other;
}

/* ---- threads ---- */

typedef struct {
    geyserpan_image image;
    long runs;
    uint8_t first;
    geyserpan_facts facts;
} worker;

/* The runs of a thread, of each kind, on a handle of its own to an image that all share. */
static void run_each(worker *it, geyserpan_run *run, geyserpan_engine *engine)
{
    uint8_t bytes[4], out[8];
    geyserpan_report report;
    geyserpan_done done;
    memset(bytes, it->first, sizeof bytes);
    HOLDS(geyserpan_run_image(&it->image, bytes, sizeof bytes, out, sizeof out, &report) == GEYSERPAN_OK);
    HOLDS(report.output == sizeof bytes && !memcmp(out, bytes, sizeof bytes));
    memset(out, 0, sizeof out);
    HOLDS(geyserpan_engine_run(&it->image, bytes, sizeof bytes, out, sizeof out, &report) == GEYSERPAN_OK);
    HOLDS(report.output == sizeof bytes && !memcmp(out, bytes, sizeof bytes));
    geyserpan_terms terms = { UINT64_MAX, it->first % 4u, GEYSERPAN_ALL_SERVICES, 8 };
    HOLDS(geyserpan_begin_with(run, &it->image, &terms) == GEYSERPAN_OK);
    HOLDS(geyserpan_step(run, UINT64_MAX, bytes, sizeof bytes, 1, out, sizeof out, &done) == GEYSERPAN_OUTPUT);
    HOLDS(done.written == terms.output && !memcmp(out, bytes, terms.output));
    terms.windows = 4 + it->first % 29u;
    HOLDS(geyserpan_engine_begin_with(engine, &it->image, &terms) == GEYSERPAN_OK);
    HOLDS(geyserpan_engine_step(engine, UINT64_MAX, bytes, sizeof bytes, 1, out, sizeof out, &done)
          == GEYSERPAN_OUTPUT);
    HOLDS(done.written == terms.output && !memcmp(out, bytes, terms.output));
    HOLDS(geyserpan_begin(run, &it->image) == GEYSERPAN_OK);
    HOLDS(geyserpan_engine_begin(engine, &it->image) == GEYSERPAN_OK);
    HOLDS(geyserpan_step(run, UINT64_MAX, bytes, sizeof bytes, 1, out, sizeof out, &done) == GEYSERPAN_ENDED);
    HOLDS(done.written == sizeof bytes && !memcmp(out, bytes, sizeof bytes));
    memset(out, 0, sizeof out);
    HOLDS(geyserpan_engine_step(engine, UINT64_MAX, bytes, sizeof bytes, 1, out, sizeof out, &done) == GEYSERPAN_ENDED);
    HOLDS(done.written == sizeof bytes && !memcmp(out, bytes, sizeof bytes));
}

static void *work(void *given)
{
    worker *it = given;
    geyserpan_run run;
    geyserpan_engine engine;
    geyserpan_facts facts;
    HOLDS(geyserpan_run_new(&run) == GEYSERPAN_OK && geyserpan_engine_new(&engine) == GEYSERPAN_OK);
    for (long i = 0; i < it->runs; i++) {
        run_each(it, &run, &engine);
        HOLDS(geyserpan_facts_of(&it->image, &facts) == GEYSERPAN_OK && !memcmp(&facts, &it->facts, sizeof facts));
        /* owners come and go meanwhile */
        geyserpan_image other = shared(&it->image);
        geyserpan_image_free(i % 2 ? it->image : other);
        if (i % 2)
            it->image = other;
    }
    geyserpan_engine_free(engine);
    geyserpan_run_free(run);
    geyserpan_image_free(it->image);
    return NULL;
}

/* An image that was opened once, in many threads at once; the handle that it was opened by goes while they run. */
static void threads(long count, long runs)
{
    static pthread_t thread[64];
    static worker workers[64];
    geyserpan_image image = opened(&all);
    HOLDS(count <= 64);
    for (long i = 0; i < count; i++) {
        workers[i] = (worker){ shared(&image), runs, (uint8_t)('a' + i % 26), { 0 } };
        HOLDS(geyserpan_facts_of(&image, &workers[i].facts) == GEYSERPAN_OK);
        HOLDS(!pthread_create(&thread[i], NULL, work, &workers[i]));
    }
    geyserpan_image_free(image);
    for (long i = 0; i < count; i++)
        HOLDS(!pthread_join(thread[i], NULL));
    printf("threads\n");
}

/* ---- terms ---- */

/* An engine's run of the whole text, to the end that is wanted, of which so many bytes are put out. */
static void ends(geyserpan_engine *engine, uint32_t wanted, uint64_t length)
{
    uint8_t out[64];
    geyserpan_done done;
    HOLDS(geyserpan_engine_step(engine, UINT64_MAX, text, LENGTH, 1, out, sizeof out, &done) == wanted);
    HOLDS(done.written == length && !memcmp(out, text, length));
}

static void sharing(void)
{
    geyserpan_terms few = all;
    few.output = 3;
    few.windows = 9;
    geyserpan_image first = made(), second = made(), third = opened(&few);
    geyserpan_engine engine;
    geyserpan_facts facts;
    geyserpan_why why;
    HOLDS(geyserpan_engine_new(&engine) == GEYSERPAN_OK);
    /* an empty handle has nothing to share, and the other keeps what it held */
    HOLDS(geyserpan_image_share(&first, &second) == GEYSERPAN_HANDLE);
    HOLDS(geyserpan_image_share(&first, &third) == GEYSERPAN_HANDLE);
    HOLDS(geyserpan_facts_of(&second, &facts) == GEYSERPAN_HANDLE);
    HOLDS(geyserpan_facts_of(&third, &facts) == GEYSERPAN_OK);
    HOLDS(geyserpan_open(&first, file, file_length, &all, &why) == GEYSERPAN_OK);
    HOLDS(geyserpan_image_share(&first, &second) == GEYSERPAN_OK);
    /* the terms come with it, and what one handle does the other doesn't see */
    HOLDS(geyserpan_image_share(&third, &first) == GEYSERPAN_OK);
    HOLDS(geyserpan_engine_begin(&engine, &first) == GEYSERPAN_OK);
    ends(&engine, GEYSERPAN_OUTPUT, 3);
    geyserpan_close(&third);
    HOLDS(geyserpan_engine_begin(&engine, &first) == GEYSERPAN_OK);
    ends(&engine, GEYSERPAN_OUTPUT, 3);
    HOLDS(geyserpan_engine_begin(&engine, &second) == GEYSERPAN_OK);
    geyserpan_close(&first);
    geyserpan_image_free(second);
    ends(&engine, GEYSERPAN_ENDED, LENGTH);
    HOLDS(geyserpan_engine_begin(&engine, &first) == GEYSERPAN_HANDLE);
    geyserpan_engine_free(engine);
    geyserpan_image_free(first);
    geyserpan_image_free(third);
}

/* The terms that deny a run of the image on this handle, and their status; the run that there was goes on. */
static void denials(geyserpan_run *run, geyserpan_engine *engine, geyserpan_image *image)
{
    geyserpan_facts facts;
    uint8_t out[64];
    geyserpan_done done;
    HOLDS(geyserpan_facts_of(image, &facts) == GEYSERPAN_OK);
    const struct {
        geyserpan_terms terms;
        uint32_t board, engine;
    } denied[] = {
        { { facts.budget - 1, 64, 7, 8 }, GEYSERPAN_TURNS, GEYSERPAN_TURNS },
        { { facts.budget, 64, 7 & ~facts.services, 8 }, GEYSERPAN_SERVICES, GEYSERPAN_SERVICES },
        { { 0, 64, 7 & ~GEYSERPAN_PUT, 8 }, GEYSERPAN_SERVICES, GEYSERPAN_SERVICES },
        { { 0, 64, 0, 3 }, GEYSERPAN_WINDOWS, GEYSERPAN_WINDOWS },
        { { 0, 64, 0, 33 }, GEYSERPAN_WINDOWS, GEYSERPAN_WINDOWS },
        { { facts.budget, 64, 7, UINT32_MAX }, GEYSERPAN_WINDOWS, GEYSERPAN_WINDOWS },
        { { facts.budget, 64, 7, 0 }, GEYSERPAN_WINDOWS, GEYSERPAN_WINDOWS },
        { { 0, 64, 0, 9 }, GEYSERPAN_WINDOWS, GEYSERPAN_SERVICES },
    };
    HOLDS(geyserpan_begin(run, image) == GEYSERPAN_OK && geyserpan_engine_begin(engine, image) == GEYSERPAN_OK);
    for (size_t i = 0; i < sizeof denied / sizeof *denied; i++) {
        HOLDS(geyserpan_begin_with(run, image, &denied[i].terms) == denied[i].board);
        HOLDS(geyserpan_engine_begin_with(engine, image, &denied[i].terms) == denied[i].engine);
    }
    HOLDS(geyserpan_step(run, UINT64_MAX, text, LENGTH, 1, out, sizeof out, &done) == GEYSERPAN_ENDED);
    HOLDS(done.written == LENGTH);
    ends(engine, GEYSERPAN_ENDED, LENGTH);
    /* exactly what the image declares is enough */
    geyserpan_terms least = { facts.budget, LENGTH, facts.services, 8 };
    HOLDS(geyserpan_begin_with(run, image, &least) == GEYSERPAN_OK);
    HOLDS(geyserpan_step(run, UINT64_MAX, text, LENGTH, 1, out, sizeof out, &done) == GEYSERPAN_ENDED);
    HOLDS(done.written == LENGTH);
    HOLDS(geyserpan_engine_begin_with(engine, image, &least) == GEYSERPAN_OK);
    ends(engine, GEYSERPAN_ENDED, LENGTH);
}

/* Runs on terms of their own, on each count of windows and with each limit of output, beside those of the image that
   was opened on the same terms; those of the image stay. */
static void runs_with(geyserpan_run *run, geyserpan_engine *engine, geyserpan_image *image)
{
    uint8_t out[64], other[64];
    geyserpan_done done;
    geyserpan_report report;
    for (uint32_t windows = 4; windows <= 32; windows++) {
        geyserpan_terms terms = { UINT64_MAX, UINT64_MAX, 7, windows };
        geyserpan_image same = opened(&terms);
        HOLDS(geyserpan_engine_run(&same, text, LENGTH, other, sizeof other, &report) == GEYSERPAN_OK);
        geyserpan_image_free(same);
        HOLDS(geyserpan_engine_begin_with(engine, image, &terms) == GEYSERPAN_OK);
        HOLDS(geyserpan_engine_step(engine, UINT64_MAX, text, LENGTH, 1, out, sizeof out, &done) == GEYSERPAN_ENDED);
        HOLDS(done.turns == report.turns && done.exit == report.exit && done.written == report.output);
    }
    for (uint64_t output = 0; output < LENGTH; output++) {
        geyserpan_terms terms = { UINT64_MAX, output, 7, 8 };
        HOLDS(geyserpan_begin_with(run, image, &terms) == GEYSERPAN_OK);
        HOLDS(geyserpan_step(run, UINT64_MAX, text, LENGTH, 1, out, sizeof out, &done) == GEYSERPAN_OUTPUT);
        HOLDS(done.written == output && !memcmp(out, text, output));
        HOLDS(geyserpan_engine_begin_with(engine, image, &terms) == GEYSERPAN_OK);
        ends(engine, GEYSERPAN_OUTPUT, output);
        HOLDS(geyserpan_engine_begin(engine, image) == GEYSERPAN_OK);
        ends(engine, GEYSERPAN_ENDED, LENGTH);
    }
}

static void terms(void)
{
    geyserpan_image image = opened(&all), empty = made();
    geyserpan_run run;
    geyserpan_engine engine;
    HOLDS(geyserpan_run_new(&run) == GEYSERPAN_OK && geyserpan_engine_new(&engine) == GEYSERPAN_OK);
    HOLDS(geyserpan_begin_with(&run, &empty, &all) == GEYSERPAN_HANDLE);
    HOLDS(geyserpan_engine_begin_with(&engine, &empty, &all) == GEYSERPAN_HANDLE);
    sharing();
    denials(&run, &engine, &image);
    runs_with(&run, &engine, &image);
    geyserpan_engine_free(engine);
    geyserpan_run_free(run);
    geyserpan_image_free(empty);
    geyserpan_image_free(image);
}

/* ---- names ---- */

static void says(uint32_t status, const geyserpan_facts *facts, const geyserpan_terms *given, const char *wanted)
{
    uint8_t line[96], none[1] = { 0xA5 };
    size_t length = geyserpan_terms_text(status, facts, given, line, sizeof line);
    if (length != strlen(wanted) || memcmp(line, wanted, length)) {
        fprintf(stderr, "status %u: wanted %s, came %.*s\n", status, wanted, (int)length, (const char *)line);
        exit(1);
    }
    HOLDS(geyserpan_terms_text(status, facts, given, none, 0) == length && none[0] == 0xA5);
}

static void texts(void)
{
    geyserpan_facts facts = { 5000000, 7, 1, 0, 0, 1, 1, 0, 0 };
    says(GEYSERPAN_TURNS, &facts, &(geyserpan_terms){ 1000000, 0, 0, 8 },
         "asks for 5,000,000 turns, 1,000,000 are granted");
    facts.budget = UINT64_C(1) << 40;
    says(GEYSERPAN_TURNS, &facts, &(geyserpan_terms){ 0, 0, 0, 8 }, "asks for 1,099,511,627,776 turns, 0 are granted");
    facts.budget = UINT64_MAX;
    says(GEYSERPAN_TURNS, &facts, &(geyserpan_terms){ UINT64_MAX, 0, 0, 8 },
         "asks for 18,446,744,073,709,551,615 turns, 18,446,744,073,709,551,615 are granted");
    says(GEYSERPAN_SERVICES, &facts, &(geyserpan_terms){ 0, 0, GEYSERPAN_EXIT | GEYSERPAN_GET, 8 },
         "asks for exit, get and put; granted: exit and get");
    says(GEYSERPAN_OUTPUT, &facts, &(geyserpan_terms){ 0, 65536, 0, 8 },
         "puts out more than the 65,536 bytes that are granted");
    says(GEYSERPAN_WINDOWS, &facts, &(geyserpan_terms){ 0, 0, 0, UINT32_MAX },
         "no run on 4294967295 windows: 4 to 32, in pieces on a board 8");
    says(GEYSERPAN_MEMORY, &facts, &all, "memory");
    says(UINT32_MAX, &facts, &all, "no such status");
}

/* The kinds of tests that the front end adds, as docs/use/c.md has them. */
static void kinds(void)
{
    static const uint32_t some[] = { GEYSERPAN_TEST_INDEX, GEYSERPAN_TEST_POINTER, GEYSERPAN_TEST_DIVISOR,
                                     GEYSERPAN_TEST_LOOPS, GEYSERPAN_TEST_DEPTH, GEYSERPAN_TEST_CALL };
    for (uint32_t kind = 0; kind < 0x10000; kind++) {
        uint32_t wanted = GEYSERPAN_TEST_NONE;
        for (size_t i = 0; i < sizeof some / sizeof *some; i++)
            wanted = some[i] == kind ? kind : wanted;
        HOLDS(geyserpan_exit_kind(kind << 16) == wanted && geyserpan_exit_kind(kind << 16 | 0xFFFF) == wanted);
    }
}

/* The hash of each first part of the file, up to 300 bytes, and of all of it. */
static void hashes(void)
{
    uint8_t hash[33];
    for (size_t length = 0;; length = length < 300 && length < file_length ? length + 1 : file_length) {
        memset(hash, 0xA5, sizeof hash);
        HOLDS(geyserpan_sha256(file, length, hash, 31) == GEYSERPAN_ROOM && hash[0] == 0xA5 && hash[30] == 0xA5);
        HOLDS(geyserpan_sha256(file, length, hash, sizeof hash) == GEYSERPAN_OK && hash[32] == 0xA5);
        for (size_t i = 0; i < 32; i++)
            printf("%02x", hash[i]);
        printf("\n");
        if (length == file_length)
            return;
    }
}

int main(int count, char **words)
{
    FILE *from = count > 2 ? fopen(words[2], "rb") : NULL;
    if (!from || geyserpan_abi() != GEYSERPAN_ABI)
        return 3;
    file_length = fread(file, 1, sizeof file, from);
    fclose(from);
    if (!strcmp(words[1], "threads") && count > 4)
        threads(strtol(words[3], NULL, 10), strtol(words[4], NULL, 10));
    else if (!strcmp(words[1], "terms")) {
        terms();
        texts();
        kinds();
        printf("terms\n");
    } else if (!strcmp(words[1], "hashes"))
        hashes();
    else
        return 3;
    return 0;
}
