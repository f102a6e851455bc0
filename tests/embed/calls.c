/* Makes the calls of geyserpan.h for tests/run embed: calls MODE FILE [NUMBER ..]. What is wrong is told on standard error, with status 1. */
#include "geyserpan.h"
#include <pthread.h>
#include <stdio.h>
#include <stdlib.h>
#include <string.h>
#include <time.h>
#include <unistd.h>

static uint8_t file[8 << 20], input[1 << 20], room[1 << 20];
static size_t file_length, input_length;
static const geyserpan_terms all = { UINT64_MAX, UINT64_MAX, 7, 8 };

#define HOLDS(what) ((what) ? (void)0 : (fprintf(stderr, "%s:%d: %s\n", __FILE__, __LINE__, #what), exit(1)))

static void say(uint32_t status, const geyserpan_why *why)
{
    uint8_t text[96];
    size_t length = geyserpan_why_text(status, why, text, sizeof text);
    HOLDS(length <= sizeof text);
    printf("%.*s\n", (int)length, (const char *)text);
}

static geyserpan_image opened(const geyserpan_terms *terms)
{
    geyserpan_image image;
    geyserpan_why why;
    HOLDS(geyserpan_image_new(&image) == GEYSERPAN_OK);
    HOLDS(geyserpan_open(&image, file, file_length, terms, &why) == GEYSERPAN_OK);
    return image;
}

/* ---- single calls ---- */

static void check(void)
{
    geyserpan_facts facts;
    geyserpan_why why = { 0, 0, 0 };
    uint32_t status = geyserpan_check(file, file_length, &facts, &why);
    if (status == GEYSERPAN_OK)
        printf("accepted\n");
    else
        say(status, &why);
}

static void tell_facts(void)
{
    geyserpan_facts facts, same;
    geyserpan_why why;
    HOLDS(geyserpan_check(file, file_length, &facts, &why) == GEYSERPAN_OK);
    geyserpan_image image = opened(&all);
    HOLDS(geyserpan_facts_of(&image, &same) == GEYSERPAN_OK);
    HOLDS(!memcmp(&facts, &same, sizeof facts) && !facts.zero);
    geyserpan_image_free(image);
    printf("%u %u %u %u %u %u %llu %u\n", facts.version, facts.services, facts.words, facts.data_bytes, facts.stack_pages, facts.functions,
           (unsigned long long)facts.budget, facts.depth);
}

static void assemble(void)
{
    geyserpan_why why = { 0, 0, 0 };
    uint64_t needed = 0;
    uint32_t status = geyserpan_assemble(file, file_length, room, sizeof room, &needed, &why);
    if (status == GEYSERPAN_OK)
        fwrite(room, 1, needed, stdout);
    else
        say(status, &why);
    if (status == GEYSERPAN_OK && needed) {
        uint8_t little[1] = { 0xA5 };
        uint64_t again = 0;
        HOLDS(geyserpan_assemble(file, file_length, little, needed > 1, &again, &why) == (needed > 1 ? GEYSERPAN_ROOM : GEYSERPAN_ROOM));
        HOLDS(again == needed && little[0] == 0xA5);
    }
}

/* ---- runs ---- */

static uint32_t put(const geyserpan_report *report)
{
    fwrite(room, 1, report->output, stdout);
    fprintf(stderr, "%u %llu\n", report->exit, (unsigned long long)report->turns);
    return report->exit;
}

/* The engine gives what the board gave, but for pages, of which it has none. */
static void engine_once(geyserpan_image *image, const geyserpan_report *board)
{
    static uint8_t other[sizeof room];
    geyserpan_report report;
    HOLDS(geyserpan_engine_run(image, input, input_length, other, sizeof other, &report) == GEYSERPAN_OK);
    HOLDS(report.turns == board->turns && report.overflows == board->overflows && report.underflows == board->underflows);
    HOLDS(report.output == board->output && !memcmp(other, room, board->output) && report.exit == board->exit && !report.zero);
    for (int i = 0; i < 3; i++)
        HOLDS(!report.referenced[i] && !report.modified[i]);
}

static void once(uint32_t windows)
{
    geyserpan_terms terms = { UINT64_MAX, UINT64_MAX, 7, windows };
    geyserpan_report report, kept;
    geyserpan_why why;
    HOLDS(geyserpan_once(file, file_length, &terms, input, input_length, room, sizeof room, &report, &why) == GEYSERPAN_OK);
    geyserpan_image image = opened(&terms);
    for (int i = 0; i < 3; i++) {
        static uint8_t other[sizeof room];
        HOLDS(geyserpan_run_image(&image, input, input_length, other, sizeof other, &kept) == GEYSERPAN_OK);
        HOLDS(!memcmp(&report, &kept, sizeof report) && !memcmp(room, other, report.output) && !report.zero);
        engine_once(&image, &report);
    }
    geyserpan_image_free(image);
    put(&report);
}

/* The handle of a run in pieces: on a board, or where there is none on the engine. */
typedef struct {
    geyserpan_run *board;
    geyserpan_engine *engine;
} stepped;

/* So many turns the engine puts by at most. */
#define PUT_BY 24

/* Whether a step may make so many turns of those that it was allowed, and where it pauses it has made them, but for those that are put
   by, now or before. */
static int is_allowed(uint64_t made, uint64_t turns, uint32_t status, uint64_t put_by)
{
    int is_over = made > turns && made - turns > put_by, is_under = made < turns && turns - made > put_by;
    return !is_over && !(is_under && status == GEYSERPAN_PAUSED);
}

static uint32_t step(stepped run, uint64_t turns, const uint8_t *piece, size_t length, uint32_t last, uint8_t *to, size_t most, geyserpan_done *done)
{
    return run.board ? geyserpan_step(run.board, turns, piece, length, last, to, most, done)
                     : geyserpan_engine_step(run.engine, turns, piece, length, last, to, most, done);
}

/* Whether a step did what the one before it ended for: behind WANTS it reads a byte of a piece, behind FULL it writes one, where it has
   turns enough for a service. */
static int is_answered(uint32_t before, int is_board, uint64_t turns, size_t piece, size_t most, const geyserpan_done *done)
{
    if (before == GEYSERPAN_WANTS && piece && turns >= (is_board ? 1 : 5))
        return done->read > 0;
    return before != GEYSERPAN_FULL || !most || turns < (is_board ? 0 : 5) || done->written > 0;
}

/* A run in pieces of so many bytes, rooms of so many, and so many turns a step. */
static uint32_t in_pieces(stepped run, size_t piece, size_t most, uint64_t turns, size_t *length, geyserpan_done *done)
{
    static const uint8_t none;
    size_t read = 0, written = 0;
    uint64_t made = 0;
    uint32_t status = GEYSERPAN_OK;
    do {
        size_t next = input_length - read < piece ? input_length - read : piece;
        uint8_t *to = room + written, guard = to[most];
        uint64_t before = made;
        uint32_t ended = status;
        status = step(run, turns, next ? input + read : &none, next, read + next == input_length, to, most, done);
        made = done->turns;
        HOLDS(is_answered(ended, run.board != NULL, turns, next, most, done));
        HOLDS(made >= before && is_allowed(made - before, turns, status, run.board ? 0 : PUT_BY));
        HOLDS(done->read <= next && done->written <= most && to[most] == guard && !done->zero);
        HOLDS(status == GEYSERPAN_ENDED || !done->exit);
        HOLDS(status != GEYSERPAN_WANTS || (done->read == next && read + next < input_length));
        HOLDS(status != GEYSERPAN_FULL || done->written == most);
        read += done->read;
        written += done->written;
        if (status == GEYSERPAN_FULL && !most)
            most = 1;
    } while (status == GEYSERPAN_WANTS || status == GEYSERPAN_FULL || status == GEYSERPAN_PAUSED);
    *length = written;
    return status;
}

static void pieces(size_t piece, size_t most, uint64_t turns)
{
    geyserpan_image image = opened(&all);
    geyserpan_run run;
    geyserpan_done done, again;
    geyserpan_report report;
    static uint8_t whole[sizeof room];
    size_t length;
    const stepped board = { &run, NULL };
    HOLDS(geyserpan_run_new(&run) == GEYSERPAN_OK);
    HOLDS(geyserpan_begin(&run, &image) == GEYSERPAN_OK);
    HOLDS(geyserpan_run_image(&image, input, input_length, whole, sizeof whole, &report) == GEYSERPAN_OK);
    for (int i = 0; i < 2; i++) {
        HOLDS(in_pieces(board, piece, most, turns, &length, &done) == GEYSERPAN_ENDED);
        HOLDS(length == report.output && !memcmp(room, whole, length) && done.exit == report.exit && done.turns == report.turns);
        HOLDS(geyserpan_step(&run, turns, input, input_length, 0, room, sizeof room, &again) == GEYSERPAN_ENDED);
        HOLDS(again.exit == done.exit && again.turns == done.turns && !again.read && !again.written);
        HOLDS(geyserpan_restart(&run, &image) == GEYSERPAN_OK);
    }
    /* given up in the middle */
    geyserpan_step(&run, 7, input, input_length, 1, room, sizeof room, &again);
    HOLDS(geyserpan_begin(&run, &image) == GEYSERPAN_OK);
    geyserpan_close(&image);
    HOLDS(in_pieces(board, piece, most, turns, &length, &done) == GEYSERPAN_ENDED && length == report.output);
    fwrite(room, 1, length, stdout);
    geyserpan_run_free(run);
    geyserpan_image_free(image);
}

/* The engine in pieces on so many windows, beside a board's run to its end. */
static void engine_pieces(uint32_t windows, size_t piece, size_t most, uint64_t turns)
{
    const geyserpan_terms terms = { UINT64_MAX, UINT64_MAX, 7, windows };
    geyserpan_image image = opened(&terms);
    geyserpan_engine engine;
    const stepped run = { NULL, &engine };
    geyserpan_done done, again;
    geyserpan_report report;
    static uint8_t whole[sizeof room];
    size_t length;
    HOLDS(geyserpan_run_image(&image, input, input_length, whole, sizeof whole, &report) == GEYSERPAN_OK);
    HOLDS(geyserpan_engine_new(&engine) == GEYSERPAN_OK && geyserpan_engine_begin(&engine, &image) == GEYSERPAN_OK);
    HOLDS(in_pieces(run, piece, most, turns, &length, &done) == GEYSERPAN_ENDED);
    HOLDS(length == report.output && !memcmp(room, whole, length) && done.exit == report.exit && done.turns == report.turns);
    HOLDS(geyserpan_engine_step(&engine, turns, input, input_length, 0, room, sizeof room, &again) == GEYSERPAN_ENDED);
    HOLDS(again.exit == done.exit && again.turns == done.turns && !again.read && !again.written);
    /* given up in the middle; then the image goes before its run does */
    HOLDS(geyserpan_engine_begin(&engine, &image) == GEYSERPAN_OK);
    geyserpan_engine_step(&engine, 7, input, input_length, 1, room, sizeof room, &again);
    HOLDS(geyserpan_engine_begin(&engine, &image) == GEYSERPAN_OK);
    geyserpan_close(&image);
    HOLDS(in_pieces(run, piece, most, turns, &length, &done) == GEYSERPAN_ENDED && length == report.output && !memcmp(room, whole, length));
    fwrite(room, 1, length, stdout);
    geyserpan_engine_free(engine);
    geyserpan_image_free(image);
}

/* ---- ends ---- */

static void keeps(uint32_t status, uint32_t wanted, const uint8_t *bytes, size_t length)
{
    HOLDS(status == wanted);
    for (size_t i = 0; i < length; i++)
        HOLDS(bytes[i] == 0xA5);
}

/* The engine's ends, with an image that puts out so many bytes, more than two, of its input. */
static void engine_edges(uint64_t length)
{
    geyserpan_terms terms = all;
    geyserpan_report report, before;
    geyserpan_why why;
    geyserpan_done done, no_done;
    geyserpan_image image;
    geyserpan_engine engine;
    uint8_t small[64];
    memset(small, 0xA5, sizeof small);
    memset(&done, 0xA5, sizeof done);
    memset(&report, 0xA5, sizeof report);
    no_done = done;
    before = report;

    /* empty handles */
    HOLDS(geyserpan_image_new(&image) == GEYSERPAN_OK && geyserpan_engine_new(&engine) == GEYSERPAN_OK);
    keeps(geyserpan_engine_run(&image, input, input_length, small, sizeof small, &report), GEYSERPAN_HANDLE, small, sizeof small);
    HOLDS(geyserpan_engine_begin(&engine, &image) == GEYSERPAN_HANDLE);
    keeps(geyserpan_engine_step(&engine, 1, input, input_length, 1, small, sizeof small, &done), GEYSERPAN_HANDLE, small, sizeof small);
    HOLDS(!memcmp(&done, &no_done, sizeof done) && !memcmp(&report, &before, sizeof report));
    geyserpan_engine_end(&engine);

    /* each count of windows; a room that is too small, by one byte too; more output than is granted */
    for (terms.windows = 4; terms.windows <= 32; terms.windows++) {
        HOLDS(geyserpan_open(&image, file, file_length, &terms, &why) == GEYSERPAN_OK && geyserpan_engine_begin(&engine, &image) == GEYSERPAN_OK);
        HOLDS(geyserpan_engine_step(&engine, UINT64_MAX, input, input_length, 1, small, sizeof small, &done) == GEYSERPAN_ENDED && done.written == length);
        HOLDS(geyserpan_engine_run(&image, input, input_length, small, sizeof small, &report) == GEYSERPAN_OK && report.output == length);
        HOLDS(small[length] == 0xA5 && report.turns == done.turns && report.exit == done.exit);
    }
    memset(small, 0xA5, sizeof small);
    for (size_t size = 0; size < length; size++) {
        memset(&report, 0, sizeof report);
        keeps(geyserpan_engine_run(&image, input, input_length, small, size, &report), GEYSERPAN_ROOM, small, sizeof small);
        HOLDS(report.output == length);
    }
    HOLDS(geyserpan_engine_run(&image, input, input_length, small, length, &report) == GEYSERPAN_OK && small[length] == 0xA5);
    memset(small, 0xA5, sizeof small);
    terms = all;
    terms.output = length - 1;
    HOLDS(geyserpan_open(&image, file, file_length, &terms, &why) == GEYSERPAN_OK);
    keeps(geyserpan_engine_run(&image, input, input_length, small, sizeof small, &report), GEYSERPAN_OUTPUT, small, sizeof small);
    HOLDS(report.output == length);

    /* a limit of output; rooms and pieces of 0; no turns */
    terms.output = 2;
    HOLDS(geyserpan_open(&image, file, file_length, &terms, &why) == GEYSERPAN_OK && geyserpan_engine_begin(&engine, &image) == GEYSERPAN_OK);
    keeps(geyserpan_engine_step(&engine, 0, input, 0, 0, small, 0, &done), GEYSERPAN_PAUSED, small, sizeof small);
    HOLDS(!done.turns && !done.read && !done.written && !done.exit && !done.zero);
    keeps(geyserpan_engine_step(&engine, UINT64_MAX, input, 0, 0, small, 0, &done), GEYSERPAN_WANTS, small, sizeof small);
    keeps(geyserpan_engine_step(&engine, UINT64_MAX, input, input_length, 0, small, 0, &done), GEYSERPAN_FULL, small, sizeof small);
    HOLDS(done.read && !done.written);
    size_t read = done.read;
    HOLDS(geyserpan_engine_step(&engine, UINT64_MAX, input + read, input_length - read, 1, small, sizeof small, &done) == GEYSERPAN_OUTPUT && done.written == 2);
    HOLDS(small[2] == 0xA5);
    HOLDS(geyserpan_engine_step(&engine, UINT64_MAX, input, input_length, 1, small, sizeof small, &done) == GEYSERPAN_OUTPUT && !done.written && !done.read);

    /* a handle that holds no image leaves the run that there was */
    geyserpan_close(&image);
    HOLDS(geyserpan_engine_begin(&engine, &image) == GEYSERPAN_HANDLE);
    HOLDS(geyserpan_engine_step(&engine, UINT64_MAX, input, input_length, 1, small, sizeof small, &done) == GEYSERPAN_OUTPUT && !done.written && !done.read);
    geyserpan_engine_end(&engine);
    HOLDS(geyserpan_engine_step(&engine, 1, input, 0, 1, small, 0, &done) == GEYSERPAN_HANDLE);
    geyserpan_image_free(image);
    geyserpan_engine_free(engine);
}

/* What a status means, in words, with these numbers. */
static void says(uint32_t status, const geyserpan_why *why, const char *wanted)
{
    uint8_t text[96];
    size_t length = geyserpan_why_text(status, why, text, sizeof text);
    if (length == strlen(wanted) && !memcmp(text, wanted, length))
        return;
    fprintf(stderr, "status %u: wanted %s, came %.*s\n", status, wanted, (int)(length < sizeof text ? length : sizeof text), (const char *)text);
    exit(1);
}

/* The words of each status, by its number; texts that fit, and that don't. */
static void texts(void)
{
    static const char *const words[] = {
        [GEYSERPAN_OK] = "done",
        [GEYSERPAN_NO_IMAGE] = "image I7",
        [GEYSERPAN_REFUSED] = "refused V7 in function 3 at 0004ABCC",
        [GEYSERPAN_MEMORY] = "memory",
        [GEYSERPAN_WINDOWS] = "no such count of windows",
        [GEYSERPAN_SERVICES] = "it asks for a service that isn't granted",
        [GEYSERPAN_TURNS] = "it asks for more turns than are granted",
        [GEYSERPAN_ROOM] = "the room is too small",
        [GEYSERPAN_ENDED] = "it has ended",
        [GEYSERPAN_WANTS] = "it waits for input",
        [GEYSERPAN_FULL] = "the room is full",
        [GEYSERPAN_PAUSED] = "the turns are made",
        [GEYSERPAN_HANDLE] = "the handle holds none",
        [GEYSERPAN_SOURCE] = "line 306124: S3",
        [GEYSERPAN_OUTPUT] = "it puts out more than is granted",
        [GEYSERPAN_LOST] = "the run is lost",
        "no such status",
    };
    static const char *const causes[] = { "X1", "X2", "X3", "X4", "S1", "S2", "S3", "S4", "S5", "A1", "A2", "A3", "A4" };
    geyserpan_why why = { 7, 3, 0x4ABCC };
    for (uint32_t status = 0; status < sizeof words / sizeof *words; status++)
        says(status, &why, words[status]);
    says(UINT32_MAX, &why, "no such status");
    for (uint32_t cause = 0; cause < sizeof causes / sizeof *causes; cause++) {
        char wanted[16];
        snprintf(wanted, sizeof wanted, "line 9: %s", causes[cause]);
        says(GEYSERPAN_SOURCE, &(geyserpan_why){ cause + 1, 0, 9 }, wanted);
    }
    uint8_t text[96], none[1] = { 0xA5 };
    HOLDS(geyserpan_version(text, sizeof text) <= 32 && geyserpan_version(none, 0) <= 32 && none[0] == 0xA5);
    why = (geyserpan_why){ UINT32_MAX, UINT32_MAX, UINT32_MAX };
    for (uint32_t status = 0; status < 20; status++)
        HOLDS(geyserpan_why_text(status, &why, text, sizeof text) <= sizeof text && geyserpan_why_text(status, &why, none, 0) > 0 && none[0] == 0xA5);
}

/* What is refused, with an image that puts out more than two bytes of its input: nothing of the room is written. */
static void edges(void)
{
    geyserpan_terms terms = all;
    geyserpan_report report, before;
    geyserpan_why why;
    geyserpan_facts facts;
    geyserpan_done done;
    uint8_t small[64];
    memset(small, 0xA5, sizeof small);
    memset(&facts, 0xA5, sizeof facts);
    memset(&why, 0xA5, sizeof why);
    const geyserpan_why no_why = why;
    const geyserpan_facts no_facts = facts;
    HOLDS(geyserpan_check(file, 3, &facts, &why) == GEYSERPAN_NO_IMAGE && why.number == 1 && !memcmp(&facts, &no_facts, sizeof facts));
    why = no_why;
    memset(&report, 0xA5, sizeof report);
    before = report;

    static const uint32_t counts[] = { 0, 1, 3, 33, 64, UINT32_MAX };
    for (size_t i = 0; i < sizeof counts / sizeof *counts; i++) {
        terms.windows = counts[i];
        keeps(geyserpan_once(file, file_length, &terms, input, input_length, small, sizeof small, &report, &why), GEYSERPAN_WINDOWS, small, sizeof small);
    }
    for (terms.windows = 4; terms.windows <= 32; terms.windows++) {
        HOLDS(geyserpan_once(file, file_length, &terms, input, input_length, small, sizeof small, &report, &why) == GEYSERPAN_OK);
        memset(small, 0xA5, sizeof small);
    }
    report = before;
    terms = (geyserpan_terms){ 0, 0, 0, 8 };
    keeps(geyserpan_once(file, file_length, &terms, input, input_length, small, sizeof small, &report, &why), GEYSERPAN_SERVICES, small, sizeof small);
    HOLDS(geyserpan_check(file, file_length, &facts, &why) == GEYSERPAN_OK);
    terms = (geyserpan_terms){ facts.budget - 1, UINT64_MAX, 7, 8 };
    keeps(geyserpan_once(file, file_length, &terms, input, input_length, small, sizeof small, &report, &why), GEYSERPAN_TURNS, small, sizeof small);
    terms = (geyserpan_terms){ UINT64_MAX, UINT64_MAX, 7 & ~GEYSERPAN_PUT, 8 };
    keeps(geyserpan_once(file, file_length, &terms, input, input_length, small, sizeof small, &report, &why), GEYSERPAN_SERVICES, small, sizeof small);
    HOLDS(!memcmp(&report, &before, sizeof report) && !memcmp(&why, &no_why, sizeof why));

    /* exactly the terms that it needs; a room that is too small by one byte */
    terms = (geyserpan_terms){ facts.budget, UINT64_MAX, facts.services, 8 };
    HOLDS(geyserpan_once(file, file_length, &terms, input, input_length, room, sizeof room, &report, &why) == GEYSERPAN_OK);
    uint64_t length = report.output;
    HOLDS(length > 2 && length < sizeof small);
    for (size_t size = 0; size < length; size++) {
        memset(&report, 0, sizeof report);
        keeps(geyserpan_once(file, file_length, &terms, input, input_length, small, size, &report, &why), GEYSERPAN_ROOM, small, sizeof small);
        HOLDS(report.output == length);
    }
    HOLDS(geyserpan_once(file, file_length, &terms, input, input_length, small, length, &report, &why) == GEYSERPAN_OK);
    HOLDS(!memcmp(small, room, length) && small[length] == 0xA5);
    memset(small, 0xA5, sizeof small);
    terms.output = length - 1;
    keeps(geyserpan_once(file, file_length, &terms, input, input_length, small, sizeof small, &report, &why), GEYSERPAN_OUTPUT, small, sizeof small);
    HOLDS(report.output == length);
    terms.output = length;
    HOLDS(geyserpan_once(file, file_length, &terms, input, input_length, small, sizeof small, &report, &why) == GEYSERPAN_OK);
    memset(small, 0xA5, sizeof small);

    /* empty handles */
    geyserpan_image image;
    geyserpan_run run;
    HOLDS(geyserpan_image_new(&image) == GEYSERPAN_OK && geyserpan_run_new(&run) == GEYSERPAN_OK);
    keeps(geyserpan_run_image(&image, input, input_length, small, sizeof small, &report), GEYSERPAN_HANDLE, small, sizeof small);
    HOLDS(geyserpan_facts_of(&image, &facts) == GEYSERPAN_HANDLE);
    HOLDS(geyserpan_begin(&run, &image) == GEYSERPAN_HANDLE && geyserpan_restart(&run, &image) == GEYSERPAN_HANDLE);
    memset(&done, 0xA5, sizeof done);
    geyserpan_done no_done = done;
    keeps(geyserpan_step(&run, 1, input, input_length, 1, small, sizeof small, &done), GEYSERPAN_HANDLE, small, sizeof small);
    HOLDS(!memcmp(&done, &no_done, sizeof done));
    geyserpan_close(&image);
    geyserpan_end(&run);

    /* a refused open leaves the image that there was */
    terms = all;
    HOLDS(geyserpan_open(&image, file, file_length, &terms, &why) == GEYSERPAN_OK);
    HOLDS(geyserpan_restart(&run, &image) == GEYSERPAN_HANDLE);
    terms.turns = 0;
    HOLDS(geyserpan_open(&image, file, file_length, &terms, &why) == GEYSERPAN_TURNS);
    HOLDS(geyserpan_open(&image, file, 3, &all, &why) == GEYSERPAN_NO_IMAGE && why.number == 1 && !why.function && !why.address);
    HOLDS(geyserpan_open(&image, file, 0, &all, &why) == GEYSERPAN_NO_IMAGE && why.number == 1);
    HOLDS(geyserpan_open(&image, file, sizeof file, &all, &why) == GEYSERPAN_NO_IMAGE && why.number == 6);
    HOLDS(geyserpan_run_image(&image, input, input_length, small, sizeof small, &report) == GEYSERPAN_OK && report.output == length);
    memset(small, 0xA5, sizeof small);

    /* other windows than 8 in pieces; then a limit of output; rooms and pieces of 0 */
    terms = all;
    terms.windows = 9;
    HOLDS(geyserpan_open(&image, file, file_length, &terms, &why) == GEYSERPAN_OK);
    HOLDS(geyserpan_begin(&run, &image) == GEYSERPAN_WINDOWS);
    terms = all;
    terms.output = 2;
    HOLDS(geyserpan_open(&image, file, file_length, &terms, &why) == GEYSERPAN_OK && geyserpan_begin(&run, &image) == GEYSERPAN_OK);
    keeps(geyserpan_step(&run, 0, input, 0, 0, small, 0, &done), GEYSERPAN_PAUSED, small, sizeof small);
    HOLDS(!done.turns && !done.read && !done.written);
    HOLDS(geyserpan_step(&run, UINT64_MAX, input, input_length, 1, small, sizeof small, &done) == GEYSERPAN_OUTPUT && done.written == 2);
    HOLDS(small[2] == 0xA5);
    HOLDS(geyserpan_step(&run, UINT64_MAX, input, input_length, 1, small, sizeof small, &done) == GEYSERPAN_OUTPUT && !done.written && !done.read);
    HOLDS(geyserpan_restart(&run, &image) == GEYSERPAN_OK);
    HOLDS(geyserpan_step(&run, UINT64_MAX, input, 0, 0, small, 0, &done) == GEYSERPAN_WANTS && !done.read);
    geyserpan_end(&run);
    HOLDS(geyserpan_step(&run, 1, input, 0, 1, small, 0, &done) == GEYSERPAN_HANDLE);
    geyserpan_image_free(image);
    geyserpan_run_free(run);

    engine_edges(length);

    texts();
    printf("edges\n");
}

/* ---- lengths ---- */

/* What wants no memory beyond what there is, and has its handles, is told neither of want of memory nor of a handle: a run of the file,
   which hands on its input, on the first so many bytes of it. */
static void run_of(geyserpan_image *image, geyserpan_run *run, geyserpan_engine *engine, size_t length)
{
    geyserpan_report report;
    geyserpan_why why;
    geyserpan_done done;
    HOLDS(geyserpan_once(file, file_length, &all, input, length, room, sizeof room, &report, &why) == GEYSERPAN_OK && report.output == length);
    HOLDS(geyserpan_run_image(image, input, length, room, sizeof room, &report) == GEYSERPAN_OK && report.output == length);
    HOLDS(geyserpan_engine_run(image, input, length, room, sizeof room, &report) == GEYSERPAN_OK && report.output == length);
    HOLDS(geyserpan_begin(run, image) == GEYSERPAN_OK && geyserpan_restart(run, image) == GEYSERPAN_OK);
    HOLDS(geyserpan_step(run, UINT64_MAX, input, length, 1, room, length, &done) == GEYSERPAN_ENDED && done.written == length);
    HOLDS(geyserpan_engine_begin(engine, image) == GEYSERPAN_OK);
    HOLDS(geyserpan_engine_step(engine, UINT64_MAX, input, length, 1, room, length, &done) == GEYSERPAN_ENDED && done.written == length);
}

/* An image that puts out the character A, with so many bytes of data: it is accepted, and runs in each way. Gives its length. */
static size_t image_of(size_t data, geyserpan_image *image, geyserpan_run *run, geyserpan_engine *engine)
{
    static const char code[] = ".services exit,put\n.function main,leaf,0,0,10\n.fuel 10\n mov 65,%o0\n ta 2\n mov 0,%o0\n ta 0\n";
    uint8_t source[256], bytes[2048];
    uint64_t length = 0;
    geyserpan_why why;
    geyserpan_facts facts;
    geyserpan_report report;
    geyserpan_done done;
    size_t size = sizeof code - 1;
    memcpy(source, code, size);
    if (data)
        size += (size_t)snprintf((char *)source + size, sizeof source - size, ".data\n.skip %zu\n", data);
    HOLDS(geyserpan_assemble(source, size, bytes, sizeof bytes, &length, &why) == GEYSERPAN_OK);
    HOLDS(geyserpan_check(bytes, length, &facts, &why) == GEYSERPAN_OK && facts.data_bytes >= data);
    HOLDS(geyserpan_once(bytes, length, &all, input, 0, room, sizeof room, &report, &why) == GEYSERPAN_OK && report.output == 1);
    HOLDS(geyserpan_open(image, bytes, length, &all, &why) == GEYSERPAN_OK && geyserpan_facts_of(image, &facts) == GEYSERPAN_OK);
    HOLDS(geyserpan_run_image(image, input, 0, room, sizeof room, &report) == GEYSERPAN_OK && report.output == 1);
    HOLDS(geyserpan_engine_run(image, input, 0, room, sizeof room, &report) == GEYSERPAN_OK && report.output == 1);
    HOLDS(geyserpan_begin(run, image) == GEYSERPAN_OK);
    HOLDS(geyserpan_step(run, UINT64_MAX, input, 0, 1, room, 1, &done) == GEYSERPAN_ENDED);
    HOLDS(geyserpan_engine_begin(engine, image) == GEYSERPAN_OK);
    HOLDS(geyserpan_engine_step(engine, UINT64_MAX, input, 0, 1, room, 1, &done) == GEYSERPAN_ENDED);
    return length;
}

/* What isn't whole: the first so many bytes of the file, as an image, and of a text, as a source. */
static void part_of(size_t length, const uint8_t *source)
{
    geyserpan_facts facts;
    geyserpan_why why;
    geyserpan_report report;
    uint64_t needed = 0;
    if (length < file_length) {
        HOLDS(geyserpan_check(file, length, &facts, &why) == GEYSERPAN_NO_IMAGE);
        HOLDS(geyserpan_once(file, length, &all, input, input_length, room, sizeof room, &report, &why) == GEYSERPAN_NO_IMAGE);
    }
    uint32_t status = geyserpan_assemble(source, length, room, sizeof room, &needed, &why);
    HOLDS(status == GEYSERPAN_OK || status == GEYSERPAN_SOURCE);
}

/* Inputs, sources and parts of the file of each length from 1 to `most` bytes; images of each up to that which data makes, in steps of 8
   bytes. */
static void lengths(size_t most)
{
    static uint8_t source[sizeof input];
    geyserpan_image image = opened(&all), other;
    geyserpan_run run;
    geyserpan_engine engine;
    HOLDS(geyserpan_run_new(&run) == GEYSERPAN_OK && geyserpan_engine_new(&engine) == GEYSERPAN_OK);
    HOLDS(geyserpan_image_new(&other) == GEYSERPAN_OK && most <= input_length);
    memset(source, ' ', sizeof source);
    for (size_t length = 1; length <= most; length++) {
        run_of(&image, &run, &engine, length);
        part_of(length, source);
    }
    size_t data = 0;
    while (image_of(data, &other, &run, &engine) < most)
        data += 8;
    geyserpan_engine_free(engine);
    geyserpan_run_free(run);
    geyserpan_image_free(other);
    geyserpan_image_free(image);
    printf("lengths\n");
}

/* ---- many runs, and threads ---- */

static void many(long runs)
{
    geyserpan_image image = opened(&all);
    geyserpan_run run;
    geyserpan_report report;
    geyserpan_why why;
    geyserpan_done done;
    geyserpan_engine engine;
    HOLDS(geyserpan_run_new(&run) == GEYSERPAN_OK && geyserpan_engine_new(&engine) == GEYSERPAN_OK);
    for (long i = 0; i < runs; i++) {
        HOLDS(geyserpan_run_image(&image, input, input_length, room, sizeof room, &report) == GEYSERPAN_OK);
        HOLDS(geyserpan_begin(&run, &image) == GEYSERPAN_OK);
        HOLDS(geyserpan_step(&run, UINT64_MAX, input, input_length, 1, room, sizeof room, &done) == GEYSERPAN_ENDED && done.written == report.output);
        HOLDS(geyserpan_engine_begin(&engine, &image) == GEYSERPAN_OK);
        HOLDS(geyserpan_engine_step(&engine, UINT64_MAX, input, input_length, 1, room, sizeof room, &done) == GEYSERPAN_ENDED && done.written == report.output);
        HOLDS(geyserpan_engine_run(&image, input, input_length, room, sizeof room, &report) == GEYSERPAN_OK && report.output == done.written);
        if (i % 16 == 0)
            HOLDS(geyserpan_once(file, file_length, &all, input, input_length, room, sizeof room, &report, &why) == GEYSERPAN_OK);
        if (i % 32 == 0) {
            geyserpan_end(&run);
            geyserpan_engine_end(&engine);
        }
        if (i % 64 == 0)
            HOLDS(geyserpan_open(&image, file, file_length, &all, &why) == GEYSERPAN_OK);
    }
    geyserpan_engine_free(engine);
    geyserpan_run_free(run);
    geyserpan_image_free(image);
    fwrite(room, 1, report.output, stdout);
}

static long runs_each;

static void *work(void *which)
{
    uint8_t bytes[4], out[64];
    memset(bytes, 'a' + (int)(long)which, sizeof bytes);
    geyserpan_image image = opened(&all);
    geyserpan_run run;
    geyserpan_report report;
    geyserpan_done done;
    geyserpan_engine engine;
    HOLDS(geyserpan_run_new(&run) == GEYSERPAN_OK && geyserpan_engine_new(&engine) == GEYSERPAN_OK);
    for (long i = 0; i < runs_each; i++) {
        HOLDS(geyserpan_run_image(&image, bytes, sizeof bytes, out, sizeof out, &report) == GEYSERPAN_OK);
        HOLDS(report.output == sizeof bytes && !memcmp(out, bytes, sizeof bytes));
        HOLDS(geyserpan_begin(&run, &image) == GEYSERPAN_OK);
        HOLDS(geyserpan_step(&run, UINT64_MAX, bytes, sizeof bytes, 1, out, sizeof out, &done) == GEYSERPAN_ENDED);
        HOLDS(done.written == sizeof bytes && !memcmp(out, bytes, sizeof bytes));
        memset(out, 0, sizeof out);
        HOLDS(geyserpan_engine_begin(&engine, &image) == GEYSERPAN_OK);
        HOLDS(geyserpan_engine_step(&engine, UINT64_MAX, bytes, sizeof bytes, 1, out, sizeof out, &done) == GEYSERPAN_ENDED);
        HOLDS(done.written == sizeof bytes && !memcmp(out, bytes, sizeof bytes));
        HOLDS(geyserpan_engine_run(&image, bytes, sizeof bytes, out, sizeof out, &report) == GEYSERPAN_OK);
        HOLDS(report.output == sizeof bytes && !memcmp(out, bytes, sizeof bytes));
    }
    geyserpan_engine_free(engine);
    geyserpan_run_free(run);
    geyserpan_image_free(image);
    return NULL;
}

/* Each thread has handles of its own. Then handles go from thread to thread, by joins. */
typedef struct {
    geyserpan_image image;
    geyserpan_engine engine;
} handed;

static void *hand(void *handles)
{
    handed *given = handles;
    uint8_t bytes[1] = { 'z' }, out[8];
    geyserpan_report report;
    geyserpan_done done;
    HOLDS(geyserpan_run_image(&given->image, bytes, 1, out, sizeof out, &report) == GEYSERPAN_OK && out[0] == 'z');
    out[0] = 0;
    HOLDS(geyserpan_engine_step(&given->engine, UINT64_MAX, bytes, 1, 0, out, sizeof out, &done) == GEYSERPAN_WANTS && done.written == 1 && out[0] == 'z');
    return NULL;
}

static void threads(long count, long runs)
{
    pthread_t thread[64];
    runs_each = runs;
    for (long i = 0; i < count; i++)
        HOLDS(!pthread_create(&thread[i], NULL, work, (void *)i));
    for (long i = 0; i < count; i++)
        HOLDS(!pthread_join(thread[i], NULL));
    handed handles = { opened(&all), { NULL } };
    HOLDS(geyserpan_engine_new(&handles.engine) == GEYSERPAN_OK && geyserpan_engine_begin(&handles.engine, &handles.image) == GEYSERPAN_OK);
    for (long i = 0; i < count; i++)
        HOLDS(!pthread_create(&thread[0], NULL, hand, &handles) && !pthread_join(thread[0], NULL));
    geyserpan_engine_free(handles.engine);
    geyserpan_image_free(handles.image);
    printf("threads\n");
}

/* ---- what a run costs, in microseconds of the processor ---- */

static double used(void)
{
    struct timespec now;
    clock_gettime(CLOCK_PROCESS_CPUTIME_ID, &now);
    return now.tv_sec * 1e6 + now.tv_nsec * 1e-3;
}

/* What `cost` measures: runs by five ways, and by themselves `open` and `engine_begin`. */
enum kind { ONCE, KEPT, RESTARTED, ENGINE, BEGUN, OPENED, READIED };
static const char *const KINDS[] = {"once", "kept", "restarted", "engine", "begun", "opened", "readied"};

struct handles {
    geyserpan_image image;
    geyserpan_run run;
    geyserpan_engine engine;
};

static void make(enum kind kind, struct handles *of)
{
    geyserpan_report report;
    geyserpan_why why;
    geyserpan_done done;
    switch (kind) {
    case ONCE:
        HOLDS(geyserpan_once(file, file_length, &all, input, input_length, room, sizeof room, &report, &why) == GEYSERPAN_OK);
        break;
    case KEPT:
        HOLDS(geyserpan_run_image(&of->image, input, input_length, room, sizeof room, &report) == GEYSERPAN_OK);
        break;
    case RESTARTED:
        HOLDS(geyserpan_restart(&of->run, &of->image) == GEYSERPAN_OK);
        HOLDS(geyserpan_step(&of->run, UINT64_MAX, input, input_length, 1, room, sizeof room, &done) == GEYSERPAN_ENDED);
        break;
    case ENGINE:
        HOLDS(geyserpan_engine_run(&of->image, input, input_length, room, sizeof room, &report) == GEYSERPAN_OK);
        break;
    case BEGUN:
        HOLDS(geyserpan_engine_begin(&of->engine, &of->image) == GEYSERPAN_OK);
        HOLDS(geyserpan_engine_step(&of->engine, UINT64_MAX, input, input_length, 1, room, sizeof room, &done) == GEYSERPAN_ENDED);
        break;
    case OPENED:
        HOLDS(geyserpan_open(&of->image, file, file_length, &all, &why) == GEYSERPAN_OK);
        break;
    case READIED:
        HOLDS(geyserpan_engine_begin(&of->engine, &of->image) == GEYSERPAN_OK);
        break;
    }
}

/* Calls of one kind: the microseconds of each. */
static void cost(long runs, const char *name)
{
    struct handles of = {.image = opened(&all)};
    HOLDS(geyserpan_run_new(&of.run) == GEYSERPAN_OK && geyserpan_begin(&of.run, &of.image) == GEYSERPAN_OK);
    HOLDS(geyserpan_engine_new(&of.engine) == GEYSERPAN_OK);
    enum kind kind = ONCE;
    while (kind < READIED && strcmp(KINDS[kind], name))
        kind++;
    HOLDS(!strcmp(KINDS[kind], name));
    double begun = used();
    for (long i = 0; i < runs; i++)
        make(kind, &of);
    printf("%.2f\n", (used() - begun) / runs);
    geyserpan_engine_free(of.engine);
    geyserpan_run_free(of.run);
    geyserpan_image_free(of.image);
}

static long resident(void)
{
    long pages = 0;
    FILE *of = fopen("/proc/self/statm", "r");
    HOLDS(of && fscanf(of, "%*d %ld", &pages) == 1 && !fclose(of));
    return pages * sysconf(_SC_PAGESIZE);
}

/* So many sessions on the engine, parked behind the input: the bytes of memory that they keep. */
static void parked(size_t count)
{
    geyserpan_image image = opened(&all);
    geyserpan_engine *engines = calloc(count, sizeof *engines);
    geyserpan_done done;
    HOLDS(engines);
    long before = resident();
    for (size_t i = 0; i < count; i++) {
        HOLDS(geyserpan_engine_new(&engines[i]) == GEYSERPAN_OK && geyserpan_engine_begin(&engines[i], &image) == GEYSERPAN_OK);
        HOLDS(geyserpan_engine_step(&engines[i], UINT64_MAX, input, input_length, 0, room, sizeof room, &done) == GEYSERPAN_WANTS);
    }
    printf("%ld\n", resident() - before);
    for (size_t i = 0; i < count; i++)
        geyserpan_engine_free(engines[i]);
    geyserpan_image_free(image);
    free(engines);
}

static uint64_t word(int count, char **words, int at, uint64_t otherwise)
{
    return at < count ? strtoull(words[at], NULL, 10) : otherwise;
}

int main(int count, char **words)
{
    if (count < 3 || geyserpan_abi() != GEYSERPAN_ABI)
        return 3;
    FILE *from = fopen(words[2], "rb");
    if (!from)
        return 4;
    file_length = fread(file, 1, sizeof file, from);
    fclose(from);
    input_length = fread(input, 1, sizeof input, stdin);
    const char *mode = words[1];
    if (!strcmp(mode, "check"))
        check();
    else if (!strcmp(mode, "facts"))
        tell_facts();
    else if (!strcmp(mode, "assemble"))
        assemble();
    else if (!strcmp(mode, "once"))
        once((uint32_t)word(count, words, 3, 8));
    else if (!strcmp(mode, "pieces"))
        pieces((size_t)word(count, words, 3, 1), (size_t)word(count, words, 4, 1), word(count, words, 5, 1000000));
    else if (!strcmp(mode, "engine"))
        engine_pieces((uint32_t)word(count, words, 3, 8), (size_t)word(count, words, 4, 1), (size_t)word(count, words, 5, 1), word(count, words, 6, 1000000));
    else if (!strcmp(mode, "edges"))
        edges();
    else if (!strcmp(mode, "lengths"))
        lengths((size_t)word(count, words, 3, 1000));
    else if (!strcmp(mode, "many"))
        many((long)word(count, words, 3, 100));
    else if (!strcmp(mode, "threads"))
        threads((long)word(count, words, 3, 8), (long)word(count, words, 4, 100));
    else if (!strcmp(mode, "cost"))
        cost((long)word(count, words, 3, 1000), count > 4 ? words[4] : "restarted");
    else if (!strcmp(mode, "parked"))
        parked((size_t)word(count, words, 3, 10000));
    else
        return 3;
    return 0;
}
