/* Brings an allocator of its own to libgeyserpan, and refuses one growth after the other: growths IMG SOURCE < INPUT
   Each refusal is told as MEMORY; handles then hold what they held, and the same call succeeds once growths are granted. In the end as
   many blocks have been let go as were made. */
#include "geyserpan.h"
#include <stdio.h>
#include <stdlib.h>
#include <string.h>

#define HOLDS(what) ((what) ? (void)0 : (fprintf(stderr, "%s:%d: %s (growth %ld)\n", __FILE__, __LINE__, #what, refused), exit(1)))

static long asked, refused = -1, blocks;
static char none;

static geyserpan_block answer(void *old, size_t bytes, size_t align)
{
    void *at = asked++ == refused ? NULL : realloc(old, bytes ? bytes : align);
    blocks += at && !old;
    return (geyserpan_block){ at != NULL, at ? at : &none };
}

geyserpan_block rattle_alloc(size_t bytes, size_t align)
{
    return answer(NULL, bytes, align);
}

geyserpan_block rattle_realloc(void *at, size_t kept, size_t bytes, size_t align)
{
    (void)kept;
    return answer(at, bytes, align);
}

void rattle_dealloc(void *at)
{
    blocks--;
    free(at);
}

static uint8_t image[4 << 20], source[1 << 20], input[1 << 16], room[1 << 20], whole[1 << 20];
static size_t image_length, source_length, input_length;
static geyserpan_image kept;
static geyserpan_run run;
static geyserpan_engine engine;
static geyserpan_facts facts;
static geyserpan_report report;
static geyserpan_why why;
static geyserpan_done done;
static uint64_t needed;
static const geyserpan_terms all = { UINT64_MAX, UINT64_MAX, 7, 8 };

static uint32_t checks(void) { return geyserpan_check(image, image_length, &facts, &why); }
static uint32_t opens(void) { return geyserpan_open(&kept, image, image_length, &all, &why); }
static uint32_t onces(void) { return geyserpan_once(image, image_length, &all, input, input_length, room, sizeof room, &report, &why); }
static uint32_t runs(void) { return geyserpan_run_image(&kept, input, input_length, room, sizeof room, &report); }
static uint32_t assembles(void) { return geyserpan_assemble(source, source_length, room, sizeof room, &needed, &why); }
static uint32_t begins(void)
{
    uint32_t status = geyserpan_begin(&run, &kept);
    if (status == GEYSERPAN_OK && refused < 0)
        geyserpan_end(&run);
    return status;
}

static uint32_t engine_runs(void) { return geyserpan_engine_run(&kept, input, input_length, room, sizeof room, &report); }
static uint32_t engine_begins(void)
{
    uint32_t status = geyserpan_engine_begin(&engine, &kept);
    if (status == GEYSERPAN_OK && refused < 0)
        geyserpan_engine_end(&engine);
    return status;
}

/* Refuses each growth that the engine's steps ask for, in turn: a further step goes on, and the output is the same. */
static long refuse_steps(uint64_t length)
{
    for (long count = 0;; count++) {
        size_t read = 0, written = 0;
        uint32_t status;
        refused = -1;
        HOLDS(geyserpan_engine_begin(&engine, &kept) == GEYSERPAN_OK);
        asked = 0;
        refused = count;
        long refusals = 0;
        do {
            status = geyserpan_engine_step(&engine, UINT64_MAX, input + read, input_length - read, 1, room + written, sizeof room - written, &done);
            read += done.read;
            written += done.written;
            refusals += status == GEYSERPAN_MEMORY;
        } while (status == GEYSERPAN_MEMORY && refusals == 1);
        HOLDS(status == GEYSERPAN_ENDED && written == length && !memcmp(room, whole, length));
        HOLDS(refusals == (asked > count));
        refused = -1;
        geyserpan_engine_end(&engine);
        if (!refusals)
            return count;
    }
}

/* Refuses each growth that a call asks for, in turn, until it asks for no more. */
static long refuse_each(uint32_t (*call)(void), int writes)
{
    long count = 0;
    for (;; count++) {
        long held = blocks;
        memset(room, 0xA5, sizeof room);
        asked = 0;
        refused = count;
        uint32_t status = call();
        if (asked <= count) {
            HOLDS(status == GEYSERPAN_OK);
            refused = -1;
            return count;
        }
        HOLDS(status == GEYSERPAN_MEMORY);
        HOLDS(blocks == held);
        for (size_t i = 0; writes && i < sizeof room; i++)
            HOLDS(room[i] == 0xA5);
        refused = -1;
    }
}

static size_t taken(const char *path, uint8_t *to, size_t most)
{
    FILE *from = fopen(path, "rb");
    if (!from)
        exit(4);
    size_t length = fread(to, 1, most, from);
    fclose(from);
    return length;
}

int main(int count, char **words)
{
    if (count != 3)
        return 3;
    image_length = taken(words[1], image, sizeof image);
    source_length = taken(words[2], source, sizeof source);
    input_length = fread(input, 1, sizeof input, stdin);

    refused = 0;
    asked = 0;
    HOLDS(geyserpan_image_new(&kept) == GEYSERPAN_MEMORY);
    asked = 0;
    HOLDS(geyserpan_run_new(&run) == GEYSERPAN_MEMORY);
    asked = 0;
    HOLDS(geyserpan_engine_new(&engine) == GEYSERPAN_MEMORY);
    refused = -1;
    HOLDS(geyserpan_image_new(&kept) == GEYSERPAN_OK && geyserpan_run_new(&run) == GEYSERPAN_OK && geyserpan_engine_new(&engine) == GEYSERPAN_OK);
    HOLDS(onces() == GEYSERPAN_OK);
    uint64_t length = report.output;
    memcpy(whole, room, length);

    long tried[9] = { refuse_each(checks, 0), refuse_each(opens, 0), refuse_each(onces, 1), 0, 0, 0, 0, 0, 0 };
    tried[3] = refuse_each(runs, 1);
    HOLDS(report.output == length && !memcmp(room, whole, length));
    tried[4] = refuse_each(begins, 0);
    geyserpan_end(&run);
    tried[5] = refuse_each(engine_runs, 1);
    HOLDS(report.output == length && !memcmp(room, whole, length));
    tried[6] = refuse_each(engine_begins, 0);
    tried[7] = refuse_steps(length);
    tried[8] = refuse_each(assembles, 1);
    HOLDS(needed == image_length && !memcmp(room, image, image_length));

    /* no growth is asked for by what goes on with a board */
    HOLDS(geyserpan_begin(&run, &kept) == GEYSERPAN_OK);
    asked = 0;
    HOLDS(geyserpan_step(&run, UINT64_MAX, input, input_length, 1, room, sizeof room, &done) == GEYSERPAN_ENDED);
    HOLDS(geyserpan_restart(&run, &kept) == GEYSERPAN_OK && geyserpan_begin(&run, &kept) == GEYSERPAN_OK && !asked);
    HOLDS(done.written == length && !memcmp(room, whole, length));
    geyserpan_image_free(kept);
    geyserpan_run_free(run);
    geyserpan_engine_free(engine);
    HOLDS(!blocks);
    for (int i = 0; i < 9; i++)
        printf("%ld ", tried[i]);
    puts("growths");
    return 0;
}
