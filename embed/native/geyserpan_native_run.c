/* A program that runs one accepted image on its standard streams: compiled with the C that `native IMG` writes. Input
   is read as it is asked for, and what was put out is written before, so that a conversation goes on. The status is 0
   where the exit word is 0, 1 where it isn't, and 4 where a stream fails. With --counts N the counts go to standard
   error at the end, on N windows: exit word, turns, overflows, underflows; with --word N the exit word goes to the
   descriptor N. */
#include "geyserpan_native.h"
#include <errno.h>
#include <inttypes.h>
#include <stdio.h>
#include <stdlib.h>
#include <unistd.h>

enum { ROOM = 65536, OTHER_WORD = 1, WORDS = 3, FAILED = 4 };

static uint8_t block[GEYSERPAN_NATIVE_BLOCK], input[ROOM], output[ROOM];

static _Noreturn void fail(const char *name)
{
    fprintf(stderr, "native: %s: %s\n", name, strerror(errno));
    exit(FAILED);
}

static void write_all(const uint8_t *bytes, size_t count)
{
    while (count) {
        ssize_t written = write(1, bytes, count);
        if (written < 0 && errno == EINTR) continue;
        if (written < 0) fail("output");
        bytes += written, count -= (size_t)written;
    }
}

/* Writes what was put out, and gives the room back. */
static int flush(geyserpan_native_io *io)
{
    write_all(output, (size_t)(io->out - output));
    io->out = output, io->out_end = output + ROOM;
    return 1;
}

/* Reads what is there of the input. */
static int more(geyserpan_native_io *io)
{
    ssize_t count;
    flush(io);
    do count = read(0, input, ROOM);
    while (count < 0 && errno == EINTR);
    if (count < 0) fail("input");
    io->in = input, io->in_end = input + count;
    return count > 0;
}

extern const geyserpan_native_program geyserpan_program_1;

int main(int count, char **words)
{
    int counts = 0, descriptor = -1;
    geyserpan_native_io io = { .in = input, .in_end = input, .out = output, .out_end = output + ROOM,
        .more = more, .full = flush, .windows = 8, .taken = 1 };
    if (count % 2 == 0) return WORDS;
    for (int at = 1; at < count; at += 2) {
        unsigned long number = strtoul(words[at + 1], NULL, 10);
        if (!strcmp(words[at], "--counts")) io.windows = (uint32_t)number, counts = 1;
        else if (!strcmp(words[at], "--word")) descriptor = (int)number;
        else return WORDS;
    }
    if (geyserpan_program_1.run(&io, block) != GEYSERPAN_NATIVE_ENDED) {
        fputs("native: lost\n", stderr);
        return FAILED;
    }
    flush(&io);
    if (counts)
        fprintf(stderr, "%08" PRIX32 " %" PRIu64 " %" PRIu64 " %" PRIu64 "\n", io.word, io.turns, io.overflows,
            io.underflows);
    if (descriptor >= 0 && dprintf(descriptor, "%08" PRIX32, io.word) < 0) fail("the exit word");
    return io.word ? OTHER_WORD : 0;
}
