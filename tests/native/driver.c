/* Runs programs on rows that stand on standard input, and prints what came, a line a run:

       ROW PROGRAM WINDOWS PIECE ROOM SLICE INPUT   (INPUT in hexadecimal digits, - for none)
       ROW WHY WORD TURNS OVERFLOWS UNDERFLOWS OUTPUT

   With PIECE 0 it is a run; else a run by steps, with pieces of the input and rooms for the output of so many bytes,
   and slices of so many turns. The data's block and the state are no byte longer than they have to be, so that a sanitizer
   sees an access behind them. */
#include "geyserpan_native.h"
#include <stdio.h>
#include <stdlib.h>

extern const geyserpan_native_program *const programs[];

enum { MOST = 1 << 22 };
static uint8_t *room;
static size_t roomy = 1;

static int no_more(geyserpan_native_io *io) { return (void)io, 0; }

/* Twice the room, or an end where that is too much. */
static int larger(geyserpan_native_io *io)
{
    size_t used = (size_t)(io->out - room);
    if (roomy >= MOST) return 0;
    room = realloc(room, roomy *= 2);
    io->out = room + used, io->out_end = room + roomy;
    return 1;
}

static size_t least(size_t a, size_t b) { return a < b ? a : b; }

/* By steps: as much input and room more as a step asks for. */
static int by_steps(const geyserpan_native_program *it, geyserpan_native_io *io, uint8_t *block, const uint8_t *end,
    size_t piece, size_t some, uint64_t slice)
{
    void *state = malloc(it->state_bytes);
    int why;
    it->start(block, state);
    io->limit = slice, io->in_end = io->in;
    while ((why = it->step(io, block, state)) != GEYSERPAN_NATIVE_ENDED && why != GEYSERPAN_NATIVE_LOST) {
        if (why == GEYSERPAN_NATIVE_WANTS) {
            io->in_end = io->in + least(piece, (size_t)(end - io->in));
            io->last = io->in_end == end;
        } else if (why == GEYSERPAN_NATIVE_FULL) {
            if ((size_t)(io->out - room) + some > roomy && !larger(io)) break;
            io->out_end = io->out + least(some, (size_t)(room + roomy - io->out));
        }
        io->limit = io->turns + slice;
    }
    free(state);
    return why;
}

static uint8_t *bytes_of(const char *digits, size_t *count)
{
    uint8_t *bytes = malloc(strlen(digits) / 2 + 1);
    unsigned byte;
    for (*count = 0; sscanf(digits, "%2x", &byte) == 1; digits += 2) bytes[(*count)++] = (uint8_t)byte;
    return bytes;
}

int main(void)
{
    static char digits[MOST];
    unsigned row, program, windows;
    size_t piece, some, count;
    unsigned long long slice;
    room = malloc(roomy);
    while (scanf("%u %u %u %zu %zu %llu %4194303s", &row, &program, &windows, &piece, &some, &slice, digits) == 7) {
        const geyserpan_native_program *it = programs[program];
        uint8_t *input = bytes_of(digits, &count), *block = malloc(it->block_bytes);
        geyserpan_native_io io = { .in = input, .in_end = input + count, .out = room, .out_end = room + roomy,
            .more = no_more, .full = larger, .windows = windows, .taken = 1 };
        int why;
        memset(block, 0xA5, it->block_bytes);
        if (piece) io.out_end = room;
        why = piece ? by_steps(it, &io, block, input + count, piece, some, slice) : it->run(&io, block);
        printf("%u %d %08X %llu %llu %llu ", row, why, (unsigned)io.word, (unsigned long long)io.turns,
            (unsigned long long)io.overflows, (unsigned long long)io.underflows);
        for (uint8_t *p = room; p < io.out; p++) printf("%02X", *p);
        puts(io.out == room ? "-" : "");
        free(input), free(block);
    }
    return 0;
}
