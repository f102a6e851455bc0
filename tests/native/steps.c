/* Measures steps of a run: prints the nanoseconds of processor time that one takes, on an input of so many bytes that
   come in pieces of so many. The program puts out at most a byte for each that it gets. */
#define _POSIX_C_SOURCE 200809L
#include "geyserpan_native.h"
#include <stdio.h>
#include <stdlib.h>
#include <time.h>

extern const geyserpan_native_program geyserpan_program_1;

static double seconds(void)
{
    struct timespec now;
    clock_gettime(CLOCK_PROCESS_CPUTIME_ID, &now);
    return (double)now.tv_sec + (double)now.tv_nsec / 1e9;
}

int main(int count, char **words)
{
    const geyserpan_native_program *it = &geyserpan_program_1;
    size_t piece = count == 3 ? strtoul(words[1], NULL, 10) : 0, bytes = piece ? strtoul(words[2], NULL, 10) : 0, at;
    uint8_t *block = malloc(it->block_bytes), *state = malloc(it->state_bytes), *given = calloc(1, piece + 1),
        *room = malloc(piece + 1);
    geyserpan_native_io io = { .limit = UINT64_MAX, .windows = 8, .taken = 1 };
    if (!piece || !block || !state || !given || !room) return 3;
    it->start(block, state);
    double began = seconds();
    for (at = 0; at < bytes; at += piece) {
        io.in = given, io.in_end = given + piece, io.out = room, io.out_end = room + piece + 1;
        if (it->step(&io, block, state) != GEYSERPAN_NATIVE_WANTS) return 1;
    }
    printf("%.1f\n", (seconds() - began) * 1e9 / (double)(bytes / piece));
    return 0;
}
