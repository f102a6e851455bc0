/* Has an image converse: conversation IMG [READS [WRITES]]
   Standard input is read as the program asks for it, at most READS bytes at a time (4,096), and what it puts out is written as it
   comes, at most WRITES bytes at a time (4,096). An event loop does the same with many of them: a step never waits. */
#include "geyserpan.h"
#include <stdio.h>
#include <stdlib.h>
#include <unistd.h>

static uint8_t image[4 << 20];

static int put(const uint8_t *bytes, size_t length)
{
    for (size_t done = 0; done < length;) {
        ssize_t wrote = write(1, bytes + done, length - done);
        if (wrote <= 0)
            return 0;
        done += (size_t)wrote;
    }
    return 1;
}

static int converse(geyserpan_run *run, size_t reads, size_t writes)
{
    static uint8_t piece[65536], room[65536];
    size_t have = 0, used = 0;
    uint32_t last = 0;
    geyserpan_done done;
    for (;;) {
        uint32_t status = geyserpan_step(run, 100000, piece + used, have - used, last, room, writes, &done);
        used += done.read;
        if (!put(room, done.written))
            return 4;
        if (status == GEYSERPAN_ENDED)
            return done.exit != 0;
        if (status == GEYSERPAN_WANTS) {
            ssize_t got = read(0, piece, reads);
            if (got < 0)
                return 4;
            have = (size_t)got;
            used = 0;
            last = got == 0;
        } else if (status != GEYSERPAN_FULL && status != GEYSERPAN_PAUSED) {
            return 2;
        }
    }
}

int main(int count, char **words)
{
    if (count < 2 || geyserpan_abi() != GEYSERPAN_ABI)
        return 3;
    size_t reads = count > 2 ? (size_t)atol(words[2]) : 4096;
    size_t writes = count > 3 ? (size_t)atol(words[3]) : 4096;
    FILE *file = fopen(words[1], "rb");
    if (!file || reads - 1 > 65535 || writes - 1 > 65535)
        return 4;
    size_t length = fread(image, 1, sizeof image, file);
    fclose(file);

    geyserpan_terms terms = { UINT64_MAX, UINT64_MAX, 7, 8 };
    geyserpan_why why = { 0, 0, 0 };
    geyserpan_image kept;
    geyserpan_run run;
    if (geyserpan_image_new(&kept) != GEYSERPAN_OK)
        return 5;
    int ended = 2;
    if (geyserpan_run_new(&run) == GEYSERPAN_OK) {
        if (geyserpan_open(&kept, image, length, &terms, &why) == GEYSERPAN_OK && geyserpan_begin(&run, &kept) == GEYSERPAN_OK)
            ended = converse(&run, reads, writes);
        geyserpan_run_free(run);
    }
    geyserpan_image_free(kept);
    return ended;
}
