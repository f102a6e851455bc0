/* Runs an accepted image on a LEON3 as a function of C, beside a system of one's own. `./board IMG OUT --ram BASE`
   makes the megabyte of the image; a loader lays it at BASE, a multiple of 16 MB that the system doesn't use otherwise.
   Input and output lie in that megabyte (--mailbox, which is the usual way).

   The image takes the whole processor until it ends: all windows, the MMU, and no interrupt comes. Its verified budget
   bounds how long that is. Nothing of the system's memory is mapped meanwhile, so the image can't reach it.

   What the system has to be: supervisor mode, with handlers of window overflow and underflow, and with a stack that has
   room for 96 bytes for each window. Its MMU is off, or maps to themselves the 16 MB at BASE and those of
   geyserpan_leon_enter. What a run changes of the processor is set back: PSR, WIM, TBR, Y, the MMU's control, context
   table and context, and each register that a call in C keeps. */
#ifndef GEYSERPAN_LEON_H
#define GEYSERPAN_LEON_H
#include <stddef.h>
#include <stdint.h>

/* The most bytes of input, and of output. */
#define GEYSERPAN_LEON_ROOM 0x20000u

/* What a call says. */
enum geyserpan_leon_told {
    GEYSERPAN_LEON_EXITED = 1, /* the image has exited: `word` is its exit word */
    GEYSERPAN_LEON_TRAPPED,    /* never of an accepted image: `word` is TBR, with `pc` and `npc` */
    GEYSERPAN_LEON_FULL,       /* the output has no more room */
    GEYSERPAN_LEON_INPUT,      /* the input is longer than GEYSERPAN_LEON_ROOM: nothing has run */
    GEYSERPAN_LEON_OTHER,      /* no image that `./board` made lies there */
    GEYSERPAN_LEON_WINDOWS,    /* it is made for another count of windows than the processor's */
    GEYSERPAN_LEON_SMALL       /* the room for its data is too small */
};

/* An image that may be called: one call at a time. */
struct geyserpan_leon {
    uint32_t base;
    const uint32_t *data; /* the data that the image begins with */
    size_t data_bytes;
};

/* What a run gave. The output lies in the image's megabyte, and stays until the next call. */
struct geyserpan_leon_run {
    uint32_t word, pc, npc;
    const uint8_t *output;
    size_t output_bytes;
};

/* How much room the data need of the image that lies at `base`; 0 where it has none. */
size_t geyserpan_leon_data_bytes(uint32_t base);

/* Makes ready the image that was laid at `base` and hasn't run. Its data are kept in `room`, so that each call begins
   with them, and the end of its run is led back here in place of halting the processor. Returns 0, or one of OTHER,
   WINDOWS, SMALL. */
int geyserpan_leon_open(struct geyserpan_leon *image, uint32_t base, uint32_t *room, size_t room_bytes);

/* Runs the image on an input. Returns EXITED, TRAPPED, FULL or INPUT. */
int geyserpan_leon_call(const struct geyserpan_leon *image, const void *input, size_t input_bytes,
                        struct geyserpan_leon_run *run);

#endif
