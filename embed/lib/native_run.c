/* Runs of an image on its native code, by the step of its object. */
#include "native.h"
#include <string.h>

#define ALIGNMENT 16

/* A run. What the object keeps of it stands behind it, and the data's block behind that. */
struct native_run {
    native_object *object;
    geyserpan_native_io io;
    uint64_t budget;  /* no run makes more turns */
    uint64_t granted; /* bytes of output that it may still put out */
    uint64_t owed;    /* turns that were made beyond those that were allowed */
    int stand;        /* why the object's step ended; 0 before the first */
    int met;          /* the program was told that its input has ended */
    uint8_t *block;
    void *state;
};

static size_t rounded(size_t bytes)
{
    return (bytes + ALIGNMENT - 1) / ALIGNMENT * ALIGNMENT;
}

uint32_t native_begin(native_run **run, native_object *object, uint64_t budget, const geyserpan_terms *terms)
{
    const geyserpan_native_program *program = object->program;
    const size_t head = rounded(sizeof **run), state = rounded(program->state_bytes);
    geyserpan_block made = rattle_alloc(head + state + program->block_bytes, ALIGNMENT);
    native_run *begun = made.at;
    if (!made.ok)
        return GEYSERPAN_MEMORY;
    *begun = (native_run){
        .object = native_hold(object),
        .io = { .windows = terms->windows, .taken = 1 },
        .budget = budget,
        .granted = terms->output,
        .block = (uint8_t *)made.at + head + state,
        .state = (uint8_t *)made.at + head,
    };
    program->start(begun->block, begun->state);
    *run = begun;
    return GEYSERPAN_OK;
}

void native_end(native_run *run)
{
    if (!run)
        return;
    native_let_go(run->object);
    rattle_dealloc(run);
}

/* Whether the object has done what no accepted image does, which a fault of the translation or the compiler may show
   by. */
static int is_lost(const native_run *run, const uint8_t *input, const uint8_t *room)
{
    const geyserpan_native_io *io = &run->io;
    return run->stand < GEYSERPAN_NATIVE_ENDED || run->stand > GEYSERPAN_NATIVE_PAUSED || io->turns > run->budget
        || io->in < input || io->in > io->in_end || io->out < room || io->out > io->out_end;
}

/* Gives a run up: of what the object's last step says nothing counts. */
static void lose(native_run *run, const uint8_t *input, uint8_t *room)
{
    run->stand = GEYSERPAN_NATIVE_LOST;
    run->io.in = input;
    run->io.out = room;
}

/* Makes a step of the object. Where the program asks behind the last piece it is told the end, and from then on no
   piece is there. */
static void make_step(native_run *run, int last)
{
    const geyserpan_native_program *program = run->object->program;
    run->io.last = (uint32_t)run->met;
    run->stand = program->step(&run->io, run->block, run->state);
    if (run->stand == GEYSERPAN_NATIVE_WANTS && last && !run->met) {
        run->met = 1;
        run->io.last = 1;
        run->stand = program->step(&run->io, run->block, run->state);
    }
}

/* Whether the program still waits for what it waited for when its last step ended. */
static int is_waiting(const native_run *run, int last)
{
    const geyserpan_native_io *io = &run->io;
    return (run->stand == GEYSERPAN_NATIVE_FULL && io->out == io->out_end)
        || (run->stand == GEYSERPAN_NATIVE_WANTS && io->in == io->in_end && !last && !run->met);
}

/* Goes on for so many turns, less those that are owed. */
static void go_on(native_run *run, uint64_t turns, int last)
{
    geyserpan_native_io *io = &run->io;
    if (turns <= run->owed) {
        run->owed -= turns;
        run->stand = GEYSERPAN_NATIVE_PAUSED;
        return;
    }
    turns -= run->owed;
    io->limit = turns > UINT64_MAX - io->turns ? UINT64_MAX : io->turns + turns;
    make_step(run, last);
    run->owed = io->turns > io->limit ? io->turns - io->limit : 0;
}

static uint32_t status_of(const native_run *run, size_t most, size_t room_length)
{
    switch (run->stand) {
    case GEYSERPAN_NATIVE_ENDED:
        return GEYSERPAN_ENDED;
    case GEYSERPAN_NATIVE_WANTS:
        return GEYSERPAN_WANTS;
    case GEYSERPAN_NATIVE_FULL:
        return most < room_length ? GEYSERPAN_OUTPUT : GEYSERPAN_FULL;
    case GEYSERPAN_NATIVE_PAUSED:
        return GEYSERPAN_PAUSED;
    default:
        return GEYSERPAN_LOST;
    }
}

uint32_t native_step(native_run *run, uint64_t turns, const uint8_t *input, size_t input_length, uint32_t last,
                     uint8_t *room, size_t room_length, geyserpan_done *done)
{
    geyserpan_native_io *io = &run->io;
    const size_t most = room_length < run->granted ? room_length : (size_t)run->granted;
    io->in = input;
    io->in_end = input + (run->met ? 0 : input_length);
    io->out = room;
    io->out_end = room + most;
    if (run->stand != GEYSERPAN_NATIVE_ENDED && run->stand != GEYSERPAN_NATIVE_LOST && !is_waiting(run, last != 0)) {
        go_on(run, turns, last != 0);
        if (is_lost(run, input, room))
            lose(run, input, room);
    }
    run->granted -= (uint64_t)(io->out - room);
    *done = (geyserpan_done){
        .turns = io->turns,
        .read = (uint64_t)(io->in - input),
        .written = (uint64_t)(io->out - room),
        .exit = run->stand == GEYSERPAN_NATIVE_ENDED ? io->word : 0,
    };
    return status_of(run, most, room_length);
}

/* ---- runs to the end ---- */

/* What a run has put out so far, in a block that grows by doubling, or in the caller's small one. */
typedef struct {
    uint8_t *at;
    size_t used, size;
    int is_block;
} output;

static int grow(output *out)
{
    const size_t size = out->size * 2;
    geyserpan_block made;
    if (out->size > SIZE_MAX / 4)
        return 0;
    made = out->is_block ? rattle_realloc(out->at, out->used, size, 1) : rattle_alloc(size, 1);
    if (!made.ok)
        return 0;
    if (!out->is_block)
        memcpy(made.at, out->at, out->used);
    *out = (output){ made.at, out->used, size, 1 };
    return 1;
}

/* Steps a run to its end: ENDED, LOST, or MEMORY where the output can't grow. */
static uint32_t to_end(native_run *run, const uint8_t *input, size_t input_length, output *out)
{
    geyserpan_done done;
    size_t read = 0;
    for (;;) {
        uint32_t status = native_step(run, UINT64_MAX, input + read, input_length - read, 1, out->at + out->used,
                                      out->size - out->used, &done);
        read += done.read;
        out->used += done.written;
        if (status != GEYSERPAN_FULL)
            return status;
        if (!grow(out))
            return GEYSERPAN_MEMORY;
    }
}

/* Hands the output on, where it is no longer than is granted and the room has place for all of it. */
static uint32_t hand_on(const output *out, uint64_t granted, uint8_t *room, size_t room_length)
{
    if (granted < out->used)
        return GEYSERPAN_OUTPUT;
    if (room_length < out->used)
        return GEYSERPAN_ROOM;
    memcpy(room, out->at, out->used);
    return GEYSERPAN_OK;
}

uint32_t native_whole(native_object *object, uint64_t budget, const geyserpan_terms *terms, const uint8_t *input,
                      size_t input_length, uint8_t *room, size_t room_length, geyserpan_report *report)
{
    const geyserpan_terms unbounded = { terms->turns, UINT64_MAX, terms->services, terms->windows };
    uint8_t small[1024];
    output out = { small, 0, sizeof small, 0 };
    native_run *run;
    uint32_t status = native_begin(&run, object, budget, &unbounded);
    if (status != GEYSERPAN_OK)
        return status;
    status = to_end(run, input, input_length, &out);
    if (status == GEYSERPAN_ENDED) {
        *report = (geyserpan_report){
            .turns = run->io.turns,
            .overflows = run->io.overflows,
            .underflows = run->io.underflows,
            .output = out.used,
            .exit = run->io.word,
        };
        status = hand_on(&out, terms->output, room, room_length);
    }
    if (out.is_block)
        rattle_dealloc(out.at);
    native_end(run);
    return status;
}
