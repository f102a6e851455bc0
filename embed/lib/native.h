/* What the files of the part for native code share. Nothing of it is seen outside: tools/release/library makes one
   object of them, of which the calls of geyserpan.h alone are global. */
#ifndef GEYSERPAN_LIB_NATIVE_H
#define GEYSERPAN_LIB_NATIVE_H
#include "geyserpan.h"
#include "geyserpan_native.h"

#define INSIDE __attribute__((visibility("hidden")))

/* ---- native_object.c: shared objects ---- */

/* An object that is loaded. It goes with the last who holds it. */
typedef struct {
    void *library;
    const geyserpan_native_program *program;
    size_t holders;
} native_object;

/* Loads the object at a path, which has to be made of the image with this hash; the caller then holds it: OK, or why
   there is none. */
INSIDE uint32_t native_load(const char *path, const uint8_t *hash, native_object **object);

/* One holder more; and one less. There may be none to let go. */
INSIDE native_object *native_hold(native_object *object);
INSIDE void native_let_go(native_object *object);

/* ---- native_run.c: runs ---- */

typedef struct native_run native_run;

/* Begins a run on an object, which the run holds, of an image that declares so many turns: OK, MEMORY. */
INSIDE uint32_t native_begin(native_run **run, native_object *object, uint64_t budget, const geyserpan_terms *terms);

/* Goes on with it, as geyserpan_engine_step does. */
INSIDE uint32_t native_step(native_run *run, uint64_t turns, const uint8_t *input, size_t input_length, uint32_t last,
                            uint8_t *room, size_t room_length, geyserpan_done *done);

/* Runs an object to its end, as geyserpan_engine_run does. */
INSIDE uint32_t native_whole(native_object *object, uint64_t budget, const geyserpan_terms *terms, const uint8_t *input,
                             size_t input_length, uint8_t *room, size_t room_length, geyserpan_report *report);

/* Ends a run; there may be none. */
INSIDE void native_end(native_run *run);
#endif
