/* geyserpan.h: runs machine code that you don't trust inside your own process.

   An image is a program with its annotations. Before its first instruction runs, a verifier has shown that it ends within the turns
   that it declares, and reaches nothing but its own pages, its input and its output. Verifier and machine are proved, and so is what
   the comments below say of what a status tells, of what is written and of what a handle then holds, for whoever keeps what he owes.
   Only tested are: which statuses a call can answer; that MEMORY is told where memory was refused, and at no other time; that `new`
   writes a handle; the bits of pages; and what is marked so.

   What you owe, and nobody checks:

   - Pointers. None is NULL, also where its length is 0. Each has room for what its type says, or for as many bytes as its length
     says, which is below 2^63. What a call writes to (`room`, and what a pointer without const points to) overlaps nothing else that
     the call is given. What it only reads may overlap, and nothing else writes to it until the call returns: copy what a stranger
     shares, as memory or a mapped file.
   - Handles. A handle is what its `new` wrote, and is given to none after its `free`: after that, and for any other pointer, a call
     is undefined behaviour. The struct may be copied and moved; the copies are one handle.
   - Threads. A handle is given to one call at a time. Between calls it may go to another thread, ordered by a lock or a join. Calls
     with different handles, and calls without any, run side by side in as many threads as you like: the library has no state of
     its own. That is so too of handles that share one image (image_share): no call writes to it, each may be opened anew, closed and
     freed at any time, and the last that lets the image go frees it. So an image is checked once a process, and each thread has a
     handle to it.
   - No call from a signal handler; no longjmp out of one, and no cancellation of a thread within one. In the forked child of a process
     that has threads a call is as malloc is there, since the library has no lock.
   - 64 KB of stack, an x86-64 processor with SSE4.2 and POPCNT (x86-64-v2), and malloc, realloc and free that are one allocator
     with blocks aligned to 16. Instead of these a host may define the three functions at the end.

   Native code. In a program that names `geyserpan_native` the calls with the handle of an image or of a run on the engine pass a part
   in C, which is only tested, and runs of an image that was given an object are that object's: what is said of the engine then holds
   as far as the translation, a C compiler and that part do. No other program has any of it. See the call.

   Statuses. Each call answers one of the numbers below, and where it isn't said otherwise:

   - a status other than OK writes nothing: no byte of `room`, and none of the structs and numbers but those named beside the status;
   - handles hold what they held;
   - the call may be made again with what was wrong set right, and MEMORY at any time.

   Where there are several reasons the first of these is told: WINDOWS, then NO_IMAGE or REFUSED, then SERVICES, then TURNS (only tested).

   An image declares its turns and its services, and the verifier holds it to them; it doesn't judge whether they are too many. That
   is for you: give terms.

   A run is a function of image, input and terms, turns included: run it again, or twice, anywhere. Of the terms the count of windows
   changes its turns, overflows and underflows; the rest say only whether it is made, and where its output is cut. */
#ifndef GEYSERPAN_H
#define GEYSERPAN_H
#include <stddef.h>
#include <stdint.h>
#ifdef __cplusplus
extern "C" {
#endif

/* The number of these calls, and of the shared object's name. It rises where a struct, a status or a call changes its meaning, and with
   nothing else: new calls and new statuses don't raise it. So a host compares geyserpan_abi() with GEYSERPAN_ABI, and takes a status
   that it doesn't know for a refusal. */
#define GEYSERPAN_ABI 1
uint32_t geyserpan_abi(void);

/* The version of the library's sources as text, without an end mark: its length, at most 32, and the text at the front of the room,
   if it fits there; else nothing is written. The text is only tested. */
size_t geyserpan_version(uint8_t *room, size_t room_length);

enum geyserpan_status {
    GEYSERPAN_OK = 0,        /* the call did what it is for */
    GEYSERPAN_NO_IMAGE = 1,  /* the bytes are no image: why->number is 1 to 8, of I1 to I8 */
    GEYSERPAN_REFUSED = 2,   /* the image breaks a rule: why->number is that of the rule, 1 to 20 of V1 to V20, in why->function, at
                                why->address: of the rules that it breaks the one of least number at the least address */
    GEYSERPAN_MEMORY = 3,    /* memory was refused */
    GEYSERPAN_WINDOWS = 4,   /* terms->windows is below 4 or above 32; of begin and restart: the image was opened for other than
                                8; of begin_with: the terms say other than 8 */
    GEYSERPAN_SERVICES = 5,  /* the image declares a service that the terms don't grant: it wasn't run */
    GEYSERPAN_TURNS = 6,     /* the image declares more turns than the terms grant: it wasn't run */
    GEYSERPAN_ROOM = 7,      /* the room is smaller than what was to be written: report->output, or *needed, is that length, and the
                                rest of the report is that of the run */
    GEYSERPAN_ENDED = 8,     /* of step: the run has ended, what was written is all of its output, and done->exit is its exit word; a
                                further step answers the same again, with nothing read or written (only tested) */
    GEYSERPAN_WANTS = 9,     /* of step: the whole piece is read, and it wasn't the last. Of the engine's step, the program's next step
                                takes a byte; of a board's, its port has failed, knows of no byte of input and holds none of output
                                (that the program asks for one is only tested) */
    GEYSERPAN_FULL = 10,     /* of step: the room is full, and the program has put a byte out that isn't written, or puts it out next */
    GEYSERPAN_PAUSED = 11,   /* of step: all turns that were asked for are made; of the engine's, made or put by */
    GEYSERPAN_HANDLE = 12,   /* the handle of an image holds none, or that of a run holds no run; nothing is written, and of step and
                                facts_of not `done` and `facts` either */
    GEYSERPAN_SOURCE = 13,   /* the source has a fault: why->number is the cause, 1 to 4 of X1 to X4, 5 to 9 of S1 to S5, 10 to 13 of A1
                                to A4, and why->address the line, at most 2^32 - 1 */
    GEYSERPAN_OUTPUT = 14,   /* the output is longer than the terms grant. Of run_image and once, which make the run to its end and then
                                compare: report as with ROOM. Of step, which stops there: what is granted was written, and there is a
                                byte more as with FULL; a further step answers the same with nothing read or written (only tested;
                                into a room of 0 bytes: FULL) */
    GEYSERPAN_LOST = 15,     /* of step: the board has done what no turn does: it has read what nobody gave it, or has ended without an
                                exit. What was written so far is the image's all the same, but the library can't vouch for the run any
                                more: begin again, or end. It has never been seen. Of native code, of engine_step and engine_run: the
                                object did what no accepted image does, and nothing that the run gave is to be believed */
    GEYSERPAN_FILE = 16,         /* of native: there is no file at the path, or it can't be read */
    GEYSERPAN_OBJECT = 17,       /* of native: the file is no whole shared object with native code */
    GEYSERPAN_OBJECT_ABI = 18,   /* of native: the object has a record of another number: build it anew */
    GEYSERPAN_OBJECT_IMAGE = 19, /* of native: the object was made of another image */
    GEYSERPAN_OBJECT_COUNTS = 20 /* of native: the object doesn't count turns, as one that was built with --uncounted */
};

/* What a program may ask for: to end, to read a byte of its input, to write a byte of its output. */
enum geyserpan_service { GEYSERPAN_EXIT = 1, GEYSERPAN_GET = 2, GEYSERPAN_PUT = 4, GEYSERPAN_ALL_SERVICES = 7 };

/* What an exit word tells of a program whose accesses, divisions, loops and calls the front end holds by tests (fit, and so cc): where
   one fails, the run ends with the word 000KLLLL (in hex), of which K is one of these numbers, and LLLL the line of the source. Any
   program may end with such a word of its own. */
enum geyserpan_test {
    GEYSERPAN_TEST_NONE = 0,    /* no such word */
    GEYSERPAN_TEST_INDEX = 1,   /* an index leaves its object */
    GEYSERPAN_TEST_POINTER = 2, /* a pointer leaves the data, isn't aligned, or leads to a constant */
    GEYSERPAN_TEST_DIVISOR = 3, /* a divisor is 0 */
    GEYSERPAN_TEST_LOOPS = 4,   /* the loops have used up their turns */
    GEYSERPAN_TEST_DEPTH = 5,   /* calls go too deep */
    GEYSERPAN_TEST_CALL = 9     /* a call through a pointer that is no function's */
};

/* What you grant: turns, at 40 million a second or so; bytes of output; services, as a sum of their numbers; and on how many register
   windows a run is made, 4 to 32, which changes turns and never the output. { 1000000, 65536, 7, 8 } is a fortieth of a second. Terms of
   nothing, { 0, 0, 0, 8 }, admit nothing, since each image has to end, which takes a service and turns. */
typedef struct {
    uint64_t turns, output;
    uint32_t services, windows;
} geyserpan_terms;

/* What an image declares and is made of: its budget of turns, at most 2^40; its services; the version of its format, 1 to 3; the words of
   its code; the bytes of its data; the pages of its stack, 1 to 16; its functions; and the call depth that the first of them declares, 0
   before version 3. `zero` is 0 in each struct that has it. */
typedef struct {
    uint64_t budget;
    uint32_t services, version, words, data_bytes, stack_pages, functions, depth, zero;
} geyserpan_facts;

/* Why something was denied; the status says what of it is meant. */
typedef struct {
    uint32_t number, function, address;
} geyserpan_why;

/* What a run gave: turns; how often no window was left to save to, or to restore from; the length of the output; the pages of code, data
   and stack that were referenced and modified, a bit for each of 64; and the exit word. */
typedef struct {
    uint64_t turns, overflows, underflows, output, referenced[3], modified[3];
    uint32_t exit, zero;
} geyserpan_report;

/* What a step did, on a board or the engine: the turns of the run so far; the bytes of this piece that were read (hand the rest in
   again) and those that were written to the front of the room (take them away); and the exit word, 0 where the status isn't ENDED.
   Written with each status of a step but HANDLE. */
typedef struct {
    uint64_t turns, read, written;
    uint32_t exit, zero;
} geyserpan_done;

/* The text of a status, with the numbers of `why` where it has any ("refused V14 in function 0 at 0004000C"), in ASCII, without an end
   mark: its length, at most 96, and the text at the front of the room, if it fits there. Only tested. */
size_t geyserpan_why_text(uint32_t status, const geyserpan_why *why, uint8_t *room, size_t room_length);

/* The same of the statuses of terms, with both numbers ("asks for 5,000,000 turns, 1,000,000 are granted"): TURNS and SERVICES by the
   facts of the image and the terms that it was compared with, WINDOWS and OUTPUT by the terms; of another status the text of
   why_text with zeros. At most 96 long. Only tested. */
size_t geyserpan_terms_text(uint32_t status, const geyserpan_facts *facts, const geyserpan_terms *terms, uint8_t *room,
                            size_t room_length);

/* The kind of test by which a run with this exit word ended, one of geyserpan_test. */
uint32_t geyserpan_exit_kind(uint32_t word);

/* ---- Without a handle ---- */

/* The verdict on the bytes of an image: OK writes facts, NO_IMAGE and REFUSED write why; MEMORY. */
uint32_t geyserpan_check(const uint8_t *image, size_t image_length, geyserpan_facts *facts, geyserpan_why *why);

/* Checks an image, compares it with the terms, and runs it to its end on the input: OK writes the output to the front of the room, and the
   report. Else NO_IMAGE, REFUSED (why); WINDOWS, SERVICES, TURNS, MEMORY; ROOM, OUTPUT (report). It takes memory for the board, 1 MiB,
   the image, and the whole output, also one that is too long, in a vector that grows by doubling: at most a byte for 5 turns of the
   budget. A host to which that is too much steps: `step` keeps no output, and stops at the limit. */
uint32_t geyserpan_once(const uint8_t *image, size_t image_length, const geyserpan_terms *terms, const uint8_t *input,
                        size_t input_length, uint8_t *room, size_t room_length, geyserpan_report *report, geyserpan_why *why);

/* The image that a source means, written to the front of the room, and its length, to *needed: OK, ROOM (needed), SOURCE (why), MEMORY. */
uint32_t geyserpan_assemble(const uint8_t *source, size_t source_length, uint8_t *room, size_t room_length, uint64_t *needed,
                            geyserpan_why *why);

/* The SHA-256 of an image's bytes, or of any others, 32 bytes at the front of the room: a name for the image that all hosts agree on. OK,
   ROOM. */
uint32_t geyserpan_sha256(const uint8_t *bytes, size_t length, uint8_t *room, size_t room_length);

/* ---- Images that are checked once and run often ---- */

typedef struct {
    void *at;
} geyserpan_image;

/* Makes a handle that holds no image: OK, or MEMORY, which leaves the struct as it was. */
uint32_t geyserpan_image_new(geyserpan_image *image);

/* Ends a handle, with the image that it holds. */
void geyserpan_image_free(geyserpan_image image);

/* Checks an image, compares it with the terms, and has the handle hold both; what it held before is let go. The bytes aren't needed after
   it. OK; NO_IMAGE, REFUSED (why); WINDOWS, SERVICES, TURNS, MEMORY: the handle then holds what it held. */
uint32_t geyserpan_open(geyserpan_image *image, const uint8_t *bytes, size_t length, const geyserpan_terms *terms, geyserpan_why *why);

/* Has another handle hold the image that this one holds, on the same terms; what the other held before is let go. Nothing is checked
   again, and nothing of the image copied: OK; HANDLE; MEMORY where 2^63 handles share it already. The two are different handles from
   then on: what happens to one changes nothing of the other. */
uint32_t geyserpan_image_share(geyserpan_image *image, geyserpan_image *other);

/* The facts of the image: OK or HANDLE. */
uint32_t geyserpan_facts_of(geyserpan_image *image, geyserpan_facts *facts);

/* Runs the image to its end on the input, on a new board: OK, ROOM, OUTPUT, MEMORY as `once`; HANDLE. */
uint32_t geyserpan_run_image(geyserpan_image *image, const uint8_t *input, size_t input_length, uint8_t *room, size_t room_length,
                             geyserpan_report *report);

/* Lets the image go, and keeps the handle. */
void geyserpan_close(geyserpan_image *image);

/* ---- Runs in pieces, on a board that is used again ---- */

typedef struct {
    void *at;
} geyserpan_run;

/* Makes a handle that holds no run: OK, or MEMORY, which leaves the struct as it was. */
uint32_t geyserpan_run_new(geyserpan_run *run);

/* Ends a handle, with its run and its board. */
void geyserpan_run_free(geyserpan_run run);

/* Begins a run of the image on 8 windows, on the board that the handle has, else on a new one of 1 MiB. The run that it had is given up.
   The image isn't needed after it: it may be closed, or opened anew, while the run goes on. OK; WINDOWS, HANDLE, MEMORY: the
   run that there was goes on. */
uint32_t geyserpan_begin(geyserpan_run *run, geyserpan_image *image);

/* As begin, on these terms in the place of those that the image was opened on, which stay the image's: as many bytes of output are granted,
   and the image is compared with them first. OK; WINDOWS where they say other than 8, SERVICES, TURNS; HANDLE, MEMORY: the run that
   there was goes on. */
uint32_t geyserpan_begin_with(geyserpan_run *run, geyserpan_image *image, const geyserpan_terms *terms);

/* The same as begin on the board that the handle has, without taking memory: OK; WINDOWS, or HANDLE where there is no image or no board: the run
   that there was goes on. */
uint32_t geyserpan_restart(geyserpan_run *run, geyserpan_image *image);

/* Goes on with the run for at most so many turns, with the next piece of its input. Where `last` isn't 0 the input ends behind this piece;
   where it is 0 the program isn't told of an end.
   ENDED, WANTS, FULL, PAUSED, OUTPUT, LOST, each with done; or HANDLE. Pieces and rooms have any size, 0 too: what is put out
   depends on the bytes alone. What was written so far is a front of the image's output on the bytes read so far, with each status, and
   with ENDED all of it; it is never more than the terms grant that the run was begun on. Behind what is written the room stays as it
   was. It makes no turn more than it is allowed, and the turns of the run are never more than its budget; with ENDED they are those of
   `once` on 8 windows. Where the input has ended, later pieces aren't read (only tested). It takes no memory. */
uint32_t geyserpan_step(geyserpan_run *run, uint64_t turns, const uint8_t *input, size_t input_length, uint32_t last, uint8_t *room,
                        size_t room_length, geyserpan_done *done);

/* Lets the run and the board go, and keeps the handle. */
void geyserpan_end(geyserpan_run *run);

/* ---- The engine: runs without a board, for a host that chooses it by these names ----

   Output, exit word, turns, overflows and underflows are those of a run on a board of as many windows as the terms say, 4 to 32; the
   board isn't made, and its windows are counted. There is no page to tell of. */

/* Runs the image to its end on the input: OK, ROOM, OUTPUT, MEMORY, HANDLE as run_image. In the report `referenced` and `modified` are 0. */
uint32_t geyserpan_engine_run(geyserpan_image *image, const uint8_t *input, size_t input_length, uint8_t *room, size_t room_length,
                              geyserpan_report *report);

typedef struct {
    void *at;
} geyserpan_engine;

/* Makes a handle that holds no run: OK, or MEMORY, which leaves the struct as it was. */
uint32_t geyserpan_engine_new(geyserpan_engine *engine);

/* Ends a handle, with its run. */
void geyserpan_engine_free(geyserpan_engine engine);

/* Begins a run of the image, on any windows that it was opened for. The run that the handle had is given up once there is the new one.
   The image isn't needed after it: it may be closed, or opened anew, while the run goes on. OK; HANDLE, MEMORY: the run that there was
   goes on. */
uint32_t geyserpan_engine_begin(geyserpan_engine *engine, geyserpan_image *image);

/* As engine_begin, on these terms in the place of those that the image was opened on, which stay the image's: the run counts on as many
   windows, 4 to 32, as many bytes of output are granted, and the image is compared with them first. OK; WINDOWS, SERVICES, TURNS;
   HANDLE, MEMORY: the run that there was goes on. */
uint32_t geyserpan_engine_begin_with(geyserpan_engine *engine, geyserpan_image *image, const geyserpan_terms *terms);

/* Goes on with the run as `step` does: ENDED, WANTS, FULL, PAUSED, OUTPUT, each with done; or HANDLE. A SAVE that finds no window free
   makes 25 turns at once: where fewer are left they are put by for the next step, so that steps of one turn go on too, and none makes
   more than it was allowed with those that were put by. It may take memory: MEMORY, with done, says that it was refused; what was read
   and written so far stands, nothing is lost, and a further step goes on from there. LOST never comes, which is proved. */
uint32_t geyserpan_engine_step(geyserpan_engine *engine, uint64_t turns, const uint8_t *input, size_t input_length, uint32_t last,
                               uint8_t *room, size_t room_length, geyserpan_done *done);

/* Lets the run go, and keeps the handle. */
void geyserpan_engine_end(geyserpan_engine *engine);

/* ---- Native code: the engine's calls, by an object that a C compiler made of the image ----

   This call is in libgeyserpan.a alone, and not in the shared object. It asks the C library for dlopen. */

/* Has the image go by the shared object at the path, which `native build` made of it: from then on engine_run, engine_begin and
   engine_begin_with on this handle, and on those that share it later, make their runs by the object, and engine_step goes on with
   them. Runs on a board stay on it, and runs that were begun before go on as they were. `open` and `close` let the object go; it stays
   loaded as long as a handle or a run has it. OK; HANDLE; FILE, OBJECT, OBJECT_ABI, OBJECT_IMAGE, OBJECT_COUNTS, MEMORY: the image
   goes by what it went by.

   Statuses, outputs, exit words, turns, overflows and underflows are the engine's, but for these:
   - A step may make more turns than it is allowed, by fewer than 25 for each word of the image, since it pauses behind calls and where
     a loop begins again. What it made too many is owed, and taken from the next steps.
   - engine_begin takes all of a run's memory, and engine_step none: some hundreds of bytes, the stack's pages, and the least power of
     two that stack and data fit into.
   - LOST may come.

   To load an object is to run it. It has the rights of your own code, and the hash in it guards against a mistake, and against no
   one who forges it: so load what you built, from a folder where nobody else writes. The file may be replaced or removed while it is
   loaded, but not written to. `path` ends with a zero byte; one without a slash is a file of the working directory. */
uint32_t geyserpan_native(geyserpan_image *image, const char *path);

/* ---- Memory ----

   The library asks for memory by these three functions alone. libgeyserpan.a has them over malloc, realloc and free in an object of its
   own, so that a program which defines all three itself brings its own allocator. A block is aligned to `align`, a power of two up to
   16. Where `ok` is 0 the growth is refused, and `at` is any pointer but NULL; a block that was to grow then stays as it was. `kept` is
   how many bytes of the old block the new one has to begin with. */
typedef struct {
    uint8_t ok;
    void *at;
} geyserpan_block;

geyserpan_block rattle_alloc(size_t bytes, size_t align);
geyserpan_block rattle_realloc(void *at, size_t kept, size_t bytes, size_t align);
void rattle_dealloc(void *at);

#ifdef __cplusplus
}
#endif
#endif
