/* What the files of the extension share.

   An image is verified once a connection, and kept by its bytes. A connection is used by one thread at a time, as
   SQLite sees to, so that the handles of its images and its engine are, too. */
#ifndef GEYSERPAN_EXTENSION_H
#define GEYSERPAN_EXTENSION_H
#include <geyserpan.h>
#include <sqlite3ext.h>
#include <stddef.h>

#define DEFAULT_TURNS 1000000
#define MOST_OUTPUT (1 << 20)

/* ---- images.c ---- */

typedef struct {
    geyserpan_image handle;
    geyserpan_facts facts;
    uint8_t *bytes;
    int length;
    int users; /* the connection, and arguments of statements */
    uint64_t used;
} Image;

#define MOST_KEPT 64

typedef struct {
    Image *kept[MOST_KEPT];
    geyserpan_engine engine; /* of runs that end within a call */
    uint64_t clock;
    int users; /* the functions and the module of the connection */
} Connection;

typedef struct {
    uint32_t status;
    geyserpan_why why;
} Verdict;

/* The image of a value, which is kept; NULL, and the verdict, where there is none. */
Image *find_image(Connection *connection, sqlite3_value *value, Verdict *verdict);
void release_image(void *image);
void end_connection(void *connection);

/* A verdict, and why a run isn't made, as text to be freed by sqlite3_free; NULL where memory is refused. */
char *text_of_verdict(const Verdict *verdict);
char *text_of_terms(uint32_t status, const geyserpan_facts *facts, const geyserpan_terms *terms);

/* ---- functions.c ---- */

typedef struct {
    uint8_t *at;
    size_t used, size;
} Room;

/* A run that goes on from call to call. */
typedef struct {
    geyserpan_engine engine;
    geyserpan_facts facts;
    geyserpan_terms terms;
    Room room;
    geyserpan_done done;
} Run;

/* OK, or why it doesn't begin; `output` is how many bytes it may put out. */
uint32_t begin_run(Run *run, Image *image, sqlite3_int64 max_turns, uint64_t output);
/* Goes on until the run has ended, the piece is read, or something was put out, where `is_eager` says so. */
uint32_t go_on(Run *run, const uint8_t *piece, size_t *length, int is_last, int is_eager);
void end_run(Run *run);
int add_functions(sqlite3 *db, Connection *connection);

/* ---- lines.c ---- */

extern const sqlite3_module lines_module;

#endif
