/* Functions of an image and an input, and the aggregate. */
#include "extension.h"
#include <string.h>
SQLITE_EXTENSION_INIT3

#define STEP_TURNS UINT64_MAX

static const uint8_t none;

/* ---- runs ---- */

/* Doubles a room: OK or MEMORY. */
static uint32_t widen(Room *room)
{
    size_t size = room->size ? room->size * 2 : 256;
    uint8_t *more = sqlite3_realloc64(room->at, size);
    if (!more)
        return GEYSERPAN_MEMORY;
    room->at = more;
    room->size = size;
    return GEYSERPAN_OK;
}

uint32_t begin_run(Run *run, Image *image, sqlite3_int64 max_turns, uint64_t output)
{
    run->facts = image->facts;
    run->terms = (geyserpan_terms){ max_turns < 0 ? 0 : (uint64_t)max_turns, output, GEYSERPAN_ALL_SERVICES, 8 };
    uint32_t status = run->engine.at ? GEYSERPAN_OK : geyserpan_engine_new(&run->engine);
    if (status == GEYSERPAN_OK)
        status = geyserpan_engine_begin_with(&run->engine, &image->handle, &run->terms);
    return status;
}

uint32_t go_on(Run *run, const uint8_t *piece, size_t *length, int is_last, int is_eager)
{
    Room *room = &run->room;
    uint32_t status;
    do {
        status = room->used == room->size ? widen(room) : GEYSERPAN_OK;
        if (status != GEYSERPAN_OK)
            return status;
        status = geyserpan_engine_step(&run->engine, STEP_TURNS, piece, *length, (uint32_t)is_last,
                                       room->at + room->used, room->size - room->used, &run->done);
        room->used += run->done.written;
        piece += run->done.read;
        *length -= run->done.read;
    } while (status == GEYSERPAN_PAUSED || (status == GEYSERPAN_FULL && !is_eager));
    return status;
}

void end_run(Run *run)
{
    if (run->engine.at)
        geyserpan_engine_free(run->engine);
    sqlite3_free(run->room.at);
    memset(run, 0, sizeof *run);
}

/* ---- answers ---- */

static void answer_text(sqlite3_context *context, char *text, int is_error)
{
    if (!text)
        sqlite3_result_error_nomem(context);
    else if (is_error)
        sqlite3_result_error(context, text, -1);
    else
        sqlite3_result_text(context, text, -1, SQLITE_TRANSIENT);
    sqlite3_free(text);
}

static void deny(sqlite3_context *context, uint32_t status, const Run *run)
{
    if (status == GEYSERPAN_MEMORY)
        sqlite3_result_error_nomem(context);
    else
        answer_text(context, text_of_terms(status, &run->facts, &run->terms), 1);
}

/* The image of the first argument; NULL, and an error, where there is none. */
static Image *image_argument(sqlite3_context *context, sqlite3_value **values)
{
    Verdict verdict = { 0, { 0, 0, 0 } };
    Image *image = find_image(sqlite3_user_data(context), values[0], &verdict);
    if (!image && verdict.status == GEYSERPAN_MEMORY)
        sqlite3_result_error_nomem(context);
    else if (!image)
        answer_text(context, sqlite3_mprintf("geyserpan: %z", text_of_verdict(&verdict)), 1);
    return image;
}

/* The same, kept beside the argument while that is a constant of the statement. Not for an aggregate, of whose
   arguments SQLite keeps it also where they change. */
static Image *kept_argument(sqlite3_context *context, sqlite3_value **values)
{
    Image *image = sqlite3_get_auxdata(context, 0);
    if (image || !(image = image_argument(context, values)))
        return image;
    image->users++;
    sqlite3_set_auxdata(context, 0, image, release_image);
    return image;
}

static sqlite3_int64 turns_argument(int count, sqlite3_value **values)
{
    return count > 2 ? sqlite3_value_int64(values[2]) : DEFAULT_TURNS;
}

static int has_null(int count, sqlite3_value **values)
{
    for (int i = 0; i < count; i++)
        if (sqlite3_value_type(values[i]) == SQLITE_NULL)
            return 1;
    return 0;
}

/* Makes the run of a call on the connection's engine; whether it has ended. What it put out is to be freed. */
static int run_call(sqlite3_context *context, int count, sqlite3_value **values, Run *run)
{
    Connection *connection = sqlite3_user_data(context);
    Image *image = has_null(count, values) ? NULL : kept_argument(context, values);
    if (!image)
        return 0;
    const uint8_t *input = sqlite3_value_type(values[1]) == SQLITE_BLOB ? sqlite3_value_blob(values[1])
                                                                        : sqlite3_value_text(values[1]);
    size_t length = (size_t)sqlite3_value_bytes(values[1]);
    run->engine = connection->engine;
    uint32_t status = begin_run(run, image, turns_argument(count, values), MOST_OUTPUT);
    connection->engine = run->engine;
    if (status == GEYSERPAN_OK)
        status = go_on(run, length ? input : &none, &length, 1, 0);
    if (status != GEYSERPAN_ENDED)
        deny(context, status, run);
    if (run->engine.at)
        geyserpan_engine_end(&run->engine);
    return status == GEYSERPAN_ENDED;
}

/* ---- the functions ---- */

static void call_check(sqlite3_context *context, int count, sqlite3_value **values)
{
    Verdict verdict = { 0, { 0, 0, 0 } };
    if (has_null(count, values))
        return;
    find_image(sqlite3_user_data(context), values[0], &verdict);
    if (verdict.status == GEYSERPAN_MEMORY)
        sqlite3_result_error_nomem(context);
    else
        answer_text(context, text_of_verdict(&verdict), 0);
}

static void call_match(sqlite3_context *context, int count, sqlite3_value **values)
{
    Run run = { .engine = { NULL } };
    if (run_call(context, count, values, &run) && run.done.exit <= 1)
        sqlite3_result_int(context, run.done.exit == 0);
    sqlite3_free(run.room.at);
}

static void call_turns(sqlite3_context *context, int count, sqlite3_value **values)
{
    Run run = { .engine = { NULL } };
    if (run_call(context, count, values, &run))
        sqlite3_result_int64(context, (sqlite3_int64)run.done.turns);
    sqlite3_free(run.room.at);
}

/* What a run put out, as text where the input is, else as a blob; null where its exit word isn't 0. */
static void answer_output(sqlite3_context *context, const Run *run, int is_text)
{
    if (run->done.exit)
        return;
    if (is_text)
        sqlite3_result_text(context, (const char *)run->room.at, (int)run->room.used, SQLITE_TRANSIENT);
    else
        sqlite3_result_blob(context, run->room.at, (int)run->room.used, SQLITE_TRANSIENT);
}

static void call_run(sqlite3_context *context, int count, sqlite3_value **values)
{
    Run run = { .engine = { NULL } };
    if (run_call(context, count, values, &run))
        answer_output(context, &run, sqlite3_value_type(values[1]) != SQLITE_BLOB);
    sqlite3_free(run.room.at);
}

/* ---- the aggregate ---- */

typedef struct {
    Run run;
    Image *image;
    int has_failed, has_ended;
} Fold;

static void fold_fails(sqlite3_context *context, Fold *fold, uint32_t status)
{
    fold->has_failed = 1;
    if (status != GEYSERPAN_OK)
        deny(context, status, &fold->run);
}

/* Begins the run of a group, or sees that the row's image is the group's. */
static int begin_fold(sqlite3_context *context, Fold *fold, int count, sqlite3_value **values)
{
    Image *image = image_argument(context, values);
    if (!image) {
        fold_fails(context, fold, GEYSERPAN_OK);
    } else if (!fold->image) {
        uint32_t status = begin_run(&fold->run, image, turns_argument(count, values), MOST_OUTPUT);
        if (status != GEYSERPAN_OK)
            fold_fails(context, fold, status);
        image->users++;
        fold->image = image;
    } else if (fold->image != image && (fold->image->length != image->length ||
                                        memcmp(fold->image->bytes, image->bytes, (size_t)image->length) != 0)) {
        sqlite3_result_error(context, "geyserpan: the images of a group differ", -1);
        fold_fails(context, fold, GEYSERPAN_OK);
    }
    return !fold->has_failed;
}

static void fold_step(sqlite3_context *context, int count, sqlite3_value **values)
{
    Fold *fold = sqlite3_aggregate_context(context, sizeof *fold);
    if (!fold)
        sqlite3_result_error_nomem(context);
    if (!fold || fold->has_failed || has_null(count, values) || !begin_fold(context, fold, count, values))
        return;
    const uint8_t *piece = sqlite3_value_text(values[1]);
    size_t length = (size_t)sqlite3_value_bytes(values[1]);
    uint32_t status = !length || fold->has_ended ? GEYSERPAN_WANTS : go_on(&fold->run, piece, &length, 0, 0);
    fold->has_ended |= status == GEYSERPAN_ENDED;
    if (status != GEYSERPAN_ENDED && status != GEYSERPAN_WANTS)
        fold_fails(context, fold, status);
}

static void fold_end(sqlite3_context *context)
{
    Fold *fold = sqlite3_aggregate_context(context, 0);
    size_t length = 0;
    if (!fold || !fold->image)
        return;
    uint32_t status = GEYSERPAN_ENDED;
    if (!fold->has_failed && !fold->has_ended)
        status = go_on(&fold->run, &none, &length, 1, 0);
    if (!fold->has_failed && status == GEYSERPAN_ENDED)
        answer_output(context, &fold->run, 1);
    else if (!fold->has_failed)
        deny(context, status, &fold->run);
    end_run(&fold->run);
    release_image(fold->image);
}

/* ---- registration ---- */

int add_functions(sqlite3 *db, Connection *connection)
{
    static const struct {
        const char *name;
        int least, most;
        void (*call)(sqlite3_context *, int, sqlite3_value **);
        void (*step)(sqlite3_context *, int, sqlite3_value **);
        void (*end)(sqlite3_context *);
    } functions[] = {
        { "geyserpan_check", 1, 1, call_check, NULL, NULL }, { "geyserpan_run", 2, 3, call_run, NULL, NULL },
        { "geyserpan_match", 2, 3, call_match, NULL, NULL }, { "geyserpan_turns", 2, 3, call_turns, NULL, NULL },
        { "geyserpan_fold", 2, 3, NULL, fold_step, fold_end },
    };
    int flags = SQLITE_UTF8 | SQLITE_DETERMINISTIC | SQLITE_INNOCUOUS, status = SQLITE_OK;
    for (size_t i = 0; i < sizeof functions / sizeof *functions; i++)
        for (int count = functions[i].least; count <= functions[i].most && status == SQLITE_OK; count++) {
            connection->users++;
            status = sqlite3_create_function_v2(db, functions[i].name, count, flags, connection, functions[i].call,
                                                functions[i].step, functions[i].end, end_connection);
        }
    return status;
}
