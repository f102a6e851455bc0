/* The table geyserpan_lines(image, input [, max_turns]): a row for each line that is put out, made as it is asked
   for. */
#include "extension.h"
#include <string.h>
SQLITE_EXTENSION_INIT3

enum { LINE, IMAGE, INPUT, MAX_TURNS };
enum { HAS_IMAGE_AND_INPUT = 3, HAS_ALL = 7 };

typedef struct {
    sqlite3_vtab base;
    Connection *connection;
} Table;

typedef struct {
    sqlite3_vtab_cursor base;
    Run run;
    uint8_t *input;
    size_t length, left;  /* of the input, and what isn't read of it */
    size_t begins, ends;  /* of the line, in the room */
    sqlite3_int64 row;
    int has_ended, is_over;
} Cursor;

static int connect_table(sqlite3 *db, void *connection, int count, const char *const *words, sqlite3_vtab **made,
                         char **error)
{
    (void)count, (void)words, (void)error;
    Table *table = sqlite3_malloc(sizeof *table);
    if (!table)
        return SQLITE_NOMEM;
    memset(table, 0, sizeof *table);
    table->connection = connection;
    *made = &table->base;
    sqlite3_vtab_config(db, SQLITE_VTAB_INNOCUOUS);
    return sqlite3_declare_vtab(db, "CREATE TABLE x(line TEXT, image HIDDEN, input HIDDEN, max_turns HIDDEN)");
}

static int disconnect_table(sqlite3_vtab *table)
{
    sqlite3_free(table);
    return SQLITE_OK;
}

/* Takes the arguments: image and input have to be there. */
static int plan_scan(sqlite3_vtab *table, sqlite3_index_info *info)
{
    int have = 0;
    (void)table;
    for (int i = 0; i < info->nConstraint; i++) {
        int column = info->aConstraint[i].iColumn;
        if (column < IMAGE || info->aConstraint[i].op != SQLITE_INDEX_CONSTRAINT_EQ)
            continue;
        if (!info->aConstraint[i].usable)
            return SQLITE_CONSTRAINT;
        info->aConstraintUsage[i].argvIndex = column;
        info->aConstraintUsage[i].omit = 1;
        have |= 1 << (column - 1);
    }
    info->estimatedCost = 1000;
    return have == HAS_IMAGE_AND_INPUT || have == HAS_ALL ? SQLITE_OK : SQLITE_CONSTRAINT;
}

static int open_cursor(sqlite3_vtab *table, sqlite3_vtab_cursor **made)
{
    Cursor *cursor = sqlite3_malloc(sizeof *cursor);
    (void)table;
    if (!cursor)
        return SQLITE_NOMEM;
    memset(cursor, 0, sizeof *cursor);
    *made = &cursor->base;
    return SQLITE_OK;
}

static int close_cursor(sqlite3_vtab_cursor *base)
{
    Cursor *cursor = (Cursor *)base;
    end_run(&cursor->run);
    sqlite3_free(cursor->input);
    sqlite3_free(cursor);
    return SQLITE_OK;
}

static int fails(Cursor *cursor, char *text)
{
    sqlite3_free(cursor->base.pVtab->zErrMsg);
    cursor->base.pVtab->zErrMsg = text;
    return text ? SQLITE_ERROR : SQLITE_NOMEM;
}

static int denies(Cursor *cursor, uint32_t status)
{
    if (status == GEYSERPAN_MEMORY)
        return SQLITE_NOMEM;
    return fails(cursor, text_of_terms(status, &cursor->run.facts, &cursor->run.terms));
}

/* Whether there is a next line in the room; then it is the cursor's. */
static int find_line(Cursor *cursor)
{
    Room *room = &cursor->run.room;
    uint8_t *end = room->used > cursor->begins
                       ? memchr(room->at + cursor->begins, '\n', room->used - cursor->begins)
                       : NULL;
    if (!end && (!cursor->has_ended || cursor->begins == room->used))
        return 0;
    cursor->ends = end ? (size_t)(end - room->at) : room->used;
    return 1;
}

/* OUTPUT where a line, or the front of one, is too long. */
static uint32_t look_at_length(Cursor *cursor, size_t length)
{
    if (length <= MOST_OUTPUT)
        return GEYSERPAN_OK;
    cursor->run.terms.output = MOST_OUTPUT;
    return GEYSERPAN_OUTPUT;
}

/* Puts out more behind the front of a line. */
static uint32_t lengthen(Cursor *cursor)
{
    Run *run = &cursor->run;
    if (cursor->begins)
        memmove(run->room.at, run->room.at + cursor->begins, run->room.used - cursor->begins);
    run->room.used -= cursor->begins;
    cursor->begins = 0;
    uint32_t status = look_at_length(cursor, run->room.used);
    if (status != GEYSERPAN_OK)
        return status;
    status = go_on(run, cursor->input + cursor->length - cursor->left, &cursor->left, 1, 1);
    cursor->has_ended = status == GEYSERPAN_ENDED;
    return status == GEYSERPAN_FULL ? GEYSERPAN_ENDED : status;
}

static int next_line(sqlite3_vtab_cursor *base)
{
    Cursor *cursor = (Cursor *)base;
    Room *room = &cursor->run.room;
    cursor->row++;
    cursor->begins = cursor->ends + (cursor->ends < room->used && room->at[cursor->ends] == '\n');
    cursor->ends = cursor->begins;
    while (!find_line(cursor)) {
        if (cursor->has_ended) {
            cursor->is_over = 1;
            if (!cursor->run.done.exit)
                return SQLITE_OK;
            return fails(cursor, sqlite3_mprintf("geyserpan: the run ended with exit word %u", cursor->run.done.exit));
        }
        uint32_t status = lengthen(cursor);
        if (status != GEYSERPAN_ENDED)
            return denies(cursor, status);
    }
    uint32_t status = look_at_length(cursor, cursor->ends - cursor->begins);
    return status == GEYSERPAN_OK ? SQLITE_OK : denies(cursor, status);
}

static int begin_lines(sqlite3_vtab_cursor *base, int plan, const char *text, int count, sqlite3_value **values)
{
    Cursor *cursor = (Cursor *)base;
    Verdict verdict = { 0, { 0, 0, 0 } };
    (void)plan, (void)text;
    cursor->is_over = 1;
    for (int i = 0; i < count; i++)
        if (sqlite3_value_type(values[i]) == SQLITE_NULL)
            return SQLITE_OK;
    Image *image = find_image(((Table *)base->pVtab)->connection, values[0], &verdict);
    if (!image && verdict.status == GEYSERPAN_MEMORY)
        return SQLITE_NOMEM;
    if (!image)
        return fails(cursor, sqlite3_mprintf("geyserpan: %z", text_of_verdict(&verdict)));
    uint32_t status = begin_run(&cursor->run, image, count > 2 ? sqlite3_value_int64(values[2]) : DEFAULT_TURNS,
                                UINT64_MAX);
    if (status != GEYSERPAN_OK)
        return denies(cursor, status);
    const uint8_t *input = sqlite3_value_text(values[1]);
    cursor->length = cursor->left = (size_t)sqlite3_value_bytes(values[1]);
    sqlite3_free(cursor->input);
    if (!(cursor->input = sqlite3_malloc64(cursor->length + 1)))
        return SQLITE_NOMEM;
    if (cursor->length)
        memcpy(cursor->input, input, cursor->length);
    cursor->run.room.used = cursor->begins = cursor->ends = 0;
    cursor->has_ended = cursor->is_over = 0;
    cursor->row = 0;
    return next_line(base);
}

static int is_over(sqlite3_vtab_cursor *base)
{
    return ((Cursor *)base)->is_over;
}

static int column(sqlite3_vtab_cursor *base, sqlite3_context *context, int which)
{
    Cursor *cursor = (Cursor *)base;
    if (which == LINE)
        sqlite3_result_text(context, (const char *)cursor->run.room.at + cursor->begins,
                            (int)(cursor->ends - cursor->begins), SQLITE_TRANSIENT);
    return SQLITE_OK;
}

static int row(sqlite3_vtab_cursor *base, sqlite3_int64 *number)
{
    *number = ((Cursor *)base)->row;
    return SQLITE_OK;
}

const sqlite3_module lines_module = {
    .xConnect = connect_table,
    .xBestIndex = plan_scan,
    .xDisconnect = disconnect_table,
    .xOpen = open_cursor,
    .xClose = close_cursor,
    .xFilter = begin_lines,
    .xNext = next_line,
    .xEof = is_over,
    .xColumn = column,
    .xRowid = row,
};
