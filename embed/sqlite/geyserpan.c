/* A loadable extension of SQLite that runs strangers' images:

     geyserpan_check(image)                       'accepted', or why not
     geyserpan_match(image, input [, max_turns])  1 where the exit word is 0, 0 where it is 1, else null
     geyserpan_run(image, input [, max_turns])    what it puts out where the exit word is 0, else null; text where the
                                                  input is text
     geyserpan_turns(image, input [, max_turns])  the turns that it takes
     geyserpan_fold(image, piece [, max_turns])   an aggregate: one run, which reads a piece from each row
     geyserpan_lines(image, input [, max_turns])  a table: a row for each line, made as it is asked for

   They are deterministic and innocuous, so that they may stand in indexes and in schemas that aren't trusted. */
#include "extension.h"
#include <string.h>
SQLITE_EXTENSION_INIT1

__attribute__((visibility("default"))) int sqlite3_geyserpan_init(sqlite3 *db, char **error,
                                                                  const sqlite3_api_routines *api)
{
    SQLITE_EXTENSION_INIT2(api);
    if (geyserpan_abi() != GEYSERPAN_ABI) {
        *error = sqlite3_mprintf("geyserpan: the library inside is of another ABI");
        return SQLITE_ERROR;
    }
    Connection *connection = sqlite3_malloc(sizeof *connection);
    if (!connection)
        return SQLITE_NOMEM;
    memset(connection, 0, sizeof *connection);
    connection->users = 1;
    int status = sqlite3_create_module_v2(db, "geyserpan_lines", &lines_module, connection, end_connection);
    return status == SQLITE_OK ? add_functions(db, connection) : status;
}
