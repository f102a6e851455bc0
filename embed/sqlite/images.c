/* Images that are verified once a connection. */
#include "extension.h"
#include <string.h>
SQLITE_EXTENSION_INIT3

static const uint8_t none;

void release_image(void *at)
{
    Image *image = at;
    if (!image || --image->users)
        return;
    if (image->handle.at)
        geyserpan_image_free(image->handle);
    sqlite3_free(image->bytes);
    sqlite3_free(image);
}

void end_connection(void *at)
{
    Connection *connection = at;
    if (--connection->users)
        return;
    for (int i = 0; i < MOST_KEPT; i++)
        release_image(connection->kept[i]);
    if (connection->engine.at)
        geyserpan_engine_free(connection->engine);
    sqlite3_free(connection);
}

/* An image of bytes, or why there is none. */
static Image *open_image(const uint8_t *bytes, int length, Verdict *verdict)
{
    static const geyserpan_terms all = { UINT64_MAX, UINT64_MAX, GEYSERPAN_ALL_SERVICES, 8 };
    Image *image = sqlite3_malloc(sizeof *image);
    verdict->status = GEYSERPAN_MEMORY;
    if (!image)
        return NULL;
    memset(image, 0, sizeof *image);
    image->users = 1;
    if (geyserpan_image_new(&image->handle) == GEYSERPAN_OK)
        verdict->status = geyserpan_open(&image->handle, bytes, (size_t)length, &all, &verdict->why);
    if (verdict->status == GEYSERPAN_OK && !(image->bytes = sqlite3_malloc(length)))
        verdict->status = GEYSERPAN_MEMORY;
    if (verdict->status != GEYSERPAN_OK) {
        release_image(image);
        return NULL;
    }
    memcpy(image->bytes, bytes, (size_t)length);
    image->length = length;
    geyserpan_facts_of(&image->handle, &image->facts);
    return image;
}

/* Where the image of these bytes is kept, or else where it may go: the place that was used least lately. */
static Image **place_of(Connection *connection, const uint8_t *bytes, int length)
{
    Image **oldest = connection->kept;
    for (int i = 0; i < MOST_KEPT; i++) {
        Image **place = &connection->kept[i];
        if (*place && (*place)->length == length && memcmp((*place)->bytes, bytes, (size_t)length) == 0)
            return place;
        if (*oldest && (!*place || (*place)->used < (*oldest)->used))
            oldest = place;
    }
    return oldest;
}

Image *find_image(Connection *connection, sqlite3_value *value, Verdict *verdict)
{
    const uint8_t *bytes = sqlite3_value_blob(value);
    int length = sqlite3_value_bytes(value);
    Image **place = place_of(connection, length ? bytes : &none, length);
    verdict->status = GEYSERPAN_OK;
    if (!*place || (*place)->length != length || memcmp((*place)->bytes, bytes, (size_t)length) != 0) {
        Image *image = open_image(length ? bytes : &none, length, verdict);
        if (!image)
            return NULL;
        release_image(*place);
        *place = image;
    }
    (*place)->used = ++connection->clock;
    return *place;
}

char *text_of_verdict(const Verdict *verdict)
{
    uint8_t words[96];
    if (verdict->status == GEYSERPAN_OK)
        return sqlite3_mprintf("accepted");
    size_t length = geyserpan_why_text(verdict->status, &verdict->why, words, sizeof words);
    return sqlite3_mprintf("%.*s", (int)length, words);
}

char *text_of_terms(uint32_t status, const geyserpan_facts *facts, const geyserpan_terms *terms)
{
    uint8_t words[96];
    size_t length = geyserpan_terms_text(status, facts, terms, words, sizeof words);
    return sqlite3_mprintf("geyserpan: %.*s", (int)length, words);
}
