/* The calls of geyserpan.h in a program that names geyserpan_native: runs and sessions of an image that has an object
   go by it, and all else goes to the proved calls, which have `proved_` before their names here. */
#include "native.h"
#include <string.h>

#define PROVED(name) extern __typeof__(geyserpan_##name) proved_geyserpan_##name

PROVED(why_text);
PROVED(terms_text);
PROVED(image_new);
PROVED(image_free);
PROVED(open);
PROVED(image_share);
PROVED(facts_of);
PROVED(run_image);
PROVED(close);
PROVED(begin);
PROVED(begin_with);
PROVED(restart);
PROVED(engine_run);
PROVED(engine_new);
PROVED(engine_free);
PROVED(engine_begin);
PROVED(engine_begin_with);
PROVED(engine_step);
PROVED(engine_end);

/* ---- statuses in words ---- */

/* What a status of geyserpan_native means; NULL of another one. */
static const char *words_of(uint32_t status)
{
    switch (status) {
    case GEYSERPAN_FILE:
        return "there is no file, or none that can be read";
    case GEYSERPAN_OBJECT:
        return "the file is no object of native code";
    case GEYSERPAN_OBJECT_ABI:
        return "the object is of another version: build it anew";
    case GEYSERPAN_OBJECT_IMAGE:
        return "the object was made of another image";
    case GEYSERPAN_OBJECT_COUNTS:
        return "the object doesn't count turns";
    default:
        return NULL;
    }
}

static size_t put(const char *words, uint8_t *room, size_t room_length)
{
    const size_t length = strlen(words);
    if (length <= room_length)
        memcpy(room, words, length);
    return length;
}

size_t geyserpan_why_text(uint32_t status, const geyserpan_why *why, uint8_t *room, size_t room_length)
{
    const char *words = words_of(status);
    return words ? put(words, room, room_length) : proved_geyserpan_why_text(status, why, room, room_length);
}

size_t geyserpan_terms_text(uint32_t status, const geyserpan_facts *facts, const geyserpan_terms *terms, uint8_t *room,
                            size_t room_length)
{
    const char *words = words_of(status);
    return words ? put(words, room, room_length)
                 : proved_geyserpan_terms_text(status, facts, terms, room, room_length);
}

/* ---- images ---- */

/* What the handle of an image leads to: a proved handle, and where that holds an image, what is known of it. */
typedef struct {
    geyserpan_image proved;
    native_object *object; /* by which its runs go, if any */
    uint8_t hash[32];
    geyserpan_facts facts;
    geyserpan_terms terms;
} known_image;

static void go_by(known_image *known, native_object *object)
{
    native_let_go(known->object);
    known->object = object;
}

uint32_t geyserpan_image_new(geyserpan_image *image)
{
    geyserpan_block made = rattle_alloc(sizeof(known_image), _Alignof(known_image));
    known_image *known = made.at;
    uint32_t status;
    if (!made.ok)
        return GEYSERPAN_MEMORY;
    *known = (known_image){ .object = NULL };
    status = proved_geyserpan_image_new(&known->proved);
    if (status == GEYSERPAN_OK)
        image->at = known;
    else
        rattle_dealloc(known);
    return status;
}

void geyserpan_image_free(geyserpan_image image)
{
    known_image *known = image.at;
    go_by(known, NULL);
    proved_geyserpan_image_free(known->proved);
    rattle_dealloc(known);
}

uint32_t geyserpan_open(geyserpan_image *image, const uint8_t *bytes, size_t length, const geyserpan_terms *terms,
                        geyserpan_why *why)
{
    known_image *known = image->at;
    const uint32_t status = proved_geyserpan_open(&known->proved, bytes, length, terms, why);
    if (status != GEYSERPAN_OK)
        return status;
    go_by(known, NULL);
    known->terms = *terms;
    geyserpan_sha256(bytes, length, known->hash, sizeof known->hash);
    return proved_geyserpan_facts_of(&known->proved, &known->facts);
}

uint32_t geyserpan_image_share(geyserpan_image *image, geyserpan_image *other)
{
    known_image *known = image->at, *shares = other->at;
    const uint32_t status = proved_geyserpan_image_share(&known->proved, &shares->proved);
    if (status != GEYSERPAN_OK)
        return status;
    go_by(shares, native_hold(known->object));
    memcpy(shares->hash, known->hash, sizeof shares->hash);
    shares->facts = known->facts;
    shares->terms = known->terms;
    return GEYSERPAN_OK;
}

uint32_t geyserpan_native(geyserpan_image *image, const char *path)
{
    known_image *known = image->at;
    native_object *object;
    uint32_t status = proved_geyserpan_facts_of(&known->proved, &known->facts);
    if (status == GEYSERPAN_OK)
        status = native_load(path, known->hash, &object);
    if (status == GEYSERPAN_OK)
        go_by(known, object);
    return status;
}

uint32_t geyserpan_facts_of(geyserpan_image *image, geyserpan_facts *facts)
{
    known_image *known = image->at;
    return proved_geyserpan_facts_of(&known->proved, facts);
}

uint32_t geyserpan_run_image(geyserpan_image *image, const uint8_t *input, size_t input_length, uint8_t *room,
                             size_t room_length, geyserpan_report *report)
{
    known_image *known = image->at;
    return proved_geyserpan_run_image(&known->proved, input, input_length, room, room_length, report);
}

void geyserpan_close(geyserpan_image *image)
{
    known_image *known = image->at;
    go_by(known, NULL);
    proved_geyserpan_close(&known->proved);
}

/* ---- runs on a board, which are as they were ---- */

uint32_t geyserpan_begin(geyserpan_run *run, geyserpan_image *image)
{
    known_image *known = image->at;
    return proved_geyserpan_begin(run, &known->proved);
}

uint32_t geyserpan_begin_with(geyserpan_run *run, geyserpan_image *image, const geyserpan_terms *terms)
{
    known_image *known = image->at;
    return proved_geyserpan_begin_with(run, &known->proved, terms);
}

uint32_t geyserpan_restart(geyserpan_run *run, geyserpan_image *image)
{
    known_image *known = image->at;
    return proved_geyserpan_restart(run, &known->proved);
}

/* ---- runs without a board ---- */

/* What the handle of a run leads to: a proved handle, and a run by an object, if it is one. */
typedef struct {
    geyserpan_engine proved;
    native_run *run;
} known_engine;

static void go_on_by(known_engine *known, native_run *run)
{
    native_end(known->run);
    known->run = run;
}

uint32_t geyserpan_engine_run(geyserpan_image *image, const uint8_t *input, size_t input_length, uint8_t *room,
                              size_t room_length, geyserpan_report *report)
{
    known_image *known = image->at;
    if (!known->object)
        return proved_geyserpan_engine_run(&known->proved, input, input_length, room, room_length, report);
    return native_whole(known->object, known->facts.budget, &known->terms, input, input_length, room, room_length,
                        report);
}

uint32_t geyserpan_engine_new(geyserpan_engine *engine)
{
    geyserpan_block made = rattle_alloc(sizeof(known_engine), _Alignof(known_engine));
    known_engine *known = made.at;
    uint32_t status;
    if (!made.ok)
        return GEYSERPAN_MEMORY;
    *known = (known_engine){ .run = NULL };
    status = proved_geyserpan_engine_new(&known->proved);
    if (status == GEYSERPAN_OK)
        engine->at = known;
    else
        rattle_dealloc(known);
    return status;
}

void geyserpan_engine_free(geyserpan_engine engine)
{
    known_engine *known = engine.at;
    go_on_by(known, NULL);
    proved_geyserpan_engine_free(known->proved);
    rattle_dealloc(known);
}

/* Begins a run by the object of an image, in the place of the run that there was. */
static uint32_t begin_by_object(known_engine *engine, const known_image *image, const geyserpan_terms *terms)
{
    native_run *run;
    const uint32_t status = native_begin(&run, image->object, image->facts.budget, terms);
    if (status != GEYSERPAN_OK)
        return status;
    proved_geyserpan_engine_end(&engine->proved);
    go_on_by(engine, run);
    return GEYSERPAN_OK;
}

/* What a proved call has begun, if it has, is in the place of the run that there was. */
static uint32_t begun(known_engine *engine, uint32_t status)
{
    if (status == GEYSERPAN_OK)
        go_on_by(engine, NULL);
    return status;
}

uint32_t geyserpan_engine_begin(geyserpan_engine *engine, geyserpan_image *image)
{
    known_engine *known = engine->at;
    known_image *of = image->at;
    if (of->object)
        return begin_by_object(known, of, &of->terms);
    return begun(known, proved_geyserpan_engine_begin(&known->proved, &of->proved));
}

uint32_t geyserpan_engine_begin_with(geyserpan_engine *engine, geyserpan_image *image, const geyserpan_terms *terms)
{
    known_engine *known = engine->at;
    known_image *of = image->at;
    if (!of->object)
        return begun(known, proved_geyserpan_engine_begin_with(&known->proved, &of->proved, terms));
    if (terms->windows < 4 || terms->windows > 32)
        return GEYSERPAN_WINDOWS;
    if (of->facts.services & ~terms->services)
        return GEYSERPAN_SERVICES;
    if (of->facts.budget > terms->turns)
        return GEYSERPAN_TURNS;
    return begin_by_object(known, of, terms);
}

uint32_t geyserpan_engine_step(geyserpan_engine *engine, uint64_t turns, const uint8_t *input, size_t input_length,
                               uint32_t last, uint8_t *room, size_t room_length, geyserpan_done *done)
{
    known_engine *known = engine->at;
    if (known->run)
        return native_step(known->run, turns, input, input_length, last, room, room_length, done);
    return proved_geyserpan_engine_step(&known->proved, turns, input, input_length, last, room, room_length, done);
}

void geyserpan_engine_end(geyserpan_engine *engine)
{
    known_engine *known = engine->at;
    go_on_by(known, NULL);
    proved_geyserpan_engine_end(&known->proved);
}
