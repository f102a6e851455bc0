/* Images that are verified once a session and kept by their bytes. */
#include "extension.h"

#include "common/hashfn.h"
#include "nodes/primnodes.h"
#include "utils/memutils.h"

#define MOST_KEPT 256
#define LONGEST_IMAGE (4 << 20) /* no longer bytes are an image */

/* The image that was used last stands first. */
static dlist_head kept_images = DLIST_STATIC_INIT(kept_images);
static int	kept_count = 0;

static void
release(Image *image)
{
	if (--image->users > 0)
		return;
	geyserpan_image_free(image->handle);
	rattle_dealloc(image->bytes);
	rattle_dealloc(image);
}

static void
forget(Image *image)
{
	dlist_delete(&image->node);
	kept_count--;
	release(image);
}

/* Forgets the images that nobody uses; whether there was one. */
static bool
forget_unused(void)
{
	dlist_mutable_iter at;
	bool		found = false;

	dlist_foreach_modify(at, &kept_images)
	{
		Image	   *image = dlist_container(Image, node, at.cur);

		if (image->users == 1)
		{
			forget(image);
			found = true;
		}
	}
	return found;
}

/* Has the runs of an image go by the object of its name, if there is one. One that isn't taken is told, and then the
   engine makes them. */
static void
go_natively(Image *image)
{
	static const geyserpan_why none;
	uint8		name[32];
	char		words[96];
	StringInfoData path;
	uint32		status;

	if (settings.native_directory == NULL || settings.native_directory[0] == '\0')
		return;
	(void) geyserpan_sha256(image->bytes, image->length, name, sizeof name);
	initStringInfo(&path);
	appendStringInfo(&path, "%s/", settings.native_directory);
	for (int i = 0; i < lengthof(name); i++)
		appendStringInfo(&path, "%02x", name[i]);
	appendStringInfoString(&path, ".so");
	status = geyserpan_native(&image->handle, path.data);
	image->is_native = status == GEYSERPAN_OK;
	if (status != GEYSERPAN_OK && status != GEYSERPAN_FILE)
		ereport(WARNING,
				errmsg("geyserpan: %s: %.*s", path.data,
					   (int) geyserpan_why_text(status, &none, (uint8 *) words, sizeof words), words));
	pfree(path.data);
}

/* An image with a copy of its bytes, from a handle that holds it; NULL where memory is refused. */
static Image *
new_image(geyserpan_image handle, const char *bytes, Size length, uint64 hash)
{
	geyserpan_block made = rattle_alloc(sizeof(Image), MAXIMUM_ALIGNOF);
	geyserpan_block copy;
	Image	   *image = made.at;

	if (!made.ok)
		return NULL;
	copy = rattle_alloc(length, 1);
	if (!copy.ok)
	{
		rattle_dealloc(image);
		return NULL;
	}
	*image = (Image) {.handle = handle,.hash = hash,.length = length,.bytes = copy.at,.users = 1,
		.native_changes = native_changes};
	memcpy(image->bytes, bytes, length);
	(void) geyserpan_facts_of(&image->handle, &image->facts);
	return image;
}

/* Verifies bytes, without terms: each run brings its own. */
static uint32
open_image(const char *bytes, Size length, uint64 hash, Image **image, geyserpan_why *why)
{
	geyserpan_terms all = {UINT64_MAX, UINT64_MAX, GEYSERPAN_ALL_SERVICES, 8};
	geyserpan_image handle;
	uint32		status = geyserpan_image_new(&handle);

	if (status != GEYSERPAN_OK)
		return status;
	status = geyserpan_open(&handle, (const uint8 *) bytes, length, &all, why);
	if (status == GEYSERPAN_OK)
	{
		*image = new_image(handle, bytes, length, hash);
		if (*image != NULL)
			return GEYSERPAN_OK;
		status = GEYSERPAN_MEMORY;
	}
	geyserpan_image_free(handle);
	return status;
}

static Image *
kept_image(const char *bytes, Size length, uint64 hash)
{
	dlist_iter	at;

	dlist_foreach(at, &kept_images)
	{
		Image	   *image = dlist_container(Image, node, at.cur);

		if (image->hash == hash && image->length == length && image->native_changes == native_changes &&
			memcmp(image->bytes, bytes, length) == 0)
		{
			dlist_move_head(&kept_images, &image->node);
			return image;
		}
	}
	return NULL;
}

/* The image of these bytes, or NULL, with the status that says why there is none. It is kept, but may be forgotten at
   the next call: who needs it longer holds it. */
Image *
find_image(const char *bytes, Size length, geyserpan_why *why, uint32 *status)
{
	uint64		hash = length <= LONGEST_IMAGE ? hash_bytes_extended((const unsigned char *) bytes, length, 0) : 0;
	Image	   *image = kept_image(bytes, length, hash);

	*status = GEYSERPAN_OK;
	if (image != NULL)
		return image;
	*status = open_image(bytes, length, hash, &image, why);
	if (*status == GEYSERPAN_MEMORY && forget_unused())
		*status = open_image(bytes, length, hash, &image, why);
	if (*status != GEYSERPAN_OK)
		return NULL;
	dlist_push_head(&kept_images, &image->node);
	if (++kept_count > MOST_KEPT)
		forget(dlist_tail_element(Image, node, &kept_images));
	go_natively(image);
	return image;
}

/* The same, where what isn't accepted is an error. */
Image *
image_of(const char *bytes, Size length)
{
	geyserpan_why why = {0, 0, 0};
	uint32		status;
	Image	   *image = find_image(bytes, length, &why, &status);

	if (image == NULL)
		fail(status, &why);
	return image;
}

bool
is_same_image(const Image *one, const Image *other)
{
	return one == other || (one->hash == other->hash && one->length == other->length &&
							memcmp(one->bytes, other->bytes, one->length) == 0);
}

/* ---- images in use ---- */

static void
end_hold(void *at)
{
	hold(at, NULL);
}

/* Holds an image in the place of the one before; NULL holds none. */
void
hold(Hold *held, Image *image)
{
	if (image != NULL)
		image->users++;
	if (held->image != NULL)
		release(held->image);
	held->image = image;
}

/* Something that holds no image yet, and lets go what it holds when its memory context ends. */
Hold *
new_hold(MemoryContext context)
{
	Hold	   *held = MemoryContextAllocZero(context, sizeof(Hold));

	held->at_end.func = end_hold;
	held->at_end.arg = held;
	MemoryContextRegisterResetCallback(context, &held->at_end);
	return held;
}

/* What a call site remembers of its image. */
typedef struct Site
{
	Hold	   *held;
	bool		is_constant;	/* the argument is written in the query */
} Site;

/* Whether an argument is a constant of the query. A parameter isn't, though the server calls it stable: PL/pgSQL
   evaluates an expression with other parameters at the same site. */
static bool
is_constant(FmgrInfo *call, int which)
{
	Node	   *node = call->fn_expr;

	return node != NULL && IsA(node, FuncExpr) && IsA(list_nth(((FuncExpr *) node)->args, which), Const);
}

/* The image that is an argument. A site at which it is a constant doesn't look at it again; any other compares the
   bytes. */
Image *
image_argument(FunctionCallInfo fcinfo, int which)
{
	FmgrInfo   *call = fcinfo->flinfo;
	Site	   *site = call->fn_extra;
	bytea	   *bytes;
	Image	   *image;

	if (site == NULL)
	{
		site = MemoryContextAllocZero(call->fn_mcxt, sizeof(Site));
		site->held = new_hold(call->fn_mcxt);
		site->is_constant = is_constant(call, which);
		call->fn_extra = site;
	}
	image = site->held->image;
	if (image != NULL && site->is_constant)
		return image;
	bytes = PG_GETARG_BYTEA_PP(which);
	if (image == NULL || image->length != VARSIZE_ANY_EXHDR(bytes) ||
		memcmp(image->bytes, VARDATA_ANY(bytes), image->length) != 0)
	{
		image = image_of(VARDATA_ANY(bytes), VARSIZE_ANY_EXHDR(bytes));
		hold(site->held, image);
	}
	PG_FREE_IF_COPY(bytes, which);
	return image;
}

/* ---- sources ---- */

/* The image that an annotated source means. */
bytea *
assembled(const char *source, Size length)
{
	geyserpan_why why = {0, 0, 0};
	uint64_t	needed = 4096;
	bytea	   *made;
	uint32		status;

	do
	{
		Size		room = needed;

		made = palloc(room + VARHDRSZ);
		status = geyserpan_assemble((const uint8 *) source, length, (uint8 *) VARDATA(made), room, &needed, &why);
		if (status != GEYSERPAN_OK)
			pfree(made);
	} while (status == GEYSERPAN_ROOM);
	if (status != GEYSERPAN_OK)
		fail(status, &why);
	SET_VARSIZE(made, needed + VARHDRSZ);
	return made;
}
