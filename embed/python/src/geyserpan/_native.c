/* The calls of libgeyserpan as a module for any Python from 3.11 on.

   An image may be used by many threads at once: it was opened once, and each call takes a handle that shares it, from
   a list that is changed with the GIL held alone. Runs are made without the GIL, each on handles of its own. */
#define PY_SSIZE_T_CLEAN
#include <Python.h>
#include <geyserpan.h>
#include <string.h>

#define SLICE 20000000 /* turns between two looks at signals: an eighth of a second or so */
#define MOST 16        /* pairs of handles that an image keeps for its next calls */
#define SMALL 4096     /* bytes of output that a run has room for before it asks for memory */

static PyObject *failure;
static PyTypeObject *image_type;

/* ---- failures ---- */

/* Raises Failure(text, status, number, function, address). */
static PyObject *fail(uint32_t status, const geyserpan_why *why)
{
    static const geyserpan_why none;
    uint8_t room[96];
    if (status == GEYSERPAN_MEMORY)
        return PyErr_NoMemory();
    why = why ? why : &none;
    size_t length = geyserpan_why_text(status, why, room, sizeof room);
    PyObject *words = Py_BuildValue("(s#IIII)", (const char *)room, (Py_ssize_t)length, status, why->number,
                                    why->function, why->address);
    if (words)
        PyErr_SetObject(failure, words);
    Py_XDECREF(words);
    return NULL;
}

/* The same of a status of terms, with what is asked for and what is granted. */
static PyObject *deny(uint32_t status, const geyserpan_facts *facts, const geyserpan_terms *terms)
{
    uint8_t room[96];
    if (status == GEYSERPAN_MEMORY)
        return PyErr_NoMemory();
    size_t length = geyserpan_terms_text(status, facts, terms, room, sizeof room);
    PyObject *words = Py_BuildValue("(s#IIII)", (const char *)room, (Py_ssize_t)length, status, 0u, 0u, 0u);
    if (words)
        PyErr_SetObject(failure, words);
    Py_XDECREF(words);
    return NULL;
}

/* ---- what goes in ---- */

/* Bytes that nobody changes while they are read without the GIL: a buffer that may be written is copied. */
typedef struct {
    Py_buffer view;
    uint8_t *copy;
    const uint8_t *at;
    size_t length;
} Bytes;

static void bytes_end(Bytes *bytes)
{
    PyMem_Free(bytes->copy);
    PyBuffer_Release(&bytes->view);
}

static int bytes_of(PyObject *from, Bytes *bytes)
{
    static const uint8_t none;
    if (PyObject_GetBuffer(from, &bytes->view, PyBUF_SIMPLE))
        return -1;
    bytes->length = (size_t)bytes->view.len;
    bytes->at = bytes->length ? bytes->view.buf : &none;
    bytes->copy = NULL;
    if (bytes->view.readonly || !bytes->length)
        return 0;
    bytes->copy = PyMem_Malloc(bytes->length);
    if (!bytes->copy) {
        PyBuffer_Release(&bytes->view);
        PyErr_NoMemory();
        return -1;
    }
    bytes->at = memcpy(bytes->copy, bytes->view.buf, bytes->length);
    return 0;
}

/* A number of 64 bits; a negative one is an OverflowError, and no very great one. */
static int wide(PyObject *from, void *to)
{
    unsigned long long number = PyLong_AsUnsignedLongLong(from);
    if (number == (unsigned long long)-1 && PyErr_Occurred())
        return 0;
    *(uint64_t *)to = number;
    return 1;
}

/* The same of 32 bits. */
static int narrow(PyObject *from, void *to)
{
    uint64_t number;
    if (!wide(from, &number))
        return 0;
    if (number > UINT32_MAX) {
        PyErr_SetString(PyExc_OverflowError, "a number of more than 32 bits");
        return 0;
    }
    *(uint32_t *)to = (uint32_t)number;
    return 1;
}

/* A tuple (turns, output, services, windows). */
static int terms_of(PyObject *from, void *to)
{
    geyserpan_terms *terms = to;
    if (!PyTuple_Check(from)) {
        PyErr_SetString(PyExc_TypeError, "terms are a tuple of four numbers");
        return 0;
    }
    return PyArg_ParseTuple(from, "O&O&O&O&", wide, &terms->turns, wide, &terms->output, narrow, &terms->services,
                            narrow, &terms->windows);
}

static PyObject *told(const geyserpan_facts *facts)
{
    return Py_BuildValue("(KIIIIIII)", (unsigned long long)facts->budget, facts->services, facts->version,
                         facts->words, facts->data_bytes, facts->stack_pages, facts->functions, facts->depth);
}

/* ---- images ---- */

/* What a call has for itself while it goes without the GIL: handles to the image as it was behind so many changes. */
typedef struct {
    geyserpan_image image;
    geyserpan_engine engine;
    unsigned long changes;
} Pair;

typedef struct {
    PyObject_HEAD
    PyObject *bytes;
    geyserpan_image image;
    geyserpan_terms terms;
    geyserpan_facts facts;
    Pair kept[MOST];
    int count;
    unsigned long changes; /* how often the image was given an object */
} Image;

static void drop_pair(Pair pair)
{
    if (pair.engine.at)
        geyserpan_engine_free(pair.engine);
    if (pair.image.at)
        geyserpan_image_free(pair.image);
}

/* Handles of its own for a call, with the GIL held: those of an earlier call, or a new share of the image. */
static int take_pair(Image *self, Pair *pair)
{
    if (self->count) {
        *pair = self->kept[--self->count];
        return 0;
    }
    *pair = (Pair){ { NULL }, { NULL }, self->changes };
    uint32_t status = geyserpan_image_new(&pair->image);
    if (status == GEYSERPAN_OK)
        status = geyserpan_image_share(&self->image, &pair->image);
    if (status == GEYSERPAN_OK)
        status = geyserpan_engine_new(&pair->engine);
    if (status == GEYSERPAN_OK)
        return 0;
    drop_pair(*pair);
    fail(status, NULL);
    return -1;
}

/* Gives them back, without the run that the engine has. */
static void give_pair(Image *self, Pair pair)
{
    geyserpan_engine_end(&pair.engine);
    if (self->count < MOST && pair.changes == self->changes)
        self->kept[self->count++] = pair;
    else
        drop_pair(pair);
}

/* Opens the image's bytes. */
static int open_image(Image *self)
{
    geyserpan_why why = { 0, 0, 0 };
    char *bytes;
    Py_ssize_t length;
    uint32_t status;
    if (PyBytes_AsStringAndSize(self->bytes, &bytes, &length))
        return -1;
    Py_BEGIN_ALLOW_THREADS
    status = geyserpan_image_new(&self->image);
    if (status == GEYSERPAN_OK)
        status = geyserpan_open(&self->image, (const uint8_t *)bytes, (size_t)length, &self->terms, &why);
    if (status == GEYSERPAN_OK)
        status = geyserpan_facts_of(&self->image, &self->facts);
    else if (status == GEYSERPAN_TURNS || status == GEYSERPAN_SERVICES)
        geyserpan_check((const uint8_t *)bytes, (size_t)length, &self->facts, &why);
    Py_END_ALLOW_THREADS
    if (status == GEYSERPAN_OK)
        return 0;
    if (status == GEYSERPAN_TURNS || status == GEYSERPAN_SERVICES || status == GEYSERPAN_WINDOWS)
        deny(status, &self->facts, &self->terms);
    else
        fail(status, &why);
    return -1;
}

static PyObject *image_new(PyTypeObject *type, PyObject *args, PyObject *words)
{
    PyObject *data;
    geyserpan_terms terms;
    if (words && PyDict_Size(words)) {
        PyErr_SetString(PyExc_TypeError, "Image(data, terms)");
        return NULL;
    }
    if (!PyArg_ParseTuple(args, "OO&", &data, terms_of, &terms))
        return NULL;
    PyObject *bytes = PyBytes_FromObject(data);
    if (!bytes)
        return NULL;
    Image *self = (Image *)((allocfunc)PyType_GetSlot(type, Py_tp_alloc))(type, 0);
    if (!self) {
        Py_DECREF(bytes);
        return NULL;
    }
    self->bytes = bytes;
    self->terms = terms;
    if (open_image(self)) {
        Py_DECREF(self);
        return NULL;
    }
    return (PyObject *)self;
}

static void image_end(Image *self)
{
    PyTypeObject *type = Py_TYPE((PyObject *)self);
    while (self->count)
        drop_pair(self->kept[--self->count]);
    if (self->image.at)
        geyserpan_image_free(self->image);
    Py_XDECREF(self->bytes);
    ((freefunc)PyType_GetSlot(type, Py_tp_free))(self);
    Py_DECREF(type);
}

/* ---- runs to their end ---- */

/* Room for the output of a run, which grows. */
typedef struct {
    uint8_t small[SMALL], *at;
    size_t size, used;
} Room;

static int grow(Room *room)
{
    uint8_t *more = room->size > PY_SSIZE_T_MAX / 2 ? NULL
                  : PyMem_Realloc(room->at == room->small ? NULL : room->at, room->size * 2);
    if (!more) {
        PyErr_NoMemory();
        return -1;
    }
    if (room->at == room->small)
        memcpy(more, room->small, room->used);
    room->at = more;
    room->size *= 2;
    return 0;
}

/* Steps a run to its end, and looks at signals between steps: its last status, with an exception where that is OK. */
static uint32_t to_end(geyserpan_engine *engine, const Bytes *input, Room *room, geyserpan_done *done)
{
    size_t read = 0;
    for (;;) {
        uint32_t status;
        Py_BEGIN_ALLOW_THREADS
        status = geyserpan_engine_step(engine, SLICE, input->at + read, input->length - read, 1,
                                       room->at + room->used, room->size - room->used, done);
        Py_END_ALLOW_THREADS
        room->used += done->written;
        read += done->read;
        if (status == GEYSERPAN_PAUSED ? PyErr_CheckSignals() : status == GEYSERPAN_FULL && grow(room))
            return GEYSERPAN_OK;
        if (status != GEYSERPAN_PAUSED && status != GEYSERPAN_FULL)
            return status;
    }
}

static PyObject *run_pair(Image *self, Pair *pair, const Bytes *input, const geyserpan_terms *terms)
{
    Room room;
    geyserpan_done done = { 0 };
    PyObject *made = NULL;
    room.at = room.small;
    room.size = SMALL;
    room.used = 0;
    uint32_t status = geyserpan_engine_begin_with(&pair->engine, &pair->image, terms);
    if (status != GEYSERPAN_OK)
        return deny(status, &self->facts, terms);
    status = to_end(&pair->engine, input, &room, &done);
    if (status == GEYSERPAN_ENDED)
        made = Py_BuildValue("(y#IK)", (const char *)room.at, (Py_ssize_t)room.used, done.exit,
                             (unsigned long long)done.turns);
    else if (status != GEYSERPAN_OK)
        deny(status, &self->facts, terms);
    if (room.at != room.small)
        PyMem_Free(room.at);
    return made;
}

/* run(input, terms or None) -> (output, exit, turns) */
static PyObject *image_run(Image *self, PyObject *args)
{
    PyObject *data, *given;
    geyserpan_terms terms = self->terms;
    Bytes input;
    Pair pair;
    PyObject *made = NULL;
    if (!PyArg_ParseTuple(args, "OO", &data, &given) || (given != Py_None && !terms_of(given, &terms)))
        return NULL;
    if (bytes_of(data, &input))
        return NULL;
    if (!take_pair(self, &pair)) {
        made = run_pair(self, &pair, &input, &terms);
        give_pair(self, pair);
    }
    bytes_end(&input);
    return made;
}

/* native(path): has the runs that are begun from now on go by an object. It is loaded with the GIL held, since the
   image's handle is in use for the call. */
static PyObject *image_native(Image *self, PyObject *given)
{
    PyObject *path;
    if (!PyUnicode_FSConverter(given, &path))
        return NULL;
    uint32_t status = geyserpan_native(&self->image, PyBytes_AsString(path));
    Py_DECREF(path);
    if (status != GEYSERPAN_OK)
        return fail(status, NULL);
    self->changes++;
    while (self->count)
        drop_pair(self->kept[--self->count]);
    Py_RETURN_NONE;
}

static PyObject *image_facts(Image *self, void *closure)
{
    (void)closure;
    return told(&self->facts);
}

static PyObject *image_data(Image *self, void *closure)
{
    (void)closure;
    return Py_NewRef(self->bytes);
}

static PyMethodDef image_methods[] = {
    { "run", (PyCFunction)(void (*)(void))image_run, METH_VARARGS, NULL },
    { "native", (PyCFunction)(void (*)(void))image_native, METH_O, NULL },
    { NULL, NULL, 0, NULL },
};
static PyGetSetDef image_gets[] = {
    { "facts", (getter)image_facts, NULL, NULL, NULL },
    { "data", (getter)image_data, NULL, NULL, NULL },
    { NULL, NULL, NULL, NULL, NULL },
};
static PyType_Slot image_slots[] = {
    { Py_tp_new, (void *)image_new },
    { Py_tp_dealloc, (void *)image_end },
    { Py_tp_methods, image_methods },
    { Py_tp_getset, image_gets },
    { 0, NULL },
};
static PyType_Spec image_spec = { "geyserpan._native.Image", sizeof(Image), 0, Py_TPFLAGS_DEFAULT, image_slots };

/* ---- sessions ---- */

typedef struct {
    PyObject_HEAD
    geyserpan_engine engine;
    geyserpan_facts facts;
    geyserpan_terms terms;
    int busy;
} Session;

/* Session(image, terms or None) */
static PyObject *session_new(PyTypeObject *type, PyObject *args, PyObject *words)
{
    Image *image;
    PyObject *given;
    (void)words;
    if (!PyArg_ParseTuple(args, "O!O", image_type, &image, &given))
        return NULL;
    Session *self = (Session *)((allocfunc)PyType_GetSlot(type, Py_tp_alloc))(type, 0);
    if (!self)
        return NULL;
    self->terms = image->terms;
    self->facts = image->facts;
    if (given != Py_None && !terms_of(given, &self->terms)) {
        Py_DECREF(self);
        return NULL;
    }
    uint32_t status = geyserpan_engine_new(&self->engine);
    if (status == GEYSERPAN_OK)
        status = geyserpan_engine_begin_with(&self->engine, &image->image, &self->terms);
    if (status != GEYSERPAN_OK) {
        deny(status, &self->facts, &self->terms);
        Py_DECREF(self);
        return NULL;
    }
    return (PyObject *)self;
}

static void session_end(Session *self)
{
    PyTypeObject *type = Py_TYPE((PyObject *)self);
    if (self->engine.at)
        geyserpan_engine_free(self->engine);
    ((freefunc)PyType_GetSlot(type, Py_tp_free))(self);
    Py_DECREF(type);
}

/* Whether the session may be used: it is open, and no other thread is within it. */
static int is_free(const Session *self)
{
    if (!self->busy && self->engine.at)
        return 1;
    PyErr_SetString(PyExc_RuntimeError,
                    self->busy ? "another thread is within a step of this session" : "the session was closed");
    return 0;
}

static PyObject *step_into(Session *self, uint64_t turns, const Bytes *piece, int last, PyObject *room, size_t size)
{
    uint8_t *at = (uint8_t *)PyBytes_AsString(room);
    geyserpan_done done = { 0 };
    uint32_t status;
    self->busy = 1;
    Py_BEGIN_ALLOW_THREADS
    status = geyserpan_engine_step(&self->engine, turns, piece->at, piece->length, (uint32_t)last, at, size, &done);
    Py_END_ALLOW_THREADS
    self->busy = 0;
    return Py_BuildValue("(Iny#IK)", status, (Py_ssize_t)done.read, (const char *)at, (Py_ssize_t)done.written,
                         done.exit, (unsigned long long)done.turns);
}

/* step(turns, piece, last, room) -> (status, read, output, exit, turns) */
static PyObject *session_step(Session *self, PyObject *args)
{
    uint64_t turns;
    PyObject *data, *room, *made = NULL;
    Bytes piece;
    int last;
    Py_ssize_t size;
    if (!PyArg_ParseTuple(args, "O&Opn", wide, &turns, &data, &last, &size))
        return NULL;
    if (size < 0) {
        PyErr_SetString(PyExc_ValueError, "a room of fewer than 0 bytes");
        return NULL;
    }
    if (bytes_of(data, &piece))
        return NULL;
    room = PyBytes_FromStringAndSize(NULL, size ? size : 1);
    if (room && is_free(self))
        made = step_into(self, turns, &piece, last, room, (size_t)size);
    Py_XDECREF(room);
    bytes_end(&piece);
    return made;
}

/* deny(status): raises what the status means for the session's terms. */
static PyObject *session_deny(Session *self, PyObject *number)
{
    uint32_t status;
    return narrow(number, &status) ? deny(status, &self->facts, &self->terms) : NULL;
}

static PyObject *session_close(Session *self, PyObject *unused)
{
    (void)unused;
    if (self->engine.at && !is_free(self))
        return NULL;
    if (self->engine.at)
        geyserpan_engine_free(self->engine);
    self->engine.at = NULL;
    Py_RETURN_NONE;
}

static PyMethodDef session_methods[] = {
    { "step", (PyCFunction)(void (*)(void))session_step, METH_VARARGS, NULL },
    { "deny", (PyCFunction)(void (*)(void))session_deny, METH_O, NULL },
    { "close", (PyCFunction)(void (*)(void))session_close, METH_NOARGS, NULL },
    { NULL, NULL, 0, NULL },
};
static PyType_Slot session_slots[] = {
    { Py_tp_new, (void *)session_new },
    { Py_tp_dealloc, (void *)session_end },
    { Py_tp_methods, session_methods },
    { 0, NULL },
};
static PyType_Spec session_spec = { "geyserpan._native.Session", sizeof(Session), 0, Py_TPFLAGS_DEFAULT,
                                    session_slots };

/* ---- the module ---- */

static PyObject *check(PyObject *module, PyObject *data)
{
    Bytes bytes;
    geyserpan_facts facts;
    geyserpan_why why = { 0, 0, 0 };
    uint32_t status;
    (void)module;
    if (bytes_of(data, &bytes))
        return NULL;
    Py_BEGIN_ALLOW_THREADS
    status = geyserpan_check(bytes.at, bytes.length, &facts, &why);
    Py_END_ALLOW_THREADS
    bytes_end(&bytes);
    return status == GEYSERPAN_OK ? told(&facts) : fail(status, &why);
}

/* The image that a source means, in a room of so many bytes; NULL without an exception where more are needed. */
static PyObject *assembled(const Bytes *source, uint64_t *needed)
{
    geyserpan_why why = { 0, 0, 0 };
    uint64_t size = *needed;
    uint8_t *room = PyMem_Malloc(size ? size : 1);
    PyObject *made = NULL;
    uint32_t status;
    if (!room)
        return PyErr_NoMemory();
    Py_BEGIN_ALLOW_THREADS
    status = geyserpan_assemble(source->at, source->length, room, size, needed, &why);
    Py_END_ALLOW_THREADS
    if (status == GEYSERPAN_OK)
        made = PyBytes_FromStringAndSize((const char *)room, (Py_ssize_t)*needed);
    else if (status != GEYSERPAN_ROOM)
        fail(status, &why);
    PyMem_Free(room);
    return made;
}

static PyObject *assemble(PyObject *module, PyObject *data)
{
    Bytes source;
    uint64_t needed = SMALL;
    (void)module;
    if (bytes_of(data, &source))
        return NULL;
    PyObject *made = assembled(&source, &needed);
    if (!made && !PyErr_Occurred())
        made = assembled(&source, &needed);
    bytes_end(&source);
    return made;
}

static PyObject *sha256(PyObject *module, PyObject *data)
{
    Bytes bytes;
    uint8_t hash[32];
    (void)module;
    if (bytes_of(data, &bytes))
        return NULL;
    uint32_t status = geyserpan_sha256(bytes.at, bytes.length, hash, sizeof hash);
    bytes_end(&bytes);
    return status == GEYSERPAN_OK ? PyBytes_FromStringAndSize((const char *)hash, sizeof hash) : fail(status, NULL);
}

static PyObject *exit_kind(PyObject *module, PyObject *number)
{
    uint32_t word;
    (void)module;
    return narrow(number, &word) ? PyLong_FromUnsignedLong(geyserpan_exit_kind(word)) : NULL;
}

static PyObject *version(PyObject *module, PyObject *unused)
{
    uint8_t room[32];
    (void)module;
    (void)unused;
    size_t length = geyserpan_version(room, sizeof room);
    return PyUnicode_FromStringAndSize((const char *)room, (Py_ssize_t)length);
}

static PyMethodDef methods[] = {
    { "check", check, METH_O, NULL },
    { "assemble", assemble, METH_O, NULL },
    { "sha256", sha256, METH_O, NULL },
    { "exit_kind", exit_kind, METH_O, NULL },
    { "version", version, METH_NOARGS, NULL },
    { NULL, NULL, 0, NULL },
};
static struct PyModuleDef module = { PyModuleDef_HEAD_INIT, "_native", NULL, -1, methods, NULL, NULL, NULL, NULL };

PyMODINIT_FUNC PyInit__native(void)
{
    if (geyserpan_abi() != GEYSERPAN_ABI) {
        PyErr_SetString(PyExc_ImportError, "libgeyserpan has another ABI");
        return NULL;
    }
    PyObject *made = PyModule_Create(&module);
    PyObject *session_type = PyType_FromSpec(&session_spec);
    image_type = (PyTypeObject *)PyType_FromSpec(&image_spec);
    failure = PyErr_NewException("geyserpan._native.Failure", NULL, NULL);
    if (made && session_type && image_type && failure && !PyModule_AddObjectRef(made, "Failure", failure)
        && !PyModule_AddObjectRef(made, "Image", (PyObject *)image_type)
        && !PyModule_AddObjectRef(made, "Session", session_type))
        return made;
    Py_XDECREF(made);
    return NULL;
}
