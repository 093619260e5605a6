/* A stream of the library. `dadofennel._stream` sees to it that one thread at a time is in it; a second one is refused. */
#include "native.h"

#include <stdlib.h>

/* How many matches a stream gives at once. */
enum { ROOM = 256 };

typedef struct {
    PyObject_HEAD
    State *state;                 /* held */
    dado_stream *handle;
    int is_busy;                  /* a thread is in it */
} Pieces;

static void pieces_free(PyObject *self) {
    PyTypeObject *type = Py_TYPE(self);
    State *state = ((Pieces *)self)->state;
    dado_stream_free(&((Pieces *)self)->handle);
    PyObject_Free(self);
    Py_DECREF(type);
    state_let_go(state);
}

/* Raises what a status says; NULL. */
static PyObject *pieces_refuse(PyObject *self, dado_status status) {
    refuse(((Pieces *)self)->state, status);
    return NULL;
}

static dado_status make(const dado_automaton *ac, int words, unsigned long number, dado_stream **made) {
    if (!words) return dado_stream_new(ac, made);
    return number == ALL_WORDS ? dado_all_words_stream_new(ac, made) : dado_word_stream_new(ac, (uint32_t)number, made);
}

/* Begins a stream of matches, or of whole words: under the kind of a number, or all of them for ALL_WORDS, which is the number of none. */
static PyObject *stream(PyObject *module, PyObject *args) {
    PyObject *owner, *kind;
    Pieces *made;
    dado_status status;
    unsigned long number = 0;
    State *state = state_of(module);
    if (!PyArg_ParseTuple(args, "O!O", state->owner_type, &owner, &kind)) return NULL;
    if (kind != Py_None && (number = PyLong_AsUnsignedLong(kind)) == (unsigned long)-1 && PyErr_Occurred()) return NULL;
    made = PyObject_New(Pieces, state->pieces_type);
    if (made == NULL) return NULL;
    made->state = state_held(state), made->handle = NULL, made->is_busy = 0;
    status = make(((Owner *)owner)->handle, kind != Py_None, number, &made->handle);
    if (status == DADO_OK) return (PyObject *)made;
    Py_DECREF(made);
    refuse(state, status);
    return NULL;
}

/* Whether no other thread is in it; else that is raised. */
static int is_free(const Pieces *it) {
    if (!it->is_busy) return 1;
    PyErr_SetString(PyExc_RuntimeError, "another thread is in the stream");
    return 0;
}

/* Takes the first bytes of a piece, from a place in it on, and says how many. */
static PyObject *pieces_push(PyObject *self, PyObject *args) {
    PyObject *piece;
    Py_ssize_t at;
    Py_buffer lent;
    size_t taken = 0, length;
    dado_status status = DADO_OK;
    Pieces *it = (Pieces *)self;
    if (!PyArg_ParseTuple(args, "On", &piece, &at) || PyObject_GetBuffer(piece, &lent, PyBUF_SIMPLE) < 0) return NULL;
    if (!is_free(it)) {
        PyBuffer_Release(&lent);
        return NULL;
    }
    if (at < 0 || at > lent.len) at = lent.len;
    length = (size_t)(lent.len - at);
    it->is_busy = 1;
    UNLOCKED(length, status = dado_stream_push(&it->handle, length ? (const uint8_t *)lent.buf + at : NULL, length, &taken));
    it->is_busy = 0;
    PyBuffer_Release(&lent);
    return status == DADO_OK ? PyLong_FromSize_t(taken) : pieces_refuse(self, status);
}

/* The next matches that are decided. -1 with an exception. */
static int next_some(PyObject *self, dado_match *room, size_t *count) {
    dado_status status;
    Pieces *it = (Pieces *)self;
    if (!is_free(it)) return -1;
    it->is_busy = 1;
    Py_BEGIN_ALLOW_THREADS
    status = dado_stream_some(&it->handle, room, ROOM, count);
    Py_END_ALLOW_THREADS
    it->is_busy = 0;
    return status > DADO_NONE ? refuse(it->state, status) : 0;
}

static int append_all(PyObject *self, PyObject *list, const dado_match *room, size_t count) {
    size_t i;
    for (i = 0; i < count; i++) {
        PyObject *match = match_of(((Pieces *)self)->state, &room[i], 0, NULL);
        int done = match == NULL ? -1 : PyList_Append(list, match);
        Py_XDECREF(match);
        if (done < 0) return -1;
    }
    return 0;
}

/* All matches that are decided now. */
static PyObject *pieces_matches(PyObject *self, PyObject *none) {
    dado_match room[ROOM];
    PyObject *list = PyList_New(0);
    size_t count = ROOM;
    (void)none;
    while (list != NULL && count == ROOM)
        if (next_some(self, room, &count) < 0 || append_all(self, list, room, count) < 0) Py_CLEAR(list);
    return list;
}

/* Some of them, as three lists. Fewer than there is room for are the last ones. */
static PyObject *pieces_batch(PyObject *self, PyObject *none) {
    dado_match room[ROOM];
    size_t count = 0;
    (void)none;
    return next_some(self, room, &count) < 0 ? NULL : lists_of(room, count, 0);
}

/* The place after all that was pushed, and that up to which everything is decided. */
static PyObject *pieces_view(PyObject *self, PyObject *none) {
    dado_held held;
    dado_status status;
    (void)none;
    if (!is_free((Pieces *)self)) return NULL;
    status = dado_stream_view(&((Pieces *)self)->handle, &held);
    if (status == DADO_OK) return Py_BuildValue("NN", PyLong_FromSize_t(held.from + held.len), PyLong_FromSize_t(held.cut));
    return pieces_refuse(self, status);
}

static PyObject *pieces_finish(PyObject *self, PyObject *none) {
    dado_status status;
    (void)none;
    if (!is_free((Pieces *)self)) return NULL;
    status = dado_stream_finish(&((Pieces *)self)->handle);
    if (status == DADO_OK) Py_RETURN_NONE;
    return pieces_refuse(self, status);
}

static PyMethodDef methods[] = {
    {"push", pieces_push, METH_VARARGS, "Takes bytes of a piece from a place on, and says how many."},
    {"matches", pieces_matches, METH_NOARGS, "All matches that are decided now."},
    {"batch", pieces_batch, METH_NOARGS, "Some matches that are decided now, as three lists."},
    {"view", pieces_view, METH_NOARGS, "Where what was pushed ends, and up to which place all is decided."},
    {"finish", pieces_finish, METH_NOARGS, "Ends the text."},
    {NULL, NULL, 0, NULL},
};

static PyType_Slot slots[] = {{Py_tp_new, not_by_hand}, {Py_tp_dealloc, pieces_free}, {Py_tp_methods, methods}, {0, NULL}};
static PyType_Spec spec = {"dadofennel._native.Pieces", sizeof(Pieces), 0, Py_TPFLAGS_DEFAULT, slots};

static PyMethodDef functions[] = {
    {"stream", stream, METH_VARARGS, "Begins a stream of an owner: of matches, or of words."},
    {NULL, NULL, 0, NULL},
};

int pieces_ready(PyObject *module) {
    State *state = state_of(module);
    state->pieces_type = type_made(module, &spec, NULL);
    if (state->pieces_type == NULL || PyModule_AddFunctions(module, functions) < 0) return -1;
    return PyModule_AddIntConstant(module, "ROOM", ROOM) < 0 ? -1 : PyModule_AddIntConstant(module, "ALL_WORDS", ALL_WORDS);
}
