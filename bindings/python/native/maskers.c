/* A masker of the library: bytes are pushed to it, and it gives them masked. `dadofennel._masks` sees to it that one thread at a time is
 * in it; a second one is refused. */
#include "native.h"

#include <stddef.h>

typedef struct {
    PyObject_HEAD
    State *state;                 /* held */
    dado_masker *handle;
    int is_busy;                  /* a thread is in it */
} Masker;

static void masker_free(PyObject *self) {
    PyTypeObject *type = Py_TYPE(self);
    State *state = ((Masker *)self)->state;
    dado_masker_free(&((Masker *)self)->handle);
    PyObject_Free(self);
    Py_DECREF(type);
    state_let_go(state);
}

/* Begins a masker of a core, which masks every occurrence, or whole words, with a byte. */
static PyObject *masker(PyObject *module, PyObject *args) {
    PyObject *given;
    unsigned char byte;
    int words;
    Core *core;
    Masker *made;
    dado_status status;
    State *state = state_of(module);
    if (!PyArg_ParseTuple(args, "Obp", &given, &byte, &words) || (core = core_given(module, given)) == NULL) return NULL;
    made = PyObject_New(Masker, state->masker_type);
    if (made == NULL) return NULL;
    made->state = state_held(state), made->handle = NULL, made->is_busy = 0;
    status = (words ? dado_word_masker_new : dado_masker_new)(core->plain->handle, byte, &made->handle);
    if (status == DADO_OK) return (PyObject *)made;
    Py_DECREF(made);
    refuse(state, status);
    return NULL;
}

/* Adds the bytes that are ready to a list. */
static int add_ready(Masker *it, PyObject *list) {
    dado_bytes slice;
    dado_status status = dado_masker_ready(&it->handle, &slice);
    PyObject *bytes;
    int done;
    if (status != DADO_OK) return refuse(it->state, status);
    bytes = PyBytes_FromStringAndSize((const char *)slice.at, (Py_ssize_t)slice.len);
    done = bytes == NULL ? -1 : PyList_Append(list, bytes);
    Py_XDECREF(bytes);
    return done;
}

static int push_all(Masker *it, const uint8_t *at, size_t len, PyObject *list) {
    size_t from = 0, taken;
    do {
        dado_status status;
        UNLOCKED(len - from, status = dado_masker_push(&it->handle, len ? at + from : NULL, len - from, &taken));
        if (status != DADO_OK) return refuse(it->state, status);
        if (add_ready(it, list) < 0) return -1;
        from += taken;
    } while (from < len);
    return 0;
}

/* A list, if no other thread is in it; else NULL with an exception. */
static PyObject *list_of(const Masker *it) {
    if (!it->is_busy) return PyList_New(0);
    PyErr_SetString(PyExc_RuntimeError, "another thread is in the masker");
    return NULL;
}

/* The bytes that are ready after a piece was pushed, as a list. */
static PyObject *masker_push(PyObject *self, PyObject *piece) {
    Masker *it = (Masker *)self;
    Py_buffer lent;
    PyObject *list;
    if (PyObject_GetBuffer(piece, &lent, PyBUF_SIMPLE) < 0) return NULL;
    list = list_of(it);
    if (list != NULL) {
        it->is_busy = 1;
        if (push_all(it, lent.buf, (size_t)lent.len, list) < 0) Py_CLEAR(list);
        it->is_busy = 0;
    }
    PyBuffer_Release(&lent);
    return list;
}

static PyObject *masker_finish(PyObject *self, PyObject *none) {
    Masker *it = (Masker *)self;
    PyObject *list = list_of(it);
    dado_status status;
    (void)none;
    if (list == NULL) return NULL;
    status = dado_masker_finish(&it->handle);
    if (status != DADO_OK) refuse(it->state, status);
    if (status != DADO_OK || add_ready(it, list) < 0) Py_CLEAR(list);
    return list;
}

static PyMethodDef methods[] = {
    {"push", masker_push, METH_O, "Takes a piece, and gives the bytes that are ready, as a list."},
    {"finish", masker_finish, METH_NOARGS, "Ends the text, and gives the bytes that are left, as a list."},
    {NULL, NULL, 0, NULL},
};
static PyType_Slot slots[] = {{Py_tp_new, not_by_hand}, {Py_tp_dealloc, masker_free}, {Py_tp_methods, methods}, {0, NULL}};
static PyType_Spec spec = {"dadofennel._native.Masker", sizeof(Masker), 0, Py_TPFLAGS_DEFAULT, slots};

static PyMethodDef functions[] = {
    {"masker", masker, METH_VARARGS, "Begins a masker of a core, which masks every occurrence, or whole words, with a byte."},
    {"starred", starred, METH_VARARGS, "A text with stars, of its UTF-8 and of that with COVERED where it is masked."},
    {NULL, NULL, 0, NULL},
};

int maskers_ready(PyObject *module) {
    State *state = state_of(module);
    state->masker_type = type_made(module, &spec, NULL);
    if (state->masker_type == NULL || PyModule_AddIntConstant(module, "COVERED", COVERED) < 0) return -1;
    return PyModule_AddFunctions(module, functions);
}
