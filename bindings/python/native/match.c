/* Matches: tuples of three numbers, each with a reference to the text that was searched. */
#include "native.h"

/* The type that `Match` is derived from is a tuple that has a place for one reference more, after its items. Each object of the type has
 * that place, however it was made, since the type's basic size counts it. It is NULL where no text is held. */

/* How far after its beginning a tuple has its items. */
static size_t items_at;

enum { NUMBERS = 3 };

static PyObject **items_of(PyObject *tuple) { return (PyObject **)((char *)tuple + items_at); }
static PyObject **text_at(PyObject *tuple) { return items_of(tuple) + Py_SIZE(tuple); }

/* ---- Making them ---- */

static PyObject *number(size_t it) { return it <= LONG_MAX ? PyLong_FromLong((long)it) : PyLong_FromSize_t(it); }

static int numbers_of(const dado_match *it, size_t shift, PyObject **out) {
    int i;
    out[0] = number(it->pattern), out[1] = number(it->start + shift), out[2] = number(it->end + shift);
    if (out[0] != NULL && out[1] != NULL && out[2] != NULL) return 0;
    for (i = 0; i < NUMBERS; i++) Py_XDECREF(out[i]);
    return -1;
}

int is_plain(PyObject *text) { return PyUnicode_CheckExact(text) || PyBytes_CheckExact(text) || PyByteArray_CheckExact(text); }

/* A match, whose memory is set here. The numbers and a plain text lead nowhere, so then the collector needn't look at it. */
static PyObject *made_at_once(const State *state, PyObject *const *numbers, PyObject *text) {
    PyObject *made = (PyObject *)PyObject_GC_NewVar(PyVarObject, state->match_type, NUMBERS), **items;
    int i;
    if (made == NULL) return NULL;
    for (items = items_of(made), i = 0; i < NUMBERS; i++) items[i] = numbers[i];
    Py_XINCREF(text);
    items[NUMBERS] = text;
    if (text != NULL && !is_plain(text)) PyObject_GC_Track(made);
    return made;
}

static PyObject *made_by_call(const State *state, PyObject *const *numbers, PyObject *text) {
    PyObject *made = NULL, *plain = PyTuple_New(NUMBERS);
    int i;
    if (plain == NULL) return NULL;
    for (i = 0; i < NUMBERS; i++) Py_INCREF(numbers[i]), PyTuple_SetItem(plain, i, numbers[i]);
    made = PyObject_CallFunctionObjArgs(state->tuple_new, (PyObject *)state->match_type, plain, NULL);
    Py_DECREF(plain);
    if (made == NULL) return NULL;
    for (i = 0; i < NUMBERS; i++) Py_DECREF(numbers[i]);
    Py_XINCREF(text);
    *text_at(made) = text;
    return made;
}

/* Whether there is a type of matches; else that is what was raised. */
static int has_match_type(const State *state) {
    if (state->match_type != NULL) return 1;
    PyErr_SetString(PyExc_RuntimeError, "the module has no type of matches");
    return 0;
}

PyObject *match_of(const State *state, const dado_match *it, size_t shift, PyObject *text) {
    PyObject *numbers[NUMBERS], *made;
    int i;
    if (!has_match_type(state) || numbers_of(it, shift, numbers) < 0) return NULL;
    made = state->at_once ? made_at_once(state, numbers, text) : made_by_call(state, numbers, text);
    if (made == NULL)
        for (i = 0; i < NUMBERS; i++) Py_DECREF(numbers[i]);
    return made;
}

/* ---- What they say ---- */

/* What lies in a text from one place to another; of what lends its bytes as `bytes`. */
static PyObject *piece_of(PyObject *text, Py_ssize_t start, Py_ssize_t end) {
    Py_buffer lent;
    PyObject *piece;
    if (PyUnicode_Check(text)) return PyUnicode_Substring(text, start, end);
    if (PyObject_GetBuffer(text, &lent, PyBUF_SIMPLE) < 0) return NULL;
    if (end > lent.len) end = lent.len; /* it was made shorter since */
    if (end < 0) end = 0;               /* a match that was made by hand has any places */
    if (start > end) start = end;
    if (start < 0) start = 0;
    piece = PyBytes_FromStringAndSize((const char *)lent.buf + start, end - start);
    PyBuffer_Release(&lent);
    return piece;
}

/* What matched. The text may be a pair of a part of it and the place where that begins. */
static PyObject *held_text(PyObject *self, void *unused) {
    PyObject *text = *text_at(self);
    Py_ssize_t start, end, from = 0;
    (void)unused;
    if (text == NULL || Py_SIZE(self) != NUMBERS) {
        PyErr_SetString(PyExc_ValueError, "the match holds no text: it is of a stream, was made by a call, or was pickled");
        return NULL;
    }
    if (PyTuple_CheckExact(text)) from = PyLong_AsSsize_t(PyTuple_GetItem(text, 1)), text = PyTuple_GetItem(text, 0);
    start = PyLong_AsSsize_t(items_of(self)[1]), end = PyLong_AsSsize_t(items_of(self)[2]);
    if (PyErr_Occurred()) return NULL;
    return piece_of(text, (Py_ssize_t)((size_t)start - (size_t)from), (Py_ssize_t)((size_t)end - (size_t)from));
}

static PyObject *held_group(PyObject *self, PyObject *args) {
    Py_ssize_t group = 0;
    if (!PyArg_ParseTuple(args, "|n:group", &group)) return NULL;
    if (group == 0) return held_text(self, NULL);
    PyErr_SetString(PyExc_IndexError, "no such group: a match has the group 0 alone, which is what matched");
    return NULL;
}

/* Gives a match a part of a text to hold, and the place where that begins. */
static PyObject *hold(PyObject *module, PyObject *args) {
    PyObject *match, *part, *before, *at;
    const State *state = state_of(module);
    if (!has_match_type(state) || !PyArg_ParseTuple(args, "O!OO!", state->match_type, &match, &part, &PyLong_Type, &at)) return NULL;
    part = PyTuple_Pack(2, part, at);
    if (part == NULL) return NULL;
    before = *text_at(match), *text_at(match) = part;
    Py_XDECREF(before);
    PyObject_GC_UnTrack(match); /* whether or not it is tracked */
    PyObject_GC_Track(match);
    Py_INCREF(match);
    return match;
}

/* ---- The type ---- */

static int held_visit(PyObject *self, visitproc visit, void *arg) {
    PyObject **items = items_of(self);
    Py_ssize_t i;
    if (visits_type) Py_VISIT(Py_TYPE(self));
    for (i = 0; i <= Py_SIZE(self); i++) Py_VISIT(items[i]);
    return 0;
}

static int held_clear(PyObject *self) {
    Py_CLEAR(*text_at(self));
    return 0;
}

static void held_free(PyObject *self) {
    PyTypeObject *type = Py_TYPE(self);
    PyObject **items = items_of(self);
    Py_ssize_t i;
    PyObject_GC_UnTrack(self);
    for (i = Py_SIZE(self); i >= 0; i--) Py_XDECREF(items[i]);
    PyObject_GC_Del(self);
    Py_DECREF(type);
}

static PyGetSetDef fields[] = {
    {"text", held_text, NULL,
     "What matched: a part of the text that was searched, as `str`, or as `bytes`.\n\n"
     "A match holds that text. Bytes that have changed since are given as they are now. Raises `ValueError` where none is held: of a\n"
     "stream, and where the match was pickled or made by a call.",
     NULL},
    {NULL, NULL, NULL, NULL, NULL},
};
static PyMethodDef methods[] = {
    {"group", held_group, METH_VARARGS, "group($self, group=0, /)\n--\n\nWhat matched, as `text` has it: the group 0, as `re` numbers them."},
    {NULL, NULL, 0, NULL},
};
static PyType_Slot slots[] = {{Py_tp_dealloc, held_free}, {Py_tp_traverse, held_visit}, {Py_tp_clear, held_clear},
                              {Py_tp_getset, fields},     {Py_tp_methods, methods},     {0, NULL}};

/* Whether a match that is made at once is as one that a call makes. From CPython 3.14 on a tuple has more than its size and its items. */
static int is_as_called(State *state) {
    static const dado_match sample = {1000, 2000, 3};
    PyObject *made, *called;
    int same = -1;
    state->at_once = 0, called = match_of(state, &sample, 0, NULL);
    state->at_once = 1, made = match_of(state, &sample, 0, NULL);
    if (called != NULL && made != NULL) same = PyObject_RichCompareBool(called, made, Py_EQ);
    if (same == 1) same = PyObject_Hash(called) == PyObject_Hash(made);
    Py_XDECREF(called), Py_XDECREF(made);
    return same;
}

static Py_ssize_t basic_size(PyObject *type) {
    PyObject *size = PyObject_GetAttrString(type, "__basicsize__");
    Py_ssize_t value = size == NULL ? -1 : PyLong_AsSsize_t(size);
    Py_XDECREF(size);
    return value;
}

/* Takes the type of matches, which must have nothing that its base hasn't. */
int take_match_type(State *state, PyObject *type) {
    PyTypeObject *before = state->match_type;
    int same = 0;
    if (!PyType_Check(type) || !PyType_IsSubtype((PyTypeObject *)type, state->held_type) ||
        basic_size(type) != basic_size((PyObject *)state->held_type)) {
        if (!PyErr_Occurred()) PyErr_SetString(PyExc_TypeError, "matches are of a type that is derived from Held, and has no more fields");
        return -1;
    }
    Py_INCREF(type);
    state->match_type = (PyTypeObject *)type;
    Py_XDECREF(before);
    if (items_at == sizeof(PyVarObject)) same = is_as_called(state);
    state->at_once = same == 1;
    return same < 0 ? -1 : 0;
}

static PyMethodDef functions[] = {
    {"hold", hold, METH_VARARGS, "Gives a match a part of a text, and the place where that begins."},
    {NULL, NULL, 0, NULL},
};

int matches_ready(PyObject *module) {
    PyType_Spec spec = {"dadofennel._native.Held", 0, sizeof(PyObject *), Py_TPFLAGS_DEFAULT | Py_TPFLAGS_BASETYPE | Py_TPFLAGS_HAVE_GC, slots};
    PyObject *bases = PyTuple_Pack(1, (PyObject *)&PyTuple_Type);
    Py_ssize_t size = basic_size((PyObject *)&PyTuple_Type);
    State *state = state_of(module);
    if (bases == NULL || size < 0) return -1;
    items_at = (size_t)size;
    spec.basicsize = (int)(items_at + sizeof(PyObject *));
    state->held_type = (PyTypeObject *)PyType_FromSpecWithBases(&spec, bases);
    state->tuple_new = PyObject_GetAttrString((PyObject *)&PyTuple_Type, "__new__");
    Py_DECREF(bases);
    if (state->held_type == NULL || state->tuple_new == NULL || PyModule_AddFunctions(module, functions) < 0) return -1;
    Py_INCREF(state->held_type);
    return PyModule_AddObject(module, "Held", (PyObject *)state->held_type);
}
