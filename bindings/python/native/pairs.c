/* The pairs of a search by the names of pyahocorasick, in a short text: they are found when the search begins. Longer texts, white space
 * that is left out, and strings that follow one another are `dadofennel.ahocorasick`'s. */
#include "native.h"

#include <stddef.h>
#include <string.h>

/* Says that the words of an automaton have changed, which ends the searches for them. */
typedef struct {
    PyObject_HEAD
    int is_over;
} Change;

/* Pairs of the place of a match's last character, and the value of its word. Once there is `after`, that gives the pairs. */
typedef struct {
    PyObject_VAR_HEAD
    State *state;                 /* held */
    Change *change;
    PyObject *values, *given, *after;
    Py_ssize_t next, count;
    int has_ended;                /* whether it was asked for more than there are */
    dado_match at[1];
} Pairs;

static PyObject *change_end(PyObject *self, PyObject *none) {
    (void)none;
    ((Change *)self)->is_over = 1;
    Py_RETURN_NONE;
}

static void change_free(PyObject *self) {
    PyTypeObject *type = Py_TYPE(self);
    freefunc free_memory = (freefunc)PyType_GetSlot(type, Py_tp_free);
    free_memory(self);
    Py_DECREF(type);
}

static PyMethodDef change_methods[] = {{"end", change_end, METH_NOARGS, "The words have changed."}, {NULL, NULL, 0, NULL}};
static PyType_Slot change_slots[] = {{Py_tp_dealloc, change_free}, {Py_tp_methods, change_methods}, {0, NULL}};
static PyType_Spec change_spec = {"dadofennel._native.Change", sizeof(Change), 0, Py_TPFLAGS_DEFAULT, change_slots};

static int is_valid(const Pairs *it) {
    if (!it->change->is_over) return 1;
    PyErr_SetString(PyExc_ValueError, "underlaying automaton has changed, iterator is not valid anymore");
    return 0;
}

/* The next pair of what gives them now. Its method is called, so that one which leads back to these pairs is a `RecursionError`. It is held,
 * since the call may put another one in its place. */
static PyObject *next_after(const Pairs *it) {
    PyObject *after = it->after, *pair;
    Py_INCREF(after);
    pair = PyObject_CallMethod(after, "__next__", NULL);
    Py_DECREF(after);
    return pair;
}

static PyObject *pairs_next(PyObject *self) {
    Pairs *it = (Pairs *)self;
    PyObject *value, *place, *pair;
    const dado_match *found;
    if (it->after != NULL) return next_after(it);
    if (!is_valid(it)) return NULL;
    if (it->next == it->count) {
        it->has_ended = 1;
        return NULL;
    }
    found = &it->at[it->next++];
    value = PyList_GetItem(it->values, (Py_ssize_t)found->pattern);
    place = value == NULL ? NULL : PyLong_FromLong((long)found->end - 1);
    pair = place == NULL ? NULL : PyTuple_New(2);
    if (pair == NULL) {
        Py_XDECREF(place);
        return NULL;
    }
    Py_INCREF(value);
    PyTuple_SetItem(pair, 0, place);
    PyTuple_SetItem(pair, 1, value);
    return pair;
}

static PyObject *pairs_iter(PyObject *self) {
    if (((Pairs *)self)->after == NULL && !is_valid((Pairs *)self)) return NULL;
    Py_INCREF(self);
    return self;
}

/* What it was made of, what gives the pairs now, how many it has given before that, and whether it was asked for more. */
static PyObject *pairs_state(PyObject *self, PyObject *none) {
    Pairs *it = (Pairs *)self;
    (void)none;
    return Py_BuildValue("OOni", it->given, it->after == NULL ? Py_None : it->after, it->next, it->has_ended);
}

static PyObject *pairs_go_on(PyObject *self, PyObject *after) {
    PyObject *before = ((Pairs *)self)->after;
    if (Py_TYPE(after) == Py_TYPE(self)) {
        wrong_type("after", after, "another search");
        return NULL;
    }
    Py_INCREF(after);
    ((Pairs *)self)->after = after;
    Py_XDECREF(before);
    Py_RETURN_NONE;
}

/* Goes on with another string: Python's part does it, by a search of its own. */
static PyObject *pairs_set(PyObject *self, PyObject *args, PyObject *named) {
    static char *names[] = {"string", "reset", NULL};
    PyObject *string, *reset = Py_False, *set = ((Pairs *)self)->state->set_function, *done;
    if (!PyArg_ParseTupleAndKeywords(args, named, "O|O:set", names, &string, &reset)) return NULL;
    if (set == NULL) {
        PyErr_SetString(PyExc_RuntimeError, "the module has nothing that sets a string");
        return NULL;
    }
    Py_INCREF(set);
    done = PyObject_CallFunctionObjArgs(set, self, string, reset, NULL);
    Py_DECREF(set);
    return done;
}

static int pairs_visit(PyObject *self, visitproc visit, void *arg) {
    Pairs *it = (Pairs *)self;
    Py_VISIT(Py_TYPE(self));
    Py_VISIT(it->state->module);
    Py_VISIT(it->values);
    Py_VISIT(it->given);
    Py_VISIT(it->after);
    return 0;
}

static int pairs_clear(PyObject *self) {
    Pairs *it = (Pairs *)self;
    it->next = it->count;
    Py_CLEAR(it->given);
    Py_CLEAR(it->after);
    return 0;
}

static void pairs_free(PyObject *self) {
    PyTypeObject *type = Py_TYPE(self);
    State *state = ((Pairs *)self)->state;
    PyObject_GC_UnTrack(self);
    pairs_clear(self);
    Py_CLEAR(((Pairs *)self)->values);
    Py_CLEAR(((Pairs *)self)->change);
    PyObject_GC_Del(self);
    Py_DECREF(type);
    state_let_go(state);
}

static PyMethodDef pairs_methods[] = {
    {"state", pairs_state, METH_NOARGS, "What it was made of, what gives the pairs now, how many it gave, and whether more were asked for."},
    {"go_on", pairs_go_on, METH_O, "Lets another search give the pairs."},
    {"set", (PyCFunction)(void (*)(void))pairs_set, METH_VARARGS | METH_KEYWORDS,
     "set($self, string, reset=False)\n--\n\nGoes on with another string, as if it followed what was searched so far."},
    {NULL, NULL, 0, NULL},
};
static PyType_Slot pairs_slots[] = {{Py_tp_new, not_by_hand},       {Py_tp_dealloc, pairs_free}, {Py_tp_traverse, pairs_visit},
                                    {Py_tp_clear, pairs_clear},     {Py_tp_iter, pairs_iter},    {Py_tp_iternext, pairs_next},
                                    {Py_tp_methods, pairs_methods}, {0, NULL}};
static PyType_Spec pairs_spec = {"dadofennel._native.Pairs", offsetof(Pairs, at), sizeof(dado_match),
                                 Py_TPFLAGS_DEFAULT | Py_TPFLAGS_HAVE_GC, pairs_slots};

/* ---- Beginning ---- */

/* How many pairs are found at once, at most. */
enum { MOST = 256 };

static PyObject *pairs_of(Change *change, PyObject *values, PyObject *given, const Haystack *text, const dado_match *found, size_t count) {
    State *state = STATE(text->core);
    Pairs *made = PyObject_GC_NewVar(Pairs, state->pairs_type, (Py_ssize_t)count);
    size_t i;
    if (made == NULL) return NULL;
    made->state = state_held(state);
    Py_INCREF(change), Py_INCREF(values), Py_INCREF(given);
    made->change = change, made->values = values, made->given = given, made->after = NULL;
    made->next = 0, made->count = (Py_ssize_t)count, made->has_ended = 0;
    for (i = 0; i < count; i++) made->at[i] = found[i], made->at[i].end += text->shift;
    PyObject_GC_Track(made);
    return (PyObject *)made;
}

/* The pairs of a short text, or `None` where it is longer, or has more of them. */
static PyObject *pairs(PyObject *module, PyObject *const *args, Py_ssize_t count) {
    uint8_t near[SHORT];
    dado_match found[MOST];
    Haystack text;
    Going going;
    size_t written = 0;
    const Owner *owner;
    Core *core;
    PyObject *made = NULL;
    int listed;
    dado_status status = DADO_NONE;
    const State *state = state_of(module);
    if (count != 8 || Py_TYPE(args[1]) != state->change_type || !PyList_Check(args[2])) {
        PyErr_SetString(PyExc_TypeError, "pairs are of a core, a change, values, what was given, a text, two bounds and a truth value");
        return NULL;
    }
    core = core_given(module, args[0]), listed = args[7] == Py_True;
    if (core == NULL) return NULL;
    if ((listed ? serves_listing(core) : serves(core, 0)) < 0) return NULL;
    if (haystack_of(&text, core, args[4], args[5], args[6], PARTS, near) < 0) return NULL;
    begin(&going, listed ? OCCURRENCES : MATCHES, 0, &text, 0, 0);
    owner = text.len <= SHORT && is_last_part(&text) ? searcher_of(&text) : NULL;
    if (owner != NULL) status = some(owner->handle, &going, &text, found, MOST, &written);
    if (owner != NULL && status <= DADO_NONE && text.is_counted)
        status = dado_in_characters(text.at, text.len, &text.counted, found, &written);
    if (status > DADO_NONE) refuse(state, status);
    else if (owner != NULL && written < MOST) made = pairs_of((Change *)args[1], args[2], args[3], &text, found, written);
    else if (!PyErr_Occurred()) made = Py_None, Py_INCREF(made);
    release(&text);
    return made;
}

/* Takes the function that sets another string. */
static PyObject *use_set(PyObject *module, PyObject *function) {
    State *state = state_of(module);
    PyObject *before = state->set_function;
    Py_INCREF(function);
    state->set_function = function;
    Py_XDECREF(before);
    Py_RETURN_NONE;
}

static PyMethodDef functions[] = {
    {"pairs", QUICK(pairs), METH_FASTCALL, "The pairs of a short text, or None."},
    {"use_set", use_set, METH_O, "Takes the function that sets another string."},
    {NULL, NULL, 0, NULL},
};

int pairs_ready(PyObject *module) {
    State *state = state_of(module);
    state->change_type = type_made(module, &change_spec, "Change");
    state->pairs_type = type_made(module, &pairs_spec, "Pairs");
    return state->change_type == NULL || state->pairs_type == NULL ? -1 : PyModule_AddFunctions(module, functions);
}
