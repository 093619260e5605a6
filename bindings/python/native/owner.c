/* Automata of the library, and what an automaton of Python is made of. */
#include "native.h"

#include <stdlib.h>

static void owner_free(PyObject *self) {
    PyTypeObject *type = Py_TYPE(self);
    State *state = ((Owner *)self)->state;
    dado_free(&((Owner *)self)->handle);
    PyObject_Free(self);
    Py_DECREF(type);
    state_let_go(state);
}

static PyType_Slot owner_slots[] = {{Py_tp_new, not_by_hand}, {Py_tp_dealloc, owner_free}, {0, NULL}};
static PyType_Spec owner_spec = {"dadofennel._native.Owner", sizeof(Owner), 0, Py_TPFLAGS_DEFAULT, owner_slots};

/* ---- Building ---- */

/* The pairs that lie in some bytes, two bytes each. */
static dado_pair *pairs_of(PyObject *raw, size_t *count) {
    Py_ssize_t length = 0;
    char *at = NULL;
    dado_pair *pairs;
    size_t i;
    if (PyBytes_AsStringAndSize(raw, &at, &length) < 0) return NULL;
    *count = (size_t)length / 2;
    pairs = malloc((*count + 1) * sizeof *pairs);
    if (pairs == NULL) {
        PyErr_NoMemory();
        return NULL;
    }
    for (i = 0; i < *count; i++) pairs[i].a = (uint8_t)at[2 * i], pairs[i].b = (uint8_t)at[2 * i + 1];
    return pairs;
}

/* Where the bytes of each pattern are: in a tuple of `bytes`, which has to be kept. */
static dado_bytes *slices_of(PyObject *patterns, size_t count) {
    dado_bytes *slices = malloc((count + 1) * sizeof *slices);
    size_t i;
    if (slices == NULL) PyErr_NoMemory();
    for (i = 0; slices != NULL && i < count; i++) {
        char *at = NULL;
        Py_ssize_t length = 0;
        if (PyBytes_AsStringAndSize(PyTuple_GetItem(patterns, (Py_ssize_t)i), &at, &length) < 0) {
            free(slices);
            return NULL;
        }
        slices[i].at = (const uint8_t *)at, slices[i].len = (size_t)length;
    }
    return slices;
}

/* Builds, and gives the status, the owner, or None, and what is known of a fault. */
static PyObject *built(State *state, PyObject *patterns, const dado_settings *settings) {
    Py_ssize_t count = PyTuple_Size(patterns);
    dado_bytes *slices = count < 0 ? NULL : slices_of(patterns, (size_t)count);
    Owner *owner = slices == NULL ? NULL : PyObject_New(Owner, state->owner_type);
    dado_fault fault = {0, 0};
    dado_status status;
    if (owner == NULL) {
        free(slices);
        return NULL;
    }
    owner->state = state_held(state), owner->handle = NULL;
    Py_BEGIN_ALLOW_THREADS
    status = dado_build(slices, (size_t)count, settings, &owner->handle, &fault);
    Py_END_ALLOW_THREADS
    free(slices);
    if (status == DADO_OK) return Py_BuildValue("INII", (unsigned)status, (PyObject *)owner, 0, 0);
    Py_DECREF(owner);
    return Py_BuildValue("IOKI", (unsigned)status, Py_None, (unsigned long long)fault.count, (unsigned)fault.pattern);
}

/* Takes a size, if there is one. */
static int take_size(PyObject *given, size_t *size) {
    if (given == Py_None) return 0;
    *size = PyLong_AsSize_t(given);
    return *size == SIZE_MAX && PyErr_Occurred() ? -1 : 0;
}

static PyObject *build(PyObject *module, PyObject *given) {
    PyObject *patterns, *raw, *result;
    dado_settings settings = dado_settings_default();
    unsigned kind, start_kind, engine;
    int fold, prefilter, byte_classes;
    PyObject *depth, *memory;
    dado_pair *pairs;
    if (!PyArg_ParseTuple(given, "O!IIIpppOOS", &PyTuple_Type, &patterns, &kind, &start_kind, &engine, &fold, &prefilter, &byte_classes,
                          &depth, &memory, &raw))
        return NULL;
    if (take_size(depth, &settings.dense_depth) < 0 || take_size(memory, &settings.row_memory) < 0) return NULL;
    pairs = pairs_of(raw, &settings.pair_count);
    if (pairs == NULL) return NULL;
    settings.kind = kind, settings.start_kind = start_kind, settings.engine = engine;
    settings.fold = (uint32_t)fold, settings.prefilter = (uint32_t)prefilter, settings.byte_classes = (uint32_t)byte_classes;
    settings.pairs = pairs;
    result = built(state_of(module), patterns, &settings);
    free(pairs);
    return result;
}

/* ---- What a core is ---- */

static void core_free(PyObject *self) {
    PyTypeObject *type = Py_TYPE(self);
    Core *core = (Core *)self;
    freefunc free_memory = (freefunc)PyType_GetSlot(type, Py_tp_free);
    Py_CLEAR(core->plain);
    Py_CLEAR(core->coded);
    Py_CLEAR(core->table);
    free_memory(self);
    Py_DECREF(type);
}

int is_core(PyObject *it) { return is_freed_by(it, core_free); }

/* Takes the codes of characters: the table, the code of all others, and whether Latin-1 is its own code. */
static int take_codes(Core *core, PyObject *codes) {
    PyObject *table;
    unsigned char other;
    int are_ascii, are_latin;
    char *at;
    Py_ssize_t length;
    if (codes == Py_None) return 0;
    if (!PyArg_ParseTuple(codes, "Sbpp", &table, &other, &are_ascii, &are_latin)) return -1;
    if (PyBytes_AsStringAndSize(table, &at, &length) < 0) return -1;
    Py_INCREF(table);
    core->table = table, core->codes = (const uint8_t *)at, core->code_count = (size_t)length;
    core->other = other, core->are_latin = are_latin;
    if (are_ascii) {
        Py_INCREF(core->plain);
        core->coded = core->plain;
    }
    return 0;
}

/* Takes an automaton, and what it says of itself; and what it can't say: whether the patterns are `str`, how many characters the longest
 * has, and how many of them are unlike. */
static int take_plain(Core *core, PyObject *plain, int text, Py_ssize_t longest, Py_ssize_t distinct) {
    const dado_automaton *ac = ((Owner *)plain)->handle;
    size_t count = dado_pattern_count(ac), most = dado_longest(ac);
    if (text < -1 || text > 1 || longest < 0 || (size_t)longest > most || (longest == 0) != (most == 0) || distinct < 0 ||
        (size_t)distinct > count) {
        PyErr_SetString(PyExc_ValueError, "the automaton has no such patterns");
        return -1;
    }
    core->text = text, core->longest = (size_t)longest, core->count = count, core->distinct = (size_t)distinct;
    core->kind = dado_kind(ac), core->start_kind = dado_start_kind(ac), core->any_empty = dado_shortest(ac) == 0;
    Py_INCREF(plain);
    core->plain = (Owner *)plain;
    return 0;
}

/* Sets what searches ask for, once. */
static PyObject *core_begin(PyObject *self, PyObject *given) {
    Core *core = (Core *)self;
    PyObject *plain, *codes;
    int text;
    Py_ssize_t longest, distinct;
    if (core->plain != NULL) {
        PyErr_SetString(PyExc_TypeError, "it was begun before");
        return NULL;
    }
    if (!PyArg_ParseTuple(given, "OinnO", &plain, &text, &longest, &distinct, &codes)) return NULL;
    if (!is_freed_by(plain, owner_free)) {
        wrong_type("plain", plain, "an automaton of the library");
        return NULL;
    }
    if (take_plain(core, plain, text, longest, distinct) < 0 || take_codes(core, codes) < 0) return NULL;
    Py_RETURN_NONE;
}

int is_begun(const Core *core) {
    if (core->plain != NULL) return 1;
    PyErr_SetString(PyExc_TypeError, "the core was not begun");
    return 0;
}

Core *core_given(PyObject *module, PyObject *it) {
    if (PyObject_TypeCheck(it, state_of(module)->core_type)) return is_begun((Core *)it) ? (Core *)it : NULL;
    wrong_type("core", it, "the core of an automaton");
    return NULL;
}

static PyObject *core_engine(PyObject *self, PyObject *none) {
    (void)none;
    return is_begun((Core *)self) ? PyLong_FromUnsignedLong(dado_engine(((Core *)self)->plain->handle)) : NULL;
}

static PyObject *core_memory(PyObject *self, PyObject *none) {
    (void)none;
    return is_begun((Core *)self) ? PyLong_FromSize_t(dado_memory(((Core *)self)->plain->handle)) : NULL;
}

static PyObject *core_coded(PyObject *self, PyObject *text) {
    Core *core = (Core *)self;
    Characters of;
    PyObject *made;
    if (!PyUnicode_Check(text) || core->table == NULL) {
        PyErr_SetString(PyExc_TypeError, "there are codes for str alone");
        return NULL;
    }
    if (characters_of(text, &of) < 0) return NULL;
    made = PyBytes_FromStringAndSize(NULL, (Py_ssize_t)of.len);
    if (made != NULL && of.len != 0 && copy_codes(core, text, &of, 0, of.len, (uint8_t *)PyBytes_AsString(made)) < 0) Py_CLEAR(made);
    return made;
}

static PyObject *core_serves(PyObject *self, PyObject *anchored) {
    int is_anchored = is_true(anchored);
    if (is_anchored < 0 || !is_begun((Core *)self) || serves((Core *)self, is_anchored) < 0) return NULL;
    Py_RETURN_NONE;
}

static PyMethodDef core_methods[] = {
    {"begin", core_begin, METH_VARARGS, "Sets what searches ask for, once."},
    {"texts", core_texts, METH_O, "The replacements as a tuple, one for each pattern."},
    {"serves", core_serves, METH_O, "Raises an `Error` where it wasn't built for searches that are anchored so."},
    {"engine", core_engine, METH_NOARGS, "The number of the engine that searches."},
    {"memory", core_memory, METH_NOARGS, "About how many bytes the automaton takes."},
    {"coded", core_coded, METH_O, "The codes of a text's characters, as bytes."},
    {NULL, NULL, 0, NULL},
};

static PyType_Slot core_slots[] = {{Py_tp_dealloc, core_free}, {Py_tp_methods, core_methods}, {0, NULL}};
static PyType_Spec core_spec = {"dadofennel._native.Core", sizeof(Core), 0, Py_TPFLAGS_DEFAULT | Py_TPFLAGS_BASETYPE, core_slots};

int serves(const Core *core, int anchored) {
    if (anchored && core->start_kind == DADO_UNANCHORED) return refuse(STATE(core), DADO_NOT_ANCHORED);
    if (!anchored && core->start_kind == DADO_ANCHORED) return refuse(STATE(core), DADO_NOT_UNANCHORED);
    return 0;
}

int serves_listing(const Core *core) { return core->kind != DADO_STANDARD ? refuse(STATE(core), DADO_NOT_STANDARD) : serves(core, 0); }

int serves_words(const Core *core) {
    if (serves(core, 0) < 0) return -1;
    if (core->kind != DADO_STANDARD) return refuse(STATE(core), DADO_NOT_STANDARD);
    return core->any_empty ? refuse(STATE(core), DADO_EMPTY_PATTERN) : 0;
}

/* Python's part of a core makes it: one thread does, and others wait. */
Owner *coded_of(Core *core) {
    PyObject *made;
    if (core->coded != NULL) return core->coded;
    made = PyObject_CallMethod((PyObject *)core, "by_codes", NULL);
    if (made == NULL) return NULL;
    if (!is_freed_by(made, owner_free)) {
        PyErr_SetString(PyExc_TypeError, "by_codes gave no automaton");
        Py_DECREF(made);
        return NULL;
    }
    if (core->coded == NULL) core->coded = (Owner *)made;
    else Py_DECREF(made); /* another thread has set the same one */
    return core->coded;
}

/* ---- The module's part ---- */

static PyMethodDef functions[] = {
    {"build", build, METH_VARARGS, "Builds an automaton: gives the status, its owner, and the count and pattern of a fault."},
    {NULL, NULL, 0, NULL},
};

int owners_ready(PyObject *module) {
    State *state = state_of(module);
    state->owner_type = type_made(module, &owner_spec, "Owner");
    state->core_type = type_made(module, &core_spec, "Core");
    return state->owner_type == NULL || state->core_type == NULL ? -1 : PyModule_AddFunctions(module, functions);
}
