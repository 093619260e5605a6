/* The module, what it raises, and the arguments of its calls. */
#include "native.h"

int visits_type;

/* ---- What a module has ---- */

State *state_of(PyObject *module) { return (State *)PyModule_GetState(module); }

State *state_held(State *it) {
    Py_INCREF(it->module);
    return it;
}

void state_let_go(State *it) {
    if (it != NULL) Py_DECREF(it->module);
}

static int state_visit(PyObject *module, visitproc visit, void *arg) {
    State *it = state_of(module);
    if (it == NULL) return 0; /* it isn't made yet */
#define FIELD(type, name) Py_VISIT(it->name);
    STATE_FIELDS(FIELD)
#undef FIELD
    return 0;
}

/* Lets go of what is of Python, by which alone a module may be held by what it holds. */
static int state_clear(PyObject *module) {
    State *it = state_of(module);
    if (it == NULL) return 0;
    Py_CLEAR(it->match_type);
    Py_CLEAR(it->error_type);
    Py_CLEAR(it->set_function);
    return 0;
}

static void state_free(void *module) {
    State *it = state_of((PyObject *)module);
    if (it == NULL) return;
#define FIELD(type, name) Py_CLEAR(it->name);
    STATE_FIELDS(FIELD)
#undef FIELD
}

PyTypeObject *type_made(PyObject *module, PyType_Spec *spec, const char *name) {
    PyObject *type = PyType_FromSpec(spec);
    if (type == NULL || name == NULL) return (PyTypeObject *)type;
    Py_INCREF(type);
    if (PyModule_AddObject(module, name, type) == 0) return (PyTypeObject *)type;
    Py_DECREF(type), Py_DECREF(type);
    return NULL;
}

PyObject *not_by_hand(PyTypeObject *type, PyObject *args, PyObject *named) {
    (void)args, (void)named;
    PyErr_Format(PyExc_TypeError, "%S is made by calls of dadofennel alone", (PyObject *)type);
    return NULL;
}

int is_freed_by(PyObject *it, destructor free_it) {
    PyTypeObject *type = Py_TYPE(it);
    while (type != NULL && (PyType_GetFlags(type) & Py_TPFLAGS_HEAPTYPE) != 0) {
        if ((destructor)PyType_GetSlot(type, Py_tp_dealloc) == free_it) return 1;
        type = (PyTypeObject *)PyType_GetSlot(type, Py_tp_base);
    }
    return 0;
}

/* ---- What it raises ---- */

int no_memory(void) {
    PyErr_SetString(PyExc_MemoryError, dado_error_text(DADO_NO_MEMORY));
    return -1;
}

int refuse(const State *state, dado_status status) {
    PyObject *given, *type = state->error_type == NULL ? PyExc_RuntimeError : state->error_type;
    if (status == DADO_NO_MEMORY) return no_memory();
    Py_INCREF(type); /* its `__init__` is of Python, and may do anything */
    given = PyLong_FromUnsignedLong(status);
    if (given != NULL) PyErr_SetObject(type, given);
    Py_XDECREF(given);
    Py_DECREF(type);
    return -1;
}

int wrong_type(const char *name, PyObject *it, const char *wanted) {
    PyObject *type = PyObject_GetAttrString((PyObject *)Py_TYPE(it), "__name__");
    if (it == Py_None) PyErr_Format(PyExc_TypeError, "%s is None, and not %s", name, wanted);
    else if (type != NULL) PyErr_Format(PyExc_TypeError, "%s is of type %S, and not %s", name, type, wanted); /* `__name__` may be anything */
    Py_XDECREF(type);
    return -1;
}

/* ---- Arguments ---- */

int is_true(PyObject *it) {
    if (it == NULL || it == Py_False) return 0;
    return it == Py_True ? 1 : PyObject_IsTrue(it);
}

/* Which parameter a keyword names; -1 with an exception. */
static int place_of(const Signature *it, PyObject *name) {
    int i;
    for (i = 0; i < it->count; i++)
        if (PyUnicode_CompareWithASCIIString(name, it->names[i]) == 0) return i;
    PyErr_Format(PyExc_TypeError, "%s() got an unexpected keyword argument '%U'", it->call, name);
    return -1;
}

static int by_names(const Signature *it, PyObject *const *given, PyObject *names, PyObject **out) {
    Py_ssize_t i, count = PyTuple_Size(names);
    for (i = 0; i < count; i++) {
        int place = place_of(it, PyTuple_GetItem(names, i));
        if (place < 0) return -1;
        if (out[place] != NULL) {
            PyErr_Format(PyExc_TypeError, "%s() got multiple values for argument '%s'", it->call, it->names[place]);
            return -1;
        }
        out[place] = given[i];
    }
    return 0;
}

/* What is wrong with so many arguments, by place and by name. */
static int check_count(const Signature *it, Py_ssize_t count, PyObject *const *out) {
    int i;
    if (count > it->positional) {
        PyErr_Format(PyExc_TypeError, "%s() takes at most %d positional arguments, and %zd were given", it->call, it->positional, count);
        return -1;
    }
    for (i = 0; i < it->needed; i++)
        if (out[i] == NULL) {
            PyErr_Format(PyExc_TypeError, "%s() missing the argument '%s'", it->call, it->names[i]);
            return -1;
        }
    return 0;
}

int arguments_of(const Signature *it, PyObject *const *given, Py_ssize_t count, PyObject *names, PyObject **out) {
    int i, by_place = count < it->positional ? (int)count : it->positional;
    for (i = 0; i < by_place; i++) out[i] = given[i];
    for (; i < it->count; i++) out[i] = NULL;
    if (names == NULL && count >= it->needed && count <= it->positional) return 0;
    if (names != NULL && by_names(it, given + count, names, out) < 0) return -1;
    return check_count(it, count, out);
}

/* ---- The module ---- */

/* Takes the types that the calls make: `Match` and `Error`. */
static PyObject *use(PyObject *module, PyObject *types) {
    PyObject *match, *error, *before;
    State *state = state_of(module);
    if (!PyArg_ParseTuple(types, "OO", &match, &error) || take_match_type(state, match) < 0) return NULL;
    Py_INCREF(error);
    before = state->error_type;
    state->error_type = error;
    Py_XDECREF(before);
    Py_RETURN_NONE;
}

static PyObject *error_text(PyObject *module, PyObject *status) {
    unsigned long value = PyLong_AsUnsignedLong(status);
    (void)module;
    if (value == (unsigned long)-1 && PyErr_Occurred()) return NULL;
    return PyUnicode_FromString(dado_error_text(value <= UINT32_MAX ? (dado_status)value : UINT32_MAX));
}

static PyObject *version(PyObject *module, PyObject *none) {
    (void)module, (void)none;
    return PyUnicode_FromString(dado_version());
}

/* For tests: how many characters are copied at a time, how many matches a batch has, and whether the memory of a `str` is read, as they
 * were before. */
static PyObject *tune(PyObject *module, PyObject *sizes) {
    size_t part = part_size, most = most_at_once;
    int memory = reads_memory;
    Py_ssize_t new_part = (Py_ssize_t)part, new_most = (Py_ssize_t)most;
    (void)module;
    if (!PyArg_ParseTuple(sizes, "nnp", &new_part, &new_most, &reads_memory)) return NULL;
    if (new_part > 0) part_size = (size_t)new_part;
    if (new_most > 0) most_at_once = (size_t)new_most;
    return Py_BuildValue("nnN", (Py_ssize_t)part, (Py_ssize_t)most, PyBool_FromLong(memory));
}

static PyObject *width_of(PyObject *module, PyObject *text) {
    Characters of;
    (void)module;
    if (!PyUnicode_Check(text)) {
        PyErr_SetString(PyExc_TypeError, "not a str");
        return NULL;
    }
    return characters_of(text, &of) < 0 ? NULL : PyLong_FromLong((long)of.width);
}

static PyMethodDef functions[] = {
    {"use", use, METH_VARARGS, "Takes the types `Match` and `Error`."},
    {"error_text", error_text, METH_O, "The text of a status."},
    {"version", version, METH_NOARGS, "The version of the library."},
    {"tune", tune, METH_VARARGS, "For tests: sets the size of a part, that of a batch, and whether the memory of a str is read."},
    {"width_of", width_of, METH_O, "How many bytes a character of a str takes where it lies; 0 where that can't be said."},
    {NULL, NULL, 0, NULL},
};

static const struct {
    const char *name;
    long value;
} constants[] = {
    {"OK", DADO_OK}, {"NO_MEMORY", DADO_NO_MEMORY}, {"PATTERN_TOO_LONG", DADO_PATTERN_TOO_LONG}, {"FINISHED", DADO_FINISHED},
    {"SHORT", SHORT},
};

/* The words for kinds and engines, each at the place of its number in the header. */
static const char *const kinds[] = {[DADO_STANDARD] = "standard", [DADO_LEFTMOST_FIRST] = "leftmost-first",
                                    [DADO_LEFTMOST_LONGEST] = "leftmost-longest"};
static const char *const start_kinds[] = {[DADO_UNANCHORED] = "unanchored", [DADO_ANCHORED] = "anchored", [DADO_BOTH] = "both"};
static const char *const engines[] = {[DADO_AUTO] = "auto", [DADO_NONCONTIGUOUS] = "noncontiguous", [DADO_CONTIGUOUS] = "contiguous",
                                      [DADO_DFA] = "dfa"};

static int add_words(PyObject *module, const char *name, const char *const *words, Py_ssize_t count) {
    PyObject *tuple = PyTuple_New(count);
    Py_ssize_t i;
    for (i = 0; tuple != NULL && i < count; i++) {
        PyObject *word = PyUnicode_FromString(words[i]);
        if (word == NULL) Py_CLEAR(tuple);
        else PyTuple_SetItem(tuple, i, word);
    }
    if (tuple == NULL || PyModule_AddObject(module, name, tuple) < 0) {
        Py_XDECREF(tuple);
        return -1;
    }
    return 0;
}

static int add_all(PyObject *module) {
    PyObject *version = PySys_GetObject("hexversion");
    size_t i;
    state_of(module)->module = module;
    visits_type = version != NULL && PyLong_AsLong(version) >= 0x03090000;
    for (i = 0; i < sizeof constants / sizeof constants[0]; i++)
        if (PyModule_AddIntConstant(module, constants[i].name, constants[i].value) < 0) return -1;
    if (add_words(module, "KINDS", kinds, 3) < 0 || add_words(module, "START_KINDS", start_kinds, 3) < 0 ||
        add_words(module, "ENGINES", engines, 4) < 0)
        return -1;
    if (texts_ready() < 0 || matches_ready(module) < 0 || owners_ready(module) < 0 || walks_ready(module) < 0) return -1;
    if (calls_ready(module) < 0 || pairs_ready(module) < 0 || pieces_ready(module) < 0) return -1;
    return maskers_ready(module);
}

/* Each import makes a module of its own. What all of them share, the fields of a `str` and what tests set, is kept by the one lock of their
 * interpreters: an interpreter with a lock of its own refuses a module that doesn't say that it is for those. */
static PyModuleDef_Slot module_slots[] = {{Py_mod_exec, add_all}, {0, NULL}};
static struct PyModuleDef definition = {
    PyModuleDef_HEAD_INIT, "dadofennel._native", "The library for C: see dadofennel.h for what its calls do.", sizeof(State), functions,
    module_slots, state_visit, state_clear, state_free,
};

/* The one symbol that the module shows. The headers before 3.9 don't say so. */
#ifdef __GNUC__
__attribute__((visibility("default")))
#endif
PyMODINIT_FUNC PyInit__native(void);

PyMODINIT_FUNC PyInit__native(void) { return PyModuleDef_Init(&definition); }
