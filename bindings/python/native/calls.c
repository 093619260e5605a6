/* The searches of an automaton: methods of the type that `dadofennel.Automaton` is derived from. */
#include "docs.h"
#include "native.h"

/* An automaton of Python has its core in a field, which `__init__` sets, and each call takes and holds. */
typedef struct {
    PyObject_HEAD
    Core *core;
} Searches;

Core *core_of(PyObject *automaton) {
    Core *core = ((Searches *)automaton)->core;
    if (core == NULL) PyErr_SetString(PyExc_AttributeError, "the automaton was not built");
    Py_XINCREF(core);
    return core;
}

/* ---- One match ---- */

/* The status of a search of a span, and its match, with places as the caller counts them. -1 with an exception. */
static int found_in(PyObject *self, PyObject *const *given, int anchored, int earliest, dado_match *out) {
    Core *core = core_of(self);
    Haystack text;
    uint8_t near[SHORT];
    dado_status status = DADO_NONE;
    const Owner *owner;
    size_t count = 1;
    if (core == NULL) return -1;
    if (haystack_of(&text, core, given[0], given[1], given[2], WHOLE, near) < 0) {
        Py_DECREF(core);
        return -1;
    }
    owner = searcher_of(&text);
    if (owner != NULL) {
        dado_span span = {text.low, text.high, (uint32_t)anchored, (uint32_t)earliest};
        UNLOCKED(text.len, status = dado_find_in(owner->handle, text.at, text.len, span, out));
        if (status == DADO_OK && text.is_counted) status = dado_in_characters(text.at, text.len, &text.counted, out, &count);
        if (status == DADO_OK) out->start += text.shift, out->end += text.shift;
    }
    release(&text);
    if (owner != NULL && status > DADO_NONE) refuse(STATE(core), status);
    Py_DECREF(core);
    return owner == NULL || status > DADO_NONE ? -1 : (int)status;
}

/* A match of a text that an automaton has just searched. */
static PyObject *match_by(PyObject *self, const dado_match *found, PyObject *text) {
    Core *core = core_of(self);
    PyObject *made = core == NULL ? NULL : match_of(STATE(core), found, 0, text);
    Py_XDECREF(core);
    return made;
}

static PyObject *automaton_find(PyObject *self, PyObject *const *args, Py_ssize_t count, PyObject *names) {
    static const Signature signature = {"find", {"text", "start", "end", "anchored", "earliest"}, 5, 3, 1};
    PyObject *given[5];
    dado_match found;
    int anchored, earliest, status;
    if (arguments_of(&signature, args, count, names, given) < 0) return NULL;
    if ((anchored = is_true(given[3])) < 0 || (earliest = is_true(given[4])) < 0) return NULL;
    status = found_in(self, given, anchored, earliest, &found);
    if (status == DADO_NONE) Py_RETURN_NONE;
    return status < 0 ? NULL : match_by(self, &found, given[0]);
}

static PyObject *automaton_is_match(PyObject *self, PyObject *const *args, Py_ssize_t count, PyObject *names) {
    static const Signature signature = {"is_match", {"text", "start", "end", "anchored"}, 4, 3, 1};
    PyObject *given[4];
    dado_match found;
    int anchored, status;
    if (arguments_of(&signature, args, count, names, given) < 0 || (anchored = is_true(given[3])) < 0) return NULL;
    status = found_in(self, given, anchored, 1, &found);
    return status < 0 ? NULL : PyBool_FromLong(status == DADO_OK);
}

/* ---- One match after another ---- */

/* What a search is asked for. */
typedef struct {
    Way way;
    uint32_t kind;
    int anchored, again, as_lists;
} Asked;

/* The first matches of a short text: as many as there is room for. -1 with an exception. */
static int first_few(const Owner *owner, Haystack *text, Going *going, dado_match *few, size_t *count, int *is_all) {
    dado_status status = some(owner->handle, going, text, few, FEW, count);
    *is_all = *count < FEW;
    if (status <= DADO_NONE && text->is_counted) status = dado_in_characters(text->at, text->len, &text->counted, few, count);
    return status > DADO_NONE ? refuse(owner->state, status) : 0;
}

/* An iterator over what is asked for. The matches of a short text are found at once. */
static PyObject *matches_in(Core *core, PyObject *source, PyObject *start, PyObject *end, const Asked *asked) {
    uint8_t near[SHORT];
    dado_match few[FEW];
    Haystack text;
    Going going;
    PyObject *made = NULL;
    const Owner *owner;
    int is_all = 0, how = asked->anchored || asked->way == WORDS || asked->way == ALL_WORDS ? WHOLE : PARTS;
    size_t count = 0;
    if (haystack_of(&text, core, source, start, end, how, near) < 0) return NULL;
    begin(&going, asked->way, asked->kind, &text, asked->anchored, asked->again);
    owner = searcher_of(&text);
    if (owner == NULL || (text.len <= SHORT && is_last_part(&text) && first_few(owner, &text, &going, few, &count, &is_all) < 0)) {
        release(&text);
        return NULL;
    }
    if (!is_all || asked->as_lists || (count != 0 && !is_plain(source)))
        return walk_new(&text, source, near, &going, few, count, is_all, asked->as_lists);
    made = found_new(STATE(core), few, count, text.shift, source);
    release(&text);
    return made;
}

static PyObject *finditer(PyObject *self, PyObject *const *args, Py_ssize_t count, PyObject *names) {
    static const Signature signature = {"finditer", {"text", "start", "end", "anchored"}, 4, 3, 1};
    PyObject *given[4], *made = NULL;
    Asked asked = {MATCHES, 0, 0, 0, 0};
    Core *core;
    if (arguments_of(&signature, args, count, names, given) < 0 || (asked.anchored = is_true(given[3])) < 0) return NULL;
    core = core_of(self);
    if (core != NULL && serves(core, asked.anchored) == 0) made = matches_in(core, given[0], given[1], given[2], &asked);
    Py_XDECREF(core);
    return made;
}

static PyObject *overlapping(PyObject *self, PyObject *const *args, Py_ssize_t count, PyObject *names) {
    static const Signature signature = {"overlapping", {"text", "start", "end"}, 3, 3, 1};
    static const Asked asked = {OCCURRENCES, 0, 0, 0, 0};
    PyObject *given[3], *made = NULL;
    Core *core;
    if (arguments_of(&signature, args, count, names, given) < 0) return NULL;
    core = core_of(self);
    if (core != NULL && serves_listing(core) == 0) made = matches_in(core, given[0], given[1], given[2], &asked);
    Py_XDECREF(core);
    return made;
}

int kind_of(PyObject *word) {
    if (word == NULL) return DADO_STANDARD;
    if (PyUnicode_Check(word)) {
        if (PyUnicode_CompareWithASCIIString(word, "standard") == 0) return DADO_STANDARD;
        if (PyUnicode_CompareWithASCIIString(word, "leftmost-first") == 0) return DADO_LEFTMOST_FIRST;
        if (PyUnicode_CompareWithASCIIString(word, "leftmost-longest") == 0) return DADO_LEFTMOST_LONGEST;
    } else {
        return wrong_type("kind", word, "one of standard, leftmost-first, leftmost-longest");
    }
    PyErr_Format(PyExc_ValueError, "kind is %R, and not one of standard, leftmost-first, leftmost-longest", word);
    return -1;
}

static PyObject *find_words(PyObject *self, PyObject *const *args, Py_ssize_t count, PyObject *names) {
    static const Signature signature = {"find_words", {"text", "kind"}, 2, 2, 1};
    PyObject *given[2], *made = NULL;
    Asked asked = {WORDS, 0, 0, 0, 0};
    Core *core;
    int kind;
    if (arguments_of(&signature, args, count, names, given) < 0 || (kind = kind_of(given[1])) < 0) return NULL;
    asked.kind = (uint32_t)kind;
    core = core_of(self);
    if (core != NULL && serves_words(core) == 0) made = matches_in(core, given[0], NULL, NULL, &asked);
    Py_XDECREF(core);
    return made;
}

static PyObject *overlapping_words(PyObject *self, PyObject *const *args, Py_ssize_t count, PyObject *names) {
    static const Signature signature = {"overlapping_words", {"text"}, 1, 1, 1};
    static const Asked asked = {ALL_WORDS, 0, 0, 0, 0};
    PyObject *given[1], *made = NULL;
    Core *core;
    if (arguments_of(&signature, args, count, names, given) < 0) return NULL;
    core = core_of(self);
    if (core != NULL && serves_words(core) == 0) made = matches_in(core, given[0], NULL, NULL, &asked);
    Py_XDECREF(core);
    return made;
}

/* For the names of pyahocorasick, and for streams of patterns of which one is empty: all occurrences, or all matches, as batches of
 * three lists; and the matches of a text that follows one. */
static PyObject *batches(PyObject *module, PyObject *args) {
    PyObject *given, *text, *start, *end;
    Asked asked = {MATCHES, 0, 0, 0, 1};
    int listed;
    Core *core;
    if (!PyArg_ParseTuple(args, "OOOOp", &given, &text, &start, &end, &listed) || (core = core_given(module, given)) == NULL) return NULL;
    if (listed) asked.way = OCCURRENCES;
    return (listed ? serves_listing(core) : serves(core, 0)) < 0 ? NULL : matches_in(core, text, start, end, &asked);
}

static PyObject *matches_after(PyObject *module, PyObject *args) {
    PyObject *given, *text;
    Asked asked = {MATCHES, 0, 0, 0, 0};
    Core *core;
    if (!PyArg_ParseTuple(args, "OOp", &given, &text, &asked.again) || (core = core_given(module, given)) == NULL) return NULL;
    return serves(core, 0) < 0 ? NULL : matches_in(core, text, NULL, NULL, &asked);
}

static PyObject *words_in(PyObject *module, PyObject *args) {
    PyObject *given, *text, *word;
    Asked asked = {WORDS, 0, 0, 0, 0};
    int kind;
    Core *core;
    if (!PyArg_ParseTuple(args, "OOO", &given, &text, &word) || (core = core_given(module, given)) == NULL) return NULL;
    if ((kind = kind_of(word)) < 0 || serves_words(core) < 0) return NULL;
    asked.kind = (uint32_t)kind;
    return matches_in(core, text, NULL, NULL, &asked);
}

/* ---- Many texts ---- */

static PyObject *list_of_few(const State *state, const dado_match *few, size_t count, size_t shift, PyObject *source) {
    PyObject *list = PyList_New((Py_ssize_t)count);
    size_t i;
    for (i = 0; list != NULL && i < count; i++) {
        PyObject *match = match_of(state, &few[i], shift, source);
        if (match == NULL) Py_CLEAR(list);
        else PyList_SetItem(list, (Py_ssize_t)i, match);
    }
    return list;
}

/* All matches of a text, as a list. Those of a short text are found at once; where they are many, or the text is long, by a walk. */
static PyObject *found_each(Core *core, PyObject *source) {
    uint8_t near[SHORT];
    dado_match few[FEW];
    Haystack text;
    Going going;
    PyObject *walk = NULL, *list = NULL;
    const Owner *owner;
    int is_all = 0, failed;
    size_t count = 0;
    if (haystack_of(&text, core, source, NULL, NULL, PARTS, near) < 0) return NULL;
    owner = searcher_of(&text);
    begin(&going, MATCHES, 0, &text, 0, 0);
    failed = owner == NULL || (text.len <= SHORT && is_last_part(&text) && first_few(owner, &text, &going, few, &count, &is_all) < 0);
    if (!failed && !is_all) walk = walk_new(&text, source, near, &going, few, count, 0, 0);
    else release(&text);
    if (walk != NULL) list = PySequence_List(walk);
    else if (!failed && is_all) list = list_of_few(STATE(core), few, count, text.shift, source);
    Py_XDECREF(walk);
    return list;
}

static PyObject *is_match_each(Core *core, PyObject *text) {
    uint8_t near[SHORT];
    Haystack it;
    dado_status status = DADO_NONE;
    const Owner *owner;
    if (haystack_of(&it, core, text, NULL, NULL, WHOLE, near) < 0) return NULL;
    owner = searcher_of(&it);
    if (owner != NULL) UNLOCKED(it.len, status = dado_is_match(owner->handle, it.at, it.len));
    release(&it);
    if (owner == NULL) return NULL;
    if (status > DADO_NONE) refuse(STATE(core), status);
    return status > DADO_NONE ? NULL : PyBool_FromLong(status == DADO_OK);
}

/* Says which of the texts isn't one, where that is what was raised. */
static void name_text(const Core *core, PyObject *text, Py_ssize_t at) {
    char name[40];
    if (!PyErr_ExceptionMatches(PyExc_TypeError)) return;
    PyErr_Clear();
    PyOS_snprintf(name, sizeof name, "texts[%zd]", at);
    misfits(core, text, name);
}

/* A list of what `of` gives for each text. */
static PyObject *list_of(Core *core, PyObject *texts, PyObject *(*of)(Core *, PyObject *)) {
    PyObject *each = PyObject_GetIter(texts), *list = each == NULL ? NULL : PyList_New(0), *text;
    if (each == NULL && PyErr_ExceptionMatches(PyExc_TypeError)) PyErr_Clear(), wrong_type("texts", texts, "a list of texts");
    while (list != NULL && (text = PyIter_Next(each)) != NULL) {
        PyObject *one = of(core, text);
        if (one == NULL) name_text(core, text, PyList_Size(list));
        if (one == NULL || PyList_Append(list, one) < 0) Py_CLEAR(list);
        Py_XDECREF(one);
        Py_DECREF(text);
    }
    if (list != NULL && PyErr_Occurred()) Py_CLEAR(list);
    Py_XDECREF(each);
    return list;
}

static PyObject *for_each(PyObject *self, PyObject *texts, PyObject *(*of)(Core *, PyObject *)) {
    PyObject *list = NULL;
    Core *core;
    if (PyUnicode_Check(texts) || PyBytes_Check(texts)) {
        PyErr_SetString(PyExc_TypeError, "texts is one string; give a list of them");
        return NULL;
    }
    core = core_of(self);
    if (core != NULL && serves(core, 0) == 0) list = list_of(core, texts, of);
    Py_XDECREF(core);
    return list;
}

static PyObject *automaton_find_each(PyObject *self, PyObject *const *args, Py_ssize_t count, PyObject *names) {
    static const Signature signature = {"find_each", {"texts"}, 1, 1, 1};
    PyObject *texts;
    return arguments_of(&signature, args, count, names, &texts) < 0 ? NULL : for_each(self, texts, found_each);
}

static PyObject *automaton_is_match_each(PyObject *self, PyObject *const *args, Py_ssize_t count, PyObject *names) {
    static const Signature signature = {"is_match_each", {"texts"}, 1, 1, 1};
    PyObject *texts;
    return arguments_of(&signature, args, count, names, &texts) < 0 ? NULL : for_each(self, texts, is_match_each);
}

/* ---- The type, and the module's part ---- */

/* `Searches[AnyStr]` is the type itself: what its calls return is told to type checkers alone. */
static PyObject *itself(PyObject *type, PyObject *parameter) {
    (void)parameter;
    Py_INCREF(type);
    return type;
}

#define METHOD(name, function, doc) {name, QUICK(function), METH_FASTCALL | METH_KEYWORDS, doc}

static PyMethodDef methods[] = {
    METHOD("is_match", automaton_is_match, IS_MATCH_DOC),
    METHOD("find", automaton_find, FIND_DOC),
    METHOD("finditer", finditer, FINDITER_DOC),
    METHOD("overlapping", overlapping, OVERLAPPING_DOC),
    METHOD("find_words", find_words, FIND_WORDS_DOC),
    METHOD("overlapping_words", overlapping_words, OVERLAPPING_WORDS_DOC),
    METHOD("replace", automaton_replace, REPLACE_DOC),
    METHOD("replace_words", automaton_replace_words, REPLACE_WORDS_DOC),
    METHOD("mask", automaton_mask, MASK_DOC),
    METHOD("mask_in_place", automaton_mask_in_place, MASK_IN_PLACE_DOC),
    METHOD("mask_words", automaton_mask_words, MASK_WORDS_DOC),
    METHOD("mask_words_in_place", automaton_mask_words_in_place, MASK_WORDS_IN_PLACE_DOC),
    METHOD("find_each", automaton_find_each, FIND_EACH_DOC),
    METHOD("is_match_each", automaton_is_match_each, IS_MATCH_EACH_DOC),
    {"__class_getitem__", itself, METH_O | METH_CLASS, NULL},
    {NULL, NULL, 0, NULL},
};

static PyObject *get_built(PyObject *self, void *unused) {
    (void)unused;
    return (PyObject *)core_of(self);
}

static int set_built(PyObject *self, PyObject *core, void *unused) {
    Searches *it = (Searches *)self;
    Core *before = it->core;
    (void)unused;
    if (core == NULL || !is_core(core) || ((Core *)core)->plain == NULL) {
        PyErr_SetString(PyExc_TypeError, "what was built is a core that was begun");
        return -1;
    }
    Py_INCREF(core);
    it->core = (Core *)core;
    Py_XDECREF(before);
    return 0;
}

static int searches_visit(PyObject *self, visitproc visit, void *arg) {
    if (visits_type) Py_VISIT(Py_TYPE(self));
    Py_VISIT(((Searches *)self)->core);
    return 0;
}

static int searches_clear(PyObject *self) {
    Py_CLEAR(((Searches *)self)->core);
    return 0;
}

static void searches_free(PyObject *self) {
    PyTypeObject *type = Py_TYPE(self);
    freefunc free_memory = (freefunc)PyType_GetSlot(type, Py_tp_free);
    PyObject_GC_UnTrack(self);
    searches_clear(self);
    free_memory(self);
    Py_DECREF(type);
}

static PyGetSetDef fields[] = {{"_built", get_built, set_built, "What searches.", NULL}, {NULL, NULL, NULL, NULL, NULL}};
static PyType_Slot slots[] = {{Py_tp_dealloc, searches_free}, {Py_tp_traverse, searches_visit}, {Py_tp_clear, searches_clear},
                              {Py_tp_methods, methods},       {Py_tp_getset, fields},           {0, NULL}};
static PyType_Spec spec = {"dadofennel._native.Searches", sizeof(Searches), 0,
                           Py_TPFLAGS_DEFAULT | Py_TPFLAGS_BASETYPE | Py_TPFLAGS_HAVE_GC, slots};

static PyMethodDef functions[] = {
    {"batches", batches, METH_VARARGS, "The matches of a part of a text, or all occurrences, as batches of three lists."},
    {"matches_after", matches_after, METH_VARARGS, "The matches of a text; before it, one may have ended."},
    {"words_in", words_in, METH_VARARGS, "The whole words of a text under a kind."},
    {NULL, NULL, 0, NULL},
};

int calls_ready(PyObject *module) {
    PyTypeObject *type = type_made(module, &spec, "Searches");
    if (type == NULL) return -1;
    Py_DECREF(type);
    return PyModule_AddFunctions(module, functions);
}
