/* Iterators: over matches that are there, and over those of a long text, which are found in batches. Threads may share one. */
#include "native.h"

#include <stddef.h>
#include <stdlib.h>
#include <string.h>

/* How many matches a batch has at most. In a long text the first has one, so that it is found without reading on. */
size_t most_at_once = 4096;

/* ---- Searches that give one match after another ---- */

void begin(Going *it, Way way, uint32_t kind, const Haystack *text, int anchored, int again) {
    it->way = way, it->kind = kind, it->from = 0;
    if (way == MATCHES) {
        it->cursor = dado_cursor_over(text->low, text->high);
        it->cursor.anchored = (uint32_t)anchored;
        if (again) it->cursor.last = text->low;
    } else {
        it->place = dado_place_over(text->low, text->high);
    }
}

dado_status some(const dado_automaton *ac, Going *it, const Haystack *text, dado_match *out, size_t room, size_t *count) {
    switch (it->way) {
    case MATCHES: return dado_some(ac, text->at, text->len, &it->cursor, out, room, count);
    case OCCURRENCES: return dado_overlapping_some(ac, text->at, text->len, &it->place, out, room, count);
    case WORDS: return dado_words_some(ac, it->kind, text->at, text->len, &it->from, out, room, count);
    default: return dado_overlapping_words_some(ac, text->at, text->len, &it->place, out, room, count);
    }
}

/* ---- Matches that are there ---- */

typedef struct {
    PyObject_VAR_HEAD
    State *state;                 /* held; NULL where there is no match */
    PyObject *source;
    size_t next, count, shift;
    dado_match at[1];
} Found;

PyObject *found_new(State *state, const dado_match *found, size_t count, size_t shift, PyObject *source) {
    Found *made;
    if (count == 0 && state->nothing != NULL) {
        Py_INCREF(state->nothing);
        return state->nothing;
    }
    made = PyObject_NewVar(Found, state->found_type, (Py_ssize_t)count);
    if (made == NULL) return NULL;
    made->state = count == 0 ? NULL : state_held(state);
    Py_XINCREF(source);
    made->source = source, made->next = 0, made->count = count, made->shift = shift;
    memcpy(made->at, found, count * sizeof *found);
    return (PyObject *)made;
}

static PyObject *found_next(PyObject *self) {
    Found *it = (Found *)self;
    return it->next < it->count ? match_of(it->state, &it->at[it->next++], it->shift, it->source) : NULL;
}

static void found_free(PyObject *self) {
    PyTypeObject *type = Py_TYPE(self);
    State *state = ((Found *)self)->state;
    Py_XDECREF(((Found *)self)->source);
    PyObject_Free(self);
    Py_DECREF(type);
    state_let_go(state);
}

static PyType_Slot found_slots[] = {{Py_tp_new, not_by_hand},
                                    {Py_tp_dealloc, found_free},
                                    {Py_tp_iter, PyObject_SelfIter},
                                    {Py_tp_iternext, found_next},
                                    {0, NULL}};
static PyType_Spec found_spec = {"dadofennel._native.Found", offsetof(Found, at), sizeof(dado_match), Py_TPFLAGS_DEFAULT, found_slots};

/* ---- Matches of a long text ---- */

typedef struct {
    PyObject_HEAD
    Core *core;
    PyObject *source;             /* the text, which the haystack reads */
    Haystack text;
    Going going;
    dado_match *room;             /* of the last batch; those from `next` up to `count` are still to be given */
    size_t size, next, count, shift;
    size_t least;                 /* how many matches the next batch has room for */
    size_t done, undecided;       /* in a part: where the last match ended that was given, and where one begins that isn't decided */
    int part_ends, is_over;       /* whether all of this part was given; whether all of the text was */
    PyThread_type_lock lock;      /* is held while a batch is found, and never while Python's code may run */
} Walk;

/* How many of these matches no other part can change. */
static size_t decided(const Walk *it, size_t count) {
    size_t kept = 0;
    if (it->going.way != MATCHES || it->core->kind == DADO_STANDARD || is_last_part(&it->text)) return count;
    while (kept < count && it->room[kept].start + it->core->longest <= it->text.len) kept++;
    return kept;
}

/* Takes the next part of the text, and begins in it where the search of the last one stands. */
static int go_on(Walk *it) {
    size_t len = it->text.len, longest = it->core->longest, by = len - longest + 1;
    if (it->going.way == MATCHES) {
        if (it->undecided < by) by = it->undecided;
        if (it->done > by) by = it->done;
    }
    if (next_part(&it->text, by) < 0) return -1;
    if (it->going.way == MATCHES) {
        it->done = it->done > by ? it->done - by : 0;
        it->going.cursor.start = it->done, it->going.cursor.end = it->text.len, it->going.cursor.last = SIZE_MAX;
    } else {
        dado_match last = {SIZE_MAX, longest - 1, 0};
        it->going.place.start = 0, it->going.place.end = it->text.len, it->going.place.begun = 1, it->going.place.last = last;
    }
    it->part_ends = 0;
    return 0;
}

/* What follows from a batch of so many matches: `kept` of them are right whatever comes. */
static void settle(Walk *it, size_t found, size_t kept) {
    if (kept != 0) it->done = it->room[kept - 1].end;
    it->undecided = kept < found ? it->room[kept].start : it->text.len;
    it->shift = it->text.shift;
    if (kept < found || found < it->least) {
        if (is_last_part(&it->text)) it->is_over = 1;
        else it->part_ends = 1;
    } else if (it->least < most_at_once) {
        it->least *= 4;
    }
}

static int make_room(Walk *it) {
    dado_match *room;
    if (it->least <= it->size) return 0;
    room = realloc(it->room, it->least * sizeof *room);
    if (room == NULL) return no_memory();
    it->room = room, it->size = it->least;
    return 0;
}

/* Finds the next batch. It has matches, or the text is over. */
static int find_batch(Walk *it) {
    while (it->next == it->count && !it->is_over) {
        const Owner *owner = searcher_of(&it->text); /* it was built before the walk began */
        size_t found = 0, kept;
        dado_status status;
        if (owner == NULL || (it->part_ends && go_on(it) < 0) || make_room(it) < 0) return -1;
        UNLOCKED(it->text.len, status = some(owner->handle, &it->going, &it->text, it->room, it->least, &found));
        if (status > DADO_NONE) return refuse(STATE(it->core), status);
        kept = decided(it, found);
        settle(it, found, kept);
        if (it->text.is_counted) {
            status = dado_in_characters(it->text.at, it->text.len, &it->text.counted, it->room, &kept);
            if (status != DADO_OK) return refuse(STATE(it->core), status);
        }
        it->next = 0, it->count = kept;
    }
    return it->next < it->count;
}

/* Lets go of what was searched. It is over before code of Python may run. */
static void let_go(Walk *it) {
    Haystack text = it->text;
    it->size = it->next = it->count = 0, it->is_over = 1;
    it->text.lent.obj = NULL, it->text.copy = NULL, it->text.made = NULL;
    free(it->room);
    it->room = NULL;
    release(&text);
    Py_CLEAR(it->source);
    Py_CLEAR(it->core);
}

/* Whether there is a match to be given. One thread finds the next batch, and others wait for it. */
static int has_more(Walk *it) {
    int more;
    if (it->next < it->count) return 1;
    if (it->room == NULL) return 0;
    if (!PyThread_acquire_lock(it->lock, NOWAIT_LOCK)) {
        Py_BEGIN_ALLOW_THREADS
        PyThread_acquire_lock(it->lock, WAIT_LOCK);
        Py_END_ALLOW_THREADS
    }
    more = it->room == NULL ? 0 : find_batch(it);
    PyThread_release_lock(it->lock);
    return more;
}

/* The same for a caller that gives nothing more where there is none: then what was searched is let go, unless another thread is there. */
static int goes_on(Walk *it) {
    int more = has_more(it);
    if (more <= 0 && PyThread_acquire_lock(it->lock, NOWAIT_LOCK)) {
        PyThread_release_lock(it->lock);
        let_go(it);
    }
    return more > 0;
}

static PyObject *walk_next(PyObject *self) {
    Walk *it = (Walk *)self;
    PyObject *source, *made;
    Core *core;
    dado_match next;
    if (!goes_on(it)) return NULL;
    next = it->room[it->next++], source = it->source, core = it->core;
    Py_INCREF(source), Py_INCREF(core); /* another thread may let go of them while the match is made */
    made = match_of(STATE(core), &next, it->shift, source);
    Py_DECREF(source), Py_DECREF(core);
    return made;
}

static PyObject *numbers(const dado_match *found, size_t count, size_t shift, int which) {
    PyObject *list = PyList_New((Py_ssize_t)count);
    size_t i;
    for (i = 0; list != NULL && i < count; i++) {
        size_t value = which == 0 ? found[i].pattern : (which == 1 ? found[i].start : found[i].end) + shift;
        PyObject *number = PyLong_FromSize_t(value);
        if (number == NULL) Py_CLEAR(list);
        else PyList_SetItem(list, (Py_ssize_t)i, number);
    }
    return list;
}

PyObject *lists_of(const dado_match *found, size_t count, size_t shift) {
    PyObject *patterns = numbers(found, count, shift, 0), *starts = patterns == NULL ? NULL : numbers(found, count, shift, 1);
    PyObject *ends = starts == NULL ? NULL : numbers(found, count, shift, 2);
    if (ends != NULL) return Py_BuildValue("NNN", patterns, starts, ends);
    Py_XDECREF(patterns), Py_XDECREF(starts);
    return NULL;
}

/* A batch is taken out of the iterator before lists are made of it, since code of Python may run then. */
static PyObject *batches_next(PyObject *self) {
    Walk *it = (Walk *)self;
    size_t first, count;
    dado_match *taken;
    PyObject *lists;
    if (!goes_on(it)) return NULL;
    first = it->next, count = it->count;
    taken = malloc((count - first) * sizeof *taken);
    if (taken == NULL) {
        no_memory();
        return NULL;
    }
    memcpy(taken, it->room + first, (count - first) * sizeof *taken);
    it->next = count;
    lists = lists_of(taken, count - first, it->shift);
    free(taken);
    return lists;
}

static int walk_visit(PyObject *self, visitproc visit, void *arg) {
    Walk *it = (Walk *)self;
    Py_VISIT(Py_TYPE(self));
    Py_VISIT(it->core);
    Py_VISIT(it->source);
    Py_VISIT(it->text.lent.obj);
    return 0;
}

static int walk_clear(PyObject *self) {
    let_go((Walk *)self);
    return 0;
}

static void walk_free(PyObject *self) {
    PyTypeObject *type = Py_TYPE(self);
    Walk *it = (Walk *)self;
    PyObject_GC_UnTrack(self);
    let_go(it);
    if (it->lock != NULL) PyThread_free_lock(it->lock);
    PyObject_GC_Del(self);
    Py_DECREF(type);
}

static PyType_Slot walk_slots[] = {{Py_tp_new, not_by_hand},  {Py_tp_dealloc, walk_free},      {Py_tp_traverse, walk_visit},
                                   {Py_tp_clear, walk_clear}, {Py_tp_iter, PyObject_SelfIter}, {Py_tp_iternext, walk_next},
                                   {0, NULL}};
static PyType_Slot batches_slots[] = {{Py_tp_new, not_by_hand},  {Py_tp_dealloc, walk_free},      {Py_tp_traverse, walk_visit},
                                      {Py_tp_clear, walk_clear}, {Py_tp_iter, PyObject_SelfIter}, {Py_tp_iternext, batches_next},
                                      {0, NULL}};
static PyType_Spec walk_spec = {"dadofennel._native.Walk", sizeof(Walk), 0, Py_TPFLAGS_DEFAULT | Py_TPFLAGS_HAVE_GC, walk_slots};
static PyType_Spec batches_spec = {"dadofennel._native.Batches", sizeof(Walk), 0, Py_TPFLAGS_DEFAULT | Py_TPFLAGS_HAVE_GC, batches_slots};

PyObject *walk_new(Haystack *text, PyObject *source, const uint8_t *near, const Going *going, const dado_match *found, size_t count,
                   int is_over, int as_lists) {
    const State *state = STATE(text->core);
    Walk *made = PyObject_GC_New(Walk, as_lists ? state->batches_type : state->walk_type);
    if (made == NULL) {
        release(text);
        return NULL;
    }
    made->core = text->core, made->source = source, made->text = *text, made->going = *going;
    Py_INCREF(made->core), Py_INCREF(source);
    made->next = 0, made->count = 0, made->shift = text->shift, made->done = made->undecided = 0;
    made->part_ends = 0, made->is_over = is_over;
    made->size = made->least = text->len > SHORT ? 1 : FEW;
    made->room = malloc(made->size * sizeof *made->room);
    made->lock = PyThread_allocate_lock();
    if (made->room == NULL || made->lock == NULL || keep_copy(&made->text, near) < 0) {
        if (!PyErr_Occurred()) no_memory();
        Py_DECREF(made);
        return NULL;
    }
    memcpy(made->room, found, count * sizeof *found);
    made->count = count;
    PyObject_GC_Track(made);
    return (PyObject *)made;
}

int walks_ready(PyObject *module) {
    State *state = state_of(module);
    state->found_type = type_made(module, &found_spec, NULL);
    state->walk_type = type_made(module, &walk_spec, NULL);
    state->batches_type = type_made(module, &batches_spec, NULL);
    if (state->found_type == NULL || state->walk_type == NULL || state->batches_type == NULL) return -1;
    state->nothing = found_new(state, NULL, 0, 0, NULL);
    return state->nothing == NULL ? -1 : 0;
}
