/* The extension module `dadofennel._native`: what its files share. All of it runs with the interpreter's lock, but for the calls of the
 * library over long texts. What isn't in the state of a module is the same in all interpreters of a process, which share that lock. */
#ifndef DADOFENNEL_NATIVE_H
#define DADOFENNEL_NATIVE_H

#include "python.h"

#include "dadofennel_characters.h"

enum {
    /* How many bytes a text has at most that is read on at once. The interpreter's lock is kept while it is searched: to let go of it and
     * to take it again costs as much as to search some hundred bytes. */
    SHORT = 4096,
    /* How many matches are found at once in a short text. */
    FEW = 64
};

/* ---- module.c ---- */

/* What a module has, of which each interpreter has one of its own, and more where it was imported again. An object that needs it holds the
 * module. The first three are of Python, and may be NULL: before they were set, and once the collector has let go of the module. */
#define STATE_FIELDS(FIELD)                                                                                                             \
    FIELD(PyTypeObject, match_type)                                                                                                     \
    FIELD(PyObject, error_type)                                                                                                         \
    FIELD(PyObject, set_function) /* sets another string: of dadofennel.ahocorasick */                                                  \
    FIELD(PyTypeObject, held_type)                                                                                                      \
    FIELD(PyTypeObject, owner_type)                                                                                                     \
    FIELD(PyTypeObject, core_type)                                                                                                      \
    FIELD(PyTypeObject, found_type)                                                                                                     \
    FIELD(PyTypeObject, walk_type)                                                                                                      \
    FIELD(PyTypeObject, batches_type)                                                                                                   \
    FIELD(PyTypeObject, change_type)                                                                                                    \
    FIELD(PyTypeObject, pairs_type)                                                                                                     \
    FIELD(PyTypeObject, pieces_type)                                                                                                    \
    FIELD(PyTypeObject, masker_type)                                                                                                    \
    FIELD(PyObject, tuple_new) /* `tuple.__new__` */                                                                                    \
    FIELD(PyObject, nothing)   /* the iterator of no match, which all searches share that find none */

typedef struct {
    PyObject *module;             /* borrowed */
    int at_once;                  /* whether the memory of a match may be set at once */
#define FIELD(type, name) type *name;
    STATE_FIELDS(FIELD)
#undef FIELD
} State;

State *state_of(PyObject *module);
/* Holds the module of a state, and lets go of it. */
State *state_held(State *it);
void state_let_go(State *it);
/* Makes a type of the module, which has it by its name, if that isn't NULL. NULL with an exception. */
PyTypeObject *type_made(PyObject *module, PyType_Spec *spec, const char *name);
/* What `new` is of a type whose objects are made by calls of this module alone, since they need what a caller of the type hasn't got: it
 * raises a `TypeError`. Types that have another one, or that others are derived from, look at each entry whether all is there. */
PyObject *not_by_hand(PyTypeObject *type, PyObject *args, PyObject *named);
/* Whether an object is of a type of `PyType_FromSpec` that is freed so, or of one that is derived from it. */
int is_freed_by(PyObject *it, destructor free_it);
/* Whether a type of `PyType_FromSpec` that others are derived from has to visit the type of its instances: from 3.9 on. */
extern int visits_type;

/* Raises a `TypeError` which says what an argument is, and what it has to be; -1. */
int wrong_type(const char *name, PyObject *it, const char *wanted);
/* Raises what a status says, and returns -1; so does the other where memory ran out. */
int refuse(const State *state, dado_status status);
int no_memory(void);
/* The arguments of a call, by their names. Those that weren't given are NULL; the first `needed` must be. */
typedef struct {
    const char *call;
    const char *names[6];
    int count, positional, needed;
} Signature;
int arguments_of(const Signature *it, PyObject *const *given, Py_ssize_t count, PyObject *names, PyObject **out);
/* Whether an argument is true; one that wasn't given isn't. -1 with an exception. */
int is_true(PyObject *it);

/* ---- match.c ---- */

int matches_ready(PyObject *module);
int take_match_type(State *state, PyObject *type);
/* A new `Match`; `shift` is added to its places. It holds the text, which may be NULL. */
PyObject *match_of(const State *state, const dado_match *it, size_t shift, PyObject *text);
/* Whether a text is a `str`, `bytes` or `bytearray` itself, which refers to nothing. */
int is_plain(PyObject *text);

/* ---- owner.c ---- */

/* An automaton of the library. It is freed with this object, and each call with it holds the object. */
typedef struct {
    PyObject_HEAD
    State *state;                 /* held */
    dado_automaton *handle;
} Owner;

/* What an automaton of Python is made of, as far as searches ask. It never changes, but for `coded`, which is made when it is needed. */
typedef struct {
    PyObject_HEAD
    Owner *plain, *coded;         /* for the bytes of a text, NULL before it is begun; for the codes of its characters, NULL before the
                                     first such search */
    PyObject *table;              /* the codes of characters, as bytes; NULL where a text beyond ASCII is searched as UTF-8 */
    const uint8_t *codes;
    size_t code_count;
    uint8_t other;                /* the code of all characters that the table lacks */
    int are_latin;                /* whether each character of Latin-1 is its own code */
    int text;                     /* whether the patterns are `str`; -1 where there are none */
    uint32_t kind, start_kind;
    int any_empty;
    size_t longest, count, distinct; /* the longest pattern, in characters; how many there are, and how many unlike ones */
} Core;

/* The state of a core that was begun. */
#define STATE(core) ((core)->plain->state)
int owners_ready(PyObject *module);
int is_core(PyObject *it);
/* Whether a core was begun, or else 0 with an exception; and the core of an argument, which was, or else NULL with one. */
int is_begun(const Core *core);
Core *core_given(PyObject *module, PyObject *it);
/* Whether it was built for searches that are anchored so; for all occurrences; for whole words. -1 with the error, if not. */
int serves(const Core *core, int anchored);
int serves_listing(const Core *core);
int serves_words(const Core *core);
/* A borrowed owner: of the automaton for codes, which is built if it has to be. */
Owner *coded_of(Core *core);

/* ---- text.c ---- */

/* The characters of a `str`: `width` bytes for each at `at`, and 0 where that can't be said. */
typedef struct {
    const uint8_t *at;
    size_t len;
    unsigned width;
    int is_ascii;
} Characters;

/* What is searched: `len` bytes at `at`, of which those from `low` to `high` count. */
typedef struct {
    const uint8_t *at;
    size_t len, low, high;
    size_t shift;                 /* is added to each place */
    int is_coded;                 /* these are codes of characters */
    int is_counted;               /* these are UTF-8, and places are counted in characters */
    dado_counted counted;
    PyObject *made;               /* the UTF-8 of a text */
    uint8_t *copy;                /* a copy of malloc */
    Py_buffer lent;               /* `obj` is NULL where nothing is lent */
    PyObject *text;               /* of a text that is copied a part at a time, borrowed, and where its last part ends; else NULL */
    size_t stop;
    Core *core;                   /* borrowed */
} Haystack;

enum { WHOLE = 0, PARTS = 1, EXACT = 2 };

int texts_ready(void);
/* How many characters of a text are copied at a time, at least. Tests make it small. */
extern size_t part_size;
/* Whether the memory of a `str` is read; else its characters are asked for. Tests turn it off. */
extern int reads_memory;

int characters_of(PyObject *text, Characters *out);
/* Writes the codes of `len` characters from `start` on. -1 with an exception. */
int copy_codes(const Core *core, PyObject *text, const Characters *of, size_t start, size_t len, uint8_t *to);
/* The UTF-8 of a text, as bytes; lone surrogates have bytes, too. */
PyObject *utf8_of(PyObject *text);
/* -1 with a TypeError, which has the argument's name, where the text isn't of the patterns' type. */
int fits(const Core *core, PyObject *text, const char *name);
/* The same TypeError. */
int misfits(const Core *core, PyObject *text, const char *name);
/* The part of `length` units that `start` and `end` name, as a slice does. */
int bounds_of(size_t length, PyObject *start, PyObject *end, size_t *low, size_t *high);
/* The haystack of a text. A copy of up to SHORT bytes goes to `near`. With PARTS a long copy may be one part after another; with EXACT the
 * bytes are those of the text. -1 with an exception, and then there is nothing to release. */
int haystack_of(Haystack *out, Core *core, PyObject *text, PyObject *start, PyObject *end, int how, uint8_t *near);
/* Makes a copy that lies near last. */
int keep_copy(Haystack *it, const uint8_t *near);
int is_last_part(const Haystack *it);
/* Takes the part of the text that begins so many characters further. */
int next_part(Haystack *it, size_t by);
void release(Haystack *it);
Owner *searcher_of(const Haystack *it);

/* ---- walk.c ---- */

/* What is asked for: matches one after another, all occurrences, whole words one after another, all whole words. */
typedef enum { MATCHES, OCCURRENCES, WORDS, ALL_WORDS } Way;

/* Where a search stands that gives one match after another. */
typedef struct {
    Way way;
    uint32_t kind;
    size_t from;
    dado_cursor cursor;
    dado_place place;
} Going;

extern size_t most_at_once;

int walks_ready(PyObject *module);
void begin(Going *it, Way way, uint32_t kind, const Haystack *text, int anchored, int again);
dado_status some(const dado_automaton *ac, Going *it, const Haystack *text, dado_match *out, size_t room, size_t *count);
/* An iterator over the matches of a haystack, which it takes over, and which reads the memory of `source`. `found` are the first ones, of a
 * short text, and `is_over` says that there are no others. With `as_lists` it gives batches. */
PyObject *walk_new(Haystack *text, PyObject *source, const uint8_t *near, const Going *going, const dado_match *found, size_t count,
                   int is_over, int as_lists);
/* An iterator over some matches of a text that is plain. */
PyObject *found_new(State *state, const dado_match *found, size_t count, size_t shift, PyObject *source);
/* The patterns, starts and ends of some matches, as three lists. */
PyObject *lists_of(const dado_match *found, size_t count, size_t shift);

/* ---- calls.c, change.c, pairs.c, pieces.c, maskers.c ---- */

/* The core of an automaton of Python: a new reference. */
Core *core_of(PyObject *automaton);

int calls_ready(PyObject *module);
int pairs_ready(PyObject *module);
int pieces_ready(PyObject *module);
int maskers_ready(PyObject *module);
/* What masks a text, as UTF-8, before the stars are put in: a byte that UTF-8 doesn't have. */
enum { COVERED = 0xFF };
PyObject *starred(PyObject *module, PyObject *args);

/* The number of the kind that a word names; -1 with an exception. */
int kind_of(PyObject *word);

PyObject *core_texts(PyObject *self, PyObject *replacements);
PyObject *automaton_replace(PyObject *self, PyObject *const *given, Py_ssize_t count, PyObject *names);
PyObject *automaton_replace_words(PyObject *self, PyObject *const *given, Py_ssize_t count, PyObject *names);
PyObject *automaton_mask(PyObject *self, PyObject *const *given, Py_ssize_t count, PyObject *names);
PyObject *automaton_mask_words(PyObject *self, PyObject *const *given, Py_ssize_t count, PyObject *names);
PyObject *automaton_mask_in_place(PyObject *self, PyObject *const *given, Py_ssize_t count, PyObject *names);
PyObject *automaton_mask_words_in_place(PyObject *self, PyObject *const *given, Py_ssize_t count, PyObject *names);

/* A function that takes its arguments as an array. */
#define QUICK(function) ((PyCFunction)(void (*)(void))(function))
/* Runs a call of the library without the interpreter's lock, where it reads more than a short text. */
#define UNLOCKED(length, call)         \
    do {                               \
        if ((length) > SHORT) {        \
            Py_BEGIN_ALLOW_THREADS     \
            call;                      \
            Py_END_ALLOW_THREADS       \
        } else {                       \
            call;                      \
        }                              \
    } while (0)

#endif
