/* The addon: what its files share. Everything runs on the thread of its environment, but for `text_code`, `collect` and `change`, which
 * run on any thread. There is no state but what an environment has, so each worker may load it. */
#ifndef DADOFENNEL_NODE_NATIVE_H
#define DADOFENNEL_NODE_NATIVE_H

#define NAPI_VERSION 8
#include <node_api.h>

#include "dadofennel.h"
#include "dadofennel_characters.h"

enum {
    /* How many units a string has at most that is read and coded on the stack. */
    SHORT = 1024,
    /* How many matches are found at once, and are handed over without an array of their own. */
    ROOM = 256,
    /* How many units beyond ASCII have a code of their own, at most: of 128 codes one is for all other units, and one marks. */
    MOST_BEYOND = 126
};

/* How a call searches: bits of a number that lib/options.js makes. */
enum {
    WAY = 3,                      /* one of the four below */
    KIND = 12, KIND_SHIFT = 2,    /* the kind of whole words one after another */
    ANCHORED = 16,
    EARLIEST = 32,
    LATIN = 64                    /* the text is a string without a unit past 0xFF */
};

enum { MATCHES = 0, OCCURRENCES = 1, WORDS = 2, ALL_WORDS = 3 };

/* ---- module.c ---- */

/* What an environment has. */
typedef struct {
    napi_ref out_held, allocate;
    uint32_t *out;                /* a count, whether places are doubles, two words that are free, and room for ROOM matches */
} Instance;

/* What an array of JavaScript is made of: lib/native.js makes it. */
enum { ARRAY_BYTES = 0, ARRAY_INTS = 1, ARRAY_DOUBLES = 2 };

/* The first field of each object that JavaScript holds. */
typedef enum { SEARCHER = 0x53, WALK, PIECES, REPLACEMENTS, REPLACER, MASKER } Tag;

Instance *instance_of(napi_env env);
/* Both throw and return NULL: what a status of the library says, and what Node says of its last call. */
napi_value refuse(napi_env env, dado_status status);
napi_value failed(napi_env env);
napi_value refuse_argument(napi_env env, const char *text);
/* An error of a status, which isn't thrown; NULL where it can't be made. */
napi_value error_of(napi_env env, dado_status status);
/* The object of an argument; NULL with an exception where it is none of this tag. */
void *object_of(napi_env env, napi_value value, Tag tag);
/* Gives an object to JavaScript, which frees it by `finalize`. Where that fails, it is freed at once, and NULL is returned. */
napi_value handed_over(napi_env env, void *object, napi_finalize finalize);
/* A new array of so many items, and where they lie. NULL with an exception. */
napi_value array_new(napi_env env, int type, size_t count, void **at);
/* Tells V8 of memory that an object holds, beside what it held before, so that it collects what is let go in time. */
void told(napi_env env, int64_t *held, size_t now);
/* A copy of bytes, as a Buffer. */
napi_value buffer_of(napi_env env, const void *at, size_t len);
napi_value number_value(napi_env env, double number);
napi_value nothing(napi_env env);
uint32_t how_of(napi_env env, napi_value value);
/* A place or a number: SIZE_MAX where it isn't one. */
size_t size_of(napi_env env, napi_value value);
/* The arguments of a call, as many as there is room for; those that weren't given are undefined. -1 with an exception. */
int arguments_of(napi_env env, napi_callback_info info, napi_value *out, size_t room, size_t *given);

/* ---- searcher.c ---- */

/* An automaton of the library, and how a text is written for it. */
typedef struct {
    Tag tag;
    size_t refs;
    dado_automaton *handle;
    int is_text, is_bytes;        /* what it searches; both where there is no pattern */
    int is_wide;                  /* a string is written as one to three bytes for each unit, and else as one code for each */
    int are_latin;                /* each unit up to 0xFF is its own code */
    int is_ascii;                 /* so is each pattern */
    uint8_t other, marker;        /* the code of all units that the table lacks; a byte that no text is written with */
    uint8_t *codes;
    size_t code_count;
    size_t *widths;               /* how many units each pattern has, where units have several bytes */
    uint32_t kind;
    size_t memory;
} Searcher;

Searcher *searcher_shared(Searcher *it);
void searcher_released(Searcher *it);
napi_value searcher_new(napi_env env, napi_callback_info info);
napi_value searcher_about(napi_env env, napi_callback_info info);

/* ---- text.c ---- */

typedef struct {
    char16_t units[SHORT + 1];
    uint8_t coded[3 * SHORT];
} Near;

typedef enum { FORM_BYTES, FORM_LATIN, FORM_UNITS } Form;

/* A text: `len` bytes, characters of Latin-1 or units at `at`; and what is searched of it, `size` bytes at `coded`, of which those from
 * `low` to `high` count. */
typedef struct {
    Form form;
    const void *at;
    size_t len;
    size_t start, end;            /* the span, in units of the text; `end` may be SIZE_MAX for the text's end */
    const uint8_t *coded;
    size_t size, low, high;
    int is_counted;               /* units have several bytes, so places are counted */
    void *own, *own_coded;
} Text;

/* Reads an argument, which is copied if it is a string: near, if it is short and `near` isn't NULL. -1 with an exception. */
int text_read(napi_env env, const Searcher *of, napi_value value, uint32_t how, Near *near, Text *out);
/* Writes what is searched. With `fresh` it is a copy, and has no `marker`. It calls nothing of Node. */
dado_status text_code(const Searcher *of, Text *it, int fresh, Near *near);
void text_let_go(Text *it);
/* Appends the bytes of units, one to three for each. Returns how many there are; `out` may be NULL. */
size_t wide_of(const char16_t *units, size_t count, uint8_t *out);
/* The span of two arguments. */
void span_of(napi_env env, Text *it, napi_value start, napi_value end);

/* ---- walk.c ---- */

/* Where a search stands that finds one match after another. */
typedef struct {
    uint32_t how;
    size_t from;
    dado_cursor cursor;
    dado_place place;
    dado_counted counted;
} Going;

/* Matches in a row, three numbers each: integers, or doubles where places may pass 2^32 - 1. */
typedef struct {
    void *at;
    size_t count, room;
    int are_doubles, is_own;
} Flat;

void begin(Going *it, uint32_t how, const Text *text);
/* The next matches: places in units of the text. `*over` says that there are no others. */
dado_status some(const Searcher *of, const Text *text, Going *going, dado_match *out, size_t *count, int *over);
void flat_begin(Flat *it, uint32_t *near, int are_doubles);
dado_status flat_add(Flat *it, const dado_match *found, size_t count);
void flat_let_go(Flat *it);
/* The number of matches, which lie in the instance's room, or an array of them. What is its own is freed. */
napi_value flat_value(napi_env env, Instance *instance, Flat *it);
/* All matches of a text. */
dado_status collect(const Searcher *of, const Text *text, uint32_t how, Flat *out);

napi_value call_find(napi_env env, napi_callback_info info);
napi_value call_is_match(napi_env env, napi_callback_info info);
napi_value call_all(napi_env env, napi_callback_info info);
napi_value walk_new(napi_env env, napi_callback_info info);
napi_value walk_next(napi_env env, napi_callback_info info);
napi_value walk_end(napi_env env, napi_callback_info info);

/* ---- change.c ---- */

/* A replacement for each pattern: bytes, or units and their Latin-1 where all have it. */
typedef struct {
    Tag tag;
    size_t refs, count;
    int64_t memory;               /* as V8 was told */
    int is_text, is_latin;
    dado_bytes *bytes;
    char16_t *units;
    size_t *ends;                 /* where the units of each one end */
    uint8_t *arena;
} Replacements;

/* What a replacement makes: a text of the library, or units. */
typedef struct {
    dado_text text;
    char16_t *units;
    size_t len, room;
    int are_units;
} Changed;

Replacements *replacements_shared(Replacements *it);
void replacements_released(Replacements *it);
/* How a text is read, so that it can be replaced. */
uint32_t how_to_replace(const Searcher *of, const Replacements *by, uint32_t how);
dado_status change(const Searcher *of, Text *text, uint32_t how, const Replacements *by, Changed *out);
napi_value changed_value(napi_env env, Form form, Changed *it);
void changed_let_go(Changed *it);

napi_value replacements_new(napi_env env, napi_callback_info info);
napi_value call_replace(napi_env env, napi_callback_info info);
napi_value call_mask(napi_env env, napi_callback_info info);
napi_value call_mask_in_place(napi_env env, napi_callback_info info);

/* ---- pieces.c, later.c ---- */

napi_value pieces_new(napi_env env, napi_callback_info info);
napi_value pieces_push(napi_env env, napi_callback_info info);
napi_value pieces_finish(napi_env env, napi_callback_info info);
napi_value pieces_cut(napi_env env, napi_callback_info info);
napi_value replacer_new(napi_env env, napi_callback_info info);
napi_value replacer_push(napi_env env, napi_callback_info info);
napi_value replacer_finish(napi_env env, napi_callback_info info);
napi_value masker_new(napi_env env, napi_callback_info info);
napi_value masker_push(napi_env env, napi_callback_info info);
napi_value masker_finish(napi_env env, napi_callback_info info);

napi_value later_all(napi_env env, napi_callback_info info);
napi_value later_replace(napi_env env, napi_callback_info info);

#endif
