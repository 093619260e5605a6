/*
 * The library's calls in the form that Go makes them.
 *
 * What a call writes is returned by value: behind a pointer it would be an allocation of Go for each call. Texts are pointers to bytes
 * and not to void, since cgo doesn't look for Go pointers in these. What lies in memory of C is passed as a number, since for a pointer to
 * an incomplete type cgo allocates. Nothing here keeps a pointer of Go.
 */
#ifndef DADOFENNEL_GO_CALLS_H
#define DADOFENNEL_GO_CALLS_H

#include <dadofennel.h>
#include <stdint.h>
#include <stdlib.h>
#include <string.h>

/* The address of an automaton, a stream, a replacer, a masker, or bytes in memory of C. */
typedef uintptr_t dadogo_at;

/* A dado_bytes in memory of C, as Go writes and keeps it. Were it a pointer, a write of Go would also read what lay there before, and take
 * it for a pointer of Go. */
struct dadogo_slice {
    dadogo_at at;
    size_t len;
};

/* It has the same layout. */
typedef char dadogo_same_size[sizeof(struct dadogo_slice) == sizeof(dado_bytes) ? 1 : -1];
typedef char dadogo_same_place[offsetof(struct dadogo_slice, len) == offsetof(dado_bytes, len) ? 1 : -1];

#define AUTOMATON(at) ((const dado_automaton *)(at))

/* Memory of C, or NULL where there is none; C.malloc of Go would end the program then. */
static inline void *dadogo_take(size_t size) { return malloc(size); }
static inline void dadogo_give(dadogo_at memory) { free((void *)memory); }

/* What a build returns: the automaton, where the status is DADO_OK, and what is known of it. */
struct dadogo_built {
    dadogo_at automaton;
    dado_fault fault;
    size_t memory, shortest, longest;
    uint32_t engine;
    dado_status status;
};

static inline struct dadogo_built dadogo_build(dadogo_at patterns, size_t count, dado_settings settings, const dado_pair *pairs,
                                               size_t pair_count) {
    struct dadogo_built built = {0, {0, 0}, 0, 0, 0, DADO_AUTO, DADO_OK};
    dado_automaton *ac = NULL;
    settings.pairs = pairs;
    settings.pair_count = pair_count;
    built.status = dado_build((const dado_bytes *)patterns, count, &settings, &ac, &built.fault);
    built.automaton = (dadogo_at)ac;
    built.memory = dado_memory(ac);
    built.shortest = dado_shortest(ac);
    built.longest = dado_longest(ac);
    built.engine = dado_engine(ac);
    return built;
}

static inline void dadogo_free(dadogo_at automaton) {
    dado_automaton *ac = (dado_automaton *)automaton;
    dado_free(&ac);
}

/* The numbers that a call returns beside its status. */
struct dadogo_length {
    size_t len;
    dado_status status;
};

static inline struct dadogo_length dadogo_pattern_len(dadogo_at ac, uint32_t pattern) {
    struct dadogo_length length = {0, DADO_OK};
    length.status = dado_pattern_len(AUTOMATON(ac), pattern, &length.len);
    return length;
}

struct dadogo_found {
    dado_match match;
    dado_status status;
};

static inline struct dadogo_found dadogo_find(dadogo_at ac, const uint8_t *text, size_t len) {
    struct dadogo_found found = {{0, 0, 0}, DADO_OK};
    found.status = dado_find(AUTOMATON(ac), text, len, &found.match);
    return found;
}

static inline struct dadogo_found dadogo_find_in(dadogo_at ac, const uint8_t *text, size_t len, dado_span span) {
    struct dadogo_found found = {{0, 0, 0}, DADO_OK};
    found.status = dado_find_in(AUTOMATON(ac), text, len, span, &found.match);
    return found;
}

static inline dado_status dadogo_is_match(dadogo_at ac, const uint8_t *text, size_t len) {
    return dado_is_match(AUTOMATON(ac), text, len);
}

/* What a walk, a listing or a walk over words returns: where it stands, and how many matches it wrote. */
struct dadogo_some {
    dado_cursor cursor;
    size_t count;
    dado_status status;
};

struct dadogo_listed {
    dado_place place;
    size_t count;
    dado_status status;
};

struct dadogo_words {
    size_t from, count;
    dado_status status;
};

static inline struct dadogo_some dadogo_some(dadogo_at ac, const uint8_t *text, size_t len, dado_cursor cursor,
                                             dado_match *out, size_t room) {
    struct dadogo_some some = {cursor, 0, DADO_OK};
    some.status = dado_some(AUTOMATON(ac), text, len, &some.cursor, out, room, &some.count);
    return some;
}

static inline struct dadogo_listed dadogo_overlapping(dadogo_at ac, const uint8_t *text, size_t len, dado_place place,
                                                      dado_match *out, size_t room) {
    struct dadogo_listed listed = {place, 0, DADO_OK};
    listed.status = dado_overlapping_some(AUTOMATON(ac), text, len, &listed.place, out, room, &listed.count);
    return listed;
}

static inline struct dadogo_listed dadogo_all_words(dadogo_at ac, const uint8_t *text, size_t len, dado_place place,
                                                    dado_match *out, size_t room) {
    struct dadogo_listed listed = {place, 0, DADO_OK};
    listed.status = dado_overlapping_words_some(AUTOMATON(ac), text, len, &listed.place, out, room, &listed.count);
    return listed;
}

static inline struct dadogo_words dadogo_words(dadogo_at ac, uint32_t kind, const uint8_t *text, size_t len, size_t from,
                                               dado_match *out, size_t room) {
    struct dadogo_words words = {from, 0, DADO_OK};
    words.status = dado_words_some(AUTOMATON(ac), kind, text, len, &words.from, out, room, &words.count);
    return words;
}

static inline dado_status dadogo_mask(dadogo_at ac, uint8_t *text, size_t len, uint8_t byte) {
    return dado_mask(AUTOMATON(ac), text, len, byte);
}

static inline dado_status dadogo_mask_words(dadogo_at ac, uint8_t *text, size_t len, uint8_t byte) {
    return dado_mask_words(AUTOMATON(ac), text, len, byte);
}

/* ---- Texts that come in pieces ---- */

/* What was made of an automaton, where the status is DADO_OK. */
struct dadogo_made {
    dadogo_at at;
    dado_status status;
};

static inline struct dadogo_made dadogo_stream_new(dadogo_at ac) {
    dado_stream *stream = NULL;
    dado_status status = dado_stream_new(AUTOMATON(ac), &stream);
    struct dadogo_made made = {(dadogo_at)stream, status};
    return made;
}

static inline struct dadogo_made dadogo_word_stream_new(dadogo_at ac, uint32_t kind) {
    dado_stream *stream = NULL;
    dado_status status = dado_word_stream_new(AUTOMATON(ac), kind, &stream);
    struct dadogo_made made = {(dadogo_at)stream, status};
    return made;
}

static inline struct dadogo_made dadogo_replacer_new(dadogo_at ac) {
    dado_replacer *replacer = NULL;
    dado_status status = dado_replacer_new(AUTOMATON(ac), &replacer);
    struct dadogo_made made = {(dadogo_at)replacer, status};
    return made;
}

static inline struct dadogo_made dadogo_masker_new(dadogo_at ac, uint8_t byte) {
    dado_masker *masker = NULL;
    dado_status status = dado_masker_new(AUTOMATON(ac), byte, &masker);
    struct dadogo_made made = {(dadogo_at)masker, status};
    return made;
}

static inline void dadogo_stream_free(dadogo_at at) {
    dado_stream *stream = (dado_stream *)at;
    dado_stream_free(&stream);
}

static inline void dadogo_replacer_free(dadogo_at at) {
    dado_replacer *replacer = (dado_replacer *)at;
    dado_replacer_free(&replacer);
}

static inline void dadogo_masker_free(dadogo_at at) {
    dado_masker *masker = (dado_masker *)at;
    dado_masker_free(&masker);
}

/* What a step does before it asks for what is decided. */
enum { DADOGO_ASK = 0, DADOGO_PUSH = 1, DADOGO_FINISH = 2 };

/* How many bytes a step took, how many matches or bytes it wrote, and what is left of the slice that it wrote last. More may be decided
 * where `written` is all that there was room for. */
struct dadogo_step {
    size_t taken, written;
    struct dadogo_slice rest;
    dado_status status;
};

/* One step of a stream: pushes a piece or finishes, if that is asked for, and writes the matches that are decided. */
static inline struct dadogo_step dadogo_stream_step(dadogo_at at, int act, const uint8_t *piece, size_t len, dado_match *out,
                                                    size_t room) {
    struct dadogo_step step = {0, 0, {0, 0}, DADO_OK};
    dado_stream *stream = (dado_stream *)at;
    if (act == DADOGO_PUSH) step.status = dado_stream_push(&stream, piece, len, &step.taken);
    if (act == DADOGO_FINISH) step.status = dado_stream_finish(&stream);
    if (step.status != DADO_OK) return step;
    step.status = dado_stream_some(&stream, out, room, &step.written);
    if (step.status == DADO_NONE) step.status = DADO_OK;
    return step;
}

/* What a stream holds: bytes in memory of C, until the next push. */
static inline dado_held dadogo_stream_view(dadogo_at at) {
    dado_stream *stream = (dado_stream *)at;
    dado_held held = {NULL, 0, 0, 0};
    (void)dado_stream_view(&stream, &held);
    return held;
}

/* Copies the first bytes of the slice to what is left of the room, and keeps the rest of it. */
static inline void dadogo_put(struct dadogo_step *step, dado_bytes slice, uint8_t *out, size_t room) {
    size_t len = room - step->written < slice.len ? room - step->written : slice.len;
    if (len != 0) memcpy(out + step->written, slice.at, len);
    step->written += len;
    step->rest.at = (dadogo_at)slice.at + len;
    step->rest.len = slice.len - len;
}

/* One step of a replacer: pushes a piece or finishes, if that is asked for, and writes the text that is decided, after `rest`. Where it
 * pushes or finishes, `rest` is empty. */
static inline struct dadogo_step dadogo_replacer_step(dadogo_at at, int act, const uint8_t *piece, size_t len, dadogo_at replacements,
                                                      size_t count, struct dadogo_slice rest, uint8_t *out, size_t room) {
    struct dadogo_step step = {0, 0, {0, 0}, DADO_OK};
    dado_replacer *replacer = (dado_replacer *)at;
    dado_bytes slice = dado_bytes_of((const void *)rest.at, rest.len);
    if (act == DADOGO_PUSH) step.status = dado_replacer_push(&replacer, piece, len, &step.taken);
    if (act == DADOGO_FINISH) step.status = dado_replacer_finish(&replacer);
    while (step.status == DADO_OK) {
        dadogo_put(&step, slice, out, room);
        if (step.written == room) return step;
        step.status = dado_replacer_next(&replacer, (const dado_bytes *)replacements, count, &slice);
    }
    if (step.status == DADO_NONE) step.status = DADO_OK;
    return step;
}

/* The same of a masker. */
static inline struct dadogo_step dadogo_masker_step(dadogo_at at, int act, const uint8_t *piece, size_t len, struct dadogo_slice rest,
                                                    uint8_t *out, size_t room) {
    struct dadogo_step step = {0, 0, {0, 0}, DADO_OK};
    dado_masker *masker = (dado_masker *)at;
    dado_bytes slice = dado_bytes_of((const void *)rest.at, rest.len);
    if (act == DADOGO_PUSH) step.status = dado_masker_push(&masker, piece, len, &step.taken);
    if (act == DADOGO_FINISH) step.status = dado_masker_finish(&masker);
    if (act != DADOGO_ASK && step.status == DADO_OK) step.status = dado_masker_ready(&masker, &slice);
    if (step.status == DADO_OK) dadogo_put(&step, slice, out, room);
    return step;
}

#endif
