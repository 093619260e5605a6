/*
 * The functions of the crate ac_c, which are proved, for the C of this library alone. It isn't installed, and the shared library doesn't
 * show them.
 *
 * Their pointers are never NULL, except a haystack or an array of length 0. `at` is an automaton that is not freed during the call; a
 * handle is a variable that holds an automaton or NULL.
 */
#ifndef DADOFENNEL_RAW_H
#define DADOFENNEL_RAW_H

#include "dadofennel.h"

typedef struct dado_raw_settings {
    uint32_t kind, start_kind, engine;
    uint32_t fold, prefilter, byte_classes;
    size_t dense_depth, row_memory;
} dado_raw_settings;

typedef struct dado_raw_found {
    dado_match found;             /* where the status is DADO_OK */
    dado_status status;
} dado_raw_found;

typedef struct dado_raw_step {
    dado_cursor cursor;           /* where the walk stands after the call */
    dado_match found;             /* where the status is DADO_OK */
    dado_status status;
} dado_raw_step;

typedef struct dado_raw_some {
    dado_cursor cursor;           /* where the walk stands after the call */
    size_t count;                 /* how many matches were written */
    dado_status status;
} dado_raw_some;

typedef struct dado_raw_listed {
    dado_place place;             /* where the listing stands after the call */
    size_t count;                 /* how many occurrences were written */
    dado_status status;
} dado_raw_listed;

typedef struct dado_raw_given {
    size_t from;                  /* from where the walk goes on */
    size_t count;                 /* how many words were written */
    dado_status status;
} dado_raw_given;

typedef struct dado_raw_length {
    size_t len;
    dado_status status;
} dado_raw_length;

typedef struct dado_raw_about {
    size_t patterns, shortest, longest, memory;
    uint32_t kind, start_kind, engine;
} dado_raw_about;

typedef struct dado_raw_count {
    size_t count;
    dado_status status;
} dado_raw_count;

typedef struct dado_raw_view {
    size_t len, from, cut;
    dado_status status;
} dado_raw_view;

/* What is proved of a masker drops the text that was ready at the next push. dadofennel.c has it within a dado_masker. */
typedef struct dado_raw_masker dado_raw_masker;

/* What each function returns, its name after `dado_raw_`, and its parameters. */
#define DADO_RAW(CALL)                                                                                                                     \
    CALL(dado_raw_settings, settings_default, (void))                                                                                      \
    CALL(dado_status, build,                                                                                                               \
         (const dado_bytes *patterns, size_t count, const dado_raw_settings *settings, const dado_pair *pairs, size_t pair_count,          \
          dado_automaton **handle, dado_fault *fault))                                                                                     \
    CALL(dado_status, share, (const dado_automaton *at, dado_automaton **other))                                                           \
    CALL(void, free, (dado_automaton **handle))                                                                                            \
    CALL(dado_raw_found, find,                                                                                                             \
         (const dado_automaton *at, const uint8_t *haystack, size_t len, size_t start, size_t end, uint32_t anchored,                      \
          uint32_t earliest))                                                                                                              \
    CALL(dado_raw_step, next,                                                                                                              \
         (const dado_automaton *at, const uint8_t *haystack, size_t len, size_t start, size_t end, size_t last, uint32_t anchored,         \
          uint32_t earliest))                                                                                                              \
    CALL(dado_raw_some, walk,                                                                                                              \
         (const dado_automaton *at, const uint8_t *haystack, size_t len, size_t start, size_t end, size_t last, uint32_t anchored,         \
          uint32_t earliest, dado_match *out, size_t room))                                                                                \
    CALL(dado_raw_listed, list,                                                                                                            \
         (const dado_automaton *at, const uint8_t *haystack, size_t len, size_t start, size_t end, size_t last_start, size_t last_end,     \
          uint32_t last_pattern, uint32_t begun, uint32_t words, dado_match *out, size_t room))                                            \
    CALL(dado_raw_given, words,                                                                                                            \
         (const dado_automaton *at, uint32_t kind, const uint8_t *haystack, size_t len, size_t from, dado_match *out, size_t room))        \
    CALL(dado_raw_length, replace_into,                                                                                                    \
         (const dado_automaton *at, const uint8_t *haystack, size_t len, const dado_bytes *replacements, size_t count, uint8_t *out,       \
          size_t room))                                                                                                                    \
    CALL(dado_status, replace,                                                                                                             \
         (const dado_automaton *at, const uint8_t *haystack, size_t len, const dado_bytes *replacements, size_t count, void **owner))      \
    CALL(dado_status, replace_words,                                                                                                       \
         (const dado_automaton *at, uint32_t kind, const uint8_t *haystack, size_t len, const dado_bytes *replacements, size_t count,      \
          void **owner))                                                                                                                   \
    CALL(void, text_view, (void **owner, const uint8_t **at, size_t *len))                                                                 \
    CALL(void, text_free, (void **owner))                                                                                                  \
    CALL(dado_status, stream_new, (const dado_automaton *at, dado_stream **stream))                                                        \
    CALL(dado_status, word_stream_new, (const dado_automaton *at, uint32_t kind, dado_stream **stream))                                    \
    CALL(dado_status, all_words_stream_new, (const dado_automaton *at, dado_stream **stream))                                              \
    CALL(dado_raw_count, stream_push, (dado_stream **stream, const uint8_t *piece, size_t len))                                            \
    CALL(dado_raw_count, stream_some, (dado_stream **stream, dado_match *out, size_t room))                                                \
    CALL(dado_raw_view, stream_view, (dado_stream **stream, const uint8_t **at))                                                           \
    CALL(dado_status, stream_finish, (dado_stream **stream))                                                                               \
    CALL(void, stream_free, (dado_stream **stream))                                                                                        \
    CALL(dado_status, replacer_new, (const dado_automaton *at, dado_replacer **replacer))                                                  \
    CALL(dado_raw_count, replacer_push, (dado_replacer **replacer, const uint8_t *piece, size_t len))                                      \
    CALL(dado_raw_length, replacer_next, (dado_replacer **replacer, const dado_bytes *replacements, size_t count, const uint8_t **at))     \
    CALL(dado_status, replacer_finish, (dado_replacer **replacer))                                                                         \
    CALL(void, replacer_free, (dado_replacer **replacer))                                                                                  \
    CALL(dado_status, mask, (const dado_automaton *at, uint8_t *text, size_t len, uint8_t byte))                                           \
    CALL(dado_status, mask_words, (const dado_automaton *at, uint8_t *text, size_t len, uint8_t byte))                                     \
    CALL(dado_status, masker_new, (const dado_automaton *at, uint8_t byte, dado_raw_masker **masker))                                      \
    CALL(dado_status, word_masker_new, (const dado_automaton *at, uint8_t byte, dado_raw_masker **masker))                                 \
    CALL(dado_raw_count, masker_push, (dado_raw_masker **masker, const uint8_t *piece, size_t len))                                        \
    CALL(dado_raw_length, masker_ready, (dado_raw_masker **masker, const uint8_t **at))                                                    \
    CALL(dado_status, masker_finish, (dado_raw_masker **masker))                                                                           \
    CALL(void, masker_free, (dado_raw_masker **masker))                                                                                    \
    CALL(dado_raw_length, pattern_len, (const dado_automaton *at, uint32_t pattern))                                                       \
    CALL(dado_raw_about, tell, (const dado_automaton *at))

#ifdef __GNUC__
#pragma GCC visibility push(hidden)
#endif
#define DADO_RAW_DECLARED(result, name, parameters) result dado_raw_##name parameters;
DADO_RAW(DADO_RAW_DECLARED)
#ifdef __GNUC__
#pragma GCC visibility pop
#endif

#endif
