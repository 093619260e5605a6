/*
 * Dadofennel: searching for many patterns at once, proved.
 *
 * An automaton is built once of patterns, and searches as often as needed, in time that depends on the bytes that it reads and not
 * on how many patterns there are. Patterns and haystacks are bytes of any value. Patterns are numbered from 0 in the order in
 * which they are given; places are counted in bytes from 0, and the end of a match is the place after its last byte.
 *
 *     dado_bytes patterns[] = {DADO_LITERAL("fox"), DADO_LITERAL("brown")};
 *     dado_automaton *ac = NULL;
 *     if (dado_build(patterns, 2, NULL, &ac, NULL) == DADO_OK) {
 *         dado_cursor cursor = dado_cursor_over(0, len);
 *         dado_match found;
 *         while (dado_next(ac, text, len, &cursor, &found) == DADO_OK)
 *             printf("%u %zu %zu\n", (unsigned)found.pattern, found.start, found.end);
 *     }
 *     dado_free(&ac);
 *
 * What holds of every call:
 *
 * - Status. A call that can fail returns a `dado_status`. Its text is `dado_error_text`. What a call writes through a pointer is
 *   written where its description says so, and on no other status.
 * - NULL. Each pointer may be NULL, where its description says what that means, or else the status is DADO_BAD_ARGUMENT. An
 *   array or a haystack of length 0 may be NULL. An automaton that is NULL gives DADO_NO_AUTOMATON.
 * - Threads. A search reads an automaton and writes nothing of it, so any number of threads may search with one at the same time.
 *   No thread may free it, or build over it, before all searches with it have returned. No call waits for another, and there is
 *   no state but what the caller holds, and the choice of dado_cpu. With the same stream, replacer or masker, one call at a time;
 *   threads may pass it on.
 * - Memory. Where a call says that it takes memory, it is of `malloc`, and DADO_NO_MEMORY says that there was none. Nothing is
 *   lost then: the automaton, text, stream, replacer or masker that the call was to replace is still there. All other calls take none. A
 *   haystack is never copied; a stream copies each piece once.
 * - Stack. No proof bounds it. As measured a build takes 108 KiB, the calls of a stream, a replacer or a masker 31 KiB, and all others
 *   14 KiB, whatever the patterns. So a thread that builds is given 128 KiB at least.
 * - Cost. What a call says of looks at states and of bytes moved is proved of a body below it, which counts them; docs/TRUST.md names
 *   these, and the calls that have none. Neither the time of a call is proved, nor how much memory it takes.
 * - Bytes that a call is given must stay the same until it returns, and what it writes to must not overlap what it reads.
 *
 * What is proved of this library, and what a caller in C must not do, is in docs/TRUST.md. Each function here tests its pointers for
 * NULL, and calls a function that is proved. Those of a masker also keep what is ready until it was asked for.
 */
#ifndef DADOFENNEL_H
#define DADOFENNEL_H

#include <stddef.h>
#include <stdint.h>

/* The version of this header. That of the library that runs is dado_version(). */
#define DADO_VERSION "1.1.0"
#define DADO_VERSION_MAJOR 1
#define DADO_VERSION_MINOR 1
#define DADO_VERSION_PATCH 0

#ifdef __GNUC__
#define DADO_INLINE static __inline__
#else
#define DADO_INLINE static inline
#endif

#ifdef __cplusplus
extern "C" {
#endif

/* What a call returns. */
typedef uint32_t dado_status;

enum {
    DADO_OK = 0,                  /* done; of a search: a match was found */
    DADO_NONE = 1,                /* a search: there is no match, or no further one */
    DADO_NO_AUTOMATON = 2,        /* the automaton is NULL: never built, or freed */
    DADO_BAD_ARGUMENT = 3,        /* a pointer is NULL that may not be */
    DADO_NO_MEMORY = 4,           /* memory ran out */
    DADO_TOO_MANY_STATES = 5,     /* a build: more states than can be numbered */
    DADO_TOO_MANY_PATTERNS = 6,   /* a build: more patterns than can be numbered, 2147483647 */
    DADO_PATTERN_TOO_LONG = 7,    /* a build: a pattern of more than 2147483646 bytes */
    DADO_BAD_KIND = 8,            /* a build, or a search for words: `kind` is none of the three */
    DADO_BAD_START_KIND = 9,      /* a build: `start_kind` is none of the three */
    DADO_BAD_ENGINE = 10,         /* a build: `engine` is none of the four */
    DADO_BAD_PAIRS = 11,          /* a build: a byte is named twice in `pairs`, or pairs beside `fold` */
    DADO_NOT_ANCHORED = 12,       /* an anchored search, by an automaton or a call that has none */
    DADO_NOT_UNANCHORED = 13,     /* an unanchored search, by an automaton that was built for anchored ones alone */
    DADO_NOT_STANDARD = 14,       /* overlapping matches, whole words or a mask, by an automaton of a leftmost kind */
    DADO_BAD_SPAN = 15,           /* the span ends after the haystack, or starts more than one past its end */
    DADO_BAD_CURSOR = 16,         /* the cursor, or the place, is not one that a walk over this haystack has */
    DADO_WRONG_COUNT = 17,        /* not as many replacements as patterns */
    DADO_TOO_SHORT = 18,          /* the buffer is too short for the text */
    DADO_BAD_PATTERN = 19,        /* the automaton has no pattern of this number */
    DADO_EMPTY_PATTERN = 20,      /* whole words, a stream, a replacer or a masker, by an automaton that has an empty pattern */
    DADO_NO_STREAM = 21,          /* the stream is NULL: never made, or freed */
    DADO_FINISHED = 22,           /* a push to a stream, a replacer or a masker that was finished */
    DADO_TOO_MANY_BYTES = 23,     /* more bytes than there are places: pushed to one of these, or in a replaced text */
    DADO_NO_REPLACER = 24,        /* the replacer is NULL: never made, or freed */
    DADO_NO_MASKER = 25           /* the masker is NULL: never made, or freed */
};

/* Which of several overlapping occurrences is the match. */
enum {
    DADO_STANDARD = 0,            /* the one that ends first; of those the one that starts first, then the lower number */
    DADO_LEFTMOST_FIRST = 1,      /* the one that starts first; of those the lower number, as in a regular expression */
    DADO_LEFTMOST_LONGEST = 2     /* the one that starts first; of those the longest, as in a POSIX one; then the lower number */
};

/* Which searches an automaton is built for. */
enum {
    DADO_UNANCHORED = 0,          /* a match may start anywhere */
    DADO_ANCHORED = 1,            /* a match starts where the search does, or there is none */
    DADO_BOTH = 2                 /* both; a DFA takes about twice the memory */
};

/* What searches. It changes time and memory, and no result. */
enum {
    DADO_AUTO = 0,                /* chosen by the library; it never serves, one of the other three does */
    DADO_NONCONTIGUOUS = 1,       /* built soonest */
    DADO_CONTIGUOUS = 2,          /* the least memory; take it for patterns of a stranger's choice */
    DADO_DFA = 3                  /* searches fastest, and takes the most memory */
};

/* A number of bytes at a place. `at` may be NULL where `len` is 0, and nowhere else. A pattern of {NULL, 3} is DADO_BAD_ARGUMENT; of
 * replacements nobody looks for that: where a match takes one of {NULL, 3}, bytes are read there, which ends the program. */
typedef struct dado_bytes {
    const uint8_t *at;
    size_t len;
} dado_bytes;

/* The bytes of a string literal without its 0, to begin a variable with. */
#ifdef __cplusplus
#define DADO_LITERAL(text) {reinterpret_cast<const uint8_t *>("" text), sizeof(text) - 1}
#else
#define DADO_LITERAL(text) {(const uint8_t *)("" text), sizeof(text) - 1}
#endif

/* The first `len` bytes at `at`, whatever its type. */
DADO_INLINE dado_bytes dado_bytes_of(const void *at, size_t len) {
    dado_bytes bytes;
#ifdef __cplusplus
    bytes.at = static_cast<const uint8_t *>(at);
#else
    bytes.at = (const uint8_t *)at;
#endif
    bytes.len = len;
    return bytes;
}

/* Two bytes that match each other. */
typedef struct dado_pair {
    uint8_t a, b;
} dado_pair;

/* The match of the pattern of this number: the bytes from `start` up to and without `end`. */
typedef struct dado_match {
    size_t start, end;
    uint32_t pattern;
} dado_match;

/* An automaton. A caller holds a pointer to it, which is NULL before it is built and after it is freed. */
typedef struct dado_automaton dado_automaton;

/*
 * How an automaton is built. Begin with dado_settings_default() and change what you need, so that fields which a later version adds
 * are there, too. They are added at the end, and the library is told how many bytes the caller's header has of them.
 *
 * kind          which of several overlapping occurrences is the match: DADO_STANDARD at first. Overlapping matches need it.
 * start_kind    which searches it is for: DADO_UNANCHORED at first
 * engine        what searches: DADO_AUTO at first. That takes a DFA for up to 100 patterns and one start kind, else a contiguous
 *               NFA, and goes on to the next where one would be too large.
 * fold          0, at first, or else ASCII letters match in either case
 * prefilter     not 0, at first: searches skip by a prefilter, where one serves. It changes no result.
 * byte_classes  not 0, at first: bytes that lead alike are one class. Without classes a state takes more memory. It changes no
 *               result.
 * dense_depth   to which depth the states of an NFA keep a row: SIZE_MAX, at first, for 3 (noncontiguous) and 2 (contiguous). It
 *               changes no result.
 * row_memory    how many bytes of memory the rows of a contiguous NFA may take: 16 MiB at first; 0 is for none. It changes no
 *               result.
 * pairs         `pair_count` pairs of bytes that match each other; none at first. No byte may be in two pairs, or twice in one.
 */
typedef struct dado_settings {
    uint32_t kind, start_kind, engine;
    uint32_t fold, prefilter, byte_classes;
    size_t dense_depth, row_memory;
    const dado_pair *pairs;
    size_t pair_count;
} dado_settings;

/* More about a failed build. `pattern` is the pattern's number at DADO_PATTERN_TOO_LONG, or the byte that was named twice at
 * DADO_BAD_PAIRS; `count` is the length of that pattern, or at DADO_TOO_MANY_STATES and DADO_TOO_MANY_PATTERNS a number past the
 * greatest that would be needed. Both are 0 elsewhere, also where pairs stand beside `fold`. */
typedef struct dado_fault {
    uint64_t count;
    uint32_t pattern;
} dado_fault;

/*
 * Where a search looks: the bytes of the haystack from `start` up to and without `end`. With `anchored` not 0 a match starts at
 * `start`, or there is none. With `earliest` not 0 the match is that of the standard kind, whatever the automaton's, so the search
 * ends as soon as it knows of one. A span may start one past its end: then nothing is found, not even an empty pattern.
 */
typedef struct dado_span {
    size_t start, end;
    uint32_t anchored, earliest;
} dado_span;

/*
 * Where a walk over a haystack stands: what is left of its span, and where the last match ended, or SIZE_MAX for none. A caller may
 * copy it, keep it, and go on from it at any time, with this automaton or another one of the same patterns and settings, and over
 * the same haystack. It points to nothing and is never freed. At its end `start` is one past `end`.
 */
typedef struct dado_cursor {
    size_t start, end, last;
    uint32_t anchored, earliest;
} dado_cursor;

/*
 * Where a listing of all occurrences of a span stands: the span, and the occurrence that was given last, if `begun` is not 0. It is
 * a value like a cursor.
 */
typedef struct dado_place {
    size_t start, end;
    dado_match last;
    uint32_t begun;
} dado_place;

/* A text that the library has allocated: `len` bytes at `at`, which stay there until dado_text_free, or until dado_replace has made
 * another one in its place. `at` may be NULL where `len` is 0. Begin with DADO_NO_TEXT; don't write to its fields, and don't free a
 * copy of it too. */
typedef struct dado_text {
    void *owner;
    const uint8_t *at;
    size_t len;
} dado_text;

#define DADO_NO_TEXT {NULL, NULL, 0}

/* A search of a text that comes in pieces. A caller holds a pointer to it, which is NULL before it is made and after it is freed. */
typedef struct dado_stream dado_stream;

/* What a stream holds of the bytes that were pushed: `len` bytes at `at`, the last ones. The first of them has the place `from`. All
 * bytes before the place `cut` are decided: no match that is still to come begins before it; of all whole words, none ends before it. */
typedef struct dado_held {
    const uint8_t *at;
    size_t len, from, cut;
} dado_held;

/* A replacement of a text that comes in pieces. A caller holds a pointer to it, which is NULL before it is made and after it is freed. */
typedef struct dado_replacer dado_replacer;

/* A masking of a text that comes in pieces. A caller holds a pointer to it, which is NULL before it is made and after it is freed. */
typedef struct dado_masker dado_masker;

/* ---- Building and freeing ---- */

/*
 * The settings at first, to the `size` bytes at `settings`: standard matches, unanchored searches, the engine chosen by the library, no
 * pairs. Bytes after the fields that this library has are 0.
 *
 * DADO_OK. DADO_BAD_ARGUMENT: `settings` is NULL, or `size` is less than that of version 1.0: nothing is written. It takes no memory.
 */
dado_status dado_settings_fill(dado_settings *settings, size_t size);

/*
 * Builds an automaton of `count` patterns, and puts it at `*handle`. An automaton that was there is freed, once the new one is
 * built. `size` is how many bytes the settings have. `*handle` must be NULL or an automaton; a variable that was never set is neither.
 *
 * An empty pattern occurs at every place. The same pattern may be given several times. No patterns at all make an automaton that
 * finds nothing. With `settings` NULL, those of dado_settings_default() are taken. The patterns are not needed after the call.
 *
 * On any status but DADO_OK, `*handle` is unchanged. What is known of the fault is written to `*fault` on every status, if that isn't
 * NULL. The statuses, in the order in which they are tested: DADO_BAD_ARGUMENT: `handle`, an array that isn't empty, or the place of a
 * pattern that isn't, is NULL, or `size` is less than that of version 1.0, or a byte after the settings that this library has isn't 0,
 * so that a later one is asked for; DADO_BAD_KIND, DADO_BAD_START_KIND, DADO_BAD_ENGINE, DADO_BAD_PAIRS. Up to here no memory is taken.
 * Then, of the first pattern that passes a limit of the library, DADO_TOO_MANY_PATTERNS, DADO_PATTERN_TOO_LONG or DADO_TOO_MANY_STATES;
 * at last DADO_TOO_MANY_STATES, where the patterns pass the limit of the named engine. DADO_NO_MEMORY may come in place of these.
 *
 * Takes memory. Time and memory are in proportion to the bytes of the patterns; for a DFA times the classes of bytes, at most 256.
 * With the same `*handle`, one call at a time.
 */
dado_status dado_build_sized(const dado_bytes *patterns, size_t count, const dado_settings *settings, size_t size, dado_automaton **handle,
                             dado_fault *fault);

/*
 * What most callers take: the settings at first, and a build. They are the two calls above for the settings of this header, whose size they
 * pass on. As symbols of the library they take those of version 1.0, and always will: who declares them without this header, in another
 * language, and wants a later field, calls the two above.
 */
#ifdef DADO_LIBRARY
dado_settings dado_settings_default(void);
dado_status dado_build(const dado_bytes *patterns, size_t count, const dado_settings *settings, dado_automaton **handle, dado_fault *fault);
#else
DADO_INLINE dado_settings dado_settings_default(void) {
    dado_settings settings;
    (void)dado_settings_fill(&settings, sizeof settings);
    return settings;
}

DADO_INLINE dado_status dado_build(const dado_bytes *patterns, size_t count, const dado_settings *settings, dado_automaton **handle,
                                   dado_fault *fault) {
    return dado_build_sized(patterns, count, settings, sizeof *settings, handle, fault);
}
#endif

/*
 * Puts another handle of the same automaton at `*other`: a second owner, which is freed on its own. What was there is freed. The
 * automaton itself is not copied; it goes when its last handle is freed. Since threads may search with one handle, this is for
 * those that don't know which of them ends last.
 *
 * DADO_NO_AUTOMATON if `ac` is NULL, DADO_NO_MEMORY if there is none: `*other` is unchanged then. Takes a few bytes of memory.
 * `*other` must be a variable of its own, not the one that holds `ac`.
 */
dado_status dado_share(const dado_automaton *ac, dado_automaton **other);

/*
 * Frees the automaton at `*handle`, if there is one, and sets `*handle` to NULL. So a second call does nothing. With the same
 * `*handle`, one call at a time, and not while a search with it runs.
 */
void dado_free(dado_automaton **handle);

/* ---- One match ---- */

/*
 * The match of a span, if it has one, to `*found`: the best of the automaton's kind.
 *
 * DADO_OK: there is one. DADO_NONE: there is none. DADO_NO_AUTOMATON; DADO_BAD_ARGUMENT: `found`, or a haystack that isn't empty, is
 * NULL; DADO_BAD_SPAN; DADO_NOT_ANCHORED, DADO_NOT_UNANCHORED: the automaton was not built for such a search. `*found` is written at
 * DADO_OK alone.
 *
 * It looks at no more than two states for each byte of the span, or at one with a DFA. Under the standard kind it reads no further
 * than the match ends. It takes no memory. Any number of threads at the same time.
 */
dado_status dado_find_in(const dado_automaton *ac, const void *haystack, size_t len, dado_span span, dado_match *found);

/* The match of the whole haystack, by a search that isn't anchored: dado_find_in. */
dado_status dado_find(const dado_automaton *ac, const void *haystack, size_t len, dado_match *found);

/*
 * Whether some pattern occurs in the haystack: DADO_OK if so, DADO_NONE if not, or a status of dado_find_in. Under a leftmost kind it
 * may read less than dado_find, since the first end of a match that it meets will do.
 */
dado_status dado_is_match(const dado_automaton *ac, const void *haystack, size_t len);

/* ---- One match after another ---- */

/* The walk over the bytes from `start` to `end` of a haystack, at its beginning: neither anchored nor earliest. */
dado_cursor dado_cursor_over(size_t start, size_t end);

/*
 * The next match of a walk, to `*found`. A walk takes the match of its span, goes on where that ends, and so on, so no two of its
 * matches overlap. An empty match where the last one ended is left out, and the search is done again from one byte further on.
 * `*cursor` is set to where the walk stands now.
 *
 * DADO_OK: there is one. DADO_NONE: there is none; the cursor is at the end, and each further call returns DADO_NONE.
 * DADO_NO_AUTOMATON; DADO_BAD_ARGUMENT: `cursor`, `found`, or a haystack that isn't empty, is NULL; DADO_BAD_CURSOR: the cursor's `end`
 * is past the haystack, its `start` is more than one past its `end`, or its `last` is neither SIZE_MAX nor at most `start`;
 * DADO_NOT_ANCHORED, DADO_NOT_UNANCHORED. `*cursor` and
 * `*found` are unchanged at these, and `*found` at DADO_NONE. A cursor of any content gets one of these statuses.
 *
 * Under the standard kind all calls of a walk together look at no more than two states for each byte, or at one with a DFA. Under a
 * leftmost kind a search may read past a match, by as much as the longest pattern, and these bytes are read again. It takes no
 * memory. Any number of threads at the same time, each with a cursor of its own.
 */
dado_status dado_next(const dado_automaton *ac, const void *haystack, size_t len, dado_cursor *cursor, dado_match *found);

/*
 * The next matches of a walk, as many as `out` has room for: the first `*count` of `room` are written, and `*cursor` is set to where
 * the walk stands then. They are those that dado_next gives in as many calls. A batch reads ahead within the call where the
 * automaton can, in several lanes, which is up to several times as fast on long haystacks; take a few hundred matches at a time. With
 * room for fewer than 16 it reads nothing ahead.
 *
 * DADO_OK: some were written, or `room` is 0. Fewer than `room` means that the walk is at its end. DADO_NONE: none is left. The other
 * statuses are those of dado_next; then `*count` is 0, and `*cursor` is unchanged. DADO_BAD_ARGUMENT also if `count`, or `out` with
 * room, is NULL. Of `out` the entries from `*count` on may have changed.
 *
 * Under the standard kind a call looks at no more than two states for each byte that the walk passes in it, or at one with a DFA. Where
 * it reads ahead, it also looks at one for each of at most 8192 bytes after these, and the next call looks at those again. Under a
 * leftmost kind without an empty pattern it looks as often, too, at up to as many bytes after each match as the longest pattern has, and
 * one; and where it reads ahead, at one state for each byte up to the end at most, none twice for it. It takes no memory. Threads as with
 * dado_next.
 */
dado_status dado_some(const dado_automaton *ac, const void *haystack, size_t len, dado_cursor *cursor, dado_match *out, size_t room,
                      size_t *count);

/* ---- Every occurrence ---- */

/* The listing of all occurrences in the bytes from `start` to `end` of a haystack, at its beginning. */
dado_place dado_place_over(size_t start, size_t end);

/*
 * The next occurrences of a listing, overlapping ones too, in the order of end, start and number, as many as `out` has room for: the
 * first `*count` of `room` are written, and `*place` is set to where the listing stands then.
 *
 * DADO_OK: some were written, or `room` is 0. Fewer than `room` means that the listing is at its end. DADO_NONE: none is left.
 * DADO_NO_AUTOMATON; DADO_BAD_ARGUMENT: `place`, `count`, `out` with room, or a haystack that isn't empty, is NULL; DADO_BAD_CURSOR: the
 * place's `end` is past the haystack, or its `start` is more than one past its `end`; DADO_NOT_UNANCHORED; DADO_NOT_STANDARD: the
 * automaton is of a leftmost kind. Then `*count` is 0, and `*place` is unchanged. A place of any content gets one of these statuses. Of
 * `out` the entries from `*count` on may have changed.
 *
 * A call goes on where the last one ended: it reads again at most as many bytes before the end of the last occurrence as the longest
 * pattern has, and then each byte once, with two looks at states at most. Where the automaton can, it reads ahead: it looks at one state
 * for each of at most 8192 bytes after the last occurrence that it gives, and the next call looks at those again. So take a few hundred
 * occurrences at a time. It takes no memory. Any number of threads at the same time.
 */
dado_status dado_overlapping_some(const dado_automaton *ac, const void *haystack, size_t len, dado_place *place, dado_match *out,
                                  size_t room, size_t *count);

/* ---- Whole words ---- */

/*
 * The next whole words of a text, as many as `out` has room for: the first `*count` of `room` are written. `*from` is 0 at first, and is
 * set to the end of the last word, from where the next call goes on; it stays where none is written.
 *
 * A word byte is an ASCII letter, a digit, `_`, or a byte from 0x80 on, as those of a character beyond ASCII are. An occurrence is a whole
 * word where neither the byte before it nor the byte after it is a word byte; beyond both ends of the text there is none. Of the whole
 * words a walk takes the best under `kind`, goes on where that ends, and so on, so no two of them overlap. With `new` and `new york` the
 * text "new yorker" has the word `new`, under each of the three kinds. The automaton itself must be of the standard kind, since no other
 * meets every occurrence.
 *
 * DADO_OK: some were written, or `room` is 0. Fewer than `room` means that no word is left. DADO_NONE: none is left.
 * DADO_NO_AUTOMATON; DADO_BAD_ARGUMENT: `from`, `count`, `out` with room, or a haystack that isn't empty, is NULL; DADO_BAD_KIND: `kind` is
 * none of the three; DADO_BAD_CURSOR: `*from` is past the haystack; DADO_NOT_UNANCHORED; DADO_NOT_STANDARD: the automaton is of a leftmost
 * kind; DADO_EMPTY_PATTERN: one of its patterns is empty. The last five are tested in this order. At these `*count` is 0, and `*from` is
 * unchanged. Any number in `*from` gets one of these statuses. Of `out` the entries from `*count` on may have changed.
 *
 * A call looks at no more than two states for each byte from `*from` to the end of the last word, or of the haystack if fewer than `room`
 * are written, or at one with a DFA. Under a leftmost kind it looks as often at up to as many bytes after each word as the longest pattern
 * has, and one. It takes no memory. Any number of threads at the same time.
 */
dado_status dado_words_some(const dado_automaton *ac, uint32_t kind, const void *haystack, size_t len, size_t *from, dado_match *out,
                            size_t room, size_t *count);

/*
 * The next whole words of a listing, overlapping ones too, in the order of end, start and number, as many as `out` has room for: the
 * first `*count` of `room` are written, and `*place` is set to where the listing stands then. They are those occurrences of
 * dado_overlapping_some that are whole words of the haystack: the bytes beside the span count, too. The place is one of
 * dado_place_over, and may go from one of both calls to the other.
 *
 * DADO_OK: some were written, or `room` is 0. Fewer than `room` means that no word is left. DADO_NONE: none is left. The other statuses
 * are those of dado_overlapping_some, and after them DADO_EMPTY_PATTERN: one of the patterns is empty. Then `*count` is 0, and `*place`
 * is unchanged. A place of any content gets one of these statuses. Of `out` the entries from `*count` on may have changed.
 *
 * It costs what dado_overlapping_some costs for the occurrences up to the last word that it gives, or for all if fewer than `room` are
 * written. It takes no memory. Any number of threads at the same time.
 */
dado_status dado_overlapping_words_some(const dado_automaton *ac, const void *haystack, size_t len, dado_place *place, dado_match *out,
                                        size_t room, size_t *count);

/* ---- Replacement ---- */

/*
 * The haystack with each match of its walk replaced by the replacement of its pattern, to the caller's buffer. `replacements` has one
 * for each pattern. The length of the text is written to `*needed`.
 *
 * DADO_OK: the text is the first `*needed` bytes of `out`. DADO_TOO_SHORT: `room` is less than `*needed`. DADO_TOO_MANY_BYTES: the text
 * has more bytes than a size_t can say, so no buffer holds it. DADO_NO_AUTOMATON; DADO_BAD_ARGUMENT: `needed`, or an array that isn't
 * empty, is NULL; DADO_WRONG_COUNT: `count` isn't the number of patterns; DADO_NOT_UNANCHORED: the automaton was built for anchored
 * searches alone. At all but the first two `*needed` is 0. `out` changes at DADO_OK alone, and there not after the text.
 *
 * Searches the haystack for the length, and again to write the text if there is room for it. Under the standard kind each of the two
 * searches looks at no more than two states for each byte, or at one with a DFA, whether it reads ahead or not. Takes no memory. To ask
 * for the length alone, pass NULL and 0. dado_replace searches once, and takes memory. Any number of threads at the same time.
 */
dado_status dado_replace_into(const dado_automaton *ac, const void *haystack, size_t len, const dado_bytes *replacements, size_t count,
                              void *out, size_t room, size_t *needed);

/* Frees the text, if there is one, and sets `*text` to DADO_NO_TEXT. So a second call does nothing. */
void dado_text_free(dado_text *text);

/*
 * The same text, in memory of the library, to `*text`: DADO_NO_TEXT, or a text of an earlier call, which is freed once the new one is
 * made. So the haystack and the replacements may lie in that earlier text. The new one belongs to the caller until dado_text_free, or
 * until the next dado_replace to `text`. The statuses are those of dado_replace_into, but DADO_NO_MEMORY in place of DADO_TOO_SHORT and
 * DADO_TOO_MANY_BYTES, and DADO_BAD_ARGUMENT if `text` is NULL; on any but DADO_OK `*text` is unchanged. Takes memory. Any number of
 * threads at the same time, each with a text of its own.
 */
dado_status dado_replace(const dado_automaton *ac, const void *haystack, size_t len, const dado_bytes *replacements, size_t count,
                         dado_text *text);

/*
 * The haystack with each of its whole words under `kind` replaced by the replacement of its pattern, to `*text`, as dado_replace does it
 * with matches. The words are those of dado_words_some.
 *
 * DADO_OK; DADO_NO_AUTOMATON; DADO_BAD_ARGUMENT: `text`, or an array that isn't empty, is NULL; DADO_BAD_KIND: `kind` is none of the
 * three; DADO_WRONG_COUNT: `count` isn't the number of patterns; DADO_NOT_UNANCHORED; DADO_NOT_STANDARD: the automaton is of a leftmost
 * kind; DADO_EMPTY_PATTERN: one of its patterns is empty; DADO_NO_MEMORY. The last six are tested in this order. On any but DADO_OK
 * `*text` is unchanged. Takes memory. Any number of threads at the same time, each with a text of its own.
 */
dado_status dado_replace_words(const dado_automaton *ac, uint32_t kind, const void *haystack, size_t len, const dado_bytes *replacements,
                               size_t count, dado_text *text);

/* ---- Text that comes in pieces ---- */

/*
 * A stream searches a text that is pushed to it piece by piece, under any kind. Its matches are those of the whole text by
 * dado_next, wherever one piece ends and the next begins; their places are counted from the first byte of the first piece. So:
 *
 *     dado_stream *stream = NULL;
 *     dado_status status = dado_stream_new(ac, &stream);
 *     while (status == DADO_OK && (len = fread(piece, 1, sizeof piece, file)) > 0)
 *         for (at = 0; at < len && status == DADO_OK; at += taken) {
 *             status = dado_stream_push(&stream, piece + at, len - at, &taken);
 *             while (dado_stream_some(&stream, many, 256, &count) == DADO_OK)
 *                 use(many, count);
 *         }
 *     if (status == DADO_OK) status = dado_stream_finish(&stream);
 *     while (dado_stream_some(&stream, many, 256, &count) == DADO_OK)
 *         use(many, count);
 *     dado_stream_free(&stream);
 *
 * To replace the matches, make a replacer of the automaton, below. A stream of whole words is made by dado_word_stream_new, or by
 * dado_all_words_stream_new, and serves in the same calls: what these say of a match, they do of a word.
 */

/*
 * Makes a stream of an automaton, and puts it at `*stream`. A stream that was there is freed, once the new one is made. It owns the
 * automaton too, which may be freed before it.
 *
 * DADO_NO_AUTOMATON; DADO_BAD_ARGUMENT: `stream` is NULL; DADO_NOT_UNANCHORED: the automaton was built for anchored searches alone;
 * DADO_EMPTY_PATTERN: one of its patterns is empty; DADO_NO_MEMORY. `*stream` is unchanged at these.
 *
 * Takes 64 KiB of memory, or 8 times as much as the longest pattern has, and no more in the calls after that.
 */
dado_status dado_stream_new(const dado_automaton *ac, dado_stream **stream);

/*
 * Makes a stream of the whole words of a text under `kind`: they are those of the whole text by dado_words_some, wherever one piece ends
 * and the next begins. A word is decided once the byte after it was pushed, or the stream is finished; under a leftmost kind, once no byte
 * that may follow can change it either. The stream is put at `*stream`, as by dado_stream_new.
 *
 * DADO_NO_AUTOMATON; DADO_BAD_ARGUMENT: `stream` is NULL; DADO_BAD_KIND: `kind` is none of the three; DADO_NOT_UNANCHORED: the automaton
 * was built for anchored searches alone; DADO_NOT_STANDARD: it is of a leftmost kind itself; DADO_EMPTY_PATTERN: one of its patterns is
 * empty; DADO_NO_MEMORY. The last five are tested in this order. `*stream` is unchanged at these.
 *
 * Takes 64 KiB of memory, or 8 times one byte more than the longest pattern has, and no more in the calls after that.
 */
dado_status dado_word_stream_new(const dado_automaton *ac, uint32_t kind, dado_stream **stream);

/*
 * The same of all whole words, overlapping ones too: they are those of the whole text by dado_overlapping_words_some, in its order. A word
 * is decided once the byte after it was pushed, or the stream is finished. One that is still to come may begin before the cut of
 * dado_stream_view, so what lies before the cut can't be passed on. There is no DADO_BAD_KIND; the other statuses are tested as above.
 */
dado_status dado_all_words_stream_new(const dado_automaton *ac, dado_stream **stream);

/*
 * Takes the first bytes of a piece, after all that was pushed before; how many, to `*taken`. The piece isn't needed after the call.
 * None are taken before dado_stream_some has given all matches of what was pushed before. Else at least one is, if there is one, and
 * all of them, unless the stream's memory is full: then the rest is pushed again after the next dado_stream_some. So the loop is
 * `for (at = 0; at < len; at += taken) { push piece + at; while (dado_stream_some(..) == DADO_OK) use what it gives; }`.
 *
 * DADO_OK, also if none was taken. DADO_BAD_ARGUMENT: `stream`, `taken`, or a piece that isn't empty, is NULL; DADO_NO_STREAM: `*stream`
 * is NULL; DADO_FINISHED: the stream was finished; DADO_TOO_MANY_BYTES: there are more bytes than places now, and no call gives a match
 * after that. At all but the first `*taken` is 0. At all but the first and the last the stream is unchanged.
 *
 * It copies each byte once, and moves a seventh of all bytes at most. It takes no memory. What dado_stream_view said is no longer so.
 */
dado_status dado_stream_push(dado_stream **stream, const void *piece, size_t len, size_t *taken);

/*
 * The next matches that are decided, as many as `out` has room for: the first `*count` of `room` are written. Under the standard kind a
 * match is decided as soon as its last byte was pushed, a word as soon as the byte after it was; under a leftmost kind, once no byte that
 * may follow can change it.
 *
 * DADO_OK: some were written, or `room` is 0. Fewer than `room` means that all were given: push more bytes, or finish. DADO_NONE: none
 * is left for now, and after dado_stream_finish none at all. DADO_BAD_ARGUMENT: `stream`, `count`, or `out` with room, is NULL;
 * DADO_NO_STREAM: `*stream` is NULL. At all but the first `*count` is 0. Of `out` the entries from `*count` on may have changed.
 *
 * All calls together look at no more than two states for each byte that was pushed, or at one with a DFA. A call may read ahead: under
 * the standard kind it looks at one state for each of at most 8192 bytes past those that it searches, and none of these is looked at
 * again. Under a leftmost kind, what was read ahead may be lost where the search begins again after a match, so each byte may be read
 * once more than it would be without reading ahead; and after each match at most as many bytes as the longest pattern has, and one, are
 * read again. It takes no memory.
 */
dado_status dado_stream_some(dado_stream **stream, dado_match *out, size_t room, size_t *count);

/*
 * What the stream holds, to `*held`. The bytes lie there until the next push, or until the stream is freed. They reach up to all that
 * was pushed. At their front are at least those after the cut that dado_stream_view would have told before the last push. So the bytes
 * of each match that was given since that push are among them, and what lies between these matches.
 *
 * DADO_OK. DADO_BAD_ARGUMENT: `stream` or `held` is NULL; DADO_NO_STREAM: `*stream` is NULL. `*held` is written at DADO_OK alone; `at` is
 * NULL if `len` is 0. It takes no memory and no time to speak of.
 */
dado_status dado_stream_view(dado_stream **stream, dado_held *held);

/*
 * Tells the stream that nothing more comes, so that everything is decided: dado_stream_some gives all matches that are left, and each
 * push is DADO_FINISHED. A second call changes nothing.
 *
 * DADO_OK. DADO_BAD_ARGUMENT: `stream` is NULL; DADO_NO_STREAM: `*stream` is NULL. It takes no memory.
 */
dado_status dado_stream_finish(dado_stream **stream);

/* Frees the stream at `*stream`, if there is one, and sets `*stream` to NULL. So a second call does nothing. */
void dado_stream_free(dado_stream **stream);

/* ---- Replacement of text that comes in pieces ---- */

/*
 * A replacer is pushed a text piece by piece, under any kind, and hands out the text with each match replaced, as far as it is
 * decided. All that it hands out, one slice after another, is what dado_replace makes of the whole text, wherever one piece ends and
 * the next begins. So:
 *
 *     dado_replacer *replacer = NULL;
 *     dado_status status = dado_replacer_new(ac, &replacer);
 *     while (status == DADO_OK && (len = fread(piece, 1, sizeof piece, file)) > 0)
 *         for (at = 0; at < len && status == DADO_OK; at += taken) {
 *             status = dado_replacer_push(&replacer, piece + at, len - at, &taken);
 *             while (dado_replacer_next(&replacer, replacements, count, &slice) == DADO_OK)
 *                 fwrite(slice.at, 1, slice.len, out);
 *         }
 *     if (status == DADO_OK) status = dado_replacer_finish(&replacer);
 *     while (dado_replacer_next(&replacer, replacements, count, &slice) == DADO_OK)
 *         fwrite(slice.at, 1, slice.len, out);
 *     dado_replacer_free(&replacer);
 *
 * No byte of the text is copied again: a slice is of the bytes that the replacer holds, or a replacement. What is kept back between
 * two pushes is what a match may still need: at most as many bytes as the longest pattern has, or one.
 */

/*
 * Makes a replacer of an automaton, and puts it at `*replacer`. It has the statuses of dado_stream_new, and takes as much memory. A
 * replacer that was there is freed, once the new one is made. It owns the automaton too, which may be freed before it.
 */
dado_status dado_replacer_new(const dado_automaton *ac, dado_replacer **replacer);

/*
 * Takes the first bytes of a piece, as dado_stream_push does; how many, to `*taken`. None are taken before dado_replacer_next has returned
 * DADO_NONE for what was pushed before. The slices that were given before are gone. So the loop is
 * `for (at = 0; at < len; at += taken) { push piece + at; while (dado_replacer_next(..) == DADO_OK) write the slice; }`.
 *
 * DADO_OK, also if none was taken. DADO_BAD_ARGUMENT: `replacer`, `taken`, or a piece that isn't empty, is NULL; DADO_NO_REPLACER:
 * `*replacer` is NULL; DADO_FINISHED: the replacer was finished; DADO_TOO_MANY_BYTES: there are more bytes than places now, and no call
 * gives text after that. At all but the first `*taken` is 0. At all but the first and the last the replacer is unchanged.
 */
dado_status dado_replacer_push(dado_replacer **replacer, const void *piece, size_t len, size_t *taken);

/*
 * The next slice of the replaced text, as far as it is decided, to `*slice`. `replacements` has one for each pattern; they may be other
 * ones at each call. The bytes of the slice lie where the replacer holds them until the next push, or until the replacer is freed; or they
 * are those of a replacement, where the caller has them.
 *
 * DADO_OK: there is one. It is empty where a replacement is, and its `at` is never NULL. DADO_NONE: all that is decided was handed out:
 * push more bytes, or finish; after dado_replacer_finish it is the whole text. DADO_BAD_ARGUMENT: `replacer`, `slice`, or an array that
 * isn't empty, is NULL; DADO_NO_REPLACER: `*replacer` is NULL; DADO_WRONG_COUNT: `count` isn't the number of patterns, and the replacer is
 * unchanged. `*slice` is written at DADO_OK alone. The calls look at states as often as those of dado_stream_some. They take no memory.
 */
dado_status dado_replacer_next(dado_replacer **replacer, const dado_bytes *replacements, size_t count, dado_bytes *slice);

/*
 * Tells the replacer that nothing more comes: dado_replacer_next hands out the text to its end, and each push is DADO_FINISHED. A second
 * call changes nothing. DADO_OK. DADO_BAD_ARGUMENT: `replacer` is NULL; DADO_NO_REPLACER: `*replacer` is NULL. It takes no memory.
 */
dado_status dado_replacer_finish(dado_replacer **replacer);

/* Frees the replacer at `*replacer`, if there is one, and sets `*replacer` to NULL. So a second call does nothing. */
void dado_replacer_free(dado_replacer **replacer);

/* ---- Masking ---- */

/*
 * Masks a text where it lies: each byte that lies in an occurrence of some pattern becomes `byte`, and every other byte stays. All
 * occurrences count, overlapping ones too. So where `byte` is in no pattern, and paired with no byte of one, no pattern occurs in the
 * text after that, the empty one aside. A replacement promises no such thing. An empty pattern masks nothing.
 *
 * DADO_OK. DADO_NO_AUTOMATON; DADO_BAD_ARGUMENT: a text that isn't empty is NULL; DADO_NOT_UNANCHORED: the automaton was built for
 * anchored searches alone; DADO_NOT_STANDARD: it is of a leftmost kind. The text is unchanged at these.
 *
 * It looks at one or two states for each byte, or at one with a DFA. It takes no memory.
 */
dado_status dado_mask(const dado_automaton *ac, void *text, size_t len, uint8_t byte);

/*
 * Masks the whole words of a text where it lies: each byte that lies in an occurrence with no word byte beside it becomes `byte`, words
 * that overlap included, and every other byte stays. What a word byte is stands at dado_words_some; those of the text as it was count. So
 * where `byte` is a word byte that is in no pattern, and paired with no byte of one, no whole word is left. Else one may be left, or may
 * have come about, beside a masked byte. An empty pattern masks nothing.
 *
 * DADO_OK. DADO_NO_AUTOMATON; DADO_BAD_ARGUMENT: a text that isn't empty is NULL; DADO_NOT_UNANCHORED: the automaton was built for
 * anchored searches alone; DADO_NOT_STANDARD: it is of a leftmost kind; DADO_NO_MEMORY. The text is unchanged at these.
 *
 * It looks at one or two states for each byte, or at one with a DFA. Takes memory until it returns: a copy of the text.
 */
dado_status dado_mask_words(const dado_automaton *ac, void *text, size_t len, uint8_t byte);

/*
 * A masker is pushed a text piece by piece, and hands out the masked text, as far as no later byte changes it. However the text is cut,
 * it is the text that dado_mask makes of the whole.
 *
 *     dado_masker *masker = NULL;
 *     dado_status status = dado_masker_new(ac, '*', &masker);
 *     while (status == DADO_OK && (len = fread(piece, 1, sizeof piece, file)) > 0)
 *         for (at = 0; at < len && status == DADO_OK; at += taken) {
 *             status = dado_masker_push(&masker, piece + at, len - at, &taken);
 *             if (status == DADO_OK) status = dado_masker_ready(&masker, &slice);
 *             if (status == DADO_OK) fwrite(slice.at, 1, slice.len, out);
 *         }
 *     if (status == DADO_OK) status = dado_masker_finish(&masker);
 *     if (status == DADO_OK) status = dado_masker_ready(&masker, &slice);
 *     if (status == DADO_OK) fwrite(slice.at, 1, slice.len, out);
 *     dado_masker_free(&masker);
 *
 * No byte of the text is copied again: a slice is of the bytes that the masker holds. What is kept back between pushes is fewer bytes
 * than the longest pattern has.
 */

/*
 * Makes a masker of an automaton, which masks with `byte`, and puts it at `*masker`. A masker that was there is freed, once the new one
 * is made. It owns the automaton too, which may be freed before it.
 *
 * DADO_NO_AUTOMATON; DADO_BAD_ARGUMENT: `masker` is NULL; DADO_NOT_UNANCHORED: the automaton was built for anchored searches alone;
 * DADO_NOT_STANDARD: it is of a leftmost kind; DADO_EMPTY_PATTERN: one of its patterns is empty; DADO_NO_MEMORY. It is unchanged at these.
 *
 * Takes memory: one buffer of 64 KiB, or of eight of the longest pattern if that is more, and a few bytes.
 */
dado_status dado_masker_new(const dado_automaton *ac, uint8_t byte, dado_masker **masker);

/*
 * Makes a masker of whole words, and puts it at `*masker`. However the text is cut, what it hands out is the text that dado_mask_words
 * makes of the whole: a piece may begin or end beside a word byte. It serves in the calls below. What is kept back between pushes is at
 * most as many bytes as the longest pattern has. A masker that was there is freed, once the new one is made. It owns the automaton too.
 *
 * The status is one of those of dado_masker_new, in that order. `*masker` is unchanged at all but DADO_OK.
 *
 * Takes memory: two buffers of 64 KiB, or of eight times one byte more than the longest pattern has if that is more. A push copies each
 * byte twice, and moves two sevenths of all bytes at most.
 */
dado_status dado_word_masker_new(const dado_automaton *ac, uint8_t byte, dado_masker **masker);

/*
 * Takes the first bytes of a piece, after all that was pushed before, and masks them; how many, to `*taken`. The piece isn't needed
 * after the call. None are taken while bytes are ready that dado_masker_ready wasn't asked for. Else at least one is, if there is one, and
 * all of them, unless the masker's memory is full. What was asked for before is gone. So the loop is
 * `for (at = 0; at < len; at += taken) { push piece + at; dado_masker_ready(..); write the slice; }`.
 *
 * DADO_OK, also if none was taken. DADO_BAD_ARGUMENT: `masker`, `taken`, or a piece that isn't empty, is NULL; DADO_NO_MASKER: `*masker` is
 * NULL; DADO_FINISHED: the masker was finished; DADO_TOO_MANY_BYTES: there are more bytes than places now, and nothing gets ready any more.
 * At all but the first `*taken` is 0. At all but the first and the last the masker is unchanged.
 *
 * All calls together look at no more than two states for each byte that was pushed, or at one with a DFA. A call copies each byte once,
 * and moves a seventh of all bytes at most; of whole words see dado_word_masker_new. It takes no memory.
 */
dado_status dado_masker_push(dado_masker **masker, const void *piece, size_t len, size_t *taken);

/*
 * The masked bytes that are ready, to `*slice`: those after the ones that were ready before the last push, up to the bytes that may
 * still be masked. They lie where the masker holds them until the next push, or until it is freed. A second call gives the same ones.
 *
 * DADO_OK: also where there are none, and `slice->at` is never NULL. DADO_BAD_ARGUMENT: `masker` or `slice` is NULL; DADO_NO_MASKER:
 * `*masker` is NULL. `*slice` is written at DADO_OK alone. It takes no memory and no time to speak of.
 */
dado_status dado_masker_ready(dado_masker **masker, dado_bytes *slice);

/*
 * Tells the masker that nothing more comes: the bytes that waited are ready, after those that nobody has asked for, and each push is
 * DADO_FINISHED. After DADO_TOO_MANY_BYTES nothing is ready, and each push returns that. A second call drops what was asked for.
 *
 * DADO_OK. DADO_BAD_ARGUMENT: `masker` is NULL; DADO_NO_MASKER: `*masker` is NULL. It takes no memory.
 */
dado_status dado_masker_finish(dado_masker **masker);

/* Frees the masker at `*masker`, if there is one, and sets `*masker` to NULL. So a second call does nothing. */
void dado_masker_free(dado_masker **masker);

/* ---- Queries. They take no memory and no time to speak of; any number of threads at the same time. ---- */

/* How many bytes the pattern of this number has, to `*len`. DADO_NO_AUTOMATON; DADO_BAD_ARGUMENT: `len` is NULL; DADO_BAD_PATTERN: there
 * is no such pattern. `*len` is written at DADO_OK alone. */
dado_status dado_pattern_len(const dado_automaton *ac, uint32_t pattern, size_t *len);

/* How many patterns it was built of; 0 for NULL. */
size_t dado_pattern_count(const dado_automaton *ac);

/* How many bytes the shortest pattern has; SIZE_MAX where there is none, and for NULL. */
size_t dado_shortest(const dado_automaton *ac);

/* How many bytes the longest pattern has; 0 where there is none, and for NULL. */
size_t dado_longest(const dado_automaton *ac);

/* The kind that it was built for: DADO_STANDARD or a leftmost one; DADO_STANDARD for NULL. */
uint32_t dado_kind(const dado_automaton *ac);

/* Which searches it was built for: DADO_UNANCHORED, DADO_ANCHORED or DADO_BOTH; DADO_UNANCHORED for NULL. */
uint32_t dado_start_kind(const dado_automaton *ac);

/* What searches: DADO_NONCONTIGUOUS, DADO_CONTIGUOUS or DADO_DFA; DADO_AUTO for NULL. */
uint32_t dado_engine(const dado_automaton *ac);

/* About how many bytes of memory it holds; 0 for NULL. */
size_t dado_memory(const dado_automaton *ac);

/* The text of a status, in English, without a full stop; never NULL, and never freed. */
const char *dado_error_text(dado_status status);

/* The version of the library that runs, such as "1.1.0"; DADO_VERSION is that of this header. */
const char *dado_version(void);

/*
 * For which processors the code is compiled that serves: "x86-64-v2", without which the loader refuses a program, or "x86-64-v3" with
 * vectors of 32 bytes; "generic" where the library has one code for all of its machine. The first call of the library chooses by the
 * processor, for all threads and for good. Both codes have the same proof, and give the same results.
 *
 * Where the library was built for tests, the first serves on every processor with x86-64-v2 in the environment's variable DADOFENNEL_CPU.
 */
const char *dado_cpu(void);

#ifdef __cplusplus
}
#endif

#endif
