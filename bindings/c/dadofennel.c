/* The header's functions: each tests its pointers for NULL, and calls one that is proved (dadofennel_raw.h). */
#define DADO_LIBRARY
#include "dadofennel_raw.h"
#include <stdlib.h>
#include <string.h>

/* ---- Which code serves. With DADO_WIDE the library holds what is proved twice, compiled for two kinds of processors: the second time
 * for x86-64-v3, with the names dado_raw_wide_. ---- */

/* What is proved, as it was compiled once. */
#define POINTER(result, name, parameters) result(*name) parameters;
struct code {
    const char *cpu;
    DADO_RAW(POINTER)
};

#ifdef __x86_64__
#define FIRST_CPU "x86-64-v2"
#else
#define FIRST_CPU "generic"
#endif
#define PROVED(result, name, parameters) dado_raw_##name,
static const struct code first = {FIRST_CPU, DADO_RAW(PROVED)};

#ifdef DADO_WIDE
#include <cpuid.h>

#define DECLARED(result, name, parameters) __attribute__((visibility("hidden"))) result dado_raw_wide_##name parameters;
DADO_RAW(DECLARED)
#define PROVED_WIDE(result, name, parameters) dado_raw_wide_##name,
static const struct code wide = {"x86-64-v3", DADO_RAW(PROVED_WIDE)};

/* What the processor says of itself, and the system of the registers that it keeps: what x86-64-v3 has beyond x86-64-v2. */
static const unsigned BASIC = bit_FMA | bit_MOVBE | bit_OSXSAVE | bit_AVX | bit_F16C, MORE = bit_BMI | bit_AVX2 | bit_BMI2;
static const unsigned XMM_AND_YMM = 6;

static int has_v3(void) {
    unsigned a, b, c, d;
    if (!__get_cpuid(1, &a, &b, &c, &d) || (c & BASIC) != BASIC) return 0;
    __asm__("xgetbv" : "=a"(a), "=d"(d) : "c"(0));
    if ((a & XMM_AND_YMM) != XMM_AND_YMM) return 0;
    if (!__get_cpuid_count(7, 0, &a, &b, &c, &d) || (b & MORE) != MORE) return 0;
    return __get_cpuid(0x80000001, &a, &b, &c, &d) && (c & bit_LZCNT) != 0;
}

/* The code that serves, once it is chosen. Threads that make their first calls at the same moment all take the first choice. */
static const struct code *serving;

/* Whether the first code has to serve whatever the processor is: the tests of a library that was built for them ask for it. */
#ifdef DADO_FOR_TESTS
static int is_asked_for_first(void) {
    const char *asked = getenv("DADOFENNEL_CPU");
    return asked != NULL && strcmp(asked, FIRST_CPU) == 0;
}
#else
static int is_asked_for_first(void) { return 0; }
#endif

static const struct code *choose(void) {
    const struct code *chosen = has_v3() && !is_asked_for_first() ? &wide : &first;
    const struct code *none = NULL;
    return __atomic_compare_exchange_n(&serving, &none, chosen, 0, __ATOMIC_ACQ_REL, __ATOMIC_ACQUIRE) ? chosen : none;
}

static inline const struct code *proved(void) {
    const struct code *chosen = __atomic_load_n(&serving, __ATOMIC_ACQUIRE);
    return chosen != NULL ? chosen : choose();
}
#else
static inline const struct code *proved(void) { return &first; }
#endif

const char *dado_cpu(void) { return proved()->cpu; }

/* ---- Building and freeing ---- */

/* How many bytes the settings of version 1.0 have. Fields are only added at the end. */
enum { LEAST = offsetof(dado_settings, pair_count) + sizeof(size_t) };

dado_status dado_settings_fill(dado_settings *settings, size_t size) {
    const dado_raw_settings raw = proved()->settings_default();
    const dado_settings known = {raw.kind, raw.start_kind, raw.engine, raw.fold, raw.prefilter, raw.byte_classes, raw.dense_depth,
                                 raw.row_memory, NULL, 0};
    if (settings == NULL || size < LEAST) return DADO_BAD_ARGUMENT;
    memset(settings, 0, size);
    memcpy(settings, &known, size < sizeof known ? size : sizeof known);
    return DADO_OK;
}

dado_settings dado_settings_default(void) {
    dado_settings settings;
    dado_settings_fill(&settings, sizeof settings);
    return settings;
}

/* Whether bytes have a place, unless there are none. */
static int have_places(const dado_bytes *each, size_t count) {
    size_t i;
    for (i = 0; i < count; i++)
        if (each[i].at == NULL && each[i].len != 0) return 0;
    return 1;
}

/* Takes over those settings that a caller's header has. The answer is whether this library knows them all. */
static int take(dado_settings *known, const dado_settings *settings, size_t size) {
    const unsigned char *bytes = (const unsigned char *)settings;
    size_t at = size < sizeof *known ? size : sizeof *known;
    if (size < LEAST) return 0;
    memcpy(known, settings, at);
    while (at < size && bytes[at] == 0) at++;
    return at == size;
}

dado_status dado_build_sized(const dado_bytes *patterns, size_t count, const dado_settings *settings, size_t size,
                             dado_automaton **handle, dado_fault *fault) {
    dado_settings given = dado_settings_default();
    dado_raw_settings raw;
    dado_fault none = {0, 0};
    if (fault != NULL) *fault = none;
    if (handle == NULL || (patterns == NULL && count != 0) || !have_places(patterns, count)) return DADO_BAD_ARGUMENT;
    if (settings != NULL && !take(&given, settings, size)) return DADO_BAD_ARGUMENT;
    if (given.pairs == NULL && given.pair_count != 0) return DADO_BAD_ARGUMENT;
    raw.kind = given.kind, raw.start_kind = given.start_kind, raw.engine = given.engine;
    raw.fold = given.fold, raw.prefilter = given.prefilter, raw.byte_classes = given.byte_classes;
    raw.dense_depth = given.dense_depth, raw.row_memory = given.row_memory;
    return proved()->build(patterns, count, &raw, given.pairs, given.pair_count, handle, fault == NULL ? &none : fault);
}

dado_status dado_build(const dado_bytes *patterns, size_t count, const dado_settings *settings, dado_automaton **handle,
                       dado_fault *fault) {
    return dado_build_sized(patterns, count, settings, sizeof *settings, handle, fault);
}

dado_status dado_share(const dado_automaton *ac, dado_automaton **other) {
    if (other == NULL) return DADO_BAD_ARGUMENT;
    if (ac == NULL) return DADO_NO_AUTOMATON;
    return proved()->share(ac, other);
}

void dado_free(dado_automaton **handle) {
    if (handle != NULL) proved()->free(handle);
}

/* ---- One match ---- */

/* The span's numbers one by one: a struct of them is written and read again at once, which takes longer than the rest of the call. */
static inline dado_status find_between(const dado_automaton *ac, const void *haystack, size_t len, size_t start, size_t end,
                                       uint32_t anchored, uint32_t earliest, dado_match *found) {
    dado_raw_found answer;
    if (ac == NULL) return DADO_NO_AUTOMATON;
    if (found == NULL || (haystack == NULL && len != 0)) return DADO_BAD_ARGUMENT;
    answer = proved()->find(ac, haystack, len, start, end, anchored, earliest);
    if (answer.status == DADO_OK) *found = answer.found;
    return answer.status;
}

dado_status dado_find_in(const dado_automaton *ac, const void *haystack, size_t len, dado_span span, dado_match *found) {
    return find_between(ac, haystack, len, span.start, span.end, span.anchored, span.earliest, found);
}

dado_status dado_find(const dado_automaton *ac, const void *haystack, size_t len, dado_match *found) {
    return find_between(ac, haystack, len, 0, len, 0, 0, found);
}

dado_status dado_is_match(const dado_automaton *ac, const void *haystack, size_t len) {
    dado_match found;
    return find_between(ac, haystack, len, 0, len, 0, 1, &found);
}

/* ---- One match after another ---- */

dado_cursor dado_cursor_over(size_t start, size_t end) {
    dado_cursor cursor = {start, end, SIZE_MAX, 0, 0};
    return cursor;
}

dado_status dado_next(const dado_automaton *ac, const void *haystack, size_t len, dado_cursor *cursor, dado_match *found) {
    dado_raw_step step;
    if (ac == NULL) return DADO_NO_AUTOMATON;
    if (cursor == NULL || found == NULL || (haystack == NULL && len != 0)) return DADO_BAD_ARGUMENT;
    step = proved()->next(ac, haystack, len, cursor->start, cursor->end, cursor->last, cursor->anchored, cursor->earliest);
    if (step.status == DADO_OK) *found = step.found;
    if (step.status == DADO_OK || step.status == DADO_NONE) *cursor = step.cursor;
    return step.status;
}

dado_status dado_some(const dado_automaton *ac, const void *haystack, size_t len, dado_cursor *cursor, dado_match *out, size_t room,
                      size_t *count) {
    dado_raw_some some;
    if (count == NULL) return DADO_BAD_ARGUMENT;
    *count = 0;
    if (ac == NULL) return DADO_NO_AUTOMATON;
    if (cursor == NULL || (out == NULL && room != 0) || (haystack == NULL && len != 0)) return DADO_BAD_ARGUMENT;
    some = proved()->walk(ac, haystack, len, cursor->start, cursor->end, cursor->last, cursor->anchored, cursor->earliest, out, room);
    if (some.status == DADO_OK || some.status == DADO_NONE) *cursor = some.cursor;
    *count = some.count;
    return some.status;
}

/* ---- Every occurrence ---- */

dado_place dado_place_over(size_t start, size_t end) {
    dado_place place = {start, end, {0, 0, 0}, 0};
    return place;
}

/* The next occurrences of a listing; or its next whole words, if `words` isn't 0. */
static dado_status list_some(const dado_automaton *ac, const void *haystack, size_t len, uint32_t words, dado_place *place,
                             dado_match *out, size_t room, size_t *count) {
    dado_raw_listed listed;
    if (count == NULL) return DADO_BAD_ARGUMENT;
    *count = 0;
    if (ac == NULL) return DADO_NO_AUTOMATON;
    if (place == NULL || (out == NULL && room != 0) || (haystack == NULL && len != 0)) return DADO_BAD_ARGUMENT;
    listed = proved()->list(ac, haystack, len, place->start, place->end, place->last.start, place->last.end, place->last.pattern,
                            place->begun, words, out, room);
    if (listed.status == DADO_OK || listed.status == DADO_NONE) *place = listed.place;
    *count = listed.count;
    return listed.status;
}

dado_status dado_overlapping_some(const dado_automaton *ac, const void *haystack, size_t len, dado_place *place, dado_match *out,
                                  size_t room, size_t *count) {
    return list_some(ac, haystack, len, 0, place, out, room, count);
}

/* ---- Whole words ---- */

dado_status dado_words_some(const dado_automaton *ac, uint32_t kind, const void *haystack, size_t len, size_t *from, dado_match *out,
                            size_t room, size_t *count) {
    dado_raw_given given;
    if (count == NULL) return DADO_BAD_ARGUMENT;
    *count = 0;
    if (ac == NULL) return DADO_NO_AUTOMATON;
    if (from == NULL || (out == NULL && room != 0) || (haystack == NULL && len != 0)) return DADO_BAD_ARGUMENT;
    given = proved()->words(ac, kind, haystack, len, *from, out, room);
    *from = given.from;
    *count = given.count;
    return given.status;
}

dado_status dado_overlapping_words_some(const dado_automaton *ac, const void *haystack, size_t len, dado_place *place, dado_match *out,
                                        size_t room, size_t *count) {
    return list_some(ac, haystack, len, 1, place, out, room, count);
}

/* ---- Replacement ---- */

dado_status dado_replace_into(const dado_automaton *ac, const void *haystack, size_t len, const dado_bytes *replacements, size_t count,
                              void *out, size_t room, size_t *needed) {
    dado_raw_length made;
    if (needed == NULL) return DADO_BAD_ARGUMENT;
    *needed = 0;
    if (ac == NULL) return DADO_NO_AUTOMATON;
    if ((haystack == NULL && len != 0) || (replacements == NULL && count != 0) || (out == NULL && room != 0)) return DADO_BAD_ARGUMENT;
    made = proved()->replace_into(ac, haystack, len, replacements, count, out, room);
    *needed = made.len;
    return made.status;
}

void dado_text_free(dado_text *text) {
    dado_text none = DADO_NO_TEXT;
    if (text == NULL) return;
    if (text->owner != NULL) proved()->text_free(&text->owner);
    *text = none;
}

/* Puts a text that was made in the place of the caller's. */
static dado_status hold(dado_status status, dado_text made, dado_text *text) {
    if (status != DADO_OK) return status;
    proved()->text_view(&made.owner, &made.at, &made.len);
    dado_text_free(text);
    *text = made;
    return DADO_OK;
}

dado_status dado_replace(const dado_automaton *ac, const void *haystack, size_t len, const dado_bytes *replacements, size_t count,
                         dado_text *text) {
    dado_text made = DADO_NO_TEXT;
    dado_status status;
    if (text == NULL) return DADO_BAD_ARGUMENT;
    if (ac == NULL) return DADO_NO_AUTOMATON;
    if ((haystack == NULL && len != 0) || (replacements == NULL && count != 0)) return DADO_BAD_ARGUMENT;
    status = proved()->replace(ac, haystack, len, replacements, count, &made.owner);
    return hold(status, made, text);
}

dado_status dado_replace_words(const dado_automaton *ac, uint32_t kind, const void *haystack, size_t len, const dado_bytes *replacements,
                               size_t count, dado_text *text) {
    dado_text made = DADO_NO_TEXT;
    dado_status status;
    if (text == NULL) return DADO_BAD_ARGUMENT;
    if (ac == NULL) return DADO_NO_AUTOMATON;
    if ((haystack == NULL && len != 0) || (replacements == NULL && count != 0)) return DADO_BAD_ARGUMENT;
    status = proved()->replace_words(ac, kind, haystack, len, replacements, count, &made.owner);
    return hold(status, made, text);
}

/* ---- Text that comes in pieces ---- */

dado_status dado_stream_new(const dado_automaton *ac, dado_stream **stream) {
    if (stream == NULL) return DADO_BAD_ARGUMENT;
    if (ac == NULL) return DADO_NO_AUTOMATON;
    return proved()->stream_new(ac, stream);
}

dado_status dado_word_stream_new(const dado_automaton *ac, uint32_t kind, dado_stream **stream) {
    if (stream == NULL) return DADO_BAD_ARGUMENT;
    if (ac == NULL) return DADO_NO_AUTOMATON;
    return proved()->word_stream_new(ac, kind, stream);
}

dado_status dado_all_words_stream_new(const dado_automaton *ac, dado_stream **stream) {
    if (stream == NULL) return DADO_BAD_ARGUMENT;
    if (ac == NULL) return DADO_NO_AUTOMATON;
    return proved()->all_words_stream_new(ac, stream);
}

dado_status dado_stream_push(dado_stream **stream, const void *piece, size_t len, size_t *taken) {
    dado_raw_count pushed;
    if (taken == NULL) return DADO_BAD_ARGUMENT;
    *taken = 0;
    if (stream == NULL || (piece == NULL && len != 0)) return DADO_BAD_ARGUMENT;
    pushed = proved()->stream_push(stream, piece, len);
    *taken = pushed.count;
    return pushed.status;
}

dado_status dado_stream_some(dado_stream **stream, dado_match *out, size_t room, size_t *count) {
    dado_raw_count given;
    if (count == NULL) return DADO_BAD_ARGUMENT;
    *count = 0;
    if (stream == NULL || (out == NULL && room != 0)) return DADO_BAD_ARGUMENT;
    given = proved()->stream_some(stream, out, room);
    *count = given.count;
    return given.status;
}

dado_status dado_stream_view(dado_stream **stream, dado_held *held) {
    const uint8_t *at = NULL;
    dado_raw_view view;
    if (stream == NULL || held == NULL) return DADO_BAD_ARGUMENT;
    view = proved()->stream_view(stream, &at);
    if (view.status == DADO_OK) held->at = at, held->len = view.len, held->from = view.from, held->cut = view.cut;
    return view.status;
}

dado_status dado_stream_finish(dado_stream **stream) {
    return stream == NULL ? (dado_status)DADO_BAD_ARGUMENT : proved()->stream_finish(stream);
}

void dado_stream_free(dado_stream **stream) {
    if (stream != NULL) proved()->stream_free(stream);
}

/* ---- Replacement of text that comes in pieces ---- */

dado_status dado_replacer_new(const dado_automaton *ac, dado_replacer **replacer) {
    if (replacer == NULL) return DADO_BAD_ARGUMENT;
    if (ac == NULL) return DADO_NO_AUTOMATON;
    return proved()->replacer_new(ac, replacer);
}

dado_status dado_replacer_push(dado_replacer **replacer, const void *piece, size_t len, size_t *taken) {
    dado_raw_count pushed;
    if (taken == NULL) return DADO_BAD_ARGUMENT;
    *taken = 0;
    if (replacer == NULL || (piece == NULL && len != 0)) return DADO_BAD_ARGUMENT;
    pushed = proved()->replacer_push(replacer, piece, len);
    *taken = pushed.count;
    return pushed.status;
}

dado_status dado_replacer_next(dado_replacer **replacer, const dado_bytes *replacements, size_t count, dado_bytes *slice) {
    const uint8_t *at = (const uint8_t *)"";
    dado_raw_length given;
    if (replacer == NULL || slice == NULL || (replacements == NULL && count != 0)) return DADO_BAD_ARGUMENT;
    given = proved()->replacer_next(replacer, replacements, count, &at);
    if (given.status == DADO_OK) slice->at = at, slice->len = given.len;
    return given.status;
}

dado_status dado_replacer_finish(dado_replacer **replacer) {
    return replacer == NULL ? (dado_status)DADO_BAD_ARGUMENT : proved()->replacer_finish(replacer);
}

void dado_replacer_free(dado_replacer **replacer) {
    if (replacer != NULL) proved()->replacer_free(replacer);
}

/* ---- Masking ---- */

dado_status dado_mask(const dado_automaton *ac, void *text, size_t len, uint8_t byte) {
    if (ac == NULL) return DADO_NO_AUTOMATON;
    if (text == NULL && len != 0) return DADO_BAD_ARGUMENT;
    return proved()->mask(ac, text, len, byte);
}

dado_status dado_mask_words(const dado_automaton *ac, void *text, size_t len, uint8_t byte) {
    if (ac == NULL) return DADO_NO_AUTOMATON;
    if (text == NULL && len != 0) return DADO_BAD_ARGUMENT;
    return proved()->mask_words(ac, text, len, byte);
}

/* A masker that is proved, and what it has ready, which it drops at the next push: so there is none before that was asked for. */
struct dado_masker {
    dado_raw_masker *proved;
    dado_bytes ready;
    int is_asked_for, is_finished; /* a push is refused then, and changes nothing */
};

/* What is ready after a call. */
static void note_ready(dado_masker *it) {
    const uint8_t *at = (const uint8_t *)"";
    it->ready.len = proved()->masker_ready(&it->proved, &at).len;
    it->ready.at = at;
    it->is_asked_for = 0;
}

/* Puts a masker that was made in the place of the caller's, or of nothing. */
static dado_status hold_masker(dado_status status, dado_raw_masker *made, dado_masker **masker) {
    dado_masker *it = *masker;
    if (status != DADO_OK) return status;
    if (it == NULL) it = malloc(sizeof *it);
    else proved()->masker_free(&it->proved);
    if (it == NULL) {
        proved()->masker_free(&made);
        return DADO_NO_MEMORY;
    }
    it->proved = made, it->is_finished = 0;
    note_ready(it);
    *masker = it;
    return DADO_OK;
}

dado_status dado_masker_new(const dado_automaton *ac, uint8_t byte, dado_masker **masker) {
    dado_raw_masker *made = NULL;
    dado_status status;
    if (masker == NULL) return DADO_BAD_ARGUMENT;
    if (ac == NULL) return DADO_NO_AUTOMATON;
    status = proved()->masker_new(ac, byte, &made);
    return hold_masker(status, made, masker);
}

dado_status dado_word_masker_new(const dado_automaton *ac, uint8_t byte, dado_masker **masker) {
    dado_raw_masker *made = NULL;
    dado_status status;
    if (masker == NULL) return DADO_BAD_ARGUMENT;
    if (ac == NULL) return DADO_NO_AUTOMATON;
    status = proved()->word_masker_new(ac, byte, &made);
    return hold_masker(status, made, masker);
}

dado_status dado_masker_push(dado_masker **masker, const void *piece, size_t len, size_t *taken) {
    dado_raw_count pushed;
    dado_masker *it;
    if (taken == NULL) return DADO_BAD_ARGUMENT;
    *taken = 0;
    if (masker == NULL || (piece == NULL && len != 0)) return DADO_BAD_ARGUMENT;
    it = *masker;
    if (it == NULL) return DADO_NO_MASKER;
    if (it->ready.len != 0 && !it->is_asked_for && !it->is_finished) return DADO_OK;
    pushed = proved()->masker_push(&it->proved, piece, len);
    if (!it->is_finished) note_ready(it);
    *taken = pushed.count;
    return pushed.status;
}

dado_status dado_masker_ready(dado_masker **masker, dado_bytes *slice) {
    if (masker == NULL || slice == NULL) return DADO_BAD_ARGUMENT;
    if (*masker == NULL) return DADO_NO_MASKER;
    (*masker)->is_asked_for = 1;
    *slice = (*masker)->ready;
    return DADO_OK;
}

/* What was ready and wasn't asked for lies before what gets ready now, in the same memory: all of it is ready then. */
dado_status dado_masker_finish(dado_masker **masker) {
    dado_masker *it;
    dado_bytes before = {NULL, 0};
    dado_status status;
    if (masker == NULL) return DADO_BAD_ARGUMENT;
    it = *masker;
    if (it == NULL) return DADO_NO_MASKER;
    if (!it->is_asked_for) before = it->ready;
    status = proved()->masker_finish(&it->proved);
    note_ready(it);
    it->is_finished = status == DADO_OK;
    if (before.len != 0 && (it->ready.len == 0 || before.at + before.len == it->ready.at)) {
        it->ready.at = before.at;
        it->ready.len += before.len;
    }
    return status;
}

void dado_masker_free(dado_masker **masker) {
    if (masker == NULL || *masker == NULL) return;
    proved()->masker_free(&(*masker)->proved);
    free(*masker);
    *masker = NULL;
}

/* ---- Queries ---- */

dado_status dado_pattern_len(const dado_automaton *ac, uint32_t pattern, size_t *len) {
    dado_raw_length told;
    if (ac == NULL) return DADO_NO_AUTOMATON;
    if (len == NULL) return DADO_BAD_ARGUMENT;
    told = proved()->pattern_len(ac, pattern);
    if (told.status == DADO_OK) *len = told.len;
    return told.status;
}

size_t dado_pattern_count(const dado_automaton *ac) { return ac == NULL ? 0 : proved()->tell(ac).patterns; }

size_t dado_shortest(const dado_automaton *ac) { return ac == NULL ? SIZE_MAX : proved()->tell(ac).shortest; }

size_t dado_longest(const dado_automaton *ac) { return ac == NULL ? 0 : proved()->tell(ac).longest; }

uint32_t dado_kind(const dado_automaton *ac) { return ac == NULL ? (uint32_t)DADO_STANDARD : proved()->tell(ac).kind; }

uint32_t dado_start_kind(const dado_automaton *ac) {
    return ac == NULL ? (uint32_t)DADO_UNANCHORED : proved()->tell(ac).start_kind;
}

uint32_t dado_engine(const dado_automaton *ac) { return ac == NULL ? (uint32_t)DADO_AUTO : proved()->tell(ac).engine; }

size_t dado_memory(const dado_automaton *ac) { return ac == NULL ? 0 : proved()->tell(ac).memory; }

const char *dado_error_text(dado_status status) {
    switch (status) {
    case DADO_OK: return "done";
    case DADO_NONE: return "no match";
    case DADO_NO_AUTOMATON: return "no automaton";
    case DADO_BAD_ARGUMENT: return "a pointer is NULL";
    case DADO_NO_MEMORY: return "out of memory";
    case DADO_TOO_MANY_STATES: return "more states than can be numbered";
    case DADO_TOO_MANY_PATTERNS: return "more patterns than can be numbered";
    case DADO_PATTERN_TOO_LONG: return "a pattern is too long";
    case DADO_BAD_KIND: return "no such kind";
    case DADO_BAD_START_KIND: return "no such start kind";
    case DADO_BAD_ENGINE: return "no such engine";
    case DADO_BAD_PAIRS: return "a byte is named twice in the pairs, or pairs are given beside folding";
    case DADO_NOT_ANCHORED: return "anchored search is not supported";
    case DADO_NOT_UNANCHORED: return "unanchored search is not supported";
    case DADO_NOT_STANDARD: return "overlapping search needs the standard kind";
    case DADO_BAD_SPAN: return "the span is not one of the haystack";
    case DADO_BAD_CURSOR: return "the cursor is not one of the haystack";
    case DADO_WRONG_COUNT: return "not as many replacements as patterns";
    case DADO_TOO_SHORT: return "the buffer is too short";
    case DADO_BAD_PATTERN: return "no pattern of this number";
    case DADO_EMPTY_PATTERN: return "neither a stream nor whole words can be searched for an empty pattern";
    case DADO_NO_STREAM: return "no stream";
    case DADO_FINISHED: return "the stream, the replacer or the masker was finished";
    case DADO_TOO_MANY_BYTES: return "more bytes than places";
    case DADO_NO_REPLACER: return "no replacer";
    case DADO_NO_MASKER: return "no masker";
    default: return "unknown status";
    }
}

const char *dado_version(void) { return DADO_VERSION; }
