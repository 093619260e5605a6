/* Text that comes in pieces: streams, replacers and maskers of the library. */
#include "native.h"

#include <stdlib.h>
#include <string.h>

/* How much memory one of them takes, as the header says it. V8 is told, since an object of JavaScript is small that holds so much. And since
 * Node frees what V8 has collected in a later turn of its loop, the memory is freed once the text was finished. */
static size_t size_of_one(const dado_automaton *ac) {
    size_t longest = dado_longest(ac), least = (size_t)64 << 10;
    return longest < least / 8 ? least : 8 * (longest + 1);
}

/* ---- Streams ---- */

typedef struct {
    Tag tag;
    Searcher *of;
    dado_stream *stream;
    int64_t memory;               /* as V8 was told */
    size_t pushed;                /* bytes */
    size_t end;                   /* of a finished text, in bytes */
    int is_finished;
    dado_counted counted;         /* of units that have several bytes */
} Pieces;

static void pieces_let_go(napi_env env, Pieces *it) {
    dado_stream_free(&it->stream);
    told(env, &it->memory, 0);
}

static void pieces_finalize(napi_env env, void *data, void *hint) {
    Pieces *it = data;
    (void)hint;
    pieces_let_go(env, it);
    if (it->of != NULL) searcher_released(it->of);
    free(it);
}

/* A stream of what is asked for. There is none of all occurrences. */
static dado_status stream_of(const dado_automaton *ac, uint32_t how, dado_stream **stream) {
    switch (how & WAY) {
    case MATCHES: return dado_stream_new(ac, stream);
    case WORDS: return dado_word_stream_new(ac, (how & KIND) >> KIND_SHIFT, stream);
    case ALL_WORDS: return dado_all_words_stream_new(ac, stream);
    default: return DADO_BAD_ARGUMENT;
    }
}

/* pieces(searcher, how): of matches, of whole words under a kind, or of all whole words. */
napi_value pieces_new(napi_env env, napi_callback_info info) {
    napi_value given[2];
    Searcher *of;
    Pieces *it;
    dado_status status;
    if (arguments_of(env, info, given, 2, NULL) < 0) return NULL;
    of = object_of(env, given[0], SEARCHER);
    if (of == NULL) return NULL;
    it = calloc(1, sizeof *it);
    if (it == NULL) return refuse(env, DADO_NO_MEMORY);
    status = stream_of(of->handle, how_of(env, given[1]), &it->stream);
    if (status != DADO_OK) {
        free(it);
        return refuse(env, status);
    }
    it->tag = PIECES, it->of = searcher_shared(of);
    told(env, &it->memory, size_of_one(of->handle));
    return handed_over(env, it, pieces_finalize);
}

/* How many units begin among so many bytes. */
static size_t units_in(const uint8_t *at, size_t len) {
    size_t begun = 0, i;
    for (i = 0; i < len; i++) begun += (at[i] & 0xC0) != 0x80;
    return begun;
}

/* Counts on to a place that the stream still holds. */
static void count_to(Pieces *it, const dado_held *held, size_t place) {
    if (place <= it->counted.bytes) return;
    it->counted.characters += units_in(held->at + (it->counted.bytes - held->from), place - it->counted.bytes);
    it->counted.bytes = place;
}

/* The place up to which all is decided: of a finished text, its end. */
static size_t decided_to(const Pieces *it, const dado_held *held) { return it->is_finished ? held->from + held->len : held->cut; }

/* Turns the places of matches from bytes to units. They end after what was counted; but one of all whole words may begin before what the
 * stream still holds, so each has as many units as its pattern. */
static dado_status in_units(Pieces *it, dado_match *found, size_t count) {
    dado_held held;
    dado_status status = dado_stream_view(&it->stream, &held);
    size_t i;
    for (i = 0; status == DADO_OK && i < count; i++) {
        count_to(it, &held, found[i].end);
        found[i].end = it->counted.characters, found[i].start = found[i].end - it->of->widths[found[i].pattern];
    }
    return status;
}

/* The matches that are decided now. */
static dado_status decided(Pieces *it, Flat *out) {
    dado_match found[ROOM];
    dado_held held;
    size_t count = ROOM;
    dado_status status = DADO_OK;
    while (status == DADO_OK && count == ROOM) {
        status = dado_stream_some(&it->stream, found, ROOM, &count);
        if (status == DADO_NONE) status = DADO_OK, count = 0;
        if (status == DADO_OK && it->of->is_wide) status = in_units(it, found, count);
        if (status == DADO_OK) status = flat_add(out, found, count);
    }
    if (status == DADO_OK && it->of->is_wide) {
        status = dado_stream_view(&it->stream, &held);
        if (status == DADO_OK) count_to(it, &held, decided_to(it, &held));
    }
    return status;
}

static napi_value answer(napi_env env, dado_status status, Flat *flat) {
    if (status == DADO_OK) return flat_value(env, instance_of(env), flat);
    flat_let_go(flat);
    return refuse(env, status);
}

/* piecesPush(pieces, piece): the matches that are decided now, as `all` gives them. */
napi_value pieces_push(napi_env env, napi_callback_info info) {
    napi_value given[2];
    Near near;
    Text text;
    Flat flat;
    Pieces *it;
    size_t at = 0, taken;
    dado_status status;
    if (arguments_of(env, info, given, 2, NULL) < 0) return NULL;
    it = object_of(env, given[0], PIECES);
    if (it == NULL || text_read(env, it->of, given[1], 0, &near, &text) < 0) return NULL;
    status = it->is_finished ? (dado_status)DADO_FINISHED : text_code(it->of, &text, 0, &near);
    it->pushed += status == DADO_OK ? text.size : 0;
    flat_begin(&flat, instance_of(env)->out, it->pushed > UINT32_MAX);
    do {
        if (status == DADO_OK) status = dado_stream_push(&it->stream, text.coded + at, text.size - at, &taken);
        if (status == DADO_OK) status = decided(it, &flat), at += taken;
    } while (status == DADO_OK && at < text.size);
    text_let_go(&text);
    return answer(env, status, &flat);
}

/* piecesFinish(pieces): the matches that are left. */
napi_value pieces_finish(napi_env env, napi_callback_info info) {
    napi_value given[1];
    Flat flat;
    Pieces *it;
    dado_held held;
    dado_status status;
    if (arguments_of(env, info, given, 1, NULL) < 0) return NULL;
    it = object_of(env, given[0], PIECES);
    if (it == NULL) return NULL;
    flat_begin(&flat, instance_of(env)->out, it->pushed > UINT32_MAX);
    if (it->stream == NULL) return answer(env, DADO_OK, &flat);
    status = dado_stream_finish(&it->stream);
    it->is_finished = status == DADO_OK;
    if (status == DADO_OK) status = decided(it, &flat);
    if (status == DADO_OK) status = dado_stream_view(&it->stream, &held);
    if (status == DADO_OK) it->end = held.from + held.len, pieces_let_go(env, it);
    return answer(env, status, &flat);
}

/* piecesCut(pieces): the place up to which all is decided. */
napi_value pieces_cut(napi_env env, napi_callback_info info) {
    napi_value given[1];
    Pieces *it;
    dado_held held;
    dado_status status;
    if (arguments_of(env, info, given, 1, NULL) < 0) return NULL;
    it = object_of(env, given[0], PIECES);
    if (it == NULL) return NULL;
    if (it->of->is_wide) return number_value(env, (double)it->counted.characters);
    if (it->stream == NULL) return number_value(env, (double)it->end);
    status = dado_stream_view(&it->stream, &held);
    return status == DADO_OK ? number_value(env, (double)decided_to(it, &held)) : refuse(env, status);
}

/* ---- Replacers and maskers ---- */

/* Either of them. */
typedef struct {
    Tag tag;
    dado_replacer *replacer;
    dado_masker *masker;
    Replacements *by;
    int64_t memory;               /* as V8 was told */
    int is_finished;
} Changer;

typedef struct {
    uint8_t *at;
    size_t len, room;
} Made;

static void changer_let_go(napi_env env, Changer *it) {
    dado_replacer_free(&it->replacer);
    dado_masker_free(&it->masker);
    if (it->by != NULL) replacements_released(it->by);
    it->by = NULL;
    told(env, &it->memory, 0);
}

static void changer_finalize(napi_env env, void *data, void *hint) {
    (void)hint;
    changer_let_go(env, data);
    free(data);
}

static Changer *changer_new(napi_env env, Tag tag) {
    Changer *it = calloc(1, sizeof *it);
    if (it == NULL) refuse(env, DADO_NO_MEMORY);
    else it->tag = tag;
    return it;
}

/* Hands over what was begun, and takes so much memory; or frees it. */
static napi_value changer_begun(napi_env env, Changer *it, dado_status status, size_t memory) {
    if (status != DADO_OK) {
        changer_finalize(env, it, NULL);
        return refuse(env, status);
    }
    told(env, &it->memory, memory);
    return handed_over(env, it, changer_finalize);
}

static dado_status append(Made *it, dado_bytes slice) {
    size_t room = it->room < 4096 ? 4096 : it->room;
    if (slice.len > SIZE_MAX / 4 - it->len) return DADO_TOO_MANY_BYTES;
    while (room < it->len + slice.len) room *= 2;
    if (room != it->room) {
        uint8_t *grown = realloc(it->at, room);
        if (grown == NULL) return DADO_NO_MEMORY;
        it->at = grown, it->room = room;
    }
    if (slice.len != 0) memcpy(it->at + it->len, slice.at, slice.len);
    it->len += slice.len;
    return DADO_OK;
}

/* What is ready now. */
static dado_status ready(Changer *it, Made *out) {
    dado_bytes slice;
    dado_status status;
    if (it->tag == MASKER) {
        status = dado_masker_ready(&it->masker, &slice);
        return status == DADO_OK ? append(out, slice) : status;
    }
    while ((status = dado_replacer_next(&it->replacer, it->by->bytes, it->by->count, &slice)) == DADO_OK) {
        status = append(out, slice);
        if (status != DADO_OK) return status;
    }
    return status == DADO_NONE ? DADO_OK : status;
}

static dado_status pushed(Changer *it, const Text *text, Made *out) {
    size_t at = 0, taken = 0;
    dado_status status = it->is_finished ? DADO_FINISHED : DADO_OK;
    while (status == DADO_OK && at < text->len) {
        const uint8_t *from = (const uint8_t *)text->at + at;
        status = it->tag == MASKER ? dado_masker_push(&it->masker, from, text->len - at, &taken)
                                   : dado_replacer_push(&it->replacer, from, text->len - at, &taken);
        if (status == DADO_OK) status = ready(it, out), at += taken;
    }
    return status;
}

static napi_value made_value(napi_env env, dado_status status, Made *made) {
    napi_value value = status == DADO_OK ? buffer_of(env, made->at, made->len) : refuse(env, status);
    free(made->at);
    return value;
}

static napi_value push(napi_env env, napi_callback_info info, Tag tag) {
    napi_value given[2];
    Made made = {NULL, 0, 0};
    Text text;
    Changer *it;
    Searcher any;
    if (arguments_of(env, info, given, 2, NULL) < 0) return NULL;
    it = object_of(env, given[0], tag);
    memset(&any, 0, sizeof any);
    any.is_bytes = 1;
    if (it == NULL || text_read(env, &any, given[1], 0, NULL, &text) < 0) return NULL;
    return made_value(env, pushed(it, &text, &made), &made);
}

static napi_value finish(napi_env env, napi_callback_info info, Tag tag) {
    napi_value given[1];
    Made made = {NULL, 0, 0};
    Changer *it;
    dado_status status;
    if (arguments_of(env, info, given, 1, NULL) < 0) return NULL;
    it = object_of(env, given[0], tag);
    if (it == NULL) return NULL;
    if (it->is_finished) return made_value(env, DADO_OK, &made);
    status = tag == MASKER ? dado_masker_finish(&it->masker) : dado_replacer_finish(&it->replacer);
    if (status == DADO_OK) status = ready(it, &made);
    if (status == DADO_OK) it->is_finished = 1, changer_let_go(env, it);
    return made_value(env, status, &made);
}

/* replacer(searcher, replacements) */
napi_value replacer_new(napi_env env, napi_callback_info info) {
    napi_value given[2];
    const Searcher *of;
    Replacements *by;
    Changer *it;
    dado_status status;
    if (arguments_of(env, info, given, 2, NULL) < 0) return NULL;
    of = object_of(env, given[0], SEARCHER);
    by = of == NULL ? NULL : object_of(env, given[1], REPLACEMENTS);
    if (by == NULL) return NULL;
    if (by->is_text && by->count != 0) return refuse(env, DADO_BAD_ARGUMENT);
    it = changer_new(env, REPLACER);
    if (it == NULL) return NULL;
    status = dado_replacer_new(of->handle, &it->replacer);
    if (status == DADO_OK && by->count != dado_pattern_count(of->handle)) status = DADO_WRONG_COUNT;
    if (status == DADO_OK) it->by = replacements_shared(by);
    return changer_begun(env, it, status, size_of_one(of->handle));
}

/* masker(searcher, how, byte): of all occurrences, or of all whole words. */
napi_value masker_new(napi_env env, napi_callback_info info) {
    napi_value given[3];
    const Searcher *of;
    Changer *it;
    uint8_t star;
    int words;
    dado_status status;
    if (arguments_of(env, info, given, 3, NULL) < 0) return NULL;
    of = object_of(env, given[0], SEARCHER);
    it = of == NULL ? NULL : changer_new(env, MASKER);
    if (it == NULL) return NULL;
    words = (how_of(env, given[1]) & WORDS) != 0, star = (uint8_t)how_of(env, given[2]);
    status = words ? dado_word_masker_new(of->handle, star, &it->masker) : dado_masker_new(of->handle, star, &it->masker);
    return changer_begun(env, it, status, (words ? 2 : 1) * size_of_one(of->handle));
}

napi_value replacer_push(napi_env env, napi_callback_info info) { return push(env, info, REPLACER); }
napi_value replacer_finish(napi_env env, napi_callback_info info) { return finish(env, info, REPLACER); }
napi_value masker_push(napi_env env, napi_callback_info info) { return push(env, info, MASKER); }
napi_value masker_finish(napi_env env, napi_callback_info info) { return finish(env, info, MASKER); }
