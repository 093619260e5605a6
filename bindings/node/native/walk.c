/* Searches: one match, all of them at once, and one after another. */
#include "native.h"

#include <stdlib.h>
#include <string.h>

/* ---- One match after another ---- */

void begin(Going *it, uint32_t how, const Text *text) {
    memset(it, 0, sizeof *it);
    it->how = how;
    it->cursor = dado_cursor_over(text->low, text->high);
    it->cursor.anchored = (how & ANCHORED) != 0, it->cursor.earliest = (how & EARLIEST) != 0;
    it->place = dado_place_over(text->low, text->high);
}

/* As many matches as there is room for, with places in what is searched. */
static dado_status found(const Searcher *of, const Text *text, Going *it, dado_match *out, size_t room, size_t *count) {
    uint32_t kind = (it->how & KIND) >> KIND_SHIFT;
    switch (it->how & WAY) {
    case OCCURRENCES: return dado_overlapping_some(of->handle, text->coded, text->size, &it->place, out, room, count);
    case WORDS: return dado_words_some(of->handle, kind, text->coded, text->size, &it->from, out, room, count);
    case ALL_WORDS: return dado_overlapping_words_some(of->handle, text->coded, text->size, &it->place, out, room, count);
    default: return dado_some(of->handle, text->coded, text->size, &it->cursor, out, room, count);
    }
}

/* The places of matches are counted in units, where these have several bytes. Empty matches within a unit are left out. */
static dado_status placed(const Text *text, Going *it, dado_match *out, size_t *count) {
    return text->is_counted ? dado_in_characters(text->coded, text->size, &it->counted, out, count) : DADO_OK;
}

static dado_status some_of(const Searcher *of, const Text *text, Going *it, dado_match *out, size_t room, size_t *count, int *over) {
    dado_status status;
    do {
        status = found(of, text, it, out, room, count);
        *over = status == DADO_NONE || *count < room;
        if (status == DADO_OK) status = placed(text, it, out, count);
    } while (status == DADO_OK && *count == 0 && !*over);
    return status == DADO_NONE ? DADO_OK : status;
}

dado_status some(const Searcher *of, const Text *text, Going *going, dado_match *out, size_t *count, int *over) {
    return some_of(of, text, going, out, ROOM, count, over);
}

/* ---- Matches in a row ---- */

void flat_begin(Flat *it, uint32_t *near, int are_doubles) {
    it->count = 0, it->room = near == NULL ? 0 : ROOM, it->are_doubles = are_doubles, it->is_own = 0;
    it->at = near == NULL ? NULL : near + 4;
}

static dado_status flat_grow(Flat *it, size_t more) {
    size_t room = it->room < ROOM ? ROOM : it->room, size = 3 * (it->are_doubles ? sizeof(double) : sizeof(uint32_t));
    void *grown;
    while (room < it->count + more) room *= 2;
    grown = room > SIZE_MAX / 2 / size ? NULL : realloc(it->is_own ? it->at : NULL, room * size);
    if (grown == NULL) return DADO_NO_MEMORY;
    if (!it->is_own && it->count != 0) memcpy(grown, it->at, it->count * size);
    it->at = grown, it->room = room, it->is_own = 1;
    return DADO_OK;
}

dado_status flat_add(Flat *it, const dado_match *found, size_t count) {
    size_t i;
    if (it->count + count > it->room && flat_grow(it, count) != DADO_OK) return DADO_NO_MEMORY;
    if (it->are_doubles) {
        double *to = (double *)it->at + 3 * it->count;
        for (i = 0; i < count; i++, to += 3) to[0] = found[i].pattern, to[1] = (double)found[i].start, to[2] = (double)found[i].end;
    } else {
        uint32_t *to = (uint32_t *)it->at + 3 * it->count;
        for (i = 0; i < count; i++, to += 3) to[0] = found[i].pattern, to[1] = (uint32_t)found[i].start, to[2] = (uint32_t)found[i].end;
    }
    it->count += count;
    return DADO_OK;
}

void flat_let_go(Flat *it) {
    if (it->is_own) free(it->at);
    it->at = NULL, it->is_own = 0;
}

napi_value flat_value(napi_env env, Instance *instance, Flat *it) {
    napi_value value;
    void *to;
    if (!it->is_own && it->at != NULL) {
        instance->out[0] = (uint32_t)it->count, instance->out[1] = (uint32_t)it->are_doubles;
        return napi_create_uint32(env, (uint32_t)it->count, &value) == napi_ok ? value : failed(env);
    }
    value = array_new(env, it->are_doubles ? ARRAY_DOUBLES : ARRAY_INTS, 3 * it->count, &to);
    if (value != NULL && it->count != 0) memcpy(to, it->at, it->count * 3 * (it->are_doubles ? sizeof(double) : sizeof(uint32_t)));
    flat_let_go(it);
    return value;
}

dado_status collect(const Searcher *of, const Text *text, uint32_t how, Flat *out) {
    Going going;
    dado_match matches[ROOM];
    dado_status status = DADO_OK;
    int over = 0;
    begin(&going, how, text);
    while (status == DADO_OK && !over) {
        size_t count = 0;
        status = some(of, text, &going, matches, &count, &over);
        if (status == DADO_OK) status = flat_add(out, matches, count);
    }
    return status;
}

/* ---- Calls that search once ---- */

/* The arguments that all of them begin with: searcher, text, how, and a span that may be left out. NULL with an exception. */
static Searcher *search_of(napi_env env, napi_callback_info info, Near *near, Text *text, uint32_t *how) {
    napi_value given[5];
    size_t count = 0;
    Searcher *of;
    dado_status status;
    if (arguments_of(env, info, given, 5, &count) < 0) return NULL;
    of = object_of(env, given[0], SEARCHER);
    if (of == NULL) return NULL;
    *how = how_of(env, given[2]);
    if (text_read(env, of, given[1], *how, near, text) < 0) return NULL;
    if (count == 5) span_of(env, text, given[3], given[4]);
    status = text_code(of, text, 0, near);
    if (status == DADO_OK) return of;
    text_let_go(text);
    refuse(env, status);
    return NULL;
}

/* The first match: it is in the instance's room, if the answer is 1. */
static dado_status first(const Searcher *of, const Text *text, uint32_t how, dado_match *out, size_t *count) {
    Going going;
    int over;
    dado_status status;
    if ((how & WAY) == MATCHES) {
        dado_span span;
        span.start = text->low, span.end = text->high;
        span.anchored = (how & ANCHORED) != 0, span.earliest = (how & EARLIEST) != 0;
        status = dado_find_in(of->handle, text->coded, text->size, span, out);
        *count = status == DADO_OK;
        if (status == DADO_NONE) return DADO_OK;
        begin(&going, how, text);
        return status == DADO_OK ? placed(text, &going, out, count) : status;
    }
    begin(&going, how, text);
    return some_of(of, text, &going, out, 1, count, &over);
}

napi_value call_find(napi_env env, napi_callback_info info) {
    Near near;
    Text text;
    Flat flat;
    uint32_t how;
    dado_match match;
    size_t count = 0;
    dado_status status;
    Instance *instance = instance_of(env);
    const Searcher *of = search_of(env, info, &near, &text, &how);
    if (of == NULL) return NULL;
    status = first(of, &text, how, &match, &count);
    flat_begin(&flat, instance->out, text.len > UINT32_MAX);
    if (status == DADO_OK) status = flat_add(&flat, &match, count);
    text_let_go(&text);
    return status == DADO_OK ? flat_value(env, instance, &flat) : refuse(env, status);
}

napi_value call_is_match(napi_env env, napi_callback_info info) {
    Near near;
    Text text;
    uint32_t how;
    dado_match match;
    size_t count = 0;
    dado_status status;
    napi_value value;
    const Searcher *of = search_of(env, info, &near, &text, &how);
    if (of == NULL) return NULL;
    status = first(of, &text, how | EARLIEST, &match, &count);
    text_let_go(&text);
    if (status != DADO_OK) return refuse(env, status);
    return napi_get_boolean(env, count != 0, &value) == napi_ok ? value : failed(env);
}

napi_value call_all(napi_env env, napi_callback_info info) {
    Near near;
    Text text;
    Flat flat;
    uint32_t how;
    dado_status status;
    Instance *instance = instance_of(env);
    const Searcher *of = search_of(env, info, &near, &text, &how);
    if (of == NULL) return NULL;
    flat_begin(&flat, instance->out, text.len > UINT32_MAX);
    status = collect(of, &text, how, &flat);
    text_let_go(&text);
    if (status == DADO_OK) return flat_value(env, instance, &flat);
    flat_let_go(&flat);
    return refuse(env, status);
}

/* ---- A walk that JavaScript holds ---- */

typedef struct {
    Tag tag;
    Searcher *of;
    Text text;
    Going going;
    int over;
    int64_t memory;               /* of the copy of a string, as V8 was told */
} Walk;

static void walk_let_go(napi_env env, Walk *it) {
    text_let_go(&it->text);
    if (it->of != NULL) searcher_released(it->of);
    told(env, &it->memory, 0);
    it->of = NULL, it->over = 1;
}

static void walk_finalize(napi_env env, void *data, void *hint) {
    (void)hint;
    walk_let_go(env, data);
    free(data);
}

static napi_value walk_of(napi_env env, Searcher *of, Text *text, uint32_t how) {
    Walk *it = calloc(1, sizeof *it);
    if (it == NULL) {
        text_let_go(text);
        return refuse(env, DADO_NO_MEMORY);
    }
    it->tag = WALK, it->of = searcher_shared(of), it->text = *text;
    begin(&it->going, how, text);
    told(env, &it->memory, (text->own == NULL ? 0 : text->len * (text->form == FORM_UNITS ? 2 : 1)) +
                               (text->own_coded == NULL ? 0 : text->size));
    return handed_over(env, it, walk_finalize);
}

/* walk(searcher, text, how[, start, end]) */
napi_value walk_new(napi_env env, napi_callback_info info) {
    Text text;
    uint32_t how;
    Searcher *of = search_of(env, info, NULL, &text, &how);
    return of == NULL ? NULL : walk_of(env, of, &text, how);
}

/* A Buffer is given again at each call: it may be elsewhere, or shorter, than it was. */
static int look_again(napi_env env, Walk *it, napi_value value) {
    Text now;
    if (it->text.form != FORM_BYTES) return 0;
    if (text_read(env, it->of, value, 0, NULL, &now) < 0) return -1;
    if (now.form != FORM_BYTES || now.len != it->text.len) {
        text_let_go(&now);
        refuse(env, DADO_BAD_CURSOR);
        return -1;
    }
    it->text.at = now.at, it->text.coded = now.at;
    return 0;
}

/* walkNext(walk, text): how many there are of the next matches, which are in the instance's room; 0 at the end. */
napi_value walk_next(napi_env env, napi_callback_info info) {
    napi_value given[2];
    Flat flat;
    dado_match matches[ROOM];
    size_t count = 0;
    dado_status status = DADO_OK;
    Instance *instance = instance_of(env);
    Walk *it;
    if (arguments_of(env, info, given, 2, NULL) < 0) return NULL;
    it = object_of(env, given[0], WALK);
    if (it == NULL || (!it->over && look_again(env, it, given[1]) < 0)) return NULL;
    flat_begin(&flat, instance->out, it->text.len > UINT32_MAX);
    if (!it->over) status = some(it->of, &it->text, &it->going, matches, &count, &it->over);
    if (status == DADO_OK) status = flat_add(&flat, matches, count);
    if (it->over) walk_let_go(env, it);
    return status == DADO_OK ? flat_value(env, instance, &flat) : refuse(env, status);
}

/* walkEnd(walk): lets go of what it holds. */
napi_value walk_end(napi_env env, napi_callback_info info) {
    napi_value given[1];
    Walk *it;
    if (arguments_of(env, info, given, 1, NULL) < 0) return NULL;
    it = object_of(env, given[0], WALK);
    if (it == NULL) return NULL;
    walk_let_go(env, it);
    return nothing(env);
}
