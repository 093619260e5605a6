/* Replacement and masks. */
#include "native.h"

#include <stdlib.h>
#include <string.h>

/* ---- Replacements ---- */

Replacements *replacements_shared(Replacements *it) {
    it->refs++;
    return it;
}

void replacements_released(Replacements *it) {
    if (--it->refs != 0) return;
    free(it->bytes), free(it->units), free(it->ends), free(it->arena);
    free(it);
}

static void replacements_finalize(napi_env env, void *data, void *hint) {
    Replacements *it = data;
    (void)hint;
    told(env, &it->memory, 0);
    replacements_released(it);
}

/* How many bytes they take. */
static size_t replacements_size(const Replacements *it) {
    size_t used = it->count == 0 ? 0 : it->ends[it->count - 1];
    return it->count * (sizeof *it->bytes + sizeof *it->ends) + used * (it->is_text ? sizeof *it->units : 0) + (it->arena == NULL ? 0 : used);
}

/* Adds the units, or the bytes, of one replacement to what was read: `used` of them, and where they end. */
static int read_one(napi_env env, napi_value value, Replacements *it, size_t *used, size_t *room) {
    size_t len = 0, width = it->is_text ? sizeof(char16_t) : 1;
    void *data = NULL, *held = it->is_text ? (void *)it->units : (void *)it->arena;
    napi_typedarray_type type = napi_uint8_array;
    napi_status status = it->is_text ? napi_get_value_string_utf16(env, value, NULL, 0, &len)
                                     : napi_get_typedarray_info(env, value, &type, &len, &data, NULL, NULL);
    if (status != napi_ok || type != napi_uint8_array) {
        refuse_argument(env, "the replacements are not all of the patterns' type");
        return -1;
    }
    if (*used + len + 1 > *room) {
        *room = 2 * (*used + len + 1);
        held = realloc(held, *room * width);
        if (held == NULL) return refuse(env, DADO_NO_MEMORY), -1;
        if (it->is_text) it->units = held;
        else it->arena = held;
    }
    if (!it->is_text && len != 0) memcpy(it->arena + *used, data, len);
    if (it->is_text && napi_get_value_string_utf16(env, value, it->units + *used, len + 1, &len) != napi_ok) return failed(env), -1;
    *used += len;
    return 0;
}

static int read_all(napi_env env, napi_value array, Replacements *it) {
    size_t used = 0, room = 0, i;
    for (i = 0; i < it->count; i++) {
        napi_handle_scope scope;
        napi_value item;
        int done = -1;
        if (napi_open_handle_scope(env, &scope) != napi_ok) return failed(env), -1;
        if (napi_get_element(env, array, (uint32_t)i, &item) != napi_ok) failed(env);
        else done = read_one(env, item, it, &used, &room);
        (void)napi_close_handle_scope(env, scope);
        if (done < 0) return -1;
        it->ends[i] = used;
    }
    return 0;
}

/* The bytes of each replacement: of strings their Latin-1, if they have it. */
static dado_status point(Replacements *it) {
    size_t used = it->count == 0 ? 0 : it->ends[it->count - 1], i, start = 0;
    unsigned all = 0;
    if (it->is_text) {
        for (i = 0; i < used; i++) all |= it->units[i];
        it->is_latin = all <= 0xFF;
        if (!it->is_latin) return DADO_OK;
        it->arena = malloc(used + 1);
        if (it->arena == NULL) return DADO_NO_MEMORY;
        for (i = 0; i < used; i++) it->arena[i] = (uint8_t)it->units[i];
    }
    for (i = 0; i < it->count; i++) {
        it->bytes[i] = dado_bytes_of(it->arena + start, it->ends[i] - start);
        start = it->ends[i];
    }
    return DADO_OK;
}

/* replacements(array, are_text) */
napi_value replacements_new(napi_env env, napi_callback_info info) {
    napi_value given[2];
    uint32_t length = 0;
    dado_status status = DADO_NO_MEMORY;
    Replacements *it;
    if (arguments_of(env, info, given, 2, NULL) < 0) return NULL;
    if (napi_get_array_length(env, given[0], &length) != napi_ok) return refuse_argument(env, "the replacements are no array");
    it = calloc(1, sizeof *it);
    if (it == NULL) return refuse(env, DADO_NO_MEMORY);
    it->tag = REPLACEMENTS, it->refs = 1, it->count = length;
    it->is_text = how_of(env, given[1]) != 0 || length == 0; /* without patterns both types are replaced */
    it->bytes = calloc(it->count + 1, sizeof *it->bytes);
    it->ends = calloc(it->count + 1, sizeof *it->ends);
    if (it->bytes != NULL && it->ends != NULL) {
        if (read_all(env, given[0], it) < 0) {
            replacements_released(it);
            return NULL;
        }
        status = point(it);
    }
    if (status == DADO_OK) {
        told(env, &it->memory, replacements_size(it));
        return handed_over(env, it, replacements_finalize);
    }
    replacements_released(it);
    return refuse(env, status);
}

/* ---- Replacing ---- */

uint32_t how_to_replace(const Searcher *of, const Replacements *by, uint32_t how) {
    return of->are_latin && by->is_latin ? how : how & ~(uint32_t)LATIN;
}

static dado_status put(Changed *it, const char16_t *from, size_t len) {
    size_t room = it->room;
    if (len > SIZE_MAX / 8 - it->len) return DADO_TOO_MANY_BYTES;
    while (room < it->len + len) room *= 2;
    if (room != it->room) {
        char16_t *grown = realloc(it->units, room * sizeof *grown);
        if (grown == NULL) return DADO_NO_MEMORY;
        it->units = grown, it->room = room;
    }
    if (len != 0) memcpy(it->units + it->len, from, len * sizeof *from);
    it->len += len;
    return DADO_OK;
}

/* The units of a string with its matches replaced. */
static dado_status splice(const Searcher *of, const Text *text, uint32_t how, const Replacements *by, Changed *out) {
    const char16_t *units = text->at;
    dado_match found[ROOM];
    Going going;
    size_t at = 0, i;
    int over = 0;
    dado_status status = by->count == dado_pattern_count(of->handle) ? DADO_OK : DADO_WRONG_COUNT;
    begin(&going, how, text);
    out->room = text->len + text->len / 8 + 64; /* enough, as a rule */
    out->units = malloc(out->room * sizeof *out->units);
    if (out->units == NULL) return DADO_NO_MEMORY;
    while (status == DADO_OK && !over) {
        size_t count = 0;
        status = some(of, text, &going, found, &count, &over);
        for (i = 0; status == DADO_OK && i < count; i++) {
            size_t first = found[i].pattern == 0 ? 0 : by->ends[found[i].pattern - 1];
            status = put(out, units + at, found[i].start - at);
            if (status == DADO_OK) status = put(out, by->units + first, by->ends[found[i].pattern] - first);
            at = found[i].end;
        }
    }
    return status == DADO_OK ? put(out, units + at, text->len - at) : status;
}

dado_status change(const Searcher *of, Text *text, uint32_t how, const Replacements *by, Changed *out) {
    dado_status status = text->coded != NULL ? DADO_OK : text_code(of, text, 0, NULL);
    uint32_t kind = (how & KIND) >> KIND_SHIFT;
    memset(out, 0, sizeof *out);
    if (status != DADO_OK) return status;
    if (text->form == FORM_UNITS) {
        out->are_units = 1;
        return by->is_text ? splice(of, text, how, by, out) : DADO_BAD_ARGUMENT;
    }
    if ((how & WAY) == WORDS) return dado_replace_words(of->handle, kind, text->coded, text->size, by->bytes, by->count, &out->text);
    return dado_replace(of->handle, text->coded, text->size, by->bytes, by->count, &out->text);
}

static napi_value string_or_too_long(napi_env env, napi_status made, napi_value value) {
    bool is_pending = false;
    if (made == napi_ok) return value;
    (void)napi_is_exception_pending(env, &is_pending);
    if (!is_pending) napi_throw_range_error(env, "ERR_STRING_TOO_LONG", "the text is longer than a string can be");
    return NULL;
}

static napi_value latin_value(napi_env env, const void *at, size_t len) {
    napi_value value = NULL;
    napi_status made = napi_create_string_latin1(env, len == 0 ? "" : at, len, &value);
    return string_or_too_long(env, made, value);
}

static napi_value units_value(napi_env env, const char16_t *at, size_t len) {
    static const char16_t none[1] = {0};
    napi_value value = NULL;
    napi_status made = napi_create_string_utf16(env, len == 0 ? none : at, len, &value);
    return string_or_too_long(env, made, value);
}

napi_value changed_value(napi_env env, Form form, Changed *it) {
    napi_value value;
    if (it->are_units) value = units_value(env, it->units, it->len);
    else if (form == FORM_LATIN) value = latin_value(env, it->text.at, it->text.len);
    else value = buffer_of(env, it->text.at, it->text.len);
    changed_let_go(it);
    return value;
}

void changed_let_go(Changed *it) {
    dado_text_free(&it->text);
    free(it->units);
    it->units = NULL;
}

/* The number of matches of a string, which are in the instance's room, if there are so few: JavaScript puts the text together of slices
 * then, which copies nothing. NULL where there are more, or with an exception. */
static napi_value few_matches(napi_env env, const Searcher *of, Text *text, uint32_t how, dado_status *status) {
    Going going;
    Flat flat;
    dado_match found[ROOM];
    size_t count = 0;
    int over = 0;
    Instance *instance = instance_of(env);
    *status = text_code(of, text, 0, NULL);
    if (*status != DADO_OK) return NULL;
    begin(&going, how, text);
    *status = some(of, text, &going, found, &count, &over);
    if (*status != DADO_OK || !over) return NULL;
    flat_begin(&flat, instance->out, 0);
    *status = flat_add(&flat, found, count);
    return *status == DADO_OK ? flat_value(env, instance, &flat) : NULL;
}

/* replace(searcher, text, how, replacements): the text, or the number of its matches. */
napi_value call_replace(napi_env env, napi_callback_info info) {
    napi_value given[4], value = NULL;
    Text text;
    Changed changed = {DADO_NO_TEXT, NULL, 0, 0, 0};
    Searcher *of;
    Replacements *by;
    uint32_t how;
    dado_status status = DADO_OK;
    if (arguments_of(env, info, given, 4, NULL) < 0) return NULL;
    of = object_of(env, given[0], SEARCHER);
    by = of == NULL ? NULL : object_of(env, given[3], REPLACEMENTS);
    if (by == NULL) return NULL;
    how = how_to_replace(of, by, how_of(env, given[2]));
    if (text_read(env, of, given[1], how, NULL, &text) < 0) return NULL;
    if (text.form != FORM_BYTES) value = few_matches(env, of, &text, how, &status);
    if (value == NULL && status == DADO_OK) status = change(of, &text, how, by, &changed);
    text_let_go(&text);
    if (value != NULL) return value;
    if (status == DADO_OK) return changed_value(env, text.form, &changed);
    changed_let_go(&changed);
    return refuse(env, status);
}

/* ---- Masks ---- */

static dado_status mask(const Searcher *of, void *at, size_t len, uint32_t how, uint8_t star) {
    return how & WORDS ? dado_mask_words(of->handle, at, len, star) : dado_mask(of->handle, at, len, star);
}

/* The string with a star for each unit that is masked: what was searched says which ones. */
static napi_value mask_units(napi_env env, const Searcher *of, Text *text, uint32_t how, char16_t star) {
    char16_t *units;
    uint8_t *coded;
    size_t i, at = 0;
    dado_status status = text_code(of, text, 1, NULL);
    if (status == DADO_OK) status = mask(of, text->own_coded, text->size, how, of->marker);
    if (status != DADO_OK) return refuse(env, status);
    units = text->own, coded = text->own_coded;
    for (i = 0; i < text->len; i++) {
        char16_t unit = units[i];
        if (coded[at] == of->marker) units[i] = star;
        at += of->is_wide ? 1 + (size_t)(unit >= 0x80) + (size_t)(unit >= 0x800) : 1;
    }
    return units_value(env, units, text->len);
}

static napi_value mask_latin(napi_env env, const Searcher *of, Text *text, uint32_t how, uint8_t star) {
    dado_status status = mask(of, text->own, text->len, how, star);
    return status == DADO_OK ? latin_value(env, text->own, text->len) : refuse(env, status);
}

/* The bytes are asked for again after JavaScript has made the array. */
static napi_value mask_bytes(napi_env env, const Searcher *of, napi_value value, Text *text, uint32_t how, uint8_t star) {
    void *to = NULL;
    Text now;
    dado_status status;
    napi_value buffer = array_new(env, ARRAY_BYTES, text->len, &to);
    if (buffer == NULL || text_read(env, of, value, 0, NULL, &now) < 0) return NULL;
    if (now.len != text->len) return refuse(env, DADO_BAD_ARGUMENT);
    if (now.len != 0) memcpy(to, now.at, now.len);
    status = mask(of, to, text->len, how, star);
    return status == DADO_OK ? buffer : refuse(env, status);
}

/* mask(searcher, text, how, star): the star is a byte, or a unit. */
napi_value call_mask(napi_env env, napi_callback_info info) {
    napi_value given[4], value;
    Text text;
    Searcher *of;
    uint32_t how, star;
    if (arguments_of(env, info, given, 4, NULL) < 0) return NULL;
    of = object_of(env, given[0], SEARCHER);
    if (of == NULL) return NULL;
    how = how_of(env, given[2]), star = how_of(env, given[3]);
    if (!of->are_latin || star > 0xFF) how &= ~(uint32_t)LATIN;
    if (text_read(env, of, given[1], how, NULL, &text) < 0) return NULL;
    switch (text.form) {
    case FORM_UNITS: value = mask_units(env, of, &text, how, (char16_t)star); break;
    case FORM_LATIN: value = mask_latin(env, of, &text, how, (uint8_t)star); break;
    default: value = mask_bytes(env, of, given[1], &text, how, (uint8_t)star); break;
    }
    text_let_go(&text);
    return value;
}

/* maskInPlace(searcher, bytes, how, star) */
napi_value call_mask_in_place(napi_env env, napi_callback_info info) {
    napi_value given[4];
    Text text;
    Searcher *of;
    dado_status status;
    if (arguments_of(env, info, given, 4, NULL) < 0) return NULL;
    of = object_of(env, given[0], SEARCHER);
    if (of == NULL || text_read(env, of, given[1], 0, NULL, &text) < 0) return NULL;
    status = text.form != FORM_BYTES ? DADO_BAD_ARGUMENT
                                     : mask(of, (void *)(uintptr_t)text.at, text.len, how_of(env, given[2]), (uint8_t)how_of(env, given[3]));
    text_let_go(&text);
    return status == DADO_OK ? nothing(env) : refuse(env, status);
}
