/* What is searched: the memory of a Buffer, or a copy of a string, written as the patterns are. */
#include "native.h"

#include <stdlib.h>
#include <string.h>

/* ---- Reading ---- */

static int is_string(napi_env env, napi_value value) {
    napi_valuetype type;
    return napi_typeof(env, value, &type) == napi_ok && type == napi_string;
}

static int read_bytes(napi_env env, napi_value value, Text *out) {
    napi_typedarray_type type;
    void *at = NULL;
    if (napi_get_typedarray_info(env, value, &type, &out->len, &at, NULL, NULL) != napi_ok || type != napi_uint8_array) {
        refuse_argument(env, "the text is neither a string nor a Uint8Array");
        return -1;
    }
    out->form = FORM_BYTES, out->at = at;
    return 0;
}

/* Makes memory for a copy of a string, one more unit than it has. */
static void *room_for(napi_env env, Text *out, size_t units, size_t width) {
    out->own = units < SIZE_MAX / 4 ? malloc((units + 1) * width) : NULL;
    if (out->own == NULL) refuse(env, DADO_NO_MEMORY);
    out->at = out->own;
    return out->own;
}

static int read_latin(napi_env env, napi_value value, Text *out) {
    char *to;
    out->form = FORM_LATIN;
    if (napi_get_value_string_latin1(env, value, NULL, 0, &out->len) != napi_ok) return failed(env), -1;
    to = room_for(env, out, out->len, 1);
    if (to == NULL) return -1;
    if (napi_get_value_string_latin1(env, value, to, out->len + 1, &out->len) != napi_ok) return failed(env), -1;
    return 0;
}

/* Reads the units of a string: near, if they are few. */
static int read_units(napi_env env, napi_value value, Near *near, Text *out) {
    char16_t *to;
    out->form = FORM_UNITS;
    if (near != NULL) {
        out->at = near->units;
        if (napi_get_value_string_utf16(env, value, near->units, SHORT + 1, &out->len) != napi_ok) return failed(env), -1;
        if (out->len < SHORT) return 0;
    }
    if (napi_get_value_string_utf16(env, value, NULL, 0, &out->len) != napi_ok) return failed(env), -1;
    if (near != NULL && out->len <= SHORT) return 0;
    to = room_for(env, out, out->len, sizeof *to);
    if (to == NULL) return -1;
    if (napi_get_value_string_utf16(env, value, to, out->len + 1, &out->len) != napi_ok) return failed(env), -1;
    return 0;
}

int text_read(napi_env env, const Searcher *of, napi_value value, uint32_t how, Near *near, Text *out) {
    int done;
    memset(out, 0, sizeof *out);
    out->end = SIZE_MAX;
    if (is_string(env, value)) {
        if (!of->is_text) done = -1;
        else done = how & LATIN ? read_latin(env, value, out) : read_units(env, value, near, out);
    } else {
        done = !of->is_bytes ? -1 : read_bytes(env, value, out);
    }
    if (done < 0) {
        bool is_pending = false;
        (void)napi_is_exception_pending(env, &is_pending);
        if (!is_pending) refuse_argument(env, "patterns of strings search strings, and patterns of bytes search Uint8Arrays");
        text_let_go(out);
    }
    return done;
}

void span_of(napi_env env, Text *it, napi_value start, napi_value end) {
    size_t from = size_of(env, start);
    it->start = from == SIZE_MAX ? 0 : from;
    it->end = size_of(env, end);
}

void text_let_go(Text *it) {
    free(it->own);
    free(it->own_coded);
    it->own = it->own_coded = NULL;
}

/* ---- Writing what is searched ---- */

size_t wide_of(const char16_t *units, size_t count, uint8_t *out) {
    size_t i, at = 0;
    if (out == NULL) {
        for (i = 0; i < count; i++) at += 1 + (size_t)(units[i] >= 0x80) + (size_t)(units[i] >= 0x800);
        return at;
    }
    for (i = 0; i < count; i++) {
        unsigned unit = units[i];
        if (unit < 0x80) out[at++] = (uint8_t)unit;
        else if (unit < 0x800) out[at++] = (uint8_t)(0xC0 | unit >> 6), out[at++] = (uint8_t)(0x80 | (unit & 0x3F));
        else {
            out[at++] = (uint8_t)(0xE0 | unit >> 12), out[at++] = (uint8_t)(0x80 | (unit >> 6 & 0x3F));
            out[at++] = (uint8_t)(0x80 | (unit & 0x3F));
        }
    }
    return at;
}

/* Narrows units of ASCII, and returns whether all are: else what was written is of no use. */
static int narrow_ascii(const char16_t *units, size_t count, uint8_t *out) {
    unsigned all = 0;
    size_t i;
    for (i = 0; i < count; i++) all |= units[i], out[i] = (uint8_t)units[i];
    return all < 0x80;
}

static int is_ascii(const uint8_t *at, size_t len) {
    unsigned all = 0;
    size_t i;
    for (i = 0; i < len; i++) all |= at[i];
    return all < 0x80;
}

/* Memory for what is searched: near, if it is short. */
static uint8_t *coded_room(Text *it, size_t size, Near *near) {
    if (near != NULL && size <= sizeof near->coded) return near->coded;
    it->own_coded = malloc(size + 1);
    return it->own_coded;
}

/* Writes a byte for each unit. */
static dado_status code_narrow(const Searcher *of, Text *it, Near *near) {
    uint8_t *to = coded_room(it, it->len, near);
    uint32_t width = it->form == FORM_LATIN ? 1 : 2;
    if (to == NULL) return DADO_NO_MEMORY;
    it->coded = to, it->size = it->len;
    if (width == 2 && it->len <= SHORT && narrow_ascii(it->at, it->len, to)) return DADO_OK;
    return dado_narrow(it->at, width, it->len, of->codes, of->code_count, of->other, to);
}

/* The units of a text of Latin-1, whose own memory they take. */
static dado_status widen(Text *it) {
    const uint8_t *from = it->at;
    char16_t *to = malloc((it->len + 1) * sizeof *to);
    size_t i;
    if (to == NULL) return DADO_NO_MEMORY;
    for (i = 0; i < it->len; i++) to[i] = from[i];
    free(it->own);
    it->own = to, it->at = to, it->form = FORM_UNITS;
    return DADO_OK;
}

/* Writes one to three bytes for each unit, and finds the span among them. */
static dado_status code_wide(Text *it, Near *near) {
    const char16_t *units = it->at;
    size_t low = it->low, high = it->high, size = it->len;
    uint8_t *to;
    if (it->len > SHORT) size = wide_of(units, it->len, NULL);
    else size *= 3;
    to = coded_room(it, size, near);
    if (to == NULL) return DADO_NO_MEMORY;
    it->low = wide_of(units, low, to);
    it->high = it->low + wide_of(units + low, high - low, to + it->low);
    it->size = it->high + wide_of(units + high, it->len - high, to + it->high);
    it->coded = to, it->is_counted = it->size != it->len;
    return DADO_OK;
}

dado_status text_code(const Searcher *of, Text *it, int fresh, Near *near) {
    dado_status status = DADO_OK;
    it->low = it->start, it->high = it->end == SIZE_MAX ? it->len : it->end;
    if (it->low > it->high || it->high > it->len) return DADO_BAD_SPAN;
    if (it->form == FORM_BYTES || (it->form == FORM_LATIN && !fresh && (of->is_wide ? is_ascii(it->at, it->len) : of->are_latin))) {
        it->coded = it->at, it->size = it->len;
        return DADO_OK;
    }
    if (!of->is_wide) return code_narrow(of, it, near);
    if (it->form == FORM_LATIN) status = widen(it);
    return status == DADO_OK ? code_wide(it, near) : status;
}
