/* Automata of the library, and the codes by which strings are written for them. */
#include "native.h"

#include <stdlib.h>
#include <string.h>

/* The patterns of a build: `count` of them, each of which ends at `ends[i]` in `units` or `bytes`. */
typedef struct {
    size_t count, *ends;
    char16_t *units;
    uint8_t *bytes;
    size_t used, room;
    uint8_t *coded;
    dado_bytes *each;
} Patterns;

static void patterns_let_go(Patterns *it) {
    free(it->ends), free(it->units), free(it->bytes), free(it->coded), free(it->each);
}

/* ---- Reading patterns ---- */

/* Makes room for `more` items of a size. */
static int grows(void **at, size_t *room, size_t used, size_t more, size_t size) {
    size_t wanted = *room;
    void *grown;
    if (used + more <= wanted) return 0;
    while (wanted < used + more) wanted = wanted < 512 ? 1024 : wanted * 2;
    grown = realloc(*at, wanted * size);
    if (grown == NULL) return -1;
    *at = grown, *room = wanted;
    return 0;
}

static int read_string(napi_env env, napi_value value, Patterns *it) {
    size_t len = 0;
    void *at = it->units;
    if (napi_get_value_string_utf16(env, value, NULL, 0, &len) != napi_ok) {
        refuse_argument(env, "the patterns are neither all strings nor all bytes");
        return -1;
    }
    if (grows(&at, &it->room, it->used, len + 1, sizeof *it->units) < 0) {
        refuse(env, DADO_NO_MEMORY);
        return -1;
    }
    it->units = at;
    if (napi_get_value_string_utf16(env, value, it->units + it->used, len + 1, &len) != napi_ok) {
        failed(env);
        return -1;
    }
    it->used += len;
    return 0;
}

static int read_bytes(napi_env env, napi_value value, Patterns *it) {
    size_t len = 0;
    void *data = NULL, *at = it->bytes;
    napi_typedarray_type type;
    if (napi_get_typedarray_info(env, value, &type, &len, &data, NULL, NULL) != napi_ok || type != napi_uint8_array) {
        refuse_argument(env, "the patterns are neither all strings nor all bytes");
        return -1;
    }
    if (grows(&at, &it->room, it->used, len + 1, 1) < 0) {
        refuse(env, DADO_NO_MEMORY);
        return -1;
    }
    it->bytes = at;
    if (len != 0) memcpy(it->bytes + it->used, data, len);
    it->used += len;
    return 0;
}

/* Reads an array of strings, or of bytes. -1 with an exception. */
static int patterns_read(napi_env env, napi_value array, int are_text, Patterns *out) {
    uint32_t length = 0, i;
    if (napi_get_array_length(env, array, &length) != napi_ok) {
        refuse_argument(env, "the patterns are no array");
        return -1;
    }
    out->ends = calloc((size_t)length + 1, sizeof *out->ends);
    out->each = calloc((size_t)length + 1, sizeof *out->each);
    if (out->ends == NULL || out->each == NULL) {
        refuse(env, DADO_NO_MEMORY);
        return -1;
    }
    for (i = 0; i < length; i++) {
        napi_handle_scope scope;
        napi_value item;
        int done = -1;
        if (napi_open_handle_scope(env, &scope) != napi_ok) return failed(env), -1;
        if (napi_get_element(env, array, i, &item) != napi_ok) failed(env);
        else done = are_text ? read_string(env, item, out) : read_bytes(env, item, out);
        (void)napi_close_handle_scope(env, scope);
        if (done < 0) return -1;
        out->ends[i] = out->used;
    }
    out->count = length;
    return 0;
}

/* ---- Codes ---- */

/* Each unit beyond ASCII that the patterns have gets a code of its own, unless there are too many: that of Latin-1 is the unit itself. */
static dado_status choose_codes(Searcher *it, const Patterns *of) {
    uint8_t *has = calloc(1, 0x10000), *taken;
    size_t i, beyond = 0, last = 0x7F, code = 0x80;
    if (has == NULL) return DADO_NO_MEMORY;
    for (i = 0; i < of->used; i++) has[of->units[i]] = 1;
    for (i = 0x80; i < 0x10000; i++)
        if (has[i]) beyond++, last = i;
    it->is_ascii = beyond == 0, it->are_latin = last < 0x100 && beyond <= MOST_BEYOND, it->is_wide = beyond > MOST_BEYOND;
    it->code_count = last + 1;
    it->codes = it->is_wide ? NULL : calloc(1, it->code_count);
    if (it->is_wide || it->codes == NULL) {
        it->marker = 0xFF; /* is in no text that is written as one to three bytes for each unit */
        free(has);
        return it->is_wide ? DADO_OK : DADO_NO_MEMORY;
    }
    taken = has + 0x80; /* those of Latin-1 that are their own codes */
    for (i = 0; i < 0x80; i++) it->codes[i] = (uint8_t)i;
    for (i = 0x80; i <= last && i < 0x100; i++)
        if (has[i]) it->codes[i] = (uint8_t)i;
    for (i = 0x100; i <= last; i++) {
        if (!has[i]) continue;
        while (taken[code - 0x80]) code++;
        it->codes[i] = (uint8_t)code++;
    }
    while (taken[code - 0x80]) code++;
    it->other = (uint8_t)code++;
    while (taken[code - 0x80]) code++;
    it->marker = (uint8_t)code;
    for (i = 0x80; i <= last; i++)
        if (!has[i]) it->codes[i] = it->other;
    free(has);
    return DADO_OK;
}

/* How many units each pattern has. */
static dado_status measure(Searcher *it, const Patterns *of) {
    size_t i;
    if (!it->is_wide) return DADO_OK;
    it->widths = malloc((of->count + 1) * sizeof *it->widths);
    if (it->widths == NULL) return DADO_NO_MEMORY;
    for (i = 0; i < of->count; i++) it->widths[i] = of->ends[i] - (i == 0 ? 0 : of->ends[i - 1]);
    return DADO_OK;
}

/* The bytes of each pattern, as a text is written. */
static dado_status code_patterns(const Searcher *it, Patterns *of) {
    size_t i, start = 0, at = 0;
    const uint8_t *bytes = of->bytes;
    if (it->is_text && of->count != 0) {
        of->coded = malloc((it->is_wide ? 3 : 1) * of->used + 1);
        if (of->coded == NULL) return DADO_NO_MEMORY;
        bytes = of->coded;
    }
    for (i = 0; i < of->count; i++) {
        size_t len = of->ends[i] - start, j;
        of->each[i].at = bytes + at;
        if (it->is_text && it->is_wide) len = wide_of(of->units + start, len, of->coded + at);
        else if (it->is_text)
            for (j = 0; j < len; j++) of->coded[at + j] = it->codes[of->units[start + j]];
        of->each[i].len = len;
        at += len, start = of->ends[i];
    }
    return DADO_OK;
}

/* ---- Building ---- */

Searcher *searcher_shared(Searcher *it) {
    it->refs++;
    return it;
}

void searcher_released(Searcher *it) {
    if (--it->refs != 0) return;
    dado_free(&it->handle);
    free(it->codes);
    free(it->widths);
    free(it);
}

static void searcher_finalize(napi_env env, void *data, void *hint) {
    Searcher *it = data;
    int64_t held = (int64_t)it->memory;
    (void)hint;
    told(env, &held, 0);
    searcher_released(it);
}

enum { FOLD = 1, PREFILTER = 2, BYTE_CLASSES = 4 };

/* The settings of a build: an array of numbers, and the bytes of the pairs. -1 with an exception. */
static int settings_of(napi_env env, napi_value numbers, napi_value pairs, dado_settings *out) {
    void *at = NULL, *pair_at = NULL;
    size_t len = 0, pair_len = 0;
    napi_typedarray_type type, pair_type;
    const double *number;
    if (napi_get_typedarray_info(env, numbers, &type, &len, &at, NULL, NULL) != napi_ok || type != napi_float64_array || len != 6 ||
        napi_get_typedarray_info(env, pairs, &pair_type, &pair_len, &pair_at, NULL, NULL) != napi_ok || pair_type != napi_uint8_array) {
        refuse_argument(env, "the settings are six numbers, and bytes");
        return -1;
    }
    number = at;
    *out = dado_settings_default();
    out->kind = (uint32_t)number[0], out->start_kind = (uint32_t)number[1], out->engine = (uint32_t)number[2];
    out->fold = ((uint32_t)number[3] & FOLD) != 0, out->prefilter = ((uint32_t)number[3] & PREFILTER) != 0;
    out->byte_classes = ((uint32_t)number[3] & BYTE_CLASSES) != 0;
    if (number[4] >= 0) out->dense_depth = (size_t)number[4];
    if (number[5] >= 0) out->row_memory = (size_t)number[5];
    out->pairs = pair_at, out->pair_count = pair_len / 2;
    return 0;
}

static napi_value refuse_build(napi_env env, dado_status status, const dado_fault *fault) {
    napi_value error = error_of(env, status), number;
    if (error == NULL) return failed(env);
    if (status == DADO_PATTERN_TOO_LONG && napi_create_uint32(env, fault->pattern, &number) == napi_ok)
        (void)napi_set_named_property(env, error, "pattern", number);
    napi_throw(env, error);
    return NULL;
}

static napi_value build(napi_env env, Searcher *it, Patterns *patterns, const dado_settings *settings) {
    dado_fault fault = {0, 0};
    int64_t held = 0;
    dado_status status = it->is_text ? choose_codes(it, patterns) : DADO_OK;
    if (status == DADO_OK) status = measure(it, patterns);
    if (status == DADO_OK) status = code_patterns(it, patterns);
    if (status == DADO_OK) status = dado_build(patterns->each, patterns->count, settings, &it->handle, &fault);
    if (status != DADO_OK) {
        searcher_released(it);
        return refuse_build(env, status, &fault);
    }
    it->kind = settings->kind;
    it->memory = dado_memory(it->handle) + (it->codes == NULL ? 0 : it->code_count) +
                 (it->widths == NULL ? 0 : patterns->count * sizeof *it->widths);
    told(env, &held, it->memory);
    return handed_over(env, it, searcher_finalize);
}

/* searcher(patterns, what, numbers, pairs): `what` is 0 for bytes and 1 for strings; without patterns it searches both. */
napi_value searcher_new(napi_env env, napi_callback_info info) {
    napi_value given[4], made = NULL;
    Patterns patterns = {0, NULL, NULL, NULL, 0, 0, NULL, NULL};
    dado_settings settings;
    Searcher *it;
    int are_text;
    if (arguments_of(env, info, given, 4, NULL) < 0 || settings_of(env, given[2], given[3], &settings) < 0) return NULL;
    are_text = how_of(env, given[1]) != 0;
    if (patterns_read(env, given[0], are_text, &patterns) == 0) {
        it = calloc(1, sizeof *it);
        if (it == NULL) refuse(env, DADO_NO_MEMORY);
        else {
            it->tag = SEARCHER, it->refs = 1;
            it->is_text = are_text || patterns.count == 0, it->is_bytes = !are_text || patterns.count == 0;
            made = build(env, it, &patterns, &settings);
        }
    }
    patterns_let_go(&patterns);
    return made;
}

/* about(searcher): the number of the engine, the memory, whether all patterns are ASCII, and how strings are written: 0 for codes, 1 for
 * one to three bytes. */
napi_value searcher_about(napi_env env, napi_callback_info info) {
    napi_value given[1], array;
    void *at;
    double *out;
    const Searcher *it;
    if (arguments_of(env, info, given, 1, NULL) < 0) return NULL;
    it = object_of(env, given[0], SEARCHER);
    array = it == NULL ? NULL : array_new(env, ARRAY_DOUBLES, 4, &at);
    if (array == NULL) return NULL;
    out = at;
    out[0] = dado_engine(it->handle), out[1] = (double)it->memory, out[2] = it->is_ascii, out[3] = it->is_wide;
    return array;
}
