/* What the addon shows to lib/, and what all of its calls need: errors, arguments, objects and arrays. */
#include "native.h"

#include <stdlib.h>
#include <string.h>

/* ---- Errors ---- */

enum { ERROR, RANGE_ERROR, TYPE_ERROR };

static const struct {
    const char *code;
    int type;
} statuses[] = {
    {"DADO_OK", ERROR},
    {"DADO_NONE", ERROR},
    {"DADO_NO_AUTOMATON", ERROR},
    {"DADO_BAD_ARGUMENT", TYPE_ERROR},
    {"DADO_NO_MEMORY", ERROR},
    {"DADO_TOO_MANY_STATES", RANGE_ERROR},
    {"DADO_TOO_MANY_PATTERNS", RANGE_ERROR},
    {"DADO_PATTERN_TOO_LONG", RANGE_ERROR},
    {"DADO_BAD_KIND", RANGE_ERROR},
    {"DADO_BAD_START_KIND", RANGE_ERROR},
    {"DADO_BAD_ENGINE", RANGE_ERROR},
    {"DADO_BAD_PAIRS", RANGE_ERROR},
    {"DADO_NOT_ANCHORED", ERROR},
    {"DADO_NOT_UNANCHORED", ERROR},
    {"DADO_NOT_STANDARD", ERROR},
    {"DADO_BAD_SPAN", RANGE_ERROR},
    {"DADO_BAD_CURSOR", RANGE_ERROR},
    {"DADO_WRONG_COUNT", RANGE_ERROR},
    {"DADO_TOO_SHORT", RANGE_ERROR},
    {"DADO_BAD_PATTERN", RANGE_ERROR},
    {"DADO_EMPTY_PATTERN", ERROR},
    {"DADO_NO_STREAM", ERROR},
    {"DADO_FINISHED", ERROR},
    {"DADO_TOO_MANY_BYTES", RANGE_ERROR},
    {"DADO_NO_REPLACER", ERROR},
    {"DADO_NO_MASKER", ERROR},
};

static const char *code_of(dado_status status) {
    return status < sizeof statuses / sizeof *statuses ? statuses[status].code : "DADO_UNKNOWN";
}

static int type_of(dado_status status) { return status < sizeof statuses / sizeof *statuses ? statuses[status].type : ERROR; }

napi_value error_of(napi_env env, dado_status status) {
    napi_value code, text, error;
    napi_status made;
    if (napi_create_string_utf8(env, code_of(status), NAPI_AUTO_LENGTH, &code) != napi_ok) return NULL;
    if (napi_create_string_utf8(env, dado_error_text(status), NAPI_AUTO_LENGTH, &text) != napi_ok) return NULL;
    switch (type_of(status)) {
    case TYPE_ERROR: made = napi_create_type_error(env, code, text, &error); break;
    case RANGE_ERROR: made = napi_create_range_error(env, code, text, &error); break;
    default: made = napi_create_error(env, code, text, &error); break;
    }
    return made == napi_ok ? error : NULL;
}

napi_value refuse(napi_env env, dado_status status) {
    napi_value error = error_of(env, status);
    if (error == NULL) return failed(env);
    napi_throw(env, error);
    return NULL;
}

napi_value refuse_argument(napi_env env, const char *text) {
    napi_throw_type_error(env, "DADO_BAD_ARGUMENT", text);
    return NULL;
}

napi_value failed(napi_env env) {
    const napi_extended_error_info *info = NULL;
    bool is_pending = true;
    (void)napi_get_last_error_info(env, &info);
    if (napi_is_exception_pending(env, &is_pending) == napi_ok && !is_pending)
        napi_throw_error(env, "DADO_NODE", info != NULL && info->error_message != NULL ? info->error_message : "a call of Node failed");
    return NULL;
}

/* ---- Arguments and values ---- */

Instance *instance_of(napi_env env) {
    void *it = NULL;
    return napi_get_instance_data(env, &it) == napi_ok ? (Instance *)it : NULL;
}

int arguments_of(napi_env env, napi_callback_info info, napi_value *out, size_t room, size_t *given) {
    size_t count = room;
    if (napi_get_cb_info(env, info, &count, out, NULL, NULL) != napi_ok) {
        failed(env);
        return -1;
    }
    if (given != NULL) *given = count < room ? count : room;
    return 0;
}

uint32_t how_of(napi_env env, napi_value value) {
    uint32_t it = 0;
    (void)napi_get_value_uint32(env, value, &it);
    return it;
}

size_t size_of(napi_env env, napi_value value) {
    double it;
    if (napi_get_value_double(env, value, &it) != napi_ok || !(it >= 0 && it <= 9007199254740991.0)) return SIZE_MAX;
    return (size_t)it;
}

napi_value number_value(napi_env env, double number) {
    napi_value value;
    return napi_create_double(env, number, &value) == napi_ok ? value : failed(env);
}

napi_value nothing(napi_env env) {
    napi_value value;
    return napi_get_undefined(env, &value) == napi_ok ? value : failed(env);
}

/* ---- Objects and arrays ---- */

void *object_of(napi_env env, napi_value value, Tag tag) {
    void *it = NULL;
    if (napi_get_value_external(env, value, &it) == napi_ok && it != NULL && *(Tag *)it == tag) return it;
    return refuse_argument(env, "this isn't an object that the call takes");
}

napi_value handed_over(napi_env env, void *object, napi_finalize finalize) {
    napi_value value;
    if (napi_create_external(env, object, finalize, NULL, &value) == napi_ok) return value;
    finalize(env, object, NULL);
    return failed(env);
}

/* JavaScript makes the array, so that out of memory is an exception; Node's own call would end the process. What it makes is no more trusted
 * than an argument: a program may have put anything in the place of what makes arrays. */
napi_value array_new(napi_env env, int type, size_t count, void **at) {
    static const napi_typedarray_type types[] = {napi_uint8_array, napi_uint32_array, napi_float64_array};
    Instance *instance = instance_of(env);
    napi_value arguments[2], function, receiver, array;
    size_t length = 0;
    napi_typedarray_type held;
    if (instance == NULL || napi_get_reference_value(env, instance->allocate, &function) != napi_ok ||
        napi_get_undefined(env, &receiver) != napi_ok || napi_create_int32(env, type, &arguments[0]) != napi_ok ||
        napi_create_double(env, (double)count, &arguments[1]) != napi_ok ||
        napi_call_function(env, receiver, function, 2, arguments, &array) != napi_ok ||
        napi_get_typedarray_info(env, array, &held, &length, at, NULL, NULL) != napi_ok)
        return failed(env);
    return held == types[type] && length == count ? array : refuse_argument(env, "an array is of another type or length than was asked for");
}

void told(napi_env env, int64_t *held, size_t now) {
    int64_t all;
    if (napi_adjust_external_memory(env, (int64_t)now - *held, &all) == napi_ok) *held = (int64_t)now;
}

napi_value buffer_of(napi_env env, const void *at, size_t len) {
    void *to = NULL;
    napi_value buffer = array_new(env, ARRAY_BYTES, len, &to);
    if (buffer != NULL && len != 0) memcpy(to, at, len);
    return buffer;
}

/* ---- What lib/ calls ---- */

static void instance_end(napi_env env, void *data, void *hint) {
    (void)env, (void)hint;
    free(data);
}

/* begin(room, allocate): the memory for matches that are handed over, and the function that makes arrays. */
static napi_value call_begin(napi_env env, napi_callback_info info) {
    napi_value given[2];
    void *at = NULL;
    size_t size = 0;
    Instance *it = instance_of(env);
    if (arguments_of(env, info, given, 2, NULL) < 0) return NULL;
    if (it == NULL || it->out != NULL) return refuse_argument(env, "begin is called once");
    if (napi_get_arraybuffer_info(env, given[0], &at, &size) != napi_ok || size < 16 + ROOM * 3 * sizeof(double))
        return refuse_argument(env, "there is too little room for matches");
    if (napi_create_reference(env, given[0], 1, &it->out_held) != napi_ok ||
        napi_create_reference(env, given[1], 1, &it->allocate) != napi_ok)
        return failed(env);
    it->out = (uint32_t *)at;
    return nothing(env);
}

static napi_value call_version(napi_env env, napi_callback_info info) {
    napi_value value;
    (void)info;
    return napi_create_string_utf8(env, dado_version(), NAPI_AUTO_LENGTH, &value) == napi_ok ? value : failed(env);
}

static const struct {
    const char *name;
    napi_callback call;
} calls[] = {
    {"begin", call_begin},
    {"version", call_version},
    {"searcher", searcher_new},
    {"about", searcher_about},
    {"find", call_find},
    {"isMatch", call_is_match},
    {"all", call_all},
    {"walk", walk_new},
    {"walkNext", walk_next},
    {"walkEnd", walk_end},
    {"replacements", replacements_new},
    {"replace", call_replace},
    {"mask", call_mask},
    {"maskInPlace", call_mask_in_place},
    {"pieces", pieces_new},
    {"piecesPush", pieces_push},
    {"piecesFinish", pieces_finish},
    {"piecesCut", pieces_cut},
    {"replacer", replacer_new},
    {"replacerPush", replacer_push},
    {"replacerFinish", replacer_finish},
    {"masker", masker_new},
    {"maskerPush", masker_push},
    {"maskerFinish", masker_finish},
    {"allLater", later_all},
    {"replaceLater", later_replace},
};

NAPI_MODULE_INIT() {
    Instance *instance = calloc(1, sizeof *instance);
    size_t i;
    if (instance == NULL) return refuse(env, DADO_NO_MEMORY);
    if (napi_set_instance_data(env, instance, instance_end, NULL) != napi_ok) {
        free(instance);
        return failed(env);
    }
    for (i = 0; i < sizeof calls / sizeof *calls; i++) {
        napi_value function;
        if (napi_create_function(env, calls[i].name, NAPI_AUTO_LENGTH, calls[i].call, NULL, &function) != napi_ok ||
            napi_set_named_property(env, exports, calls[i].name, function) != napi_ok)
            return failed(env);
    }
    return exports;
}
