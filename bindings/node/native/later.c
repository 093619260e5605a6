/* Searches and replacements on another thread, of libuv's pool. */
#include "native.h"

#include <stdlib.h>
#include <string.h>

/* A call: it holds all that it reads, until its promise is settled. Bytes are copied as strings are: nothing of Node keeps a buffer from being
 * written to, resized, or handed to another thread. */
typedef struct {
    napi_async_work work;
    napi_deferred deferred;
    Searcher *of;
    Replacements *by;             /* NULL for a search */
    Text text;
    uint32_t how;
    dado_status status;
    Flat flat;
    Changed changed;
} Job;

static void run(napi_env env, void *data) {
    Job *it = data;
    (void)env;
    if (it->by != NULL) it->status = change(it->of, &it->text, it->how, it->by, &it->changed);
    else {
        it->status = text_code(it->of, &it->text, 0, NULL);
        if (it->status == DADO_OK) it->status = collect(it->of, &it->text, it->how, &it->flat);
    }
}

static void job_let_go(napi_env env, Job *it) {
    if (it->work != NULL) (void)napi_delete_async_work(env, it->work);
    text_let_go(&it->text);
    flat_let_go(&it->flat);
    changed_let_go(&it->changed);
    if (it->of != NULL) searcher_released(it->of);
    if (it->by != NULL) replacements_released(it->by);
    free(it);
}

/* The result, or NULL with the exception that says why there is none. */
static napi_value result_of(napi_env env, Job *it) {
    if (it->status != DADO_OK) return refuse(env, it->status);
    return it->by != NULL ? changed_value(env, it->text.form, &it->changed) : flat_value(env, NULL, &it->flat);
}

static void settle(napi_env env, napi_status ran, void *data) {
    Job *it = data;
    napi_value value = NULL, error;
    if (ran == napi_ok) value = result_of(env, it);
    if (value != NULL) (void)napi_resolve_deferred(env, it->deferred, value);
    else if (napi_get_and_clear_last_exception(env, &error) == napi_ok) (void)napi_reject_deferred(env, it->deferred, error);
    job_let_go(env, it);
}

/* Begins the call. The promise is what JavaScript is given. */
static napi_value queued(napi_env env, Job *it) {
    napi_value name, promise;
    if (napi_create_string_utf8(env, "dadofennel", NAPI_AUTO_LENGTH, &name) != napi_ok ||
        napi_create_async_work(env, NULL, name, run, settle, it, &it->work) != napi_ok ||
        napi_create_promise(env, &it->deferred, &promise) != napi_ok || napi_queue_async_work(env, it->work) != napi_ok) {
        failed(env);
        job_let_go(env, it);
        return NULL;
    }
    return promise;
}

/* Copies the bytes of a text, which a string is read into anyway. */
static int keep(Text *it) {
    if (it->form != FORM_BYTES) return 0;
    it->own = malloc(it->len + 1);
    if (it->own == NULL) return -1;
    if (it->len != 0) memcpy(it->own, it->at, it->len);
    it->at = it->own;
    return 0;
}

static Job *job_of(napi_env env, Searcher *of, Replacements *by, napi_value text, uint32_t how) {
    Job *it = calloc(1, sizeof *it);
    if (it == NULL) {
        refuse(env, DADO_NO_MEMORY);
        return NULL;
    }
    if (text_read(env, of, text, how, NULL, &it->text) < 0) {
        free(it);
        return NULL;
    }
    if (keep(&it->text) < 0) {
        free(it);
        refuse(env, DADO_NO_MEMORY);
        return NULL;
    }
    it->of = searcher_shared(of), it->by = by == NULL ? NULL : replacements_shared(by), it->how = how;
    flat_begin(&it->flat, NULL, it->text.len > UINT32_MAX);
    return it;
}

/* allLater(searcher, text, how[, start, end]): a promise of an array of all matches. */
napi_value later_all(napi_env env, napi_callback_info info) {
    napi_value given[5];
    size_t count = 0;
    Searcher *of;
    Job *it;
    if (arguments_of(env, info, given, 5, &count) < 0) return NULL;
    of = object_of(env, given[0], SEARCHER);
    it = of == NULL ? NULL : job_of(env, of, NULL, given[1], how_of(env, given[2]));
    if (it == NULL) return NULL;
    if (count == 5) span_of(env, &it->text, given[3], given[4]);
    return queued(env, it);
}

/* replaceLater(searcher, text, how, replacements): a promise of the text. */
napi_value later_replace(napi_env env, napi_callback_info info) {
    napi_value given[4];
    Searcher *of;
    Replacements *by;
    Job *it;
    if (arguments_of(env, info, given, 4, NULL) < 0) return NULL;
    of = object_of(env, given[0], SEARCHER);
    by = of == NULL ? NULL : object_of(env, given[3], REPLACEMENTS);
    it = by == NULL ? NULL : job_of(env, of, by, given[1], how_to_replace(of, by, how_of(env, given[2])));
    return it == NULL ? NULL : queued(env, it);
}
