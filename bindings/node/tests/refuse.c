/* An addon whose requests for memory fail when a test says so. It is linked with --wrap for malloc, calloc, realloc and free, and with
 * the addon's own files, of which module.c has another name for its first function. */
#define NAPI_VERSION 8
#include <node_api.h>

#include <stddef.h>

void *__real_malloc(size_t size);
void *__real_calloc(size_t count, size_t size);
void *__real_realloc(void *at, size_t size);
void __real_free(void *at);
void *__wrap_malloc(size_t size);
void *__wrap_calloc(size_t count, size_t size);
void *__wrap_realloc(void *at, size_t size);
void __wrap_free(void *at);

static long left = -1; /* how many requests succeed yet; all of them, where it is negative */
static long held;      /* how many blocks are held */

static int refuses(void) {
    if (left == 0) return 1;
    if (left > 0) left--;
    return 0;
}

void *__wrap_malloc(size_t size) {
    void *at = refuses() ? NULL : __real_malloc(size);
    if (at != NULL) held++;
    return at;
}

void *__wrap_calloc(size_t count, size_t size) {
    void *at = refuses() ? NULL : __real_calloc(count, size);
    if (at != NULL) held++;
    return at;
}

void *__wrap_realloc(void *at, size_t size) {
    void *moved = refuses() ? NULL : __real_realloc(at, size);
    if (at == NULL && moved != NULL) held++;
    return moved;
}

void __wrap_free(void *at) {
    if (at != NULL) held--;
    __real_free(at);
}

/* refuseAfter(n): so many requests succeed from now on; all of them, where it is negative. */
static napi_value refuse_after(napi_env env, napi_callback_info info) {
    napi_value given;
    size_t count = 1;
    int64_t number = -1;
    if (napi_get_cb_info(env, info, &count, &given, NULL, NULL) == napi_ok) (void)napi_get_value_int64(env, given, &number);
    left = (long)number;
    return NULL;
}

/* held(): how many blocks are held. */
static napi_value held_now(napi_env env, napi_callback_info info) {
    napi_value value = NULL;
    (void)info;
    (void)napi_create_int64(env, held, &value);
    return value;
}

napi_value inner_init(napi_env env, napi_value exports);

NAPI_MODULE_INIT() {
    napi_value refuse, count;
    if (napi_create_function(env, "refuseAfter", NAPI_AUTO_LENGTH, refuse_after, NULL, &refuse) != napi_ok ||
        napi_set_named_property(env, exports, "refuseAfter", refuse) != napi_ok ||
        napi_create_function(env, "held", NAPI_AUTO_LENGTH, held_now, NULL, &count) != napi_ok ||
        napi_set_named_property(env, exports, "held", count) != napi_ok)
        return NULL;
    return inner_init(env, exports);
}
