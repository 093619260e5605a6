/* The three functions by which the library takes and frees memory, over the C library's. They are local to the archive. */
#include <stdbool.h>
#include <stddef.h>
#include <stdlib.h>

/* What a request gave: whether there was memory, and where it lies. The place is never NULL. */
struct tried {
    bool ok;
    void *at;
};

struct tried rattle_alloc(size_t size, size_t align);
struct tried rattle_realloc(void *at, size_t kept, size_t size, size_t align);
void rattle_dealloc(void *at);

static char nothing;

static struct tried tried(void *at) {
    struct tried answer = {at != NULL, at != NULL ? at : &nothing};
    return answer;
}

/* An alignment is at most 16, as malloc gives it. */
struct tried rattle_alloc(size_t size, size_t align) { return tried(malloc(size != 0 ? size : align)); }

struct tried rattle_realloc(void *at, size_t kept, size_t size, size_t align) {
    (void)kept;
    return tried(realloc(at, size != 0 ? size : align));
}

void rattle_dealloc(void *at) { free(at); }
