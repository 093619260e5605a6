/* What the tests share: a check that says its line, and goes on. */
#ifndef DADOFENNEL_CHECK_H
#define DADOFENNEL_CHECK_H

#include <dadofennel.h>
#include <stdio.h>
#include <stdlib.h>
#include <string.h>

#define WORD(text) {(const uint8_t *)(text), sizeof(text) - 1}
#define BYTES(text) (const uint8_t *)(text), sizeof(text) - 1
#define CHECK(fact) check((fact) ? 1 : 0, #fact, __FILE__, __LINE__)

static unsigned long checks, failures;

static inline void check(int holds, const char *fact, const char *file, int line) {
    checks++;
    if (holds) return;
    failures++;
    fprintf(stderr, "%s:%d: failed: %s\n", file, line, fact);
}

static inline int is(const dado_match *found, uint32_t pattern, size_t start, size_t end) {
    return found->pattern == pattern && found->start == start && found->end == end;
}

static inline int holds(const dado_text *text, const char *expected) {
    return text->len == strlen(expected) && memcmp(text->at, expected, text->len) == 0;
}

static inline int done(const char *name) {
    printf("%s: %lu checks, %lu failed\n", name, checks, failures);
    return failures == 0 ? 0 : 1;
}

#endif
