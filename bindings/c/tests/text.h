/* What the tests of text in pieces share: patterns and what replaces them, a text, and what was made of it. */
#ifndef DADOFENNEL_TEXT_H
#define DADOFENNEL_TEXT_H

#include "check.h"

enum { LEN = 250000 };

static const dado_bytes APPEND[] = {WORD("append"), WORD("appendage"), WORD("app"), WORD("bcab"), WORD("ca")};
static const dado_bytes INSTEAD[] = {WORD("A"), WORD("the longest one of all"), WORD(""), WORD("bc"), WORD("-")};
static uint8_t text[LEN], made[4 * LEN];
static size_t made_len;

/* A text with many matches of each pattern, of which some overlap. */
static inline void fill_text(void) {
    size_t i;
    for (i = 0; i < LEN; i++) text[i] = (uint8_t)"abcabcabapp ebca"[(i * i / 11 + i) % 16];
    for (i = 0; i + 16 < LEN; i += 37 + i % 89)
        memcpy(text + i, i % 3 == 0 ? "append the app" : i % 3 == 1 ? "appendag appenda" : "appendage", i % 3 == 2 ? 9 : 14);
}

static inline void put(const uint8_t *at, size_t len) {
    if (len == 0 || made_len + len > sizeof made) return;
    memcpy(made + made_len, at, len);
    made_len += len;
}

/* What was put is what the library makes of the first `len` bytes of the text. */
static inline void is_replaced(const dado_automaton *ac, size_t len) {
    dado_text replaced = DADO_NO_TEXT;
    CHECK(dado_replace(ac, text, len, INSTEAD, 5, &replaced) == DADO_OK);
    CHECK(made_len == replaced.len && (made_len == 0 || memcmp(made, replaced.at, made_len) == 0));
    dado_text_free(&replaced);
}

#endif
