/* Text that is replaced in pieces: what comes out is what the library makes of the whole text; and each status of each call. */
#include "text.h"

/* Takes all that is decided. No slice is NULL. */
static void take(dado_replacer **replacer) {
    dado_bytes slice = {NULL, 0};
    dado_status status;
    while ((status = dado_replacer_next(replacer, INSTEAD, 5, &slice)) == DADO_OK) {
        CHECK(slice.at != NULL);
        put(slice.at, slice.len);
    }
    CHECK(status == DADO_NONE);
}

/* The text in pieces of one size, with an empty one before each. */
static void in_pieces(const dado_automaton *ac, size_t len, size_t size) {
    dado_replacer *replacer = NULL;
    size_t at, taken = 7, piece;
    made_len = 0;
    CHECK(dado_replacer_new(ac, &replacer) == DADO_OK && replacer != NULL);
    for (at = 0; at < len; at += taken) {
        CHECK(dado_replacer_push(&replacer, NULL, 0, &taken) == DADO_OK && taken == 0);
        piece = len - at < size ? len - at : size;
        CHECK(dado_replacer_push(&replacer, text + at, piece, &taken) == DADO_OK && taken >= 1 && taken <= piece);
        take(&replacer);
    }
    CHECK(dado_replacer_finish(&replacer) == DADO_OK);
    take(&replacer);
    is_replaced(ac, len);
    dado_replacer_free(&replacer);
}

/* Pieces of each size, by each kind and engine. */
static void pieces(void) {
    static const struct { size_t len, size; } rows[] = {{0, 1}, {1, 1}, {3000, 1}, {20000, 7}, {70000, 65536}, {LEN, 4096}, {LEN, 100000}};
    uint32_t engine, kind;
    size_t i;
    fill_text();
    for (engine = DADO_AUTO; engine <= DADO_DFA; engine++)
        for (kind = DADO_STANDARD; kind <= DADO_LEFTMOST_LONGEST; kind++) {
            dado_automaton *ac = NULL;
            dado_settings s = dado_settings_default();
            s.kind = kind, s.engine = engine;
            CHECK(dado_build(APPEND, 5, &s, &ac, NULL) == DADO_OK);
            for (i = 0; i < sizeof rows / sizeof rows[0]; i++) in_pieces(ac, rows[i].len, rows[i].size);
            CHECK(made_len > LEN / 2);
            dado_free(&ac);
        }
}

static int gives(dado_replacer **replacer, const char *expected) {
    dado_bytes slice = {NULL, 7};
    return dado_replacer_next(replacer, INSTEAD, 3, &slice) == DADO_OK && slice.len == strlen(expected) &&
           memcmp(slice.at, expected, slice.len) == 0;
}

/* Which slices are handed out when, and what a push takes. */
static void turns(void) {
    dado_automaton *ac = NULL;
    dado_settings s = dado_settings_default();
    dado_replacer *replacer = NULL;
    dado_bytes slice = {NULL, 7};
    size_t taken = 7;
    CHECK(dado_build(APPEND, 3, &s, &ac, NULL) == DADO_OK);
    CHECK(dado_replacer_new(ac, &replacer) == DADO_OK);
    CHECK(dado_replacer_next(&replacer, INSTEAD, 3, &slice) == DADO_NONE && slice.len == 7);
    CHECK(dado_replacer_push(&replacer, BYTES("an app"), &taken) == DADO_OK && taken == 6);
    /* what was pushed isn't handed out yet, so nothing is taken */
    CHECK(dado_replacer_push(&replacer, BYTES("."), &taken) == DADO_OK && taken == 0);
    CHECK(dado_replacer_next(&replacer, INSTEAD, 2, &slice) == DADO_WRONG_COUNT && slice.len == 7);
    CHECK(gives(&replacer, "an ") && gives(&replacer, ""));
    CHECK(dado_replacer_next(&replacer, INSTEAD, 3, &slice) == DADO_NONE && slice.len == 7);
    CHECK(dado_replacer_push(&replacer, BYTES(" is on"), &taken) == DADO_OK && taken == 6);
    CHECK(dado_replacer_finish(&replacer) == DADO_OK);
    CHECK(dado_replacer_push(&replacer, BYTES("."), &taken) == DADO_FINISHED && taken == 0);
    CHECK(gives(&replacer, " is on"));
    CHECK(dado_replacer_next(&replacer, INSTEAD, 3, &slice) == DADO_NONE);
    CHECK(dado_replacer_finish(&replacer) == DADO_OK);
    CHECK(dado_replacer_push(&replacer, NULL, 0, &taken) == DADO_FINISHED && taken == 0);
    CHECK(dado_replacer_next(&replacer, INSTEAD, 3, &slice) == DADO_NONE);
    /* under a leftmost kind a match waits until nothing can change it; the replacer owns the automaton */
    s.kind = DADO_LEFTMOST_LONGEST;
    CHECK(dado_build(APPEND, 3, &s, &ac, NULL) == DADO_OK);
    CHECK(dado_replacer_new(ac, &replacer) == DADO_OK);
    dado_free(&ac);
    CHECK(dado_replacer_push(&replacer, BYTES("an append"), &taken) == DADO_OK && taken == 9);
    CHECK(dado_replacer_next(&replacer, INSTEAD, 3, &slice) == DADO_NONE);
    CHECK(dado_replacer_push(&replacer, BYTES("age"), &taken) == DADO_OK && taken == 3);
    CHECK(gives(&replacer, "an "));
    CHECK(dado_replacer_next(&replacer, INSTEAD, 3, &slice) == DADO_NONE);
    CHECK(dado_replacer_push(&replacer, BYTES("."), &taken) == DADO_OK && taken == 1);
    CHECK(gives(&replacer, "the longest one of all") && gives(&replacer, "."));
    CHECK(dado_replacer_next(&replacer, INSTEAD, 3, &slice) == DADO_NONE);
    dado_replacer_free(&replacer);
    CHECK(replacer == NULL);
}

/* A replacer that was never made or was freed, pointers that are NULL, and automata without replacers. */
static void statuses(void) {
    static const dado_bytes with_empty[] = {WORD("a"), {NULL, 0}};
    dado_automaton *ac = NULL;
    dado_settings s = dado_settings_default();
    dado_replacer *replacer = NULL, *kept;
    dado_bytes slice = {NULL, 7};
    size_t taken = 7;
    CHECK(dado_replacer_new(NULL, &replacer) == DADO_NO_AUTOMATON && replacer == NULL);
    CHECK(dado_replacer_new(NULL, NULL) == DADO_BAD_ARGUMENT);
    CHECK(dado_build(APPEND, 3, &s, &ac, NULL) == DADO_OK);
    CHECK(dado_replacer_new(ac, NULL) == DADO_BAD_ARGUMENT);
    CHECK(dado_replacer_push(&replacer, BYTES("app"), &taken) == DADO_NO_REPLACER && taken == 0);
    CHECK(dado_replacer_next(&replacer, INSTEAD, 3, &slice) == DADO_NO_REPLACER && slice.len == 7);
    CHECK(dado_replacer_finish(&replacer) == DADO_NO_REPLACER);
    dado_replacer_free(&replacer);
    dado_replacer_free(NULL);
    CHECK(dado_replacer_push(NULL, BYTES("app"), &taken) == DADO_BAD_ARGUMENT);
    CHECK(dado_replacer_next(NULL, INSTEAD, 3, &slice) == DADO_BAD_ARGUMENT && dado_replacer_finish(NULL) == DADO_BAD_ARGUMENT);
    CHECK(dado_replacer_new(ac, &replacer) == DADO_OK);
    CHECK(dado_replacer_push(&replacer, NULL, 1, &taken) == DADO_BAD_ARGUMENT && taken == 0);
    CHECK(dado_replacer_push(&replacer, BYTES("app"), NULL) == DADO_BAD_ARGUMENT);
    CHECK(dado_replacer_next(&replacer, INSTEAD, 3, NULL) == DADO_BAD_ARGUMENT);
    CHECK(dado_replacer_next(&replacer, NULL, 3, &slice) == DADO_BAD_ARGUMENT);
    CHECK(dado_replacer_next(&replacer, NULL, 0, &slice) == DADO_WRONG_COUNT && slice.len == 7);
    CHECK(dado_replacer_push(&replacer, BYTES("app"), &taken) == DADO_OK && taken == 3);
    /* a new one in the place of one that was begun */
    CHECK(dado_replacer_new(ac, &replacer) == DADO_OK);
    CHECK(dado_replacer_next(&replacer, INSTEAD, 3, &slice) == DADO_NONE);
    kept = replacer;
    s.start_kind = DADO_ANCHORED;
    CHECK(dado_build(with_empty, 2, &s, &ac, NULL) == DADO_OK);
    CHECK(dado_replacer_new(ac, &replacer) == DADO_NOT_UNANCHORED && replacer == kept);
    s.start_kind = DADO_BOTH;
    CHECK(dado_build(with_empty, 2, &s, &ac, NULL) == DADO_OK);
    CHECK(dado_replacer_new(ac, &replacer) == DADO_EMPTY_PATTERN && replacer == kept);
    /* no patterns, so no replacements: the text comes out as it is */
    CHECK(dado_build(NULL, 0, &s, &ac, NULL) == DADO_OK);
    CHECK(dado_replacer_new(ac, &replacer) == DADO_OK);
    CHECK(dado_replacer_push(&replacer, BYTES("app"), &taken) == DADO_OK && taken == 3);
    CHECK(dado_replacer_finish(&replacer) == DADO_OK);
    CHECK(dado_replacer_next(&replacer, NULL, 0, &slice) == DADO_OK && slice.len == 3 && memcmp(slice.at, "app", 3) == 0);
    CHECK(dado_replacer_next(&replacer, NULL, 0, &slice) == DADO_NONE);
    dado_replacer_free(&replacer);
    dado_free(&ac);
}

int main(void) {
    statuses();
    turns();
    pieces();
    return done("replacers");
}
