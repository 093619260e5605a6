/* Text that is masked, where it lies and in pieces: beside a loop that compares each pattern at each place; and each status of each
 * call. */
#include "text.h"

static uint8_t masked[LEN], expected[LEN];

/* What masking is: each byte of each occurrence of the first `count` patterns becomes `byte`. */
static void mask_each(size_t len, size_t count, uint8_t byte) {
    size_t at, n;
    memcpy(expected, text, len);
    for (at = 0; at < len; at++)
        for (n = 0; n < count; n++)
            if (APPEND[n].len <= len - at && memcmp(text + at, APPEND[n].at, APPEND[n].len) == 0)
                memset(expected + at, byte, APPEND[n].len);
}

/* Takes what is ready; a second call gives the same. */
static void take(dado_masker **masker) {
    dado_bytes slice = {NULL, 0}, again = {NULL, 7};
    CHECK(dado_masker_ready(masker, &slice) == DADO_OK && slice.at != NULL);
    CHECK(dado_masker_ready(masker, &again) == DADO_OK && again.len == slice.len);
    put(slice.at, slice.len);
}

/* The text in pieces of one size, with an empty one before each. What waits is fewer bytes than the longest pattern has. */
static void in_pieces(const dado_automaton *ac, size_t len, size_t size) {
    dado_masker *masker = NULL;
    size_t at, taken = 7, piece;
    made_len = 0;
    CHECK(dado_masker_new(ac, '#', &masker) == DADO_OK && masker != NULL);
    for (at = 0; at < len; at += taken) {
        CHECK(dado_masker_push(&masker, NULL, 0, &taken) == DADO_OK && taken == 0);
        piece = len - at < size ? len - at : size;
        CHECK(dado_masker_push(&masker, text + at, piece, &taken) == DADO_OK && taken >= 1 && taken <= piece);
        take(&masker);
        CHECK(made_len <= at + taken && at + taken < made_len + dado_longest(ac));
    }
    CHECK(dado_masker_finish(&masker) == DADO_OK);
    take(&masker);
    CHECK(made_len == len && memcmp(made, expected, len) == 0);
    dado_masker_free(&masker);
}

/* Texts of several lengths, where they lie and in pieces, by each engine. */
static void texts(void) {
    static const struct { size_t len, size; } rows[] = {{0, 1}, {1, 1}, {3000, 1}, {20000, 7}, {70000, 65536}, {LEN, 4096}, {LEN, 100000}};
    uint32_t engine;
    size_t i;
    fill_text();
    for (engine = DADO_AUTO; engine <= DADO_DFA; engine++) {
        dado_automaton *ac = NULL;
        dado_settings s = dado_settings_default();
        s.engine = engine;
        CHECK(dado_build(APPEND, 5, &s, &ac, NULL) == DADO_OK);
        for (i = 0; i < sizeof rows / sizeof rows[0]; i++) {
            mask_each(rows[i].len, 5, '#');
            memcpy(masked, text, rows[i].len);
            CHECK(dado_mask(ac, masked, rows[i].len, '#') == DADO_OK);
            CHECK(memcmp(masked, expected, rows[i].len) == 0);
            /* no pattern has the mask, so none is left */
            CHECK(dado_is_match(ac, masked, rows[i].len) == DADO_NONE);
            in_pieces(ac, rows[i].len, rows[i].size);
        }
        dado_free(&ac);
    }
}

static int is_masked(const dado_automaton *ac, const char *given, const char *made_of_it) {
    uint8_t buffer[32];
    size_t len = strlen(given);
    memcpy(buffer, given, len);
    return dado_mask(ac, buffer, len, '*') == DADO_OK && memcmp(buffer, made_of_it, len) == 0;
}

/* Occurrences that overlap are all masked; what a deletion would join stays apart. */
static void rows(void) {
    static const dado_bytes overlapping[] = {WORD("abc"), WORD("cde")}, joined[] = {WORD("ab")}, names[] = {WORD("Al"), WORD("Alice"), {NULL, 0}};
    dado_automaton *ac = NULL;
    dado_settings s = dado_settings_default();
    CHECK(dado_build(overlapping, 2, &s, &ac, NULL) == DADO_OK);
    CHECK(is_masked(ac, "xabcdex", "x*****x") && is_masked(ac, "", "") && is_masked(ac, "abab", "abab"));
    CHECK(dado_build(joined, 1, &s, &ac, NULL) == DADO_OK);
    CHECK(is_masked(ac, "aabb", "a**b"));
    /* an empty pattern masks nothing */
    s.fold = 1;
    CHECK(dado_build(names, 3, &s, &ac, NULL) == DADO_OK);
    CHECK(is_masked(ac, "to alICE, Al", "to *****, **"));
    dado_free(&ac);
}

/* Pointers that are NULL, automata that can't mask, and a masker that was freed or finished. */
static void statuses(void) {
    static const dado_bytes with_empty[] = {WORD("a"), {NULL, 0}};
    dado_automaton *ac = NULL;
    dado_settings s = dado_settings_default();
    dado_masker *masker = NULL, *kept;
    dado_bytes slice = {NULL, 7};
    uint8_t word[] = {'a', 'p', 'p'};
    size_t taken = 7;
    CHECK(dado_mask(NULL, word, 3, '*') == DADO_NO_AUTOMATON);
    CHECK(dado_masker_new(NULL, '*', &masker) == DADO_NO_AUTOMATON && masker == NULL);
    CHECK(dado_masker_new(NULL, '*', NULL) == DADO_BAD_ARGUMENT);
    CHECK(dado_build(APPEND, 3, &s, &ac, NULL) == DADO_OK);
    CHECK(dado_mask(ac, NULL, 3, '*') == DADO_BAD_ARGUMENT && dado_mask(ac, NULL, 0, '*') == DADO_OK);
    CHECK(dado_masker_push(&masker, BYTES("app"), &taken) == DADO_NO_MASKER && taken == 0);
    CHECK(dado_masker_ready(&masker, &slice) == DADO_NO_MASKER && slice.len == 7);
    CHECK(dado_masker_finish(&masker) == DADO_NO_MASKER);
    dado_masker_free(&masker);
    dado_masker_free(NULL);
    CHECK(dado_masker_push(NULL, BYTES("app"), &taken) == DADO_BAD_ARGUMENT);
    CHECK(dado_masker_ready(NULL, &slice) == DADO_BAD_ARGUMENT && dado_masker_finish(NULL) == DADO_BAD_ARGUMENT);
    CHECK(dado_masker_new(ac, '*', &masker) == DADO_OK);
    CHECK(dado_masker_push(&masker, NULL, 1, &taken) == DADO_BAD_ARGUMENT && taken == 0);
    CHECK(dado_masker_push(&masker, BYTES("app"), NULL) == DADO_BAD_ARGUMENT && dado_masker_ready(&masker, NULL) == DADO_BAD_ARGUMENT);
    CHECK(dado_masker_push(&masker, BYTES("an app"), &taken) == DADO_OK && taken == 6);
    kept = masker;
    s.kind = DADO_LEFTMOST_FIRST;
    CHECK(dado_build(with_empty, 2, &s, &ac, NULL) == DADO_OK);
    CHECK(dado_mask(ac, word, 3, '*') == DADO_NOT_STANDARD && memcmp(word, "app", 3) == 0);
    CHECK(dado_masker_new(ac, '*', &masker) == DADO_NOT_STANDARD && masker == kept);
    s.start_kind = DADO_ANCHORED;
    CHECK(dado_build(with_empty, 2, &s, &ac, NULL) == DADO_OK);
    CHECK(dado_mask(ac, word, 3, '*') == DADO_NOT_UNANCHORED && memcmp(word, "app", 3) == 0);
    CHECK(dado_masker_new(ac, '*', &masker) == DADO_NOT_UNANCHORED && masker == kept);
    s.kind = DADO_STANDARD, s.start_kind = DADO_BOTH;
    CHECK(dado_build(with_empty, 2, &s, &ac, NULL) == DADO_OK);
    CHECK(dado_masker_new(ac, '*', &masker) == DADO_EMPTY_PATTERN && masker == kept);
    CHECK(dado_mask(ac, word, 3, '*') == DADO_OK && memcmp(word, "*pp", 3) == 0);
    /* the masker owns the automaton of before, whose longest pattern has nine bytes, so eight may wait */
    dado_free(&ac);
    CHECK(dado_masker_ready(&masker, &slice) == DADO_OK && slice.len == 0 && slice.at != NULL);
    CHECK(dado_masker_push(&masker, BYTES("end"), &taken) == DADO_OK && taken == 3);
    CHECK(dado_masker_ready(&masker, &slice) == DADO_OK && slice.len == 1 && memcmp(slice.at, "a", 1) == 0);
    CHECK(dado_masker_finish(&masker) == DADO_OK);
    CHECK(dado_masker_ready(&masker, &slice) == DADO_OK && slice.len == 8 && memcmp(slice.at, "n ******", 8) == 0);
    CHECK(dado_masker_push(&masker, BYTES("."), &taken) == DADO_FINISHED && taken == 0);
    dado_masker_free(&masker);
    CHECK(masker == NULL);
}

/* A caller that doesn't ask for what is ready loses nothing: a push takes no byte then, and what is left at the end has all of it. */
static void untaken(void) {
    static const dado_bytes patterns[] = {WORD("new"), WORD("newest")};
    static const char given[] = "a new one, renewed; newest of the new", of_all[] = "a *** one, re***ed; ****** of the ***",
                      of_words[] = "a *** one, renewed; ****** of the ***";
    size_t len = sizeof given - 1, at, taken = 7;
    int words;
    dado_automaton *ac = NULL;
    CHECK(dado_build(patterns, 2, NULL, &ac, NULL) == DADO_OK);
    for (words = 0; words < 2; words++) {
        for (at = 0; at <= len; at++) {
            dado_masker *masker = NULL;
            dado_bytes slice = {NULL, 7};
            size_t first = at, second = len - at;
            made_len = 0;
            CHECK((words ? dado_word_masker_new : dado_masker_new)(ac, '*', &masker) == DADO_OK);
            CHECK(dado_masker_push(&masker, given, first, &taken) == DADO_OK && taken == first);
            CHECK(dado_masker_push(&masker, given + at, second, &taken) == DADO_OK);
            if (taken == 0 && second != 0) {
                /* an empty push and a second one take nothing either */
                CHECK(dado_masker_push(&masker, NULL, 0, &taken) == DADO_OK && taken == 0);
                CHECK(dado_masker_push(&masker, given + at, second, &taken) == DADO_OK && taken == 0);
                CHECK(dado_masker_ready(&masker, &slice) == DADO_OK && slice.len != 0);
                put(slice.at, slice.len);
                CHECK(dado_masker_push(&masker, given + at, second, &taken) == DADO_OK);
            }
            CHECK(taken == second);
            CHECK(dado_masker_finish(&masker) == DADO_OK && dado_masker_finish(&masker) == DADO_OK);
            CHECK(dado_masker_push(&masker, given, 1, &taken) == DADO_FINISHED && taken == 0);
            CHECK(dado_masker_ready(&masker, &slice) == DADO_OK);
            put(slice.at, slice.len);
            CHECK(made_len == len && memcmp(made, words ? of_words : of_all, len) == 0);
            CHECK(dado_masker_finish(&masker) == DADO_OK && dado_masker_ready(&masker, &slice) == DADO_OK && slice.len == 0);
            dado_masker_free(&masker);
        }
    }
    dado_free(&ac);
}

int main(void) {
    statuses();
    untaken();
    rows();
    texts();
    return done("maskers");
}
