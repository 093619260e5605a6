/* Each allocation of each call fails in turn: the status says so, nothing changed, and nothing is lost. It is linked with
 * --wrap=malloc, --wrap=realloc and --wrap=free. */
#include "check.h"

void *__real_malloc(size_t size);
void *__real_realloc(void *at, size_t size);
void __real_free(void *at);
void *__wrap_malloc(size_t size);
void *__wrap_realloc(void *at, size_t size);
void __wrap_free(void *at);

static long left = -1; /* how many requests succeed yet; all of them, where it is negative */
static long held;      /* how many blocks are held */

static int refuses(void) {
    if (left == 0) return 1;
    if (left > 0) left--;
    return 0;
}

void *__wrap_malloc(size_t size) {
    void *at = refuses() ? NULL : __real_malloc(size);
    if (at != NULL) held++;
    return at;
}

void *__wrap_realloc(void *at, size_t size) {
    void *moved = refuses() ? NULL : __real_realloc(at, size);
    if (at == NULL && moved != NULL) held++;
    return moved;
}

void __wrap_free(void *at) {
    if (at != NULL) held--;
    __real_free(at);
}

static const dado_bytes FOX[] = {WORD("fox"), WORD("brown"), WORD("quick")};
static const dado_bytes SLOTH[] = {WORD("sloth and more"), WORD("grey and more"), WORD("slow and more")};
static const char TEXT[] = "The quick brown fox.";
static const char REPLACED[] = "The slow and more grey and more sloth and more.";
static const char MASKED[] = "The ***** ***** ***.";

/* A build into an empty handle and over an automaton, by these settings. */
static long build_fails(const dado_settings *s) {
    dado_automaton *ac = NULL, *full = NULL, *kept;
    dado_match found;
    long n, before;
    CHECK(dado_build(SLOTH, 3, NULL, &full, NULL) == DADO_OK);
    kept = full;
    for (n = 0;; n++) {
        dado_status status;
        before = held, left = n;
        status = dado_build(FOX, 3, s, &ac, NULL);
        left = -1;
        if (status == DADO_OK) break;
        CHECK(status == DADO_NO_MEMORY && ac == NULL && held == before);
        left = n;
        status = dado_build(FOX, 3, s, &full, NULL);
        left = -1;
        CHECK(status == DADO_NO_MEMORY && full == kept && held == before);
        CHECK(dado_find(full, BYTES("a slow and more"), &found) == DADO_OK && is(&found, 2, 2, 15));
        if (n > 100000) break;
    }
    dado_free(&ac);
    dado_free(&full);
    return n;
}

int main(void) {
    long begun = held, failed = 0, n, before;
    uint32_t engine;
    dado_automaton *ac = NULL, *two = NULL;
    dado_stream *stream = NULL, *words = NULL, *all = NULL, *kept;
    dado_replacer *replacer = NULL, *begun_one;
    dado_masker *masker = NULL, *word_masker = NULL, *made_one;
    dado_held there;
    dado_bytes slice;
    dado_text text = DADO_NO_TEXT;
    dado_pair pairs[] = {{'a', 'b'}, {'c', 'd'}, {'e', 'f'}, {'g', 'h'}, {'i', 'j'}}, twice[] = {{'a', 'b'}, {'c', 'b'}};
    dado_fault fault = {1, 1};
    void *owner;
    uint8_t out[80];
    size_t needed;
    for (engine = DADO_AUTO; engine <= DADO_DFA; engine++) {
        dado_settings s = dado_settings_default();
        s.engine = engine;
        failed += build_fails(&s);
        s.pairs = pairs, s.pair_count = 5;
        failed += build_fails(&s);
    }
    CHECK(held == begun);
    { /* the settings are tested before memory is taken */
        dado_settings s = dado_settings_default();
        s.pairs = twice, s.pair_count = 2, left = 0;
        CHECK(dado_build(FOX, 3, &s, &ac, &fault) == DADO_BAD_PAIRS && fault.pattern == 'b' && fault.count == 0);
        left = -1;
    }
    CHECK(dado_build(FOX, 3, NULL, &ac, NULL) == DADO_OK);
    for (n = 0;; n++, failed++) {
        dado_status status;
        before = held, left = n;
        status = dado_share(ac, &two);
        left = -1;
        if (status == DADO_OK || n > 1000) break;
        CHECK(status == DADO_NO_MEMORY && two == NULL && held == before);
    }
    dado_free(&two);
    CHECK(dado_replace(ac, BYTES("fox"), SLOTH, 3, &text) == DADO_OK);
    owner = text.owner;
    for (n = 0;; n++, failed++) {
        dado_status status;
        before = held, left = n;
        status = dado_replace(ac, BYTES(TEXT), SLOTH, 3, &text);
        left = -1;
        if (status == DADO_OK || n > 1000) break;
        CHECK(status == DADO_NO_MEMORY && text.owner == owner && holds(&text, "sloth and more") && held == before);
    }
    CHECK(n >= 2 && holds(&text, REPLACED) && held == before);
    before = held, left = 0;
    CHECK(dado_replace(ac, BYTES(TEXT), SLOTH, 3, &text) == DADO_NO_MEMORY && holds(&text, REPLACED) && held == before);
    left = -1;
    dado_text_free(&text);
    for (n = 0;; n++, failed++) {
        dado_status status;
        before = held, left = n;
        status = dado_stream_new(ac, &stream);
        left = -1;
        if (status == DADO_OK || n > 1000) break;
        CHECK(status == DADO_NO_MEMORY && stream == NULL && held == before);
    }
    CHECK(n >= 2);
    kept = stream, before = held, left = 0;
    CHECK(dado_stream_new(ac, &stream) == DADO_NO_MEMORY && stream == kept && held == before);
    for (n = 0;; n++, failed++) {
        dado_status status;
        before = held, left = n;
        status = dado_word_stream_new(ac, DADO_STANDARD, &words);
        left = -1;
        if (status == DADO_OK || n > 1000) break;
        CHECK(status == DADO_NO_MEMORY && words == NULL && held == before);
    }
    CHECK(n >= 2);
    kept = words, before = held, left = 0;
    CHECK(dado_word_stream_new(ac, DADO_STANDARD, &words) == DADO_NO_MEMORY && words == kept && held == before);
    for (n = 0;; n++, failed++) {
        dado_status status;
        before = held, left = n;
        status = dado_all_words_stream_new(ac, &all);
        left = -1;
        if (status == DADO_OK || n > 1000) break;
        CHECK(status == DADO_NO_MEMORY && all == NULL && held == before);
    }
    CHECK(n >= 2);
    kept = all, before = held, left = 0;
    CHECK(dado_all_words_stream_new(ac, &all) == DADO_NO_MEMORY && all == kept && held == before);
    for (n = 0;; n++, failed++) {
        dado_status status;
        before = held, left = n;
        status = dado_replacer_new(ac, &replacer);
        left = -1;
        if (status == DADO_OK || n > 1000) break;
        CHECK(status == DADO_NO_MEMORY && replacer == NULL && held == before);
    }
    CHECK(n >= 2);
    begun_one = replacer, before = held, left = 0;
    CHECK(dado_replacer_new(ac, &replacer) == DADO_NO_MEMORY && replacer == begun_one && held == before);
    for (n = 0;; n++, failed++) {
        dado_status status;
        before = held, left = n;
        status = dado_masker_new(ac, '*', &masker);
        left = -1;
        if (status == DADO_OK || n > 1000) break;
        CHECK(status == DADO_NO_MEMORY && masker == NULL && held == before);
    }
    CHECK(n >= 2);
    made_one = masker, before = held, left = 0;
    CHECK(dado_masker_new(ac, '*', &masker) == DADO_NO_MEMORY && masker == made_one && held == before);
    CHECK(dado_word_masker_new(ac, '*', &masker) == DADO_NO_MEMORY && masker == made_one && held == before);
    for (n = 0;; n++, failed++) {
        dado_status status;
        before = held, left = n;
        status = dado_word_masker_new(ac, '*', &word_masker);
        left = -1;
        if (status == DADO_OK || n > 1000) break;
        CHECK(status == DADO_NO_MEMORY && word_masker == NULL && held == before);
    }
    CHECK(n >= 3);
    for (n = 0;; n++, failed++) {
        dado_status status;
        memcpy(out, TEXT, 20);
        before = held, left = n;
        status = dado_mask_words(ac, out, 20, '*');
        left = -1;
        if (status == DADO_OK || n > 1000) break;
        CHECK(status == DADO_NO_MEMORY && memcmp(out, TEXT, 20) == 0 && held == before);
    }
    CHECK(n >= 1 && memcmp(out, MASKED, 20) == 0 && held == before);
    /* the searches take no memory */
    before = held, left = 0;
    {
        dado_match found, many[4];
        dado_cursor cursor = dado_cursor_over(0, 20);
        dado_place place = dado_place_over(0, 20);
        size_t count, from = 0;
        CHECK(dado_find(ac, BYTES(TEXT), &found) == DADO_OK && dado_is_match(ac, BYTES(TEXT)) == DADO_OK);
        CHECK(dado_next(ac, BYTES(TEXT), &cursor, &found) == DADO_OK);
        CHECK(dado_some(ac, BYTES(TEXT), &cursor, many, 4, &count) == DADO_OK && count == 2);
        CHECK(dado_overlapping_some(ac, BYTES(TEXT), &place, many, 4, &count) == DADO_OK && count == 3);
        CHECK(dado_words_some(ac, DADO_LEFTMOST_LONGEST, BYTES(TEXT), &from, many, 4, &count) == DADO_OK && from > 0);
        place = dado_place_over(0, 20);
        CHECK(dado_overlapping_words_some(ac, BYTES(TEXT), &place, many, 4, &count) == DADO_OK && count == 3);
        CHECK(dado_replace_into(ac, BYTES(TEXT), SLOTH, 3, out, sizeof out, &needed) == DADO_OK && needed == strlen(REPLACED));
        CHECK(memcmp(out, REPLACED, needed) == 0);
        CHECK(dado_pattern_len(ac, 1, &count) == DADO_OK && count == 5);
        CHECK(dado_stream_push(&stream, BYTES(TEXT), &count) == DADO_OK && count == 20);
        CHECK(dado_stream_some(&stream, many, 4, &count) == DADO_OK && count == 3);
        CHECK(dado_stream_view(&stream, &there) == DADO_OK && there.len == 20);
        CHECK(dado_stream_finish(&stream) == DADO_OK);
        CHECK(dado_stream_push(&words, BYTES(TEXT), &count) == DADO_OK && count == 20);
        CHECK(dado_stream_some(&words, many, 4, &count) == DADO_OK && count == 3);
        CHECK(dado_stream_finish(&words) == DADO_OK);
        CHECK(dado_stream_push(&all, BYTES(TEXT), &count) == DADO_OK && count == 20);
        CHECK(dado_stream_some(&all, many, 4, &count) == DADO_OK && count == 3);
        CHECK(dado_stream_finish(&all) == DADO_OK);
        CHECK(dado_replacer_push(&replacer, BYTES(TEXT), &count) == DADO_OK && count == 20);
        CHECK(dado_replacer_finish(&replacer) == DADO_OK);
        for (n = 0; dado_replacer_next(&replacer, SLOTH, 3, &slice) == DADO_OK;) n++;
        CHECK(n == 7);
        memcpy(out, TEXT, 20);
        CHECK(dado_mask(ac, out, 20, '*') == DADO_OK && memcmp(out, MASKED, 20) == 0);
        CHECK(dado_masker_push(&masker, BYTES(TEXT), &count) == DADO_OK && count == 20);
        CHECK(dado_masker_ready(&masker, &slice) == DADO_OK && slice.len == 20 && memcmp(slice.at, MASKED, 20) == 0);
        CHECK(dado_masker_finish(&masker) == DADO_OK);
        CHECK(dado_masker_ready(&masker, &slice) == DADO_OK && slice.len == 0);
        CHECK(dado_masker_push(&word_masker, BYTES(TEXT), &count) == DADO_OK && count == 20);
        CHECK(dado_masker_finish(&word_masker) == DADO_OK && dado_masker_ready(&word_masker, &slice) == DADO_OK);
    }
    left = -1;
    CHECK(held == before);
    dado_stream_free(&stream);
    dado_stream_free(&words);
    dado_stream_free(&all);
    dado_replacer_free(&replacer);
    dado_masker_free(&masker);
    dado_masker_free(&word_masker);
    dado_free(&ac);
    CHECK(held == begun);
    CHECK(failed > 40);
    printf("oom: %ld requests refused in turn\n", failed);
    return done("oom");
}
