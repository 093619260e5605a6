/* Every call, with each of its statuses. Expected values are those of the definitions, written by hand. */
#define _DEFAULT_SOURCE /* for MAP_ANONYMOUS */
#include "check.h"
#include <sys/mman.h>

static const dado_bytes FOX[] = {WORD("fox"), WORD("brown"), WORD("quick")};
static const dado_bytes SLOTH[] = {WORD("sloth"), WORD("grey"), WORD("slow")};
static const dado_bytes APPEND[] = {WORD("append"), WORD("appendage"), WORD("app")};
static const char TEXT[] = "The quick brown fox.";

static void statuses_have_texts(void) {
    dado_status status;
    for (status = DADO_OK; status <= DADO_NO_REPLACER; status++) {
        CHECK(dado_error_text(status) != NULL);
        CHECK(strcmp(dado_error_text(status), "unknown status") != 0);
    }
    CHECK(strcmp(dado_error_text(9999), "unknown status") == 0);
    CHECK(strcmp(dado_version(), DADO_VERSION) == 0);
}

static void first_settings(void) {
    dado_settings s = dado_settings_default();
    CHECK(s.kind == DADO_STANDARD && s.start_kind == DADO_UNANCHORED && s.engine == DADO_AUTO);
    CHECK(s.fold == 0 && s.prefilter != 0 && s.byte_classes != 0);
    CHECK(s.dense_depth == SIZE_MAX && s.row_memory == (size_t)16 << 20);
    CHECK(s.pairs == NULL && s.pair_count == 0);
}

/* A handle that was never built, freed twice, built twice, and shared. */
static void handles(void) {
    dado_automaton *ac = NULL, *two = NULL;
    dado_match found = {7, 8, 9};
    size_t len = 5;
    dado_free(&ac);
    dado_free(NULL);
    CHECK(dado_find(NULL, BYTES(TEXT), &found) == DADO_NO_AUTOMATON);
    CHECK(dado_is_match(NULL, BYTES(TEXT)) == DADO_NO_AUTOMATON);
    CHECK(dado_share(NULL, &two) == DADO_NO_AUTOMATON && two == NULL);
    CHECK(dado_pattern_len(NULL, 0, &len) == DADO_NO_AUTOMATON && len == 5);
    CHECK(dado_pattern_count(NULL) == 0 && dado_shortest(NULL) == SIZE_MAX && dado_longest(NULL) == 0);
    CHECK(dado_kind(NULL) == DADO_STANDARD && dado_start_kind(NULL) == DADO_UNANCHORED);
    CHECK(dado_engine(NULL) == DADO_AUTO && dado_memory(NULL) == 0);
    CHECK(found.start == 7 && found.end == 8 && found.pattern == 9);
    CHECK(dado_build(FOX, 3, NULL, &ac, NULL) == DADO_OK && ac != NULL);
    CHECK(dado_build(APPEND, 3, NULL, &ac, NULL) == DADO_OK && dado_longest(ac) == 9);
    CHECK(dado_share(ac, &two) == DADO_OK && two != NULL && two != ac);
    CHECK(dado_share(ac, &two) == DADO_OK);
    CHECK(dado_share(ac, NULL) == DADO_BAD_ARGUMENT);
    dado_free(&ac);
    CHECK(ac == NULL);
    dado_free(&ac);
    CHECK(dado_find(two, BYTES("an appendage"), &found) == DADO_OK && is(&found, 2, 3, 6));
    dado_free(&two);
}

static void builds(void) {
    static const dado_bytes nowhere[] = {WORD("fox"), {NULL, 3}};
    dado_automaton *ac = NULL, *kept;
    dado_settings s = dado_settings_default();
    dado_fault fault = {1, 1};
    dado_pair pairs[] = {{'0', '1'}, {'2', '0'}}, more[300];
    size_t i;
    CHECK(dado_build(FOX, 3, NULL, NULL, NULL) == DADO_BAD_ARGUMENT);
    CHECK(dado_build(NULL, 3, NULL, &ac, NULL) == DADO_BAD_ARGUMENT);
    CHECK(dado_build(nowhere, 2, NULL, &ac, NULL) == DADO_BAD_ARGUMENT && dado_build(nowhere, 1, NULL, &ac, NULL) == DADO_OK);
    CHECK(dado_build(FOX, 3, &s, &ac, &fault) == DADO_OK && fault.count == 0 && fault.pattern == 0);
    kept = ac;
    s.kind = 3;
    CHECK(dado_build(FOX, 3, &s, &ac, &fault) == DADO_BAD_KIND && ac == kept);
    s = dado_settings_default(), s.start_kind = 3;
    CHECK(dado_build(FOX, 3, &s, &ac, &fault) == DADO_BAD_START_KIND && ac == kept);
    s = dado_settings_default(), s.engine = 4;
    CHECK(dado_build(FOX, 3, &s, &ac, &fault) == DADO_BAD_ENGINE && ac == kept);
    s.kind = UINT32_MAX, s.start_kind = UINT32_MAX, s.engine = UINT32_MAX;
    CHECK(dado_build(FOX, 3, &s, &ac, &fault) == DADO_BAD_KIND && ac == kept);
    s = dado_settings_default(), s.pairs = pairs, s.pair_count = 2;
    CHECK(dado_build(FOX, 3, &s, &ac, &fault) == DADO_BAD_PAIRS && ac == kept && fault.pattern == '0' && fault.count == 0);
    s.pair_count = 1, s.fold = 1;
    CHECK(dado_build(FOX, 3, &s, &ac, &fault) == DADO_BAD_PAIRS && ac == kept && fault.pattern == 0);
    s.pairs = NULL, s.fold = 0;
    CHECK(dado_build(FOX, 3, &s, &ac, &fault) == DADO_BAD_ARGUMENT && ac == kept);
    for (i = 0; i < 300; i++) more[i].a = (uint8_t)i, more[i].b = (uint8_t)(i + 128);
    s.pairs = more, s.pair_count = 300;
    CHECK(dado_build(FOX, 3, &s, &ac, &fault) == DADO_BAD_PAIRS && ac == kept && fault.pattern == 128);
    s.pair_count = 128;
    CHECK(dado_build(FOX, 3, &s, &ac, &fault) == DADO_OK);
    dado_free(&ac);
}

static void engines(void) {
    uint32_t engine, kind, start_kind;
    for (engine = DADO_AUTO; engine <= DADO_DFA; engine++)
        for (kind = DADO_STANDARD; kind <= DADO_LEFTMOST_LONGEST; kind++)
            for (start_kind = DADO_UNANCHORED; start_kind <= DADO_BOTH; start_kind++) {
                dado_automaton *ac = NULL;
                dado_settings s = dado_settings_default();
                dado_match found = {0, 0, 0};
                dado_span span = {3, 12, 1, 0};
                s.engine = engine, s.kind = kind, s.start_kind = start_kind;
                CHECK(dado_build(APPEND, 3, &s, &ac, NULL) == DADO_OK);
                CHECK(dado_kind(ac) == kind && dado_start_kind(ac) == start_kind);
                CHECK(engine == DADO_AUTO ? dado_engine(ac) != DADO_AUTO : dado_engine(ac) == engine);
                CHECK(dado_pattern_count(ac) == 3 && dado_shortest(ac) == 3 && dado_longest(ac) == 9 && dado_memory(ac) > 0);
                if (start_kind == DADO_ANCHORED)
                    CHECK(dado_find(ac, BYTES("an appendage"), &found) == DADO_NOT_UNANCHORED);
                else
                    CHECK(dado_find(ac, BYTES("an appendage"), &found) == DADO_OK
                          && is(&found, kind == DADO_STANDARD ? 2 : kind == DADO_LEFTMOST_FIRST ? 0 : 1, 3,
                                kind == DADO_STANDARD ? 6 : kind == DADO_LEFTMOST_FIRST ? 9 : 12));
                if (start_kind == DADO_UNANCHORED)
                    CHECK(dado_find_in(ac, BYTES("an appendage"), span, &found) == DADO_NOT_ANCHORED);
                else
                    CHECK(dado_find_in(ac, BYTES("an appendage"), span, &found) == DADO_OK && found.start == 3);
                span.start = 2;
                if (start_kind != DADO_UNANCHORED)
                    CHECK(dado_find_in(ac, BYTES("an appendage"), span, &found) == DADO_NONE);
                dado_free(&ac);
            }
}

static void finds(void) {
    dado_automaton *ac = NULL;
    dado_settings s = dado_settings_default();
    dado_match found = {7, 8, 9};
    dado_span span = {0, 21, 0, 0};
    dado_pair pair = {'x', 'y'};
    CHECK(dado_build(FOX, 3, NULL, &ac, NULL) == DADO_OK);
    CHECK(dado_find(ac, BYTES(TEXT), &found) == DADO_OK && is(&found, 2, 4, 9));
    CHECK(dado_is_match(ac, BYTES(TEXT)) == DADO_OK);
    CHECK(dado_find(ac, BYTES("none"), &found) == DADO_NONE && is(&found, 2, 4, 9));
    CHECK(dado_is_match(ac, BYTES("none")) == DADO_NONE);
    CHECK(dado_find(ac, NULL, 0, &found) == DADO_NONE);
    CHECK(dado_find(ac, NULL, 1, &found) == DADO_BAD_ARGUMENT);
    CHECK(dado_find(ac, BYTES(TEXT), NULL) == DADO_BAD_ARGUMENT);
    CHECK(dado_find_in(ac, BYTES(TEXT), span, &found) == DADO_BAD_SPAN);
    span.start = 5, span.end = 20;
    CHECK(dado_find_in(ac, BYTES(TEXT), span, &found) == DADO_OK && is(&found, 1, 10, 15));
    span.end = 14;
    CHECK(dado_find_in(ac, BYTES(TEXT), span, &found) == DADO_NONE);
    span.start = 15;
    CHECK(dado_find_in(ac, BYTES(TEXT), span, &found) == DADO_NONE);
    span.start = 16;
    CHECK(dado_find_in(ac, BYTES(TEXT), span, &found) == DADO_BAD_SPAN);
    span.start = SIZE_MAX, span.end = SIZE_MAX;
    CHECK(dado_find_in(ac, BYTES(TEXT), span, &found) == DADO_BAD_SPAN);
    s.fold = 1;
    CHECK(dado_build(FOX, 3, &s, &ac, NULL) == DADO_OK);
    CHECK(dado_find(ac, BYTES("a QuIcK one"), &found) == DADO_OK && is(&found, 2, 2, 7));
    s.fold = 0, s.pairs = &pair, s.pair_count = 1;
    CHECK(dado_build(FOX, 3, &s, &ac, NULL) == DADO_OK);
    CHECK(dado_find(ac, BYTES("a foy"), &found) == DADO_OK && is(&found, 0, 2, 5));
    s = dado_settings_default(), s.kind = DADO_LEFTMOST_LONGEST;
    CHECK(dado_build(APPEND, 3, &s, &ac, NULL) == DADO_OK);
    span.start = 0, span.end = 12, span.earliest = 1;
    CHECK(dado_find_in(ac, BYTES("an appendage"), span, &found) == DADO_OK && is(&found, 2, 3, 6));
    dado_free(&ac);
}

static void no_patterns(void) {
    dado_automaton *ac = NULL;
    dado_match found = {0, 0, 0};
    dado_cursor cursor = dado_cursor_over(0, 20);
    dado_place place = dado_place_over(0, 20);
    dado_text text = DADO_NO_TEXT;
    size_t count = 7;
    CHECK(dado_build(NULL, 0, NULL, &ac, NULL) == DADO_OK && ac != NULL);
    CHECK(dado_pattern_count(ac) == 0 && dado_shortest(ac) == SIZE_MAX && dado_longest(ac) == 0);
    CHECK(dado_find(ac, BYTES(TEXT), &found) == DADO_NONE);
    CHECK(dado_next(ac, BYTES(TEXT), &cursor, &found) == DADO_NONE);
    CHECK(dado_overlapping_some(ac, BYTES(TEXT), &place, &found, 1, &count) == DADO_NONE && count == 0);
    CHECK(dado_replace(ac, BYTES(TEXT), NULL, 0, &text) == DADO_OK && holds(&text, TEXT));
    CHECK(dado_replace(ac, NULL, 0, NULL, 0, &text) == DADO_OK && text.len == 0);
    dado_text_free(&text);
    dado_free(&ac);
}

static void empty_patterns(void) {
    static const dado_bytes patterns[] = {{NULL, 0}, WORD("b")};
    static const size_t expected[][3] = {{0, 0, 0}, {0, 1, 1}, {0, 2, 2}, {0, 3, 3}, {0, 4, 4}};
    dado_automaton *ac = NULL;
    dado_match found = {0, 0, 0};
    dado_cursor cursor = dado_cursor_over(0, 4);
    size_t i;
    CHECK(dado_build(patterns, 2, NULL, &ac, NULL) == DADO_OK);
    for (i = 0; i < 5; i++) {
        CHECK(dado_next(ac, BYTES("abba"), &cursor, &found) == DADO_OK);
        CHECK(is(&found, (uint32_t)expected[i][0], expected[i][1], expected[i][2]));
    }
    CHECK(dado_next(ac, BYTES("abba"), &cursor, &found) == DADO_NONE);
    CHECK(dado_next(ac, BYTES("abba"), &cursor, &found) == DADO_NONE);
    dado_free(&ac);
}

/* The walk in steps, and in batches of each size, which may be mixed. */
static void walks(void) {
    static const size_t expected[][3] = {{0, 0, 6}, {2, 11, 14}, {0, 22, 28}};
    dado_automaton *ac = NULL;
    dado_settings s = dado_settings_default();
    dado_match found = {0, 0, 0}, many[8];
    dado_cursor cursor = dado_cursor_over(0, 31), kept;
    size_t i, room, count;
    s.kind = DADO_LEFTMOST_FIRST;
    CHECK(dado_build(APPEND, 3, &s, &ac, NULL) == DADO_OK);
    for (i = 0; i < 3; i++) {
        CHECK(dado_next(ac, BYTES("append the app to the appendage"), &cursor, &found) == DADO_OK);
        CHECK(is(&found, (uint32_t)expected[i][0], expected[i][1], expected[i][2]));
    }
    CHECK(dado_next(ac, BYTES("append the app to the appendage"), &cursor, &found) == DADO_NONE);
    for (room = 1; room <= 8; room++) {
        size_t seen = 0;
        dado_status status;
        cursor = dado_cursor_over(0, 31);
        while ((status = dado_some(ac, BYTES("append the app to the appendage"), &cursor, many, room, &count)) == DADO_OK) {
            CHECK(count >= 1 && count <= room);
            for (i = 0; i < count; i++, seen++)
                CHECK(seen < 3 && is(&many[i], (uint32_t)expected[seen][0], expected[seen][1], expected[seen][2]));
        }
        CHECK(status == DADO_NONE && seen == 3 && count == 0);
    }
    cursor = dado_cursor_over(0, 31);
    CHECK(dado_some(ac, BYTES("append the app to the appendage"), &cursor, NULL, 0, &count) == DADO_OK && count == 0);
    CHECK(dado_some(ac, BYTES("append the app to the appendage"), &cursor, NULL, 1, &count) == DADO_BAD_ARGUMENT && count == 0);
    CHECK(dado_some(ac, BYTES("append the app to the appendage"), NULL, many, 8, &count) == DADO_BAD_ARGUMENT);
    CHECK(dado_some(ac, BYTES("append the app to the appendage"), &cursor, many, 8, NULL) == DADO_BAD_ARGUMENT);
    CHECK(dado_some(NULL, BYTES("append the app to the appendage"), &cursor, many, 8, &count) == DADO_NO_AUTOMATON);
    CHECK(dado_next(ac, BYTES("append the app to the appendage"), NULL, &found) == DADO_BAD_ARGUMENT);
    CHECK(dado_next(ac, NULL, 31, &cursor, &found) == DADO_BAD_ARGUMENT);
    CHECK(dado_next(NULL, BYTES("append the app to the appendage"), &cursor, &found) == DADO_NO_AUTOMATON);
    CHECK(dado_next(ac, BYTES("append the app to the appendage"), &cursor, &found) == DADO_OK && is(&found, 0, 0, 6));
    kept = cursor, kept.anchored = 1;
    CHECK(dado_next(ac, BYTES("append the app to the appendage"), &kept, &found) == DADO_NOT_ANCHORED);
    CHECK(dado_some(ac, BYTES("append the app to the appendage"), &kept, many, 8, &count) == DADO_NOT_ANCHORED && count == 0);
    s.start_kind = DADO_ANCHORED;
    CHECK(dado_build(APPEND, 3, &s, &ac, NULL) == DADO_OK);
    CHECK(dado_next(ac, BYTES("append the app to the appendage"), &cursor, &found) == DADO_NOT_UNANCHORED);
    cursor = dado_cursor_over(0, 12), cursor.anchored = 1;
    CHECK(dado_some(ac, BYTES("appappappend"), &cursor, many, 8, &count) == DADO_OK && count == 3);
    CHECK(is(&many[0], 2, 0, 3) && is(&many[1], 2, 3, 6) && is(&many[2], 0, 6, 12));
    dado_free(&ac);
}

/* A cursor and a place of any content get a status. */
static void rubbish(void) {
    static const size_t values[] = {0, 1, 5, 19, 20, 21, 22, 1000, SIZE_MAX - 1, SIZE_MAX};
    enum { N = sizeof(values) / sizeof(values[0]) };
    dado_automaton *ac = NULL;
    dado_settings s = dado_settings_default();
    dado_match many[4];
    size_t i, j, k, count;
    s.start_kind = DADO_BOTH;
    CHECK(dado_build(FOX, 3, &s, &ac, NULL) == DADO_OK);
    for (i = 0; i < N; i++)
        for (j = 0; j < N; j++)
            for (k = 0; k < N; k++) {
                dado_cursor cursor, kept;
                dado_place place;
                dado_status status, stepped;
                int bad;
                cursor = dado_cursor_over(values[i], values[j]);
                cursor.last = values[k], cursor.anchored = (uint32_t)values[k], cursor.earliest = (uint32_t)values[j];
                kept = cursor;
                bad = values[j] > 20 || values[i] > values[j] + 1 || (values[k] != SIZE_MAX && values[k] > values[i]);
                stepped = dado_next(ac, BYTES(TEXT), &cursor, many);
                cursor = kept;
                status = dado_some(ac, BYTES(TEXT), &cursor, many, 4, &count);
                CHECK(status == stepped && (bad ? status == DADO_BAD_CURSOR : status == DADO_OK || status == DADO_NONE));
                CHECK(status == DADO_OK ? count >= 1 : count == 0);
                if (bad) CHECK(cursor.start == kept.start && cursor.end == kept.end && cursor.last == kept.last);
                place = dado_place_over(values[i], values[j]);
                place.begun = (uint32_t)values[k], place.last.end = values[k], place.last.start = values[k];
                place.last.pattern = (uint32_t)values[k];
                bad = values[j] > 20 || values[i] > values[j] + 1;
                status = dado_overlapping_some(ac, BYTES(TEXT), &place, many, 4, &count);
                CHECK(bad ? status == DADO_BAD_CURSOR : status == DADO_OK || status == DADO_NONE);
            }
    dado_free(&ac);
}

static void listings(void) {
    static const size_t expected[][3] = {{2, 0, 3}, {0, 0, 6}, {2, 11, 14}, {2, 22, 25}, {0, 22, 28}, {1, 22, 31}};
    dado_automaton *ac = NULL;
    dado_settings s = dado_settings_default();
    dado_match many[8];
    dado_place place;
    dado_status status;
    size_t i, room, count;
    CHECK(dado_build(APPEND, 3, NULL, &ac, NULL) == DADO_OK);
    for (room = 1; room <= 8; room++) {
        size_t seen = 0;
        place = dado_place_over(0, 31);
        while ((status = dado_overlapping_some(ac, BYTES("append the app to the appendage"), &place, many, room, &count)) == DADO_OK)
            for (i = 0; i < count; i++, seen++)
                CHECK(seen < 6 && is(&many[i], (uint32_t)expected[seen][0], expected[seen][1], expected[seen][2]));
        CHECK(status == DADO_NONE && seen == 6 && count == 0);
    }
    place = dado_place_over(0, 31);
    CHECK(dado_overlapping_some(ac, BYTES("append the app to the appendage"), &place, NULL, 0, &count) == DADO_OK && count == 0);
    CHECK(dado_overlapping_some(ac, BYTES("append the app to the appendage"), &place, NULL, 1, &count) == DADO_BAD_ARGUMENT);
    CHECK(dado_overlapping_some(ac, BYTES("append the app to the appendage"), NULL, many, 1, &count) == DADO_BAD_ARGUMENT);
    CHECK(dado_overlapping_some(ac, BYTES("append the app to the appendage"), &place, many, 1, NULL) == DADO_BAD_ARGUMENT);
    CHECK(dado_overlapping_some(NULL, BYTES("append the app to the appendage"), &place, many, 1, &count) == DADO_NO_AUTOMATON);
    s.kind = DADO_LEFTMOST_FIRST;
    CHECK(dado_build(APPEND, 3, &s, &ac, NULL) == DADO_OK);
    CHECK(dado_overlapping_some(ac, BYTES("append the app to the appendage"), &place, many, 8, &count) == DADO_NOT_STANDARD);
    s.start_kind = DADO_ANCHORED;
    CHECK(dado_build(APPEND, 3, &s, &ac, NULL) == DADO_OK);
    CHECK(dado_overlapping_some(ac, BYTES("append the app to the appendage"), &place, many, 8, &count) == DADO_NOT_UNANCHORED);
    dado_free(&ac);
}

/* A text that stands in the place of an earlier one is made before that is freed, so it may be made of it. */
static void replaced_again(const dado_automaton *ac, dado_text *text) {
    static const dado_bytes next[] = {WORD("brown"), WORD("quick"), WORD("fox")};
    dado_bytes own[3];
    CHECK(dado_replace(ac, BYTES("fox brown"), next, 3, text) == DADO_OK && holds(text, "brown quick"));
    CHECK(dado_replace(ac, text->at, text->len, next, 3, text) == DADO_OK && holds(text, "quick fox"));
    own[0].at = own[1].at = own[2].at = text->at, own[0].len = own[1].len = own[2].len = text->len;
    CHECK(dado_replace(ac, BYTES("a fox"), own, 3, text) == DADO_OK && holds(text, "a quick fox"));
    CHECK(dado_replace(ac, text->at, text->len, next, 2, text) == DADO_WRONG_COUNT && holds(text, "a quick fox"));
    CHECK(dado_replace(NULL, BYTES("fox"), next, 3, text) == DADO_NO_AUTOMATON && holds(text, "a quick fox"));
}

static void replacements(void) {
    static const char expected[] = "The slow grey sloth.";
    dado_automaton *ac = NULL;
    dado_settings s = dado_settings_default();
    dado_text text = DADO_NO_TEXT;
    uint8_t out[32];
    size_t room, needed;
    CHECK(dado_replace(NULL, BYTES(TEXT), SLOTH, 3, &text) == DADO_NO_AUTOMATON && text.owner == NULL);
    CHECK(dado_build(FOX, 3, NULL, &ac, NULL) == DADO_OK);
    CHECK(dado_replace(ac, BYTES(TEXT), SLOTH, 3, NULL) == DADO_BAD_ARGUMENT);
    CHECK(dado_replace(ac, BYTES(TEXT), SLOTH, 2, &text) == DADO_WRONG_COUNT && text.owner == NULL && text.at == NULL);
    CHECK(dado_replace(ac, BYTES(TEXT), NULL, 3, &text) == DADO_BAD_ARGUMENT);
    CHECK(dado_replace(ac, BYTES(TEXT), SLOTH, 3, &text) == DADO_OK && holds(&text, expected));
    CHECK(dado_replace(ac, BYTES("fox"), SLOTH, 3, &text) == DADO_OK && holds(&text, "sloth"));
    CHECK(dado_replace(NULL, BYTES(TEXT), SLOTH, 3, &text) == DADO_NO_AUTOMATON && holds(&text, "sloth"));
    CHECK(dado_replace(ac, NULL, 1, SLOTH, 3, &text) == DADO_BAD_ARGUMENT && holds(&text, "sloth"));
    CHECK(dado_replace(ac, BYTES(TEXT), SLOTH, 2, &text) == DADO_WRONG_COUNT && holds(&text, "sloth"));
    replaced_again(ac, &text);
    CHECK(dado_replace(ac, NULL, 0, SLOTH, 3, &text) == DADO_OK && text.len == 0);
    dado_text_free(&text);
    CHECK(text.owner == NULL && text.at == NULL && text.len == 0);
    dado_text_free(&text);
    dado_text_free(NULL);
    for (room = 0; room <= sizeof out; room++) {
        dado_status status;
        memset(out, '#', sizeof out);
        status = dado_replace_into(ac, BYTES(TEXT), SLOTH, 3, out, room, &needed);
        CHECK(needed == 20 && status == (room < 20 ? (dado_status)DADO_TOO_SHORT : (dado_status)DADO_OK));
        CHECK(status == DADO_OK ? memcmp(out, expected, 20) == 0 && out[20] == '#' : out[0] == '#' && out[19] == '#');
    }
    CHECK(dado_replace_into(ac, BYTES(TEXT), SLOTH, 3, NULL, 0, &needed) == DADO_TOO_SHORT && needed == 20);
    CHECK(dado_replace_into(ac, BYTES(TEXT), SLOTH, 3, NULL, 1, &needed) == DADO_BAD_ARGUMENT && needed == 0);
    CHECK(dado_replace_into(ac, BYTES(TEXT), SLOTH, 4, out, 32, &needed) == DADO_WRONG_COUNT && needed == 0);
    CHECK(dado_replace_into(ac, BYTES(TEXT), SLOTH, 3, out, 32, NULL) == DADO_BAD_ARGUMENT);
    CHECK(dado_replace_into(NULL, BYTES(TEXT), SLOTH, 3, out, 32, &needed) == DADO_NO_AUTOMATON && needed == 0);
    s.start_kind = DADO_ANCHORED;
    CHECK(dado_build(FOX, 3, &s, &ac, NULL) == DADO_OK);
    CHECK(dado_replace(ac, BYTES(TEXT), SLOTH, 3, &text) == DADO_NOT_UNANCHORED && text.owner == NULL);
    CHECK(dado_replace_into(ac, BYTES(TEXT), SLOTH, 3, out, 32, &needed) == DADO_NOT_UNANCHORED && needed == 0);
    dado_free(&ac);
}

/* A text of the greatest length that a size_t says, and one of a byte more. Their replacements are 64 TiB of addresses, and never read. */
static void longest_texts(void) {
    static const dado_bytes letters[] = {WORD("a"), WORD("b")};
    static uint8_t text[1 << 18];
    const size_t huge = (size_t)1 << 46;
    void *pages = mmap(NULL, huge, PROT_READ, MAP_PRIVATE | MAP_ANONYMOUS | MAP_NORESERVE, -1, 0);
    dado_bytes replacements[2];
    dado_automaton *ac = NULL;
    uint8_t out[1] = {'#'};
    size_t needed = 7;
    if (pages == MAP_FAILED) {
        printf("calls: the longest texts are left out: there are no 64 TiB of addresses\n");
        return;
    }
    replacements[0].at = (const uint8_t *)pages, replacements[0].len = huge;
    replacements[1].at = (const uint8_t *)pages, replacements[1].len = huge - 1;
    CHECK(dado_build(letters, 2, NULL, &ac, NULL) == DADO_OK);
    memset(text, 'a', sizeof text);
    CHECK(dado_replace_into(ac, text, sizeof text, replacements, 2, out, 1, &needed) == DADO_TOO_MANY_BYTES && needed == 0);
    text[sizeof text - 1] = 'b';
    CHECK(dado_replace_into(ac, text, sizeof text, replacements, 2, out, 1, &needed) == DADO_TOO_SHORT && needed == SIZE_MAX);
    CHECK(out[0] == '#');
    dado_free(&ac);
    munmap(pages, huge);
}

static void lengths(void) {
    static const size_t expected[] = {6, 9, 3};
    dado_automaton *ac = NULL;
    uint32_t pattern;
    size_t len = 77;
    CHECK(dado_build(APPEND, 3, NULL, &ac, NULL) == DADO_OK);
    for (pattern = 0; pattern < 3; pattern++)
        CHECK(dado_pattern_len(ac, pattern, &len) == DADO_OK && len == expected[pattern]);
    len = 77;
    CHECK(dado_pattern_len(ac, 3, &len) == DADO_BAD_PATTERN && len == 77);
    CHECK(dado_pattern_len(ac, UINT32_MAX, &len) == DADO_BAD_PATTERN && len == 77);
    CHECK(dado_pattern_len(ac, 0, NULL) == DADO_BAD_ARGUMENT);
    dado_free(&ac);
}

int main(void) {
    statuses_have_texts();
    first_settings();
    handles();
    builds();
    engines();
    finds();
    no_patterns();
    empty_patterns();
    walks();
    rubbish();
    listings();
    replacements();
    longest_texts();
    lengths();
    return done("calls");
}
