/* Text in pieces: the matches, and the text that a caller writes by them, are those of the whole text, and so are all its whole words; and
 * each status of each call. */
#include "text.h"

enum { MOST = 100000 };

static dado_match whole[MOST], told[MOST];
static size_t whole_count, told_count, done_to;

/* Takes the matches that are decided, and writes what lies between them. */
static void take(dado_stream **stream, size_t room) {
    dado_match many[64];
    dado_held held = {NULL, 0, 0, 0};
    dado_status status;
    size_t count, i;
    while ((status = dado_stream_some(stream, many, room, &count)) == DADO_OK) {
        CHECK(count >= 1 && count <= room);
        CHECK(dado_stream_view(stream, &held) == DADO_OK);
        for (i = 0; i < count; i++) {
            CHECK(held.from <= done_to && done_to <= many[i].start && many[i].end <= held.from + held.len);
            put(held.at + (done_to - held.from), many[i].start - done_to);
            put(INSTEAD[many[i].pattern].at, INSTEAD[many[i].pattern].len);
            done_to = many[i].end;
            if (told_count < MOST) told[told_count++] = many[i];
        }
    }
    CHECK(status == DADO_NONE && count == 0);
}

/* Writes what is decided; or all that is held, at the end. */
static void write_up(dado_stream **stream, int at_end) {
    dado_held held = {NULL, 0, 0, 0};
    size_t up_to;
    CHECK(dado_stream_view(stream, &held) == DADO_OK);
    up_to = at_end ? held.from + held.len : held.cut;
    CHECK(held.from <= held.cut && held.cut <= held.from + held.len && held.from <= done_to);
    if (done_to < up_to) put(held.at + (done_to - held.from), up_to - done_to), done_to = up_to;
}

/* The text in pieces of one size, with an empty one before each. */
static void in_pieces(const dado_automaton *ac, size_t len, size_t size, size_t room) {
    dado_stream *stream = NULL;
    size_t at, taken = 7, piece;
    told_count = made_len = done_to = 0;
    CHECK(dado_stream_new(ac, &stream) == DADO_OK && stream != NULL);
    for (at = 0; at < len; at += taken) {
        CHECK(dado_stream_push(&stream, NULL, 0, &taken) == DADO_OK && taken == 0);
        piece = len - at < size ? len - at : size;
        CHECK(dado_stream_push(&stream, text + at, piece, &taken) == DADO_OK && taken >= 1 && taken <= piece);
        take(&stream, room);
        write_up(&stream, 0);
    }
    CHECK(dado_stream_finish(&stream) == DADO_OK);
    take(&stream, room);
    write_up(&stream, 1);
    CHECK(done_to == len);
    dado_stream_free(&stream);
}

static void same_as_whole(const dado_automaton *ac, size_t len, size_t size, size_t room) {
    dado_cursor cursor = dado_cursor_over(0, len);
    size_t i, wrong = 0;
    whole_count = 0;
    CHECK(dado_some(ac, text, len, &cursor, whole, MOST, &whole_count) != DADO_BAD_ARGUMENT && whole_count < MOST);
    in_pieces(ac, len, size, room);
    CHECK(told_count == whole_count);
    for (i = 0; i < whole_count && i < told_count; i++)
        wrong += !is(&told[i], whole[i].pattern, whole[i].start, whole[i].end);
    CHECK(wrong == 0);
    is_replaced(ac, len);
}

/* Pieces of each size, by each kind and engine. */
static void pieces(void) {
    static const struct { size_t len, size, room; } rows[] = {
        {0, 1, 1}, {1, 1, 1}, {3000, 1, 1}, {20000, 7, 64}, {70000, 65536, 1}, {LEN, 4096, 64}, {LEN, 100000, 64}, {LEN, LEN, 33}};
    uint32_t engine, kind;
    size_t i;
    fill_text();
    for (engine = DADO_AUTO; engine <= DADO_DFA; engine++)
        for (kind = DADO_STANDARD; kind <= DADO_LEFTMOST_LONGEST; kind++) {
            dado_automaton *ac = NULL;
            dado_settings s = dado_settings_default();
            s.kind = kind, s.engine = engine;
            CHECK(dado_build(APPEND, 5, &s, &ac, NULL) == DADO_OK);
            for (i = 0; i < sizeof rows / sizeof rows[0]; i++) same_as_whole(ac, rows[i].len, rows[i].size, rows[i].room);
            CHECK(whole_count > 5000);
            dado_free(&ac);
        }
}

/* All whole words of the first `len` bytes in pieces of a size, beside those of the whole. */
static void all_words_of(const dado_automaton *ac, size_t len, size_t size, size_t room) {
    static dado_match many[64];
    dado_stream *stream = NULL;
    dado_place place = dado_place_over(0, len);
    size_t at = 0, taken, count, i, wrong = 0;
    int over = 0;
    whole_count = told_count = 0;
    CHECK(dado_overlapping_words_some(ac, text, len, &place, whole, MOST, &whole_count) <= DADO_NONE && whole_count < MOST);
    CHECK(dado_all_words_stream_new(ac, &stream) == DADO_OK);
    while (!over) {
        over = at == len;
        if (over) CHECK(dado_stream_finish(&stream) == DADO_OK);
        else CHECK(dado_stream_push(&stream, text + at, len - at < size ? len - at : size, &taken) == DADO_OK && taken >= 1);
        if (!over) at += taken;
        while (dado_stream_some(&stream, many, room, &count) == DADO_OK)
            for (i = 0; i < count; i++, told_count++)
                wrong += told_count >= whole_count ||
                         !is(&many[i], whole[told_count].pattern, whole[told_count].start, whole[told_count].end);
    }
    CHECK(told_count == whole_count && wrong == 0);
    dado_stream_free(&stream);
}

/* By each engine, in pieces that are shorter and longer than the stream's memory. */
static void all_words(void) {
    static const dado_bytes words[] = {WORD("append"), WORD("the app"), WORD("append the"), WORD("app"), WORD("bca")};
    uint32_t engine;
    for (engine = DADO_AUTO; engine <= DADO_DFA; engine++) {
        dado_automaton *ac = NULL;
        dado_settings s = dado_settings_default();
        s.engine = engine;
        CHECK(dado_build(words, 5, &s, &ac, NULL) == DADO_OK);
        all_words_of(ac, 0, 1, 1);
        all_words_of(ac, 3000, 1, 1);
        all_words_of(ac, 70000, 65536, 64);
        all_words_of(ac, LEN, 4096, 7);
        all_words_of(ac, LEN, LEN, 64);
        CHECK(whole_count > 100);
        dado_free(&ac);
    }
}

/* When a match is given, what is held, and what a push takes. */
static void turns(void) {
    dado_automaton *ac = NULL;
    dado_settings s = dado_settings_default();
    dado_stream *stream = NULL;
    dado_match many[4];
    dado_held held = {NULL, 7, 7, 7};
    size_t taken = 7, count = 7;
    CHECK(dado_build(APPEND, 3, &s, &ac, NULL) == DADO_OK);
    CHECK(dado_stream_new(ac, &stream) == DADO_OK);
    CHECK(dado_stream_view(&stream, &held) == DADO_OK && held.at == NULL && held.len == 0 && held.from == 0 && held.cut == 0);
    CHECK(dado_stream_some(&stream, many, 4, &count) == DADO_NONE && count == 0);
    CHECK(dado_stream_push(&stream, BYTES("an ap"), &taken) == DADO_OK && taken == 5);
    /* what was pushed isn't searched yet, so nothing is taken */
    CHECK(dado_stream_push(&stream, BYTES("p"), &taken) == DADO_OK && taken == 0);
    CHECK(dado_stream_some(&stream, NULL, 0, &count) == DADO_OK && count == 0);
    CHECK(dado_stream_some(&stream, many, 4, &count) == DADO_NONE && count == 0);
    CHECK(dado_stream_push(&stream, BYTES("p app append"), &taken) == DADO_OK && taken == 12);
    CHECK(dado_stream_some(&stream, many, 2, &count) == DADO_OK && count == 2);
    CHECK(is(&many[0], 2, 3, 6) && is(&many[1], 2, 7, 10));
    CHECK(dado_stream_view(&stream, &held) == DADO_OK && held.len == 17 && held.from == 0 && held.cut == 10);
    CHECK(held.at != NULL && memcmp(held.at, "an app app append", 17) == 0);
    CHECK(dado_stream_some(&stream, many, 4, &count) == DADO_OK && count == 1 && is(&many[0], 2, 11, 14));
    CHECK(dado_stream_finish(&stream) == DADO_OK);
    CHECK(dado_stream_push(&stream, BYTES("p"), &taken) == DADO_FINISHED && taken == 0);
    CHECK(dado_stream_push(&stream, NULL, 0, &taken) == DADO_FINISHED && taken == 0);
    CHECK(dado_stream_finish(&stream) == DADO_OK);
    CHECK(dado_stream_some(&stream, many, 4, &count) == DADO_NONE && count == 0);
    /* under a leftmost kind a match waits until nothing can change it; the stream owns the automaton */
    s.kind = DADO_LEFTMOST_LONGEST;
    CHECK(dado_build(APPEND, 3, &s, &ac, NULL) == DADO_OK);
    CHECK(dado_stream_new(ac, &stream) == DADO_OK);
    dado_free(&ac);
    CHECK(dado_stream_push(&stream, BYTES("an append"), &taken) == DADO_OK && taken == 9);
    CHECK(dado_stream_some(&stream, many, 4, &count) == DADO_NONE && count == 0);
    CHECK(dado_stream_push(&stream, BYTES("ing"), &taken) == DADO_OK && taken == 3);
    CHECK(dado_stream_some(&stream, many, 4, &count) == DADO_OK && count == 1 && is(&many[0], 0, 3, 9));
    CHECK(dado_stream_push(&stream, BYTES("appendag"), &taken) == DADO_OK && taken == 8);
    CHECK(dado_stream_some(&stream, many, 4, &count) == DADO_NONE && count == 0);
    CHECK(dado_stream_finish(&stream) == DADO_OK);
    CHECK(dado_stream_some(&stream, many, 4, &count) == DADO_OK && count == 1 && is(&many[0], 0, 12, 18));
    CHECK(dado_stream_some(&stream, many, 4, &count) == DADO_NONE && count == 0);
    CHECK(dado_stream_push(&stream, BYTES("p"), &taken) == DADO_FINISHED && taken == 0);
    dado_stream_free(&stream);
    CHECK(stream == NULL);
}

/* A stream that was never made or was freed, pointers that are NULL, and automata without streams. */
static void statuses(void) {
    static const dado_bytes with_empty[] = {WORD("a"), {NULL, 0}};
    dado_automaton *ac = NULL;
    dado_settings s = dado_settings_default();
    dado_stream *stream = NULL, *kept;
    dado_match many[1];
    dado_held held = {NULL, 7, 8, 9};
    size_t taken = 7, count = 7;
    CHECK(dado_stream_new(NULL, &stream) == DADO_NO_AUTOMATON && stream == NULL);
    CHECK(dado_stream_new(NULL, NULL) == DADO_BAD_ARGUMENT);
    CHECK(dado_build(APPEND, 3, &s, &ac, NULL) == DADO_OK);
    CHECK(dado_stream_new(ac, NULL) == DADO_BAD_ARGUMENT);
    CHECK(dado_stream_push(&stream, BYTES("app"), &taken) == DADO_NO_STREAM && taken == 0);
    CHECK(dado_stream_some(&stream, many, 1, &count) == DADO_NO_STREAM && count == 0);
    CHECK(dado_stream_view(&stream, &held) == DADO_NO_STREAM && held.len == 7 && held.from == 8 && held.cut == 9);
    CHECK(dado_stream_finish(&stream) == DADO_NO_STREAM);
    dado_stream_free(&stream);
    dado_stream_free(NULL);
    CHECK(dado_stream_push(NULL, BYTES("app"), &taken) == DADO_BAD_ARGUMENT);
    CHECK(dado_stream_some(NULL, many, 1, &count) == DADO_BAD_ARGUMENT);
    CHECK(dado_stream_view(NULL, &held) == DADO_BAD_ARGUMENT && dado_stream_finish(NULL) == DADO_BAD_ARGUMENT);
    CHECK(dado_stream_new(ac, &stream) == DADO_OK);
    CHECK(dado_stream_push(&stream, NULL, 1, &taken) == DADO_BAD_ARGUMENT && taken == 0);
    CHECK(dado_stream_push(&stream, BYTES("app"), NULL) == DADO_BAD_ARGUMENT);
    CHECK(dado_stream_some(&stream, NULL, 1, &count) == DADO_BAD_ARGUMENT && count == 0);
    CHECK(dado_stream_some(&stream, many, 1, NULL) == DADO_BAD_ARGUMENT);
    CHECK(dado_stream_view(&stream, NULL) == DADO_BAD_ARGUMENT);
    CHECK(dado_stream_push(&stream, BYTES("app"), &taken) == DADO_OK && taken == 3);
    /* a new one in the place of one that was begun */
    CHECK(dado_stream_new(ac, &stream) == DADO_OK);
    CHECK(dado_stream_some(&stream, many, 1, &count) == DADO_NONE);
    kept = stream;
    s.start_kind = DADO_ANCHORED;
    CHECK(dado_build(with_empty, 2, &s, &ac, NULL) == DADO_OK);
    CHECK(dado_stream_new(ac, &stream) == DADO_NOT_UNANCHORED && stream == kept);
    s.start_kind = DADO_BOTH;
    CHECK(dado_build(with_empty, 2, &s, &ac, NULL) == DADO_OK);
    CHECK(dado_stream_new(ac, &stream) == DADO_EMPTY_PATTERN && stream == kept);
    CHECK(dado_build(NULL, 0, &s, &ac, NULL) == DADO_OK);
    CHECK(dado_stream_push(&stream, BYTES("app"), &taken) == DADO_OK && taken == 3);
    dado_stream_free(&stream);
    CHECK(dado_stream_new(ac, &stream) == DADO_OK);
    CHECK(dado_stream_push(&stream, BYTES("app"), &taken) == DADO_OK && taken == 3);
    CHECK(dado_stream_some(&stream, many, 1, &count) == DADO_NONE);
    CHECK(dado_stream_view(&stream, &held) == DADO_OK && held.from + held.len == 3);
    dado_stream_free(&stream);
    dado_free(&ac);
}

int main(void) {
    statuses();
    turns();
    pieces();
    all_words();
    return done("streams");
}
