/* Whole words, one after another, all of them, both in pieces, replaced and masked: rows, batches of each size, texts beside a loop that
 * compares each pattern at each place, and each status. */
#include "check.h"

/* The kinds, and what asks for all words. */
static const uint32_t KINDS[] = {DADO_STANDARD, DADO_LEFTMOST_FIRST, DADO_LEFTMOST_LONGEST}, ALL = 3;
static const dado_bytes CAT[] = {WORD("cat")}, NEW[] = {WORD("new"), WORD("new york")};

static int is_word_byte(uint8_t byte) {
    return (byte >= '0' && byte <= '9') || (byte >= 'A' && byte <= 'Z') || (byte >= 'a' && byte <= 'z') || byte == '_' || byte >= 0x80;
}

/* Whether the kind prefers the first of two matches. */
static int is_before(uint32_t kind, const dado_match *a, const dado_match *b) {
    if (kind == DADO_STANDARD && a->end != b->end) return a->end < b->end;
    if (a->start != b->start) return a->start < b->start;
    if (kind == DADO_LEFTMOST_LONGEST && a->end != b->end) return a->end > b->end;
    return a->pattern < b->pattern;
}

/* Whether a pattern is a whole word at a place, which `it` then says. */
static int is_word(const dado_bytes *patterns, uint32_t n, const uint8_t *at, size_t len, size_t start, dado_match *it) {
    it->start = start, it->end = start + patterns[n].len, it->pattern = n;
    if (patterns[n].len > len - start || memcmp(at + start, patterns[n].at, patterns[n].len) != 0) return 0;
    return !(start > 0 && is_word_byte(at[start - 1])) && !(it->end < len && is_word_byte(at[it->end]));
}

/* What the next word is: the best of the whole words that begin at `from` or later. */
static int next_word(uint32_t kind, const dado_bytes *patterns, uint32_t count, const uint8_t *at, size_t len, size_t from, dado_match *best) {
    int found = 0;
    size_t start;
    uint32_t n;
    for (start = from; start < len; start++)
        for (n = 0; n < count; n++) {
            dado_match it;
            if (!is_word(patterns, n, at, len, start, &it)) continue;
            if (!found || is_before(kind, &it, best)) *best = it;
            found = 1;
        }
    return found;
}

/* The words of a text that is pushed in pieces of a size, beside those of the whole text. What is decided is held until the next push. */
static void in_pieces(const dado_automaton *ac, uint32_t kind, const uint8_t *at, size_t len, size_t size) {
    static dado_match whole[300], many[3];
    dado_stream *stream = NULL;
    dado_held held = {NULL, 0, 0, 0};
    dado_place place = dado_place_over(0, len);
    size_t from = 0, count = 0, told = 0, pushed = 0, given, taken, i;
    dado_status status;
    status = kind == ALL ? dado_overlapping_words_some(ac, at, len, &place, whole, 300, &count)
                         : dado_words_some(ac, kind, at, len, &from, whole, 300, &count);
    CHECK(status <= DADO_NONE && count < 300);
    status = kind == ALL ? dado_all_words_stream_new(ac, &stream) : dado_word_stream_new(ac, kind, &stream);
    CHECK(status == DADO_OK && stream != NULL);
    for (;;) {
        while ((status = dado_stream_some(&stream, many, 3, &given)) == DADO_OK) {
            CHECK(given >= 1 && given <= 3 && told + given <= count);
            CHECK(dado_stream_view(&stream, &held) == DADO_OK);
            for (i = 0; i < given && told < count; i++, told++) {
                CHECK(is(&many[i], whole[told].pattern, whole[told].start, whole[told].end));
                CHECK(held.from <= many[i].start && many[i].end <= held.from + held.len);
                CHECK(memcmp(held.at + (many[i].start - held.from), at + many[i].start, many[i].end - many[i].start) == 0);
            }
        }
        CHECK(status == DADO_NONE && given == 0);
        CHECK(dado_stream_view(&stream, &held) == DADO_OK && held.from + held.len == pushed && held.cut <= pushed);
        CHECK(told == count || held.cut <= (kind == ALL ? whole[told].end : whole[told].start));
        /* under standard a word comes with the byte after it, and so do all words */
        CHECK((kind != DADO_STANDARD && kind != ALL) || told == count || whole[told].end >= pushed);
        if (pushed == len) break;
        CHECK(dado_stream_push(&stream, at + pushed, len - pushed < size ? len - pushed : size, &taken) == DADO_OK && taken >= 1);
        pushed += taken;
    }
    CHECK(dado_stream_finish(&stream) == DADO_OK && dado_stream_push(&stream, at, 1, &taken) == DADO_FINISHED && taken == 0);
    while (dado_stream_some(&stream, many, 1, &given) == DADO_OK) {
        CHECK(told < count && is(&many[0], whole[told].pattern, whole[told].start, whole[told].end));
        told++;
    }
    CHECK(told == count);
    dado_stream_free(&stream);
    CHECK(stream == NULL);
}

/* The word of a span that comes after `last`, by end, start and number; the first one if that is NULL. */
static int word_after(const dado_bytes *patterns, uint32_t count, const uint8_t *at, size_t len, dado_place over, const dado_match *last,
                      dado_match *next) {
    int found = 0;
    size_t start;
    uint32_t n;
    for (start = over.start; start < over.end; start++)
        for (n = 0; n < count; n++) {
            dado_match it;
            if (!is_word(patterns, n, at, len, start, &it) || it.end > over.end) continue;
            if (last != NULL && !is_before(DADO_STANDARD, last, &it)) continue;
            if (!found || is_before(DADO_STANDARD, &it, next)) *next = it;
            found = 1;
        }
    return found;
}

/* All words of a span in batches of a size, beside that loop. */
static void all_alike(const dado_automaton *ac, const dado_bytes *patterns, uint32_t count, const uint8_t *at, size_t len, dado_place over,
                      size_t room) {
    static dado_match many[64];
    dado_place place = over;
    dado_match last = {0, 0, 0}, wanted = {0, 0, 0};
    size_t given = 7, i, all = 0;
    dado_status status;
    while ((status = dado_overlapping_words_some(ac, at, len, &place, many, room, &given)) == DADO_OK) {
        CHECK(given >= 1 && given <= room);
        for (i = 0; i < given; i++, all++) {
            CHECK(word_after(patterns, count, at, len, over, all == 0 ? NULL : &last, &wanted));
            CHECK(is(&many[i], wanted.pattern, wanted.start, wanted.end));
            last = wanted;
        }
        CHECK(place.begun != 0 && is(&place.last, last.pattern, last.start, last.end) && place.start == over.start && place.end == over.end);
    }
    CHECK(status == DADO_NONE && given == 0);
    CHECK(!word_after(patterns, count, at, len, over, all == 0 ? NULL : &last, &wanted));
}

/* The masked text that a masker of whole words makes of pieces of a size, beside the one that is wanted. Few bytes wait: as many as the
 * longest pattern has. */
static void masked_in_pieces(const dado_automaton *ac, const uint8_t *at, const uint8_t *wanted, size_t len, size_t longest, uint8_t byte,
                             size_t size) {
    dado_masker *masker = NULL;
    dado_bytes slice;
    size_t pushed = 0, given = 0, taken;
    CHECK(dado_word_masker_new(ac, byte, &masker) == DADO_OK && masker != NULL);
    while (pushed < len) {
        CHECK(dado_masker_push(&masker, at + pushed, len - pushed < size ? len - pushed : size, &taken) == DADO_OK && taken >= 1);
        pushed += taken;
        CHECK(dado_masker_ready(&masker, &slice) == DADO_OK && slice.at != NULL && given + slice.len <= pushed);
        CHECK(memcmp(slice.at, wanted + given, slice.len) == 0);
        given += slice.len;
        CHECK(pushed <= given + longest);
    }
    CHECK(dado_masker_finish(&masker) == DADO_OK && dado_masker_push(&masker, BYTES("x"), &taken) == DADO_FINISHED && taken == 0);
    CHECK(dado_masker_ready(&masker, &slice) == DADO_OK && given + slice.len == len);
    CHECK(memcmp(slice.at, wanted + given, slice.len) == 0);
    CHECK(dado_masker_finish(&masker) == DADO_OK && dado_masker_ready(&masker, &slice) == DADO_OK && slice.len == 0);
    dado_masker_free(&masker);
    CHECK(masker == NULL);
}

/* A text whose words are masked, where it lies and in pieces, beside that loop. */
static void masked_alike(const dado_automaton *ac, const dado_bytes *patterns, uint32_t count, const uint8_t *at, size_t len, uint8_t byte) {
    static uint8_t masked[200000], wanted[200000];
    static const size_t sizes[] = {1, 2, 3, 7, 600, 70000};
    size_t start, longest = 0, i;
    uint32_t n;
    if (len != 0) memcpy(masked, at, len), memcpy(wanted, at, len);
    for (n = 0; n < count; n++)
        if (patterns[n].len > longest) longest = patterns[n].len;
    for (start = 0; start < len; start++)
        for (n = 0; n < count; n++) {
            dado_match it;
            if (is_word(patterns, n, at, len, start, &it)) memset(wanted + start, byte, patterns[n].len);
        }
    CHECK(dado_mask_words(ac, masked, len, byte) == DADO_OK);
    CHECK(memcmp(masked, wanted, len) == 0);
    for (i = 0; i < sizeof sizes / sizeof *sizes; i++) masked_in_pieces(ac, at, wanted, len, longest, byte, sizes[i]);
}

/* The text with its words replaced, beside one that is put together of what that loop finds. */
static void replaced_alike(const dado_automaton *ac, uint32_t kind, const dado_bytes *patterns, uint32_t count, const uint8_t *at,
                           size_t len) {
    static const dado_bytes cycle[] = {WORD("<one>"), {NULL, 0}, WORD("2")};
    static uint8_t wanted[4096];
    dado_bytes names[8];
    dado_text text = DADO_NO_TEXT;
    size_t place = 0, length = 0;
    dado_match word = {0, 0, 0};
    uint32_t n;
    CHECK(count <= 8);
    for (n = 0; n < count && n < 8; n++) names[n] = cycle[n % 3];
    while (next_word(kind, patterns, count, at, len, place, &word)) {
        memcpy(wanted + length, at + place, word.start - place), length += word.start - place;
        if (names[word.pattern].len != 0) memcpy(wanted + length, names[word.pattern].at, names[word.pattern].len);
        length += names[word.pattern].len, place = word.end;
    }
    if (len != place) memcpy(wanted + length, at + place, len - place), length += len - place;
    CHECK(dado_replace_words(ac, kind, at, len, names, count, &text) == DADO_OK);
    CHECK(text.len == length && (length == 0 || memcmp(text.at, wanted, length) == 0));
    dado_text_free(&text);
}

/* The words of a text in batches of a size, beside that loop. */
static void alike(const dado_automaton *ac, uint32_t kind, const dado_bytes *patterns, uint32_t count, const uint8_t *at, size_t len,
                  size_t room) {
    static dado_match many[64];
    size_t from = 0, place = 0, given = 7, i;
    dado_match wanted = {0, 0, 0};
    dado_status status;
    while ((status = dado_words_some(ac, kind, at, len, &from, many, room, &given)) == DADO_OK) {
        CHECK(given >= 1 && given <= room);
        for (i = 0; i < given; i++) {
            CHECK(next_word(kind, patterns, count, at, len, place, &wanted));
            CHECK(is(&many[i], wanted.pattern, wanted.start, wanted.end));
            place = wanted.end;
        }
        CHECK(from == place);
    }
    CHECK(status == DADO_NONE && given == 0 && from == place);
    CHECK(!next_word(kind, patterns, count, at, len, place, &wanted));
    if (room == 1) replaced_alike(ac, kind, patterns, count, at, len);
}

/* Each status of a replacement of words; the text that was there stays. */
static void replaced_statuses(const dado_automaton *ac, const dado_automaton *leftmost, const dado_automaton *anchored,
                              const dado_automaton *with_empty) {
    static const dado_bytes dog[] = {WORD("dog"), WORD("")};
    dado_text text = DADO_NO_TEXT;
    CHECK(dado_replace_words(ac, 2, BYTES("cat, concat"), dog, 1, &text) == DADO_OK);
    CHECK(text.len == 11 && memcmp(text.at, "dog, concat", 11) == 0);
    CHECK(dado_replace_words(NULL, 2, BYTES("cat"), dog, 1, &text) == DADO_NO_AUTOMATON);
    CHECK(dado_replace_words(ac, 2, BYTES("cat"), dog, 1, NULL) == DADO_BAD_ARGUMENT);
    CHECK(dado_replace_words(ac, 2, NULL, 3, dog, 1, &text) == DADO_BAD_ARGUMENT);
    CHECK(dado_replace_words(ac, 2, BYTES("cat"), NULL, 1, &text) == DADO_BAD_ARGUMENT);
    CHECK(dado_replace_words(anchored, 3, BYTES("cat"), dog, 2, &text) == DADO_BAD_KIND);
    CHECK(dado_replace_words(anchored, 2, BYTES("cat"), dog, 2, &text) == DADO_WRONG_COUNT);
    CHECK(dado_replace_words(anchored, 2, BYTES("cat"), dog, 1, &text) == DADO_NOT_UNANCHORED);
    CHECK(dado_replace_words(leftmost, 2, BYTES("cat"), dog, 1, &text) == DADO_NOT_STANDARD);
    CHECK(dado_replace_words(with_empty, 2, BYTES("cat"), dog, 2, &text) == DADO_EMPTY_PATTERN);
    CHECK(text.len == 11 && memcmp(text.at, "dog, concat", 11) == 0);
    /* the haystack may lie in the text that is replaced */
    CHECK(dado_replace_words(ac, 0, text.at, text.len, dog, 1, &text) == DADO_OK && text.len == 11);
    dado_text_free(&text);
}

/* `cat` within a word, at both ends, beside `_`, beside a character beyond ASCII; `new york` and what begins it. */
static void rows(void) {
    static const struct {
        const dado_bytes *patterns;
        uint32_t count;
        const char *text;
        size_t words[3]; /* how many under each kind */
        size_t last[3];  /* where the last of them ends */
    } rows[] = {
        {CAT, 1, "concatenate", {0, 0, 0}, {0, 0, 0}},
        {CAT, 1, "cat", {1, 1, 1}, {3, 3, 3}},
        {CAT, 1, "cat, a cat", {2, 2, 2}, {10, 10, 10}},
        {CAT, 1, "cat_ _cat cat.", {1, 1, 1}, {13, 13, 13}},
        {CAT, 1, "\xc3\xbc" "cat cat\xc3\xbc -cat-", {1, 1, 1}, {16, 16, 16}},
        {CAT, 1, "cat9 9cat Cat", {0, 0, 0}, {0, 0, 0}},
        {CAT, 1, "", {0, 0, 0}, {0, 0, 0}},
        {NEW, 2, "new yorker, new york", {2, 2, 2}, {15, 15, 20}},
        {NEW, 2, "new york", {1, 1, 1}, {3, 3, 8}},
        {NEW, 2, "new yorks", {1, 1, 1}, {3, 3, 3}},
        {NULL, 0, "cat", {0, 0, 0}, {0, 0, 0}},
    };
    size_t i, k, room;
    for (i = 0; i < sizeof rows / sizeof rows[0]; i++) {
        const uint8_t *at = (const uint8_t *)rows[i].text;
        size_t len = strlen(rows[i].text);
        dado_automaton *ac = NULL;
        CHECK(dado_build(rows[i].patterns, rows[i].count, NULL, &ac, NULL) == DADO_OK);
        for (k = 0; k < 3; k++) {
            dado_match many[8];
            size_t from = 0, count = 7;
            dado_status wanted = rows[i].words[k] == 0 ? DADO_NONE : DADO_OK;
            CHECK(dado_words_some(ac, KINDS[k], at, len, &from, many, 8, &count) == wanted);
            CHECK(count == rows[i].words[k] && from == rows[i].last[k]);
            CHECK(count == 0 || many[count - 1].end == from);
            for (room = 1; room <= 3; room++) {
                alike(ac, KINDS[k], rows[i].patterns, rows[i].count, at, len, room);
                in_pieces(ac, KINDS[k], at, len, room);
            }
        }
        for (room = 1; room <= 3; room++) {
            in_pieces(ac, ALL, at, len, room);
            all_alike(ac, rows[i].patterns, rows[i].count, at, len, dado_place_over(0, len), room);
            all_alike(ac, rows[i].patterns, rows[i].count, at, len, dado_place_over(len / 4, len - len / 4), room);
        }
        masked_alike(ac, rows[i].patterns, rows[i].count, at, len, '*');
        masked_alike(ac, rows[i].patterns, rows[i].count, at, len, 'x');
        dado_free(&ac);
    }
}

/* A longer text, by each engine. */
static void texts(void) {
    static const dado_bytes words[] = {WORD("app"), WORD("append"), WORD("the app"), WORD("to"), WORD(" the "), WORD("e a")};
    static const char parts[][12] = {"append", "app", "the", " ", " ", "to", "_", "appendage", "\xc3\xbc", "e", ", "};
    static uint8_t at[600];
    uint32_t engine;
    size_t len = 0, k, n = 1;
    while (len < 580) {
        const char *part;
        n = n * 1103515245 + 12345;
        part = parts[(n >> 16) % (sizeof parts / sizeof parts[0])];
        memcpy(at + len, part, strlen(part));
        len += strlen(part);
    }
    for (engine = DADO_AUTO; engine <= DADO_DFA; engine++) {
        dado_automaton *ac = NULL;
        dado_settings s = dado_settings_default();
        s.engine = engine;
        CHECK(dado_build(words, 6, &s, &ac, NULL) == DADO_OK);
        for (k = 0; k < 3; k++) {
            alike(ac, KINDS[k], words, 6, at, len, 1);
            alike(ac, KINDS[k], words, 6, at, len, 7);
            alike(ac, KINDS[k], words, 6, at, len, 64);
            in_pieces(ac, KINDS[k], at, len, 1);
            in_pieces(ac, KINDS[k], at, len, 10);
            in_pieces(ac, KINDS[k], at, len, 600);
        }
        for (k = 1; k <= 600; k = k * 7 / 2) in_pieces(ac, ALL, at, len, k);
        all_alike(ac, words, 6, at, len, dado_place_over(0, len), 1);
        all_alike(ac, words, 6, at, len, dado_place_over(0, len), 64);
        all_alike(ac, words, 6, at, len, dado_place_over(3, len - 5), 7);
        masked_alike(ac, words, 6, at, len, '#');
        dado_free(&ac);
    }
}

/* A text with three words that overlap, cut at each place: when each is given, which the byte after it decides. */
static void all_words_cut(const dado_automaton *ac) {
    static const uint8_t at[] = "a new york times, yo";
    size_t cut, count, taken, before;
    for (cut = 0; cut <= 20; cut++) {
        dado_stream *stream = NULL;
        dado_match many[4];
        CHECK(dado_all_words_stream_new(ac, &stream) == DADO_OK);
        CHECK(dado_stream_push(&stream, at, cut, &taken) == DADO_OK && taken == cut);
        CHECK(dado_stream_some(&stream, many, 4, &count) <= DADO_NONE);
        before = cut < 11 ? 0 : cut < 17 ? 2 : 3;
        CHECK(count == before);
        CHECK(dado_stream_push(&stream, at + cut, 20 - cut, &taken) == DADO_OK && taken == 20 - cut);
        CHECK(dado_stream_some(&stream, many + before, 4 - before, &count) <= DADO_NONE && before + count == 3);
        CHECK(is(&many[0], 0, 2, 10) && is(&many[1], 2, 6, 10) && is(&many[2], 1, 6, 16));
        CHECK(dado_stream_finish(&stream) == DADO_OK && dado_stream_some(&stream, many, 4, &count) == DADO_NONE && count == 0);
        dado_stream_free(&stream);
    }
    /* `york` at the end of `new york` waits, and a word byte that follows takes both away */
    for (cut = 0; cut < 2; cut++) {
        dado_stream *stream = NULL;
        dado_match many[4];
        CHECK(dado_all_words_stream_new(ac, &stream) == DADO_OK);
        CHECK(dado_stream_push(&stream, BYTES("new york"), &taken) == DADO_OK && taken == 8);
        CHECK(dado_stream_some(&stream, many, 4, &count) == DADO_NONE && count == 0);
        CHECK(cut == 0 || dado_stream_push(&stream, BYTES("s"), &taken) == DADO_OK);
        CHECK(dado_stream_finish(&stream) == DADO_OK);
        CHECK(dado_stream_some(&stream, many, 4, &count) == (cut == 0 ? DADO_OK : DADO_NONE) && count == (cut == 0 ? 2 : 0));
        CHECK(cut == 1 || (is(&many[0], 0, 0, 8) && is(&many[1], 2, 4, 8)));
        dado_stream_free(&stream);
    }
}

/* Words that overlap are all listed, and all masked; a masked byte was still a word byte of the text before. */
static void overlapping(void) {
    static const dado_bytes words[] = {WORD("new york"), WORD("york times"), WORD("york")};
    dado_automaton *ac = NULL;
    dado_place place = dado_place_over(0, 20);
    dado_match many[4];
    uint8_t text[] = "a new york times, yo", beside[] = "york_york york";
    size_t count = 7;
    CHECK(dado_build(words, 3, NULL, &ac, NULL) == DADO_OK);
    CHECK(dado_overlapping_words_some(ac, BYTES("a new york times, yo"), &place, many, 2, &count) == DADO_OK && count == 2);
    CHECK(is(&many[0], 0, 2, 10) && is(&many[1], 2, 6, 10) && place.begun != 0);
    /* the place goes on in the listing of all occurrences, too */
    CHECK(dado_overlapping_some(ac, BYTES("a new york times, yo"), &place, many, 4, &count) == DADO_OK && count == 1 && is(&many[0], 1, 6, 16));
    CHECK(dado_overlapping_words_some(ac, BYTES("a new york times, yo"), &place, many, 4, &count) == DADO_NONE && count == 0);
    CHECK(dado_mask_words(ac, text, 20, '*') == DADO_OK && memcmp(text, "a **************, yo", 20) == 0);
    CHECK(dado_mask_words(ac, beside, 14, 'y') == DADO_OK && memcmp(beside, "york_york yyyy", 14) == 0);
    all_words_cut(ac);
    dado_free(&ac);
}

/* Words across the ends of a masker's memory, and beside what was moved within it or masked before. */
static void long_masked(void) {
    static const dado_bytes lynx[] = {WORD("lynx"), WORD("lynx lynx")};
    static uint8_t text[200000];
    dado_automaton *ac = NULL;
    size_t at, start;
    CHECK(dado_build(lynx, 2, NULL, &ac, NULL) == DADO_OK);
    memset(text, '-', sizeof text);
    for (at = 65530; at + 20 < sizeof text; at += 65527)
        for (start = 0; start < 3; start++) {
            memcpy(text + at, start == 1 ? "_lynx lynx-lynx_" : "lynx lynx lynxs", 15);
            if (start == 2) memcpy(text + at, "lynx", 4);
            masked_alike(ac, lynx, 2, text, sizeof text - start, '*');
        }
    dado_free(&ac);
}

/* Each status of the calls for all words and for masks. */
static void other_statuses(const dado_automaton *ac, const dado_automaton *leftmost, const dado_automaton *anchored,
                           const dado_automaton *with_empty) {
    dado_match many[2];
    dado_place place = dado_place_over(0, 3), past = dado_place_over(0, 4);
    uint8_t word[] = {'c', 'a', 't'};
    size_t count = 7;
    CHECK(dado_overlapping_words_some(NULL, BYTES("cat"), &place, many, 2, &count) == DADO_NO_AUTOMATON && count == 0);
    CHECK(dado_overlapping_words_some(ac, BYTES("cat"), NULL, many, 2, &count) == DADO_BAD_ARGUMENT);
    CHECK(dado_overlapping_words_some(ac, BYTES("cat"), &place, NULL, 2, &count) == DADO_BAD_ARGUMENT);
    CHECK(dado_overlapping_words_some(ac, BYTES("cat"), &place, many, 2, NULL) == DADO_BAD_ARGUMENT);
    CHECK(dado_overlapping_words_some(ac, NULL, 3, &place, many, 2, &count) == DADO_BAD_ARGUMENT);
    CHECK(dado_overlapping_words_some(ac, BYTES("cat"), &place, NULL, 0, &count) == DADO_OK && count == 0 && place.begun == 0);
    CHECK(dado_overlapping_words_some(anchored, BYTES("cat"), &past, many, 2, &count) == DADO_BAD_CURSOR && count == 0);
    CHECK(dado_overlapping_words_some(anchored, BYTES("cat"), &place, many, 2, &count) == DADO_NOT_UNANCHORED && count == 0);
    CHECK(dado_overlapping_words_some(leftmost, BYTES("cat"), &place, many, 2, &count) == DADO_NOT_STANDARD && count == 0);
    CHECK(dado_overlapping_words_some(with_empty, BYTES("cat"), &place, many, 2, &count) == DADO_EMPTY_PATTERN && count == 0);
    CHECK(place.begun == 0 && place.start == 0 && place.end == 3);
    /* what stands beside the span counts */
    past = dado_place_over(1, 4);
    CHECK(dado_overlapping_words_some(ac, BYTES("xcat"), &past, many, 2, &count) == DADO_NONE && count == 0);
    {
        dado_stream *stream = NULL, *kept;
        CHECK(dado_word_stream_new(NULL, 0, &stream) == DADO_NO_AUTOMATON && stream == NULL);
        CHECK(dado_word_stream_new(ac, 0, NULL) == DADO_BAD_ARGUMENT);
        CHECK(dado_word_stream_new(ac, 2, &stream) == DADO_OK && dado_stream_push(&stream, BYTES("cat"), &count) == DADO_OK && count == 3);
        kept = stream;
        CHECK(dado_word_stream_new(anchored, 3, &stream) == DADO_BAD_KIND && stream == kept);
        CHECK(dado_word_stream_new(anchored, 2, &stream) == DADO_NOT_UNANCHORED && stream == kept);
        CHECK(dado_word_stream_new(leftmost, 2, &stream) == DADO_NOT_STANDARD && stream == kept);
        CHECK(dado_word_stream_new(with_empty, 2, &stream) == DADO_EMPTY_PATTERN && stream == kept);
        CHECK(dado_stream_finish(&stream) == DADO_OK && dado_stream_some(&stream, many, 2, &count) == DADO_OK && is(&many[0], 0, 0, 3));
        CHECK(dado_all_words_stream_new(NULL, &stream) == DADO_NO_AUTOMATON && dado_all_words_stream_new(ac, NULL) == DADO_BAD_ARGUMENT);
        CHECK(dado_all_words_stream_new(anchored, &stream) == DADO_NOT_UNANCHORED && stream == kept);
        CHECK(dado_all_words_stream_new(leftmost, &stream) == DADO_NOT_STANDARD && stream == kept);
        CHECK(dado_all_words_stream_new(with_empty, &stream) == DADO_EMPTY_PATTERN && stream == kept);
        /* one of all words in the place of the one that was finished */
        CHECK(dado_stream_push(&stream, BYTES("cat"), &count) == DADO_FINISHED);
        CHECK(dado_all_words_stream_new(ac, &stream) == DADO_OK && dado_stream_push(&stream, BYTES("cat"), &count) == DADO_OK && count == 3);
        CHECK(dado_stream_finish(&stream) == DADO_OK && dado_stream_some(&stream, many, 2, &count) == DADO_OK && is(&many[0], 0, 0, 3));
        dado_stream_free(&stream);
    }
    CHECK(dado_mask_words(NULL, word, 3, '*') == DADO_NO_AUTOMATON);
    CHECK(dado_mask_words(ac, NULL, 3, '*') == DADO_BAD_ARGUMENT && dado_mask_words(ac, NULL, 0, '*') == DADO_OK);
    CHECK(dado_mask_words(anchored, word, 3, '*') == DADO_NOT_UNANCHORED && memcmp(word, "cat", 3) == 0);
    CHECK(dado_mask_words(leftmost, word, 3, '*') == DADO_NOT_STANDARD && memcmp(word, "cat", 3) == 0);
    CHECK(dado_mask_words(with_empty, word, 3, '*') == DADO_OK && memcmp(word, "cat", 3) == 0);
    CHECK(dado_mask_words(ac, word, 3, '*') == DADO_OK && memcmp(word, "***", 3) == 0);
}

/* Each status of the call that makes a masker of whole words; and a word that is known once the byte after it is. */
static void masker_statuses(const dado_automaton *ac, const dado_automaton *leftmost, const dado_automaton *anchored,
                            const dado_automaton *with_empty) {
    dado_masker *masker = NULL, *kept;
    dado_bytes slice;
    size_t taken = 7;
    CHECK(dado_word_masker_new(NULL, '*', &masker) == DADO_NO_AUTOMATON && masker == NULL);
    CHECK(dado_word_masker_new(ac, '*', NULL) == DADO_BAD_ARGUMENT);
    CHECK(dado_word_masker_new(ac, '*', &masker) == DADO_OK && masker != NULL);
    CHECK(dado_masker_push(&masker, BYTES("a cat"), &taken) == DADO_OK && taken == 5);
    kept = masker;
    CHECK(dado_word_masker_new(anchored, '*', &masker) == DADO_NOT_UNANCHORED && masker == kept);
    CHECK(dado_word_masker_new(leftmost, '*', &masker) == DADO_NOT_STANDARD && masker == kept);
    CHECK(dado_word_masker_new(with_empty, '*', &masker) == DADO_EMPTY_PATTERN && masker == kept);
    CHECK(dado_masker_ready(&masker, &slice) == DADO_OK && slice.len == 2 && memcmp(slice.at, "a ", 2) == 0);
    CHECK(dado_masker_push(&masker, BYTES("s cat"), &taken) == DADO_OK && taken == 5);
    CHECK(dado_masker_ready(&masker, &slice) == DADO_OK && slice.len == 5 && memcmp(slice.at, "cats ", 5) == 0);
    CHECK(dado_masker_finish(&masker) == DADO_OK);
    CHECK(dado_masker_ready(&masker, &slice) == DADO_OK && slice.len == 3 && memcmp(slice.at, "***", 3) == 0);
    CHECK(dado_masker_push(&masker, BYTES("."), &taken) == DADO_FINISHED && taken == 0);
    dado_masker_free(&masker);
    CHECK(masker == NULL);
}

/* Each status, in the order in which they are tested. */
static void statuses(void) {
    static const dado_bytes empty[] = {WORD("a"), {NULL, 0}};
    dado_automaton *ac = NULL, *leftmost = NULL, *anchored = NULL, *with_empty = NULL;
    dado_settings s = dado_settings_default();
    dado_match many[2];
    size_t from = 0, count = 7;
    CHECK(dado_build(CAT, 1, &s, &ac, NULL) == DADO_OK && dado_build(empty, 2, &s, &with_empty, NULL) == DADO_OK);
    s.kind = DADO_LEFTMOST_LONGEST;
    CHECK(dado_build(CAT, 1, &s, &leftmost, NULL) == DADO_OK);
    s.start_kind = DADO_ANCHORED;
    CHECK(dado_build(CAT, 1, &s, &anchored, NULL) == DADO_OK);
    CHECK(dado_words_some(NULL, 0, BYTES("cat"), &from, many, 2, &count) == DADO_NO_AUTOMATON && count == 0);
    CHECK(dado_words_some(ac, 0, BYTES("cat"), NULL, many, 2, &count) == DADO_BAD_ARGUMENT);
    CHECK(dado_words_some(ac, 0, BYTES("cat"), &from, NULL, 2, &count) == DADO_BAD_ARGUMENT);
    CHECK(dado_words_some(ac, 0, BYTES("cat"), &from, many, 2, NULL) == DADO_BAD_ARGUMENT);
    CHECK(dado_words_some(ac, 0, NULL, 3, &from, many, 2, &count) == DADO_BAD_ARGUMENT);
    CHECK(dado_words_some(ac, 0, NULL, 0, &from, many, 2, &count) == DADO_NONE && from == 0);
    CHECK(dado_words_some(ac, 0, BYTES("cat"), &from, NULL, 0, &count) == DADO_OK && count == 0 && from == 0);
    from = 4;
    CHECK(dado_words_some(anchored, 3, BYTES("cat"), &from, many, 2, &count) == DADO_BAD_KIND && count == 0 && from == 4);
    CHECK(dado_words_some(anchored, 2, BYTES("cat"), &from, many, 2, &count) == DADO_BAD_CURSOR && count == 0 && from == 4);
    from = SIZE_MAX;
    CHECK(dado_words_some(ac, 2, BYTES("cat"), &from, many, 2, &count) == DADO_BAD_CURSOR && from == SIZE_MAX);
    from = 3;
    CHECK(dado_words_some(anchored, 2, BYTES("cat"), &from, many, 2, &count) == DADO_NOT_UNANCHORED && count == 0 && from == 3);
    CHECK(dado_words_some(leftmost, 2, BYTES("cat"), &from, many, 2, &count) == DADO_NOT_STANDARD && count == 0 && from == 3);
    CHECK(dado_words_some(with_empty, 2, BYTES("cat"), &from, many, 2, &count) == DADO_EMPTY_PATTERN && count == 0 && from == 3);
    CHECK(dado_words_some(ac, 2, BYTES("cat"), &from, many, 2, &count) == DADO_NONE && count == 0 && from == 3);
    /* what stands before the place counts beside a word */
    from = 1;
    CHECK(dado_words_some(ac, 2, BYTES("xcat cat"), &from, many, 2, &count) == DADO_OK && count == 1 && is(&many[0], 0, 5, 8));
    other_statuses(ac, leftmost, anchored, with_empty);
    masker_statuses(ac, leftmost, anchored, with_empty);
    replaced_statuses(ac, leftmost, anchored, with_empty);
    dado_free(&ac);
    dado_free(&leftmost);
    dado_free(&anchored);
    dado_free(&with_empty);
}

int main(void) {
    rows();
    texts();
    overlapping();
    long_masked();
    statuses();
    return done("words");
}
