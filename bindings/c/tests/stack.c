/* How much stack the calls take: each set of calls runs in a thread whose stack is filled with a byte before, and the bytes that changed
 * are counted. With an argument it prints what each took. */
#include "text.h"
#include <pthread.h>
#include <sys/mman.h>

/* What the header says, and what the test gives a thread. */
enum { SAID = 128 * 1024, ROOM = 4 * 1024 * 1024, UNTOUCHED = 0xA5, COUNT = 200000, LONG = 1000000 };

static uint8_t letters[COUNT * 8], pattern_of_a_million[LONG];
static dado_bytes many[COUNT];
static dado_settings settings;
static const dado_bytes *patterns;
static size_t count;
static dado_automaton *ac;

static void *builds(void *nothing) {
    CHECK(dado_build(patterns, count, &settings, &ac, NULL) == DADO_OK);
    return nothing;
}

static void *searches(void *nothing) {
    static dado_match out[4096];
    static char masked[LEN];
    static dado_bytes instead[COUNT];
    dado_cursor cursor = dado_cursor_over(0, LEN);
    dado_place place = dado_place_over(0, LEN);
    dado_text replaced = DADO_NO_TEXT;
    size_t written, from = 0;
    dado_find(ac, text, LEN, out);
    while (dado_some(ac, text, LEN, &cursor, out, 4096, &written) == DADO_OK) {}
    while (dado_overlapping_some(ac, text, LEN, &place, out, 4096, &written) == DADO_OK) {}
    while (dado_words_some(ac, DADO_LEFTMOST_LONGEST, text, LEN, &from, out, 4096, &written) == DADO_OK) {}
    CHECK(dado_replace(ac, text, LEN, instead, count, &replaced) == DADO_OK);
    dado_text_free(&replaced);
    memcpy(masked, text, LEN);
    dado_mask(ac, masked, LEN, '*');
    dado_mask_words(ac, masked, LEN, '*');
    return nothing;
}

static void *pieces(void *nothing) {
    static dado_match out[64];
    static dado_bytes instead[COUNT];
    dado_stream *stream = NULL, *words = NULL, *all = NULL;
    dado_replacer *replacer = NULL;
    dado_masker *masker = NULL, *word_masker = NULL;
    dado_bytes slice;
    size_t taken, written;
    dado_stream_new(ac, &stream), dado_word_stream_new(ac, DADO_LEFTMOST_FIRST, &words), dado_all_words_stream_new(ac, &all);
    dado_replacer_new(ac, &replacer), dado_masker_new(ac, '*', &masker), dado_word_masker_new(ac, '*', &word_masker);
    dado_stream_push(&stream, text, LEN, &taken), dado_stream_push(&words, text, LEN, &taken);
    dado_stream_push(&all, text, LEN, &taken);
    dado_replacer_push(&replacer, text, LEN, &taken), dado_masker_push(&masker, text, LEN, &taken);
    while (dado_stream_some(&stream, out, 64, &written) == DADO_OK) {}
    while (dado_stream_some(&words, out, 64, &written) == DADO_OK) {}
    while (dado_stream_some(&all, out, 64, &written) == DADO_OK) {}
    while (dado_replacer_next(&replacer, instead, count, &slice) == DADO_OK) {}
    dado_masker_ready(&masker, &slice);
    dado_masker_push(&word_masker, text, LEN, &taken), dado_masker_finish(&word_masker), dado_masker_ready(&word_masker, &slice);
    dado_stream_free(&stream), dado_stream_free(&words), dado_stream_free(&all), dado_replacer_free(&replacer), dado_masker_free(&masker);
    dado_masker_free(&word_masker);
    return nothing;
}

static void *frees(void *nothing) {
    dado_free(&ac);
    return nothing;
}

/* How many bytes of stack a thread takes for some calls. */
static size_t taken_by(void *(*calls)(void *)) {
    uint8_t *stack = (uint8_t *)mmap(NULL, ROOM, PROT_READ | PROT_WRITE, MAP_PRIVATE | MAP_ANONYMOUS, -1, 0);
    pthread_attr_t attributes;
    pthread_t thread;
    size_t left = 0;
    memset(stack, UNTOUCHED, ROOM);
    pthread_attr_init(&attributes);
    CHECK(pthread_attr_setstack(&attributes, stack, ROOM) == 0);
    CHECK(pthread_create(&thread, &attributes, calls, NULL) == 0);
    CHECK(pthread_join(thread, NULL) == 0);
    pthread_attr_destroy(&attributes);
    while (left < ROOM && stack[left] == UNTOUCHED) left++;
    munmap(stack, ROOM);
    return ROOM - left;
}

/* Builds by each engine and kind, and searches with each. */
static void all_calls(const char *name, uint32_t last_engine, int shows) {
    for (settings.engine = DADO_AUTO; settings.engine <= last_engine; settings.engine++)
        for (settings.kind = DADO_STANDARD; settings.kind <= DADO_LEFTMOST_LONGEST; settings.kind++) {
            size_t build = taken_by(builds), search = taken_by(searches), piece = taken_by(pieces), free = taken_by(frees);
            CHECK(build <= SAID && search <= SAID && piece <= SAID && free <= SAID);
            if (shows)
                printf("%s, engine %u, kind %u: build %zu, searches %zu, pieces %zu, free %zu\n", name, (unsigned)settings.engine,
                       (unsigned)settings.kind, build, search, piece, free);
        }
}

int main(int words, char **given) {
    size_t i;
    (void)given;
    fill_text();
    settings = dado_settings_default();
    for (i = 0; i < sizeof letters; i++) letters[i] = (uint8_t)('a' + (i * 7919 / 13 + i / 8) % 26);
    for (i = 0; i < COUNT; i++) many[i] = dado_bytes_of(letters + 8 * i, 3 + i % 6);
    memset(pattern_of_a_million, 'a', LONG);
    patterns = APPEND, count = 5;
    all_calls("five words", DADO_DFA, words > 1);
    settings.fold = 1;
    all_calls("five words in either case", DADO_DFA, words > 1);
    settings.fold = 0, settings.start_kind = DADO_BOTH;
    all_calls("five words, also anchored", DADO_DFA, words > 1);
    settings.start_kind = DADO_UNANCHORED, patterns = many, count = 1000;
    all_calls("1,000 words", DADO_DFA, words > 1);
    count = COUNT;
    all_calls("200,000 words", DADO_CONTIGUOUS, words > 1);
    many[0] = dado_bytes_of(pattern_of_a_million, LONG), count = 1;
    all_calls("a pattern of a million bytes", DADO_CONTIGUOUS, words > 1);
    return done("stack");
}
