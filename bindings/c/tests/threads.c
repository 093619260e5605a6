/* Sixteen threads search with one automaton at the same time, each in its own way, and one more owner is freed while they do. A stream
 * goes from one thread to another. */
#include "check.h"
#include <pthread.h>

enum { THREADS = 16, LEN = 1 << 16, ROUNDS = 20 };

static dado_automaton *ac;
static uint8_t haystack[LEN];
static size_t matches, occurrences, replaced;

struct seen {
    pthread_t thread;
    int number;
    unsigned long bad;
};

static size_t walk(const dado_automaton *with, size_t room) {
    dado_match many[64];
    dado_cursor cursor = dado_cursor_over(0, LEN);
    size_t all = 0, count;
    while (dado_some(with, haystack, LEN, &cursor, many, room, &count) == DADO_OK) all += count;
    return all;
}

static size_t list(const dado_automaton *with, size_t room) {
    dado_match many[64];
    dado_place place = dado_place_over(0, LEN);
    size_t all = 0, count;
    while (dado_overlapping_some(with, haystack, LEN, &place, many, room, &count) == DADO_OK) all += count;
    return all;
}

/* The matches of what is pushed from a place on, in pieces of one size. */
static size_t push(dado_stream **stream, size_t from, size_t to, size_t size) {
    dado_match many[64];
    size_t all = 0, at, taken = 0, count;
    for (at = from; at < to; at += taken) {
        if (dado_stream_push(stream, haystack + at, to - at < size ? to - at : size, &taken) != DADO_OK) return 0;
        while (dado_stream_some(stream, many, 64, &count) == DADO_OK) all += count;
    }
    return all;
}

static size_t in_pieces(const dado_automaton *with, size_t size) {
    dado_stream *stream = NULL;
    size_t all = 0;
    if (dado_stream_new(with, &stream) == DADO_OK) all = push(&stream, 0, LEN, size);
    dado_stream_free(&stream);
    return all;
}

static size_t replace(const dado_automaton *with) {
    static const dado_bytes instead[] = {WORD("x"), WORD("y"), WORD("z")};
    dado_text text = DADO_NO_TEXT;
    size_t len = 0;
    if (dado_replace(with, haystack, LEN, instead, 3, &text) == DADO_OK) len = text.len;
    dado_text_free(&text);
    return len;
}

static void *run(void *of) {
    struct seen *seen = (struct seen *)of;
    dado_automaton *mine = NULL;
    int round;
    for (round = 0; round < ROUNDS; round++) {
        dado_match found;
        if (dado_share(ac, &mine) != DADO_OK) seen->bad++;
        switch ((seen->number + round) % 5) {
        case 0: seen->bad += walk(ac, 64) != matches; break;
        case 1: seen->bad += list(ac, 64) != occurrences; break;
        case 2: seen->bad += replace(ac) != replaced; break;
        case 3: seen->bad += in_pieces(ac, 5000) != matches; break;
        default: seen->bad += walk(mine, 33) != matches; break;
        }
        if (dado_find(ac, haystack, LEN, &found) != DADO_OK || found.start != 7) seen->bad++;
        dado_free(&mine);
    }
    return NULL;
}

/* A stream to which another thread pushes the middle part. */
struct passed {
    dado_stream *stream;
    size_t found;
};

static void *push_middle(void *of) {
    struct passed *passed = (struct passed *)of;
    passed->found += push(&passed->stream, LEN / 3, LEN / 2, 100);
    return NULL;
}

static void pass_on(void) {
    struct passed passed = {NULL, 0};
    pthread_t other;
    CHECK(dado_stream_new(ac, &passed.stream) == DADO_OK);
    passed.found = push(&passed.stream, 0, LEN / 3, 100);
    CHECK(pthread_create(&other, NULL, push_middle, &passed) == 0 && pthread_join(other, NULL) == 0);
    passed.found += push(&passed.stream, LEN / 2, LEN, 100);
    CHECK(passed.found == matches);
    dado_stream_free(&passed.stream);
}

/* The first calls of all, by all threads at the same moment, get the same code. */
static pthread_barrier_t begin;

static void *which(void *nothing) {
    (void)nothing;
    pthread_barrier_wait(&begin);
    return (void *)dado_cpu();
}

static void choose(void) {
    pthread_t threads[THREADS];
    void *code;
    size_t i;
    CHECK(pthread_barrier_init(&begin, NULL, THREADS) == 0);
    for (i = 0; i < THREADS; i++) CHECK(pthread_create(&threads[i], NULL, which, NULL) == 0);
    for (i = 0; i < THREADS; i++) CHECK(pthread_join(threads[i], &code) == 0 && code == (void *)dado_cpu());
    pthread_barrier_destroy(&begin);
}

int main(void) {
    static const dado_bytes words[] = {WORD("abc"), WORD("bcd"), WORD("c")};
    static struct seen all[THREADS];
    uint32_t engine;
    size_t i;
    choose();
    for (i = 0; i < LEN; i++) haystack[i] = (uint8_t)"abcdefgh"[(i * i / 7 + i) % 8];
    memcpy(haystack, "-------abc", 10);
    for (engine = DADO_NONCONTIGUOUS; engine <= DADO_DFA; engine++) {
        dado_settings s = dado_settings_default();
        s.engine = engine;
        CHECK(dado_build(words, 3, &s, &ac, NULL) == DADO_OK);
        matches = walk(ac, 64), occurrences = list(ac, 64), replaced = replace(ac);
        CHECK(matches > 1000 && occurrences >= matches && replaced < LEN);
        pass_on();
        for (i = 0; i < THREADS; i++) {
            all[i].number = (int)i, all[i].bad = 0;
            CHECK(pthread_create(&all[i].thread, NULL, run, &all[i]) == 0);
        }
        for (i = 0; i < THREADS; i++) {
            CHECK(pthread_join(all[i].thread, NULL) == 0);
            CHECK(all[i].bad == 0);
        }
    }
    dado_free(&ac);
    return done("threads");
}
