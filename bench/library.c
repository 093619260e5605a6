/* The library for C, searching a text in memory or the pieces of a text.
 *
 * library in-memory WORDS FILE PASSES ENGINE KIND does what the crate bench_in_memory does: it counts all matches of the lines of WORDS
 * in FILE, and prints the speed of its fastest pass on standard error. ENGINE is auto or dfa.
 * library short-texts WORDS FILE LENGTH KIND searches the pieces of LENGTH bytes of FILE, each by calls of its own. It prints how many
 * there are, and a sum for each of three calls, whose instructions callgrind counts.
 * library cpu prints for which processors the code that serves is.
 *
 * Build: cc -O2 -I PREFIX/include library.c PREFIX/lib/libdadofennel.a -o library
 */
#define _POSIX_C_SOURCE 199309L
#include <dadofennel.h>
#include <stdio.h>
#include <stdlib.h>
#include <string.h>
#include <time.h>

struct list {
    dado_bytes *items;
    size_t count;
};

static void fail(const char *why) {
    fprintf(stderr, "library: %s\n", why);
    exit(1);
}

static void check(dado_status status) {
    if (status != DADO_OK) fail(dado_error_text(status));
}

static dado_bytes read_file(const char *path) {
    FILE *file = fopen(path, "rb");
    if (!file || fseek(file, 0, SEEK_END)) fail("a file cannot be read");
    size_t length = (size_t)ftell(file);
    char *start = malloc(length + 1);
    rewind(file);
    if (!start || fread(start, 1, length, file) != length) fail("a file cannot be read");
    fclose(file);
    return dado_bytes_of(start, length);
}

/* The pieces of a length, without what is left at the end. */
static struct list pieces_of(dado_bytes text, size_t length) {
    struct list pieces = {calloc(text.len / length + 1, sizeof *pieces.items), 0};
    if (!pieces.items) fail("out of memory");
    for (size_t at = 0; text.len - at >= length; at += length) pieces.items[pieces.count++] = dado_bytes_of(text.at + at, length);
    return pieces;
}

/* The lines of a file, each of which must end in a line feed. */
static struct list lines_of(const char *path) {
    dado_bytes text = read_file(path);
    struct list lines = {calloc(text.len + 1, sizeof *lines.items), 0};
    if (!lines.items) fail("out of memory");
    for (size_t at = 0; at < text.len; at += lines.items[lines.count++].len + 1) {
        const uint8_t *line = text.at + at, *feed = memchr(line, '\n', text.len - at);
        if (!feed) fail("a last line without a line feed");
        lines.items[lines.count] = dado_bytes_of(line, (size_t)(feed - line));
    }
    return lines;
}

static dado_automaton *build(struct list words, const char *engine, const char *kind) {
    dado_settings settings = dado_settings_default();
    dado_automaton *ac = NULL;
    settings.engine = strcmp(engine, "dfa") ? DADO_AUTO : DADO_DFA;
    settings.kind = !strcmp(kind, "standard")         ? DADO_STANDARD
                    : !strcmp(kind, "leftmost-first") ? DADO_LEFTMOST_FIRST
                                                      : DADO_LEFTMOST_LONGEST;
    check(dado_build(words.items, words.count, &settings, &ac, NULL));
    return ac;
}

static double now(void) {
    struct timespec clock;
    clock_gettime(CLOCK_MONOTONIC, &clock);
    return (double)clock.tv_sec + 1e-9 * (double)clock.tv_nsec;
}

static size_t count_all(const dado_automaton *ac, dado_bytes text) {
    static dado_match found[1024];
    dado_cursor cursor = dado_cursor_over(0, text.len);
    size_t all = 0, count;
    do {
        dado_status status = dado_some(ac, text.at, text.len, &cursor, found, 1024, &count);
        if (status == DADO_NONE) break;
        check(status);
        all += count;
    } while (count == 1024);
    return all;
}

static void time_passes(char **words) {
    struct list patterns = lines_of(words[0]);
    dado_bytes text = read_file(words[1]);
    dado_automaton *ac = build(patterns, words[3], words[4]);
    double fastest = 1e9;
    size_t count = 0;
    for (int pass = atoi(words[2]); pass > 0; pass--) {
        double start = now();
        count = count_all(ac, text);
        double took = now() - start;
        if (took < fastest) fastest = took;
    }
    fprintf(stderr, "%.0f MB/s\n", (double)text.len / fastest / 1e6);
    printf("%zu matches\n", count);
    dado_free(&ac);
}

#ifdef __GNUC__
#define APART __attribute__((noinline))
#else
#define APART
#endif

/* Functions of their own, so that callgrind has a count for each. */

/* How many pieces have a match. */
APART static size_t all_is_match(const dado_automaton *ac, struct list pieces) {
    size_t sum = 0;
    for (size_t n = 0; n < pieces.count; n++) sum += dado_is_match(ac, pieces.items[n].at, pieces.items[n].len) == DADO_OK;
    return sum;
}

/* The sum of the places where matches end, each in its piece. */
APART static size_t all_find_iter(const dado_automaton *ac, struct list pieces) {
    size_t sum = 0;
    for (size_t n = 0; n < pieces.count; n++) {
        dado_cursor cursor = dado_cursor_over(0, pieces.items[n].len);
        dado_match found;
        while (dado_next(ac, pieces.items[n].at, pieces.items[n].len, &cursor, &found) == DADO_OK) sum += found.end;
    }
    return sum;
}

/* How long the texts are in which each match is replaced. */
APART static size_t all_replace(const dado_automaton *ac, struct list pieces, struct list replacements) {
    size_t sum = 0;
    for (size_t n = 0; n < pieces.count; n++) {
        dado_text text = DADO_NO_TEXT;
        check(dado_replace(ac, pieces.items[n].at, pieces.items[n].len, replacements.items, replacements.count, &text));
        sum += text.len;
        dado_text_free(&text);
    }
    return sum;
}

static void search_pieces(char **words) {
    struct list patterns = lines_of(words[0]), pieces = pieces_of(read_file(words[1]), (size_t)atol(words[2]));
    struct list replacements = {malloc((patterns.count + 1) * sizeof *replacements.items), patterns.count};
    if (!replacements.items) fail("out of memory");
    for (size_t n = 0; n < patterns.count; n++) replacements.items[n] = dado_bytes_of("XX", 2);
    dado_automaton *ac = build(patterns, "auto", words[3]);
    size_t matching = all_is_match(ac, pieces), ends = all_find_iter(ac, pieces), lengths = all_replace(ac, pieces, replacements);
    printf("%zu %zu %zu %zu\n", pieces.count, matching, ends, lengths);
    dado_free(&ac);
}

int main(int argc, char **argv) {
    if (argc == 7 && !strcmp(argv[1], "in-memory")) {
        time_passes(argv + 2);
    } else if (argc == 6 && !strcmp(argv[1], "short-texts")) {
        search_pieces(argv + 2);
    } else if (argc == 2 && !strcmp(argv[1], "cpu")) {
        puts(dado_cpu());
    } else {
        fail("usage: library in-memory WORDS FILE PASSES ENGINE KIND | short-texts WORDS FILE LENGTH KIND | cpu");
    }
    return 0;
}
