/* Searches a file for the lines of another with Hyperscan, and counts every occurrence, overlapping ones too.
 *
 * hyperscan WORDS FILE PASSES: it prints the number of occurrences, and on standard error the speed of the fastest pass.
 * FILE may be '-', for standard input. Build: cc -O2 -o hyperscan hyperscan.c -lhs
 */
#include <hs/hs.h>
#include <stdio.h>
#include <stdlib.h>
#include <string.h>
#include <time.h>

struct bytes {
    char *start;
    size_t length;
};

static void fail(const char *why) {
    fprintf(stderr, "hyperscan: %s\n", why);
    exit(1);
}

static struct bytes read_all(const char *path) {
    FILE *file = strcmp(path, "-") ? fopen(path, "rb") : stdin;
    struct bytes all = {NULL, 0};
    size_t room = 1 << 16;
    if (!file) fail("a file cannot be read");
    for (;;) {
        all.start = realloc(all.start, room);
        if (!all.start) fail("out of memory");
        size_t got = fread(all.start + all.length, 1, room - all.length, file);
        all.length += got;
        if (got == 0) return all;
        if (all.length == room) room *= 2;
    }
}

/* A database for the lines, each of which must end in a line feed. */
static hs_database_t *compile(struct bytes lines) {
    unsigned count = 0;
    for (size_t at = 0; at < lines.length; at++) count += lines.start[at] == '\n';
    const char **words = calloc(count, sizeof *words);
    size_t *lengths = calloc(count, sizeof *lengths);
    unsigned *flags = calloc(count, sizeof *flags), *ids = calloc(count, sizeof *ids);
    if (!words || !lengths || !flags || !ids) fail("out of memory");
    char *word = lines.start;
    for (unsigned id = 0; id < count; id++) {
        words[id] = word;
        lengths[id] = (size_t)((char *)memchr(word, '\n', lines.start + lines.length - word) - word);
        ids[id] = id;
        word += lengths[id] + 1;
    }
    hs_database_t *database;
    hs_compile_error_t *error;
    if (hs_compile_lit_multi(words, flags, ids, lengths, count, HS_MODE_BLOCK, NULL, &database, &error))
        fail(error->message);
    return database;
}

static int count_one(unsigned id, unsigned long long from, unsigned long long to, unsigned flags, void *count) {
    (void)id, (void)from, (void)to, (void)flags;
    ++*(unsigned long *)count;
    return 0;
}

static double now(void) {
    struct timespec clock;
    clock_gettime(CLOCK_MONOTONIC, &clock);
    return (double)clock.tv_sec + 1e-9 * (double)clock.tv_nsec;
}

int main(int argc, char **argv) {
    if (argc != 4) fail("usage: hyperscan WORDS FILE PASSES");
    hs_database_t *database = compile(read_all(argv[1]));
    struct bytes text = read_all(argv[2]);
    hs_scratch_t *scratch = NULL;
    if (hs_alloc_scratch(database, &scratch)) fail("out of memory");
    double fastest = 1e9;
    unsigned long count = 0;
    for (int pass = atoi(argv[3]); pass > 0; pass--) {
        double start = now();
        count = 0;
        if (hs_scan(database, text.start, (unsigned)text.length, 0, scratch, count_one, &count)) fail("the scan stopped");
        double took = now() - start;
        if (took < fastest) fastest = took;
    }
    fprintf(stderr, "%.0f MB/s\n", (double)text.length / fastest / 1e6);
    printf("%lu matches\n", count);
    return 0;
}
