/* Reads cases, and lists their matches as the program does: for each a line `MODE KIND FOLD ENGINE ROOM HAYSTACK COUNT`, and a line for
 * each pattern; haystack and patterns in hex, with a `-` before it. After each list comes a line with a full stop. The mode is 0 for a
 * walk, 1 for a listing, and 2 for a stream, whose pieces have ROOM bytes. */
#include "check.h"

static char word[1 << 16];

static dado_bytes read_hex(void) {
    dado_bytes bytes = {NULL, 0};
    uint8_t *at;
    size_t i;
    if (scanf("%65535s", word) != 1) exit(2);
    bytes.len = strlen(word + 1) / 2;
    at = (uint8_t *)malloc(bytes.len + 1);
    if (at == NULL) exit(2);
    for (i = 0; i < bytes.len; i++) {
        char digits[3] = {word[1 + 2 * i], word[2 + 2 * i], 0};
        at[i] = (uint8_t)strtoul(digits, NULL, 16);
    }
    bytes.at = at;
    return bytes;
}

static void show(const dado_match *many, size_t count) {
    size_t i;
    for (i = 0; i < count; i++) printf("%u %zu %zu\n", (unsigned)many[i].pattern, many[i].start, many[i].end);
}

static dado_status list(const dado_automaton *ac, dado_bytes haystack, size_t room, int overlapping) {
    static dado_match many[256];
    dado_cursor cursor = dado_cursor_over(0, haystack.len);
    dado_place place = dado_place_over(0, haystack.len);
    dado_status status;
    size_t count;
    do {
        if (overlapping)
            status = dado_overlapping_some(ac, haystack.at, haystack.len, &place, many, room, &count);
        else if (room == 0 && (status = dado_next(ac, haystack.at, haystack.len, &cursor, many)) == DADO_OK)
            count = 1;
        else if (room != 0)
            status = dado_some(ac, haystack.at, haystack.len, &cursor, many, room, &count);
        else
            count = 0;
        show(many, count);
    } while (status == DADO_OK);
    return status;
}

static dado_status stream(const dado_automaton *ac, dado_bytes haystack, size_t size) {
    static dado_match many[3];
    dado_stream *stream = NULL;
    dado_status status = dado_stream_new(ac, &stream);
    size_t at, taken = 0, count;
    for (at = 0; at < haystack.len && status <= DADO_NONE; at += taken) {
        status = dado_stream_push(&stream, haystack.at + at, haystack.len - at < size ? haystack.len - at : size, &taken);
        while (status == DADO_OK && (status = dado_stream_some(&stream, many, 3, &count)) == DADO_OK) show(many, count);
    }
    if (status <= DADO_NONE) status = dado_stream_finish(&stream);
    while (status == DADO_OK && (status = dado_stream_some(&stream, many, 3, &count)) == DADO_OK) show(many, count);
    dado_stream_free(&stream);
    return status;
}

int main(void) {
    static dado_bytes patterns[64];
    unsigned mode, kind, fold, engine, room, count, i;
    dado_automaton *ac = NULL;
    while (scanf("%u %u %u %u %u", &mode, &kind, &fold, &engine, &room) == 5) {
        dado_settings s = dado_settings_default();
        dado_bytes haystack = read_hex();
        if (scanf("%u", &count) != 1 || count > 64 || room > 256 || (mode != 0 && room == 0)) return 2;
        for (i = 0; i < count; i++) patterns[i] = read_hex();
        s.kind = kind, s.fold = fold, s.engine = engine;
        CHECK(dado_build(patterns, count, &s, &ac, NULL) == DADO_OK);
        CHECK((mode == 2 ? stream(ac, haystack, room) : list(ac, haystack, room, mode == 1)) == DADO_NONE);
        puts(".");
        for (i = 0; i < count; i++) free((void *)patterns[i].at);
        free((void *)haystack.at);
    }
    dado_free(&ac);
    fflush(stdout);
    return failures == 0 ? 0 : 1;
}
