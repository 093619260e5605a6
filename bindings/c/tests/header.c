/* What the header adds to the calls: texts of any type, settings that grow, the version, and which code serves. */
#include "check.h"

/* The settings of a later version, which has two more. */
typedef struct later_settings {
    dado_settings known;
    uint64_t more, most;
} later_settings;

/* Texts are given without a cast, as literals, arrays of char or bytes, and written to any of them. */
static void texts(void) {
    static const dado_bytes words[] = {DADO_LITERAL("fox"), DADO_LITERAL("brown")};
    const dado_bytes same[] = {dado_bytes_of("fox", 3), dado_bytes_of("brown", 5)};
    char masked[] = "a brown fox", made[16] = "";
    dado_automaton *ac = NULL;
    dado_cursor cursor = dado_cursor_over(0, 11);
    dado_match found;
    size_t needed = 0, i;
    for (i = 0; i < 2; i++)
        CHECK(words[i].len == same[i].len && memcmp(words[i].at, same[i].at, words[i].len) == 0);
    CHECK(dado_build(words, 2, NULL, &ac, NULL) == DADO_OK);
    CHECK(dado_find(ac, "a brown fox", 11, &found) == DADO_OK && is(&found, 1, 2, 7));
    CHECK(dado_next(ac, masked, 11, &cursor, &found) == DADO_OK && is(&found, 1, 2, 7));
    CHECK(dado_is_match(ac, (const uint8_t *)masked, 11) == DADO_OK);
    CHECK(dado_replace_into(ac, masked, 11, words, 2, made, sizeof made, &needed) == DADO_OK && strcmp(made, masked) == 0);
    CHECK(dado_mask(ac, masked, 11, '*') == DADO_OK && strcmp(masked, "a ***** ***") == 0);
    dado_free(&ac);
}

/* Settings of each size get what the library knows of them, or a status. */
static void sizes(void) {
    static const dado_bytes words[] = {DADO_LITERAL("fox"), DADO_LITERAL("foxglove")};
    const dado_settings plain = dado_settings_default();
    later_settings later;
    dado_automaton *ac = NULL;
    dado_match found;
    memset(&later, 7, sizeof later);
    CHECK(dado_settings_fill(NULL, sizeof plain) == DADO_BAD_ARGUMENT);
    CHECK(dado_settings_fill(&later.known, sizeof plain - 1) == DADO_BAD_ARGUMENT && later.known.kind == 0x07070707);
    CHECK(dado_settings_fill(&later.known, sizeof plain) == DADO_OK && later.more != 0);
    CHECK(dado_settings_fill(&later.known, sizeof later) == DADO_OK && later.more == 0 && later.most == 0);
    CHECK(later.known.kind == plain.kind && later.known.dense_depth == plain.dense_depth && later.known.row_memory == plain.row_memory);
    CHECK(later.known.pairs == NULL && later.known.pair_count == 0 && later.known.prefilter != 0 && later.known.byte_classes != 0);
    later.known.kind = DADO_LEFTMOST_LONGEST;
    CHECK(dado_build_sized(words, 2, &later.known, sizeof later, &ac, NULL) == DADO_OK);
    CHECK(dado_find(ac, "a foxglove", 10, &found) == DADO_OK && is(&found, 1, 2, 10));
    later.most = (uint64_t)1 << 63;
    CHECK(dado_build_sized(words, 2, &later.known, sizeof later, &ac, NULL) == DADO_BAD_ARGUMENT && ac != NULL);
    CHECK(dado_build_sized(words, 2, &later.known, sizeof plain - 1, &ac, NULL) == DADO_BAD_ARGUMENT);
    CHECK(dado_build_sized(words, 2, &later.known, sizeof plain, &ac, NULL) == DADO_OK);
    CHECK(dado_build_sized(words, 2, NULL, 0, &ac, NULL) == DADO_OK && dado_kind(ac) == DADO_STANDARD);
    dado_free(&ac);
}

static void version(void) {
    char text[32];
    const char *after;
    snprintf(text, sizeof text, "%d.%d.%d", DADO_VERSION_MAJOR, DADO_VERSION_MINOR, DADO_VERSION_PATCH);
    /* between releases the next number, and -dev */
    CHECK(strcmp(dado_version(), DADO_VERSION) == 0);
    CHECK(strncmp(dado_version(), text, strlen(text)) == 0);
    after = dado_version() + strlen(text);
    CHECK(strcmp(after, "") == 0 || strcmp(after, "-dev") == 0);
}

/* With an argument, that is the code which must serve. */
int main(int count, char **words) {
    texts();
    sizes();
    version();
    CHECK(dado_cpu() != NULL && dado_cpu() == dado_cpu());
    if (count > 1) CHECK(strcmp(dado_cpu(), words[1]) == 0);
    return done(dado_cpu());
}
