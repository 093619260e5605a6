/* Replaces words in what comes on standard input, however long it is, and writes what is decided before it reads on.
 *     cc pieces.c $(pkg-config --cflags --libs dadofennel) -o pieces && ./pieces < text */
#include <dadofennel.h>
#include <stdio.h>

static const dado_bytes WORDS[] = {DADO_LITERAL("fox"), DADO_LITERAL("foxglove"), DADO_LITERAL("quick")};
static const dado_bytes INSTEAD[] = {DADO_LITERAL("sloth"), DADO_LITERAL("rose"), DADO_LITERAL("slow")};

/* Writes what is decided. */
static dado_status write_decided(dado_replacer **replacer) {
    dado_bytes slice;
    dado_status status;
    while ((status = dado_replacer_next(replacer, INSTEAD, 3, &slice)) == DADO_OK)
        fwrite(slice.at, 1, slice.len, stdout);
    return status == DADO_NONE ? (dado_status)DADO_OK : status;
}

int main(void) {
    static char piece[4096];
    dado_settings settings = dado_settings_default();
    dado_automaton *ac = NULL;
    dado_replacer *replacer = NULL;
    dado_status status;
    size_t len, at, taken;
    settings.kind = DADO_LEFTMOST_LONGEST;
    status = dado_build(WORDS, 3, &settings, &ac, NULL);
    if (status == DADO_OK) status = dado_replacer_new(ac, &replacer);
    while (status == DADO_OK && (len = fread(piece, 1, sizeof piece, stdin)) > 0)
        for (at = 0; at < len && status == DADO_OK; at += taken) {
            status = dado_replacer_push(&replacer, piece + at, len - at, &taken);
            if (status == DADO_OK) status = write_decided(&replacer);
        }
    if (status == DADO_OK) status = dado_replacer_finish(&replacer);
    if (status == DADO_OK) status = write_decided(&replacer);
    if (status != DADO_OK) fprintf(stderr, "%s\n", dado_error_text(status));
    dado_replacer_free(&replacer);
    dado_free(&ac);
    return status == DADO_OK && fflush(stdout) == 0 ? 0 : 1;
}
