/* Lists the words of a text, and replaces them.
 *     cc example.c $(pkg-config --cflags --libs dadofennel) -o example && ./example */
#include <dadofennel.h>
#include <stdio.h>
#include <string.h>

int main(void) {
    static const dado_bytes words[] = {DADO_LITERAL("fox"), DADO_LITERAL("brown"), DADO_LITERAL("quick")};
    static const dado_bytes instead[] = {DADO_LITERAL("sloth"), DADO_LITERAL("grey"), DADO_LITERAL("slow")};
    const char *text = "The quick brown fox.";
    size_t len = strlen(text);
    dado_automaton *ac = NULL;
    dado_text replaced = DADO_NO_TEXT;
    dado_match found;
    dado_cursor cursor = dado_cursor_over(0, len);
    dado_status status = dado_build(words, 3, NULL, &ac, NULL);
    while (status == DADO_OK && (status = dado_next(ac, text, len, &cursor, &found)) == DADO_OK)
        printf("%u %zu %zu\n", (unsigned)found.pattern, found.start, found.end);
    if (status == DADO_NONE)
        status = dado_replace(ac, text, len, instead, 3, &replaced);
    if (status == DADO_OK)
        printf("%.*s\n", (int)replaced.len, (const char *)replaced.at);
    else
        fprintf(stderr, "%s\n", dado_error_text(status));
    dado_text_free(&replaced);
    dado_free(&ac);
    return status == DADO_OK ? 0 : 1;
}
