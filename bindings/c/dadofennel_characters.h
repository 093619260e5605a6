/*
 * Text whose characters aren't bytes: how a caller searches it, and gets the places of matches in characters.
 *
 * None of these functions is proved: they are plain C, and tested. They take no memory, and any number of threads may call them.
 */
#ifndef DADOFENNEL_CHARACTERS_H
#define DADOFENNEL_CHARACTERS_H

#include "dadofennel.h"

#ifdef __cplusplus
extern "C" {
#endif

/*
 * Writes a byte for each of the `len` characters of a text to `out`. The text has `width` bytes for each, 1, 2 or 4, as UTF-16 without
 * pairs and UTF-32 have. The byte of character c is `codes[c]`, or `other` where c is `count` or more.
 *
 * A text is searched so without UTF-8, and places are characters: the patterns are written with the same codes, each character that they
 * have has a code of its own, and all others share one that no pattern has. Where `codes[c]` is c up to 127, a text that is mostly ASCII
 * goes several times as fast.
 *
 * DADO_OK. DADO_BAD_ARGUMENT: `width` is none of these, or `text` or `out` is NULL where `len` isn't 0, or `codes` where `count` isn't:
 * nothing is written.
 */
dado_status dado_narrow(const void *text, uint32_t width, size_t len, const uint8_t *codes, size_t count, uint8_t other, void *out);

/* How many characters the first `bytes` bytes of a text have. Begin with {0, 0}. */
typedef struct dado_counted {
    size_t bytes, characters;
} dado_counted;

/*
 * Turns the places of `*count` matches in a text of UTF-8 from bytes to characters. The matches are those of a walk or a listing: none
 * ends before the one before it, nor before `counted->bytes`, which is set to where the last one ends. A match that ends within a
 * character is left out, and doesn't change `counted`; where the patterns are whole characters, only an empty match is. `*count` says
 * how many are left.
 *
 * DADO_OK. DADO_BAD_ARGUMENT: `counted` or `count`, or an array that isn't empty, is NULL: nothing is written. DADO_BAD_SPAN: a match ends
 * past the text, before its start, or before `counted->bytes`: those before it are done, and `*count` says how many of them are left.
 *
 * It reads each byte between one end and the next once, and each match.
 */
dado_status dado_in_characters(const void *text, size_t len, dado_counted *counted, dado_match *matches, size_t *count);

/* Adds `by` to the places of `count` matches, which may be NULL where that is 0: those of a part of a text become those of the whole. */
void dado_move(dado_match *matches, size_t count, size_t by);

#ifdef __cplusplus
}
#endif

#endif
