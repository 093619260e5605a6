/* Text whose characters aren't bytes: the byte of each character, and the places of matches in characters, beside a plain loop. */
#include "check.h"
#include <dadofennel_characters.h>

enum { MOST = 5000 };

static uint32_t state = 7;

static uint32_t number(uint32_t below) {
    state = state * 1664525 + 1013904223;
    return (uint32_t)(((uint64_t)state * below) >> 32);
}

static uint8_t codes[0x3000], out[MOST + 2], text[4 * MOST];

/* Texts of each width and many lengths, at any place in memory, with characters beyond ASCII from never to always. */
static void narrows(int plain) {
    static uint8_t memory[4 * (MOST + 1)];
    size_t len, i, wrong = 0, past = 0;
    uint32_t width, often;
    for (i = 0; i < sizeof codes; i++) codes[i] = plain && i < 128 ? (uint8_t)i : (uint8_t)number(256);
    for (width = 1; width <= 4; width *= 2)
        for (often = 0; often <= 100; often += 10)
            for (len = 0; len < MOST; len += 1 + len / 3) {
                uint8_t *from = memory + width * number(2);
                for (i = 0; i < len; i++) {
                    uint32_t at = number(100) < often ? number(width == 1 ? 256 : width == 2 ? 65536 : 0x110000) : number(128);
                    if (width == 1) from[i] = (uint8_t)at;
                    else if (width == 2) ((uint16_t *)(void *)from)[i] = (uint16_t)at;
                    else ((uint32_t *)(void *)from)[i] = at;
                }
                out[len] = '#';
                CHECK(dado_narrow(from, width, len, codes, sizeof codes, 9, out) == DADO_OK);
                for (i = 0; i < len; i++) {
                    uint32_t at = width == 1 ? from[i] : width == 2 ? ((uint16_t *)(void *)from)[i] : ((uint32_t *)(void *)from)[i];
                    wrong += out[i] != (at < sizeof codes ? codes[at] : 9);
                }
                past += out[len] != '#';
            }
    CHECK(wrong == 0 && past == 0);
}

static size_t add(size_t len, uint32_t character) {
    if (character < 0x80) text[len++] = (uint8_t)character;
    else if (character < 0x800) text[len++] = (uint8_t)(0xC0 | character >> 6), text[len++] = (uint8_t)(0x80 | (character & 0x3F));
    else {
        text[len++] = (uint8_t)(0xE0 | character >> 12), text[len++] = (uint8_t)(0x80 | (character >> 6 & 0x3F));
        text[len++] = (uint8_t)(0x80 | (character & 0x3F));
    }
    return len;
}

/* Places at random, of which some are within a character, in batches. */
static void in_characters(void) {
    static size_t character_at[4 * MOST + 1];
    static dado_match matches[64], expected[64];
    dado_counted counted = {0, 0};
    size_t len = 0, i, end = 0, wrong = 0, left_out = 0;
    for (i = 0; i < MOST; i++) {
        size_t next = add(len, number(3) == 0 ? 0xE9 : number(3) == 0 ? 0x2261 : 'a');
        for (; len < next; len++) character_at[len] = i;
    }
    character_at[len] = MOST;
    while (end < len) {
        size_t count = 1 + number(64), given = count, kept = 0;
        for (i = 0; i < count; i++) {
            dado_match it;
            end += number(20);
            if (end > len) end = len;
            it.pattern = (uint32_t)i, it.end = end, it.start = end < 9 ? end : end - number(9);
            while (it.start > 0 && (text[it.start] & 0xC0) == 0x80) it.start--;
            matches[i] = it;
            if (end < len && (text[end] & 0xC0) == 0x80) { left_out++; continue; }
            it.start = character_at[it.start], it.end = character_at[it.end];
            expected[kept++] = it;
        }
        CHECK(dado_in_characters(text, len, &counted, matches, &given) == DADO_OK && given == kept);
        for (i = 0; i < kept; i++) wrong += !is(&matches[i], expected[i].pattern, expected[i].start, expected[i].end);
    }
    CHECK(wrong == 0 && left_out > 100 && counted.bytes == len && counted.characters == MOST);
}

static void statuses(void) {
    dado_counted counted = {0, 0};
    dado_match matches[3] = {{0, 1, 0}, {1, 3, 1}, {1, 2, 2}};
    size_t count = 3;
    const uint8_t *e = (const uint8_t *)"a\xC3\xA9";
    CHECK(dado_narrow("ab", 3, 2, codes, 256, 9, out) == DADO_BAD_ARGUMENT && dado_narrow(NULL, 1, 1, codes, 256, 9, out) == DADO_BAD_ARGUMENT);
    CHECK(dado_narrow("ab", 1, 2, NULL, 256, 9, out) == DADO_BAD_ARGUMENT && dado_narrow("ab", 1, 2, codes, 256, 9, NULL) == DADO_BAD_ARGUMENT);
    CHECK(dado_narrow(NULL, 1, 0, NULL, 0, 9, NULL) == DADO_OK && dado_narrow("ab", 1, 2, NULL, 0, 9, out) == DADO_OK && out[0] == 9);
    CHECK(dado_in_characters(e, 3, NULL, matches, &count) == DADO_BAD_ARGUMENT && dado_in_characters(e, 3, &counted, NULL, &count) == DADO_BAD_ARGUMENT);
    CHECK(dado_in_characters(e, 3, &counted, matches, NULL) == DADO_BAD_ARGUMENT && dado_in_characters(NULL, 3, &counted, matches, &count) == DADO_BAD_ARGUMENT);
    CHECK(count == 3 && counted.bytes == 0);
    CHECK(dado_in_characters(e, 3, &counted, matches, &count) == DADO_BAD_SPAN && count == 2 && counted.bytes == 3 && counted.characters == 2);
    CHECK(is(&matches[0], 0, 0, 1) && is(&matches[1], 1, 1, 2));
    count = 1, matches[0].start = 4, matches[0].end = 3;
    CHECK(dado_in_characters(e, 3, &counted, matches, &count) == DADO_BAD_SPAN && count == 0);
    count = 0;
    CHECK(dado_in_characters(NULL, 0, &counted, NULL, &count) == DADO_OK);
    dado_move(matches, 2, 10);
    CHECK(is(&matches[0], 0, 14, 13) && is(&matches[1], 1, 11, 12) && is(&matches[2], 2, 1, 2));
    dado_move(NULL, 0, 10);
}

int main(void) {
    narrows(0);
    narrows(1);
    in_characters();
    statuses();
    return done("characters");
}
