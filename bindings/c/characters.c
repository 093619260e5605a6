/* Text whose characters aren't bytes. */
#include "dadofennel_characters.h"

/* So many units or bytes are taken at once. */
enum { BLOCK = 16, ASCII = 128 };

/* Narrows a block in which each unit of ASCII is its own code, and returns which ones are not ASCII, a bit each. These aren't done. */
#ifdef __SSE2__
#include <emmintrin.h>

static unsigned ascii_1(const uint8_t *from, uint8_t *to) {
    const __m128i all = _mm_loadu_si128((const __m128i *)from);
    _mm_storeu_si128((__m128i *)to, all);
    return (unsigned)_mm_movemask_epi8(all);
}

static unsigned ascii_2(const uint16_t *from, uint8_t *to) {
    const __m128i low = _mm_loadu_si128((const __m128i *)from), high = _mm_loadu_si128((const __m128i *)from + 1);
    const __m128i zero = _mm_setzero_si128();
    const __m128i plain = _mm_packs_epi16(_mm_cmpeq_epi16(_mm_srli_epi16(low, 7), zero), _mm_cmpeq_epi16(_mm_srli_epi16(high, 7), zero));
    _mm_storeu_si128((__m128i *)to, _mm_packus_epi16(low, high));
    return (unsigned)_mm_movemask_epi8(plain) ^ 0xFFFF;
}

static __m128i plain_4(__m128i units) { return _mm_cmpeq_epi32(_mm_srli_epi32(units, 7), _mm_setzero_si128()); }

static unsigned ascii_4(const uint32_t *from, uint8_t *to) {
    const __m128i *at = (const __m128i *)from;
    const __m128i a = _mm_loadu_si128(at), b = _mm_loadu_si128(at + 1), c = _mm_loadu_si128(at + 2), d = _mm_loadu_si128(at + 3);
    const __m128i plain = _mm_packs_epi16(_mm_packs_epi32(plain_4(a), plain_4(b)), _mm_packs_epi32(plain_4(c), plain_4(d)));
    _mm_storeu_si128((__m128i *)to, _mm_packus_epi16(_mm_packs_epi32(a, b), _mm_packs_epi32(c, d)));
    return (unsigned)_mm_movemask_epi8(plain) ^ 0xFFFF;
}
#else
#define ASCII_BLOCK(name, unit)                                                                                                         \
    static unsigned name(const unit *from, uint8_t *to) {                                                                               \
        unsigned left = 0, i;                                                                                                           \
        for (i = 0; i < BLOCK; i++) to[i] = (uint8_t)from[i], left |= (unsigned)(from[i] >= ASCII) << i;                                \
        return left;                                                                                                                    \
    }
ASCII_BLOCK(ascii_1, uint8_t)
ASCII_BLOCK(ascii_2, uint16_t)
ASCII_BLOCK(ascii_4, uint32_t)
#endif

/* The lowest bit that is set. */
static unsigned lowest(unsigned bits) {
#ifdef __GNUC__
    return (unsigned)__builtin_ctz(bits);
#else
    unsigned at = 0;
    while (!(bits >> at & 1)) at++;
    return at;
#endif
}

/* The three are the same over units of three widths. */
#define NARROW(name, unit, ascii)                                                                                                       \
    static void name(const unit *text, size_t len, const uint8_t *codes, size_t count, uint8_t other, int plain, uint8_t *out) {        \
        size_t at = 0;                                                                                                                  \
        for (; plain && len - at >= BLOCK; at += BLOCK) {                                                                               \
            unsigned left = ascii(text + at, out + at);                                                                                 \
            for (; left != 0; left &= left - 1) {                                                                                       \
                size_t i = at + lowest(left);                                                                                           \
                out[i] = text[i] < count ? codes[text[i]] : other;                                                                      \
            }                                                                                                                           \
        }                                                                                                                               \
        for (; at < len; at++) out[at] = text[at] < count ? codes[text[at]] : other;                                                    \
    }

NARROW(narrow_1, uint8_t, ascii_1)
NARROW(narrow_2, uint16_t, ascii_2)
NARROW(narrow_4, uint32_t, ascii_4)

/* Whether each character of ASCII is its own code. */
static int is_plain(const uint8_t *codes, size_t count) {
    size_t i;
    if (count < ASCII) return 0;
    for (i = 0; i < ASCII; i++)
        if (codes[i] != i) return 0;
    return 1;
}

dado_status dado_narrow(const void *text, uint32_t width, size_t len, const uint8_t *codes, size_t count, uint8_t other, void *out) {
    uint8_t *to = (uint8_t *)out;
    int plain;
    if ((len != 0 && (text == NULL || out == NULL)) || (codes == NULL && count != 0)) return DADO_BAD_ARGUMENT;
    plain = is_plain(codes, count);
    switch (width) {
    case 1: narrow_1((const uint8_t *)text, len, codes, count, other, plain, to); return DADO_OK;
    case 2: narrow_2((const uint16_t *)text, len, codes, count, other, plain, to); return DADO_OK;
    case 4: narrow_4((const uint32_t *)text, len, codes, count, other, plain, to); return DADO_OK;
    default: return DADO_BAD_ARGUMENT;
    }
}

static int begins_none(uint8_t byte) { return (byte & 0xC0) == 0x80; }

/* How many characters begin among so many bytes. */
static size_t characters(const uint8_t *at, size_t len) {
    size_t begin = len;
    for (; len >= BLOCK; at += BLOCK, len -= BLOCK) {
        unsigned i;
        uint8_t inner = 0;
        for (i = 0; i < BLOCK; i++) inner = (uint8_t)(inner + begins_none(at[i]));
        begin -= inner;
    }
    for (; len > 0; at++, len--) begin -= (size_t)begins_none(*at);
    return begin;
}

dado_status dado_in_characters(const void *text, size_t len, dado_counted *counted, dado_match *matches, size_t *count) {
    const uint8_t *bytes = (const uint8_t *)text;
    size_t given, kept = 0, i;
    if (counted == NULL || count == NULL || (matches == NULL && *count != 0) || (text == NULL && len != 0)) return DADO_BAD_ARGUMENT;
    given = *count;
    *count = 0;
    for (i = 0; i < given; i++) {
        dado_match it = matches[i];
        if (it.end > len || it.start > it.end || it.end < counted->bytes) return DADO_BAD_SPAN;
        if (it.end < len && begins_none(bytes[it.end])) continue;
        counted->characters += characters(bytes + counted->bytes, it.end - counted->bytes);
        counted->bytes = it.end;
        it.start = counted->characters - characters(bytes + it.start, it.end - it.start);
        it.end = counted->characters;
        matches[kept++] = it;
        *count = kept;
    }
    return DADO_OK;
}

void dado_move(dado_match *matches, size_t count, size_t by) {
    size_t i;
    for (i = 0; i < count; i++) matches[i].start += by, matches[i].end += by;
}
