/* Calls that look at the memory of an automaton, or of a stream, before and after the library does. The library isn't built for
 * AddressSanitizer, and this is: so it sees one that is freed while a call has it. Each `__wrap_` stands in the place of the call
 * (`ld --wrap`), which `__real_` is. */
#include "dadofennel_raw.h"

static void look(const void *at) {
    volatile char seen = *(const volatile char *)at;
    (void)seen;
}

#define WRAPPED(result, name, given, at, passed) \
    result __real_##name given;                  \
    result __wrap_##name given {                 \
        result answer;                           \
        look(at);                                \
        answer = __real_##name passed;           \
        look(at);                                \
        return answer;                           \
    }

WRAPPED(dado_raw_found, dado_raw_find,
        (const dado_automaton *at, const uint8_t *haystack, size_t len, size_t start, size_t end, uint32_t anchored, uint32_t earliest),
        at, (at, haystack, len, start, end, anchored, earliest))
WRAPPED(dado_raw_some, dado_raw_walk,
        (const dado_automaton *at, const uint8_t *haystack, size_t len, size_t start, size_t end, size_t last, uint32_t anchored,
         uint32_t earliest, dado_match *out, size_t room),
        at, (at, haystack, len, start, end, last, anchored, earliest, out, room))
WRAPPED(dado_raw_listed, dado_raw_list,
        (const dado_automaton *at, const uint8_t *haystack, size_t len, size_t start, size_t end, size_t last_start, size_t last_end,
         uint32_t last_pattern, uint32_t begun, uint32_t words, dado_match *out, size_t room),
        at, (at, haystack, len, start, end, last_start, last_end, last_pattern, begun, words, out, room))
WRAPPED(dado_raw_given, dado_raw_words,
        (const dado_automaton *at, uint32_t kind, const uint8_t *haystack, size_t len, size_t from, dado_match *out, size_t room),
        at, (at, kind, haystack, len, from, out, room))
WRAPPED(dado_status, dado_raw_replace,
        (const dado_automaton *at, const uint8_t *haystack, size_t len, const dado_bytes *replacements, size_t count, void **owner),
        at, (at, haystack, len, replacements, count, owner))
WRAPPED(dado_status, dado_raw_mask, (const dado_automaton *at, uint8_t *text, size_t len, uint8_t byte), at, (at, text, len, byte))
WRAPPED(dado_status, dado_raw_mask_words, (const dado_automaton *at, uint8_t *text, size_t len, uint8_t byte), at, (at, text, len, byte))
WRAPPED(dado_status, dado_raw_word_stream_new, (const dado_automaton *at, uint32_t kind, dado_stream **stream), at, (at, kind, stream))
WRAPPED(dado_status, dado_raw_all_words_stream_new, (const dado_automaton *at, dado_stream **stream), at, (at, stream))
WRAPPED(dado_status, dado_raw_stream_new, (const dado_automaton *at, dado_stream **stream), at, (at, stream))
WRAPPED(dado_raw_about, dado_raw_tell, (const dado_automaton *at), at, (at))
WRAPPED(dado_raw_count, dado_raw_stream_push, (dado_stream **stream, const uint8_t *piece, size_t len), *stream, (stream, piece, len))
WRAPPED(dado_raw_count, dado_raw_stream_some, (dado_stream **stream, dado_match *out, size_t room), *stream, (stream, out, room))
WRAPPED(dado_raw_view, dado_raw_stream_view, (dado_stream **stream, const uint8_t **at), *stream, (stream, at))
WRAPPED(dado_status, dado_raw_replace_words,
        (const dado_automaton *at, uint32_t kind, const uint8_t *haystack, size_t len, const dado_bytes *replacements, size_t count,
         void **owner),
        at, (at, kind, haystack, len, replacements, count, owner))
WRAPPED(dado_status, dado_raw_masker_new, (const dado_automaton *at, uint8_t byte, dado_raw_masker **masker), at, (at, byte, masker))
WRAPPED(dado_raw_count, dado_raw_masker_push, (dado_raw_masker **masker, const uint8_t *piece, size_t len), *masker, (masker, piece, len))
WRAPPED(dado_raw_length, dado_raw_masker_ready, (dado_raw_masker **masker, const uint8_t **at), *masker, (masker, at))
