/* What `help` says of the methods of an automaton that are written in C. */
#ifndef DADOFENNEL_DOCS_H
#define DADOFENNEL_DOCS_H

#define IS_MATCH_DOC                                                                                                                    \
    "is_match($self, text, start=None, end=None, *, anchored=False)\n--\n\n"                                                            \
    "Whether some pattern occurs in `text[start:end]`; it reads no further than the end of the occurrence that ends first."

#define FIND_DOC                                                                                                                        \
    "find($self, text, start=None, end=None, *, anchored=False, earliest=False)\n--\n\n"                                                \
    "The match of `text[start:end]`, or `None`. Places are counted from the beginning of `text`.\n\n"                                   \
    "With `anchored` the match starts at `start`, or there is none. With `earliest` it is that of the standard kind, whatever the\n"    \
    "automaton's. Raises `Error` where the automaton wasn't built for such a search."

#define FINDITER_DOC                                                                                                                    \
    "finditer($self, text, start=None, end=None, *, anchored=False)\n--\n\n"                                                            \
    "The matches of `text[start:end]` one after another; no two of them overlap.\n\n"                                                   \
    "In a text of more than 4096 bytes the first is found without reading on. Further ones are found in batches of up to 4096, each\n"  \
    "four times as large as the one before. In a shorter text the first ones are found when it is called. Raises `Error`, when it is\n" \
    "called, where the automaton wasn't built for such a search."

#define OVERLAPPING_DOC                                                                                                                 \
    "overlapping($self, text, start=None, end=None)\n--\n\n"                                                                            \
    "All occurrences in `text[start:end]`, overlapping ones too, in the order of end, start and number.\n\n"                            \
    "They are found in batches as those of `finditer`. Raises `Error`, when it is called, for an automaton of a leftmost kind,\n"       \
    "and for one that was built for anchored searches alone."

#define FIND_WORDS_DOC                                                                                                                  \
    "find_words($self, text, kind='standard')\n--\n\n"                                                                                  \
    "The whole words of the text one after another: the matches under `kind` of the occurrences that no word character stands\n"        \
    "beside. No two of them overlap.\n\n"                                                                                               \
    "A word character is an ASCII letter, a digit, `_`, or any character beyond ASCII; of bytes, one from 0x80 on. With `new` and\n"    \
    "`new york` the text `new yorker` has the word `new`, under each kind. They are found in batches as those of `finditer`.\n\n"       \
    "The automaton has to be of the standard kind itself, whichever `kind` is asked for. Raises `Error`, when it is called, for\n"      \
    "one of a leftmost kind, for one that was built for anchored searches alone, and where a pattern is empty; and `ValueError`\n"      \
    "where there is no such kind."

#define OVERLAPPING_WORDS_DOC                                                                                                           \
    "overlapping_words($self, text)\n--\n\n"                                                                                            \
    "All whole words of the text, overlapping ones too, in the order of end, start and number: those of `overlapping` that no word\n"   \
    "character stands beside.\n\n"                                                                                                      \
    "What a word character is stands at `find_words`, and this raises `Error` where that does."

#define FIND_EACH_DOC                                                                                                                   \
    "find_each($self, texts)\n--\n\n"                                                                                                   \
    "A list with the matches of each text: for each one the list of its `finditer`.\n\n"                                                \
    "`texts` is a list, a column of a data frame, or anything that gives texts one after another. A column of these lists is what\n"    \
    "`Series.str.findall` of pandas makes: `frame['found'] = ac.find_each(frame['text'])`. What isn't a text of the patterns' type,\n"  \
    "as a missing one isn't, is a `TypeError`. Raises `Error` as `finditer` does."

#define IS_MATCH_EACH_DOC                                                                                                               \
    "is_match_each($self, texts)\n--\n\n"                                                                                               \
    "A list that says of each text whether some pattern occurs in it: `frame[ac.is_match_each(frame['text'])]` has the rows that\n"     \
    "match. It takes and raises what `find_each` does."

#define REPLACE_DOC                                                                                                                     \
    "replace($self, text, replacements, count=0)\n--\n\n"                                                                               \
    "The text with each match of `finditer` replaced; with `count` the first `count` of them alone.\n\n"                                \
    "`replacements` is a list with one for each pattern, in their order; or a mapping of each pattern, as it was given, to its\n"       \
    "replacement; or one for all patterns; or a function of the `Match` that returns one. The result is `str` or `bytes`, as the\n"     \
    "patterns are. Raises `Error` for an automaton that was built for anchored searches alone; `ValueError` where a list has\n"         \
    "another length, where a mapping lacks a pattern or has a key that is none, or where `count` is negative; and `TypeError` where\n"  \
    "the replacements are of another type than the patterns, or are nothing of these, as a set."

#define REPLACE_WORDS_DOC                                                                                                               \
    "replace_words($self, text, replacements, kind='standard', count=0)\n--\n\n"                                                       \
    "The text with each word of `find_words` replaced: the whole words under `kind`, one after another; with `count` the first\n"       \
    "`count` of them alone.\n\n"                                                                                                       \
    "`replacements` are what `replace` takes, and the result is `str` or `bytes`, as the patterns are. Raises what `find_words`\n"      \
    "raises, and for replacements and `count` what `replace` does."

#define MASK_DOC                                                                                                                        \
    "mask($self, text, star=None)\n--\n\n"                                                                                              \
    "The text with each character, or byte, that lies in an occurrence of some pattern replaced by a star.\n\n"                         \
    "All occurrences count, overlapping ones too. So if no pattern has the star, no pattern occurs in the result, the empty one\n"      \
    "aside. `replace` promises no such thing. The result is `str` or `bytes`, as the patterns are, and has the length of the text.\n"   \
    "`star` is one character, or one byte: `\"*\"` or `b\"*\"` if it isn't given. Raises `Error` for an automaton of a leftmost kind,\n" \
    "and for one that was built for anchored searches alone."

#define MASK_IN_PLACE_DOC                                                                                                               \
    "mask_in_place($self, buffer, star=b'*')\n--\n\n"                                                                                   \
    "Masks bytes where they lie, as `mask` does: those of a `bytearray`, of a `memoryview` or an `mmap` that can be written.\n\n"       \
    "It takes no memory. Raises `TypeError` where the patterns are `str`, `BufferError` where the buffer can't be written, and\n"       \
    "`Error` as `mask` does."

#define MASK_WORDS_DOC                                                                                                                  \
    "mask_words($self, text, star=None)\n--\n\n"                                                                                        \
    "The text with each character, or byte, that lies in a whole word replaced by a star.\n\n"                                          \
    "A whole word is an occurrence that no word character stands beside, as in `find_words`; all of them count, overlapping ones\n"     \
    "too. It is `mask` otherwise. A star that is no word character may leave a word beside it, or bring one about."

#define MASK_WORDS_IN_PLACE_DOC                                                                                                         \
    "mask_words_in_place($self, buffer, star=b'*')\n--\n\n"                                                                             \
    "Masks whole words where they lie, as `mask_words` does.\n\n"                                                                       \
    "It takes a copy of the buffer while it runs. Raises what `mask_in_place` does, and `MemoryError`."

#endif
