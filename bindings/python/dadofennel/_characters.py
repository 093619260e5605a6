"""A byte for each character: how a `str` beyond ASCII is searched.

Each character that the patterns have has a byte of its own, as long as no more than 127 of them are beyond ASCII; one of ASCII or
Latin-1 is that byte itself. All other characters beyond ASCII share a byte that no pattern has, so no match has them. Patterns and
texts are written in these bytes, and places in them are characters.

Only where the patterns have more than 127 characters beyond ASCII, a text beyond ASCII is searched as UTF-8, and places are counted in
characters from one match to the next.
"""
from typing import Dict, Iterable, Optional

MOST_BEYOND = 127
"""How many characters beyond ASCII have a byte of their own, at most: one of 128 is for all others."""

ENCODING = ("utf-8", "surrogatepass")
"""Lone surrogates have bytes of their own, so that every `str` can be a pattern or be searched."""

CONTINUED = bytes(range(0x80, 0xC0))
"""The bytes of UTF-8 that don't begin a character."""


def encoded(text: str) -> bytes:
    return text.encode(*ENCODING)


class Codes:
    """The bytes of characters, of which these are beyond ASCII: `table` has them, and `other` is that of all that it lacks."""

    __slots__ = ("are_ascii", "are_latin", "table", "other", "_code_of")

    def __init__(self, beyond: Iterable[str]) -> None:
        letters = sorted(map(ord, beyond))
        latin = [it for it in letters if it < 0x100]
        free = sorted(set(range(0x80, 0x100)).difference(latin))
        far = letters[len(latin):]
        self._code_of: Dict[int, int] = dict(zip(latin + far, latin + free))
        self.other = free[len(far)]
        self.are_ascii, self.are_latin = not letters, not far
        table = bytearray(range(0x80)).ljust(max(letters, default=0x7F) + 1, bytes([self.other]))
        for letter, code in self._code_of.items():
            table[letter] = code
        self.table = bytes(table)

    def of_pattern(self, pattern: str) -> bytes:
        return pattern.translate(self._code_of).encode("latin-1")


def codes_of(patterns: Iterable[str]) -> Optional[Codes]:
    """The bytes for the characters of these patterns, unless there are too many."""
    letters = set().union(*(it for it in patterns if not it.isascii()))
    beyond = {it for it in letters if it > "\x7f"}
    return Codes(beyond) if len(beyond) <= MOST_BEYOND else None
