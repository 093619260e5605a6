"""What an automaton is made of: its patterns and settings, and the automata of the library that search for them.

An automaton of the library is freed with its `Owner`, and each call of the library holds the owner of what it searches by.
"""
import sys
from itertools import islice
from operator import index
from typing import Any, Callable, Dict, Iterable, List, Optional, Sequence, Tuple, Union, cast

from . import _native as native
from ._characters import codes_of, encoded
from ._mask import star_of
from ._match import BuildError, Match
from ._once import Once
from ._replacements import joined, one_each, owned
from ._types import lends_bytes, wrong


class Built(native.Core):
    """Patterns and settings, and what searches for them. It never changes, so whoever holds it may search by it, on any thread."""

    __slots__ = ("patterns", "settings", "kind", "start_kind", "text", "longest", "any_empty", "codes", "_coded")

    def __init__(self, patterns: Iterable[Any], settings: Dict[str, Any]) -> None:
        self.text, self.patterns = _of_one_type(patterns)
        self.settings = settings
        self.kind: str = settings["kind"]
        self.start_kind: str = settings["start_kind"]
        self.any_empty, self.longest = not all(self.patterns), max(map(len, self.patterns), default=0)
        self.codes = codes = codes_of(cast(Tuple[str, ...], self.patterns)) if self.text else None
        plain = self._automaton([encoded(it) if self.text else it for it in self.patterns])
        self._coded: Once[native.Owner] = Once(plain if codes is None or codes.are_ascii else None)
        self.begin(
            plain, -1 if self.text is None else int(self.text), self.longest, len(set(self.patterns)),
            None if codes is None else (codes.table, codes.other, codes.are_ascii, codes.are_latin),
        )

    def by_codes(self) -> native.Owner:
        """What searches a text that is coded, if one is: it is built when it is needed first, unless all patterns are ASCII."""
        return self._coded.value or self._coded.made(self._of_codes)

    def _of_codes(self) -> native.Owner:
        return self._automaton([cast(Any, self.codes).of_pattern(it) for it in self.patterns])

    def _automaton(self, patterns: Sequence[bytes]) -> native.Owner:
        settings = self.settings
        kind = number_of("kind", settings["kind"], native.KINDS)
        start_kind = number_of("start_kind", settings["start_kind"], native.START_KINDS)
        engine = number_of("engine", settings["engine"], native.ENGINES)
        fold, prefilter, byte_classes = (bool(settings[name]) for name in ("fold", "prefilter", "byte_classes"))
        depth, memory = (_size(name, settings[name]) for name in ("dense_depth", "row_memory"))
        pairs = _pairs(settings["pairs"], self.text)
        status, owner, count, pattern = native.build(
            tuple(patterns), kind, start_kind, engine, fold, prefilter, byte_classes, depth, memory, pairs)
        if status == native.NO_MEMORY:
            raise MemoryError(native.error_text(status))
        if status != native.OK:
            raise BuildError(status, _fault_text(status, count, pattern))
        return cast(native.Owner, owner)

    def one_each(self, replacements: Any) -> List[Any]:
        """A replacement for each pattern."""
        return one_each(self.patterns, self.text, replacements)

    def replacement(self, replacements: Any) -> Callable[[Match], Any]:
        """What a match is replaced by."""
        if callable(replacements):
            return cast(Callable[[Match], Any], replacements)
        if type(replacements) is (str if self.text else bytes) and self.patterns:
            return lambda _: replacements
        texts = self.texts(replacements)
        return lambda found: texts[found.pattern]

    def replaced(self, text: Any, replacements: Any, count: int, kind: Optional[str]) -> Any:
        """The text with its matches replaced, one after another, or its whole words of a kind; with `count` the first of them alone."""
        return self.replaced_and_counted(text, replacements, count, kind)[0]

    def replaced_and_counted(self, text: Any, replacements: Any, count: int, kind: Optional[str] = None) -> Tuple[Any, int]:
        """The same, and how many were replaced."""
        replacement = self.replacement(replacements)
        matches = native.matches_after(self, text, False) if kind is None else native.words_in(self, text, kind)
        return spliced(text, islice(matches, count) if count else matches, replacement)

    def star_of(self, star: Any, text: bool) -> Union[str, int]:
        """What masks."""
        return star_of(star, text)


def spliced(text: Any, matches: Iterable[Match], replacement: Callable[[Match], Any]) -> Tuple[Any, int]:
    """The text with these matches replaced, and how many they are."""
    if not isinstance(text, str):
        text = memoryview(text).cast("B")
    pieces: List[Any] = []
    at = 0
    for found in matches:
        pieces += text[at:found.start], replacement(found)
        at = found.end
    pieces.append(text[at:])
    return joined(pieces, "" if isinstance(text, str) else b""), len(pieces) // 2


def _of_one_type(patterns: Iterable[Any]) -> Tuple[Optional[bool], Tuple[Any, ...]]:
    """Whether they are `str`, nothing where there is none; and the patterns, those that are bytes-like as `bytes`."""
    if isinstance(patterns, (str, bytes)):
        raise TypeError("patterns is one string; give a list of them")
    try:
        given = tuple(patterns)
    except TypeError:
        if hasattr(patterns, "__iter__"):
            raise
        raise wrong("patterns", patterns, "a list of str or of bytes") from None
    if not given:
        return None, ()
    is_text = isinstance(given[0], str)
    for number, pattern in enumerate(given):
        if isinstance(pattern, str) is not is_text or not is_text and not lends_bytes(pattern):
            raise wrong(f"patterns[{number}]", pattern, f"{'str' if is_text else 'bytes'} as patterns[0] is" if number else "str or bytes")
    return is_text, given if is_text else tuple(owned(pattern) for pattern in given)


def _fault_text(status: int, count: int, pattern: int) -> str:
    text = native.error_text(status)
    return f"{text}: pattern {pattern}, of {count} bytes" if status == native.PATTERN_TOO_LONG else text


def number_of(name: str, word: str, words: Sequence[str]) -> int:
    if not isinstance(word, str):
        raise wrong(name, word, f"one of {', '.join(words)}")
    if word not in words:
        raise ValueError(f"{name} is {word!r}, and not one of {', '.join(words)}")
    return words.index(word)


def _size(name: str, value: Optional[int]) -> Optional[int]:
    if value is None:
        return None
    try:
        value = index(value)
    except TypeError:
        raise wrong(name, value, "a number or None") from None
    if not 0 <= value <= 2 * sys.maxsize + 1:
        raise ValueError(f"{name} is {value}, and not a number from 0 to {2 * sys.maxsize + 1}")
    return value


def paired(pairs: Iterable[Any]) -> Tuple[Tuple[Any, ...], ...]:
    """The pairs as tuples."""
    try:
        return tuple(map(tuple, pairs))
    except TypeError:
        raise wrong("pairs", pairs, "a list of pairs") from None


def limit_of(name: str, value: Any) -> int:
    """How many there may be at most, and 0 for all."""
    try:
        limit = index(value)
    except TypeError:
        raise wrong(name, value, "a number") from None
    if limit < 0:
        raise ValueError(f"{name} is {limit}, and not how many there may be, or 0 for all")
    return limit


def _pairs(pairs: Sequence[Any], text: Optional[bool]) -> bytes:
    """The bytes of all pairs."""
    raw = bytearray()
    for number, pair in enumerate(pairs):
        if len(pair) != 2:
            raise ValueError(f"pairs[{number}] has {len(pair)} members, and not two")
        raw += bytes(_byte(f"pairs[{number}]", it, text) for it in pair)
    return bytes(raw)


def _byte(name: str, it: Any, text: Optional[bool]) -> int:
    """The byte of a pair: a number, or one byte or character. A character beyond ASCII has several bytes, so it can't be paired."""
    if isinstance(it, (str, bytes)):
        if len(it) != 1:
            raise ValueError(f"{name} has {it!r}, and not one byte or character")
        value = ord(it)
    elif isinstance(it, int):
        value = it
    else:
        raise wrong(f"a member of {name}", it, "a byte, a character or a number")
    if not 0 <= value < (128 if text else 256):
        raise ValueError(f"{name} has {it!r}, which can't be in a pair")
    return value
