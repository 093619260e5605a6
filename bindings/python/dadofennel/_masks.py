"""A text that is masked piece by piece, and masks from a reader to a writer.

What masks is a masker of the library: where one piece ends and the next begins changes nothing, which is proved.
"""
from threading import Lock
from typing import Any, AnyStr, Generic, List, NoReturn, cast

from . import _native as native
from ._built import Built
from ._characters import CONTINUED, encoded
from ._types import fits, of_patterns, wrong


class Masker(Generic[AnyStr]):
    """A text that is masked piece by piece. `Automaton.masker` begins one, and `Automaton.word_masker` one for whole words.

    `push` returns the masked text as far as nothing that follows can change it, and `finish` what is left. Together they are what
    `mask`, or `mask_words`, makes of the whole text, wherever it was cut. Fewer bytes are kept back than the longest pattern has, of `str`
    as UTF-8; where whole words are masked, no more than that has.

    It owns the automaton too. Threads may pass it on, and one waits for the other. It can't be copied or pickled.
    """

    __slots__ = ("_masks", "_text", "_lock")

    def __init__(self) -> None:
        raise TypeError("a masker is begun by Automaton.masker or Automaton.word_masker")

    def _begin(self, built: Built, masks: "_Masks") -> None:
        self._text, self._lock, self._masks = built.text, Lock(), masks

    def __reduce__(self) -> NoReturn:
        raise TypeError("a masker can't be copied or pickled")

    def push(self, piece: Any) -> AnyStr:
        """Takes the next piece of the text, and returns what is decided now. Raises `Error` once the text was finished."""
        with self._lock:
            if not fits(piece, self._text):
                raise wrong("piece", piece, of_patterns(self._text))
            self._text = isinstance(piece, str)
            return cast(AnyStr, self._masks.push(piece))

    def finish(self) -> AnyStr:
        """Ends the text, and returns what is left."""
        with self._lock:
            return cast(AnyStr, self._masks.finish())


def begun(built: Built, star: Any, words: bool) -> Masker[Any]:
    """A masker, at its beginning: of every occurrence, or of whole words."""
    masker: Masker[Any] = Masker.__new__(Masker)
    masker._begin(built, _Masks(built, star, words))
    return masker


class _Masks:
    """Masks bytes by the library, and of a text its UTF-8, in which stars are then put."""

    def __init__(self, built: Built, star: Any, words: bool) -> None:
        is_text = isinstance(star, str) if built.text is None else built.text
        given = star if star is not None else "*" if is_text else b"*"
        made: Any = built.star_of(given, is_text)
        self._star = encoded(made) if is_text else b""
        self._masker = native.masker(built, native.COVERED if is_text else made, words)
        self._plain = self._covered = b""
        self._is_text = built.text

    def push(self, piece: Any) -> Any:
        if self._is_text is None:  # no patterns, so nothing is masked
            self._is_text = isinstance(piece, str)
            self._star = b"*"
        if not self._is_text:
            return b"".join(self._masker.push(piece))
        raw = encoded(piece)
        self._plain += raw
        return self._starred(self._masker.push(raw))

    def finish(self) -> Any:
        left = self._masker.finish()
        return self._starred(left) if self._is_text else b"".join(left)

    def _starred(self, ready: List[bytes]) -> str:
        """The characters of which all bytes are ready."""
        covered, plain = self._covered + b"".join(ready), self._plain
        cut = len(covered)
        while cut < len(plain) and plain[cut] in CONTINUED:
            cut -= 1
        self._plain, self._covered = plain[cut:], covered[cut:]
        return native.starred(plain[:cut], covered[:cut], self._star)
