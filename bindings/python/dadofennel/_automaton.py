"""The automaton: patterns that are searched for together."""
from itertools import islice
from operator import attrgetter
from typing import Any, AnyStr, Dict, Generic, Iterable, Iterator, List, Optional, Sequence, Tuple, cast

from . import _native as native
from . import _masks, _stream
from ._built import Built, limit_of, number_of, paired
from ._masks import Masker
from ._match import Match
from ._replacements import Replacements


class Automaton(native.Searches[AnyStr], Generic[AnyStr]):
    """Patterns that are searched for together, in time that doesn't depend on how many there are.

    >>> ac = Automaton(["fox", "brown", "quick"])
    >>> list(ac.finditer("The quick brown fox."))
    [Match(pattern=2, start=4, end=9), Match(pattern=1, start=10, end=15), Match(pattern=0, start=16, end=19)]
    >>> ac.replace("The quick brown fox.", ["sloth", "grey", "slow"])
    'The slow grey sloth.'

    `patterns` are all `str`, or all bytes-like, and are numbered from 0. Patterns of `str` search `str`, with places in
    characters. Others search whatever lends its bytes: `bytes`, `bytearray`, `memoryview`, `mmap`. It is searched where it is,
    without a copy, and must not change meanwhile. An empty pattern occurs at every place.

    `kind` says which of several overlapping occurrences is the match:

    - `"standard"`: the one that ends first; of those the one that starts first, then the lower number
    - `"leftmost-first"`: the one that starts first; of those the lower number, as in `re`
    - `"leftmost-longest"`: the one that starts first; of those the longest

    `fold` makes ASCII letters match in either case. `pairs` makes the two bytes, or ASCII characters, of each pair match each
    other. `start_kind` says which searches it is for: `"unanchored"`, `"anchored"` or `"both"`.

    What is left changes time and memory, and no result: `engine` is `"auto"`, `"noncontiguous"`, `"contiguous"` or `"dfa"`;
    `prefilter` and `byte_classes` can be turned off; `dense_depth` is to which depth the states of an NFA keep a row, and
    `row_memory` how many bytes the rows of a contiguous NFA may take.

    An automaton never changes. Any number of threads may search with one at the same time, and a search of more than 4096 bytes doesn't
    hold the interpreter's lock while it reads. Threads may share an iterator, too: each match is given to one of them. A search goes on
    with the automaton that it began with, even where `__init__` is called again. It is pickled by its patterns and settings, and built
    again where it is loaded.

    Raises `BuildError`, `TypeError` where the patterns aren't all of one type, and `MemoryError`.
    """

    __slots__ = ("__weakref__",)

    def __init__(
        self,
        patterns: Iterable[AnyStr],
        kind: str = "standard",
        fold: bool = False,
        *,
        pairs: Iterable[Sequence[Any]] = (),
        start_kind: str = "unanchored",
        engine: str = "auto",
        prefilter: bool = True,
        byte_classes: bool = True,
        dense_depth: Optional[int] = None,
        row_memory: Optional[int] = None,
    ) -> None:
        settings: Dict[str, Any] = dict(
            kind=kind, fold=fold, pairs=paired(pairs), start_kind=start_kind, engine=engine, prefilter=prefilter,
            byte_classes=byte_classes, dense_depth=dense_depth, row_memory=row_memory,
        )
        self._built = Built(patterns, settings)

    @property
    def patterns(self) -> Tuple[AnyStr, ...]:
        """The patterns that it was built of."""
        return self._built.patterns

    @property
    def kind(self) -> str:
        """Which of several overlapping occurrences is the match."""
        return self._built.kind

    @property
    def fold(self) -> bool:
        """Whether ASCII letters match in either case."""
        return bool(self._built.settings["fold"])

    @property
    def start_kind(self) -> str:
        """Which searches it was built for."""
        return self._built.start_kind

    @property
    def engine(self) -> str:
        """What searches: `"noncontiguous"`, `"contiguous"` or `"dfa"`."""
        return native.ENGINES[self._built.engine()]

    @property
    def memory(self) -> int:
        """About how many bytes the automaton takes, without the patterns."""
        return self._built.memory()

    def __repr__(self) -> str:
        return f"<dadofennel.Automaton of {len(self.patterns)} patterns, {self.kind}, by a {self.engine} automaton>"

    def __reduce__(self) -> Any:
        built = self._built
        return _again, (built.patterns, built.settings)

    def __copy__(self) -> "Automaton[AnyStr]":
        return self

    def __deepcopy__(self, memo: Any) -> "Automaton[AnyStr]":
        return self

    def subn(self, text: Any, replacements: Replacements[AnyStr], count: int = 0) -> Tuple[AnyStr, int]:
        """What `replace` makes of the text, and how many matches were replaced. It takes and raises what `replace` does."""
        return cast(Tuple[AnyStr, int], self._built.replaced_and_counted(text, replacements, limit_of("count", count)))

    def findall(self, text: Any, start: Optional[int] = None, end: Optional[int] = None) -> List[AnyStr]:
        """What matched, of each match of `finditer`: a list of `str` or of `bytes`, as the patterns are.

        With an automaton of kind leftmost-first, of which no pattern is empty, it is what `re.findall` gives for the patterns with `|`
        between them. Raises `Error` as `finditer` does.
        """
        return list(map(_text_of, self.finditer(text, start, end)))

    def split(self, text: Any, maxsplit: int = 0) -> List[AnyStr]:
        """What lies between the matches of `finditer`: one piece more than there are matches; with `maxsplit` the first matches alone.

        Pieces may be empty, and none is left out. They are `str` or `bytes`, as the patterns are. Raises `Error` as `finditer` does, and
        `ValueError` where `maxsplit` is negative.
        """
        limit, matches = limit_of("maxsplit", maxsplit), self.finditer(text)
        whole: Any = text if isinstance(text, str) else memoryview(text).cast("B")
        owned: Any = str if isinstance(text, str) else bytes
        pieces, at = [], 0
        for found in islice(matches, limit) if limit else matches:
            pieces.append(owned(whole[at:found.start]))
            at = found.end
        pieces.append(owned(whole[at:]))
        return pieces

    def replace_stream(self, reader: Any, writer: Any, replacements: Replacements[AnyStr]) -> int:
        """Writes what `reader` has to `writer`, with each match replaced as by `replace`, and returns how many there were.

        A reader is a file, or anything whose `read` gives `bytes` or `str` as the patterns are, and a writer anything with `write`.
        What was read is searched at once, and all that is decided is written before the next read. At most as much as the longest
        pattern has is kept back. A function as replacement is given matches with places in all that was read. Every kind will do.
        The writer isn't flushed. Raises `BlockingIOError` where the reader or the writer doesn't wait.
        """
        built = self._built
        built.serves(False)
        if not built.any_empty:
            return _stream.replace(_stream.begun(built), built, reader, writer, replacements)
        return _stream.replace_again(built, reader, writer, replacements)

    def replace_words_stream(
        self, reader: Any, writer: Any, replacements: Replacements[AnyStr], kind: str = "standard",
    ) -> int:
        """Writes what `reader` has to `writer`, with each whole word replaced as by `replace_words`, and returns how many there were.

        Reader, writer and what is written when are those of `replace_stream`. A word is decided once the character after it was read.
        Raises what `word_stream` raises, for replacements what `replace` does, and `BlockingIOError` where the reader or the writer
        doesn't wait.
        """
        built = self._built
        stream = _stream.begun(built, number_of("kind", kind, native.KINDS))
        return _stream.replace(stream, built, reader, writer, replacements)

    def mask_stream(self, reader: Any, writer: Any, star: Any = None) -> None:
        """Writes what `reader` has to `writer`, with each character, or byte, that lies in an occurrence replaced by a star, as by `mask`.

        Reader and writer are those of `replace_stream`. All that is decided is written before the next read: fewer bytes are kept
        back than the longest pattern has, of `str` as UTF-8. Raises `Error` as `masker` does, and `BlockingIOError` where the reader or the writer doesn't wait.
        """
        _stream.mask(self.masker(star), self._built, reader, writer)

    def mask_words_stream(self, reader: Any, writer: Any, star: Any = None) -> None:
        """The same of the whole words alone, as by `mask_words`. Raises what `mask_stream` does."""
        _stream.mask(self.word_masker(star), self._built, reader, writer)

    def masker(self, star: Any = None) -> "Masker[AnyStr]":
        """Begins a text that comes in pieces and is masked: `push` takes one, and `finish` ends the text; each returns masked text.

        The star is that of `mask`. Raises `Error` for an automaton of a leftmost kind, for one that was built for anchored searches alone,
        and where a pattern is empty.
        """
        return _masks.begun(self._built, star, False)

    def word_masker(self, star: Any = None) -> "Masker[AnyStr]":
        """Begins a text that comes in pieces, as `masker` does, of which the whole words are masked, as by `mask_words`.

        Raises what `masker` does.
        """
        return _masks.begun(self._built, star, True)

    def stream(self) -> "_stream.Stream[AnyStr]":
        """Begins a text that comes in pieces: `push` takes one, and `finish` ends the text; each returns matches.

        Raises `Error` for an automaton that was built for anchored searches alone, and where a pattern is empty.
        """
        return _stream.begun(self._built)

    def word_stream(self, kind: str = "standard") -> "_stream.Stream[AnyStr]":
        """Begins a text that comes in pieces, as `stream` does, and gives its whole words under `kind`: those of `find_words`.

        Raises `Error` where `find_words` does, and `ValueError` where there is no such kind.
        """
        return _stream.begun(self._built, number_of("kind", kind, native.KINDS))

    def overlapping_word_stream(self) -> "_stream.Stream[AnyStr]":
        """Begins a text that comes in pieces, as `stream` does, and gives all its whole words: those of `overlapping_words`, in its order.

        A word is decided once the character after it was pushed. Raises `Error` where `overlapping_words` does.
        """
        return _stream.begun(self._built, native.ALL_WORDS)

    def finditer_stream(self, reader: Any) -> Iterator[Match]:
        """The matches of what `reader` has, one after another, each as soon as it is decided: as `stream` gives them."""
        built = self._built
        return _stream.found(_stream.begun(built), built, reader)

    def find_words_stream(self, reader: Any, kind: str = "standard") -> Iterator[Match]:
        """The whole words of what `reader` has, one after another, each as soon as it is decided: as `word_stream` gives them."""
        built = self._built
        return _stream.found(_stream.begun(built, number_of("kind", kind, native.KINDS)), built, reader)

    def overlapping_words_stream(self, reader: Any) -> Iterator[Match]:
        """All whole words of what `reader` has, each as soon as it is decided: as `overlapping_word_stream` gives them."""
        built = self._built
        return _stream.found(_stream.begun(built, native.ALL_WORDS), built, reader)


_text_of = attrgetter("text")


def _again(patterns: Tuple[Any, ...], settings: Dict[str, Any]) -> Automaton[Any]:
    return Automaton(patterns, **settings)
