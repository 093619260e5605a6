"""A text that is searched piece by piece, and replacement from a reader to a writer.

A stream of the library holds what is undecided, so it doesn't matter where one piece ends and the next begins. That is proved.
What is added here is tested: places in characters, what is written, and the search where a pattern is empty, for which the library
has no streams.
"""
import io
from operator import sub
from threading import Lock
from typing import Any, AnyStr, Callable, Generic, Iterator, List, NoReturn, Optional, Tuple

from . import _native as native
from ._built import Built
from ._characters import CONTINUED, encoded
from ._match import Match
from ._replacements import joined
from ._turns import Part, in_turn
from ._types import described, fits, of_patterns, wrong

LEAST_READ = 1 << 18
"""How much is asked for at once, at least: bytes, or characters."""


class Stream(Generic[AnyStr]):
    """A text that is searched piece by piece. `Automaton.stream` begins one, `Automaton.word_stream` one for whole words, and
    `Automaton.overlapping_word_stream` one for all of these.

    `push` returns the matches that are decided by then, and `finish` those that are left. Together they are those of `finditer`, of
    `find_words` or of `overlapping_words` in the whole text, wherever it was cut; places are counted from its beginning. Under the
    standard kind a match is decided once its last character was pushed, and a word once the character after it was; under a leftmost
    kind once nothing that may follow can change it.

    A stream takes 64 KiB, or 8 times the length of the longest pattern, and owns the automaton too. Threads may pass it on, and one
    waits for the other. It can't be copied or pickled. In a forked process it serves, unless another thread was pushing to it.
    """

    __slots__ = ("_pieces", "_lock", "_text", "_built", "_widths", "_held", "_byte", "_char", "_cut")

    def __init__(self) -> None:
        raise TypeError("a stream is begun by Automaton.stream, Automaton.word_stream or Automaton.overlapping_word_stream")

    def _begin(self, built: Built, words: Optional[int]) -> None:
        self._pieces, self._lock = native.stream(built.by_codes(), words), Lock()
        self._text, self._built, self._widths = built.text, built, list(map(len, built.patterns))
        self._held, self._byte, self._char, self._cut = b"", 0, 0, 0

    def __reduce__(self) -> NoReturn:
        raise TypeError("a stream can't be copied or pickled")

    @property
    def cut(self) -> int:
        """The place up to which everything is decided: no match that is still to come begins before it; of all words, none ends before it."""
        return self._cut

    def push(self, piece: Any) -> List[Match]:
        """Takes the next piece of the text, and returns the matches that are decided now.

        Raises `Error` once the text was finished, and where more was pushed than places can be counted.
        """
        with self._lock:
            if not fits(piece, self._text):
                raise wrong("piece", piece, of_patterns(self._text))
            self._text = isinstance(piece, str)
            data = self._bytes_of(piece)
            length = len(data) if isinstance(data, bytes) else memoryview(data).nbytes
            found: List[Match] = []
            at = 0
            while True:
                taken = self._pieces.push(data, at)
                if self._is_wide():
                    self._held += data[at:at + taken]
                at += taken
                found += self._decided(False)
                if at == length:
                    return found

    def finish(self) -> List[Match]:
        """Ends the text, and returns the matches that are left. `cut` is its length then."""
        with self._lock:
            self._pieces.finish()
            return self._decided(True)

    def _is_wide(self) -> bool:
        """Whether a character may have several bytes."""
        return bool(self._text) and self._built.codes is None

    def _bytes_of(self, piece: Any) -> Any:
        """The bytes that are searched."""
        if not self._text:
            return piece
        return encoded(piece) if self._built.codes is None else self._built.coded(piece)

    def _decided(self, at_end: bool) -> List[Match]:
        """The matches that are decided now."""
        found = self._placed() if self._is_wide() else self._pieces.matches()
        end, cut = self._pieces.view()
        if at_end:
            cut = end
        if self._is_wide():
            for part in self._parts([cut]):
                self._char_at(part)
            cut = self._char
        self._cut = max(self._cut, cut)
        return found

    def _placed(self) -> List[Match]:
        """The matches that are decided now in UTF-8, with places in characters."""
        found: List[Match] = []
        some = native.ROOM
        while some == native.ROOM:
            numbers, _, ends = self._pieces.batch()
            some, ends = len(ends), [self._char_at(at) for at in self._parts(ends)]
            starts = map(sub, ends, map(self._widths.__getitem__, numbers))
            found += map(Match, numbers, starts, ends)
        return found

    def _parts(self, ends: List[int]) -> Iterator[bytes]:
        """The bytes up to each of these places, from the one before it. They are held no longer then."""
        held, at = self._held, 0
        for end in ends:
            stop = max(at, end - self._byte)
            yield held[at:stop]
            at = stop
        self._held, self._byte = held[at:], self._byte + at

    def _char_at(self, part: bytes) -> int:
        """Which character comes after these bytes."""
        self._char += len(part.translate(None, CONTINUED))
        return self._char


def begun(built: Built, words: Optional[int] = None) -> Stream[Any]:
    """A stream, at its beginning: of matches; or of whole words under the kind of a number, or of all words by `ALL_WORDS`."""
    stream: Stream[Any] = Stream.__new__(Stream)
    stream._begin(built, words)
    return stream


def found(stream: Stream[Any], built: Built, reader: Any) -> Iterator[Match]:
    """The matches of what a reader has, each as soon as it is decided."""
    return in_turn(_parts(stream, pieces(reader, built)))


def _parts(stream: Stream[Any], read: Iterator[Any]) -> Iterator[Part[Match]]:
    for piece in read:
        left = iter(stream.push(piece) if piece else stream.finish())
        yield left, left


def pieces(reader: Any, built: Built) -> Iterator[Any]:
    """What a reader has, and an empty piece at its end."""
    read = getattr(reader, "read1", None) or getattr(reader, "read", None)
    if not callable(read):
        raise TypeError(f"reader is {described(reader)}, and has no read")
    return _read(read, max(LEAST_READ, 8 * built.longest), built.text)


def _read(read: Callable[[int], Any], size: int, is_text: Optional[bool]) -> Iterator[Any]:
    piece: Any = True
    while piece:
        piece = read(size)
        if piece is None:
            raise BlockingIOError("the reader has nothing yet, and it doesn't wait")
        if not fits(piece, is_text):
            raise wrong("what the reader returned", piece, of_patterns(is_text))
        yield piece


def replace(stream: Any, built: Built, reader: Any, writer: Any, replacements: Any) -> int:
    """Writes what `reader` has to `writer` with its matches replaced, and returns how many there were.

    All that is decided is written before the next read. A caller's function is given a match with places in the whole of what was read,
    which holds the part that has it.
    """
    replacement, holds = built.replacement(replacements), callable(replacements)
    write, window, gone, done, matches = _write_of(writer), None, 0, 0, 0
    for piece in pieces(reader, built):
        window = piece if window is None else window + piece
        found = stream.push(piece) if piece else stream.finish()
        parts: List[Any] = []
        for it in found:
            parts += window[done - gone:it.start - gone], replacement(native.hold(it, window, gone) if holds else it)
            done = it.end
        if done < stream.cut:
            parts.append(window[done - gone:stream.cut - gone])
            done = stream.cut
        matches += len(found)
        write(joined(parts, type(window)()))
        window, gone = window[done - gone:], done
    return matches


def mask(masker: Any, built: Built, reader: Any, writer: Any) -> None:
    """Writes what `reader` has to `writer`, masked. All that is decided is written before the next read."""
    write = _write_of(writer)
    for piece in pieces(reader, built):
        write(masker.push(piece) if piece else masker.finish())


def replace_again(built: Built, reader: Any, writer: Any, replacements: Any) -> int:
    """The same by a walk over what was read, for patterns of which one is empty.

    Under a leftmost kind a match is replaced once as much was read after its start as the longest pattern has. At most so much is kept
    from one read to the next, and searched again. A walk is told whether a match ended where it starts.
    """
    replacement = built.replacement(replacements)
    write, held, gone, again, matches = _write_of(writer), None, 0, False, 0
    for piece in pieces(reader, built):
        over = not piece
        window = piece if held is None else held + piece
        walked = native.matches_after(built, window, again)
        settles = len(window) + 1 if over or built.kind == "standard" else len(window) - built.longest
        parts, at, undecided, found = _settled(window, walked, settles, gone, replacement)
        matches += found
        keep = len(window) if over else max(at, min(undecided, len(window) - built.longest + 1))
        if keep > at:
            parts.append(window[at:keep])
        again = keep == at if found else again and keep == 0
        write(joined(parts, type(window)()))
        held, gone = window[keep:], gone + keep
    return matches


def _settled(window: Any, matches: Iterator[Any], settles: int, gone: int, replacement: Callable[[Any], Any]
             ) -> Tuple[List[Any], int, int, int]:
    """What stands for the window up to the end of its last settled match; that place; where a match is that isn't settled, or the
    window's end; and how many were settled. One is where it starts no further than at `settles`."""
    parts: List[Any] = []
    at = count = 0
    for found in matches:
        if found.start > settles:
            return parts, at, found.start, count
        moved = found._replace(start=found.start + gone, end=found.end + gone)
        parts += window[at:found.start], replacement(native.hold(moved, window, gone))
        at, count = found.end, count + 1
    return parts, at, len(window), count


def _write_of(writer: Any) -> Callable[[Any], None]:
    """What writes all of a text: in one call, or as many as a writer needs that takes a part of what it is given."""
    if not callable(getattr(writer, "write", None)):
        raise TypeError(f"writer is {described(writer)}, and has no write")

    def write(text: Any) -> None:
        while text:
            taken = writer.write(text)
            if taken is None and isinstance(writer, io.RawIOBase):
                raise BlockingIOError("the writer takes nothing yet, and it doesn't wait")
            if taken is None or isinstance(text, str) or taken >= len(text):
                return
            text = text[taken:]

    return write
