"""The shared library for C, as ctypes sees it: its structures and its functions, for tools/compare.

The names are those of dadofennel.h, which says what each function does.
"""
import ctypes
import os
from array import array
from ctypes import POINTER, byref, c_char_p, c_size_t, c_uint8, c_uint32, c_uint64, c_void_p
from itertools import accumulate
from typing import Any, List, Sequence


class Bytes(ctypes.Structure):
    _fields_ = [("at", c_char_p), ("len", c_size_t)]


class Pair(ctypes.Structure):
    _fields_ = [("a", c_uint8), ("b", c_uint8)]


class Match(ctypes.Structure):
    _fields_ = [("start", c_size_t), ("end", c_size_t), ("pattern", c_uint32)]


class Settings(ctypes.Structure):
    _fields_ = [
        ("kind", c_uint32), ("start_kind", c_uint32), ("engine", c_uint32),
        ("fold", c_uint32), ("prefilter", c_uint32), ("byte_classes", c_uint32),
        ("dense_depth", c_size_t), ("row_memory", c_size_t), ("pairs", POINTER(Pair)), ("pair_count", c_size_t),
    ]


class Fault(ctypes.Structure):
    _fields_ = [("count", c_uint64), ("pattern", c_uint32)]


class Span(ctypes.Structure):
    _fields_ = [("start", c_size_t), ("end", c_size_t), ("anchored", c_uint32), ("earliest", c_uint32)]


class Cursor(ctypes.Structure):
    _fields_ = [("start", c_size_t), ("end", c_size_t), ("last", c_size_t), ("anchored", c_uint32), ("earliest", c_uint32)]


class Place(ctypes.Structure):
    _fields_ = [("start", c_size_t), ("end", c_size_t), ("last", Match), ("begun", c_uint32)]


class Held(ctypes.Structure):
    """Its second number is named `from` in the header."""
    _fields_ = [("at", c_void_p), ("len", c_size_t), ("first", c_size_t), ("cut", c_size_t)]


class Text(ctypes.Structure):
    _fields_ = [("owner", c_void_p), ("at", c_void_p), ("len", c_size_t)]

    def copied(self) -> bytes:
        """A copy of the text, as bytes of Python."""
        return ctypes.string_at(self.at, self.len) if self.len else b""


def _loaded() -> ctypes.CDLL:
    """The library that DADOFENNEL_LIBRARY names."""
    return ctypes.CDLL(os.environ["DADOFENNEL_LIBRARY"])


lib = _loaded()


def _declare(name: str, result: Any, *arguments: Any) -> Any:
    function = getattr(lib, name)
    function.restype, function.argtypes = result, arguments
    return function


_haystack = (c_void_p, c_void_p, c_size_t)
"""An automaton, and where a haystack is and how long."""

settings_default = _declare("dado_settings_default", Settings)
build = _declare("dado_build", c_uint32, c_void_p, c_size_t, POINTER(Settings), POINTER(c_void_p), POINTER(Fault))
free = _declare("dado_free", None, POINTER(c_void_p))
find_in = _declare("dado_find_in", c_uint32, *_haystack, Span, c_void_p)
some = _declare("dado_some", c_uint32, *_haystack, POINTER(Cursor), c_void_p, c_size_t, POINTER(c_size_t))
overlapping_some = _declare("dado_overlapping_some", c_uint32, *_haystack, POINTER(Place), c_void_p, c_size_t, POINTER(c_size_t))
words_some = _declare(
    "dado_words_some", c_uint32, c_void_p, c_uint32, c_void_p, c_size_t, POINTER(c_size_t), c_void_p, c_size_t, POINTER(c_size_t))
overlapping_words_some = _declare(
    "dado_overlapping_words_some", c_uint32, *_haystack, POINTER(Place), c_void_p, c_size_t, POINTER(c_size_t))
replace = _declare("dado_replace", c_uint32, *_haystack, c_void_p, c_size_t, POINTER(Text))
text_free = _declare("dado_text_free", None, POINTER(Text))
mask = _declare("dado_mask", c_uint32, *_haystack, c_uint8)
mask_words = _declare("dado_mask_words", c_uint32, *_haystack, c_uint8)
stream_new = _declare("dado_stream_new", c_uint32, c_void_p, POINTER(c_void_p))
word_stream_new = _declare("dado_word_stream_new", c_uint32, c_void_p, c_uint32, POINTER(c_void_p))
stream_push = _declare("dado_stream_push", c_uint32, POINTER(c_void_p), c_void_p, c_size_t, POINTER(c_size_t))
stream_some = _declare("dado_stream_some", c_uint32, POINTER(c_void_p), c_void_p, c_size_t, POINTER(c_size_t))
stream_view = _declare("dado_stream_view", c_uint32, POINTER(c_void_p), POINTER(Held))
stream_finish = _declare("dado_stream_finish", c_uint32, POINTER(c_void_p))
stream_free = _declare("dado_stream_free", None, POINTER(c_void_p))


class Slices:
    """An array of `Bytes` over some texts: `len` of them at `at`. They are put side by side first, so that an array takes no
    object each."""

    __slots__ = ("at", "len", "_kept")

    def __init__(self, texts: Sequence[bytes]) -> None:
        lengths = array("Q", map(len, texts))
        joined = b"".join(texts)
        first = ctypes.cast(c_char_p(joined), c_void_p).value or 0
        words = array("Q", bytes(16 * len(texts)))
        words[0::2] = array("Q", accumulate(lengths, initial=first))[:-1]
        words[1::2] = lengths
        self.at, self.len, self._kept = words.buffer_info()[0], len(texts), (words, joined)


class Room:
    """Room for some matches, and what was written there as lists."""

    __slots__ = ("matches", "at", "_words", "_halves")

    def __init__(self, matches: int) -> None:
        words = array("Q", bytes(24 * matches))
        self.matches, self.at = matches, words.buffer_info()[0]
        self._words = memoryview(words)
        self._halves = self._words.cast("B").cast("I")

    def numbers(self, count: int) -> List[int]:
        """The pattern of each of the first `count` matches."""
        return self._halves[4:6 * count:6].tolist()

    def starts(self, count: int) -> List[int]:
        return self._words[0:3 * count:3].tolist()

    def ends(self, count: int) -> List[int]:
        return self._words[1:3 * count:3].tolist()
