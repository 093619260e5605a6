"""Iterators that are used up one after another, as one iterator, which threads may share."""
from itertools import chain
from operator import length_hint
from threading import RLock
from typing import Any, Iterator, Tuple, TypeVar

T = TypeVar("T")

Part = Tuple[Iterator[Any], Iterator[T]]
"""What says by its length whether something of an iterator is left, and the iterator."""


class _Turns:
    """The iterators of some parts, one after another, for a chain.

    A chain that two threads are in asks for the next iterator twice, and gives up the first answer; and where one of them gets an
    error, it frees what the other one is in. So a second thread waits here, and then gets the same iterator, if something of it is left.
    The chain then never frees that iterator, some hundred bytes; what it iterates over is let go.
    """

    __slots__ = ("_parts", "_length", "_left", "_lock")

    def __init__(self, parts: Iterator[Part[Any]]) -> None:
        self._parts, self._lock = parts, RLock()
        self._length: Any = ()
        self._left: Any = ()

    def __iter__(self) -> "_Turns":
        return self

    def __next__(self) -> Any:
        with self._lock:
            if not length_hint(self._length):
                self._length, self._left = next(self._parts)
            return self._left


def in_turn(parts: Iterator[Part[T]]) -> Iterator[T]:
    """What the iterators of the parts give, each thing once, to whichever thread asks first. It takes no call of Python for each."""
    return chain.from_iterable(_Turns(parts))
