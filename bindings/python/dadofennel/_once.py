"""A value that one thread makes, when some thread needs it first."""
import os
from threading import RLock
from typing import Any, Callable, Generic, Optional, Set, TypeVar

T = TypeVar("T")

_at_work: Set["Once[Any]"] = set()


class Once(Generic[T]):
    """A value, or none as long as nobody has needed it. Threads that need it while it is made wait."""

    __slots__ = ("value", "_lock")

    def __init__(self, value: Optional[T] = None) -> None:
        self.value, self._lock = value, RLock()

    def made(self, make: Callable[[], T]) -> T:
        """The value; `make` makes it, unless another thread has."""
        with self._lock:
            if self.value is None:
                _at_work.add(self)
                try:
                    value = make()
                finally:
                    _at_work.discard(self)
                if self.value is None:  # else a signal's handler has made one meanwhile, on this thread
                    self.value = value
            return self.value


def _forked() -> None:
    """In a forked process the other threads are gone that have begun to make a value; so it is begun anew there."""
    for it in list(_at_work):
        it._lock = RLock()
    _at_work.clear()


os.register_at_fork(after_in_child=_forked)
