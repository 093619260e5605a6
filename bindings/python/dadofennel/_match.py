"""A match, and what a call of the library raises."""
from typing import Any, Dict, NamedTuple, Optional, Tuple

from . import _native as native


class _Numbers(NamedTuple):
    pattern: int
    start: int
    end: int


class Match(native.Held, _Numbers):
    """A match: the number of its pattern, and its place from `start` up to and without `end`.

    Places are counted in characters where a `str` was searched, and else in bytes. `text` and `group()` are what matched.

    It is a tuple of these three numbers: it compares, hashes and unpacks as one. It holds the text that was searched, which stays in
    memory as long as the match does; `tuple(match)` has the numbers alone. A match of a stream holds none, and neither does one that
    was pickled.
    """

    __slots__ = ()

    @property
    def span(self) -> Tuple[int, int]:
        """The pair of `start` and `end`."""
        return self.start, self.end

    def __copy__(self) -> "Match":
        return self

    def __deepcopy__(self, memo: Dict[int, Any]) -> "Match":
        return self


class Error(ValueError):
    """A setting that an automaton can't be built with, or a search that it wasn't built for. `status` is the library's number of
    it."""

    def __init__(self, status: int, text: Optional[str] = None) -> None:
        super().__init__(text or native.error_text(status))
        self.status = status

    def __reduce__(self) -> Any:
        return type(self), (self.status, str(self))


class BuildError(Error):
    """Patterns that pass a limit of the library or of the engine, or a setting that there is none of."""


native.use(Match, Error)
