"""The names of pyahocorasick, over the library: `import dadofennel.ahocorasick as ahocorasick` is the whole change.

>>> import dadofennel.ahocorasick as ahocorasick
>>> automaton = ahocorasick.Automaton()
>>> for index, word in enumerate("he her hers she".split()):
...     added = automaton.add_word(word, (index, word))
>>> automaton.make_automaton()
>>> list(automaton.iter("_hershe_"))
[(2, (0, 'he')), (3, (1, 'her')), (4, (2, 'hers')), (6, (3, 'she')), (6, (0, 'he'))]

What differs: the words of an automaton are `str` or `bytes`, as its first word is. `iter_long` gives the leftmost-longest
matches, also where version 1.4.1 of pyahocorasick loses one. A start or end of `iter` past the text is its end. Sequences of
integers as words (`KEY_SEQUENCE`) are left out. The file that `save` writes has a format of its own: `load` refuses one of pyahocorasick,
and says so. `dump` numbers nodes from 0, and gives whole characters.

Threads may share an automaton, as that of pyahocorasick, whose calls keep the interpreter's lock. Here a search lets go of it; so a
search holds what it searches by, and a change of the words ends it.
"""
import os
import sys
from copy import copy
from itertools import count, takewhile
from operator import length_hint
from threading import RLock
from typing import Any, Callable, Dict, Iterator, List, Optional, Sequence, Tuple, Union

from . import _native as native
from . import _saved
from ._automaton import Automaton as _Automaton
from ._once import Once
from ._trie import Trie, at_least, at_most, exactly
from ._turns import Part, in_turn

EMPTY, TRIE, AHOCORASICK = 0, 1, 2
STORE_INTS, STORE_LENGTH, STORE_ANY = 10, 20, 30
KEY_STRING, KEY_SEQUENCE = 100, 200
MATCH_EXACT_LENGTH, MATCH_AT_MOST_PREFIX, MATCH_AT_LEAST_PREFIX = 0, 1, 2
unicode = 1

Word = Union[str, bytes]
Found = Tuple[int, Any]
_missing: Any = object()
_versions = count(1)


class _Made:
    """What `make_automaton` makes of the words: what searches for all of them, and their values in the same order.

    `lent` has the ends of the matches that each search has found and not given yet, by their `id`.
    """

    def __init__(self, words: List[Any], type_of_words: Any) -> None:
        self.words, self.type, self.numbers = words, type_of_words, {word: number for number, word in enumerate(words)}
        self.order: List[Any] = []
        self.every = _Automaton(words)
        self._longest: Once[_Automaton[Any]] = Once()
        self.lent: Dict[int, List[int]] = {}
        self.change = native.Change()

    def again(self) -> "_Made":
        """The same, for other searches."""
        other = copy(self)
        other.lent, other.change = {}, native.Change()
        return other

    def longest(self) -> "_Automaton[Any]":
        """What searches for the leftmost-longest matches: it is built when it is needed first."""
        return self._longest.value or self._longest.made(lambda: _Automaton(self.words, "leftmost-longest"))

    def short_pairs(self, given: Any, string: Word, start: int, end: int, longest: bool) -> Optional[native.Pairs]:
        """The pairs of a short string, if they can be found at once."""
        every = self._longest.value if longest else self.every
        if every is None:
            return None
        return native.pairs(every._built, self.change, self.order, given, string, start, min(end, len(string)), not longest)

    def end(self) -> None:
        """Ends all searches: what they would still give of the matches that they have found is gone."""
        self.change.end()
        for ends in list(self.lent.values()):
            ends.clear()


class Automaton:
    """Words, each with a value: a dictionary, and after `make_automaton` a search for all of them at once.

    `value_type` says what a value is: anything (`STORE_ANY`), an integer (`STORE_INTS`), or the word's length (`STORE_LENGTH`).
    """

    def __new__(cls, *_: Any, **__: Any) -> "Automaton":
        automaton = super().__new__(cls)
        automaton._lock, automaton._made = RLock(), None
        return automaton

    def __init__(self, value_type: int = STORE_ANY, key_type: int = KEY_STRING) -> None:
        if value_type not in (STORE_ANY, STORE_INTS, STORE_LENGTH):
            raise ValueError("store value must be one of ahocorasick.STORE_LENGTH, STORE_INTS or STORE_ANY")
        if key_type == KEY_SEQUENCE:
            raise NotImplementedError("words that are sequences of integers are left out")
        if key_type != KEY_STRING:
            raise ValueError("key_type must have value KEY_STRING or KEY_SEQUENCE")
        with self._lock:
            self.store = value_type
            self._begin()

    _lock: Any
    """Is held while words are added, removed and asked for. It isn't while an automaton is built, or searches."""

    _made: Optional[_Made]

    def _begin(self) -> None:
        """There are no words, and none are searched for."""
        self._values: Dict[Word, Any] = {}
        self._trie: Optional[Trie] = None
        self._type: Any = None
        self._changed(EMPTY)

    def _changed(self, kind: int) -> None:
        """There are other words now: searches end, and what searches is made anew when `make_automaton` is called."""
        made, self._made = self._made, None
        if made is not None:
            made.end()
        self._version = next(_versions)
        self.kind = kind

    def _word(self, word: Any) -> Any:
        if not isinstance(word, self._type or (str, bytes)):
            raise TypeError("string expected")
        return word

    def add_word(self, word: Word, value: Any = _missing) -> bool:
        """Adds the word, or replaces its value, and says whether it is new. The empty word is not added.

        With `STORE_ANY` a value must be given. With `STORE_INTS` it is an integer, by default one more than there are words. With
        `STORE_LENGTH` it is the word's length.
        """
        with self._lock:
            self._word(word)
            value = self._value(word, value)
            if not word:
                return False
            old = word in self._values
            self._values[word] = value
            if old:
                self.kind = TRIE
                if self._made is not None:  # searches go on, with the new value
                    self._made.order[self._made.numbers[word]] = value
                return False
            self._type = str if isinstance(word, str) else bytes
            if self._trie is not None:
                self._trie.add(word)
            self._changed(TRIE)
            return True

    def _value(self, word: Word, value: Any) -> Any:
        if self.store == STORE_LENGTH:
            return len(word)
        if self.store == STORE_INTS:
            if value is _missing:
                return len(self._values) + 1
            if not isinstance(value, int):
                raise TypeError("An integer value is required as second argument.")
        elif value is _missing:
            raise ValueError("A value object is required as second argument.")
        return value

    def remove_word(self, word: Word) -> bool:
        """Removes the word, and says whether it was there."""
        with self._lock:
            if self._word(word) not in self._values:
                return False
            self._whole_trie().remove(word)
            del self._values[word]
            self._changed(TRIE)
            return True

    def pop(self, word: Word) -> Any:
        """Removes the word and returns its value; a `KeyError` where it isn't there."""
        with self._lock:
            value = self._values.get(self._word(word), _missing)
            if value is _missing:
                raise KeyError(word)
            self.remove_word(word)
            return value

    def clear(self) -> None:
        """Removes all words."""
        with self._lock:
            self._begin()

    def make_automaton(self) -> Optional[bool]:
        """Makes the words searchable, until one is added or removed. `False` says that nothing was to be done."""
        while True:
            with self._lock:
                if self.kind != TRIE:
                    return False
                version, made, words, type_of_words = self._version, self._made, list(self._values), self._type
            made = made.again() if made else _Made(words, type_of_words)
            with self._lock:
                if version == self._version:  # else other words were added or removed meanwhile
                    made.order = list(self._values.values())
                    if self._made is not None:
                        self._made.change.end()
                    self._made, self._version, self.kind = made, next(_versions), AHOCORASICK
                    return None

    def get(self, word: Word, default: Any = _missing, /) -> Any:
        """The word's value. Where it isn't there, the default, or a `KeyError` if there is none."""
        value = self._values.get(self._word(word), default)
        if value is _missing:
            raise KeyError(word)
        return value

    def exists(self, word: Word) -> bool:
        """Whether the word was added."""
        return self._word(word) in self._values

    __contains__ = exists

    def __len__(self) -> int:
        return len(self._values)

    def match(self, word: Word) -> bool:
        """Whether some word begins with this one."""
        with self._lock:
            return self.kind != EMPTY and self._whole_trie().has(self._word(word))

    def longest_prefix(self, word: Word) -> int:
        """The length of the longest beginning of it that some word begins with."""
        with self._lock:
            return self._whole_trie().depth(self._word(word))

    def _whole_trie(self) -> Trie:
        if self._trie is None:
            self._trie = Trie(list(self._values))
        return self._trie

    def keys(self, prefix: Word = _missing, wildcard: Word = _missing, how: int = _missing, /) -> Iterator[Word]:
        """The words; with a prefix those that begin with it.

        With a wildcard, a single character, the prefix is a pattern in which that character stands for any. `how` says which
        words such a pattern takes: those of its length (`MATCH_EXACT_LENGTH`), those that are no shorter
        (`MATCH_AT_LEAST_PREFIX`), or those that are no longer (`MATCH_AT_MOST_PREFIX`).
        """
        pattern = self._word("" if self._type is not bytes else b"") if prefix is _missing else self._word(prefix)
        takes = at_least
        if wildcard is not _missing:
            if len(self._word(wildcard)) != 1:
                raise ValueError("Wildcard must be a single character.")
            takes = exactly
        if how is not _missing:
            ways = {MATCH_EXACT_LENGTH: exactly, MATCH_AT_LEAST_PREFIX: at_least, MATCH_AT_MOST_PREFIX: at_most}
            if how not in ways:
                raise ValueError("The optional how third argument must be one of: MATCH_EXACT_LENGTH, MATCH_AT_LEAST_PREFIX or "
                                 "MATCH_AT_LEAST_PREFIX")
            takes = ways[how]
        with self._lock:
            return _Words(self, self._whole_trie().words(pattern, None if wildcard is _missing else wildcard, takes))

    def values(self, *which: Any) -> Iterator[Any]:
        """The values of `keys`, with the same arguments."""
        return map(self._values.__getitem__, self.keys(*which))

    def items(self, *which: Any) -> Iterator[Tuple[Word, Any]]:
        """The words and values of `keys`, with the same arguments."""
        return ((word, self._values[word]) for word in self.keys(*which))

    def __iter__(self) -> Iterator[Word]:
        return self.keys()

    def iter(self, string: Word, start: int = -1, end: int = -1, ignore_white_space: bool = False) -> "Union[_Search, native.Pairs]":
        """The occurrences of all words in `string[start:end]`, overlapping ones too: pairs of the place of the last character,
        and the value. They come in order of that place, and longer words first. White space can be left out of the string."""
        made = self._made
        if made is None or self.kind != AHOCORASICK:
            raise AttributeError("Not an Aho-Corasick automaton yet: call add_word to add some keys and call make_automaton to "
                                 "convert the trie to an automaton.")
        if not isinstance(string, made.type):
            raise TypeError("string required" if made.type is str else "bytes required")
        low, high = max(start, 0), len(string) if end == -1 else end
        if not ignore_white_space:
            pairs = made.short_pairs((_Search, self, made, string, low, high), string, low, high, False)
            if pairs is not None:
                return pairs
        return _Search(self, made, string, low, high, bool(ignore_white_space))

    def iter_long(self, string: Word, *bounds: int) -> "Union[_LongSearch, native.Pairs]":
        """The leftmost-longest matches in `string[start:end]`, which don't overlap: pairs as those of `iter`."""
        made = self._made
        if made is None or self.kind != AHOCORASICK:
            raise AttributeError("not an automaton yet; add some words and call make_automaton")
        start, end = _range(bounds, len(self._word(string)))
        pairs = made.short_pairs((_LongSearch, self, made, string, start, end), string, start, end, True)
        return _LongSearch(self, made, string, start, end) if pairs is None else pairs

    def find_all(self, string: Word, callback: Callable[[int, Any], Any], *bounds: int) -> None:
        """Calls `callback` with each pair of `iter`."""
        if self.kind != AHOCORASICK:
            return
        self._word(string)
        if not callable(callback):
            raise TypeError("The callback argument must be a callable such as a function.")
        start, end = _range(bounds, len(string))
        for place, value in self.iter(string, start, end):
            callback(place, value)

    def get_stats(self) -> Dict[str, int]:
        """How many words, nodes and edges there are, the longest word, and about how many bytes the search takes."""
        with self._lock:
            nodes = self._whole_trie().nodes() if self._values else 0
            total = self._made.every.memory if self._made is not None else 0
            return {
                "nodes_count": nodes, "words_count": len(self), "longest_word": max(map(len, self._values), default=0),
                "links_count": max(nodes - 1, 0), "sizeof_node": total // nodes if nodes else 0, "total_size": total,
            }

    def dump(self) -> Optional[Tuple[List[Tuple[int, int]], List[Tuple[int, Any, int]], List[Tuple[int, int]]]]:
        """The tree of the words, and `None` where there is none: its nodes, its edges, and after `make_automaton` the links that a search
        goes where no edge leads on.

        Nodes are numbers with 1 where a word ends, and else 0; node 0 has the empty beginning. An edge has two nodes, and between them the
        character of a `str`, or a `bytes` of one byte. A link leads from a node to that of the longest end of its beginning.
        """
        with self._lock:
            if not self._values:
                return None
            nodes, links = list(self._whole_trie().graph()), self.kind == AHOCORASICK
        numbers = {way: number for number, (way, _, _) in enumerate(nodes)}
        edges = [(number, it, numbers[way + it]) for number, (way, _, further) in enumerate(nodes) for it in further]
        ends = [(number, int(is_word)) for number, (_, is_word, _) in enumerate(nodes)]
        return ends, edges, [(number, _link(way, numbers)) for way, number in numbers.items() if number] if links else []

    def save(self, *where: Any) -> None:
        """Writes the words and values to a file: `save(path, serializer)` with `STORE_ANY`, and `save(path)` otherwise.

        `serializer` makes `bytes` of a value, as `pickle.dumps` does. `load` reads the file. Raises `OSError` as `open` does.
        """
        if len(where) != (2 if self.store == STORE_ANY else 1):
            raise ValueError(f"expected exactly {'two arguments' if self.store == STORE_ANY else 'one argument'}")
        path, serializer = (*where, bytes)[:2]
        _check_arguments(path, serializer)
        with self._lock:
            items, kind, type_of_words = list(self._values.items()), self.kind, self._type if self._values else None
        _saved.save(path, self.store, kind, type_of_words, items, serializer)

    def __sizeof__(self) -> int:
        """About how many bytes it takes, the words included, and the values not."""
        with self._lock:
            made = self._made.every.memory if self._made is not None else 0
            return object.__sizeof__(self) + sys.getsizeof(self._values) + sum(map(sys.getsizeof, self._values)) + made

    def __reduce__(self) -> Any:
        with self._lock:
            return _again, (self.store, list(self._values.items()), self.kind)


def load(*where: Any) -> Automaton:
    """The automaton that `save` has written to a file: `load(path, deserializer)`.

    `deserializer` makes a value of `bytes`, as `pickle.loads` does; it is called with `STORE_ANY` alone. Raises `ValueError` where the
    file is none of `save`, was cut short or changed, or is one of pyahocorasick; and `OSError` as `open` does.
    """
    if len(where) != 2:
        raise ValueError("expected exactly two arguments")
    _check_arguments(*where)
    store, kind, items = _saved.load(*where)
    return _again(store, items, kind)


def _check_arguments(path: Any, call: Any) -> None:
    if not isinstance(path, (str, os.PathLike)):
        raise TypeError("the first argument must be a string, or a path")
    if not callable(call):
        raise TypeError("the second argument must be a callable object")


def _link(way: Any, numbers: Dict[Any, int]) -> int:
    """The node of the longest end of a way that is one."""
    return next(numbers[way[at:]] for at in range(1, len(way) + 1) if way[at:] in numbers)


def _again(store: int, items: List[Tuple[Word, Any]], kind: int) -> Automaton:
    automaton = Automaton(store)
    for word, value in items:
        automaton.add_word(word, value)
    if kind == AHOCORASICK:
        automaton.make_automaton()
    return automaton


def _range(bounds: Tuple[int, ...], length: int) -> Tuple[int, int]:
    """A start and an end as pyahocorasick takes them: a negative start counts from the end, a negative end from one before it."""
    start, end = (tuple(bounds) + (None,) * 2)[:2] if bounds else (None, None)
    if start is None:
        return 0, length
    low = start + length if start < 0 else start
    if not 0 <= low < length:
        raise IndexError(f"start index not in range 0..{length}")
    if end is None:
        return low, length
    high = end + length - 1 if end < 0 else end
    if not 0 <= high <= length:
        raise IndexError(f"end index not in range 0..{length}")
    return low, high


def _is_space(character: str) -> bool:
    """White space as C's `iswspace` has it: separators, but none that forbids a line break, and the controls from tab to return."""
    return character.isspace() and character not in "\x1c\x1d\x1e\x1f\x85\xa0\u2007\u202f"


def _without_space(string: Word) -> Tuple[Word, List[int]]:
    """The string without white space, and where each of its characters was."""
    if isinstance(string, bytes):
        kept = [i for i, it in enumerate(string) if not _is_space(chr(it))]
        return bytes(string[i] for i in kept), kept
    kept = [i for i, it in enumerate(string) if not _is_space(it)]
    return "".join(string[i] for i in kept), kept


class _Words:
    """The words of a question, as long as no word is added or removed."""

    def __init__(self, automaton: Automaton, words: Iterator[Word]) -> None:
        self._automaton, self._version, self._words = automaton, automaton._version, words

    def __iter__(self) -> Iterator[Word]:
        return self

    def __next__(self) -> Word:
        with self._automaton._lock:
            if self._version != self._automaton._version:
                raise ValueError("The underlying automaton has changed: this iterator is no longer valid.")
            return next(self._words)


def _after(tail: int, numbers: List[int], ends: List[int]) -> Tuple[List[int], List[int]]:
    """The occurrences that end further on."""
    kept = [i for i, it in enumerate(ends) if it > tail]
    return [numbers[i] for i in kept], [ends[i] for i in kept]


class _Search:
    """The pairs of a search. `set` goes on with another string.

    Pairs are made in batches. `for` and `list` take them from the batches directly, without a call of Python for each.
    """

    def __init__(self, automaton: Automaton, made: _Made, string: Word, start: int, end: int, ignore_white_space: bool = False) -> None:
        self._automaton, self._made, self._ignores = automaton, made, ignore_white_space
        self._tail, self._shift = string[:0], 0
        self._begin(string, start, min(end, len(string)))

    def _begin(self, string: Word, start: int, end: int, first: Sequence[Found] = ()) -> None:
        """Gives these pairs first, and searches `string[start:end]` as what follows `_tail`, the end of what was searched before.
        Places are moved by `_shift`."""
        self._string, self._start, self._end = string, start, end
        self._ends: List[int] = []
        self._left = iter(self._ends)
        self._over = False
        self._pairs = in_turn(self._parts(first))

    def __iter__(self) -> Iterator[Found]:
        self._refuse_changed()
        return self._pairs

    def __next__(self) -> Found:
        self._refuse_changed()
        return next(self._pairs)

    def _refuse_changed(self) -> None:
        if self._made is not self._automaton._made:
            raise ValueError("underlaying automaton has changed, iterator is not valid anymore")

    def _parts(self, first: Sequence[Found]) -> Iterator[Part[Found]]:
        if first:
            given = iter(first)
            yield given, given
        value_of, lent = self._made.order.__getitem__, self._made.lent
        string, start, end, places = self._string, self._start, self._end, None
        if self._ignores:
            string, kept = _without_space(string[start:end])
            places, start, end = [it + start + self._shift for it in kept], 0, len(string)
        tail = len(self._tail)
        if tail:
            string, start, end = self._tail + string, 0, tail + end  # type: ignore[operator]
        for numbers, _, ends in self._found(string, start, end):
            if tail:
                numbers, ends = _after(tail, numbers, ends)
            ends = self._placed(ends, tail, places)
            self._ends, self._left = ends, iter(ends)
            lent[id(ends)] = ends
            try:
                self._refuse_changed()
                yield self._left, zip(self._left, map(value_of, numbers))
            finally:
                del lent[id(ends)]
            numbers.clear()
        self._refuse_changed()
        self._over = True

    def _placed(self, ends: List[int], tail: int, places: Optional[List[int]]) -> List[int]:
        """Where the last characters of the occurrences are, in the caller's strings."""
        if places is not None:
            return [places[it - 1 - tail] for it in ends]
        move = self._shift - tail - 1
        return [it + move for it in ends]

    def _found(self, string: Word, start: int, end: int) -> Iterator[Any]:
        return native.batches(self._made.every._built, string, start, end, True)

    def set(self, string: Word, reset: bool = False) -> None:
        """Goes on with another string, as if it followed what was searched so far. With `reset` it is searched by itself.

        Places are then counted on from where the search stands: at the end, or else at the last character of the pair that was
        given last. So they are one less than in the strings put together where some pairs were left, as those of pyahocorasick
        are.
        """
        if not isinstance(string, self._made.type):
            raise TypeError("string expected")
        self._refuse_changed()
        ending_there: List[Found] = []
        if reset:
            self._tail, self._shift = string[:0], 0
        else:
            index = self._index()
            if not self._over and index >= self._start:
                there = takewhile(lambda it: it[0] == index + self._shift, self._pairs)
                ending_there = [(place - 1, value) for place, value in there]
            longest = max(map(len, self._made.words), default=1)
            unsettled = self._unsettled(index)
            self._tail = unsettled[max(len(unsettled) - longest + 1, 0):]
            self._shift += max(index, 0)
        self._begin(string, 0, len(string), ending_there)

    def _index(self) -> int:
        """Where the search stands."""
        if self._over:
            return max(self._start, self._end)
        given = len(self._ends) - length_hint(self._left)
        return self._ends[given - 1] - self._shift if given else self._start - 1

    def _unsettled(self, index: int) -> Any:
        """What was searched, up to there."""
        searched: Any = self._string[self._start:index + 1]
        return self._tail + (_without_space(searched)[0] if self._ignores else searched)


class _LongSearch(_Search):
    """The pairs of a leftmost-longest search."""

    def _found(self, string: Word, start: int, end: int) -> Iterator[Any]:
        return native.batches(self._made.longest()._built, string, start, end, False)

    def _unsettled(self, index: int) -> Any:
        """What was searched after the last match."""
        if self._ends:
            return self._string[self._ends[-1] - self._shift + 1:index + 1]
        return super()._unsettled(index)


def _set(pairs: native.Pairs, string: Word, reset: bool) -> None:
    """Goes on with another string. A search that stands where the pairs do takes their place."""
    (kind, *given), search, count, has_ended = pairs.state()
    if search is None:
        search = kind(*given)
        for _ in range(count + has_ended):
            next(search, None)
    search.set(string, reset)
    pairs.go_on(search)


native.use_set(_set)
