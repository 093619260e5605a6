"""The tree of some words by their characters, for the questions about prefixes.

The tree itself isn't kept, but the words in order, with a number for when each came: the words below a node are those from one place to
another, and a node's way is the beginning that they share. A node's ways further are asked for in the order in which they came about,
the last one first. A way came about with the first of its words, and stays as long as some word has it. So where a word is removed, a
word that shares the most with it takes over how far its ways were as old as it.
"""
from array import array
from bisect import bisect_left
from typing import Any, Callable, Dict, Iterator, List, Tuple

Takes = Callable[[int, int], bool]
"""Whether a word of a length is taken, for a pattern of a length."""

Span = Tuple[int, int, int]
"""The words from one place to another, and how many first characters they share on the way to a node."""


def exactly(word: int, pattern: int) -> bool:
    return word == pattern


def at_least(word: int, pattern: int) -> bool:
    return word >= pattern


def at_most(word: int, pattern: int) -> bool:
    return word <= pattern


def shared(one: Any, other: Any) -> int:
    """How many first characters both have."""
    most = min(len(one), len(other))
    if one[:most] == other[:most]:
        return most
    return next(at for at in range(most) if one[at] != other[at])


class Trie:
    def __init__(self, words: List[Any]) -> None:
        """Of words that came in this order."""
        order = sorted(range(len(words)), key=words.__getitem__)
        self._words = [words[it] for it in order]
        self._ages = array("Q", order)
        self._next = len(words)
        self._older: Dict[Any, List[Tuple[int, int]]] = {}

    def add(self, word: Any) -> None:
        """Adds a word that isn't there."""
        at = bisect_left(self._words, word)
        self._words.insert(at, word)
        self._ages.insert(at, self._next)
        self._next += 1

    def remove(self, word: Any) -> None:
        """Removes a word that is there, and the nodes that only it has."""
        at = bisect_left(self._words, word)
        older = self._older.pop(word, []) + [(len(word), self._ages[at])]
        del self._words[at], self._ages[at]
        depth, heir = max(((shared(it, word), it) for it in self._words[max(at - 1, 0):at + 1]), default=(0, word))
        if depth:
            self._older[heir] = oldest(self._older.get(heir, []) + [(min(it, depth), age) for it, age in older])

    def has(self, prefix: Any) -> bool:
        """Whether some word begins so."""
        at = bisect_left(self._words, prefix)
        return not prefix or at < len(self._words) and self._words[at].startswith(prefix)

    def depth(self, word: Any) -> int:
        """How many of its first characters some word begins with."""
        at = bisect_left(self._words, word)
        return max((shared(it, word) for it in self._words[max(at - 1, 0):at + 1]), default=0)

    def nodes(self) -> int:
        """How many nodes there are: one of each beginning of a word, and the empty one."""
        words = self._words
        return 1 + sum(map(len, words)) - sum(map(shared, words, words[1:]))

    def graph(self) -> Iterator[Tuple[Any, bool, List[Any]]]:
        """Each node, and after it the nodes below: its way, whether a word ends there, and the characters that lead further."""
        stack: List[Span] = [(0, len(self._words), 0)]
        while stack:
            low, high, depth = stack.pop()
            word = self._words[low]
            ends = len(word) == depth
            below = self.children(low + ends, high, depth)
            yield word[:depth], ends, [self._words[it][depth:depth + 1] for it, _, _ in below]
            stack += reversed(below)

    def words(self, pattern: Any, wildcard: Any, takes: Takes) -> Iterator[Any]:
        """The words that the pattern takes, from the node that came last.

        Each character of the pattern stands for itself, and the wildcard, where there is one, for any.
        """
        words, length = self._words, len(pattern)
        stack: List[Span] = [(0, len(words), 0)]
        while stack:
            low, high, depth = stack.pop()
            if low == high:
                continue
            first = words[low]
            if len(first) == depth:
                if takes(depth, length):
                    yield first
                low += 1
            elif high - low == 1 and depth >= length:  # the one word below
                if takes is at_least:
                    yield first
                continue
            if depth >= length:
                if takes is at_least:
                    stack += self.children(low, high, depth)
            elif wildcard and pattern[depth] == wildcard[0]:
                stack += self.children(low, high, depth)
            else:
                stack.append(self._child(low, high, depth, pattern[depth]))

    def children(self, low: int, high: int, depth: int) -> List[Span]:
        """The nodes one character further, in the order in which their ways came about."""
        found = []
        while low < high:
            _, end, _ = child = self._child(low, high, depth, self._words[low][depth])
            found.append((self._age(low, end, depth + 1), child))
            low = end
        return [child for _, child in sorted(found)]

    def _child(self, low: int, high: int, depth: int, character: Any) -> Span:
        """The node that a character leads to, with no words where there is none."""
        words = self._words
        low = first(words, low, high, lambda word: bool(word[depth] >= character))
        if low == high or words[low][depth] != character:
            return low, low, depth + 1
        step = 1
        while low + step < high and words[low + step][depth] == character:
            step *= 2
        return low, first(words, low + step // 2, min(low + step, high), lambda word: bool(word[depth] > character)), depth + 1

    def _age(self, low: int, high: int, depth: int) -> int:
        """When the way to a node came about."""
        age = min(self._ages[low:high])
        if self._older:
            for word in self._words[low:high]:
                for reaches, older in self._older.get(word, ()):
                    if reaches >= depth:
                        age = min(age, older)
        return age


def oldest(pairs: List[Tuple[int, int]]) -> List[Tuple[int, int]]:
    """Of depths and ages those that say something: none is both less deep and younger than another."""
    kept: List[Tuple[int, int]] = []
    for depth, age in sorted(pairs, key=lambda it: (-it[0], it[1])):
        if not kept or age < kept[-1][1]:
            kept.append((depth, age))
    return kept


def first(words: List[Any], low: int, high: int, holds: Callable[[Any], bool]) -> int:
    """The first place from `low` to `high` whose word this holds of, as it does of all after it."""
    while low < high:
        middle = (low + high) // 2
        if holds(words[middle]):
            high = middle
        else:
            low = middle + 1
    return low
