"""What a search finds and what a run of `acsub` writes, in Python: docs/REFERENCE.md once more, and nothing of the library.

`compare` holds the library and the program to it. A byte's partner is `other[byte]`, of a table of 256 bytes; patterns are numbered by
their places in a list; an occurrence is a pattern's number, its start and its end.
"""
import re
from collections import namedtuple

Occurrence = namedtuple("Occurrence", "pattern start end")

# The preference of each kind: of several occurrences it takes the least by this.
PREFERENCE = {
    "standard": lambda o: (o.end, o.start, o.pattern),
    "leftmost-first": lambda o: (o.start, o.pattern),
    "leftmost-longest": lambda o: (o.start, -o.end, o.pattern),
}


class Fault(Exception):
    """The line that a run writes on standard error, and its status."""

    def __init__(self, line, status):
        super().__init__(line, status)
        self.line, self.status = line, status


# ---- same bytes


def partners(pairs):
    """The pairing that a list of pairs gives, or a fault where a byte is named twice."""
    named, other = set(), bytearray(range(256))
    for a, b in pairs:
        for byte in (a, b):
            if byte in named:
                raise Fault(f"setting: byte {byte} is named twice", 2)
            named.add(byte)
        other[a], other[b] = b, a
    return bytes(other)


UNPAIRED = partners([])
FOLDED = partners(zip(b"ABCDEFGHIJKLMNOPQRSTUVWXYZ", b"abcdefghijklmnopqrstuvwxyz"))


def canonical(other):
    """The lesser of each byte and its partner. Two bytes are the same exactly where these are equal."""
    return bytes(min(byte, other[byte]) for byte in range(256))


# ---- what is found


def occurrences(patterns, other, haystack, start, end):
    """All patterns that lie whole in the span and are the same as the text there, an empty one at every place of it."""
    found, table = [], canonical(other)
    text = haystack.translate(table)
    for number, pattern in enumerate(patterns):
        word = pattern.translate(table)
        at = text.find(word, start, end)
        while at >= 0:
            found.append(Occurrence(number, at, at + len(word)))
            at = text.find(word, at + 1, end)
    return found


def is_word_byte(byte):
    """An ASCII letter or digit, `_`, or any byte that isn't ASCII."""
    return bytes([byte]).isalnum() or byte == 0x5F or byte >= 0x80


def whole_words(haystack, found):
    """Those with no word byte just before them, and none just after."""
    at = lambda place: 0 <= place < len(haystack) and is_word_byte(haystack[place])
    return [o for o in found if not at(o.start - 1) and not at(o.end)]


def best(kind, found, at, anchored):
    """The most preferred of those that start at `at` or later, or there where the search is anchored."""
    mine = (o for o in found if (o.start == at if anchored else o.start >= at))
    return min(mine, key=PREFERENCE[kind], default=None)


def walk(kind, found, at, anchored=False):
    """The picks one after another: each the best from the end of the one before. Where that is empty and ends just where the pick
    before it ended, it is the best from one byte further instead."""
    order, first, last, picks = sorted(found, key=PREFERENCE[kind]), 0, None, []

    def best_from(at):
        nonlocal first
        # `at` only rises, so what starts before it is never asked for again; of the rest the first one in this order is the best
        while first < len(order) and order[first].start < at:
            first += 1
        return next((order[i] for i in range(first, len(order)) if not anchored or order[i].start == at), None)

    while True:
        pick = best_from(at)
        if pick and pick.start == pick.end == last:
            pick = best_from(at + 1)
        if pick is None:
            return picks
        picks.append(pick)
        at = last = pick.end


def listing(found):
    """All that occur, by end, start and number."""
    return sorted(found, key=PREFERENCE["standard"])


# ---- what is written


def replaced(haystack, replacements, picks):
    """The haystack, each pick replaced."""
    at, text = 0, []
    for pick in picks:
        text += [haystack[at:pick.start], replacements[pick.pattern]]
        at = pick.end
    return b"".join([*text, haystack[at:]])


def masked(haystack, found, mask):
    """The haystack, each byte of each occurrence replaced by the mask."""
    text = bytearray(haystack)
    for one in found:
        text[one.start:one.end] = bytes([mask]) * (one.end - one.start)
    return bytes(text)


def listed(found):
    """A line for each."""
    return b"".join(b"%d %d %d\n" % o for o in found)


def written(mode, kind, other, rules, haystack, mask=None, word=False):
    """What a run writes. With `word` whole words alone count."""
    found = occurrences([pattern for pattern, _ in rules], other, haystack, 0, len(haystack))
    found = whole_words(haystack, found) if word else found
    if mode == "mask":
        return masked(haystack, found, mask)
    if mode == "overlap":
        return listed(listing(found))
    picks = walk(kind, found, 0)
    return listed(picks) if mode == "list" else replaced(haystack, [replacement for _, replacement in rules], picks)


# ---- rule files

HEX_RULE = re.compile(rb"((?:[0-9A-Fa-f]{2})*)\t((?:[0-9A-Fa-f]{2})*)\n")


def hex_rules(text):
    """The rules of lines `hex TAB hex LF`, or the fault of the first line that is none."""
    rules, at = [], 0
    while at < len(text):
        line = HEX_RULE.match(text, at)
        if line is None:
            raise Fault(f"rules: line {len(rules) + 1}", 3)
        rules.append(tuple(bytes.fromhex(side.decode()) for side in line.groups()))
        at = line.end()
    return rules


def is_foreign(text):
    """Whether a file is no plain text: it begins with a byte order mark, or has a NUL in its first line."""
    return text.startswith((b"\xef\xbb\xbf", b"\xff\xfe", b"\xfe\xff")) or b"\0" in text.partition(b"\n")[0]


def text_rules(text):
    """The rules of lines of plain text, or the fault of the first line that is none, or that has a TAB or none where line 1 has not."""
    if is_foreign(text):
        raise Fault("rules: line 1", 3)
    rules, tabbed = [], b"\t" in text.partition(b"\n")[0]
    while text:
        line, _, text = text.partition(b"\n")
        pattern, tab, replacement = line[:-1 if line.endswith(b"\r") else None].partition(b"\t")
        if not pattern or b"\t" in replacement or bool(tab) != tabbed:
            raise Fault(f"rules: line {len(rules) + 1}", 3)
        rules.append((pattern, replacement))
    return rules


def check(mode, kind, engine, other, rules, mask=None, word=False):
    """Raises the fault of settings that exclude one another or don't suit the rules."""
    if mode == "mask":
        return check_mask(kind, engine, other, rules, mask)
    if mode == "overlap" and kind != "standard":
        raise Fault("setting: overlap needs the standard kind", 2)
    if engine == "packed":
        if kind == "standard":
            raise Fault("setting: packed needs a leftmost kind", 2)
        if other != UNPAIRED:
            raise Fault("setting: packed keeps case", 2)
        if any(not pattern for pattern, _ in rules):
            raise Fault("setting: packed takes no empty pattern", 2)
        if not 1 <= len(rules) <= 128:
            raise Fault("setting: packed takes 1 to 128 patterns", 2)
    if word:
        if engine == "packed":
            raise Fault("word: packed finds no whole words", 2)
        if any(not pattern for pattern, _ in rules):
            raise Fault("word: a pattern is empty", 4)


def check_mask(kind, engine, other, rules, mask):
    """The same for a mask, which has faults of its own."""
    if kind != "standard":
        raise Fault("mask: needs the standard kind", 2)
    if engine == "packed":
        raise Fault("mask: packed finds no overlaps", 2)
    if not rules:
        raise Fault("mask: there are no rules", 4)
    if any(not pattern for pattern, _ in rules):
        raise Fault("mask: a pattern is empty", 4)
    if any(byte in (mask, other[mask]) for pattern, _ in rules for byte in pattern):
        raise Fault(f"mask: byte {mask:02x} occurs in a pattern", 4)
