"""`dadofennel.Automaton` beside the definitions, computed slowly, and what a bad caller gets."""
import array
import collections
import concurrent.futures
import contextlib
import copy
import gc
import inspect
import io
import mmap
import os
import pickle
import random
import subprocess
import sys
import tempfile
import threading
import types
import unittest
import unittest.mock

import dadofennel
from dadofennel import Automaton, BuildError, Error, Match, _native as native

CASES = int(os.environ.get("CASES", "3000"))
KINDS = ("standard", "leftmost-first", "leftmost-longest")
MANY = "".join(map(chr, range(0x400, 0x480)))

PREFERENCE = {
    "standard": lambda it: (it.end, it.start, it.pattern),
    "leftmost-first": lambda it: (it.start, it.pattern),
    "leftmost-longest": lambda it: (it.start, -it.end, it.pattern),
}


def other_case(text):
    """The text in lower case, in its ASCII letters alone."""
    return text.lower() if isinstance(text, bytes) else "".join(it.lower() if it.isascii() else it for it in text)


def occurrences(patterns, text, start, end, fold=False, anchored=False):
    """All occurrences in `text[start:end]`, by end, start and number."""
    alike = other_case if fold else lambda it: it
    text, found = alike(text), []
    for number, pattern in enumerate(patterns):
        for at in range(start, start + 1 if anchored else end - len(pattern) + 1):
            if at + len(pattern) <= end and text[at:at + len(pattern)] == alike(pattern):
                found.append(Match(number, at, at + len(pattern)))
    return sorted(found, key=PREFERENCE["standard"])


def walk(patterns, kind, text, start, end, fold=False, anchored=False):
    """The matches one after another."""
    def best(at):
        found = occurrences(patterns, text, at, end, fold, anchored) if at <= end else []
        return min(found, key=PREFERENCE[kind], default=None)

    matches, at, last = [], start, None
    while True:
        found = best(at)
        if found and found.start == found.end == last:
            found = best(at + 1)
        if not found:
            return matches
        matches.append(found)
        at = last = found.end


def replaced(text, matches, replacements):
    pieces, at = [], 0
    for found in matches:
        pieces += text[at:found.start], replacements[found.pattern]
        at = found.end
    return text[:0].join(pieces + [text[at:]])


def is_word(it):
    """Whether a character, or a byte, is one of words; nothing is none."""
    return bool(it) and (it.isalnum() or it in ("_", b"_") or max(it if isinstance(it, bytes) else map(ord, it)) >= 0x80)


def all_words(patterns, text, fold=False):
    """All whole words, by end, start and number."""
    return [it for it in occurrences(patterns, text, 0, len(text), fold)
            if not is_word(text[:it.start][-1:]) and not is_word(text[it.end:][:1])]


def words(patterns, kind, text, fold=False):
    """The whole words under a kind one after another."""
    at, found, whole = 0, [], all_words(patterns, text, fold)
    while any(it.start >= at for it in whole):
        found.append(min((it for it in whole if it.start >= at), key=PREFERENCE[kind]))
        at = found[-1].end
    return found


def masked(text, star, found):
    """The text with each character or byte of these occurrences replaced by the star."""
    covered = {at for it in found for at in range(it.start, it.end)}
    return text[:0].join(star if at in covered else text[at:at + 1] for at in range(len(text)))


class Pieces:
    """A reader that gives pieces of certain sizes."""

    def __init__(self, text, sizes):
        self.text, self.at, self.sizes = text, 0, sizes

    def read(self, most):
        low, self.at = self.at, self.at + min(random.choice(self.sizes), most)
        return self.text[low:self.at]


class Cut:
    """A reader of a text that is cut at some places."""

    def __init__(self, text, places):
        self.pieces = [text[low:high] for low, high in zip([0, *places], [*places, len(text)]) if low < high] + [text[:0]]

    def read(self, most):
        return self.pieces.pop(0)


@contextlib.contextmanager
def tuned(part=0, most=0, memory=True):
    """Parts and batches of other sizes, or a `str` whose memory isn't read."""
    before = native.tune(part, most, memory)
    try:
        yield
    finally:
        native.tune(*before)


LIMIT = """
import resource
from dadofennel import Automaton
{made}
with open("/proc/self/statm") as file:
    taken = int(file.read().split()[0]) * resource.getpagesize()
resource.setrlimit(resource.RLIMIT_AS, (taken + (8 << 20),) * 2)
try:
    {call}
except MemoryError as error:
    print(type(error).__name__)
"""
"""A program that makes something, and then calls with 8 MiB of memory to take."""

LIMITED = [
    ("words = [b'%x' % (it * 0x9E3779B97F4A7C15 % 2**64) for it in range(200000)]", "Automaton(words, engine='noncontiguous')"),
    ("it, text = Automaton([b'a']), b'a' * 1000000", "it.replace(text, b'x' * 1000)"),
    ("it, text = Automaton(['é']), '€' * 30000000", "it.find(text)"),
    ("it, text = Automaton([b'a']), bytearray(30000000)", "it.mask_words_in_place(text)"),
    ("it, text = Automaton([b'a']), bytes(30000000)", "it.mask(text)"),
    ("it, text = Automaton(['a']), 'x' * 30000000", "it.mask(text)"),
    ("it = Automaton([b'a' * 2000000], engine='noncontiguous')", "it.stream()"),
    ("it = Automaton([b'a' * 2000000], engine='noncontiguous')", "it.word_stream()"),
    ("it = Automaton([b'a' * 2000000], engine='noncontiguous')", "it.overlapping_word_stream()"),
]


class Random(unittest.TestCase):
    def test_like_the_definitions(self):
        for seed in range(CASES):
            rng = random.Random(seed)
            alphabet = rng.choice(["ab", "aAb", "a b", "ab_ é", "a,€", "aé€", "a😀A", "a?é", "a?€", "aé", "é\x80\xff", "é€😀", "\udc00\ud800a"])
            as_bytes = rng.random() < 0.4

            def word(most):
                text = "".join(rng.choice(alphabet) for _ in range(rng.randint(0, most)))
                return text.encode("utf-8", "surrogatepass") if as_bytes else text

            patterns = [word(rng.choice([1, 2, 4])) for _ in range(rng.randint(0, 5))]
            if not patterns and as_bytes:
                patterns = [b"a"]
            if not as_bytes and rng.random() < 0.3:  # too many characters for a byte each
                patterns.append(MANY)
            kind, start_kind, fold = rng.choice(KINDS), rng.choice(["unanchored", "both", "anchored"]), rng.random() < 0.3
            engine = rng.choice(["auto", "noncontiguous", "contiguous", "dfa"])
            automaton = Automaton(patterns, kind, fold, start_kind=start_kind, engine=engine, prefilter=rng.random() < 0.7)
            self.compare(rng, automaton, patterns, kind, start_kind, fold, word(rng.choice([0, 3, 24])))

    def compare(self, rng, automaton, patterns, kind, start_kind, fold, text):
        start = rng.randint(0, len(text))
        end = rng.randint(start, len(text))
        what = (patterns, kind, start_kind, fold, text, start, end)
        anchored = start_kind == "anchored" or start_kind == "both" and rng.random() < 0.5
        matches = walk(patterns, kind, text, start, end, fold, anchored)
        lent = text
        if isinstance(text, bytes):
            lent = rng.choice([bytes, bytearray, memoryview, lambda it: memoryview(b"x" + it)[1:]])(text)
        self.assertEqual(list(automaton.finditer(lent, start, end, anchored=anchored)), matches, what)
        self.assertEqual(automaton.find(lent, start, end, anchored=anchored), matches[0] if matches else None, what)
        self.assertEqual(automaton.is_match(lent, start, end, anchored=anchored), bool(matches), what)
        if start_kind == "anchored":
            return
        if kind == "standard":
            self.assertEqual(list(automaton.overlapping(lent, start, end)), occurrences(patterns, text, start, end, fold), what)
            self.masks(rng, automaton, patterns, fold, lent, text, what)
            if all(patterns):
                for asked in KINDS:
                    wanted = words(patterns, asked, text, fold)
                    self.assertEqual(list(automaton.find_words(lent, asked)), wanted, (asked, what))
                    self.in_pieces(rng, automaton.word_stream(asked), lent, wanted, (asked, what))
                    reader = Pieces(text, rng.choice([[1], [3], [100]]))
                    self.assertEqual(list(automaton.find_words_stream(reader, asked)), wanted, (asked, what))
                    self.replaced_words(rng, automaton, patterns, asked, lent, text, wanted, what)
                wanted = all_words(patterns, text, fold)
                self.assertEqual(list(automaton.overlapping_words(lent)), wanted, what)
                self.in_pieces(rng, automaton.overlapping_word_stream(), lent, wanted, what, place="end")
                reader = Pieces(text, rng.choice([[1], [3], [100]]))
                self.assertEqual(list(automaton.overlapping_words_stream(reader)), wanted, what)
        replacements = [f"<{number}é>" for number in range(len(patterns))]
        if isinstance(text, bytes):
            replacements = [it.encode() for it in replacements]
        matches = walk(patterns, kind, text, 0, len(text), fold)
        texts = [lent, text[:0], text * 3, text + text[:1]]
        self.assertEqual(automaton.find_each(texts), [list(automaton.finditer(it)) for it in texts], what)
        self.assertEqual(automaton.find_each(iter([lent])), [matches], what)
        self.assertEqual(automaton.is_match_each(texts), [automaton.is_match(it) for it in texts], what)
        wanted = replaced(text, matches, replacements)
        self.assertEqual(automaton.replace(lent, replacements), wanted, what)
        self.assertEqual(automaton.replace(lent, lambda found: replacements[found.pattern]), wanted, what)
        writer, seen = io.BytesIO() if isinstance(text, bytes) else io.StringIO(), []

        def replacement(found):
            seen.append(found)
            return replacements[found.pattern]

        count = automaton.replace_stream(Pieces(text, rng.choice([[1], [1, 2, 3], [7], [100]])), writer, replacement)
        self.assertEqual((writer.getvalue(), count, seen), (wanted, len(matches), matches), what)
        if all(patterns):
            self.in_pieces(rng, automaton.stream(), lent, matches, what)
            reader = Pieces(text, rng.choice([[1], [3], [100]]))
            self.assertEqual(list(automaton.finditer_stream(reader)), matches, what)

    def replaced_words(self, rng, automaton, patterns, kind, lent, text, found, what):
        replacements = [f"<{number}é>" for number in range(len(patterns))]
        if isinstance(text, bytes):
            replacements = [it.encode() for it in replacements]
        wanted = replaced(text, found, replacements)
        self.assertEqual(automaton.replace_words(lent, replacements, kind), wanted, (kind, what))
        reader, writer = Pieces(text, rng.choice([[1], [2, 3], [100]])), io.BytesIO() if isinstance(text, bytes) else io.StringIO()
        count = automaton.replace_words_stream(reader, writer, lambda it: replacements[it.pattern], kind)
        self.assertEqual((writer.getvalue(), count), (wanted, len(found)), (kind, what))

    def masks(self, rng, automaton, patterns, fold, lent, text, what):
        star = rng.choice(["*", "a", "é", "😀"])
        if isinstance(text, bytes):
            star = star.encode()[:1]
        every = masked(text, star, occurrences(patterns, text, 0, len(text), fold))
        whole = masked(text, star, all_words(patterns, text, fold))
        if isinstance(text, bytes):
            for in_place, wanted in ((automaton.mask_in_place, every), (automaton.mask_words_in_place, whole)):
                buffer = bytearray(text)
                in_place(buffer, star[0])
                self.assertEqual(buffer, wanted, (star, what))
        made, of_words = automaton.mask(lent, star), automaton.mask_words(lent, star)
        self.assertEqual((made, type(made)), (every, type(text)), (star, what))
        self.assertEqual((of_words, type(of_words)), (whole, type(text)), (star, what))
        if star in ("*", b"*") and all(patterns):
            self.assertFalse(automaton.is_match(made), what)

    def in_pieces(self, rng, stream, text, matches, what, place="start"):
        """The matches of a text that is pushed in pieces. Each that is given has its `place` at the cut before the push or later."""
        at, given = 0, []
        while at < len(text):
            low, cut = at, stream.cut
            at = min(len(text), at + rng.choice([0, 1, 2, 7]))
            found = stream.push(text[low:at])
            self.assertTrue(cut <= stream.cut <= at, what)
            self.assertTrue(all(cut <= getattr(it, place) and it.start < it.end <= stream.cut for it in found), what)
            given += found
        self.assertEqual(given, matches[:len(given)], what)
        self.assertEqual((given + stream.finish(), stream.cut), (matches, len(text)), what)


class Long(unittest.TestCase):
    """Texts of many batches."""

    def test_batches(self):
        rng = random.Random(7)
        for alphabet in ("abc ", "abé "):
            text = "".join(rng.choice(alphabet) for _ in range(60000))
            words = ["ab", "a", "b b", "c" if "c" in alphabet else "é", "aaaaaaa"]
            starts = [(i, it) for i, it in enumerate(words)]
            found = [Match(number, at, at + len(word)) for number, word in starts
                     for at in range(len(text)) if text.startswith(word, at)]
            found.sort(key=PREFERENCE["standard"])
            automaton = Automaton(words)
            self.assertEqual(list(automaton.overlapping(text)), found)
            matches, at = [], 0
            for it in found:
                if it.start >= at:
                    matches.append(it)
                    at = it.end
            self.assertEqual(list(automaton.finditer(text)), matches)
            part = self.moved(automaton.finditer(text[1000:50000]), 1000)
            self.assertEqual(list(automaton.finditer(text, 1000, 50000)), list(part))
            self.assertEqual(automaton.replace(text, ""), replaced(text, matches, [""] * 5))

    def moved(self, matches, by):
        return (Match(it.pattern, it.start + by, it.end + by) for it in matches)

    def test_stream_of_large_pieces(self):
        text = (b"x" * 99 + b"secret" + b"y" * 95) * 20000
        for kind in KINDS:
            for pattern in (b"secret", b"x" * 70 + b"se"):
                writer = io.BytesIO()
                automaton = Automaton([pattern], kind)
                count = automaton.replace_stream(io.BytesIO(text), writer, b"")
                self.assertEqual((count, writer.getvalue()), (20000, text.replace(pattern, b"")))

    def test_stream_of_many_matches(self):
        for word, other in (("ab", "c"), ("é", "x"), ("b\U0001f600", "é?")):
            text = (word + other) * 60000
            matches = list(Automaton([word, other]).finditer(text))
            self.assertEqual(len(matches), 120000)
            for size in (len(text), 70001):
                stream, given = Automaton([word, other]).stream(), []
                for at in range(0, len(text), size):
                    given += stream.push(text[at:at + size])
                self.assertEqual((given + stream.finish(), stream.cut), (matches, len(text)))
        lent = memoryview(bytearray(b"ab" * 100000))
        self.assertEqual(len(Automaton([b"ba"]).stream().push(lent)), 99999)

    def test_streams_by_threads(self):
        automaton, stream = Automaton([b"ab", b"b"]), Automaton([b"ab"]).stream()
        with concurrent.futures.ThreadPoolExecutor(8) as pool:
            given = list(pool.map(lambda _: len(stream.push(b"ab" * 1000)), range(64)))
            self.assertEqual((sum(given), stream.finish()), (64000, []))
            own = pool.map(lambda _: len(automaton.stream().push(b"ab" * 1000)), range(64))
            self.assertEqual(list(own), [1000] * 64)

    def test_stream_to_a_file(self):
        with tempfile.TemporaryDirectory() as folder:
            with open(folder + "/in", "wb") as file:
                file.write(b"a fox, " * 100000)
            with open(folder + "/in", "rb") as reader, open(folder + "/out", "wb", buffering=0) as writer:
                self.assertEqual(Automaton([b"fox"]).replace_stream(reader, writer, b"sloth"), 100000)
            with open(folder + "/out", "rb") as file:
                self.assertEqual(file.read(), b"a sloth, " * 100000)
            with open(folder + "/in", encoding="ascii") as reader, open(folder + "/out", "w", encoding="utf-8") as writer:
                self.assertEqual(Automaton(["fox"]).replace_stream(reader, writer, "loup-cervier é"), 100000)


    def test_stream_that_does_not_wait(self):
        class Slow(io.RawIOBase):
            """Takes three bytes at a time, and nothing after so many."""

            def __init__(self, most):
                self.taken, self.most = b"", most

            def writable(self):
                return True

            def write(self, data):
                if len(self.taken) >= self.most:
                    return None
                self.taken += data[:3]
                return len(data[:3])

            def read(self, size):
                return None

        automaton = Automaton([b"fox"])
        writer = Slow(100)
        self.assertEqual(automaton.replace_stream(io.BytesIO(b"a fox, a fox"), writer, b"sloth"), 2)
        self.assertEqual(writer.taken, b"a sloth, a sloth")
        self.assertRaises(BlockingIOError, automaton.replace_stream, io.BytesIO(b"a fox, a fox"), Slow(5), b"sloth")
        self.assertRaises(BlockingIOError, automaton.replace_stream, Slow(0), io.BytesIO(), b"sloth")


class Characters(unittest.TestCase):
    """A text beyond ASCII, whose characters are found in CPython's memory or are copied from it."""

    def test_each_width(self):
        class Other(str):
            pass

        for letters in ("é", "€", "😀", "é€", "€😀"):
            for words in (["b"], ["é", "b"], ["€", "b"], ["😀", "b"], ["é", "€", "😀", "b"], [MANY, "b", "€"]):
                text = "".join(letters[i % len(letters)] + "ab"[i % 7 == 0] * (i % 5) for i in range(3000))
                found = [(words.index(it), i, i + 1) for i, it in enumerate(text) if it in words]
                automaton = Automaton(words)
                for same in (text, Other(text), text.encode("utf-8").decode("utf-8")):
                    self.assertEqual(list(automaton.finditer(same)), found)
                    self.assertEqual(list(automaton.overlapping(same, 7, 2000)), [it for it in found if 7 <= it[1] < 2000])
                with tuned(memory=False):
                    self.assertEqual(list(automaton.finditer(text)), found)
                    self.assertEqual(list(automaton.finditer(text, 7, 2000)), [it for it in found if 7 <= it[1] < 2000])

    def test_memory(self):
        """The memory of a `str` is known: how many bytes a character takes where it lies."""
        class Other(str):
            pass

        for text, width in (("", 1), ("a" * 50, 1), ("é" * 50, 1), ("€" * 50, 2), ("😀" * 50, 4), ("aé€😀", 4)):
            text.encode()
            self.assertEqual(native.width_of(text), width)
            self.assertEqual(native.width_of(Other(text)), 1 if text.isascii() else 0)
            with tuned(memory=False):
                self.assertEqual(native.width_of(text), 1 if text.isascii() else 0)
        self.assertRaises(TypeError, native.width_of, b"a")

    def test_memory_that_is_not_read(self):
        """All calls, over each kind of characters, where a `str` is asked for its characters."""
        class Other(str):
            pass

        automaton = Automaton(["b", "bc", "é"])
        for text in ("abc", "abcé", "abcé€", "abcé€😀", "abc" * 3000, "abcé€" * 3000):
            wanted = self.results(automaton, text)
            self.assertEqual(self.results(automaton, Other(text)), wanted)
            with tuned(memory=False):
                self.assertEqual(self.results(automaton, text), wanted)

    def results(self, automaton, text):
        return [
            automaton.find(text), automaton.is_match(text), list(automaton.finditer(text)), list(automaton.overlapping(text, 1, -1)),
            list(automaton.find_words(text)), automaton.replace(text, ["1", "€", "3"]), automaton.mask(text), automaton.mask(text, "€"),
            automaton.replace_words(text, "-"), automaton.find_each([text, text]), automaton.stream().push(text),
        ]

    def test_in_parts(self):
        """A text that is copied a few characters at a time has the same matches."""
        for seed in range(CASES // 3):
            rng = random.Random(seed)
            words = ["".join(rng.choice("ab€") for _ in range(rng.randint(1, 6))) for _ in range(rng.randint(1, 5))]
            text = "".join(rng.choice("ab€") for _ in range(rng.randint(1, 300)))
            automaton = Automaton(words, rng.choice(KINDS))
            start, end = sorted(rng.randint(0, len(text)) for _ in range(2))
            whole = [list(automaton.finditer(text)), list(automaton.finditer(text, start, end))]
            if automaton.kind == "standard":
                whole.append(list(automaton.overlapping(text, start)))
            with tuned(part=1, most=rng.choice([1, 4, 4096])):
                parts = [list(automaton.finditer(text)), list(automaton.finditer(text, start, end))]
                if automaton.kind == "standard":
                    parts.append(list(automaton.overlapping(text, start)))
            self.assertEqual(parts, whole, (words, automaton.kind, text, start, end))

    def test_as_many_as_have_a_byte(self):
        for count in (127, 128):
            words = [chr(0x400 + i) for i in range(count)]
            text = "".join(words) + chr(0x400 + count)
            self.assertEqual(dadofennel._characters.codes_of(words) is None, count == 128)
            self.assertEqual(list(Automaton(words).finditer(text)), [(i, i, i + 1) for i in range(count)])


class Lent(unittest.TestCase):
    """Memory that is lent is neither copied nor let go."""

    automaton = Automaton([b"fox", b"brown"])

    def test_no_copy(self):
        text = bytearray(b"a brown " + b"x" * 10000 + b"fox")
        matches = self.automaton.finditer(text)
        self.assertEqual(next(matches), Match(1, 2, 7))
        self.assertRaises(BufferError, text.append, 1)
        text[-3:] = b"dog"  # the walk reads the same memory
        self.assertEqual(list(matches), [])
        del matches
        text.append(1)

    def test_mmap(self):
        with tempfile.TemporaryFile() as file:
            file.write(b"x" * 5000 + b"fox")
            file.flush()
            with mmap.mmap(file.fileno(), 0, access=mmap.ACCESS_READ) as text:
                self.assertEqual(list(self.automaton.finditer(text)), [Match(0, 5000, 5003)])
                self.assertEqual(self.automaton.replace(text, lambda found: b"!"), b"x" * 5000 + b"!")
                matches = self.automaton.finditer(text)
                next(matches)
                self.assertRaises(BufferError, text.close)
                del matches

    def test_other_buffers(self):
        self.assertEqual(self.automaton.find(array.array("I", b"fox!" * 2)), Match(0, 0, 3))
        self.assertEqual(self.automaton.replace(array.array("I", b"fox!" * 2), lambda found: b""), b"!!")
        self.assertEqual(self.automaton.find(memoryview(b"xfoxx")[1:4]), Match(0, 0, 3))
        self.assertRaises(BufferError, self.automaton.find, memoryview(b"f.o.x.")[::2])
        for nothing in (b"", bytearray(), memoryview(b"")):
            self.assertIsNone(self.automaton.find(nothing))
            self.assertEqual(Automaton([b""]).find(nothing), Match(0, 0, 0))
            self.assertEqual(Automaton([b""]).replace(nothing, b"-"), b"-")

    def test_an_iterator_keeps_what_it_reads(self):
        matches = Automaton([b"fox"]).finditer(bytearray(b"a fox " * 100))
        self.assertEqual(sum(1 for _ in matches), 100)
        matches = Automaton(["fox"]).overlapping("a fox " * 100)
        self.assertEqual(sum(1 for _ in matches), 100)


class Callers(unittest.TestCase):
    """Errors, and what a caller may ask."""

    def test_types(self):
        for wrong in ("fox", b"fox"):
            self.assertRaises(TypeError, Automaton, wrong)
        for wrong in (["fox", b"fox"], [5], [None], [[5]], 5):
            self.assertRaises(TypeError, Automaton, wrong)
        of_text, of_bytes = Automaton(["fox"]), Automaton([b"fox"])
        for call in ("find", "finditer", "overlapping", "is_match"):
            self.assertRaises(TypeError, getattr(of_text, call), b"fox")
            self.assertRaises(TypeError, getattr(of_bytes, call), "fox")
            self.assertRaises(TypeError, getattr(of_bytes, call), 5)
        self.assertRaises(TypeError, of_text.replace, "fox", b"dog")
        self.assertRaises(TypeError, of_bytes.replace, b"fox", ["dog"])
        self.assertRaises(TypeError, of_bytes.replace, b"fox", [3])
        self.assertRaises(TypeError, of_text.replace, b"fox", "dog")

    def test_settings(self):
        for name, value in (("kind", "x"), ("start_kind", ""), ("engine", "packed"), ("dense_depth", -1), ("row_memory", 1 << 64)):
            self.assertRaises(ValueError, Automaton, [b"a"], **{name: value})
        for pairs in ([(48, 48)], [(48, 49), (49, 50)]):
            self.assertRaises(BuildError, Automaton, [b"a"], pairs=pairs)
        self.assertRaises(BuildError, Automaton, [b"a"], fold=True, pairs=[(48, 49)])
        for pairs in ([(48,)], [("é", "e")], [(48, 256)]):
            self.assertRaises(ValueError, Automaton, ["a"], pairs=pairs)
        self.assertEqual(list(Automaton(["0"], pairs=[("0", "1")]).finditer("2101")), [Match(0, i, i + 1) for i in (1, 2, 3)])
        self.assertEqual(Automaton([b"\xff"], pairs=[(255, b"\0")]).find(b"1\0"), Match(0, 1, 2))
        plain = Automaton(["a", "ab"], dense_depth=0, byte_classes=False, row_memory=0, engine="contiguous")
        self.assertEqual(plain.find("xab"), Match(0, 1, 2))
        self.assertEqual((plain.kind, plain.engine, plain.start_kind, plain.fold), ("standard", "contiguous", "unanchored", False))
        self.assertEqual(plain.patterns, ("a", "ab"))
        self.assertGreater(plain.memory, 0)
        self.assertIn("2 patterns", repr(plain))

    def test_searches_that_it_was_not_built_for(self):
        leftmost, anchored = Automaton(["a"], "leftmost-first"), Automaton(["a"], start_kind="anchored")
        for call in (
            lambda: leftmost.overlapping("a"), lambda: leftmost.find("a", anchored=True),
            lambda: leftmost.finditer("a", anchored=True), lambda: anchored.find("a"), lambda: anchored.finditer("a"),
            lambda: anchored.overlapping("a"), lambda: leftmost.mask("a"), lambda: anchored.mask("a"),
            lambda: leftmost.find_words("a"), lambda: anchored.find_words("a"), lambda: Automaton(["a", ""]).find_words("a"),
            lambda: leftmost.overlapping_words("a"), lambda: anchored.overlapping_words("a"),
            lambda: Automaton(["a", ""]).overlapping_words("a"), lambda: leftmost.mask_words("a"), lambda: anchored.mask_words("a"),
            leftmost.word_stream, anchored.word_stream, Automaton(["a", ""]).word_stream, leftmost.overlapping_word_stream,
            anchored.overlapping_word_stream, Automaton(["a", ""]).overlapping_word_stream,
            lambda: anchored.replace("a", ["b"]), lambda: anchored.replace_stream(io.StringIO("a"), io.StringIO(), "b"),
        ):
            self.assertRaises(Error, call)

    def test_streams(self):
        self.assertRaises(Error, Automaton(["a"], start_kind="anchored").stream)
        self.assertRaises(Error, Automaton(["a", ""]).stream)
        stream = Automaton(["append", "appendage", "app"], "leftmost-longest").stream()
        self.assertEqual((stream.push("an append"), stream.cut), ([], 0))
        self.assertRaises(TypeError, stream.push, b"ing")
        self.assertRaises(TypeError, stream.push, 7)
        self.assertEqual((stream.push("ing appendag"), stream.cut), ([Match(0, 3, 9)], 12))
        self.assertEqual((stream.finish(), stream.cut, stream.finish()), ([Match(0, 13, 19)], 21, []))
        self.assertRaises(Error, stream.push, "e")
        self.assertRaises(TypeError, Automaton([b"a"]).stream().push, "a")
        empty = Automaton([]).stream()
        self.assertEqual((empty.push("é"), empty.finish(), empty.cut), ([], [], 1))
        self.assertRaises(TypeError, empty.push, b"a")
        self.assertEqual(list(Automaton([b"a"]).finditer_stream(io.BytesIO(b"aba"))), [Match(0, 0, 1), Match(0, 2, 3)])

    def test_streams_of_words(self):
        stream = Automaton(["new", "new york"]).word_stream("leftmost-longest")
        self.assertEqual((stream.push("new"), stream.cut), ([], 0))
        self.assertEqual((stream.push(" york"), stream.cut), ([], 0))
        self.assertEqual((stream.push("er, "), stream.cut), ([Match(0, 0, 3)], 12))
        self.assertEqual((stream.push("new york"), stream.cut), ([], 12))
        self.assertEqual((stream.finish(), stream.cut, stream.finish()), ([Match(1, 12, 20)], 20, []))
        self.assertRaises(Error, stream.push, "e")
        plain = Automaton([b"new"]).word_stream()
        self.assertEqual((plain.push(b"new"), plain.push(b"."), plain.finish()), ([], [Match(0, 0, 3)], []))
        self.assertRaises(TypeError, plain.push, "a")
        self.assertRaises(ValueError, Automaton([b"a"]).word_stream, "longest")

    def test_streams_of_all_words(self):
        text, words = "ä new york times", [Match(0, 2, 10), Match(2, 6, 10), Match(1, 6, 16)]
        for cut in range(len(text) + 1):
            stream = Automaton(["new york", "york times", "york"]).overlapping_word_stream()
            first = stream.push(text[:cut])
            self.assertEqual((first, stream.cut), (words[:2] if cut > 10 else [], cut))
            self.assertEqual(first + stream.push(text[cut:]), words[:2])
            self.assertEqual((stream.finish(), stream.cut, stream.finish()), (words[2:], len(text), []))
            self.assertRaises(Error, stream.push, "e")
        plain = Automaton([b"new", b"new york"]).overlapping_word_stream()
        self.assertEqual((plain.push(b"new york"), plain.push(b"er"), plain.finish()), ([Match(0, 0, 3)], [], []))
        self.assertRaises(TypeError, plain.push, "a")
        reader = io.BytesIO(b"new york")
        self.assertEqual(
            list(Automaton([b"new", b"new york"]).overlapping_words_stream(reader)), [Match(0, 0, 3), Match(1, 0, 8)],
        )

    def test_words(self):
        cat = Automaton(["cat"])
        for text, places in (
            ("concatenate", []), ("cat", [0]), ("cat, a cat", [0, 7]), ("cat_ _cat cat.", [10]), ("ücat catü -cat-", [11]),
            ("cat9 9cat Cat", []), ("", []), ("x" * 9000 + " cat", [9001]), ("ü" * 9000 + " cat", [9001]), ("cat " * 3000, range(0, 12000, 4)),
        ):
            for kind in KINDS:
                self.assertEqual(list(cat.find_words(text, kind)), [Match(0, at, at + 3) for at in places], (text, kind))
        raw = Automaton([b"new", b"new york"])
        text = b"new yorker, new york"
        for kind, last in zip(KINDS, (Match(0, 12, 15), Match(0, 12, 15), Match(1, 12, 20))):
            for lent in (text, bytearray(text), memoryview(text)):
                self.assertEqual(list(raw.find_words(lent, kind)), [Match(0, 0, 3), last])
            self.assertEqual(list(Automaton(["new", "new york"]).find_words(text.decode(), kind)), [Match(0, 0, 3), last])
        self.assertEqual(list(raw.find_words(text)), [Match(0, 0, 3), Match(0, 12, 15)])
        self.assertEqual(list(Automaton([]).find_words("cat")), [])
        self.assertEqual(list(raw.overlapping_words(text)), [Match(0, 0, 3), Match(0, 12, 15), Match(1, 12, 20)])
        for many in ("cat " * 3000, "é cat " * 3000):
            self.assertEqual(list(cat.overlapping_words(many)), list(cat.find_words(many)))
        self.assertRaises(TypeError, cat.overlapping_words, b"cat")
        self.assertRaises(ValueError, cat.find_words, "cat", "longest")
        self.assertRaises(TypeError, cat.find_words, b"cat")
        self.assertRaises(TypeError, raw.find_words, "new")

    def both_replaced(self, automaton, text, replacements, kind, wanted):
        """`replace_words`, and `replace_words_stream` with the text cut at each place, at each two places, and everywhere."""
        self.assertEqual(automaton.replace_words(text, replacements, kind), wanted, (text, kind))
        cuts = [[at] for at in range(len(text) + 1)] + [range(len(text))]
        cuts += [(low, high) for high in range(len(text)) for low in range(high)] if len(text) < 30 else []
        found = len(list(automaton.find_words(text, kind)))
        for places in cuts:
            writer = io.StringIO() if isinstance(text, str) else io.BytesIO()
            count = automaton.replace_words_stream(Cut(text, places), writer, replacements, kind)
            self.assertEqual((writer.getvalue(), count), (wanted, found), (text, kind, places))

    def test_replaced_words(self):
        for fold, text, wanted in (
            (False, "concatenate", "concatenate"), (False, "cat", "dog"), (False, "cat, a cat", "dog, a dog"), (False, "cats cat", "cats dog"),
            (False, "cat_ _cat cat.", "cat_ _cat dog."), (False, "ücat catü -cat-", "ücat catü -dog-"), (False, "ü cat ü", "ü dog ü"),
            (False, "cat9 9cat Cat", "cat9 9cat Cat"), (True, "Cat CAT cAtS", "dog dog cAtS"), (True, "ÜCAT cat€CAT (CAT)", "ÜCAT cat€CAT (dog)"),
            (False, "", ""), (False, "catcat cat cat", "catcat dog dog"),
        ):
            for kind in KINDS:
                for replacements in ("dog", ["dog"], ("dog",), {"cat": "dog"}, lambda found: "dog"):
                    self.both_replaced(Automaton(["cat"], fold=fold), text, replacements, kind, wanted)
                raw = Automaton([b"cat"], fold=fold)
                for replacements in (b"dog", [b"dog"], {b"cat": bytearray(b"dog")}):
                    self.both_replaced(raw, text.encode(), replacements, kind, wanted.encode())
        raw = Automaton([b"cat"])
        self.assertEqual(raw.replace_words(bytearray(b"cat cats"), b""), b" cats")
        self.assertEqual(raw.replace_words(memoryview(b"x cat cats")[2:], [b"dog"]), b"dog cats")

    def test_replaced_words_of_each_kind(self):
        text = "new yorker, new york"
        for patterns, kind, wanted in (
            (["new", "new york"], "standard", "N yorker, N york"), (["new", "new york"], "leftmost-first", "N yorker, N york"),
            (["new", "new york"], "leftmost-longest", "N yorker, NY"), (["new york", "new"], "standard", "N yorker, N york"),
            (["new york", "new"], "leftmost-first", "N yorker, NY"), (["new york", "new"], "leftmost-longest", "N yorker, NY"),
            (["york", "new york"], "standard", "new yorker, NY"), (["york", "new york"], "leftmost-first", "new yorker, NY"),
            (["new yorke", "york"], "leftmost-longest", "new yorker, new Y"),
        ):
            instead = {"new": "N", "new york": "NY", "york": "Y", "new yorke": "?"}
            self.both_replaced(Automaton(patterns), text, [instead[it] for it in patterns], kind, wanted)
            self.both_replaced(Automaton(patterns), text, {it: instead[it] for it in patterns}, kind, wanted)
            self.both_replaced(Automaton([it.encode() for it in patterns]), text.encode(), [instead[it].encode() for it in patterns], kind,
                               wanted.encode())
        wide = "€" + text + " 😀"
        self.both_replaced(Automaton(["new", "new york", MANY]), wide, ["N", "NY", ""], "leftmost-longest", "€new yorker, NY 😀")

    def test_replaced_words_that_are_refused(self):
        automaton = Automaton(["cat"])
        self.assertRaises(ValueError, automaton.replace_words, "cat", "dog", "longest")
        self.assertRaises(TypeError, automaton.replace_words, b"cat", "dog")
        self.assertRaises(TypeError, automaton.replace_words, "cat", b"dog")
        self.assertRaises(ValueError, automaton.replace_words, "cat", ["dog"] * 2)
        self.assertRaises(ValueError, automaton.replace_words, "cat", {"dog": "cat"})
        for wrong in (Automaton(["cat"], "leftmost-first"), Automaton(["cat", ""]), Automaton(["cat"], start_kind="anchored")):
            self.assertRaises(Error, wrong.replace_words, "cat", "dog")
            self.assertRaises(Error, wrong.replace_words_stream, io.StringIO("cat"), io.StringIO(), "dog")
        writer = io.StringIO()
        for replacements in ({"dog": "cat"}, ["dog"] * 2, b"dog", {"dog"}):
            self.assertRaises((TypeError, ValueError), automaton.replace_words_stream, io.StringIO("cat"), writer, replacements)
        self.assertRaises(ValueError, automaton.replace_words_stream, io.StringIO("cat"), writer, "dog", "longest")
        self.assertEqual(writer.getvalue(), "")
        self.assertEqual(Automaton([]).replace_words("cat", []), "cat")

    def test_each(self):
        automaton = Automaton(["fox", "é"])
        texts = ["a fox", "", "é€", "a" * 5000 + "fox", "fox" * 100, "é fox " * 3000]
        wanted = [[tuple(it) for it in automaton.finditer(text)] for text in texts]
        self.assertEqual(automaton.find_each(texts), wanted)
        self.assertEqual(automaton.find_each(tuple(texts)), wanted)
        self.assertEqual(automaton.find_each(it for it in texts), wanted)
        self.assertEqual(automaton.find_each({"a fox": 1}), wanted[:1])
        self.assertEqual((automaton.find_each([]), automaton.is_match_each([])), ([], []))
        self.assertEqual(automaton.is_match_each(texts), [True, False, True, True, True, True])
        self.assertTrue(all(type(it) is Match for found in automaton.find_each(texts) for it in found))
        raw = Automaton([b"fox"])
        self.assertEqual(raw.find_each([b"a fox", bytearray(b"fox"), memoryview(b"xfox")[1:], b""]),
                         [[Match(0, 2, 5)], [Match(0, 0, 3)], [Match(0, 0, 3)], []])
        for wrong in (["a", b"a"], ["a", None], ["a", float("nan")], [1]):
            self.assertRaises(TypeError, automaton.find_each, wrong)
            self.assertRaises(TypeError, automaton.is_match_each, wrong)
        self.assertRaises(Error, Automaton(["a"], start_kind="anchored").find_each, ["a"])
        self.assertRaises(Error, Automaton(["a"], start_kind="anchored").is_match_each, [])
        self.assertEqual(Automaton(["a", "ab"], "leftmost-longest").find_each(["ab", "a"]), [[Match(1, 0, 2)], [Match(0, 0, 1)]])

    def test_masks(self):
        automaton = Automaton(["abc", "cde", "été"])
        self.assertEqual(automaton.mask("xabcdex, été"), "x*****x, ***")
        self.assertEqual(automaton.mask("xabcdex, été", "█"), "x█████x, ███")
        self.assertEqual(Automaton([]).mask("ab"), "ab")
        self.assertEqual(Automaton([]).mask(b"ab"), b"ab")
        raw = Automaton([b"ab"])
        self.assertEqual((raw.mask(b"aabb"), raw.mask(bytearray(b"aabb"), 0)), (b"a**b", b"a\0\0b"))
        buffer = bytearray(b"abab.")
        raw.mask_in_place(memoryview(buffer)[1:])
        self.assertEqual(bytes(buffer), b"ab**.")
        for wrong in ("", "**", "é" * 2):
            self.assertRaises(ValueError, automaton.mask, "abc", wrong)
        for wrong in (b"", b"**", 256, -1):
            self.assertRaises(ValueError, raw.mask, b"ab", wrong)
        self.assertRaises(TypeError, automaton.mask, "abc", b"*")
        self.assertRaises(TypeError, automaton.mask, b"abc")
        self.assertRaises(TypeError, raw.mask, b"ab", "*")
        self.assertRaises(TypeError, raw.mask, "ab")
        self.assertRaises(TypeError, automaton.mask_in_place, bytearray(b"abc"))
        self.assertRaises(BufferError, raw.mask_in_place, b"ab")

    def test_masked_words(self):
        automaton = Automaton(["new york", "york times", "été"])
        self.assertEqual(automaton.mask_words("a new york times, new yorker, été été€"), "a **************, new yorker, *** été€")
        self.assertEqual(automaton.mask_words("new york.", "█"), "████████.")
        raw = Automaton([b"cat"])
        self.assertEqual((raw.mask_words(b"cat cats"), raw.mask_words(bytearray(b"cat cats"), 0)), (b"*** cats", b"\0\0\0 cats"))
        buffer = bytearray(b"xcat cat.")
        raw.mask_words_in_place(memoryview(buffer)[1:])
        self.assertEqual(bytes(buffer), b"x*** ***.")
        self.assertRaises(ValueError, automaton.mask_words, "new york", "**")
        self.assertRaises(TypeError, automaton.mask_words, b"new york")
        self.assertRaises(TypeError, raw.mask_words, b"cat", "*")
        self.assertRaises(BufferError, raw.mask_words_in_place, b"cat")

    def test_replacements(self):
        automaton = Automaton(["a", "b"])
        self.assertRaises(ValueError, automaton.replace, "ab", ["x"])
        self.assertRaises(ValueError, automaton.replace, "ab", ["x"] * 3)
        self.assertEqual(automaton.replace("cab", "-"), "c--")
        self.assertEqual(automaton.replace("cab", ("1", "22")), "c122")
        self.assertEqual(Automaton([]).replace("cab", []), "cab")
        self.assertRaises(ZeroDivisionError, automaton.replace, "ab", lambda found: 1 / 0)

    def replaced_both_ways(self, automaton, text, replacements):
        """What `replace` and `replace_stream` make of a text; what they raise is the same, and nothing is written then."""
        reader, writer = (io.StringIO(text), io.StringIO()) if isinstance(text, str) else (io.BytesIO(text), io.BytesIO())
        results = []
        for call in (lambda: automaton.replace(text, replacements),
                     lambda: automaton.replace_stream(reader, writer, replacements) and writer.getvalue()):
            try:
                results.append(call())
            except (TypeError, ValueError) as error:
                results.append(type(error))
        if isinstance(results[0], type):
            self.assertFalse(writer.getvalue())
        self.assertEqual(*results)
        return results[0]

    def test_replacements_by_pattern(self):
        for patterns, settings, replacements, text, wanted in (
            (["a", "b"], {}, {"b": "1", "a": "22"}, "cab", "c221"),
            (["a", "é"], {}, {"é": "e", "a": "€"}, "caé😀", "c€e😀"),
            (["b", "b"], {}, {"b": "x"}, "abb", "axx"),
            (["", "b"], {}, {"b": "x", "": "-"}, "é", "-é-"),
            (["Fox"], {"fold": True}, {"Fox": "x"}, "fox FOX", "x x"),
            (["fox", "Fox"], {"fold": True}, {"Fox": "2", "fox": "1"}, "fox Fox", "1 1"),
            ([MANY, "b"], {}, {MANY: "1", "b": "2"}, MANY + "ab", "1a2"),
            ([b"a", b"\xff"], {}, {b"a": b"", b"\xff": bytearray(b"xy")}, b"a\xffb", b"xyb"),
            ([bytearray(b"a")], {}, {memoryview(b"a"): memoryview(b"x")}, b"ba", b"bx"),
            (["a", "b"], {}, collections.defaultdict(lambda: "-", a="x"), "cab", "cx-"),
            (["a", "b"], {}, types.MappingProxyType({"a": "1", "b": "2"}), "cab", "c12"),
            (["a", "b"], {}, collections.ChainMap({"a": "1"}, {"b": "2"}), "cab", "c12"),
        ):
            self.assertEqual(self.replaced_both_ways(Automaton(patterns, **settings), text, replacements), wanted, replacements)
        self.assertEqual(Automaton([]).replace("cab", {}), "cab")

    def test_what_is_no_replacement(self):
        both = {"fox": "x", "bear": "y"}
        for patterns, settings, replacements, error in (
            (["fox", "bear"], {}, {"fox": "x"}, ValueError),
            (["fox", "bear"], {}, dict(both, wolf="z"), ValueError),
            (["Fox"], {"fold": True}, {"fox": "x"}, ValueError),
            (["Fox"], {"fold": True}, {"Fox": "x", "fox": "x"}, ValueError),
            (["fox"], {}, {b"fox": "x"}, TypeError),
            (["fox"], {}, {0: "x"}, TypeError),
            (["fox"], {}, {"fox": b"x"}, TypeError),
            (["fox"], {}, {"fox": None}, TypeError),
            ([b"fox"], {}, {"fox": b"x"}, TypeError),
            ([b"fox"], {}, {b"fox": "x"}, TypeError),
            ([b"fox"], {}, {b"fox": 3}, TypeError),
            ([], {}, {"fox": "x"}, ValueError),
            (["fox", "bear"], {}, set(both.values()), TypeError),
            (["fox", "bear"], {}, frozenset(both.values()), TypeError),
            (["fox", "bear"], {}, iter("xy"), TypeError),
            (["fox", "bear"], {}, (it for it in "xy"), TypeError),
            (["fox", "bear"], {}, both.values(), TypeError),
            (["fox", "bear"], {}, both.items(), TypeError),
            (["fox", "bear"], {}, list(both.items()), TypeError),
            (["fox"], {}, None, TypeError),
            (["fox"], {}, 5, TypeError),
            (["fox"], {}, [None], TypeError),
            (["fox"], {}, b"x", TypeError),
            ([b"fox"], {}, "x", TypeError),
            ([b"fox"], {}, range(1), TypeError),
            ([b"fox"], {}, array.array("B", b"x"), TypeError),
            ([b"fox"], {}, [b"x", b"y"], ValueError),
        ):
            automaton = Automaton(patterns, **settings)
            text = "a fox" if all(isinstance(it, str) for it in patterns) else b"a fox"
            self.assertEqual(self.replaced_both_ways(automaton, text, replacements), error, replacements)

    def test_spans(self):
        automaton = Automaton(["b"])
        self.assertEqual(automaton.find("abab", -2), Match(0, 3, 4))
        self.assertEqual(automaton.find("abab", 2, 99), Match(0, 3, 4))
        self.assertIsNone(automaton.find("abab", 3, 1))
        self.assertEqual(automaton.find("ébéb", 2), Match(0, 3, 4))
        self.assertEqual(automaton.find("ab", earliest=True).span, (1, 2))

    def test_memory_runs_out(self):
        with unittest.mock.patch.object(native, "build", lambda *arguments: (native.NO_MEMORY, None, 0, 0)):
            self.assertRaises(MemoryError, Automaton, [b"a"])

    @unittest.skipIf("asan" in os.environ.get("LD_PRELOAD", ""), "AddressSanitizer takes the memory that there is")
    def test_memory_that_is_limited(self):
        # a build frees tens of megabytes: with a threshold glibc gives such blocks back, and keeps none that a call could then take
        environment = dict(os.environ, MALLOC_MMAP_THRESHOLD_="65536")
        for made, call in LIMITED:
            done = subprocess.run([sys.executable, "-c", LIMIT.format(made=made, call=call)], env=environment, stdout=subprocess.PIPE, timeout=60)
            self.assertEqual((done.returncode, done.stdout), (0, b"MemoryError\n"), call)

    def test_no_patterns(self):
        automaton = Automaton([])
        self.assertEqual((list(automaton.finditer("a")), list(automaton.overlapping(b"a"))), ([], []))
        self.assertFalse(automaton.is_match(""))

    def test_pickled(self):
        for automaton in (Automaton(["é", "b"], "leftmost-longest", True), Automaton([b"a"], start_kind="both", pairs=[(48, 49)])):
            again = pickle.loads(pickle.dumps(automaton))
            self.assertEqual((again.patterns, again.kind, again.fold, again.start_kind, again._built.settings),
                             (automaton.patterns, automaton.kind, automaton.fold, automaton.start_kind, automaton._built.settings))
        self.assertIs(copy.copy(automaton), automaton)
        self.assertIs(copy.deepcopy(automaton), automaton)
        self.assertEqual(pickle.loads(pickle.dumps(Error(14))).status, 14)

    def test_the_first_match_is_found_without_reading_on(self):
        text = bytearray(b"fox" + b"x" * (1 << 20) + b"fox")
        matches = Automaton([b"fox"]).finditer(text)
        self.assertEqual(next(matches), Match(0, 0, 3))
        text[-3:] = b"dog"
        self.assertIsNone(next(matches, None))


class Threads(unittest.TestCase):
    def test_one_automaton(self):
        automaton = Automaton([b"fox", b"quick", b"x"])
        text = b"y" * 3000 + b"quick" + b"x" * 50
        wanted, wrong = list(automaton.finditer(text)), []

        def search():
            for _ in range(50):
                if list(automaton.finditer(text)) != wanted or automaton.replace(text, b"") != b"y" * 3000:
                    wrong.append(1)

        threads = [threading.Thread(target=search) for _ in range(16)]
        for thread in threads:
            thread.start()
        for thread in threads:
            thread.join()
        self.assertEqual(wrong, [])

    def others_run(self, call):
        """Whether another thread runs while this one calls. Threads don't take turns but where the lock is let go of."""
        ran, go = [], threading.Event()

        def other():
            go.wait()
            ran.append(None)

        thread, before = threading.Thread(target=other), sys.getswitchinterval()
        sys.setswitchinterval(1000)
        try:
            thread.start()
            go.set()
            call()
            return bool(ran)
        finally:
            sys.setswitchinterval(before)
            thread.join()

    def test_the_lock_is_let_go(self):
        """While one thread searches a long text, another one runs; it doesn't while one searches a short text."""
        raw, text = Automaton([b"fox"]), Automaton(["fox", "é"])
        long, wide = bytearray(b"x" * (1 << 24)), "x€" * (1 << 22)
        for call in (
            lambda: raw.find(long), lambda: raw.is_match(long), lambda: list(raw.finditer(long)), lambda: list(raw.overlapping(long)),
            lambda: list(raw.find_words(long)), lambda: list(raw.overlapping_words(long)), lambda: raw.find_each([long]),
            lambda: raw.is_match_each([long]), lambda: raw.replace(long, b""), lambda: raw.mask_in_place(long),
            lambda: raw.mask_words_in_place(long), lambda: raw.stream().push(long), lambda: text.find(wide),
            lambda: Automaton([b"x%d" % it for it in range(30000)]),
        ):
            self.assertTrue(any(self.others_run(call) for _ in range(400)))  # where other work is, it may take many
        short = b"x" * 4096
        for call in (
            lambda: raw.find(short), lambda: list(raw.finditer(short)), lambda: raw.find_each([short] * 9), lambda: raw.replace(short, b""),
            lambda: text.find("x€" * 2000), lambda: raw.mask(short), lambda: list(raw.find_words(short)),
        ):
            self.assertFalse(any(self.others_run(call) for _ in range(5)))


class Numbers(unittest.TestCase):
    def test_words_of_the_header(self):
        """The words stand at the places of their numbers in dadofennel.h."""
        self.assertEqual(native.KINDS, KINDS)
        self.assertEqual(native.START_KINDS, ("unanchored", "anchored", "both"))
        self.assertEqual(native.ENGINES, ("auto", "noncontiguous", "contiguous", "dfa"))
        self.assertEqual([Automaton(["a"], engine=it).engine for it in native.ENGINES[1:]], list(native.ENGINES[1:]))


class Matches(unittest.TestCase):
    """A match that a search makes is as one that a call makes."""

    def test_a_match(self):
        for start in (0, 5, 300, 70000):
            found, made = Automaton([b"x", b"fox"]).find(b"." * start + b"fox"), Match(1, start, start + 3)
            self.assertIs(type(found), Match)
            self.assertEqual((found, hash(found), repr(found), found.span), (made, hash(made), repr(made), (start, start + 3)))
            self.assertEqual(({made: 1}[found], {tuple(made): 1}[found]), (1, 1))
            self.assertEqual((found._replace(start=0), pickle.loads(pickle.dumps(found)), found._asdict()),
                             (Match(1, 0, start + 3), made, made._asdict()))
            number, low, high = found
            self.assertEqual((number, low, high, found[0], found[-1], found + (1,)), (1, start, start + 3, 1, start + 3, (*made, 1)))

    def test_matches_that_stay(self):
        """They are kept while the collector runs, and all that they took is given back."""
        text = "a fox, " * 20000
        for _ in range(3):
            kept = list(Automaton(["fox"]).finditer(text))
            gc.collect()
            self.assertEqual(kept, [Match(0, at, at + 3) for at in range(2, len(text), 7)])
        counted = [self.blocks() for _ in range(4)]
        self.assertLess(counted[-1] - counted[1], 500)

    def test_types_keep_no_reference(self):
        """What is let go of gives back its reference to its type; and a cycle is collected."""
        class Named(str):
            pass

        class Lent(bytearray):
            pass

        def turn():
            for _ in range(100):
                word, text = Named("fox"), Lent(b"a fox " * 2000)
                word.automaton = automaton = Automaton([word])
                automaton.find("a fox€"), automaton.stream(), list(automaton.finditer("x" * 5000)), automaton.finditer("fox"), copy.copy(automaton)
                text.matches = Automaton([b"fox"]).finditer(text)
                next(text.matches)
            gc.collect()

        turn()
        types = [Automaton, type(Automaton(["a"])._built), native.Owner, native.Core, native.Searches, Named, Lent]
        types += map(type, (Automaton(["a"]).finditer("a" * 5000), Automaton(["a"]).finditer("a"), Automaton(["a"]).stream()._pieces))
        before = list(map(sys.getrefcount, types))
        turn()
        for one, count in zip(types, before):
            self.assertLess(abs(sys.getrefcount(one) - count), 20, one)

    def blocks(self):
        automaton = Automaton(["fox", "é"])
        for text in ("a fox, ", "a fox, " * 3000, "é fox€", "€ fox, " * 3000):
            list(automaton.finditer(text))
            next(automaton.overlapping(text))
            automaton.find(text), automaton.replace(text, ["€", "b"]), automaton.mask(text), automaton.find_each([text])
            automaton.find_words(text), automaton.stream().push(text), automaton.replace(text, {"fox": "x", "é": "y"})
            for wrong in (lambda: automaton.find(b""), lambda: automaton.find(), lambda: automaton.replace(text, ["x"]),
                          lambda: automaton.find_each([text, 5]), lambda: automaton.find(text, "x"), lambda: automaton.mask(text, "")):
                self.assertRaises((TypeError, ValueError), wrong)
        gc.collect()
        return sys.getallocatedblocks()


class Arguments(unittest.TestCase):
    """The arguments of the calls, by place and by name."""

    automaton = Automaton(["b"], start_kind="both")

    def test_by_name(self):
        it = self.automaton
        self.assertEqual(it.find(text="abab", start=2, end=4, anchored=False, earliest=True), Match(0, 3, 4))
        self.assertEqual(list(it.finditer(text="abb", start=1, anchored=True)), [Match(0, 1, 2), Match(0, 2, 3)])
        self.assertEqual(list(it.overlapping("abab", end=3)), [Match(0, 1, 2)])
        self.assertEqual(list(it.find_words(kind="standard", text="b")), [Match(0, 0, 1)])
        self.assertEqual((it.replace(replacements="x", text="b"), it.mask(text="b", star="#")), ("x", "#"))
        self.assertEqual((it.find_each(texts=["b"]), it.is_match_each(texts=["b", ""])), ([[Match(0, 0, 1)]], [True, False]))

    def test_wrong_ones(self):
        it = self.automaton
        for wrong in (
            lambda: it.find(), lambda: it.find("a", 0, 1, True), lambda: it.find("a", text="a"), lambda: it.find("a", begin=0),
            lambda: it.finditer("a", 0, 1, True), lambda: it.replace("a"), lambda: it.overlapping("a", anchored=True),
            lambda: it.find("a", "0"), lambda: it.find("a", 0.5), lambda: it.find(None), lambda: it.finditer(5), lambda: it.find_each("ab"),
            lambda: it.find_each(b"ab"), lambda: it.find_each(5), lambda: it.find_each(["a", None]), lambda: it.is_match_each(["a", b"a"]),
            lambda: it.find_each(), lambda: it.replace_words("a"), lambda: Automaton.find("a", "a"),
        ):
            self.assertRaises(TypeError, wrong)
        self.assertRaises(AttributeError, Automaton.__new__(Automaton).find, "a")
        self.assertRaises(ZeroDivisionError, it.find_each, (1 / 0 for _ in "a"))

    def test_signatures(self):
        for name in ("find", "is_match", "finditer", "overlapping", "find_words", "overlapping_words", "replace", "replace_words", "mask",
                     "mask_in_place", "mask_words", "mask_words_in_place", "find_each", "is_match_each"):
            call = getattr(Automaton, name)
            self.assertGreater(len(inspect.signature(call).parameters), 1, name)
            self.assertGreater(len(call.__doc__), 40, name)


class Examples(unittest.TestCase):
    def test_docstrings(self):
        import doctest
        for name in ("dadofennel", "dadofennel._automaton", "dadofennel.ahocorasick"):
            result = doctest.testmod(sys.modules.get(name) or __import__(name, fromlist=["x"]))
            self.assertEqual(result.failed, 0)
            self.assertGreater(result.attempted, 0)

    def test_version(self):
        self.assertRegex(dadofennel.__version__, r"^\d+\.\d+\.\d+$")


if __name__ == "__main__":
    unittest.main()
