"""Masks of a text that comes in pieces, beside those of the whole text."""
import io
import os
import pickle
import random
import subprocess
import sys
import threading
import unittest

from dadofennel import Automaton, Error, Masker

CASES = int(os.environ.get("CASES", "3000"))
MANY = "".join(map(chr, range(0x400, 0x480)))


def is_word(it):
    return bool(it) and (it.isalnum() or it in ("_", b"_") or max(it if isinstance(it, bytes) else map(ord, it)) >= 0x80)


def raw(text):
    return text if isinstance(text, bytes) else text.encode("utf-8", "surrogatepass")


def masked(patterns, text, star, whole):
    """The definition: each character of an occurrence is a star; of those that no word character stands beside, if whole words are."""
    covered = set()
    for pattern in patterns:
        for at in range(len(text) - len(pattern) + 1):
            end = at + len(pattern)
            if text[at:end] == pattern and not (whole and (is_word(text[at - 1:at] if at else text[:0]) or is_word(text[end:end + 1]))):
                covered.update(range(at, end))
    return text[:0].join(star if at in covered else text[at:at + 1] for at in range(len(text)))


class Sized:
    """A reader that gives pieces of some sizes."""

    def __init__(self, text, rng, sizes):
        self.text, self.rng, self.sizes, self.at = text, rng, sizes, 0

    def read(self, most):
        low, self.at = self.at, self.at + self.rng.choice(self.sizes)
        return self.text[low:self.at]


class Random(unittest.TestCase):
    def test_like_the_definition(self):
        for seed in range(CASES):
            rng = random.Random(seed)
            alphabet, as_bytes = rng.choice(["ab", "a b", "ab_ é", "aé€", "a 😀", "é\x80 ", "\udc00 a"]), rng.random() < 0.4

            def word(least, most):
                text = "".join(rng.choice(alphabet) for _ in range(rng.randint(least, most)))
                return text.encode("utf-8", "surrogatepass") if as_bytes else text

            patterns = [word(1, rng.choice([2, 4])) for _ in range(rng.randint(1, 4))]
            patterns += [MANY] if not as_bytes and rng.random() < 0.2 else []
            automaton, text = Automaton(patterns, engine=rng.choice(["auto", "contiguous", "noncontiguous"])), word(0, 30)
            star = rng.choice(["*", "a", "é", "😀"])
            star = star.encode()[:1] if as_bytes else star
            for whole, masker, stream in ((False, automaton.masker, automaton.mask_stream),
                                          (True, automaton.word_masker, automaton.mask_words_stream)):
                self.compare(rng, patterns, text, star, whole, masker(star), stream)

    def compare(self, rng, patterns, text, star, whole, masker, stream):
        wanted = masked(patterns, text, star, whole)
        made, at, what = text[:0], 0, (patterns, text, star, whole)
        longest = max(len(raw(it)) for it in patterns)
        while at < len(text):
            low, at = at, min(len(text), at + rng.choice([0, 1, 2, 7]))
            made += masker.push(text[low:at])
            self.assertEqual(made, wanted[:len(made)], what)
            self.assertLessEqual(at - len(made), longest, what)  # characters, of which each has a byte or more
        self.assertEqual(made + masker.finish(), wanted, what)
        writer = io.BytesIO() if isinstance(text, bytes) else io.StringIO()
        self.assertIsNone(stream(Sized(text, rng, rng.choice([[1], [2, 3], [100]])), writer, star))
        self.assertEqual(writer.getvalue(), wanted, what)


class Callers(unittest.TestCase):
    def test_pieces(self):
        masker = Automaton(["hunter2", "café"]).masker()
        self.assertIsInstance(masker, Masker)
        made = masker.push("I am hun") + masker.push("ter") + masker.push("2, at the c")
        self.assertEqual((made[:12], made + masker.push("af") + masker.push("é") + masker.finish()), ("I am *******", "I am *******, at the ****"))
        words = Automaton([b"cat"]).word_masker(b"#")
        self.assertEqual(words.push(b"cat cats ca") + words.push(bytearray(b"t")) + words.finish(), b"### cats ###")

    def test_whole_texts(self):
        for text in ("a fox, été. " * 40000, "a fox. " * 70000, "€ fox, 😀 " * 30000):
            for automaton in (Automaton(["fox", "été"]), Automaton(["fox", "x, é", "ox", MANY])):
                for stream, mask in ((automaton.mask_stream, automaton.mask), (automaton.mask_words_stream, automaton.mask_words)):
                    writer = io.StringIO()
                    stream(io.StringIO(text), writer)
                    self.assertEqual(writer.getvalue(), mask(text))
                    writer = io.StringIO()
                    stream(io.StringIO(text), writer, "█")
                    self.assertEqual(writer.getvalue(), mask(text, "█"))
        raw = Automaton([b"fox", b"ox, a f"])
        writer = io.BytesIO()
        raw.mask_stream(io.BytesIO(b"a fox, " * 100000), writer)
        self.assertEqual(writer.getvalue(), raw.mask(b"a fox, " * 100000))

    def test_what_is_refused(self):
        leftmost, anchored, empty = Automaton(["a"], "leftmost-first"), Automaton(["a"], start_kind="anchored"), Automaton(["a", ""])
        for call in (leftmost.masker, leftmost.word_masker, anchored.masker, anchored.word_masker, empty.masker,
                     empty.word_masker, lambda: leftmost.mask_stream(io.StringIO("a"), io.StringIO())):
            self.assertRaises(Error, call)
        for begun in (Automaton(["a"]).masker, Automaton(["a"]).word_masker):
            masker = begun()
            self.assertEqual((masker.push("xa"), masker.finish()) and masker.finish(), "")
            self.assertRaisesRegex(Error, "finished", masker.push, "a")
            self.assertRaises(TypeError, pickle.dumps, masker)
        self.assertRaises(TypeError, Masker)

    def test_no_patterns(self):
        for begun in (Automaton([]).masker, Automaton([]).word_masker):
            masker = begun()
            self.assertEqual(masker.push("aé€") + masker.push("b") + masker.finish(), "aé€b")
            masker = begun()
            self.assertEqual(masker.push(b"a") + masker.finish(), b"a")

    def test_an_automaton_that_is_built_again(self):
        automaton = Automaton(["fox"])
        maskers = automaton.masker(), automaton.word_masker()
        automaton.__init__(["dog"])
        for masker in maskers:
            self.assertEqual(masker.push("fox dog") + masker.finish(), "*** dog")

    def test_readers_that_do_not_wait(self):
        class Waiting:
            def read(self, most):
                return None
        self.assertRaises(BlockingIOError, Automaton(["a"]).mask_stream, Waiting(), io.StringIO())

    def test_threads(self):
        """Threads push to one masker, one after another: nothing is lost."""
        masker, made = Automaton([b"x"]).masker(), []

        def push():
            for _ in range(200):
                made.append(len(masker.push(b"ab" * 3000)))

        threads = [threading.Thread(target=push) for _ in range(4)]
        for it in threads:
            it.start()
        for it in threads:
            it.join()
        self.assertEqual(sum(made) + len(masker.finish()), 800 * 6000)

    @unittest.skipIf("asan" in os.environ.get("LD_PRELOAD", ""), "AddressSanitizer takes the memory that there is")
    def test_memory(self):
        """A stream is masked in the memory of its pieces."""
        program = """
import io, resource
from dadofennel import Automaton
class Long(io.RawIOBase):
    left = 400
    def read(self, most=-1):
        self.left -= 1
        return b"a fox, " * 30000 if self.left > 0 else b""
class Count(io.RawIOBase):
    count = 0
    def write(self, text):
        Count.count += text.count(b"*")
        return len(text)
ac = Automaton([b"fox"])
before = resource.getrusage(resource.RUSAGE_SELF).ru_maxrss
ac.mask_stream(Long(), Count())
ac.mask_words_stream(Long(), Count())
print(Count.count, resource.getrusage(resource.RUSAGE_SELF).ru_maxrss - before < 20000)
"""
        done = subprocess.run([sys.executable, "-c", program], stdout=subprocess.PIPE, check=True)
        self.assertEqual(done.stdout.split(), [b"71820000", b"True"])


if __name__ == "__main__":
    unittest.main()
