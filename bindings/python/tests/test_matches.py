"""What matched, pieces and counts in the manner of `re`, and what is said of an argument of the wrong type."""
import array
import collections
import copy
import gc
import io
import mmap
import os
import pickle
import random
import re
import sys
import tempfile
import unittest

from dadofennel import Automaton, Match, _native as native

CASES = int(os.environ.get("CASES", "3000"))
MANY = "".join(map(chr, range(0x400, 0x480)))


class Text(str):
    """A `str` that can have attributes."""


class Bytes(bytearray):
    """Bytes that can have attributes."""


class Held(unittest.TestCase):
    """A match holds the text that was searched, and says what matched."""

    def held(self, found, wanted):
        self.assertEqual(([it.text for it in found], [it.group() for it in found]), (wanted, wanted))
        self.assertEqual([it.group(0) for it in found], wanted)
        self.assertTrue(all(type(it.text) is type(it_wanted) for it, it_wanted in zip(found, wanted)))

    def test_each_call(self):
        ac = Automaton(["fox", "ox", "é"])
        text = "a fox, été"
        self.held([ac.find(text)], ["fox"])
        self.held(list(ac.finditer(text)), ["fox", "é", "é"])
        self.held(list(ac.finditer(text, 3)), ["ox", "é", "é"])
        self.held(list(ac.overlapping(text)), ["fox", "ox", "é", "é"])
        self.held(list(ac.find_words(text)), ["fox"])
        self.held(list(ac.overlapping_words(text)), ["fox"])
        self.held(ac.find_each([text, "ox"])[1], ["ox"])
        self.held([ac.find(text, 8, 10)], ["é"])

    def test_each_width_and_length(self):
        for patterns in (["fox", "é"], ["fox", "é", MANY]):
            ac = Automaton(patterns)
            for beyond in ("", "é", "€", "😀"):
                for many in (1, 70, 3000):
                    text = f"{beyond}. fox é!" * many
                    wanted = re.findall("fox|é", text)
                    self.held(list(ac.finditer(text)), wanted)
                    self.held(list(ac.overlapping(text)), wanted)

    def test_bytes(self):
        ac = Automaton([b"fox"])
        for lent in (b"a fox", bytearray(b"a fox"), memoryview(b"xa fox")[1:], array.array("B", b"a fox"), array.array("H", b"a fox."),
                     memoryview(array.array("H", b"a fox.")), Bytes(b"a fox")):
            self.held([ac.find(lent)], [b"fox"])
            self.held(list(ac.finditer(lent)), [b"fox"])
        with tempfile.TemporaryFile() as file:
            file.write(b"a fox")
            file.flush()
            with mmap.mmap(file.fileno(), 0, access=mmap.ACCESS_READ) as memory:
                found = ac.find(memory)
                self.held([found], [b"fox"])
            self.assertRaises(ValueError, lambda: found.text)  # the map is closed

    def test_bytes_that_change(self):
        lent = bytearray(b"a fox")
        found = Automaton([b"fox"]).find(lent)
        lent[2:3] = b"b"
        self.assertEqual(found.text, b"box")
        del lent[3:]
        self.assertEqual(found.text, b"b")
        lent.clear()
        self.assertEqual(found.text, b"")

    def test_none_is_held(self):
        found = Automaton(["fox"]).find("a fox")
        stream = Automaton(["fox"]).stream()
        for it in (Match(0, 2, 5), pickle.loads(pickle.dumps(found)), found._replace(pattern=1), stream.push("a fox")[0],
                   Match._make([0, 2, 5]), next(Automaton([b"fox"]).finditer_stream(io.BytesIO(b"fox")))):
            self.assertRaisesRegex(ValueError, "holds no text", lambda: it.text)
            self.assertRaisesRegex(ValueError, "holds no text", it.group)
        self.assertEqual(pickle.loads(pickle.dumps(found)), found)
        self.assertLess(len(pickle.dumps(Automaton([b"fox"]).find(b"fox" + bytes(10000)))), 200)

    def test_as_a_tuple(self):
        found = Automaton(["fox"]).find("a fox")
        self.assertIsInstance(found, tuple)
        self.assertEqual((found, tuple(found), len(found), type(tuple(found))), ((0, 2, 5), (0, 2, 5), 3, tuple))
        self.assertEqual((copy.copy(found).text, copy.deepcopy(found).text), ("fox", "fox"))
        self.assertRaises(IndexError, found.group, 1)
        self.assertRaises(TypeError, found.group, "x")
        self.assertRaises(AttributeError, setattr, found, "text", "x")
        self.assertRaises(AttributeError, setattr, found, "other", 1)
        self.assertFalse(hasattr(found, "__dict__"))
        self.assertEqual("%d %d %d" % found, "0 2 5")

        class Other(Match):
            __slots__ = ()

        self.assertEqual(Other(0, 2, 5), found)
        self.assertRaises(ValueError, Other(0, 2, 5).group)
        self.assertRaises(ValueError, lambda: native.Held(()).text)
        self.assertRaises(TypeError, native.use, tuple, ValueError)

    def test_functions(self):
        """A function is given matches that hold what they were found in, also in a stream."""
        for patterns in (["fox", "new york", "y"], ["fox", "new york", "y", ""], ["fox", "new york", "y", MANY]):
            for kind in ("standard", "leftmost-first", "leftmost-longest"):
                ac = Automaton(patterns, kind)
                for text in ("a fox of new york, é", "€ fox new yor, new yorky" * 9):
                    found = [it.text for it in ac.finditer(text)]
                    for size in (1, 2, 7, 1000):
                        seen = []
                        reader, writer = Sized(text, size), io.StringIO()
                        ac.replace_stream(reader, writer, lambda it: seen.append((it.text, it.start)) or f"<{it.group()}>")
                        self.assertEqual(seen, [(it.text, it.start) for it in ac.finditer(text)])
                        self.assertEqual(writer.getvalue(), ac.replace(text, lambda it: f"<{it.text}>"))
                    self.assertEqual([it for it, _ in seen], found)
        ac, seen = Automaton([b"cat", b"cats"]), []
        ac.replace_words_stream(Sized(b"cat cats concat", 3), io.BytesIO(), lambda it: seen.append(it.text) or b"")
        self.assertEqual(seen, [b"cat", b"cats"])

    def test_what_is_held_is_let_go(self):
        """A text lives as long as its matches do; a text that refers to its match is collected."""
        for made in (lambda: Text("a fox, a fox"), lambda: Bytes(b"a fox, a fox"), lambda: Text("a fox, " * 3000)):
            text = made()
            ac = Automaton(["fox"] if isinstance(text, str) else [b"fox"])
            found = ac.find(text)
            before = sys.getrefcount(text)
            more = list(ac.finditer(text))
            self.assertEqual(sys.getrefcount(text), before + len(more))
            del more
            self.assertEqual(sys.getrefcount(text), before)
            del found
            self.assertEqual(sys.getrefcount(text), before - 1)
        gc.collect()
        before = sum(type(it) in (Text, Bytes) for it in gc.get_objects())
        for _ in range(20):
            for text in (Text("a fox"), Bytes(b"a fox"), Text("a fox " * 2000)):
                ac = Automaton(["fox"] if isinstance(text, str) else [b"fox"])
                text.found, text.all, text.left = ac.find(text), list(ac.finditer(text)), ac.finditer(text)
                text.each = ac.find_each([text])
                next(text.left)
        del text
        gc.collect()
        self.assertLessEqual(sum(type(it) in (Text, Bytes) for it in gc.get_objects()), before + 1)

    def test_plain_matches_are_not_tracked(self):
        self.assertFalse(gc.is_tracked(Automaton(["fox"]).find("a fox")))
        self.assertFalse(gc.is_tracked(Automaton([b"fox"]).find(bytearray(b"a fox"))))
        self.assertTrue(gc.is_tracked(Automaton(["fox"]).find(Text("a fox"))))


class Sized:
    """A reader that gives pieces of one size."""

    def __init__(self, text, size):
        self.text, self.size, self.at = text, size, 0

    def read(self, most):
        self.at += self.size
        return self.text[self.at - self.size:self.at]


class LikeRe(unittest.TestCase):
    """Beside `re`, which has the patterns with `|` between them: the calls of an automaton of kind leftmost-first."""

    def test_random(self):
        for seed in range(CASES):
            rng = random.Random(seed)
            alphabet, as_bytes = rng.choice(["ab", "abc ", "aé", "a€😀"]), rng.random() < 0.4

            def word(least, most):
                text = "".join(rng.choice(alphabet) for _ in range(rng.randint(least, most)))
                return text.encode() if as_bytes else text

            patterns = [word(1, 3) for _ in range(rng.randint(1, 4))]
            if not as_bytes and rng.random() < 0.2:
                patterns.append(MANY)
            text, count = word(0, 30), rng.randrange(5)
            ac, their = Automaton(patterns, "leftmost-first"), re.compile((b"|" if as_bytes else "|").join(map(re.escape, patterns)))
            lent = rng.choice([bytes, bytearray, memoryview])(text) if as_bytes else text
            replacements = [word(0, 3) for _ in patterns]
            by_match = {it: replacements[patterns.index(it)] for it in patterns}
            theirs = their.subn(lambda it: by_match[it.group()], text, count)
            what = (seed, patterns, text, count, replacements)
            self.assertEqual(ac.findall(lent), their.findall(text), what)
            self.assertEqual(ac.split(lent, count), their.split(text, count), what)
            self.assertEqual(ac.split(lent), their.split(text), what)
            for given in (replacements, by_match, lambda it: replacements[it.pattern], lambda it: by_match[it.text]):
                self.assertEqual(ac.subn(lent, given, count), theirs, what)
                self.assertEqual(ac.replace(lent, given, count), theirs[0], what)
            self.assertEqual(ac.replace(lent, word(0, 0), count), their.sub(text[:0], text, count), what)
            start, end = sorted((rng.randint(0, len(text)), rng.randint(0, len(text))))
            self.assertEqual(ac.findall(lent, start, end), their.findall(text[start:end]), what)

    def test_the_first_words(self):
        ac = Automaton(["cat"])
        self.assertEqual(ac.replace_words("cat cats cat cat", "dog", "standard", 2), "dog cats dog cat")
        self.assertEqual(ac.replace_words("cat cats cat", ["dog"], count=1), "dog cats cat")
        self.assertEqual(ac.replace_words("cat cats cat", {"cat": "dog"}, count=0), "dog cats dog")
        self.assertEqual(ac.replace_words("cat", lambda it: it.text + "s", "leftmost-longest"), "cats")

    def test_types(self):
        self.assertEqual(Automaton([b"a"]).split(bytearray(b"xay")), [b"x", b"y"])
        self.assertTrue(all(type(it) is bytes for it in Automaton([b"a"]).split(bytearray(b"xay"))))
        self.assertEqual(Automaton([b"a"]).split(array.array("H", b"xayz")), [b"x", b"yz"])
        self.assertEqual(Automaton(["a", ""], "leftmost-first").split("bab"), ["", "b", "b", ""])  # none is empty where one has ended
        self.assertEqual((Automaton([]).split("ab"), Automaton([]).findall("ab"), Automaton([]).subn("ab", [])), (["ab"], [], ("ab", 0)))
        self.assertEqual(Automaton(["a"]).subn("xaya", "-", 1), ("x-ya", 1))
        self.assertEqual(type(Automaton([b"a"]).subn(bytearray(b"xay"), b"")[0]), bytes)


AC, RAW, NONE = Automaton(["fox"]), Automaton([b"fox"]), Automaton([])

WRONG = [
    (lambda: Automaton(5), "patterns is of type int, and not a list of str or of bytes"),
    (lambda: Automaton(None), "patterns is None, and not a list of str or of bytes"),
    (lambda: Automaton("fox"), "patterns is one string; give a list of them"),
    (lambda: Automaton([5]), r"patterns\[0\] is of type int, and not str or bytes"),
    (lambda: Automaton(["a", None]), r"patterns\[1\] is None, and not str as patterns\[0\] is"),
    (lambda: Automaton(["a", b"b"]), r"patterns\[1\] is of type bytes, and not str as patterns\[0\] is"),
    (lambda: Automaton([b"a", b"b", "c"]), r"patterns\[2\] is of type str, and not bytes as patterns\[0\] is"),
    (lambda: Automaton([b"a", 7]), r"patterns\[1\] is of type int, and not bytes as patterns\[0\] is"),
    (lambda: Automaton(["a"], 5), "kind is of type int, and not one of standard, leftmost-first, leftmost-longest"),
    (lambda: Automaton(["a"], start_kind=None), "start_kind is None, and not one of unanchored, anchored, both"),
    (lambda: Automaton(["a"], engine=b"dfa"), "engine is of type bytes, and not one of auto"),
    (lambda: Automaton(["a"], pairs=5), "pairs is of type int, and not a list of pairs"),
    (lambda: Automaton(["a"], pairs=[(0.5, 1)]), r"a member of pairs\[0\] is of type float, and not a byte, a character or a number"),
    (lambda: Automaton(["a"], dense_depth="2"), "dense_depth is of type str, and not a number or None"),
    (lambda: Automaton(["a"], row_memory=0.5), "row_memory is of type float, and not a number or None"),
    (lambda: AC.find_words("a", 5), "kind is of type int, and not one of standard, leftmost-first, leftmost-longest"),
    (lambda: AC.replace_words("a", "b", None), "kind is None, and not one of standard"),
    (lambda: AC.word_stream(3), "kind is of type int, and not one of standard"),
    (lambda: AC.find_words_stream(io.StringIO("a"), 3), "kind is of type int, and not one of standard"),
    (lambda: AC.find("a", "0"), "start is of type str, and not a number or None"),
    (lambda: AC.finditer("a", 0, 0.5), "end is of type float, and not a number or None"),
    (lambda: AC.overlapping("a", b"0"), "start is of type bytes, and not a number or None"),
    (lambda: AC.is_match("a", None, "0"), "end is of type str, and not a number or None"),
    (lambda: AC.findall("a", "0"), "start is of type str, and not a number or None"),
    (lambda: AC.replace("a", "b", "1"), "count is of type str, and not a number"),
    (lambda: AC.replace_words("a", "b", count=0.5), "count is of type float, and not a number"),
    (lambda: AC.subn("a", "b", None), "count is None, and not a number"),
    (lambda: AC.split("a", "1"), "maxsplit is of type str, and not a number"),
    (lambda: AC.find_each(5), "texts is of type int, and not a list of texts"),
    (lambda: AC.is_match_each("a"), "texts is one string; give a list of them"),
    (lambda: AC.find_each(["a", None]), r"texts\[1\] is None, and not str as the patterns are"),
    (lambda: AC.is_match_each(["a", "b", 0.5]), r"texts\[2\] is of type float, and not str as the patterns are"),
    (lambda: RAW.find_each([b"a", "b"]), r"texts\[1\] is of type str, and not bytes as the patterns are"),
    (lambda: RAW.is_match_each([7]), r"texts\[0\] is of type int, and not bytes as the patterns are"),
    (lambda: AC.replace("a", 5), "replacements is of type int, and not a list, a mapping by pattern, one for all patterns or a function"),
    (lambda: AC.replace("a", None), "replacements is None, and not a list"),
    (lambda: AC.replace("a", {"x"}), "replacements is of type set, and not a list"),
    (lambda: AC.replace("a", b"x"), "replacements is of type bytes, and not str as the patterns are"),
    (lambda: RAW.replace(b"a", "x"), "replacements is of type str, and not bytes as the patterns are"),
    (lambda: AC.replace("a", [b"x"]), r"replacements\[0\] is of type bytes, and not str as the patterns are"),
    (lambda: RAW.replace(b"a", [None]), r"replacements\[0\] is None, and not bytes as the patterns are"),
    (lambda: AC.replace("a", {"fox": 1}), r"replacements\['fox'\] is of type int, and not str as the patterns are"),
    (lambda: AC.replace("a", {b"fox": "x"}), r"the key b'fox' of replacements is of type bytes, and not str as the patterns are"),
    (lambda: AC.replace("fox", lambda it: 5), "what the function replacements returned is of type int, and not str as the patterns are"),
    (lambda: AC.replace("fox", lambda it: None), "what the function replacements returned is None, and not str as the patterns are"),
    (lambda: RAW.subn(b"fox", lambda it: "x"), "what the function replacements returned is of type str, and not bytes"),
    (lambda: AC.replace_words("fox", lambda it: b"x"), "what the function replacements returned is of type bytes, and not str"),
    (lambda: AC.replace_stream(io.StringIO("fox"), io.StringIO(), lambda it: 5), "what the function replacements returned is of type int"),
    (lambda: AC.replace_stream(5, io.StringIO(), "x"), "reader is of type int, and has no read"),
    (lambda: AC.replace_stream(io.StringIO("a"), None, "x"), "writer is None, and has no write"),
    (lambda: AC.replace_stream(io.BytesIO(b"a"), io.StringIO(), "x"), "what the reader returned is of type bytes, and not str as the"),
    (lambda: RAW.replace_words_stream(io.StringIO("a"), io.BytesIO(), b"x"), "what the reader returned is of type str, and not bytes as the"),
    (lambda: AC.finditer_stream("a"), "reader is of type str, and has no read"),
    (lambda: AC.find_words_stream(None), "reader is None, and has no read"),
    (lambda: list(AC.finditer_stream(io.BytesIO(b"a"))), "what the reader returned is of type bytes, and not str as the patterns are"),
    (lambda: AC.mask_stream(5, io.StringIO()), "reader is of type int, and has no read"),
    (lambda: AC.mask_words_stream(io.StringIO("a"), 5), "writer is of type int, and has no write"),
    (lambda: AC.stream().push(b"a"), "piece is of type bytes, and not str as the patterns are"),
    (lambda: RAW.stream().push(5), "piece is of type int, and not bytes as the patterns are"),
    (lambda: NONE.stream().push(5), "piece is of type int, and not str or bytes"),
    (lambda: AC.masker().push(b"a"), "piece is of type bytes, and not str as the patterns are"),
    (lambda: RAW.word_masker().push(None), "piece is None, and not bytes as the patterns are"),
    (lambda: AC.mask("a", b"*"), r"star is of type bytes, and not one character, as the patterns are str"),
    (lambda: AC.mask_words("a", 5), r"star is of type int, and not one character, as the patterns are str"),
    (lambda: RAW.mask(b"a", "*"), r"star is of type str, and not one byte, or its number, as the patterns are bytes"),
    (lambda: RAW.mask_in_place(bytearray(b"a"), 0.5), r"star is of type float, and not one byte, or its number"),
    (lambda: AC.masker(b"*"), "star is of type bytes, and not one character"),
    (lambda: RAW.word_masker("*"), "star is of type str, and not one byte"),
    (lambda: RAW.mask_in_place("a"), "buffer is of type str, and not bytes that can be written"),
    (lambda: RAW.mask_words_in_place(7), "buffer is of type int, and not bytes that can be written"),
    (lambda: AC.mask_in_place(bytearray(b"a")), r"mask_in_place\(\) is for patterns of bytes, and these are str"),
]
"""Calls with an argument of the wrong type, and what is said of it."""

OF_A_TEXT = ["find", "is_match", "finditer", "overlapping", "find_words", "overlapping_words", "findall", "split", "mask", "mask_words"]
REPLACING = ["replace", "replace_words", "subn"]


class WrongTypes(unittest.TestCase):
    def test_each_argument(self):
        for call, said in WRONG:
            with self.assertRaisesRegex(TypeError, f"^{said}", msg=said):
                call()

    def test_texts(self):
        for name in OF_A_TEXT + REPLACING:
            more = ("x",) if name in REPLACING else ()
            for wrong, told in ((b"a", "of type bytes"), (5, "of type int"), (None, "None")):
                with self.assertRaisesRegex(TypeError, f"^text is {told}, and not str as the patterns are$", msg=name):
                    getattr(AC, name)(wrong, *more)
            more = (b"x",) if name in REPLACING else ()
            for wrong, told in (("a", "of type str"), (5, "of type int"), (None, "None"), ([b"a"], "of type list")):
                with self.assertRaisesRegex(TypeError, f"^text is {told}, and not bytes as the patterns are$", msg=name):
                    getattr(RAW, name)(wrong, *more)
            if name not in REPLACING:
                with self.assertRaisesRegex(TypeError, "^text is of type int, and not str or bytes$", msg=name):
                    getattr(NONE, name)(5)

    def test_values(self):
        """What is of the right type, and out of range."""
        for call, said in (
            (lambda: AC.replace("a", "b", -1), "count is -1, and not how many"),
            (lambda: AC.subn("a", "b", -2), "count is -2, and not how many"),
            (lambda: AC.split("a", -1), "maxsplit is -1, and not how many"),
            (lambda: AC.find_words("a", "longest"), "kind is 'longest', and not one of standard"),
            (lambda: Automaton(["a"], dense_depth=-1), "dense_depth is -1, and not a number from 0"),
            (lambda: Automaton(["a"], pairs=[(1, 2, 3)]), r"pairs\[0\] has 3 members, and not two"),
            (lambda: Automaton(["a"], pairs=[(1, 2), ("ab", 3)]), r"pairs\[1\] has 'ab', and not one byte or character"),
            (lambda: Automaton([b"a"], pairs=[(1, 256)]), r"pairs\[0\] has 256, which can't be in a pair"),
            (lambda: AC.mask("a", "**"), r"star is '\*\*', and not one character"),
            (lambda: RAW.mask(b"a", b"ab"), r"star is b'ab', and not one byte"),
            (lambda: RAW.mask(b"a", 256), "star is 256, and not the number of a byte"),
        ):
            with self.assertRaisesRegex(ValueError, f"^{said}", msg=said):
                call()

    def test_errors_that_are_a_callers(self):
        """An error that a caller's own iterator raises is passed on as it is."""
        def broken():
            yield "a"
            raise TypeError("mine")
        for call in (Automaton, AC.find_each, AC.is_match_each):
            self.assertRaisesRegex(TypeError, "^mine$", call, broken())
        self.assertRaisesRegex(TypeError, "^mine$", AC.replace, "fox", lambda it: next(iter(broken())) and raised(TypeError("mine")))

    def test_numbers_that_are_no_int(self):
        class Two:
            def __index__(self):
                return 2
        self.assertEqual(Automaton(["a"]).replace("aaa", "b", Two()), "bba")
        self.assertEqual(Automaton(["a"]).split("xayaza", Two()), ["x", "y", "za"])
        self.assertEqual(Automaton(["a"]).find("aaa", Two()).span, (2, 3))


def raised(error):
    raise error


class Counted(unittest.TestCase):
    def test_mappings(self):
        made = collections.defaultdict(lambda: "-", fox="x")
        self.assertEqual(Automaton(["fox", "bear"]).subn("fox bear fox", made, 2), ("x - fox", 2))

    def test_all(self):
        """0 is for all, as in `re`, by each way that replaces."""
        ac = Automaton(["a"])
        text = "a" * 10000
        self.assertEqual(ac.replace(text, "b", 0), "b" * 10000)
        self.assertEqual(ac.replace(text, "b", count=9999), "b" * 9999 + "a")
        self.assertEqual(ac.replace(text, "b", 1 << 40), "b" * 10000)
        self.assertEqual(ac.subn(text, lambda it: "b", 3), ("bbb" + "a" * 9997, 3))


if __name__ == "__main__":
    unittest.main()
