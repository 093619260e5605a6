"""`dadofennel.ahocorasick` beside the real pyahocorasick: the same calls on random words and texts, and the same results.

The real one is Debian's python3-ahocorasick, whose words are `str`. Words of `bytes` are compared with it by their Latin-1 text.
"""
import os
import pathlib
import pickle
import random
import sys
import tempfile
import unittest

import dadofennel.ahocorasick as ours

try:
    import ahocorasick as THEIRS
except ImportError:
    THEIRS = None

CASES = int(os.environ.get("CASES", "3000"))

VALUES = [f"value {number}" for number in range(20)]
KEPT = VALUES * (10 * CASES)
"""Further references to the values: the real one gives up some that it doesn't have, and would free a value that is in use."""

WHY_NOT = "python3-ahocorasick isn't installed for this Python"


def outcome(call, *arguments, **named):
    """What a call returns, or the type of what it raises."""
    try:
        return "returns", call(*arguments, **named)
    except Exception as error:
        return "raises", type(error)


def leftmost_longest(values, text, start, end):
    """The pairs of the leftmost-longest matches, one after another."""
    pairs, at = [], start
    while at < end:
        best = max((len(word) for word in values if text.startswith(word, at) and at + len(word) <= end), default=0)
        if best:
            pairs.append((at + best - 1, values[text[at:at + best]]))
        at += best or 1
    return pairs


class Both:
    """An automaton of each module, which are given the same calls. `of` makes what the real one is given of what ours is."""

    def __init__(self, test, theirs, of, store=None):
        words = () if store is None else (store,)
        self.test, self.of, self.lost = test, of, 0
        self.ours, self.theirs = ours.Automaton(*words), theirs.Automaton(*words)
        self.log = []

    def same(self, call, *arguments):
        """Both outcomes of this call, of which one is made comparable to the other."""
        self.log.append((call.__name__, arguments))
        mine = outcome(call, self.ours, *arguments)
        other = outcome(call, self.theirs, *[self.translated(it) for it in arguments])
        self.test.assertEqual(self.translated(mine), other, self.log)
        return mine[1]

    def removes(self):
        return any(name in ("remove_word", "popped") for name, _ in self.log)

    def translated(self, it):
        if isinstance(it, (str, bytes)):
            return self.of(it)
        return type(it)(map(self.translated, it)) if isinstance(it, (tuple, list)) else it


def listed(method):
    def call(automaton, *arguments):
        return list(getattr(automaton, method)(*arguments))
    call.__name__ = method
    return call


def plain(method):
    def call(automaton, *arguments):
        return getattr(automaton, method)(*arguments)
    call.__name__ = method
    return call


def graph(dumped, of):
    """What `dump` gives, without the numbers of nodes: each node by the characters that lead to it."""
    if dumped is None:
        return None
    nodes, edges, links = dumped
    ways = {nodes[0][0]: ""}
    for one, letter, other in edges:
        ways[other] = ways[one] + (of(letter) if isinstance(letter, str) or of(letter) != letter else letter.decode())
    return ([(ways[it], ends) for it, ends in nodes], [(ways[one], ways[other]) for one, _, other in edges],
            [(ways[one], ways[other]) for one, other in links])


def contains(automaton, word):
    return word in automaton


def popped(automaton, word):
    """`pop`, for the real one by other calls: of a word that it has it returns what it has freed, and the process ends."""
    if isinstance(automaton, ours.Automaton):
        return automaton.pop(word)
    value = automaton.get(word)
    automaton.remove_word(word)
    return value


def length(automaton):
    return len(automaton), automaton.kind, automaton.store, bool(automaton)


def iterated(automaton):
    return list(automaton)


def ignoring(automaton, text):
    return list(automaton.iter(text, ignore_white_space=True))


def found_all(automaton, text, *bounds):
    pairs = []
    automaton.find_all(text, lambda place, value: pairs.append((place, value)), *bounds)
    return pairs


def in_pieces(automaton, first, given, *further):
    """A search of which some pairs are taken, that goes on with further strings; `None` as `given` takes all."""
    search = automaton.iter(first)
    pairs = list(search) if given is None else [it for _, it in zip(range(given), search)]
    for text in further:
        search.set(text)
        pairs += list(search)
    search.set(first, True)
    return pairs, list(search)


def changed(automaton, text, word):
    """A search that goes on after a word was added, or its value replaced."""
    search, words = automaton.iter(text), automaton.keys()
    next(search, None), next(words, None)
    automaton.add_word(word, 77 if automaton.store == ours.STORE_INTS else VALUES[0])
    return outcome(lambda: list(search)), outcome(lambda: list(words))


@unittest.skipUnless(THEIRS, WHY_NOT)
class Random(unittest.TestCase):
    """Random calls, each with the same outcome."""

    def test_str(self):
        # no character past U+FFFF: the real one then frees a part of the string
        self.compare(THEIRS, ["ab", "abc ", "aé€", "a€ \u2003"], lambda it: it)

    def test_bytes(self):
        self.compare(THEIRS, [b"ab", b"abc ", b"a\0\xff\xa0"], lambda it: it.decode("latin-1") if isinstance(it, bytes) else it)

    def compare(self, theirs, alphabets, of):
        lost = 0
        for seed in range(CASES):
            rng = random.Random(seed)
            both = Both(self, theirs, of, rng.choice([None, None, ours.STORE_INTS, ours.STORE_LENGTH]))
            alphabet = rng.choice(alphabets)
            both.log.append((seed, alphabet))
            for _ in range(rng.randrange(25)):
                self.step(both, rng, alphabet)
            lost += both.lost
        print(f"{CASES} cases; in {lost} searches the real iter_long lost a match", file=sys.stderr)

    def step(self, both, rng, alphabet):
        def word(least=0, most=5):
            return alphabet[:0].join(rng.choice(cut(alphabet)) for _ in range(rng.randint(least, most)))

        def bounds(text):
            low = rng.randint(0, max(len(text) - 1, 0))
            return rng.choice([(), (low,), (low, rng.randint(low, len(text)))])

        text = word(0, 30)
        call = rng.randrange(17)
        if call < 4 and both.ours.store != ours.STORE_LENGTH:
            value = rng.randrange(1, 100) if both.ours.store == ours.STORE_INTS else rng.choice(VALUES)
            both.same(plain("add_word"), word(), value)
        elif call < 4:
            both.same(plain("add_word"), word())
        elif call == 4:
            both.same(plain("remove_word"), word(1))
        elif call == 5:
            both.same(popped, word(1))
        elif call == 6:
            for method in ("exists", "match", "get"):
                both.same(plain(method), word())
            if len(both.ours):  # the real one ends the process where it has no word
                both.same(plain("longest_prefix"), word())
            both.same(plain("get"), word(), VALUES[1])
            both.same(contains, word())
        elif call == 7:
            for method in ("keys", "values", "items"):
                which = [(), (word(),), (word(), word(1, 1)), (word(), word(1, 1), rng.randrange(4))]
                both.same(listed(method), *rng.choice(which))
            both.same(iterated)
        elif call in (8, 9):
            both.same(plain("make_automaton"))
        elif call == 10:
            both.same(listed("iter"), text, *bounds(text))
        elif call == 11:
            both.same(ignoring, text)
        elif call == 12:
            both.same(found_all, text, *bounds(text))
        elif call == 13 and both.ours.kind == ours.AHOCORASICK:
            both.same(in_pieces, text, rng.choice([None, None, 0, 1]), word(), word(), word(0, 9))
        elif call == 14 and both.ours.kind == ours.AHOCORASICK:
            both.same(changed, text, word(1))
        elif call == 15:
            self.long(both, text, bounds(text))
        elif call == 16 and not both.removes() and all(ord(it) < 0x80 for it in both.of(alphabet)):
            # Of a character beyond ASCII the real one has the last byte, and after a removal links to nodes that are gone.
            mine, other = graph(both.ours.dump(), both.of), graph(both.theirs.dump(), both.of)
            if mine and both.ours.kind == ours.TRIE:  # the real one keeps links that a search had before a word was added
                self.assertEqual((mine[2], other[:2]), ([], mine[:2]), both.log)
            else:
                self.assertEqual(mine, other, both.log)
        both.same(length)

    def long(self, both, text, bounds):
        """`iter_long` gives the leftmost-longest matches, and the real one too, but where it loses one."""
        mine = outcome(listed("iter_long"), both.ours, text, *bounds)
        other = outcome(listed("iter_long"), both.theirs, both.of(text), *bounds)
        if mine[0] == "returns" and both.ours.kind == ours.AHOCORASICK:
            start, end = (bounds + (0, len(text))[len(bounds):])[:2]
            self.assertEqual(mine[1], leftmost_longest(dict(both.ours.items()), text, start, end), both.log)
            both.lost += mine != other
            if mine != other:
                self.assertTrue(may_lose(both.ours.keys()), both.log)
        else:
            self.assertEqual(mine, other, both.log)


def may_lose(words):
    """Whether a word stands within another one and not at its beginning: what the real `iter_long` loses matches by."""
    words = list(words)
    return any(word in other[1:] for word in words for other in words)


def cut(alphabet):
    return [alphabet[i:i + 1] for i in range(len(alphabet))]


class Alone(unittest.TestCase):
    """What needs no real one."""

    def made(self, words, **named):
        automaton = ours.Automaton(**named)
        for number, word in enumerate(words):
            automaton.add_word(word, number)
        automaton.make_automaton()
        return automaton

    def test_pickled(self):
        automaton = pickle.loads(pickle.dumps(self.made(["he", "she"])))
        self.assertEqual(list(automaton.iter("she")), [(2, 1), (2, 0)])
        self.assertEqual(list(automaton.items()), [("she", 1), ("he", 0)])

    def test_types(self):
        automaton = self.made([b"he"])
        self.assertEqual(list(automaton.iter(b"the")), [(2, 0)])
        for call in (automaton.iter, automaton.get, automaton.exists, automaton.match, automaton.iter_long):
            self.assertRaises(TypeError, call, "he")
        self.assertRaises(TypeError, automaton.add_word, "x", 1)
        self.assertRaises(TypeError, automaton.add_word, 5, 1)
        self.assertRaises(ValueError, ours.Automaton, 77)
        self.assertRaises(ValueError, ours.Automaton, ours.STORE_ANY, 5)
        self.assertRaises(NotImplementedError, ours.Automaton, ours.STORE_ANY, ours.KEY_SEQUENCE)
        self.assertRaises(ValueError, ours.Automaton().add_word, "x")
        self.assertRaises(TypeError, ours.Automaton(ours.STORE_INTS).add_word, "x", "y")

    def test_long_in_pieces(self):
        search = self.made(["abc", "b"]).iter_long("xab")
        self.assertEqual(list(search), [(2, 1)])
        search.set("c abc")
        self.assertEqual(list(search), [(7, 0)])
        search = self.made(["abc"]).iter_long("xab")
        self.assertEqual(list(search), [])
        search.set("c abc")
        self.assertEqual(list(search), [(3, 0), (7, 0)])

    def saved(self, automaton, *words):
        """An automaton that was saved and loaded."""
        with tempfile.TemporaryDirectory() as folder:
            self.assertIsNone(automaton.save(f"{folder}/it", *words))
            return ours.load(f"{folder}/it", pickle.loads)

    def test_saved(self):
        for words in (["he", "she", "é\U0001F600\0", "\udc00"], [b"he", b"\xff\0"], []):
            for made in (ours.Automaton(), ours.Automaton(ours.STORE_INTS), ours.Automaton(ours.STORE_LENGTH)):
                for number, word in enumerate(words):
                    made.add_word(word, {10: number * -(1 << 70), 20: 0, 30: (number, word)}[made.store])
                for searched in (False, True):
                    if searched:
                        made.make_automaton()
                    again = self.saved(made, *([pickle.dumps] if made.store == ours.STORE_ANY else []))
                    self.assertEqual((list(again.items()), again.kind, again.store), (list(made.items()), made.kind, made.store))
                    if searched and words:
                        text = words[0][:0].join(words * 2)
                        self.assertEqual(list(again.iter(text)), list(made.iter(text)))

    def test_files_that_are_refused(self):
        automaton = self.made(["he", "she"])
        with tempfile.TemporaryDirectory() as folder:
            path = f"{folder}/it"
            automaton.save(path, pickle.dumps)
            with open(path, "rb") as file:
                good = file.read()
            self.assertEqual(good[:16], b"dadofennel words")

            def refused(data, said):
                with open(path, "wb") as file:
                    file.write(data)
                self.assertRaisesRegex(ValueError, f"^{path} {said}", ours.load, path, pickle.loads)

            for cut in range(16, len(good)):
                refused(good[:cut], "was cut short or changed")
            for at in range(20, len(good)):
                refused(good[:at] + bytes([good[at] ^ 1]) + good[at + 1:], "was cut short or changed")
            refused(good + b"x", "was cut short or changed")
            refused(good[:16] + b"\x02" + good[17:], "is of format 2, and this version of dadofennel reads format 1")
            refused(b"pyahocorasick002" + bytes(60), "is a file of pyahocorasick")
            for data in (b"", good[:15], b"# words\n"):
                refused(data, "is no file of dadofennel.ahocorasick")
            if THEIRS:
                theirs = THEIRS.Automaton()
                theirs.add_word("he", 1)
                theirs.save(path, pickle.dumps)
                self.assertRaisesRegex(ValueError, "is a file of pyahocorasick", ours.load, path, pickle.loads)
                automaton.save(path, pickle.dumps)
                self.assertRaises(ValueError, THEIRS.load, path, pickle.loads)
            self.assertRaises(TypeError, automaton.save, path, lambda value: "no bytes")
            self.assertRaises(OSError, automaton.save, f"{folder}/none/it", pickle.dumps)
            self.assertRaises(OSError, ours.load, f"{folder}/none", pickle.loads)
            automaton.save(pathlib.Path(path), pickle.dumps)
            self.assertEqual(len(ours.load(pathlib.Path(path), pickle.loads)), 2)

    def test_dumped(self):
        self.assertIsNone(ours.Automaton().dump())
        automaton = ours.Automaton()
        for word in ("he", "hé", "e"):
            automaton.add_word(word, word)
        nodes = [(0, 0), (1, 0), (2, 1), (3, 1), (4, 1)]
        edges = [(0, "h", 1), (0, "e", 4), (1, "e", 2), (1, "é", 3)]
        self.assertEqual(automaton.dump(), (nodes, edges, []))
        automaton.make_automaton()
        self.assertEqual(automaton.dump(), (nodes, edges, [(1, 0), (2, 4), (3, 0), (4, 0)]))
        self.assertEqual(self.made([b"a"]).dump(), ([(0, 0), (1, 1)], [(0, b"a", 1)], [(1, 0)]))

    def test_size(self):
        automaton = ours.Automaton()
        sizes = []
        for word in ("tree", "kitten", "a" * 100):
            automaton.add_word(word, word)
            sizes.append(sys.getsizeof(automaton))
        automaton.add_word("tree", "other")
        self.assertTrue(sizes[0] < sizes[1] < sizes[2] - 50)
        self.assertEqual(sys.getsizeof(automaton), sizes[2])

    def test_statistics(self):
        told = self.made(["he", "her"]).get_stats()
        self.assertEqual([told[it] for it in ("nodes_count", "words_count", "longest_word", "links_count")], [4, 2, 3, 3])

    @unittest.skipUnless(THEIRS, WHY_NOT)
    def test_names(self):
        """Every name of the real module and its automaton is there."""
        self.assertEqual([it for it in dir(THEIRS) if it not in dir(ours)], [])
        self.assertEqual([it for it in dir(THEIRS.Automaton) if it not in dir(ours.Automaton())], [])
        for name in dir(ours):
            if isinstance(getattr(ours, name), int):
                self.assertEqual(getattr(ours, name), getattr(THEIRS, name))


if __name__ == "__main__":
    unittest.main()
