"""`dadofennel` by many threads: first searches at the same moment, every method, and what is freed or built anew meanwhile.

An automaton that is freed before the call that was given it returns is noticed by `tests/asan`, which runs this page under
AddressSanitizer, over a library that looks at the memory.
"""
import contextlib
import copy
import gc
import io
import os
import pickle
import random
import subprocess
import sys
import threading
import time
import unittest
import unittest.mock
import warnings

import dadofennel
import dadofennel.ahocorasick as ahocorasick
from dadofennel import Automaton, Error, Match, _native as native

THREADS = 8
SIZES = [(2, 20), (100, 10), (5000, 3)]
"""How many words, and how often they are tried."""


def words_of(count, letter="é"):
    return [f"{letter}{number:x}." for number in range(count)]


def text_of(words, length=40000, other="€"):
    """A text of these words and others, all of it beyond ASCII."""
    draw = random.Random(len(words))
    return "".join(draw.choice([draw.choice(words), "x" * draw.randint(0, 40), other]) for _ in range(length // 15))


def matches_of(words, text):
    """The matches of words of which none occurs in another one, computed without the library."""
    numbers, found, at = {word: number for number, word in enumerate(words)}, [], text.find(words[0][0])
    while at >= 0:
        end = text.find(".", at) + 1
        if text[at:end] in numbers:
            found.append(Match(numbers[text[at:end]], at, end))
        at = text.find(words[0][0], at + 1)
    return found


def at_once(work, count=THREADS):
    """What `work` returns for each number, by as many threads, which begin at the same moment."""
    barrier, results, errors = threading.Barrier(count), [None] * count, []

    def run(number):
        barrier.wait()
        try:
            results[number] = work(number)
        except BaseException as error:
            errors.append(error)

    threads = [threading.Thread(target=run, args=(number,)) for number in range(count)]
    for thread in threads:
        thread.start()
    for thread in threads:
        thread.join()
    if errors:
        raise errors[0]
    return results


@contextlib.contextmanager
def often():
    """Threads take turns as often as they can."""
    before = sys.getswitchinterval()
    sys.setswitchinterval(1e-6)
    try:
        yield
    finally:
        sys.setswitchinterval(before)


class Builds:
    """Counts the automata that are built, and lets other threads have a turn before each."""

    def __enter__(self):
        self.count, real = 0, native.build

        def build(*arguments):
            self.count += 1
            time.sleep(0.0005)
            return real(*arguments)

        self._patch = unittest.mock.patch.object(native, "build", build)
        self._patch.__enter__()
        return self

    def __exit__(self, *error):
        return self._patch.__exit__(*error)


class FirstSearches(unittest.TestCase):
    """Searches beyond ASCII, the first ones of an automaton, by eight threads that begin at the same moment."""

    def test_by_each_method(self):
        for count, times in SIZES:
            words = words_of(count)
            text = text_of(words)
            wanted = matches_of(words, text)
            self.assertGreater(len(wanted), 500)
            with often():
                for _ in range(times):
                    for calls in (self.one_call, self.other_calls):
                        for got in at_once(calls(Automaton(words), text)):
                            self.assertEqual(got, wanted)

    def one_call(self, automaton, text):
        return lambda number: list(automaton.finditer(text))

    def other_calls(self, automaton, text):
        def streamed():
            stream = automaton.stream()
            return stream.push(text[:1000]) + stream.push(text[1000:]) + stream.finish()

        def replaced():
            seen = []
            self.assertEqual(automaton.replace(text, lambda found: seen.append(found) or text[found.start:found.end]), text)
            return seen

        calls = [
            lambda: list(automaton.overlapping(text)), streamed, lambda: list(automaton.finditer_stream(io.StringIO(text))), replaced,
        ]
        return lambda number: calls[number % len(calls)]()

    def test_by_the_names_of_pyahocorasick(self):
        for count, times in SIZES:
            words = words_of(count, "я")
            text = text_of(words, 20000)
            wanted = [(found.end - 1, found.pattern) for found in matches_of(words, text)]
            for _ in range(times):
                automaton = ahocorasick.Automaton()
                for number, word in enumerate(words):
                    automaton.add_word(word, number)
                automaton.make_automaton()
                with often():
                    for got in at_once(lambda number: list(automaton.iter_long(text) if number % 2 else automaton.iter(text))):
                        self.assertEqual(got, wanted)

    def test_one_build(self):
        for count, _ in SIZES:
            words = words_of(count)
            text = text_of(words, 3000)
            wanted = matches_of(words, text)
            with Builds() as builds:
                automaton = Automaton(words)
                for calls in (self.one_call, self.other_calls):
                    for got in at_once(calls(automaton, text)):
                        self.assertEqual(got, wanted)
            self.assertEqual(builds.count, 2)

    def test_one_build_of_the_longest(self):
        automaton = made(words_of(100, "я"))
        with Builds() as builds:
            at_once(lambda number: list(automaton.iter_long("я5. я")))
        self.assertEqual(builds.count, 2)

    def test_a_build_that_fails_is_tried_again(self):
        automaton, real = Automaton(["é"]), native.build
        with unittest.mock.patch.object(native, "build", lambda *arguments: (native.NO_MEMORY, None, 0, 0)):
            for _ in range(2):
                self.assertRaises(MemoryError, automaton.find, "é€")
        self.assertEqual(automaton.find("€é"), Match(0, 1, 2))
        self.assertIs(native.build, real)

    def test_a_search_within_the_build(self):
        """A signal's handler may search while its own thread builds: that doesn't wait for itself."""
        automaton, real, nested = Automaton(["é"]), native.build, []

        def build(*arguments):
            if not nested:
                nested.append(None)
                nested[0] = automaton.find("€é")
            return real(*arguments)

        with unittest.mock.patch.object(native, "build", build):
            self.assertEqual((automaton.find("é€"), nested), (Match(0, 0, 1), [Match(0, 1, 2)]))

    @unittest.skipUnless(hasattr(os, "fork"), "there is no fork here")
    def test_a_fork_within_the_build(self):
        """The child has no thread that goes on with the build, and builds anew."""
        automaton, real = Automaton(["é"]), native.build
        begun, go_on = threading.Event(), threading.Event()

        def build(*arguments):
            begun.set()
            go_on.wait()
            return real(*arguments)

        with unittest.mock.patch.object(native, "build", build), warnings.catch_warnings():
            warnings.simplefilter("ignore")
            thread = threading.Thread(target=automaton.find, args=("é€",))
            thread.start()
            begun.wait()
            child = os.fork()
            if not child:
                native.build = real
                done = threading.Timer(20, os._exit, (2,))
                done.start()
                os._exit(0 if automaton.find("€é") == Match(0, 1, 2) else 1)
            go_on.set()
            thread.join()
        self.assertEqual(os.waitpid(child, 0)[1], 0)


def made(words):
    automaton = ahocorasick.Automaton()
    for number, word in enumerate(words):
        automaton.add_word(word, number)
    automaton.make_automaton()
    return automaton


@contextlib.contextmanager
def changes_within_build(change):
    """Something else happens while an automaton is built, once."""
    real, left = native.build, [change]

    def build(*arguments):
        if left:
            left.pop()()
        return real(*arguments)

    with unittest.mock.patch.object(native, "build", build):
        yield


class EveryMethod(unittest.TestCase):
    """All methods at the same time, with one automaton."""

    TEXTS = ["an app, appended", "an app, appendé", "an app, append€"]

    def results(self, automaton, text):
        leftmost, anchored = automaton.kind != "standard", automaton.start_kind == "both"
        reader, writer = io.StringIO(text), io.StringIO()
        stream = automaton.stream()
        return [
            automaton.patterns, automaton.kind, automaton.fold, automaton.start_kind, automaton.engine, automaton.memory,
            repr(automaton), pickle.loads(pickle.dumps(automaton)).find(text), copy.copy(automaton) is automaton,
            automaton.find(text), automaton.find(text, 3, anchored=anchored), automaton.find(text, earliest=True),
            automaton.is_match(text), list(automaton.finditer(text)), list(automaton.finditer(text, 2, 9)),
            list(automaton.finditer(text, 3, anchored=anchored)), None if leftmost else list(automaton.overlapping(text)),
            None if leftmost else automaton.mask(text), None if leftmost else list(automaton.find_words(text, "leftmost-first")),
            None if leftmost else automaton.mask_words(text), None if leftmost else list(automaton.overlapping_words(text)),
            None if leftmost else list(automaton.find_words_stream(io.StringIO(text), "leftmost-longest")),
            None if leftmost else list(automaton.overlapping_words_stream(io.StringIO(text))),
            None if leftmost else automaton.replace_words(text, "-", "leftmost-first"), automaton.find_each([text, "", text]),
            automaton.is_match_each([text, "", "x€"]),
            automaton.replace(text, "-"), automaton.replace(text, ["1", "2", "3"]), automaton.replace(text, {
                "app": "1", "append": "2", "dé": "3"}), automaton.replace(text, lambda found: str(found.start)),
            automaton.replace_stream(reader, writer, ["1", "2", "3"]), writer.getvalue(),
            stream.push(text[:9]), stream.cut, stream.push(text[9:]), stream.finish(), stream.cut,
            list(automaton.finditer_stream(io.StringIO(text))),
        ]

    def test_automaton(self):
        for settings in ({}, {"kind": "leftmost-first"}, {"kind": "leftmost-longest", "fold": True}, {"start_kind": "both"}):
            wanted = [self.results(Automaton(["app", "append", "dé"], **settings), text) for text in self.TEXTS]
            automaton = Automaton(["app", "append", "dé"], **settings)
            with often():
                for got in at_once(lambda number: [[self.results(automaton, text) for text in self.TEXTS] for _ in range(5)]):
                    self.assertEqual(got, [wanted] * 5)

    def test_long_texts(self):
        """The same over texts for which the interpreter's lock is let go of."""
        automaton, texts = Automaton(["app", "append", "dé"]), [text * 1000 for text in self.TEXTS]
        wanted = [self.results(Automaton(["app", "append", "dé"]), text) for text in texts]
        with often():
            for number, got in enumerate(at_once(lambda number: self.results(automaton, texts[number % 3]))):
                self.assertEqual(got, wanted[number % 3])

    def test_a_stream(self):
        for words in (["ab", "é€"], words_of(200, "Ѐ") + ["ab", *map(chr, range(0x500, 0x580))]):
            stream, piece = Automaton(words).stream(), "ab€" * 1000
            with often():
                found = at_once(lambda number: [len(stream.push(piece)) for _ in range(10)])
            self.assertEqual((sum(map(sum, found)), stream.finish(), stream.cut), (80000, [], 240000))

    def test_names_of_pyahocorasick(self):
        """Some threads ask while others add and remove words, and make the automaton: nothing but the errors that the calls name."""
        automaton, words = ahocorasick.Automaton(), words_of(50, "я")

        def changes(draw):
            word = draw.choice(words)
            call = draw.choice([
                lambda: automaton.add_word(word, word), lambda: automaton.add_word(word, word), automaton.make_automaton,
                lambda: automaton.remove_word(word), automaton.get_stats, lambda: pickle.loads(pickle.dumps(automaton)),
                lambda: automaton.pop(word), automaton.clear if draw.random() < 0.3 else automaton.make_automaton,
            ])
            try:
                call()
            except KeyError as error:
                self.assertEqual(error.args, (word,))

        def asks(draw):
            draw.choice([
                lambda: automaton.match("я1"), lambda: automaton.longest_prefix("я12"), lambda: automaton.exists("я1."),
                lambda: automaton.get("я1.", None), lambda: len(automaton), lambda: automaton.match("я2."),
            ])()

        def lists(draw):
            call = draw.choice([
                lambda: list(automaton.keys("я")), lambda: list(automaton), lambda: list(automaton.items()),
                lambda: list(automaton.values()),
            ])
            with contextlib.suppress(ValueError, KeyError):  # the words have changed
                call()

        def searches(draw):
            text = "xx".join(draw.choice(words) for _ in range(20))
            call = draw.choice([
                lambda: automaton.iter(text), lambda: automaton.iter_long(text), lambda: self.goes_on(automaton, text),
                lambda: automaton.iter(text, ignore_white_space=True), lambda: automaton.find_all(text, lambda *_: None) or (),
            ])
            try:
                for end, word in call():
                    self.assertTrue(text[:end + 1].endswith(word), (text, end, word))
            except (ValueError, AttributeError) as error:  # the words have changed, or are not made
                self.assertIn("utomaton", str(error))

        def run(number):
            draw = random.Random(number)
            for _ in range(500):
                (changes, changes, changes, asks, asks, lists, searches, searches)[number](draw)

        for _ in range(8):
            with often():
                at_once(run)
        automaton.clear()
        automaton.add_word("я", "я")
        automaton.make_automaton()
        self.assertEqual(list(automaton.iter("xя")), [(1, "я")])

    def test_words_that_change_while_it_is_built(self):
        """The automaton that is made in the end is that of the words in the end."""
        for change, wanted in (
            (lambda it: it.add_word("b", "B"), [(0, "A"), (1, "B")]), (lambda it: it.add_word("a", "new"), [(0, "new")]),
            (lambda it: it.remove_word("a"), []), (lambda it: it.make_automaton(), [(0, "A")]),
            (lambda it: it.pop("c") and it.add_word("b", "B"), [(0, "A"), (1, "B")]),
        ):
            automaton = ahocorasick.Automaton()
            for word in "ac":
                automaton.add_word(word, word.upper())
            with changes_within_build(lambda: change(automaton)):
                automaton.make_automaton()
            self.assertEqual(list(automaton.iter("abx")), wanted)
            automaton.add_word("d", "D")
            with changes_within_build(automaton.clear):
                self.assertIs(automaton.make_automaton(), False)
            self.assertRaises(AttributeError, automaton.iter, "a")

    def test_words_that_change_while_it_searches(self):
        automaton = made(["a", "ab"])
        search = automaton.iter_long("xa")
        with changes_within_build(lambda: automaton.add_word("a", "new")):
            self.assertEqual(next(search), (1, "new"))
        automaton = made(["a", "ab"])
        search = automaton.iter_long("xa")
        with changes_within_build(lambda: automaton.add_word("b", "B")):
            self.assertRaises(ValueError, next, search)

    def goes_on(self, automaton, text):
        search = automaton.iter(text)
        next(search, None)
        search.set(text, True)
        return search


class Shared(unittest.TestCase):
    """One iterator by many threads: each match is given to one of them."""

    def taken(self, iterator):
        with often():
            return sorted(it for got in at_once(lambda number: list(iterator) if number % 2 else [it for it in iterator]) for it in got)

    def test_iterators(self):
        words = words_of(100)
        text = text_of(words, 200000)
        wanted = matches_of(words, text)
        automaton, other, piece = Automaton(words), made(words), 1 << 12
        pairs = [(found.end - 1, found.pattern) for found in wanted]

        class Reader(io.StringIO):
            def read(self, size):
                return super().read(min(size, piece))

        for _ in range(5):
            self.assertEqual(self.taken(automaton.finditer(text)), sorted(wanted))
            self.assertEqual(self.taken(automaton.overlapping(text)), sorted(wanted))
            self.assertEqual(self.taken(automaton.finditer_stream(Reader(text))), sorted(wanted))
            self.assertEqual(self.taken(other.iter(text)), pairs)
            self.assertEqual(self.taken(other.iter_long(text)), pairs)

    def test_by_next(self):
        words = words_of(100)
        text, automaton, other = text_of(words), Automaton(words), made(words)
        for iterator in (automaton.finditer(text), automaton.overlapping(text), other.iter(text), other.iter_long(text)):
            def take(_):
                got = []
                for it in iter(lambda: next(iterator, None), None):
                    got.append(it)
                return got

            with often():
                self.assertEqual(sum(map(len, at_once(take))), len(matches_of(words, text)))

    def test_an_error_ends_it(self):
        automaton = made(words_of(100))
        pairs = iter(automaton.iter(text_of(words_of(100))))
        next(pairs)
        automaton.clear()
        self.assertRaises(ValueError, list, pairs)
        self.assertEqual(list(pairs), [])


class Replacements(dict):
    """A mapping that has each key, and runs something before it says so."""

    def __init__(self, low):
        self.low = low

    def __missing__(self, key):
        self.low.__index__()
        return "-"


class Star(str):
    """A star that runs something before it says how long it is."""

    def __new__(cls, low):
        star = super().__new__(cls, "#")
        star.low = low
        return star

    def __len__(self):
        self.low.__index__()
        return 1


class BuiltAgain(unittest.TestCase):
    """`__init__` called again, or an automaton let go, while something of it goes on."""

    def test_while_iterators_run(self):
        for words, text in ((["é"], "é€" * 50000), (["fox"], "a fox " * 20000), ([b"fox"], b"a fox " * 20000)):
            for search in ("finditer", "overlapping"):
                automaton = Automaton(words)
                wanted, matches = list(automaton.finditer(text)), getattr(automaton, search)(text)
                got = [next(matches) for _ in range(100)]
                automaton.__init__([words[0][:1] * 3, words[0] * 2] * 50, "leftmost-longest")
                gc.collect()
                self.assertEqual(got + list(matches), wanted)
                self.assertEqual(len(automaton.patterns), 100)
                matches = Automaton(words).finditer(text)
                self.assertEqual(list(matches), wanted)

    def test_while_streams_run(self):
        automaton = Automaton(["é", "abc"])
        stream, matches = automaton.stream(), automaton.finditer_stream(io.StringIO("é" * 300000))
        first = next(matches)
        automaton.__init__(["xyz"] * 3)
        gc.collect()
        self.assertEqual((stream.push("€é"), stream.push("abc")), ([Match(0, 1, 2)], [Match(1, 2, 5)]))
        self.assertEqual((first, sum(1 for _ in matches)), (Match(0, 0, 1), 299999))

    def test_while_a_call_runs(self):
        """Between the call and its search the automaton is built again, by code of the caller that the call runs."""
        for call, wanted in (
            (lambda it, low: it.find("xé€", low), Match(0, 1, 2)), (lambda it, low: it.is_match("xé€", low), True),
            (lambda it, low: list(it.finditer("xé€", low)), [Match(0, 1, 2)]),
            (lambda it, low: list(it.overlapping("xé€", low)), [Match(0, 1, 2)]),
            (lambda it, low: list(it.finditer("xé€" * 3000, low))[-1], Match(0, 8998, 8999)),
            (lambda it, low: it.replace("xé€", Replacements(low)), "x-€"), (lambda it, low: it.replace_words("x é €", Replacements(low)), "x - €"),
            (lambda it, low: it.mask("xé€", Star(low)), "x#€"),
            (lambda it, low: it.find_each("xé€" if number else str(low.__index__()) for number in range(2)), [[], [Match(0, 1, 2)]]),
        ):
            automaton = Automaton(["é"])

            class Low:
                def __index__(self):
                    automaton.__init__(["a", "b"], engine="contiguous")
                    gc.collect()
                    return 0

            self.assertEqual(call(automaton, Low()), wanted)
            self.assertEqual((automaton.patterns, automaton.engine), (("a", "b"), "contiguous"))

    def test_while_a_stream_begins(self):
        automaton, real = Automaton(["é"]), native.stream

        def again(*given):
            automaton.__init__(["a", "b"])
            gc.collect()
            return real(*given)

        with unittest.mock.patch.object(native, "stream", again):
            self.assertEqual(automaton.stream().push("xé€"), [Match(0, 1, 2)])

    def test_by_threads(self):
        both = [["é", "abc"], ["bé", "c", "é€"]]
        text = "abcé€" * 2000
        automaton, allowed = Automaton(both[0]), [list(Automaton(words).finditer(text)) for words in both]
        replaced = [Automaton(words).replace(text, "-") for words in both]

        def run(number):
            for turn in range(60):
                if number < 2:
                    automaton.__init__(both[(number + turn) % 2])
                else:
                    self.assertIn(list(automaton.finditer(text)), allowed)
                    self.assertIn(automaton.replace(text, "-"), replaced)
                    self.assertIn(automaton.find_each([text])[0], allowed)
                    self.assertIn(automaton.find(text), (Match(1, 0, 3), Match(1, 2, 3)))
                    stream = automaton.stream()
                    self.assertIn(stream.push(text) + stream.finish(), allowed)

        with often():
            at_once(run)
            with Builds():
                at_once(run)

    def test_a_failed_one_changes_nothing(self):
        automaton = Automaton(["é"])
        for wrong, settings in ((["a", b"b"], {}), (["a"], {"kind": "x"}), (["a"], {"fold": True, "pairs": [("0", "1")]})):
            self.assertRaises((TypeError, ValueError), automaton.__init__, wrong, **settings)
            self.assertEqual((automaton.patterns, automaton.find("€é")), (("é",), Match(0, 1, 2)))

    def test_of_pyahocorasick(self):
        automaton = made(["é", "éa"])
        search, text = automaton.iter("éa€" * 5000), iter(automaton.iter("éa€" * 5000))
        first = [next(search), next(text)]
        automaton.__init__()
        for number, word in enumerate(["é", "éa"]):
            automaton.add_word(word, number)
        automaton.make_automaton()
        self.assertEqual(first, [(0, 0)] * 2)
        self.assertRaises(ValueError, next, search)
        self.assertRaises(ValueError, list, text)
        self.assertEqual(list(automaton.iter("éa")), [(0, 0), (1, 1)])

    def test_a_stream_has_one_owner(self):
        stream = Automaton(["é"]).stream()
        for wrong in (stream.__init__, dadofennel.Stream, lambda: copy.copy(stream), lambda: copy.deepcopy(stream),
                      lambda: pickle.dumps(stream)):
            self.assertRaises(TypeError, wrong)
        gc.collect()
        self.assertEqual(stream.push("€é"), [Match(0, 1, 2)])

    def test_a_failed_stream(self):
        self.assertRaises(Error, Automaton(["é", ""]).stream)


EXIT = """
import threading, dadofennel, dadofennel.ahocorasick
automaton, other = dadofennel.Automaton(["é%d." % it for it in range(500)]), dadofennel.ahocorasick.Automaton()
other.add_word("é1.", 1)
other.make_automaton()
stream, text, begun = automaton.stream(), "é1.€" * 20000, threading.Barrier(5)
def search(number):
    begun.wait()
    while True:
        [lambda: list(automaton.finditer(text)), lambda: list(other.iter(text)), lambda: stream.push(text),
         lambda: automaton.replace(text, "-")][number]()
for number in range(4):
    threading.Thread(target=search, args=(number,), daemon=True).start()
begun.wait()
"""


class Exit(unittest.TestCase):
    def test_while_threads_search(self):
        """The interpreter ends, and lets go of the module's automata, while threads that it doesn't wait for search with them."""
        for _ in range(3):
            done = subprocess.run([sys.executable, "-c", EXIT], stderr=subprocess.PIPE, timeout=60)
            self.assertEqual((done.returncode, done.stderr), (0, b""))


if __name__ == "__main__":
    unittest.main()
