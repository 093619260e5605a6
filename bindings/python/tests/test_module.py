"""The extension module: a package that is imported again, interpreters beside the first, and types that are made by hand."""
import gc
import importlib
import subprocess
import sys
import typing
import unittest
import weakref

import dadofennel
import dadofennel.ahocorasick

NAME = "dadofennel"


def imported_again():
    """The package, imported as if it weren't yet, beside the one that is there."""
    kept = {name: sys.modules.pop(name) for name in list(sys.modules) if name == NAME or name.startswith(f"{NAME}.")}
    try:
        importlib.import_module(f"{NAME}.ahocorasick")
        return importlib.import_module(NAME)
    finally:
        for name in [it for it in sys.modules if it == NAME or it.startswith(f"{NAME}.")]:
            del sys.modules[name]
        sys.modules.update(kept)


class Interpreter:
    """A second interpreter that shares the first one's lock, by whatever this Python has for it."""

    def __enter__(self):
        try:
            import _interpreters as made
            self.number = made.create("legacy")
        except ImportError:
            import _xxsubinterpreters as made
            self.number = made.create(isolated=False) if sys.version_info >= (3, 9) else made.create()
        self.made = made
        return self

    def run(self, script):
        failed = self.made.run_string(self.number, f"import sys\nsys.path[:] = {sys.path!r}\n{script}")
        if failed is not None:
            raise AssertionError(failed)

    def __exit__(self, *_):
        self.made.destroy(self.number)


def has_interpreters():
    try:
        with Interpreter():
            return True
    except ImportError:
        return False


class Users(unittest.TestCase):
    """Each user of the package gets the types of the one that it imported."""

    def check(self, package):
        words = package.ahocorasick.Automaton()
        words.add_word("he", 1)
        words.make_automaton()
        automaton, found = package.Automaton(["he", "é"]), package.Match(0, 1, 3)
        for text in ["she", "she" + " " * 9000, "she€"]:
            self.assertIs(type(automaton.find(text)), package.Match)
            self.assertEqual([(type(it), it) for it in automaton.finditer(text)], [(package.Match, found)])
            self.assertEqual(list(map(type, automaton.find_each([text])[0])), [package.Match])
            self.assertEqual(list(map(type, automaton.stream().push(text))), [package.Match])
            self.assertEqual(list(words.iter(text)), [(2, 1)])
        pairs = words.iter("she")
        pairs.set("he")
        self.assertEqual(list(pairs), [(1, 1)])
        leftmost, masker, stream = package.Automaton(["he"], kind="leftmost-first"), automaton.masker(), automaton.stream()
        masker.finish(), stream.finish()
        for call in [leftmost.overlapping, leftmost.mask, leftmost.find_words, masker.push, stream.push]:
            with self.assertRaises(package.Error) as raised:
                call("she")
            self.assertEqual(str(raised.exception), package._native.error_text(raised.exception.status))

    def test_after_it_was_imported_again(self):
        automaton, matches = dadofennel.Automaton(["he"], kind="leftmost-first"), dadofennel.Automaton(["he"]).finditer("hehe")
        again = imported_again()
        self.assertIsNot(again.Error, dadofennel.Error)
        with self.assertRaises(dadofennel.Error):
            automaton.overlapping("she")
        self.assertEqual(list(map(type, matches)), [dadofennel.Match] * 2)
        self.check(dadofennel)
        self.check(again)

    def test_what_outlives_its_module(self):
        again = imported_again()
        automaton, match, module = again.Automaton(["he", "é"]), again.Match, weakref.ref(again._native)
        matches, stream, masker = automaton.finditer("hehe"), automaton.stream(), automaton.masker()
        del again
        self.collect()
        self.assertEqual([type(it) for it in matches] + [type(it) for it in stream.push("she€")], [match] * 3)
        self.assertEqual(masker.push("she") + masker.finish(), "s**")
        self.assertIs(type(automaton.find("she")), match)
        del automaton, match, matches, stream, masker
        self.collect()
        self.assertIsNone(module(), "the module is still there")

    def collect(self):
        for let_go in typing._cleanups:  # typing keeps types that it was given
            let_go()
        gc.collect()

    @unittest.skipUnless(has_interpreters(), "this Python makes no interpreters")
    def test_beside_another_interpreter(self):
        for rounds in range(2):
            with Interpreter() as other:
                other.run(
                    "import dadofennel, dadofennel.ahocorasick\n"
                    "ac = dadofennel.Automaton(['he'], kind='leftmost-first')\n"
                    "assert type(ac.find('she')) is dadofennel.Match\n"
                    "try:\n    ac.overlapping('she')\n    raise SystemError\n"
                    "except dadofennel.Error as error:\n    assert error.status == 14, error\n"
                )
                self.check(dadofennel)
                other.run("assert list(ac.finditer('hehe')) == [(0, 0, 2), (0, 2, 4)]")
            gc.collect()
            self.check(dadofennel)


TYPES = """
import copy, itertools, dadofennel, dadofennel.ahocorasick
from dadofennel import _native as native

short, long = "a é", "a " * 9000
automaton, words = dadofennel.Automaton(["a", "é"]), dadofennel.ahocorasick.Automaton()
words.add_word("a", 1)
words.make_automaton()
core, made = automaton._built, {}

def one_of_each():
    return [
        automaton.finditer("a"), automaton.finditer(long), native.batches(core, "a", None, None, True), words.iter("a"), native.Change(),
        automaton.stream()._pieces, automaton.masker()._masks._masker, core, core.by_codes(), automaton, automaton.find("a"),
    ]

for it in one_of_each():
    for type_ in type(it).__mro__:
        if type_.__module__ == "dadofennel._native":
            made[type_.__name__] = type_
assert sorted(made) == sorted(
    ["Found", "Walk", "Batches", "Pairs", "Change", "Pieces", "Masker", "Core", "Owner", "Searches", "Held"]), sorted(made)
assert {it for it in vars(native).values() if isinstance(it, type) and it.__module__ == native.__name__} <= set(made.values())

Unnamed = type("Meta", (type,), {"__name__": 5})("Unnamed", (), {})
some = [None, Unnamed(), 0, 1, -1, 2**63, "a", b"a", short, long, [], (), {}, ["a"], {"a": "b", "é": ""}, iter(()), (b"a", 1, True, True)]

def called(of, *given):
    "Calls it, and takes what any call may raise."
    try:
        return of(*given)
    except SystemError:
        raise
    except Exception as error:
        return None

def tried(it):
    "Calls each method of an object, and each function of the module with it."
    cores = [it, native.Core(), core]
    for name in dir(type(it)):
        if name in ("__class__", "__init_subclass__", "__subclasshook__", "__sizeof__", "__reduce__", "__reduce_ex__", "__dir__"):
            continue
        method = called(getattr, it, name)
        if callable(method):
            called(method)
            for one in some + cores:
                called(method, one)
            for pair in itertools.product(some[:10], repeat=2):
                called(method, *pair)
    for of in [repr, iter, next, copy.copy, copy.deepcopy, hash, len, list]:
        called(of, it)
    for one in cores + some:
        for given in [(one,), (one, 0), (one, 0, True), (one, None), (one, "a", False), (one, "a", "standard"), (one, "a", None, None, True),
                      (one, native.Change(), [], (), "a", 0, 1, True), (one, it, [], (), "a", 0, 1, True), (one, it, 0), (it, one, -5)]:
            for name in ["masker", "stream", "hold", "batches", "matches_after", "words_in", "pairs", "width_of", "error_text", "starred"]:
                made = called(getattr(native, name), *given)
                if made is not None and not isinstance(made, (str, int)):
                    called(lambda: list(itertools.islice(made, 20)))

alone = ["Found", "Walk", "Batches", "Pairs", "Pieces", "Masker", "Owner"]
for name in made:
    for new in [made[name], lambda type_=made[name]: type_.__new__(type_), lambda type_=made[name]: object.__new__(type_),
                lambda type_=made[name]: type("Derived", (type_,), {})()]:
        try:
            it = new()
        except TypeError:
            continue
        assert name not in alone, name
        tried(it)
        for owner in [core.by_codes(), native.build((), 0, 0, 0, False, True, True, None, None, b"")[1]]:
            for sizes in [(1, 1, 1), (1, 0, 0), (1, 2**40, 2), (0, 1, -1), (5, 1, 1), (-1, 0, 0), (1, 1, 2)]:
                if name == "Core":
                    it = new()
                    called(setattr, it, "patterns", ())
                    called(it.begin, owner, *sizes, (b"a", 1, True, False))
                    tried(it)
for it in one_of_each():
    tried(it)
failed = native.build((b"a",), 9, 0, 0, False, True, True, None, None, b"")
assert failed[0] != native.OK and failed[1] is None
Evil = type("Evil", (native.Core,), {"star_of": lambda *_: "a" * 99, "patterns": (), "by_codes": lambda *_: 0, "one_each": lambda *_: ()})
evil, other = Evil(), dadofennel.Automaton(["a"])
evil.begin(dadofennel.Automaton(["a", "é"])._built.by_codes(), 1, 1, 2, None)
other._built = evil
for call in [lambda: other.replace("a", {"a": "b", "é": "c"}), lambda: other.mask("a", "+"), lambda: other.replace("a", {1, 2}),
             lambda: evil.texts({"a": "b", "é": "c"}), lambda: other.finditer("é" * 9000), lambda: other.find("é")]:
    called(call)
pairs = words.iter("a")
assert called(pairs.go_on, pairs) is None and next(pairs) == (0, 1)
pairs.go_on(map(next, itertools.repeat(pairs)))
try:
    next(pairs)
except RecursionError:
    print("done")
"""


class ByHand(unittest.TestCase):
    def test_each_type(self):
        """Each type of the module, made by hand if it can be, and each of its methods: an exception is raised, or nothing is."""
        done = subprocess.run([sys.executable, "-X", "faulthandler", "-c", TYPES], stdout=subprocess.PIPE, stderr=subprocess.PIPE, timeout=300)
        self.assertEqual((done.returncode, done.stderr.decode(), done.stdout), (0, "", b"done\n"))


if __name__ == "__main__":
    unittest.main()
