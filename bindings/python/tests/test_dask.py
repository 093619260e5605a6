"""`dadofennel.dask`: where files are cut, and what a cluster of two processes writes beside one run of the program.

The second half needs the package distributed, and the program: ACSUB, or crates/acsub/out/acsub. It is left out where one is missing.
"""
import io
import logging
import os
import random
import subprocess
import tempfile
import unittest
import warnings
from unittest import mock

from dadofennel import dask

HERE = os.path.dirname(os.path.abspath(__file__))
ACSUB = os.path.abspath(os.environ.get("ACSUB") or os.path.join(HERE, "..", "..", "..", "crates", "acsub", "out", "acsub"))
KINDS = ["standard", "leftmost-first", "leftmost-longest"]

with warnings.catch_warnings():
    warnings.simplefilter("ignore")
    try:
        import distributed
    except ImportError:
        distributed = None


class Rules(unittest.TestCase):
    def test_are_a_file(self):
        """A mapping of patterns to replacements isn't one, and nothing is made then."""
        with tempfile.TemporaryDirectory() as folder:
            self.assertRaises(TypeError, dask.replace, None, {"fox": "sloth"}, [], folder + "/out")
            self.assertEqual(os.listdir(folder), [])


class Cuts(unittest.TestCase):
    """Where a file is cut."""

    def file(self, data):
        file = tempfile.TemporaryFile()
        self.addCleanup(file.close)
        file.write(data)
        file.flush()
        return file.fileno()

    def test_a_line_starts(self):
        file = self.file(b"ab\n\ncd\r\nef")
        for at, end, start in [(0, 0, 0), (0, 10, 0), (1, 10, 3), (3, 10, 3), (4, 10, 4), (5, 8, None), (5, 9, 8), (9, 10, None), (10, 10, None)]:
            self.assertEqual(dask._line_start(file, at, end), start, (at, end))

    def test_a_line_of_many_blocks(self):
        file = self.file(b"x" * 100 + b"\ny")
        with mock.patch.object(dask, "BLOCK", 7):
            self.assertEqual([dask._line_start(file, at, 102) for at in (1, 100, 101, 102)], [101, 101, 101, None])

    def test_each_line_is_in_one_piece(self):
        draw = random.Random(1)
        for _ in range(2000):
            data = bytes(draw.choices(b"a\n", [draw.choice([1, 9]), 1], k=draw.randint(1, 40)))
            file, step, spans = self.file(data), draw.randint(1, 12), []
            for start in range(0, len(data), step):
                stop = min(start + step, len(data))
                low = dask._line_start(file, start, stop)
                if low is not None:
                    high = dask._line_start(file, stop, len(data)) if stop < len(data) else None
                    spans.append((low, len(data) if high is None else high))
            self.assertEqual([0] + [high for _, high in spans], [low for low, _ in spans] + [len(data)])
            self.assertTrue(all(data[low - 1] == 10 for low, _ in spans[1:]))

    def test_why_a_file_is_one_piece(self):
        feed = "a pattern holds a line feed, or the byte that --pairs makes it match"
        for rules, options, why in [
            (b"", [], None),
            (b"6162\t0a\n", [], None),
            (b"61\t\n\t62\n", [], "a pattern is empty"),
            (b"610A62\t\n", [], feed),
            (b"7e\t\n", ["--pairs", "0a7e"], feed),
            (b"7e\t\n", ["--pairs", "41427E0A"], feed),
            (b"41\t7e\n", ["--pairs", "0a7e"], None),
            (b"7e\t\n", ["--pairs", "7e41"], None),
            (b"a\t\nb\tc\r\nd\t\r\n", ["--text"], None),
            (b"a~\tb", ["--text", "--pairs", "7e0a"], feed),
            (b"a\t~", ["--text", "--pairs", "7e0a"], None),
            (b"a\r\r\n", ["--text", "--pairs", "0d0a"], feed),
            (b"a\r\nb\r", ["--text", "--pairs", "0d0a"], None),
        ]:
            self.assertEqual(dask.whole_because(rules, options), why, (rules, options))

    def test_places_are_moved(self):
        draw = random.Random(3)
        for _ in range(300):
            longest, millions = draw.choice([1, 7, 100, 3000000]), draw.choice([1, 9, 268, 12345678])
            ends = sorted(draw.choice([1, 10 ** 6, 10 ** 7, 10 ** 9]) * draw.randint(1, 3) + draw.randint(-30, 30) for _ in range(draw.randint(0, 60)))
            found = [(draw.choice([0, 1, 268, 10 ** 6]), max(0, end - draw.randint(0, longest)), max(0, end)) for end in ends]
            text = lambda offset: b"".join(b"%d %d %d\n" % (n, start + offset, end + offset) for n, start, end in found)
            out = io.BytesIO()
            with mock.patch.object(dask, "BLOCK", draw.choice([50, 300, 10 ** 6])):
                dask._move(io.BytesIO(text(0)), millions, longest, out)
            self.assertEqual(out.getvalue(), text(millions * 10 ** 6))

    def test_sizes(self):
        self.assertEqual([dask._size(it) for it in ("1", "3K", "256M", "2g")], [1, 3072, 256 << 20, 2 << 30])
        for bad in ("", "0", "-1", "M", "1T", "0.5G"):
            self.assertRaises(ValueError, dask._size, bad)

    def test_the_options_of_the_program(self):
        words = ["--scheduler", "s", "replace", "--text", "r", "a", "--kind", "leftmost-first", "b", "--out", "o", "--dense-depth", "0"]
        given = dask._parser().parse_intermixed_args(words)
        self.assertEqual((given.mode, given.rules, given.inputs), ("replace", "r", ["a", "b"]))
        self.assertEqual(dask._options(given), ["--text", "--kind", "leftmost-first", "--dense-depth", "0"])


@unittest.skipUnless(distributed, "there is no package distributed (Debian's python3-distributed)")
@unittest.skipUnless(os.access(ACSUB, os.X_OK), f"there is no program {ACSUB}")
class OnACluster(unittest.TestCase):
    """What two workers write, beside one run."""

    @classmethod
    def setUpClass(cls):
        cls.room = tempfile.TemporaryDirectory()
        cls.addClassCleanup(cls.room.cleanup)
        cls.cluster = distributed.LocalCluster(
            n_workers=2, threads_per_worker=1, processes=True, dashboard_address=None, local_directory=cls.room.name,
            silence_logs=logging.CRITICAL)
        cls.addClassCleanup(cls.cluster.close)
        cls.client = distributed.Client(cls.cluster)
        cls.addClassCleanup(cls.client.close)

    def setUp(self):
        self.folder = tempfile.mkdtemp(dir=self.room.name)

    def written(self, name, data):
        path = os.path.join(self.folder, name)
        with open(path, "wb") as file:
            file.write(data)
        return path

    def one_run(self, mode, rules, source, *options):
        with open(source, "rb") as stdin:
            return subprocess.run([ACSUB, mode, rules, *options], stdin=stdin, stdout=subprocess.PIPE, check=True).stdout

    def run_all(self, mode, rules, sources, *options, **how):
        out = os.path.join(self.folder, "out")
        paths = dask.run(self.client, mode, rules, sources, out, options=options, acsub=ACSUB, **how)
        self.assertEqual(sorted(os.listdir(out)), sorted(map(os.path.basename, sources)))
        return [open_bytes(path) for path in paths]

    def test_as_one_run(self):
        draw = random.Random(2)
        words = [b"fox", b"foxes", b"ox", b"brown fox", b"e", b"\n", b"\r\n", b" "]
        rules = self.written("rules", b"fox\tsloth\nox\t\nfoxes\tsloths\nbrown\tgrey\n")
        sources = [self.written(f"text{n}", b"".join(draw.choices(words, k=size))) for n, size in enumerate([0, 1, 200, 600])]
        for mode, kinds in [("replace", KINDS), ("list", KINDS), ("overlap", KINDS[:1]), ("mask", KINDS[:1])]:
            for kind in kinds:
                words_ = ["--text", "--kind", kind]
                came = self.run_all(mode, rules, sources, *words_, piece=draw.choice([40, 100, 1000]))
                self.assertEqual(came, [self.one_run(mode, rules, source, *words_) for source in sources], (mode, kind))

    def test_one_piece(self):
        source = self.written("text", b"x\ny\n" * 500)
        for rules in [b"0a79\t2d\n", b"\t2d\n"]:
            path = self.written("rules", rules)
            self.assertEqual(self.run_all("replace", path, [source], piece=10), [self.one_run("replace", path, source)])

    def test_by_functions(self):
        rules, source, out = self.written("rules", b"fox\tsloth\nox\t\n"), self.written("text", b"a fox\n" * 50), os.path.join(self.folder, "out")
        for function, mode in [(dask.replace, "replace"), (dask.matches, "list"), (dask.overlapping, "overlap"), (dask.masks, "mask")]:
            told = []
            paths = function(self.client, rules, [source], out, options=["--text"], acsub=ACSUB, piece=100, progress=lambda *it: told.append(it))
            self.assertEqual(open_bytes(paths[0]), self.one_run(mode, rules, source, "--text"))
            self.assertEqual((told[0], told[-1], len(told)), ((0, 300), (300, 300), 4))

    def test_refused(self):
        rules, bad = self.written("rules", b"fox\tsloth\n"), self.written("bad", b"fox\tsloth\n\tx\n")
        source, out = self.written("text", b"fox\n"), os.path.join(self.folder, "out")
        absent = os.path.join(self.folder, "absent")
        for mode, rules_, sources, how, status, line in [
            ("list", bad, [source], {}, 3, "acsub: rules: line 2"),
            ("overlap", rules, [source], {"options": ["--text", "--kind", "leftmost-first"]}, 2, "acsub: setting: overlap needs the standard kind"),
            ("list", absent, [source], {}, 3, f"{absent}: No such file or directory"),
            ("list", rules, [absent], {}, 1, f"{absent}: No such file or directory"),
            ("list", rules, [self.folder], {}, 1, f"{self.folder}: is not a file"),
            ("list", rules, [source, source], {}, 1, f"{source}: would be written to the same file as {source}"),
            ("list", rules, [source], {"out": self.folder}, 1, f"{source}: is in the folder for the outputs"),
            ("list", rules, [source], {"acsub": absent}, 1, f"{absent}: No such file or directory on a worker: install acsub there, or say where it is (--acsub)"),
        ]:
            with self.assertRaises(dask.Fault) as caught:
                dask.run(self.client, mode, rules_, sources, **{"out": out, "acsub": ACSUB, "options": ["--text"], **how})
            self.assertEqual((caught.exception.status, str(caught.exception)), (status, line))
            self.assertEqual(os.listdir(out) if os.path.exists(out) else [], [])
        for bad_words in [{"mode": "lists"}, {"piece": 0}]:
            with self.assertRaises(ValueError):
                dask.run(self.client, **{"mode": "list", "rules": rules, "inputs": [source], "out": out, **bad_words})

    def test_an_input_that_changes(self):
        rules, out = self.written("rules", b"fox\tsloth\n"), os.path.join(self.folder, "out")
        source = self.written("text", b"fox\n" * 100)

        def change(done, total):
            with open(source, "ab") as file:
                file.write(b"x")

        os.mkdir(out)
        with open(os.path.join(out, "text"), "wb") as file:
            file.write(b"what was there")
        with self.assertRaisesRegex(dask.Fault, "has changed while it was read"):
            dask.run(self.client, "replace", rules, [source], out, options=["--text"], acsub=ACSUB, progress=change)
        self.assertEqual(os.listdir(out), ["text"])
        self.assertEqual(open_bytes(os.path.join(out, "text")), b"what was there")


def open_bytes(path):
    with open(path, "rb") as file:
        return file.read()


if __name__ == "__main__":
    unittest.main(verbosity=1)
