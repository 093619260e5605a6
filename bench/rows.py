"""The rows: which sets of patterns, what is done with each, and by which programs."""
import os
import re
import sys

import measure
from measure import Command

TEXT_SETS = [
    ("one-absent", "1 that is absent"),
    ("five-rare", "5 rare"),
    ("five-common", "5 common"),
    ("four-letters", "`e`, `t`, `a` and `o`"),
    ("sixteen-rare", "16 rare"),
    ("hundred-rare", "100 rare"),
    ("hundred-mixed", "100, 20 of them common"),
    ("three-hundred", "300"),
    ("one-thousand", "1,000"),
    ("five-thousand", "5,000"),
    ("thirty-thousand", "30,000"),
]
OTHER_SETS = [
    ("log-faults", "5 messages in a log"),
    ("log-addresses", "100 addresses in a log"),
    ("dna", "100 of 12 letters in DNA"),
]
SETS = TEXT_SETS + OTHER_SETS
LONGEST_SETS = [it for it in SETS if it[0] in ("five-common", "four-letters", "hundred-mixed", "one-thousand", "thirty-thousand", "dna")]
BUILD_SETS = [
    ("one-thousand", "1,000"),
    ("five-thousand", "5,000"),
    ("thirty-thousand", "30,000"),
    ("two-hundred-thousand", "200,000 of 10 letters"),
]
# the length of the texts, and the set
SHORT_SETS = [
    (f"{length} {name}", f"{length} bytes, {title} words")
    for length in (24, 80)
    for name, title in (("five-rare", "5 rare"), ("hundred-mixed", "100, 20 of them common,"), ("five-thousand", "5,000"))
]
SHORT_CALLS = ["is_match", "find_iter", "replace"]
KINDS = ["standard", "leftmost-first"]
# which engine of version 0.7 of the public crate stands beside which of ours; version 1.1 is measured by those that may be its best
PEER_ENGINE = {"auto": "auto", "dfa": "dfa", "contiguous": "nfa", "noncontiguous": "nfa"}
NEWER_ENGINES = ["auto", "dfa"]
ENGINES = list(PEER_ENGINE)
PASSES = 2


class Bench:
    """The programs by their names, the folder of the data, and how often each program runs."""

    def __init__(self, programs, data, runs):
        self.programs, self.data, self.runs = programs, data, runs

    def text(self, name):
        """The text in which a set is looked for."""
        return f"{self.data}/{'log' if name.startswith('log') else 'dna' if name == 'dna' else 'text'}.txt"

    def rules(self, name):
        return f"{self.data}/{name}.rules"

    def words(self, name):
        return f"{self.data}/{name}.words"

    def acsub(self, label, name, mode, *options):
        """A whole run of acsub over the set's text, where it is there."""
        if "acsub" in self.programs:
            yield Command(label, [self.programs["acsub"], mode, self.rules(name), *options], self.text(name))

    def streams(self, name, mode, kind, engines, stdin=None):
        """Whole runs of acsub by the engines, and of the public crate's two versions, over the set's text or another file."""
        beside = {"acsub": engines, "crate 0.7": dict.fromkeys(PEER_ENGINE[it] for it in engines), "crate 1.1": NEWER_ENGINES}
        for program, theirs in beside.items():
            for engine in theirs if program in self.programs else []:
                words = [self.programs[program], mode, self.rules(name), "--kind", kind, "--engine", engine]
                yield Command(f"{program} {engine}", words, stdin or self.text(name))

    def in_memory(self, name, kind, engines):
        """Searches of the set's text in memory, beside version 1.1 of the public crate."""
        for program, first, theirs in (("in_memory", [], engines), ("crate 1.1", ["in-memory"], NEWER_ENGINES)):
            for engine in theirs if program in self.programs else []:
                words = [self.programs[program], *first, self.words(name), self.text(name), PASSES, engine, kind]
                yield Command(f"{'acsub' if program == 'in_memory' else program} {engine}", words)

    def counters(self, name):
        """What counts: ripgrep and grep the lines with a match, and Hyperscan all occurrences."""
        asked = {
            "ripgrep": ["-c", "-a", "-F", "-f", self.words(name), "-"],
            "grep": ["-c", "-a", "-F", "-f", self.words(name)],
            "Hyperscan": [self.words(name), "-", 1],
        }
        for program, words in asked.items():
            if program in self.programs:
                yield Command(program, [self.programs[program], *words], self.text(name), counts=True)

    def speeds(self, name, commands):
        """The speed in MB/s of each command over the set's text, by the processor time of whole runs."""
        size = os.path.getsize(self.text(name))
        return {label: size / taken / 1e6 for label, taken in measure.fastest(commands, self.runs).items()}

    def peaks(self, commands):
        """The most memory that a run of each command had touched, where the launcher is there."""
        return measure.peaks(commands, self.programs.get("peak"))


def measure_rows(programs, data, words, runs, known=()):
    """The figures of each row of which the name has one of the words, or of all where there are none, one row after another.

    Rows that are known aren't measured again.
    """
    bench, known = Bench(programs, data, runs), {(it["mode"], it["set"]): it for it in known}
    for mode, name, title in named(words):
        if (mode, name) in known:
            yield known[mode, name]
        elif set(MODES[mode].needs) <= set(programs):
            print(f"{mode} {name}", file=sys.stderr, flush=True)
            yield {"mode": mode, "set": name, "title": title, **MODES[mode].figures(bench, name)}


def named(words):
    """The mode, the set and its title of each row of which the name has one of the words, or of all where there are none."""
    for mode, it in MODES.items():
        for name, title in it.sets:
            if not words or any(word in f"{mode} {name}" for word in words):
                yield mode, name, title


class Mode:
    """What is done with each of the sets: the commands of a set, and their figures. It needs programs of these names."""

    def __init__(self, sets, commands, figures, *needs):
        self.sets, self.commands, self.measured, self.needs = sets, commands, figures, needs or ["acsub"]

    def figures(self, bench, name):
        return self.measured(bench, name, list(self.commands(bench, name)))


def streams(mode, kind, engines, stdin=None):
    return lambda bench, name: bench.streams(name, mode, kind, engines, stdin)


def in_memory(kind, engines):
    return lambda bench, name: bench.in_memory(name, kind, engines)


def listed(bench, name, streams):
    """`list` over a stream by each engine, beside all others."""
    counters = list(bench.counters(name))
    listing = equal(name, streams)
    compare_counts(bench, name, listing, {it.label: measure.count(it) for it in counters})
    commands = streams + counters
    return {"speeds": bench.speeds(name, commands), "peaks": bench.peaks(commands)}


def compare_counts(bench, name, listing, counts):
    """Ends the run where a count isn't the one that acsub's output gives."""
    want = {}
    if {"ripgrep", "grep"} & set(counts):
        with open(bench.text(name), "rb") as file:
            lines = measure.lines_matched(listing, file.read())
        want = {"ripgrep": lines, "grep": lines}
    if "Hyperscan" in counts:
        (every,) = bench.acsub("all", name, "overlap")
        want["Hyperscan"] = measure.output(every).count(b"\n")
    for label, count in counts.items():
        if count != want[label]:
            sys.exit(f"{name}: {label} counts {count}, and acsub {want[label]}")


def same_output(bench, name, commands):
    """Runs that write the same."""
    equal(name, commands)
    return {"speeds": bench.speeds(name, commands)}


def masks(bench, name):
    """`mask` over a stream, and beside it `list` by the same engines. No other program here masks."""
    for mode in ("mask", "list"):
        for engine in ("auto", "dfa"):
            yield from bench.acsub(f"{mode} {engine}", name, mode, "--engine", engine)


def masked(bench, name, commands):
    equal(name, [it for it in commands if it.label.startswith("mask")])
    return {"speeds": bench.speeds(name, commands)}


def whole_words(bench, name):
    """Whole words beside all occurrences, over a stream by `auto`. No other program here has these words."""
    leftmost = ["--kind", "leftmost-longest", "--stream"]
    for label, mode, options in (("list", "list", []), ("leftmost", "list", leftmost), ("mask", "mask", [])):
        yield from bench.acsub(label, name, mode, *options)
        yield from bench.acsub(f"{label} words", name, mode, *options, "--word")


def whole_runs(bench, name, commands):
    return {"speeds": bench.speeds(name, commands)}


def listed_leftmost(bench, name, commands):
    """`list` of an input that is held. Version 0.7.19 of the public crate has wrong numbers where a pattern begins with an earlier
    one, so its numbers aren't compared."""
    equal(name, [it for it in commands if "0.7" not in it.label])
    equal(name, commands, lambda output: re.sub(rb"(?m)^\d+ ", b"", output))
    held = [it for it in commands if it.label.endswith("auto")]
    return {"speeds": bench.speeds(name, commands), "peaks": bench.peaks(held)}


def replaced_leftmost(bench, name, commands):
    """`replace` of an input that is held, and compared with version 1.1 of the public crate alone."""
    equal(name, [it for it in commands if "0.7" not in it.label])
    return {"speeds": bench.speeds(name, commands)}


def beside_hyperscan(bench, name):
    """Searches in memory, and Hyperscan, which counts all occurrences."""
    yield from bench.in_memory(name, "standard", ENGINES)
    if "Hyperscan" in bench.programs:
        yield Command("Hyperscan", [bench.programs["Hyperscan"], bench.words(name), bench.text(name), PASSES])


def searched(bench, name, commands):
    """Searches in memory, of which the counts must be equal, but for Hyperscan's."""
    figures = measure.speeds(commands, bench.runs)
    counts = {label: count for label, (_, count) in figures.items() if label != "Hyperscan"}
    if len(set(counts.values())) > 1:
        sys.exit(f"{name}: counts of matches differ: {counts}")
    return {"speeds": {label: speed for label, (speed, _) in figures.items()}}


def codes(bench, name):
    """Searches in memory by the library for C, with its code for this machine's processor and with the one for older ones."""
    for kind in KINDS:
        for code, asked in (("wide", {}), ("first", {"DADOFENNEL_CPU": "x86-64-v2"})):
            words = [bench.programs["library"], "in-memory", bench.words(name), bench.text(name), PASSES, "auto", kind]
            yield Command(f"{kind} {code}", words, environment=asked)


def by_code(bench, name, commands):
    figures = {}
    for kind in KINDS:
        figures.update(searched(bench, name, [it for it in commands if it.label.startswith(kind)])["speeds"])
    return {"speeds": figures}


def short_texts(bench, name):
    """Searches of short texts, each by a call of its own: by the library for C, and by version 1.1 of the public crate."""
    length, words = name.split()
    for kind in KINDS:
        for program in ("library", "crate 1.1"):
            if program in bench.programs:
                asked = ["short-texts", bench.words(words), f"{bench.data}/short.txt", length, kind]
                yield Command(f"{program} {kind}", [bench.programs[program], *asked])


def counted(bench, name, commands):
    """The instructions of a call on one of the texts, where the results of all calls are equal."""
    figures, results = {}, {}
    for command in commands:
        result, counts = measure.instructions(command, [f"all_{it}" for it in SHORT_CALLS])
        results.setdefault(command.label.split()[-1], set()).add(result)
        for call, count in zip(SHORT_CALLS, counts):
            figures[f"{command.label} {call}"] = count / int(result.split()[0])
    if any(len(it) > 1 for it in results.values()):
        sys.exit(f"{name}: results differ: {results}")
    return {"instructions": figures}


def built(bench, name, commands):
    """Whole runs with no input."""
    return {"seconds": measure.fastest(commands, bench.runs), "peaks": bench.peaks(commands)}


def equal(name, commands, part=lambda output: output):
    """The output of the first command. Ends the run where that part of another one's output differs."""
    first = measure.output(commands[0])
    want = measure.digest(part(first))
    for command in commands[1:]:
        if measure.digest(part(measure.output(command))) != want:
            sys.exit(f"{name}: {' '.join(command.words)} writes something else than {' '.join(commands[0].words)}")
    return first


MODES = {
    "list": Mode(TEXT_SETS, streams("list", "standard", ENGINES), listed),
    "replace": Mode(SETS, streams("replace", "standard", ["auto", "dfa"]), same_output),
    "texts": Mode(OTHER_SETS, streams("list", "standard", ENGINES), listed),
    "mask": Mode(SETS, masks, masked),
    "word": Mode(SETS, whole_words, whole_runs),
    "leftmost-list": Mode(SETS, streams("list", "leftmost-first", ["auto", "dfa", "noncontiguous"]), listed_leftmost),
    "leftmost-replace": Mode(SETS, streams("replace", "leftmost-first", ["auto"]), replaced_leftmost),
    "longest-list": Mode(LONGEST_SETS, streams("list", "leftmost-longest", ["auto"]), listed_leftmost),
    "in-memory": Mode(SETS, beside_hyperscan, searched, "in_memory"),
    "leftmost-in-memory": Mode(SETS, in_memory("leftmost-first", ["auto", "dfa", "noncontiguous"]), searched, "in_memory"),
    "longest-in-memory": Mode(LONGEST_SETS, in_memory("leftmost-longest", ["auto", "dfa"]), searched, "in_memory"),
    "codes": Mode(SETS, codes, by_code, "library", "wide"),
    "short-texts": Mode(SHORT_SETS, short_texts, counted, "library", "valgrind"),
    "build": Mode(BUILD_SETS, streams("list", "standard", ["auto", "noncontiguous", "contiguous", "dfa"], os.devnull), built),
}
