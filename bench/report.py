"""Writes the tables and the charts of a run's results."""
import sys

import chart

BEGIN, END = "<!-- bench/run writes from here -->", "<!-- to here -->"
COLORS = ["#c1121f", "#f4845f", "#1d4e89", "#6096ba", "#2a9d8f", "#8a6d3b", "#7b2cbf"]
CHART_SETS = {
    "one-absent": 1,
    "five-rare": 5,
    "sixteen-rare": 16,
    "hundred-rare": 100,
    "three-hundred": 300,
    "one-thousand": 1000,
    "five-thousand": 5000,
    "thirty-thousand": 30000,
}


README_SETS = {
    "five-rare": "5 rare words",
    "hundred-rare": "100 rare words",
    "one-thousand": "1,000 words",
    "thirty-thousand": "30,000 words",
    "four-letters": "`e`, `t`, `a` and `o`",
}


def write(results, folder, root):
    """Writes tables and charts into the folder, and under the repository's root where one is given, with README's rows."""
    tables, charts = tables_of(results), charts_of(results)
    put(f"{folder}/tables.md", tables)
    for place in [folder] + ([f"{root}/docs"] if root else []):
        for name, drawing in charts.items():
            put(f"{place}/{name}.svg", drawing)
    if root:
        put_between(f"{root}/docs/SPEED.md", tables)
        put_between(f"{root}/README.md", readme_of(results))
    print(tables, end="")
    if results["stolen"] > 0.05:
        print("the machine's host took much of the processors' time: these figures mean little", file=sys.stderr)


def put(path, content):
    with open(path, "w") as file:
        file.write(content)


def put_between(page, content, begin=BEGIN):
    """Puts the content between the marks of a page."""
    with open(page) as file:
        before, mark, rest = file.read().partition(begin)
    if not mark:
        sys.exit(f"{page} has no line {begin}")
    put(page, f"{before}{begin}\n{content}{END}{rest.partition(END)[2]}")


def tables_of(results):
    """The page of tables, in Markdown."""
    figures = figures_of(results)
    charts = charts_of(results)
    parts = [heading(results)]
    parts += [f"![{CHARTS[it][0]}: MB/s by the number of patterns, a line for each program]({it}.svg)\n" for it in charts]
    for title, note, columns in TABLES:
        modes = {column.mode for column in columns}
        titles = {row["set"]: row["title"] for row in results["rows"] if row["mode"] in modes}
        lines = [[title_of] + [column.cell(figures.get((column.mode, name))) for column in columns] for name, title_of in titles.items()]
        shown = [at for at in range(len(columns) + 1) if any(line[at] for line in lines)]
        if len(shown) > 1:
            head = ["patterns"] + [column.heading for column in columns]
            body = [[line[at] for at in shown] for line in [head] + lines]
            parts.append(f"### {versioned(title, results)}\n\n{versioned(note, results)}\n\n{table(body)}")
    return "\n".join(parts)


def figures_of(results):
    return {(row["mode"], row["set"]): row for row in results["rows"]}


def versioned(note, results):
    """A note with the versions of the public crate in the place of their names."""
    for name in ("1.1", "0.7"):
        note = note.replace(f"CRATE {name}", results["versions"].get(f"crate {name}", name))
    return note


def readme_of(results):
    """README's rows: by version 1.1 of the public crate, the faster of its own choice and its DFA."""
    figures = figures_of(results)
    columns = [
        Column(heading, mode, "speeds", "acsub auto", *BEST)
        for heading, mode in (
            ("`list`", "list"),
            ("`replace`", "replace"),
            ("`list`, leftmost-first", "leftmost-list"),
            ("`replace`, leftmost-first", "leftmost-replace"),
        )
    ]
    lines = [[title] + [it.cell(figures.get((it.mode, name))) for it in columns] for name, title in README_SETS.items()]
    note = (
        f"Speed relative to the public Rust crate CRATE 1.1, the faster of its own choice and its DFA, in a program with the same command"
        f" line, over {results['mib']} MiB of text (one measurement, of {results['date']}). Above 1, `acsub` is faster:"
    )
    return f"{versioned(note, results)}\n\n{table([['patterns'] + [it.heading for it in columns]] + lines)}"


def table(lines):
    drawn = [f"| {' | '.join(line)} |\n" for line in lines]
    return drawn[0] + "|---" + "|---:" * (len(lines[0]) - 1) + "|\n" + "".join(drawn[1:])


class Column:
    """A column of a table: which figure of a mode's rows it shows, and how.

    With one label it is that figure, and with more the first by the greatest of the others; `inverse` is for figures of which less is
    better, by the least of the others.
    """

    def __init__(self, heading, mode, figure, *labels, inverse=False):
        self.heading, self.mode, self.figure, self.labels, self.inverse = heading, mode, figure, labels, inverse

    def cell(self, row):
        """The figure of a row, or the ratio: nothing where it isn't there."""
        values = [(row or {}).get(self.figure, {}).get(label) for label in self.labels]
        if None in values:
            return ""
        value, *others = values
        if others:
            value = min(others) / value if self.inverse else value / max(others)
        elif self.figure == "seconds":
            return f"{value:.4f}"
        return two_digits(value)


def two_digits(value):
    """A number to two digits, as 0.89, 1.6, 13, 470 and 3,200."""
    value = float(f"{value:.1e}")
    return f"{value:,.0f}" if value >= 10 else f"{value:.1f}" if value >= 1 else f"{value:.2f}"


# the labels of version 1.1 of the public crate of which the faster one counts
BEST = ("crate 1.1 auto", "crate 1.1 dfa")


def speeds(mode, *columns):
    return [Column(heading, mode, "speeds", label) for heading, label in columns]


def ratios(mode, what, *columns):
    """Our speed by that of version 0.7 of the public crate, by engines of the same kind."""
    return [Column(f"{what}, {ours}", mode, "speeds", f"acsub {ours}", f"crate 0.7 {theirs}") for ours, theirs in columns]


def by_best(heading, mode):
    """Our speed by the best of version 1.1 of the public crate."""
    return Column(heading, mode, "speeds", "acsub auto", *BEST)


def peaks(mode, *columns):
    return [Column(heading, mode, "peaks", label) for heading, label in columns]


def short_columns(figure):
    """A column for each kind and call on short texts, made by a function of the heading and of what the two programs' labels end with."""
    return [
        figure(f"{kind}, `{call}`", f"{kind} {call}")
        for kind in ("standard", "leftmost-first")
        for call in ("is_match", "find_iter", "replace")
    ]


PROGRAMS = [
    ("acsub", "acsub auto"),
    ("acsub, DFA", "acsub dfa"),
    ("crate 1.1", "crate 1.1 auto"),
    ("crate 1.1, DFA", "crate 1.1 dfa"),
    ("crate 0.7", "crate 0.7 auto"),
    ("ripgrep", "ripgrep"),
    ("grep", "grep"),
    ("Hyperscan", "Hyperscan"),
]
LEFTMOST = PROGRAMS[:5]
IN_MEMORY = [
    ("auto", "acsub auto"),
    ("DFA", "acsub dfa"),
    ("contiguous", "acsub contiguous"),
    ("noncontiguous", "acsub noncontiguous"),
    ("crate 1.1, auto", "crate 1.1 auto"),
    ("crate 1.1, DFA", "crate 1.1 dfa"),
    ("Hyperscan", "Hyperscan"),
]
BUILDS = [
    ("auto", "acsub auto"),
    ("noncontiguous", "acsub noncontiguous"),
    ("contiguous", "acsub contiguous"),
    ("DFA", "acsub dfa"),
    ("crate 1.1, auto", "crate 1.1 auto"),
    ("crate 1.1, DFA", "crate 1.1 dfa"),
    ("crate 0.7, NFA", "crate 0.7 nfa"),
    ("crate 0.7, DFA", "crate 0.7 dfa"),
]
TABLES = [
    (
        "The program beside others",
        "MB/s over the text, by the processor time of whole runs. acsub and the public crate, of versions CRATE 1.1 and CRATE 0.7, list each"
        " match under the standard kind, ripgrep and grep count the lines with a match (`-c -F -f`), and Hyperscan counts all occurrences.",
        speeds("list", *PROGRAMS),
    ),
    ("Logs and DNA", "The same over other texts.", speeds("texts", *PROGRAMS)),
    (
        "The program under leftmost-first",
        "MB/s of `list` under leftmost-first, where the input is held.",
        speeds("leftmost-list", *LEFTMOST),
    ),
    (
        "Beside the public crate CRATE 1.1",
        "The speed of `auto` divided by that of the public crate CRATE 1.1, the faster of its own choice and its DFA: above 1 `auto` is"
        " faster. The first five columns are of whole runs. Under the standard kind both write while they read, and under leftmost kinds"
        " both hold the input. The others are of searches in memory, here by `find_iter_ahead`.",
        [
            by_best("`list`", "list"),
            by_best("`replace`", "replace"),
            by_best("leftmost-first, `list`", "leftmost-list"),
            by_best("leftmost-first, `replace`", "leftmost-replace"),
            by_best("leftmost-longest, `list`", "longest-list"),
            by_best("in memory", "in-memory"),
            by_best("in memory, leftmost-first", "leftmost-in-memory"),
            by_best("in memory, leftmost-longest", "longest-in-memory"),
        ],
    ),
    (
        "Short texts",
        "The instructions that the public crate CRATE 1.1 takes for a call on a short text, by its own choice of engine, divided by those"
        " of the library for C: above 1 the library takes fewer. Other work on the machine changes a time, but not a count of instructions.",
        short_columns(
            lambda heading, call: Column(heading, "short-texts", "instructions", f"library {call}", f"crate 1.1 {call}", inverse=True)
        ),
    ),
    (
        "Instructions of a call on a short text",
        "Those of the library for C, in the same rows.",
        short_columns(lambda heading, call: Column(heading, "short-texts", "instructions", f"library {call}")),
    ),
    (
        "The code for either processor",
        "MB/s of the library for C over a text that is held (`dado_some`), by its code for x86-64-v2 and for x86-64-v3, and the second"
        " divided by the first. The library chooses by the processor.",
        [
            column
            for kind in ("standard", "leftmost-first")
            for column in (
                Column(f"{kind}, v2", "codes", "speeds", f"{kind} first"),
                Column(f"{kind}, v3", "codes", "speeds", f"{kind} wide"),
                Column("v3 by v2", "codes", "speeds", f"{kind} wide", f"{kind} first"),
            )
        ],
    ),
    (
        "By the public crate CRATE 0.7, standard kind",
        "The speed of acsub divided by that of the public crate CRATE 0.7, with an engine of the same kind: above 1 acsub is faster. Both"
        " write while they read.",
        ratios("list", "list", ("auto", "auto"), ("dfa", "dfa"), ("contiguous", "nfa"), ("noncontiguous", "nfa"))
        + ratios("replace", "replace", ("auto", "auto"), ("dfa", "dfa")),
    ),
    (
        "By the public crate CRATE 0.7, leftmost-first",
        "The same under leftmost-first, where both hold the input.",
        ratios("leftmost-list", "list", ("auto", "auto"), ("dfa", "dfa"), ("noncontiguous", "nfa"))
        + ratios("leftmost-replace", "replace", ("auto", "auto")),
    ),
    (
        "Masks",
        "MB/s of `acsub mask`, which masks all occurrences, and that divided by the speed of `acsub list` under the standard kind.",
        speeds("mask", ("auto", "mask auto"), ("DFA", "mask dfa"))
        + [Column(f"by list, {engine}", "mask", "speeds", f"mask {engine}", f"list {engine}") for engine in ("auto", "dfa")],
    ),
    (
        "Whole words",
        "MB/s of `acsub list --word`, under the standard kind and under leftmost-longest, and of `acsub mask --word`, and each divided by"
        " the speed of the same run without `--word`, which writes while it reads, too.",
        [
            column
            for heading, label in (("list", "list"), ("leftmost-longest", "leftmost"), ("mask", "mask"))
            for column in (
                Column(heading, "word", "speeds", f"{label} words"),
                Column(f"{heading}, by all", "word", "speeds", f"{label} words", label),
            )
        ],
    ),
    (
        "Memory of a run",
        "The most MB that a run had touched. Under leftmost-first acsub and the crate hold the input, and Hyperscan holds it always.",
        peaks("list", *PROGRAMS) + peaks("leftmost-list", ("acsub, leftmost", "acsub auto"), ("crate 1.1, leftmost", "crate 1.1 auto")),
    ),
    (
        "A search in memory, standard kind",
        "MB/s over a text that is held, by the fastest pass: all matches, here by `find_iter_ahead` and in the crate by `find_iter`."
        " Hyperscan counts all occurrences. The last column is `auto` divided by Hyperscan.",
        speeds("in-memory", *IN_MEMORY) + [Column("by Hyperscan", "in-memory", "speeds", "acsub auto", "Hyperscan")],
    ),
    ("A search in memory, leftmost-first", "The same under leftmost-first.", speeds("leftmost-in-memory", *IN_MEMORY)),
    (
        "Builds",
        "Seconds of processor time of whole runs with no input.",
        [Column(heading, "build", "seconds", label) for heading, label in BUILDS],
    ),
    (
        "Memory of builds",
        "The most MB that those runs had touched. The last two columns are acsub divided by CRATE 1.1: below 1 acsub takes less.",
        peaks("build", *BUILDS)
        + [
            Column(f"{heading} by crate 1.1's", "build", "peaks", f"acsub {engine}", f"crate 1.1 {engine}")
            for heading, engine in (("auto", "auto"), ("DFA", "dfa"))
        ],
    ),
]
# the title of each chart, the mode of its rows, and its programs, in the order of the colors
CHARTS = {
    "speed": ("Searching for many patterns at once", "list", [it for it in PROGRAMS if it[0] != "crate 1.1, DFA"]),
    "leftmost": ("Leftmost-first", "leftmost-list", LEFTMOST),
}


def charts_of(results):
    """The charts by their names, by the number of patterns; none where its rows aren't there."""
    note = f"MB/s of processor time, whole runs over {results['mib']} MiB of text; both axes are logarithmic"
    charts = {}
    for name, (title, mode, programs) in CHARTS.items():
        series = []
        for color, (heading, label) in zip(COLORS, programs):
            line = sorted(
                (CHART_SETS[row["set"]], row["speeds"][label])
                for row in results["rows"]
                if row["mode"] == mode and row["set"] in CHART_SETS and label in row["speeds"]
            )
            if line:
                series.append((charted(heading, results["versions"]), color, line))
        if series:
            charts[name] = chart.chart(title, note, series)
    return charts


def charted(heading, versions):
    """The name of a program in a chart, with its version: `crate 1.1, DFA` is `Rust crate 1.1.3, DFA`."""
    name, comma, engine = heading.partition(", ")
    if name.startswith("crate"):
        name = f"Rust {name[:5]} {versions.get(name, name[6:])}"
    elif name in versions:
        name = f"{name} {versions[name]}"
    return name + comma + engine


def heading(results):
    """When and on what the figures were measured, beside which programs, and what was left out."""
    before, after = results["load"]
    said = [f"{'the public ' if name.startswith('crate') else ''}{name.split()[0]} {version}" for name, version in results["versions"].items()]
    code = results["code"]
    lines = [
        f"Measured on {results['date']} in {results['minutes']:.0f} minutes, on {results['machine']}. The load was {before:.1f} before"
        f" and {after:.1f} after, and the machine's host took {results['stolen']:.0%} of the processors' time.",
        f"The texts have {results['mib']} MiB, and the best of {results['runs']} runs counts.",
        f"acsub is compiled for {code['acsub']}, and what searches in memory for {code['in_memory']}."
        + (f" The library for C chose its code for {code['library']}." if "library" in code else ""),
    ]
    lines += [f"Beside acsub: {', '.join(said)}."] if said else []
    lines += [f"Left out: {name}, since {why}." for name, why in results["left_out"].items()]
    return " ".join(lines) + "\n"
