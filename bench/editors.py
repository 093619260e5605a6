"""A word replaced in a long text by acsub and by the programs that one would take else, and a thousand words."""
import datetime
import hashlib
import os
import shutil
import subprocess
import sys

import measure
import programs
from measure import Command
from report import put, put_between, table, two_digits

MARK = "<!-- bench/run --editors writes from here -->"
WORD = "the"
WORDS = 1000
# perl takes the words from a file
PERL = 'BEGIN { open F, "<", shift; chomp(@w = <F>); $w = join "|", map { quotemeta } @w } s/$w/X/g'


class Editors:
    """The programs by their names, the two texts, and the thousand words, also as rules."""

    def __init__(self, asked, folder, data):
        self.programs = dict(found(asked, folder))
        self.runs = asked.runs or (1 if asked.quick else 3)
        self.text, self.part = f"{data}/long.txt", f"{data}/part.txt"
        self.mb = (lengthened(self.text, data, asked.mib), lengthened(self.part, data, max(1, asked.mib // 8)))
        self.words, self.rules = f"{data}/apart.words", f"{data}/apart.rules"
        words = apart(f"{data}/five-thousand.words")
        put(self.words, "".join(f"{it}\n" for it in words))
        put(self.rules, "".join(f"{it}\tX\n" for it in words))

    def commands(self, kind):
        """The commands of a column, as one would write them: each program that can do it."""
        old, new = WORD, WORD.upper()
        leftmost = ["--kind", "leftmost-first", "--stream"]
        of = {
            "word": {
                "acsub": (["replace", "-e", old, "-r", new, "--text", self.text], os.devnull),
                "rg": (["--no-config", "--passthru", "-a", "-r", new, old, self.text], os.devnull),
                "sed": ([f"s/{old}/{new}/g", self.text], os.devnull),
                "perl": (["-pe", f"s/{old}/{new}/g", self.text], os.devnull),
                "sd": ([old, new], self.text),
            },
            "in place": {
                "acsub": (["replace", "-e", old, "-r", new, "--text", "-i"], os.devnull),
                "sed": (["-i", f"s/{old}/{new}/g"], os.devnull),
                "perl": (["-i", "-pe", f"s/{old}/{new}/g"], os.devnull),
                "sd": ([old, new], os.devnull),
            },
            "words": {
                "acsub": (["replace", self.rules, "--text", *leftmost, self.part], os.devnull),
                "rg": (["--no-config", "--passthru", "-a", "-F", "-f", self.words, "-r", "X", self.part], os.devnull),
                "perl": (["-pe", PERL, self.words, self.part], os.devnull),
            },
        }[kind]
        return [Command(name, [self.programs[name], *words], stdin) for name, (words, stdin) in of.items() if name in self.programs]


def found(asked, folder):
    """The programs that are installed, and what measures memory."""
    yield "acsub", asked.acsub or programs.installed(folder)
    for name in ("rg", "sed", "perl", "sd"):
        path = shutil.which(name)
        if path:
            yield name, path
        else:
            print(f"left out: {name} isn't installed", file=sys.stderr)
    peak, why = programs.peak(folder)
    if not peak:
        sys.exit(f"memory can't be measured: {why}")
    yield "peak", peak


def lengthened(path, data, mib):
    """Writes the data's text again and again to a file until it has so many MiB, of whole lines, and returns its MB."""
    if not os.path.exists(path) or abs(os.path.getsize(path) / 2**20 - mib) > 1:
        with open(f"{data}/text.txt", "rb") as file:
            once = file.read().rstrip(b"\n") + b"\n"
        left = mib * 2**20
        with open(path, "wb") as out:
            while left > 0:
                left -= out.write(once if len(once) <= left else once[: once.rfind(b"\n", 0, left) + 1 or left])
                if left < 4096:
                    break
    return os.path.getsize(path) / 1e6


def apart(path):
    """The first words of a list of which none lies in another: so all programs take the same ones, whichever they prefer."""
    taken = []
    with open(path) as file:
        for word in map(str.strip, file):
            if len(taken) < WORDS and not any(it in word or word in it for it in taken):
                taken.append(word)
    return taken


def digest_of(source):
    """The digest of all that can be read, and how many bytes those are."""
    sum_of = hashlib.sha256()
    for piece in iter(lambda: source.read(1 << 20), b""):
        sum_of.update(piece)
    return sum_of.hexdigest()


def written(command):
    """The digest of what a run writes."""
    with open(command.stdin, "rb") as stdin:
        child = subprocess.Popen(command.words, stdin=stdin, stdout=subprocess.PIPE, env=command.environment)
    with child.stdout:
        digest = digest_of(child.stdout)
    measure.refuse(command, child.wait())
    return digest


def same(commands, digests):
    """Ends the run where a program wrote something else than the first."""
    for command, digest in zip(commands, digests):
        if digest != digests[0]:
            sys.exit(f"{' '.join(command.words)} writes something else than {' '.join(commands[0].words)}")


def streamed(editors, kind):
    """The seconds and the MB of each program that writes to standard output."""
    commands = editors.commands(kind)
    same(commands, [written(it) for it in commands])
    return measure.fastest(commands, editors.runs), measure.peaks(commands, editors.programs["peak"])


def in_place(editors, folder):
    """The seconds of each program that rewrites a copy of the text."""
    copy, commands, best, digests = f"{folder}/copy.txt", editors.commands("in place"), {}, []
    for turn in range(editors.runs):
        for command in commands:
            shutil.copyfile(editors.text, copy)
            command = Command(command.label, [*command.words, copy])
            best[command.label] = min(best.get(command.label, float("inf")), measure.seconds(command))
            if turn == 0:
                with open(copy, "rb") as file:
                    digests.append(digest_of(file))
    os.remove(copy)
    same(commands, digests)
    return best


def matches(editors):
    """How many times the word is there."""
    command = editors.commands("word")[0]
    done = subprocess.run([*command.words, "--count"], stdout=subprocess.DEVNULL, stderr=subprocess.PIPE, check=True)
    return int(done.stderr.split()[-2])  # acsub: N matches


def measured(asked, machine):
    """Measures all, and returns the table with the line above it."""
    folder = os.path.abspath(asked.folder)
    data, _ = programs.data(folder, asked.quick)
    editors, load = Editors(asked, folder, data), os.getloadavg()[0]
    seconds, peaks = streamed(editors, "word")
    changed = in_place(editors, folder)
    many, _ = streamed(editors, "words")
    lines = [["", "seconds", "MB of memory", "seconds in place", f"seconds, {WORDS:,} words in {editors.mb[1]:,.0f} MB"]]
    for name, title in TITLES.items():
        if name in seconds:
            lines.append([title, *(cell(it.get(name)) for it in (seconds, peaks, changed, many))])
    note = (
        f"The word `{WORD}` replaced in {editors.mb[0]:,.0f} MB, {matches(editors):,} times: seconds of processor time, the best run of"
        f" {editors.runs}, on {datetime.date.today().isoformat()}, on {machine}, with a load of {load:.1f}. All write the same bytes."
        " ripgrep maps the file, so its memory has the whole of it:"
    )
    return f"{note}\n\n{table(lines)}"


TITLES = {
    "acsub": "`acsub replace`",
    "rg": "`rg --passthru -r`",
    "sed": "`sed s/../../g`",
    "perl": "`perl -pe s/../../g`",
    "sd": "`sd`",
}


def cell(value):
    return "" if value is None else two_digits(value)


def run(asked, machine, root):
    """Measures, and puts the table into the folder, and with --write into README."""
    text = measured(asked, machine)
    put(f"{asked.folder}/editors.md", text)
    if asked.write:
        put_between(f"{root}/README.md", text, MARK)
    print(text, end="")
