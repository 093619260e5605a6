"""Cases of `tools/processes` over real files: FILE arguments, in place, counts, the report on rules and the line of progress.

What is written is compared with `definitions`. A case is a function of a stage, of `tools/processes`, and of its `expect`.
"""
import itertools
import os
import pty
import pwd
import random
import re
import resource
import shutil
import stat
import subprocess
import tempfile
import time
import tty

import definitions

CASES = []

PLAIN = definitions.canonical(definitions.UNPAIRED)
PAIRS = [(b"fox", b"sloth"), (b"brown", b"grey"), (b"the", b"THE"), (b"he", b"she"), (b"x j", b"x & j")]
OLD = 1_600_000_000_000_000_000
NOTHING_DONE = (0, b"", b"")


def case(function):
    """Takes a function for a case. Its name is what it says of itself."""
    CASES.append((function.__doc__.splitlines()[0].rstrip("."), function))
    return function


def write(path, data):
    with open(path, "wb") as file:
        file.write(data)
    return path


def read(path):
    with open(path, "rb") as file:
        return file.read()


def text_rules(stage, rules=PAIRS):
    """A rule file of plain text."""
    return write(f"{stage.room}/words.tsv", b"".join(a + b"\t" + b + b"\n" for a, b in rules))


def folder(stage):
    """A new folder, where nobody may write too."""
    path = tempfile.mkdtemp(dir=stage.room)
    os.chmod(path, 0o777)
    return path


def run(stage, *words, stdin=b"", **how):
    """Status, output and errors of a run."""
    ended = subprocess.run([stage.program, *words], input=stdin, capture_output=True, timeout=600, **how)
    return ended.returncode, ended.stdout, ended.stderr


def picks(kind, word, rules, text):
    found = definitions.occurrences([a for a, _ in rules], definitions.UNPAIRED, text, 0, len(text))
    return definitions.walk(kind, definitions.whole_words(text, found) if word else found, 0)


def replaced(kind, rules, text):
    return definitions.replaced(text, [b for _, b in rules], picks(kind, False, rules, text))


def listed(found):
    return b"".join(b"%d %d %d\n" % o for o in found)


def overlapping(rules, text):
    return definitions.listing(definitions.occurrences([a for a, _ in rules], definitions.UNPAIRED, text, 0, len(text)))


def masked(rules, text):
    within = bytearray(text)
    for o in overlapping(rules, text):
        within[o.start : o.end] = b"*" * (o.end - o.start)
    return bytes(within)


def labelled(path, lines):
    return b"".join(path.encode() + b"\t" + line for line in lines.splitlines(keepends=True))


def forty(stage):
    """Forty files and their texts: names with spaces, tabs, quotes and letters beyond ASCII, in folders and by links; some are empty."""
    draw, room, files = random.Random(3), folder(stage), {}
    words = [a for a, _ in PAIRS] + [b"jumps", b"over", b"a", b"lazy", b"dog", b"*", b"\xff\xfe"]
    for i in range(40):
        name = draw.choice(["plain", "with space", "tab\there", "it's \"so\"", "größe", "-dash", "a,b;c", "новый"]) + f" {i}"
        within = f"{room}/{draw.choice(['', 'deep/er/', 'x y/'])}"
        os.makedirs(within, exist_ok=True)
        text = b" ".join(draw.choices(words, k=draw.choice([0, 1, 50, 3000])))
        path = within + name
        if i % 8 == 7:
            write(f"{within}target {i}", text)
            os.symlink(f"target {i}", path)
        else:
            write(path, text)
        files[path] = text
    return files


@case
def over_files(stage, expect):
    """forty files, in each mode and kind, beside a Python model"""
    files, rules = forty(stage), text_rules(stage)
    paths = list(files)
    for kind in definitions.PREFERENCE:
        whole = b"".join(replaced(kind, PAIRS, text) for text in files.values())
        expect(kind, run(stage, "replace", rules, "--text", "--kind", kind, *paths), (0, whole, b""))
        lines = b"".join(labelled(p, listed(picks(kind, False, PAIRS, t))) for p, t in files.items())
        expect(kind, run(stage, "list", rules, "--text", "--kind", kind, *paths), (0, lines, b""))
        lines = b"".join(labelled(p, listed(picks(kind, True, PAIRS, t))) for p, t in files.items())
        expect(kind, run(stage, "list", rules, "--text", "--word", "--kind", kind, *paths), (0, lines, b""))
    lines = b"".join(labelled(p, listed(overlapping(PAIRS, t))) for p, t in files.items())
    expect("overlap", run(stage, "overlap", rules, "--text", *paths), (0, lines, b""))
    whole = b"".join(masked(PAIRS, t) for t in files.values())
    expect("mask", run(stage, "mask", rules, "--text", *paths), (0, whole, b""))
    one = paths[0]
    expect("one file has no label", run(stage, "list", rules, "--text", one), (0, listed(picks("standard", False, PAIRS, files[one])), b""))


@case
def files_by_arguments(stage, expect):
    """files with patterns of -e, with rules from standard input, and standard input among them"""
    room = folder(stage)
    a, b = write(f"{room}/a", b"the fox"), write(f"{room}/b", b"a fox")
    given = ["replace", "-e", "fox", "-r", "sloth"]
    expect("-e", run(stage, *given, a, b), (0, b"the slotha sloth", b""))
    expect("-e alone", run(stage, *given, stdin=b"one fox"), (0, b"one sloth", b""))
    expect("- as FILE", run(stage, *given, a, "-", b, "-", stdin=b"(fox)"), (0, b"the sloth(sloth)a sloth", b""))
    expect("- as RULES", run(stage, "replace", "-", "--text", a, stdin=b"fox\tsloth\n"), (0, b"the sloth", b""))
    expect("both", run(stage, "replace", "-", "--text", "-", a, stdin=b"fox\tsloth\n"), (0, b"the sloth", b""))
    expect("bad", run(stage, "replace", "-", "--text", a, stdin=b"\n"), (3, b"", b"acsub: rules: line 1\n"))
    escaped = run(stage, "replace", "--escapes", "-e", r"\x66ox", "-r", r"\t", a, b)
    expect("--escapes", escaped, (0, b"the \ta \t", b""))


@case
def files_that_cannot_be_read(stage, expect):
    """files that aren't there, folders, and a file without leave to read: named, and the others are run over"""
    room, rules = folder(stage), text_rules(stage)
    a, b = write(f"{room}/a", b"the fox"), write(f"{room}/b", b"a fox")
    line = f"acsub: {room}/none: No such file or directory\nacsub: {room}: Is a directory\n".encode()
    expect("the end", run(stage, "replace", rules, "--text", a, f"{room}/none", room, b), (5, b"THE slotha sloth", line))
    counted = run(stage, "replace", rules, "--text", "--count", "--fail-if-none", a, f"{room}/none")
    lines = f"acsub: {a}: 2 matches\nacsub: {room}/none: No such file or directory\nacsub: 2 matches\n".encode()
    expect("counted", counted, (5, b"THE sloth", lines))
    os.chmod(b, 0)
    how = {} if os.geteuid() else {"user": "nobody"}
    expect("without leave", run(stage, "list", rules, "--text", b, **how), (5, b"", f"acsub: {b}: Permission denied\n".encode()))


@case
def files_to_a_full_device(stage, expect):
    """files into a full device: the first failed write ends the run"""
    room, rules = folder(stage), text_rules(stage)
    paths = [write(f"{room}/{i}", b"fox " * 100) for i in range(3)]
    with open("/dev/full", "wb") as full:
        for mode in ["replace", "list"]:
            words = [stage.program, mode, rules, "--text", *paths]
            ended = subprocess.run(words, stdout=full, stderr=subprocess.PIPE, timeout=60)
            expect(mode, (ended.returncode, ended.stderr), (6, b"acsub: write failed\n"))


@case
def files_out_of_memory(stage, expect):
    """lines with a path of 4,000 bytes under each limit of memory: a FILE's lines are all there, or none was begun at status 7"""
    room, rules, text = folder(stage), text_rules(stage), b"the fox " * 500
    deep = room + f"/{'d' * 200}" * 19
    os.makedirs(deep)
    paths = [write(f"{deep}/{'f' * (4000 - len(deep) - 1)}", text), write(f"{room}/b", text)]
    first, second = (labelled(it, listed(overlapping(PAIRS, text))) for it in paths)
    allowed = [(0, first + second, b""), *((7, it, b"acsub: out of memory\n") for it in (b"", first))]
    ends = set()
    for size in range(4 << 20, 32 << 20, 256 << 10):
        limit = lambda: resource.setrlimit(resource.RLIMIT_AS, (size, size))
        try:
            ended = run(stage, "overlap", rules, "--text", *paths, preexec_fn=limit)
        except (MemoryError, OSError, subprocess.SubprocessError):
            continue
        if ended[0] >= 0:
            expect(f"{size} bytes", ended, *allowed)
            ends.add(ended[0])
    expect("the ends", ends, {0, 7}, {0})


# ---- counts


@case
def counts(stage, expect):
    """--count and --fail-if-none, over standard input and over files"""
    room, rules = folder(stage), text_rules(stage)
    a, b = write(f"{room}/a", b"the fox *"), write(f"{room}/b", b"nothing *")
    for words, stdin, status, line in [
        (["replace"], b"the fox", 0, b"2 matches"),
        (["replace"], b"fox", 0, b"1 match"),
        (["replace"], b"dog", 1, b"0 matches"),
        (["replace", a, b], b"", 0, b"2 matches"),
        (["replace", b], b"", 1, b"0 matches"),
        (["overlap", a, b], b"", 0, b"3 matches"),
        (["list", "--kind", "leftmost-longest", a, b], b"", 0, b"2 matches"),
        (["list", "--word"], b"the foxes then fox", 0, b"2 matches"),
        (["mask"], b"the fox *", 0, b"6 masked bytes"),
        (["mask", b, a, b], b"", 0, b"6 masked bytes"),
        (["mask", b], b"", 1, b"0 masked bytes"),
        (["mask", "--word"], b"*the foxes fox*", 0, b"6 masked bytes"),
        (["mask", "-e", "x"], b"x", 0, b"1 masked byte"),
    ]:
        mode, *more = words
        source = more if "-e" in more else [rules, "--text", *more]
        for asked in [["--count"], ["--fail-if-none"], ["--count", "--fail-if-none"]]:
            ended = run(stage, mode, *source, *asked, stdin=stdin)
            lines = b"acsub: " + line + b"\n"
            if a in more and b in more:
                lines = f"acsub: {a}: ".encode() + line + b"\n" + lines
            want = status if "--fail-if-none" in asked else 0, lines if "--count" in asked else b""
            expect(f"the end of {words + asked}", (ended[0], ended[2]), want)


# ---- the line of progress


@case
def progress(stage, expect):
    """--progress on a terminal: a line that is removed at the end; none on a pipe, and none without a size"""
    path = f"{stage.room}/large"
    with open(path, "wb") as file:
        file.truncate(12 << 30)
    given = [stage.program, "list", "-e", "fox", "--progress"]
    for source, holds in [([path], True), ([], True)]:
        with open(path, "rb") as file:
            seen = on_terminal([*given, *source], file)
        lines = seen.split(b"\r")
        expect("the last line is removed", (lines[-1], set(lines[-2])), (b"", {32}))
        shown = [re.fullmatch(rb"[0-9.]+ [kMG]B of 12\.8 GB, [0-9]+%, [0-9.]+ [kMG]B/s, [0-9]+:[0-9]{2} left *", it) for it in lines[1:-2]]
        expect("the lines", (all(shown), len(shown) > 0), (True, holds))
    feed = subprocess.Popen(["head", "-c", "3G", path], stdout=subprocess.PIPE)
    expect("a pipe as input", on_terminal(given, feed.stdout), b"")
    expect("errors into a pipe", run(stage, *given[1:], f"{stage.room}/large"), NOTHING_DONE)


def on_terminal(words, source):
    """What a process wrote on standard error, a terminal."""
    master, slave = pty.openpty()
    tty.setraw(slave)
    child = subprocess.Popen(words, stdin=source, stdout=subprocess.DEVNULL, stderr=slave)
    os.close(slave)
    seen = b""
    while True:
        try:
            seen += os.read(master, 4096)
        except OSError:
            break
    os.close(master)
    child.wait(600)
    return seen


# ---- in place


@case
def in_place(stage, expect):
    """forty files rewritten in place: their texts, and nothing else, of those that change alone"""
    files, rules = forty(stage), text_rules(stage)
    for path in files:
        os.utime(path, ns=(OLD, OLD))
    os.chmod(min(files), 0o640)
    ended = run(stage, "replace", rules, "--text", "-i", "--count", *files)
    found = {path: len(picks("standard", False, PAIRS, text)) for path, text in files.items()}
    lines = [f"acsub: {path}: {number} match{'es' * (number > 1)}\n" for path, number in found.items() if number]
    expect("the end", ended, (0, b"", f"{''.join(lines)}acsub: {sum(found.values())} matches\n".encode()))
    for path, text in files.items():
        new = replaced("standard", PAIRS, text)
        expect(path, read(path), new)
        expect(f"touched: {path}", os.stat(path).st_mtime_ns != OLD, new != text)
        expect(f"a link: {path}", os.path.islink(path), int(path.split()[-1]) % 8 == 7)
    expect("the mode", stat.S_IMODE(os.stat(min(files)).st_mode), 0o640)
    everything = [name for _, _, names in os.walk(f"{stage.room}") for name in names]
    expect("new files that are left", [it for it in everything if it.startswith(".acsub")], [])


@case
def in_place_by_hex_and_mask(stage, expect):
    """a file masked in place, and one whose replacements are what they replace"""
    room = folder(stage)
    a, b = write(f"{room}/a", b"the fox"), write(f"{room}/b", b"the fox")
    inode = os.stat(b).st_ino
    expect("mask", run(stage, "mask", "-e", "fox", "-i", a), (0, b"", b""))
    expect("masked", read(a), b"the ***")
    expect("same", run(stage, "replace", "-e", "fox", "-r", "fox", "-i", "--count", b), (0, b"", b"acsub: 1 match\n"))
    expect("untouched", (read(b), os.stat(b).st_ino), (b"the fox", inode))
    expect("shorter", run(stage, "replace", "-e", " fox", "-i", b), (0, b"", b""))
    expect("the front alone", read(b), b"the")


@case
def in_place_modes_and_links(stage, expect):
    """modes are kept, also without leave to write; a link stays, and a hard link keeps the old text"""
    room = folder(stage)
    for mode in [0o444, 0o600, 0o755, 0o4711, 0o2664]:
        path = write(f"{room}/{mode:o}", b"fox")
        os.chmod(path, mode)
        expect("the end", run(stage, "replace", "-e", "fox", "-r", "ox", "-i", path), NOTHING_DONE)
        expect(f"mode {mode:o}", (read(path), stat.S_IMODE(os.stat(path).st_mode)), (b"ox", mode))
    path, hard, link = write(f"{room}/file", b"fox"), f"{room}/hard", f"{room}/link"
    os.link(path, hard)
    os.symlink("file", link)
    os.symlink("link", f"{room}/link2")
    expect("the end", run(stage, "replace", "-e", "fox", "-r", "ox", "-i", f"{room}/link2"), NOTHING_DONE)
    expect("texts", (read(path), read(hard), os.readlink(link)), (b"ox", b"fox", "file"))
    os.mkdir(f"{room}/sub")
    os.symlink("../file", f"{room}/sub/up")
    os.symlink(f"{room}/sub/up", f"{room}/sub/root")
    expect("from its own folder", run(stage, "replace", "-e", "ox", "-r", "fox", "-i", "sub/root", cwd=room), NOTHING_DONE)
    expect("text", (read(path), os.readlink(f"{room}/sub/up")), (b"fox", "../file"))


@case
def in_place_of_what_is_no_file(stage, expect):
    """folders, pipes, devices, standard input and what isn't there are named, and the others are rewritten"""
    room = folder(stage)
    os.mkfifo(f"{room}/pipe")
    a = write(f"{room}/a", b"fox")
    os.symlink("nowhere", f"{room}/broken")
    given = ["replace", "-e", "fox", "-r", "ox", "-i"]
    bad = [f"{room}/pipe", room, "/dev/null", "-", f"{room}/none", f"{room}/broken"]
    why = ["not a regular file"] * 4 + ["No such file or directory"] * 2
    lines = "".join(f"acsub: {it}: {line}\n" for it, line in zip(bad, why)).encode()
    expect("the end", run(stage, *given, *bad, a), (5, b"", lines))
    expect("the other", read(a), b"ox")


@case
def in_place_without_leave(stage, expect):
    """as nobody: a folder that can't be written, and a file of another owner: the old text stays"""
    if os.geteuid():
        return "left out: only root can"
    room = folder(stage)
    a, given = write(f"{room}/a", b"fox"), ["replace", "-e", "fox", "-r", "ox", "-i"]
    line = f"acsub: {a}: owner cannot be kept\n".encode()
    expect("another owner", run(stage, *given, a, user="nobody", group="nogroup"), (6, b"", line))
    expect("nothing is left", os.listdir(room), ["a"])
    shutil.chown(a, "nobody", "nogroup")
    os.chmod(room, 0o555)
    line = f"acsub: {a}: cannot be written\n".encode()
    expect("the folder", run(stage, *given, a, user="nobody", group="nogroup"), (6, b"", line))
    expect("the old text", read(a), b"fox")
    unchanged = run(stage, "replace", "-e", "dog", "-i", a, user="nobody", group="nogroup")
    expect("a file that stays as it is", unchanged, NOTHING_DONE)
    expect("as root", run(stage, *given, a), NOTHING_DONE)
    expect("the owner", (read(a), os.stat(a).st_uid), (b"ox", pwd.getpwnam("nobody").pw_uid))


@case
def in_place_on_a_full_disk(stage, expect):
    """a full disk: the old text stays, the new file is removed, and the others go on"""
    if os.geteuid():
        return "left out: only root can"
    disk = folder(stage)
    subprocess.run(["mount", "-t", "tmpfs", "-o", "size=256k", "none", disk], check=True)
    try:
        a, b = write(f"{disk}/a", b"fox " * 30000), write(f"{disk}/b", b"fox")
        ended = run(stage, "replace", "-e", "fox", "-r", "foxes and more", "-i", a, b)
        expect("the end", ended, (6, b"", f"acsub: {a}: cannot be written\n".encode()))
        expect("texts", (read(a), read(b)), (b"fox " * 30000, b"foxes and more"))
        expect("nothing is left", sorted(os.listdir(disk)), ["a", "b"])
    finally:
        subprocess.run(["umount", disk], check=True)


@case
def in_place_killed(stage, expect):
    """killed at each system call of a rewrite: the file has all of the old text or all of the new one"""
    if not shutil.which("strace"):
        return "left out: there is no strace"
    room = folder(stage)
    old, new = b"fox " * 40000, b"sloth " * 40000
    path, log = f"{room}/file", f"{room}/log"
    words = [stage.program, "replace", "-e", "fox", "-r", "sloth", "-i", path]
    write(path, old)
    subprocess.run(["strace", "-o", log, *words], check=True, timeout=60)
    calls = [it.group(1) for it in re.finditer(rb"^(\w+)\(", read(log), re.M)]
    seen, ends = {}, []
    for name in calls:
        seen[name] = seen.get(name, 0) + 1
        if name in (b"execve", b"exit_group"):
            continue
        write(path, old)
        inject = f"inject={name.decode()}:signal=KILL:when={seen[name]}"
        subprocess.run(["strace", "-o", "/dev/null", "-e", inject, *words], stderr=subprocess.DEVNULL, timeout=60)
        expect(f"the text after a kill at {name.decode()} {seen[name]}", read(path), old, new)
        ends.append(read(path) == new)
        for left in os.listdir(room):
            if left.startswith(".acsub"):
                os.unlink(f"{room}/{left}")
    expect("the name is changed once", ends == sorted(ends), True)


# ---- the report on rules


def report(kind, word, rules):
    """What --check writes of up to 101 pairs, found by trying all short texts and all ways to lie."""
    patterns = [a for a, _ in rules]
    lines = [f"rules: {len(rules)}", f"without replacement: {sum(not b for _, b in rules)}"]
    for name, pick in [("shortest", min), ("longest", max)]:
        if patterns:
            i = patterns.index(pick(patterns, key=len))
            n = len(patterns[i])
            lines.append(f"{name} pattern: {n} byte{'s' * (n != 1)} (line {i + 1})")
    alphabet = sorted(set(b"".join(patterns)))
    texts = [bytes(it) for n in range(6) for it in itertools.product(alphabet, repeat=n)]
    matched = {o.pattern for text in texts for o in picks(kind, word, rules, text)}
    never = [i for i in range(len(patterns)) if i not in matched]
    pairs = {tuple(sorted((i, j))) for i, a in enumerate(patterns) for j, b in enumerate(patterns) if i != j and overlap(word, a, b)}
    named = [f"lines {i + 1} and {j + 1} overlap" for i, j in sorted(pairs)]
    return lines, never, named[:100] + ([f".. and {len(named) - 100} more"] if len(named) > 100 else [])


def overlap(word, a, b):
    """Whether b lies in a and is shorter, or begins with a proper suffix of a, where both may be whole words."""
    part = lambda text, at: not word or not 0 <= at < len(text) or not definitions.is_word_byte(text[at])
    for at in range(len(a)):
        shared = min(len(a) - at, len(b))
        if not shared or a[at : at + shared] != b[:shared]:
            continue
        inside = shared == len(b) < len(a) and part(a, at - 1) and part(a, at + len(b))
        beyond = at > 0 and shared < len(b) and part(a, at - 1) and part(b, shared)
        if inside or beyond:
            return True
    return False


@case
def reports(stage, expect):
    """--check beside texts that are tried one by one: rules over small alphabets, in each kind, with --word and without"""
    draw = random.Random(11)
    for turn in range(150):
        word, kind = turn % 3 == 2, draw.choice(list(definitions.PREFERENCE))
        alphabet, least = (b"a-", 1) if word else (b"ab", turn % 10 > 0)
        rules = [(bytes(draw.choices(alphabet, k=draw.randint(least, 4))), draw.choice([b"", b"x"])) for _ in range(draw.randint(0, 7))]
        text = b"".join(a.hex().encode() + b"\t" + b.hex().encode() + b"\n" for a, b in rules)
        path = write(f"{stage.room}/rules.hex", text)
        status, written, errors = run(stage, "list", path, "--kind", kind, "--check", *["--word"][: int(word)])
        if word and any(not a for a, _ in rules):
            continue
        expect("the end", (status, errors), (0, b""))
        lines, never, pairs = report(kind, word, rules)
        seen = written.decode().splitlines()
        names = [int(it.split()[1]) - 1 for it in seen if "never" in it]
        rest = [it for it in seen if "never" not in it]
        expect(f"{kind} {word} {rules}", (rest, names), (lines + pairs, never))


@case
def reports_in_words(stage, expect):
    """--check says why, reads no input, and finds faults as a run does"""
    rules = text_rules(stage, [(b"new york", b""), (b"new", b"x"), (b"york city", b""), (b"new", b""), (b"city", b"y")])
    head = "rules: 5\nwithout replacement: 3\nshortest pattern: 3 bytes (line 2)\nlongest pattern: 9 bytes (line 3)\n"
    pairs = "lines 1 and 2 overlap\nlines 1 and 3 overlap\nlines 1 and 4 overlap\nlines 3 and 5 overlap\n"
    why = "line 1 is never found: line 2 lies in it and ends first\nline 4 is never found: line 2 is the same\n"
    nothing = "".join(f"line {it} is replaced by nothing\n" for it in (1, 3, 4))
    expect("standard", run(stage, "replace", rules, "--text", "--check", "/none"), (0, (head + nothing + why + pairs).encode(), b""))
    why = "line 4 is never found: line 2 is the same\n"
    for kind in ["leftmost-first", "leftmost-longest"]:
        expect(kind, run(stage, "list", rules, "--text", "--check", "--kind", kind), (0, (head + why + pairs).encode(), b""))
    for mode in ["overlap", "mask"]:
        expect(mode, run(stage, mode, rules, "--text", "--check"), (0, head.encode(), b""))
    first = run(stage, "list", "-e", "new", "-e", "new york", "--check", "--kind", "leftmost-first")
    expect("-e", b"line 2 is never found: line 1 begins it and comes first\n" in first[1], True)
    expect("folded", b"is the same" in run(stage, "list", "-e", "New", "-e", "nEW", "--check", "--fold")[1], True)
    expect("a bad line", run(stage, "list", rules, "--check"), (3, b"", b"acsub: rules: line 1\n"))
    bad = run(stage, "overlap", rules, "--text", "--check", "--kind", "leftmost-first")
    expect("settings", bad, (2, b"", b"acsub: setting: overlap needs the standard kind\n"))


@case
def large_reports(stage, expect):
    """--check of 100,000 rules and of a million: how long it takes"""
    draw, said = random.Random(5), []
    for count, most in [(100_000, 3), (1_000_000, 40)]:
        words = {bytes(draw.choices(b"abcdefghijklmnopqrstuvwxyz", k=draw.randint(6, 12))) for _ in range(count)}
        path = write(f"{stage.room}/large.txt", b"".join(it + b"\t" + it.upper() + b"\n" for it in sorted(words)))
        begin = time.monotonic()
        status, written, errors = run(stage, "replace", path, "--text", "--check")
        took = time.monotonic() - begin
        said.append(f"{len(words)} rules: {took:.1f} s")
        expect("the end", (status, errors, took < most), (0, b"", True))
        os.unlink(path)
    return ", ".join(said)
