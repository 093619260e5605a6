"""Runs programs, and measures their processor time, their memory and what they write."""
import hashlib
import os
import re
import subprocess
import sys
import tempfile

# Bytes and no text, so that no program pays for an encoding.
ENVIRONMENT = dict(os.environ, LC_ALL="C")


class Command:
    """A program with its arguments, under the label that results name it by. It reads the file `stdin`.

    `counts` says that it writes a count, and may end with status 1 where that is 0. `environment` is added to the one that all have.
    """

    def __init__(self, label, words, stdin=os.devnull, counts=False, environment=()):
        self.label, self.words, self.stdin, self.counts = label, [str(it) for it in words], stdin, counts
        self.environment = dict(ENVIRONMENT, **dict(environment))


def seconds(command):
    """The processor time of one run, of user and system together.

    A count is written into a pipe, since GNU grep stops at the first match if its output is /dev/null.
    """
    stdout = subprocess.PIPE if command.counts else subprocess.DEVNULL
    with open(command.stdin, "rb") as stdin:
        child = subprocess.Popen(command.words, stdin=stdin, stdout=stdout, stderr=subprocess.DEVNULL, env=command.environment)
    _, status, used = os.wait4(child.pid, 0)
    child.returncode = os.waitstatus_to_exitcode(status)
    if command.counts:
        child.stdout.close()
    refuse(command, child.returncode)
    return used.ru_utime + used.ru_stime


def fastest(commands, runs):
    """The least processor time of each command, by its label. They run in turn: each once, then each once more."""
    best = {}
    for _ in range(runs):
        for command in commands:
            best[command.label] = min(best.get(command.label, float("inf")), seconds(command))
    return best


def peaks(commands, launcher):
    """The most memory in MB that one run of each command had touched, by its label: nothing where there is no launcher."""
    return {it.label: peak(it, launcher) for it in commands} if launcher else {}


def peak(command, launcher):
    stdout = subprocess.PIPE if command.counts else subprocess.DEVNULL
    with open(command.stdin, "rb") as stdin:
        words = [launcher, *command.words]
        done = subprocess.run(words, stdin=stdin, stdout=stdout, stderr=subprocess.PIPE, env=command.environment)
    refuse(command, done.returncode)
    return int(done.stderr.split()[-1]) * 1024 / 1e6


def output(command):
    """What a run writes."""
    with open(command.stdin, "rb") as stdin:
        done = subprocess.run(command.words, stdin=stdin, stdout=subprocess.PIPE, stderr=subprocess.DEVNULL, env=command.environment)
    refuse(command, done.returncode)
    return done.stdout


def count(command):
    """The count that a run writes: nothing means 0, as ripgrep has it."""
    return int((output(command).split() or [0])[0])


def speeds(commands, runs):
    """The greatest speed that each command printed on standard error, in MB/s, and the count that it wrote, by its label."""
    best = {}
    for _ in range(runs):
        for command in commands:
            done = subprocess.run(command.words, stdout=subprocess.PIPE, stderr=subprocess.PIPE, env=command.environment)
            refuse(command, done.returncode)
            speed, count = int(done.stderr.split()[0]), int(done.stdout.split()[0])
            best[command.label] = max(best.get(command.label, (0, count)), (speed, count))
    return best


def instructions(command, functions):
    """What a run writes, and how many instructions each of these functions took with all that it called, as callgrind counts them."""
    with tempfile.TemporaryDirectory() as folder:
        words = ["valgrind", "--tool=callgrind", f"--callgrind-out-file={folder}/counts", *command.words]
        done = subprocess.run(words, stdout=subprocess.PIPE, stderr=subprocess.DEVNULL, env=command.environment)
        refuse(command, done.returncode)
        words = ["callgrind_annotate", "--inclusive=yes", "--threshold=100", f"{folder}/counts"]
        listed = subprocess.run(words, stdout=subprocess.PIPE, check=True).stdout.decode(errors="replace")
    counts = []
    for function in functions:
        line = re.search(rf"^ *([\d,]+) .*:{function}\b", listed, re.M)
        if not line:
            sys.exit(f"{' '.join(command.words)}: callgrind has no function {function}")
        counts.append(int(line.group(1).replace(",", "")))
    return done.stdout.decode().strip(), counts


def lines_matched(listing, text):
    """How many lines of the text a match starts in, where the listing has a line `number start end` for each."""
    lines, end = 0, -1
    for found in re.finditer(rb" (\d+) ", listing):
        start = int(found.group(1))
        if start > end:
            lines, end = lines + 1, text.find(b"\n", start)
            end = len(text) if end < 0 else end
    return lines


def digest(content):
    return hashlib.sha256(content).hexdigest()


def refuse(command, status):
    """Ends this program where the status of a command isn't one that it may end with."""
    if status and not (status == 1 and command.counts):
        sys.exit(f"{' '.join(command.words)} ended with status {status}")
