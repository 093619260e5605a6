"""What the tools share: what they need, the program and the library, rule files, and how much memory a process has."""
import contextlib
import fcntl
import os
import re
import shutil
import struct
import subprocess
import sys
import termios
import time

REPOSITORY = os.path.dirname(os.path.dirname(os.path.dirname(os.path.abspath(__file__))))
CRATE = f"{REPOSITORY}/crates/acsub"
PROGRAM = f"{CRATE}/out/acsub"


LEFT_OUT = 77
"""The status of a tool that can't run here, since something isn't installed."""

NEEDED = {
    "rt": "the toolchain: put its folder on the path",
    "dask-scheduler": "Debian's python3-distributed",
    "dask-worker": "Debian's python3-distributed",
}


def need(*programs):
    """Ends with a line where one of these programs isn't there."""
    for name in programs:
        if not shutil.which(name):
            said = f"{os.path.basename(sys.argv[0])}: there is no {name}" + (f" ({NEEDED[name]})" if name in NEEDED else "")
            print(said, file=sys.stderr)
            sys.exit(LEFT_OUT)


def help_asked(page):
    """Prints the page and ends, where it is asked for."""
    if sys.argv[1:] in (["-h"], ["--help"]):
        print(page.strip())
        sys.exit(0)


def library(prefix=None):
    """Where the library for C is installed: the folder that was given, or bindings/c/out, after it was proved and built there."""
    if prefix:
        return os.path.abspath(prefix)
    need("rt")
    out = f"{REPOSITORY}/bindings/c/out"
    if subprocess.run([f"{REPOSITORY}/bindings/c/build", out], stdout=sys.stderr).returncode:
        sys.exit("the library was not built")
    return out


def programs(given):
    """The paths that were given, or the program of this repository, proved and built."""
    for path in given:
        if not os.access(path, os.X_OK):
            sys.exit(f"{os.path.basename(sys.argv[0])}: {path} is no program")
    if given:
        return [os.path.abspath(path) for path in given]
    need("rt")
    with open(f"{CRATE}/stdin", "rb") as stdin:
        words = ["rt", "run", "--", "replace", "data/rules.txt"]
        if subprocess.run(words, cwd=CRATE, stdin=stdin, stdout=sys.stderr).returncode:
            sys.exit("the program was not built")
    return [PROGRAM]


def kept_by_trial(crate, folder, *words):
    """The program that `rt try` with these words builds of a crate, under a path in the folder, and what was said; the path may be absent.

    rt removes the program as it ends: a second name keeps it.
    """
    words, kept = ["rt", "try", *words], f"{folder}/kept"
    how = {"stdin": subprocess.DEVNULL, "stdout": subprocess.DEVNULL, "stderr": subprocess.PIPE}
    run = subprocess.Popen(words, cwd=crate, env={**os.environ, "TMPDIR": folder}, **how)
    while run.poll() is None:
        for path, _, names in os.walk(folder):
            if "program" in names and not os.path.exists(kept):
                with contextlib.suppress(OSError):
                    os.link(f"{path}/program", kept)
        time.sleep(0.01)
    return kept, run.stderr.read().decode(errors="replace")


def trial(folder):
    """The program of this repository as `rt try` builds it: with checks, without optimization, and without a proof."""
    need("rt")
    kept, said = kept_by_trial(CRATE, folder, "--", "--version")
    if not os.path.exists(kept):
        sys.exit(f"{said}{os.path.basename(sys.argv[0])}: `rt try` left no program")
    return kept


def write_rules(path, pairs):
    """Writes a rule file of pairs of bytes, and returns its path."""
    with open(path, "wb") as file:
        for pattern, replacement in pairs:
            file.write(b"%s\t%s\n" % (pattern.hex().encode(), replacement.hex().encode()))
    return path


def engines(program):
    """The words that `--engine` takes, as the help lists them."""
    text = subprocess.run([program, "-h"], stdout=subprocess.PIPE, check=True).stdout.decode()
    line = next(it for it in text.splitlines() if "--engine" in it)
    return re.search(r"possible values: ([^\]]*)", line).group(1).split(", ")


def memory(pid, name):
    """A figure of /proc/PID/status in KiB: VmHWM is the peak, VmRSS what is touched now, VmPeak the addresses.

    It is 0 where the process has ended, or isn't `acsub` yet.
    """
    try:
        with open(f"/proc/{pid}/status") as file:
            said = dict(line.split(":", 1) for line in file)
    except (FileNotFoundError, ProcessLookupError):
        return 0
    return int(said[name].split()[0]) if said["Name"].strip() == "acsub" and name in said else 0


def drain(child):
    """Waits until a child has read all that was put into the pipe to it. It may still be at work on that."""
    while child.poll() is None and struct.unpack("i", fcntl.ioctl(child.stdin, termios.FIONREAD, bytes(4)))[0]:
        time.sleep(0.001)
