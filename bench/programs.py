"""Makes the data and the programs that are measured, where they are missing."""
import os
import shutil
import subprocess
import sys

HERE = os.path.dirname(os.path.abspath(__file__))
ROOT = os.path.dirname(HERE)
WIDE = "x86-64-v3"


def data(folder, quick):
    """The folder of the texts and patterns in another one, made where they are missing or older than bench/data, and the MiB of a text."""
    data, mib = (f"{folder}/quick", 4) if quick else (f"{folder}/data", 64)
    last = f"{data}/two-hundred-thousand.rules"
    if not os.path.exists(last) or os.path.getmtime(last) < os.path.getmtime(f"{HERE}/data"):
        subprocess.run([f"{HERE}/data", data, str(mib)], check=True)
    return data, mib


def found(asked, left_out):
    """The programs, each with its path. Those that can't be had are put into `left_out`, with the reason."""
    folder = os.path.abspath(asked.folder)
    acsub = asked.acsub or installed(folder)
    yield "acsub", acsub
    yield "in_memory", asked.in_memory or searcher(folder, compiled_for(acsub))
    for name, make in (
        ("crate 0.7", peer("0.7")),
        ("crate 1.1", peer("1.1")),
        ("Hyperscan", hyperscan),
        ("memory", peak),
        ("the library for C", lambda folder: library(folder, asked.library)),
    ):
        path, why = make(folder)
        if path:
            yield {"memory": "peak", "the library for C": "library"}.get(name, name), path
        else:
            left_out[name] = why
        if path and "library" in name and serving(path) == WIDE != serving(path, OLDER):
            yield "wide", path
    for name, program in (("ripgrep", "rg"), ("grep", "grep"), ("valgrind", "valgrind")):
        path = shutil.which(program)
        if path:
            yield name, path
        else:
            left_out[name] = f"`{program}` isn't installed"


def installed(folder):
    """The path of acsub as tools/install installs it, compiled for this machine's processor."""
    made = subprocess.run([f"{ROOT}/tools/install", f"{folder}/installed"], stdout=sys.stderr)
    if made.returncode:
        sys.exit("tools/install failed")
    return f"{folder}/installed/bin/acsub"


def searcher(folder, code):
    """The path of the program that searches in memory, which is proved and built first, where it has changed."""
    crate = f"{ROOT}/crates/bench_in_memory"
    words = ["rt", "run", "--cpu", code, "--", "data/words.txt", "data/text.txt", "1", "auto", "standard"]
    if not shutil.which("rt") or subprocess.run(words, cwd=crate, stdout=sys.stderr).returncode:
        sys.exit("bench_in_memory was not built")
    return shutil.copy2(f"{crate}/out/bench_in_memory", f"{folder}/in_memory")


def compiled_for(program):
    """For which processors a program is compiled: those of x86-64-v3 have registers of 32 bytes, which the ones before it lack."""
    if not shutil.which("objdump"):
        sys.exit("objdump isn't installed (binutils)")
    with subprocess.Popen(["objdump", "-d", "--no-show-raw-insn", program], stdout=subprocess.PIPE) as listing:
        return WIDE if any(b"%ymm" in line for line in listing.stdout) else "x86-64-v2"


def library(folder, prefix):
    """The path of the program over the library for C under a prefix, where it is installed first if none is given; or why there is none."""
    if not prefix:
        prefix = f"{folder}/prefix"
        if subprocess.run([f"{ROOT}/bindings/c/build", "--for-tests", prefix], stdout=sys.stderr).returncode:
            return None, "bindings/c/build failed"
    return over_library(folder, prefix)


def over_library(folder, prefix):
    return compiled(folder, "library", f"-I{prefix}/include", f"{prefix}/lib/libdadofennel.a", anew=True)


OLDER = {"DADOFENNEL_CPU": "x86-64-v2"}
"""Asks for the code for older processors, of a library that was built for tests."""


def serving(program, asked=None):
    """For which processors the code is that serves in the library for C."""
    done = subprocess.run([program, "cpu"], stdout=subprocess.PIPE, check=True, env={**os.environ, **(asked or {})})
    return done.stdout.decode().strip()


def peer(version):
    """A function from the folder to the path of the program over a version of the public crate, or why there is none."""

    def make(folder):
        path = f"{folder}/peer-{version}/target/release/peer"
        words = [f"{HERE}/build-peer", f"{folder}/peer-{version}", version]
        sources = [f"{HERE}/peer/src/{it}" for it in os.listdir(f"{HERE}/peer/src")]
        if not os.path.exists(path) or os.path.getmtime(path) < max(map(os.path.getmtime, sources)):
            made = subprocess.run(words, stdout=subprocess.DEVNULL, stderr=subprocess.PIPE)
            if made.returncode:
                return None, "bench/build-peer failed: " + last_line(made.stderr)
        return path, None

    return make


def hyperscan(folder):
    """The path of the program over Hyperscan, or why there is none."""
    if not os.path.exists("/usr/include/hs/hs.h"):
        return None, "`libhyperscan-dev` isn't installed"
    return compiled(folder, "hyperscan", "-lhs")


def peak(folder):
    """The path of what measures memory, or why there is none."""
    return compiled(folder, "peak")


def compiled(folder, name, *words, anew=False):
    """The path of a program in C of this folder, compiled where it is missing or should be made anew, or why there is none."""
    path = f"{folder}/{name}"
    if anew or not os.path.exists(path):
        if not shutil.which("cc"):
            return None, "`cc` isn't installed"
        made = subprocess.run(["cc", "-O2", "-o", path, f"{HERE}/{name}.c", *words], stderr=subprocess.PIPE)
        if made.returncode:
            return None, f"bench/{name}.c was not compiled: {first_error(made.stderr)}"
    return path, None


def last_line(said):
    return said.decode(errors="replace").strip().rpartition("\n")[2]


def first_error(said):
    """What a compiler says of the first error."""
    return next((it for it in said.decode(errors="replace").splitlines() if "error" in it), "no error is said")
