"""The text of PROVED: what the gate says of each crate, by which toolchain, and what was compiled by what."""
import os
import re

import release_files
from release_files import ROOT, digest, said_by, stop


def crates():
    """The crates of the repository, lowest first."""
    with open(f"{ROOT}/crates.txt") as file:
        return [re.split("[ :]", line)[0] for line in file if line.strip() and line[0] != "#"]


def verdicts(log):
    """The last line of each crate's proof, in what `rt ci` said, and of each archive's, in what .ci/archive did: by crate and processor."""
    found, of = {}, None
    with open(log, errors="replace") as file:
        for line in file.read().splitlines():
            head = re.fullmatch(r"== (?:archive )?([\w-]+)", line)
            if line.startswith("== "):
                of = head and head[1]
            elif line.startswith("logic=proved ") and of:
                found[of] = line
    return found


def kept(text):
    """What takes the place of a verdict in a draft, of each crate that `rt ci` didn't prove since an earlier run on this machine had."""
    return {name: "no verdict here: an earlier run on this machine proved it" for name in re.findall(r"^rt: (\w+) is kept: ", text, re.M)}


def checked(log, built, is_draft):
    """The verdicts. The run ends where one lacks, or where a file isn't one that the log names."""
    found = verdicts(log)
    with open(log, errors="replace") as file:
        text = file.read()
    made = set(re.findall(r"^sha256=(\w+)$", text, re.M))
    if is_draft:
        found = {**kept(text), **found}
    for it in built:
        for path in (*it.archives, *([it.program] if it.program else [])):
            if digest(path) not in made:
                stop(f"{path} isn't a file that {log} names")
    lacking = [it for it in [*crates(), *(cpu for it in built for cpu in it.machine.processors)] if it not in found]
    if lacking:
        stop(f"{log} has no verdict of {', '.join(lacking)}")
    return found


def first_line(*words):
    return said_by(*words).splitlines()[0]


def clang():
    """The toolchain's compiler."""
    version = first_line(f"{os.path.dirname(said_by('rt', 'doc').strip())}/toolchain/bin/clang", "--version")
    return f"the toolchain's {version}"


def compilers(built):
    """What compiled and linked the files."""
    lines = ["", "Compiled and linked by:", f"  acsub, and the archives: {clang()}"]
    for it in built:
        compiler = it.machine.compiler()
        lines += [f"  the C code of the library and of the modules for {it.machine.name}, which no proof covers:"]
        lines += [f"    {first_line(*compiler, '--version')}", f"    {first_line(it.machine.tool('ld'), '--version')}"]
    return lines


def needs(built):
    """What the machine needs that runs them."""
    lines = ["", "They need:"]
    for it in built:
        program = f"acsub glibc {it.glibc['program']} or later, " if it.program else ""
        processor = it.machine.needs or "any processor"
        lines += [f"  on {it.machine.name} {processor}; {program}the library glibc {it.glibc['library']} or later"]
    return lines


def head(given, built):
    """What holds of all files of the release."""
    found = checked(given.log, built, given.draft)
    commit = said_by("git", "-C", ROOT, "rev-parse", "HEAD").strip()
    changed = ", with changes that aren't committed" if given.is_changed else ""
    lines = [f"Dadofennel {given.version} for Linux on {' and '.join(it.machine.name for it in built)}, of commit {commit}{changed}."]
    lines += ["", "The toolchain:", f"  {said_by('rt', 'version').strip()}"]
    lines += ["", "What it says of each crate. The last words name what the line trusts, as libraries that were proved before it:"]
    lines += [f"  {crate}: {found[crate]}" for crate in crates()]
    lines += ["", "The archives of ac_c in the library: compiled by the toolchain's LLVM of what was proved. Those after the first take"]
    lines += ["what the check of the first one had just proved."]
    for it in built:
        for cpu, path in zip(it.machine.processors, it.archives):
            lines += [f"  {cpu}: {found[cpu]}", f"    sha256={digest(path)}"]
    return "\n".join(lines + compilers(built) + needs(built)) + "\n"


def of_folder(text, built):
    """PROVED of the tar: with the files that were compiled."""
    files = [f"  {os.path.relpath(it, built.top)} sha256={digest(it)}" for it in built.compiled()]
    said = "The files here that were compiled, without what a debugger reads. docs/TRUST.md of the sources says what is proved of them."
    return text + "\n".join(["", said, *files]) + "\n"


def of_release(text, dist, names):
    """PROVED of the release: with what was compiled in each of its files."""
    lines = ["", "What was compiled, in each file. docs/TRUST.md of the sources says what is proved of it."]
    for name in names:
        held = release_files.compiled_in(f"{dist}/{name}")
        lines += [f"  {name}{':' if held else ': nothing'}", *(f"    {it} sha256={total}" for it, total in held)]
    return text + "\n".join(lines) + "\n"
