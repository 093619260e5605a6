"""The program alone: what `rt run` proved and built, packed without the gate. PROVED says that this is all that was proved of it."""
import os
import re
import shutil
import subprocess
import tempfile

import release_files
import release_proved
from release_files import ROOT, said_by, stop, write
from release_machine import X86_64
from release_room import CRATE, Here
from release_rows import program_works

README = """\
acsub {version}: replaces, masks or lists many words at once. For Linux on x86_64.

  bin/acsub       the program; put bin on the PATH, and share/man on the MANPATH
  share           its manual, and completions for bash, zsh and fish

It needs {needs}, and glibc {glibc} or later. PROVED says what was proved.
"""
PROVED = """\
acsub {version} for Linux on x86_64, of commit {commit}{changed}.

Proved and built by `rt run` in crates/acsub, after the crates below it, by that run or by earlier ones on that machine. Of acsub it said:
  {said}
No gate ran over it: no test, no edit that must fail, and no second compiler.

The toolchain:
  {toolchain}
  {clang}
"""


def proved():
    """What `rt run` says last of the proof, when it has proved and built the program, or found it as it left it."""
    with open(f"{CRATE}/stdin", "rb") as stdin:
        ran = subprocess.run(
            ["rt", "run", "--", "replace", "data/rules.txt"], cwd=CRATE, stdin=stdin, stdout=subprocess.PIPE, stderr=subprocess.STDOUT
        )
    said = ran.stdout.decode(errors="replace")
    lines = re.findall(r"^(?:logic=proved .*|rt: nothing has changed since the last proved build.*)$", said, re.M)
    if ran.returncode or not lines:
        stop(f"`rt run` in crates/acsub left no program that is proved: {said.strip()[-900:]}")
    return lines[-1]


def make(dist, version, changed):
    """Writes the archive of the program to the folder, and its sum, after a trial of what was packed."""
    said, when, name = proved(), release_files.epoch(), f"acsub-{version}-linux-{X86_64.name}"
    with tempfile.TemporaryDirectory(prefix="release-") as room:
        top = f"{room}/{name}"
        said_by(f"{ROOT}/tools/install", f"/{name}", f"{CRATE}/out/acsub", env=dict(os.environ, DESTDIR=room, LC_ALL="C"))
        said_by(X86_64.tool("strip"), f"{top}/bin/acsub")
        shutil.copyfile(f"{ROOT}/LICENSE", f"{top}/LICENSE")
        glibc = release_files.least_glibc(X86_64, f"{top}/bin/acsub")
        write(f"{top}/README", README.format(version=version, needs=X86_64.needs, glibc=glibc))
        known = {
            "version": version,
            "commit": said_by("git", "-C", ROOT, "rev-parse", "HEAD").strip(),
            "changed": ", with changes that aren't committed" if changed else "",
            "said": said,
            "toolchain": said_by("rt", "version").strip(),
            "clang": release_proved.clang(),
        }
        write(f"{top}/PROVED", f"{PROVED.format(**known)}\nbin/acsub sha256={release_files.digest(f'{top}/bin/acsub')}\n")
        tried(f"{top}/bin/acsub", room, version)
        release_files.packed(top, name, f"{dist}/{name}.tar.gz", when)
    write(f"{dist}/SHA256SUMS", f"{release_files.digest(f'{dist}/{name}.tar.gz')}  {name}.tar.gz\n")
    print(f"{dist}: SHA256SUMS, {name}.tar.gz")


def tried(program, folder, version):
    """Ends the run where the program doesn't do what the stored run and a row of each mode say."""
    here = Here(folder)
    here.bring_rows()
    try:
        program_works(here, program, version)
    except AssertionError as error:
        stop(f"the program: {error}")
