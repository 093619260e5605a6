"""Tries what a release has for aarch64 under qemu-user: the C programs of bindings/test, the examples, and Debian's packages."""
import glob
import os
import shutil
import subprocess

import launch
from release_machine import AARCH64
from release_room import Here, equal
from release_rows import examples_work

EMULATOR = "qemu-aarch64"
TESTS = f"{launch.REPOSITORY}/bindings/c/tests"
STRICT = ["-std=c99", "-O2", "-D_POSIX_C_SOURCE=200809L", "-Wall", "-Wextra", "-Werror"]
CASES = 1000

# the tests, with what each takes beyond the usual words
PROGRAMS = {
    "header": [], "calls": [], "streams": [], "replacers": [], "maskers": [], "words": [], "characters": [],
    "oom": ["-Wl,--wrap=malloc,--wrap=realloc,--wrap=free"],
    "threads": ["-lpthread"],
    "stack": ["-D_DEFAULT_SOURCE", "-lpthread"],
}


class Emulated(Here):
    """This machine, on which programs for aarch64 run by an emulator, over the C library of their compiler."""

    def __init__(self, folder):
        super().__init__(folder)
        self.out = folder
        loader = subprocess.run([*AARCH64.compiler(), "-print-file-name=ld-linux-aarch64.so.1"], stdout=subprocess.PIPE, check=True)
        self.system = os.path.dirname(os.path.dirname(os.path.realpath(loader.stdout.decode().strip())))

    def by(self, *more):
        """The words that run a program. It has 4 GiB of addresses: with more, the emulator takes memory for texts of 64 TiB, which a test
        asks for to see that there are none."""
        return [EMULATOR, "-R", "4G", "-L", self.system, *more]

    def compiled(self, name, *words):
        """Compiles a program, and returns its path."""
        out = f"{self.out}/{name}"
        self.must(*AARCH64.compiler(), *words, "-o", out)
        return out


def test_works(room, prefix, name, more):
    words = [*STRICT, f"-I{prefix}/include", f"-I{TESTS}", f"{TESTS}/{name}.c", f"{prefix}/lib/libdadofennel.a", *more]
    arguments = ["generic"] if name == "header" else []
    room.must(*room.by(), room.compiled(name, *words), *arguments)


def symbols_work(room, prefix):
    """The calls of the shared library's symbols, as other languages make them."""
    words = [*STRICT, "-DDADO_LIBRARY", f"-I{prefix}/include", f"-I{TESTS}", f"{TESTS}/calls.c", f"-L{prefix}/lib", "-ldadofennel"]
    room.must(*room.by("-E", f"LD_LIBRARY_PATH={prefix}/lib"), room.compiled("symbols", *words))


def both_examples(room, include, lib, examples):
    """The examples, with the archive and with the shared library, which is found in its folder."""
    for form, more in (("archive", [f"{lib}/libdadofennel.a"]), ("shared", [f"-L{lib}", "-ldadofennel"])):
        os.makedirs(f"{room.out}/{form}", exist_ok=True)
        for name in ("example", "pieces"):
            room.compiled(f"{form}/{name}", "-std=c99", "-Wall", "-Werror", f"-I{include}", f"{examples}/{name}.c", *more)
        examples_work(room, f"{room.out}/{form}", *room.by("-E", f"LD_LIBRARY_PATH={lib}"))


def cases_agree(room, prefix, program):
    """Random cases are listed as by the program, which runs on this machine."""
    words = [*STRICT, f"-I{prefix}/include", f"-I{TESTS}", f"{TESTS}/cases.c", f"{prefix}/lib/libdadofennel.a"]
    script = f"{room.out}/cases-emulated"
    room.write(script, f"#!/bin/sh\nexec {' '.join(room.by())} {room.compiled('cases', *words)}\n")
    os.chmod(script, 0o755)
    said = room.must("python3", f"{TESTS}/cases.py", script, program, str(CASES))
    equal(said.split()[0] + said.split(", ")[-1], f"{CASES}0 differ\n")


def packages_work(room, dist, version):
    """The examples over what Debian's packages hold."""
    usual = f"{room.out}/debian"
    for name in ("libdadofennel1", "libdadofennel-dev"):
        room.must("dpkg-deb", "-x", f"{dist}/{name}_{version}_{AARCH64.debian}.deb", usual)
    both_examples(room, f"{usual}/usr/include", f"{usual}/usr/lib/{AARCH64.multiarch}", f"{usual}/usr/share/doc/libdadofennel-dev/examples")


def tried(rows, dist, version, folder, program):
    """Tries them, and compares with a program that runs on this machine, where there is one."""
    name = f"dadofennel-{version}-linux-{AARCH64.name}"
    if not os.path.exists(f"{dist}/{name}.tar.gz"):
        return rows.leave_out("aarch64: the release has no files for it")
    for it in (EMULATOR, AARCH64.compiler()[0]):
        if not shutil.which(it):
            return rows.leave_out(f"aarch64 ({it}: Debian's qemu-user and gcc-aarch64-linux-gnu)")
    room, prefix = Emulated(folder), f"{folder}/{name}"
    rows.row("aarch64: the tarball is unpacked", room.must, "tar", "-xzf", f"{dist}/{name}.tar.gz", "-C", folder)
    rows.row("aarch64: the examples", both_examples, room, f"{prefix}/include", f"{prefix}/lib", f"{prefix}/share/doc/dadofennel/examples")
    for test, more in PROGRAMS.items():
        rows.row(f"aarch64: {test}", test_works, room, prefix, test, more)
    rows.row("aarch64: calls of the shared library", symbols_work, room, prefix)
    if program:
        rows.row(f"aarch64: {CASES} random cases as the program lists them", cases_agree, room, prefix, program)
    if glob.glob(f"{dist}/*_{AARCH64.debian}.deb"):
        rows.row("aarch64: the examples over Debian's packages", packages_work, room, dist, version)
    return None
