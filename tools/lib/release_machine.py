"""The machines that a release is for: what each is called, what it needs, and what compiles for it."""
import contextlib
import os
import shlex
from typing import NamedTuple

import launch
import release_files


class Machine(NamedTuple):
    """A processor's kind, as Linux names it, and its other names."""

    name: str
    debian: str
    multiarch: str
    target: str  # Rust's name
    node: str
    processors: tuple  # for which the archives of ac_c are compiled; PROVED has a verdict of each
    needs: str  # beyond what every processor of this kind has
    variable: str  # the environment's name of the compiler, and which it is without that
    usual: str

    def compiler(self):
        """The words of the C compiler."""
        return shlex.split(os.environ.get(self.variable) or self.usual)

    def tool(self, name):
        """The path of one of the compiler's binutils."""
        return release_files.said_by(*self.compiler(), f"-print-prog-name={name}").strip()

    def need(self):
        """Ends with a line where the compiler isn't there, is for another machine, or lacks a tool."""
        launch.need(self.compiler()[0])
        said = release_files.said_by(*self.compiler(), "-dumpmachine").strip()
        if not said.startswith(f"{self.name}-"):
            release_files.stop(f"{' '.join(self.compiler())} compiles for {said}; set {self.variable} to a compiler for {self.name}")
        launch.need(*[self.tool(it) for it in ("ld", "objcopy", "strip", "ar", "nm", "objdump")])


X86_64 = Machine(
    "x86_64", "amd64", "x86_64-linux-gnu", "x86_64-unknown-linux-gnu", "x64", ("x86-64-v2", "x86-64-v3"),
    "a processor of x86-64-v2, so with SSE4.2 and POPCNT", "CC", "cc",
)
AARCH64 = Machine(
    "aarch64", "arm64", "aarch64-linux-gnu", "aarch64-unknown-linux-gnu", "arm64", ("aarch64",),
    "", "CC_AARCH64", "aarch64-linux-gnu-gcc",
)
ALL = {it.name: it for it in (X86_64, AARCH64)}


@contextlib.contextmanager
def compiling_for(machine):
    """An environment in which CC is a machine's compiler."""
    before = os.environ.get("CC")
    os.environ["CC"] = shlex.join(machine.compiler())
    try:
        yield
    finally:
        os.environ.pop("CC")
        if before is not None:
            os.environ["CC"] = before


class Built(NamedTuple):
    """What a release has for a machine: the files that it is made of, and where they are installed."""

    machine: Machine
    archives: tuple  # of ac_c, as many as the machine's processors
    program: str  # or None: acsub isn't there for this machine
    top: str  # a folder with bin, include, lib and share, as the tar has it
    usual: str  # the root of an installation under /usr, as Debian has it
    glibc: dict  # the least version that the program and the library need

    @property
    def shared(self):
        """The shared library."""
        return f"{self.top}/lib/libdadofennel.so.{release_files.header_version()}"

    def compiled(self):
        """The files of the installation that were compiled."""
        return [*([f"{self.top}/bin/acsub"] if self.program else []), self.shared, f"{self.top}/lib/libdadofennel.a"]
