"""Finds the library for C that the extension module has in it, or proves and builds it.

It is looked for in this order, and each place is said:

1. DADOFENNEL_PREFIX: the folder that `bindings/c/build PREFIX` was given, or that a release's archive was unpacked to
2. of a clone, bindings/c/out, where it was built before
3. what pkg-config knows as `dadofennel`, such as Debian's package libdadofennel-dev
4. of a clone, bindings/c/build proves it into bindings/c/out. That takes 20 to 60 minutes at first, and its progress is shown.
"""
import os
import queue
import re
import shutil
import subprocess
import sys
import sysconfig
import threading
import time
from typing import NamedTuple

HERE = os.path.dirname(os.path.dirname(os.path.abspath(__file__)))
C = os.path.join(os.path.dirname(HERE), "c")
ARCHIVE = "libdadofennel.a"
TERMINAL = "/dev/tty"

PROVING = """\
dadofennel: no library was found, so {build} proves and compiles it now, into {out}.
dadofennel: that takes 20 to 60 minutes at first. Where DADOFENNEL_PREFIX names a library, or pkg-config finds one, that is taken.
"""


class Library(NamedTuple):
    """The library for C: the folder of its headers, its archive, and its version."""

    include: str
    archive: str
    version: str


def needed():
    """The version that these sources need: that of the sources distributed, or of the clone's header."""
    told = os.path.join(HERE, "PKG-INFO")
    if os.path.exists(told):
        with open(told, encoding="utf-8") as file:
            return next(line.split()[1] for line in file if line.startswith("Version: "))
    return header_version(C)


def header_version(include):
    """The version that the header in a folder has."""
    with open(os.path.join(include, "dadofennel.h")) as header:
        return next(line.split('"')[1] for line in header if line.startswith("#define DADO_VERSION "))


def is_clone():
    return not os.path.exists(os.path.join(HERE, "PKG-INFO")) and os.path.exists(os.path.join(C, "build"))


def library():
    """The library that is linked."""
    given = os.environ.get("DADOFENNEL_PREFIX")
    if given:
        return serving(under(given), f"DADOFENNEL_PREFIX={given}")
    out = os.path.join(C, "out")
    if is_clone() and os.path.exists(os.path.join(out, "lib", ARCHIVE)):
        return serving(under(out), out)
    found = of_the_system()
    if found:
        return found
    if not is_clone():
        raise FileNotFoundError("there is no library for C: install it, so that pkg-config finds dadofennel, or set DADOFENNEL_PREFIX to "
                                "where it is")
    prove(out)
    return under(out)


def under(prefix, machine=None):
    """The library below a folder, which has its headers in include, and its archive in lib or in a folder of the machine's."""
    multiarch = f"{machine}-linux-gnu" if machine else sysconfig.get_config_var("MULTIARCH") or ""
    places = [os.path.join(prefix, *it, ARCHIVE) for it in (("lib",), ("lib", multiarch), ("lib64",))]
    archive = next((it for it in places if os.path.exists(it)), None)
    include = os.path.join(prefix, "include")
    if archive is None or not os.path.exists(os.path.join(include, "dadofennel.h")):
        raise FileNotFoundError(f"{prefix} has no include/dadofennel.h, or no lib/{ARCHIVE}: make it by bindings/c/build {prefix}")
    return Library(os.path.abspath(include), os.path.abspath(archive), header_version(include))


def serves(version):
    """Whether a library of this version has what these sources call: of the same major version, and not older."""
    has, wants = (tuple(map(int, re.match(r"(\d+)\.(\d+)\.(\d+)", it).groups())) for it in (version, needed()))
    return has[0] == wants[0] and has >= wants


def serving(found, where):
    if not serves(found.version):
        raise RuntimeError(f"{where} has the library {found.version}, and this package needs {needed()} or a later one of its major version")
    return found


def of_the_system():
    """The library that pkg-config knows, if it serves."""
    tool = os.environ.get("PKG_CONFIG") or "pkg-config"
    if not shutil.which(tool):
        return None
    asked = [subprocess.run([tool, f"--variable={it}", "dadofennel"], stdout=subprocess.PIPE, stderr=subprocess.DEVNULL)
             for it in ("includedir", "libdir")]
    if any(it.returncode for it in asked):
        return None
    include, lib = (os.path.abspath(it.stdout.decode().strip()) for it in asked)
    archive = os.path.join(lib, ARCHIVE)
    if not os.path.exists(archive):
        say(f"dadofennel: the system's library has no {archive}, so it isn't taken\n")
        return None
    found = Library(include, archive, header_version(include))
    if not serves(found.version):
        say(f"dadofennel: the system's library is {found.version}, and {needed()} is needed, so it isn't taken\n")
        return None
    say(f"dadofennel: the system's library is taken: {archive}, {found.version}\n")
    return found


def prove(out):
    """Proves and builds the library of a clone."""
    build = os.path.join(C, "build")
    if not shutil.which("rt"):
        raise FileNotFoundError("there is no library for C, and no toolchain that could prove it: install the library, so that pkg-config "
                                "finds dadofennel, or set DADOFENNEL_PREFIX to where it is, or put the toolchain's rt on the PATH")
    say(PROVING.format(build=build, out=out))
    shown([build, out])


def say(text):
    """Writes to standard output, which pip shows with -v, and to the terminal, from which pip hides what a build writes."""
    sys.stdout.write(text)
    sys.stdout.flush()
    if not sys.stdout.isatty():
        try:
            with open(TERMINAL, "w") as terminal:
                terminal.write("\n" + text.rstrip("\n"))  # pip writes on the line before
        except OSError:
            pass


def shown(words, every=30.0):
    """Runs a command, and shows each line that it writes, after the minutes that have gone; and that it goes on, where it is silent."""
    begun, lines = time.monotonic(), queue.Queue()
    running = subprocess.Popen(words, stdout=subprocess.PIPE, stderr=subprocess.STDOUT)
    reader = threading.Thread(target=passed_on, args=(running.stdout, lines), daemon=True)
    reader.start()
    while True:
        try:
            line = lines.get(timeout=every)
        except queue.Empty:
            line = "still at work\n"
        if line is None:
            break
        minutes, seconds = divmod(int(time.monotonic() - begun), 60)
        say(f"{minutes:3}:{seconds:02} {line}")
    reader.join()
    if running.wait():
        raise subprocess.CalledProcessError(running.returncode, words)


def passed_on(stream, lines):
    with stream:
        for line in stream:
            lines.put(line.decode(errors="replace").rstrip() + "\n")
    lines.put(None)
