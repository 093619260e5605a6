"""Builds the wheel, by Python's own library and a C compiler alone, so that nothing has to be fetched.

usage: python dadofennel_build.py FOLDER    puts the package with its extension module into FOLDER/dadofennel

The library for C is found as dadofennel_library.py says. The extension module is compiled with CC, or else cc, over the headers of this
Python, and has the library in it. It is of the stable ABI: one module serves every CPython from 3.8 on. CFLAGS and LDFLAGS are given to
the compiler too. With SOURCE_DATE_EPOCH that is the time of all files.
"""
import os
import shlex
import shutil
import subprocess
import sys
import sysconfig
import tempfile

import dadofennel_library as library
import dadofennel_pack as pack

HERE = pack.HERE


def compile_module(found, out, compiler=None, more=()):
    """Compiles the extension module, over the library for C that was found, to the file `out`."""
    include = sysconfig.get_config_var("INCLUDEPY")
    if sysconfig.get_config_var("Py_GIL_DISABLED"):
        raise RuntimeError("a CPython without the interpreter's lock takes no module of the stable ABI")
    if not os.path.exists(os.path.join(include, "Python.h")):
        raise FileNotFoundError(f"there is no {include}/Python.h: install the headers of this Python (Debian: python3-dev)")
    words = shlex.split(compiler or os.environ.get("CC") or "cc")
    words += ["-std=c99", "-O2", "-fPIC", "-fvisibility=hidden", "-Wall", "-Wextra", "-I", include, "-I", found.include]
    words += shlex.split(os.environ.get("CFLAGS") or "") + ["-shared", "-o", out]
    words += [os.path.join(HERE, it) for it in pack.below("native", ".c")]
    words += [found.archive, "-Wl,--exclude-libs,ALL", *more] + shlex.split(os.environ.get("LDFLAGS") or "")
    subprocess.run(words, check=True)


def version():
    """The version of the package: that which the sources say, as Python writes it."""
    return pack.public_version(library.needed())


def tag():
    return "cp38-abi3-" + sysconfig.get_platform().replace("-", "_").replace(".", "_")


def when():
    return int(os.environ.get("SOURCE_DATE_EPOCH") or pack.EARLIEST)


def written(folder, name, data):
    with open(os.path.join(folder, name), "wb") as file:
        file.write(data)
    return name


def module(found, compiler=None, more=()):
    """The bytes of the extension module."""
    with tempfile.TemporaryDirectory() as folder:
        out = os.path.join(folder, os.path.basename(pack.MODULE))
        compile_module(found, out, compiler, more)
        return pack.read(out)


def package():
    """The files of the package: their names in a wheel, their bytes and their modes."""
    return [(name, pack.read(os.path.join(HERE, name)), 0o644) for name in pack.package()]


# ---- What pip calls ----


def build_wheel(wheel_directory, config_settings=None, metadata_directory=None):
    contents = [*package(), (pack.MODULE, module(library.library()), 0o755)]
    return written(wheel_directory, f"dadofennel-{version()}-{tag()}.whl", pack.wheel(version(), tag(), contents, when()))


def build_editable(wheel_directory, config_settings=None, metadata_directory=None):
    """A wheel with the way to these sources alone; the extension module is put beside them."""
    compile_module(library.library(), os.path.join(HERE, pack.MODULE))
    contents = [("__editable__.dadofennel.pth", (HERE + "\n").encode(), 0o644)]
    return written(wheel_directory, f"dadofennel-{version()}-{tag()}.whl", pack.wheel(version(), tag(), contents, when()))


def prepare_metadata_for_build_wheel(metadata_directory, config_settings=None):
    """The wheel's information, for which nothing is proved or compiled."""
    for name, data, _ in pack.info(version(), tag()):
        os.makedirs(os.path.join(metadata_directory, os.path.dirname(name)), exist_ok=True)
        written(metadata_directory, name, data)
    return f"dadofennel-{version()}.dist-info"


prepare_metadata_for_build_editable = prepare_metadata_for_build_wheel


def build_sdist(sdist_directory, config_settings=None):
    """The sources of the package. To build from them takes a library for C."""
    return written(sdist_directory, f"dadofennel-{version()}.tar.gz", pack.sdist(version(), when()))


def unpacked(folder):
    """Puts the package with its extension module into a folder."""
    os.makedirs(os.path.join(folder, "dadofennel"), exist_ok=True)
    for name in pack.package():
        shutil.copyfile(os.path.join(HERE, name), os.path.join(folder, name))
    compile_module(library.library(), os.path.join(folder, pack.MODULE))


if __name__ == "__main__":
    if len(sys.argv) != 2 or sys.argv[1].startswith("-"):
        sys.exit(__doc__)
    unpacked(sys.argv[1])
