"""Debian's packages of a release: what each has of an installation under /usr or of the wheel, and its control files."""
import gzip
import hashlib
import os
import shutil
import subprocess
import tempfile
import time

import release_files
from release_files import write

# The first release: all symbols are there since it. One that comes later names its own.
FIRST = "1.1.0"
MAINTAINER = "Dadofennel maintainers <maintainers@users.noreply.dadofennel.example>"

ABOUT = """\
 Patterns and texts are bytes of any value, and case folding, whole words
 and masks are there. Time goes with the text, and not with how many
 patterns there are. Every search is proved to do what its contract says.
"""

PYTHON = "python3-dadofennel"

# Of each package: its fields, its synopsis, what it adds to the description, and its files: where each is, or whose folder, in the
# installation, and where it goes, if that is elsewhere. A manual page is packed.
PACKAGES = {
    "acsub": (
        {"Section": "text", "Depends": "libc6 (>= {program})", "Multi-Arch": "foreign"},
        "replace, list or mask what many patterns match in files and streams",
        " .\n This is the program.\n{needs}",
        [
            ("usr/bin/acsub", ""),
            ("usr/share/man/man1/acsub.1", ""),
            ("usr/share/bash-completion/completions/acsub", ""),
            ("usr/share/zsh/site-functions/_acsub", "usr/share/zsh/vendor-completions/_acsub"),
            ("usr/share/fish/vendor_completions.d/acsub.fish", ""),
        ],
    ),
    "libdadofennel1": (
        {"Section": "libs", "Depends": "libc6 (>= {library})", "Multi-Arch": "same"},
        "search for many patterns at once - shared library",
        " .\n This is the shared library.\n{needs}",
        [("{lib}/libdadofennel.so.{major}", ""), ("{lib}/libdadofennel.so.{soversion}", "")],
    ),
    "libdadofennel-dev": (
        {"Section": "libdevel", "Depends": "libdadofennel1 (= {version}), libc6-dev", "Multi-Arch": "same"},
        "search for many patterns at once - development files",
        " .\n These are the headers, the archive, and what pkg-config and CMake read.\n",
        [
            ("usr/include", ""),
            ("{lib}/libdadofennel.a", ""),
            ("{lib}/libdadofennel.so", ""),
            ("{lib}/pkgconfig", ""),
            ("{lib}/cmake", ""),
            ("usr/share/doc/dadofennel/examples", "usr/share/doc/libdadofennel-dev/examples"),
        ],
    ),
    PYTHON: (
        {"Section": "python", "Depends": "python3 (>= 3.8), libc6 (>= {python})"},
        "search for many patterns at once - Python module",
        " .\n This is the module dadofennel for Python.\n{needs}",
        [("usr/lib/python3", "")],
    ),
}

# What compiles Python's modules once the package is there, and removes that before it goes.
SCRIPTS = {
    "postinst": "if command -v py3compile > /dev/null; then\n    py3compile -p {name}\nfi\n",
    "prerm": "if command -v py3clean > /dev/null; then\n    py3clean -p {name}\nfi\n",
}

COPYRIGHT = """\
Format: https://www.debian.org/doc/packaging-manuals/copyright-format/1.0/
Upstream-Name: Dadofennel

Files: *
Copyright: {holder}
License: Expat

License: Expat
{license}
"""

CHANGELOG = """\
dadofennel ({version}) unstable; urgency=medium

  * Version {version}: CHANGELOG.md of the sources has what changed.

 -- {maintainer}  {date}
"""


def put(source, to):
    """Copies a file, a link or a folder; a manual page is packed."""
    os.makedirs(os.path.dirname(to), exist_ok=True)
    if os.path.isdir(source):
        shutil.copytree(source, to, symlinks=True)
    elif source.endswith(".1") and not os.path.islink(source) and "/man/" in source:
        with open(source, "rb") as file:
            write(f"{to}.gz", gzip.compress(file.read(), 9, mtime=0))
    else:
        shutil.copy(source, to, follow_symlinks=False)


def files_below(folder):
    """The files below a folder, without those of DEBIAN, by their paths from there."""
    for at, folders, names in os.walk(folder):
        folders[:] = sorted(it for it in folders if it != "DEBIAN")
        for name in sorted(names):
            yield os.path.relpath(os.path.join(at, name), folder)


def documents(folder, name, version, when, license_path):
    """The copyright and the changelog of a package."""
    with open(license_path) as file:
        text = file.read().split("\n", 2)[2]
    holder, rest = text.split("\n", 1)
    body = "\n".join(f" {it}" if it else " ." for it in rest.strip().split("\n"))
    write(f"{folder}/usr/share/doc/{name}/copyright", COPYRIGHT.format(holder=holder.replace("Copyright (c) ", ""), license=body))
    date = time.strftime("%a, %d %b %Y %H:%M:%S +0000", time.gmtime(when))
    changes = CHANGELOG.format(version=version, maintainer=MAINTAINER, date=date).encode()
    write(f"{folder}/usr/share/doc/{name}/changelog.gz", gzip.compress(changes, 9, mtime=0))


def control(folder, name, fields, about, known):
    """The files of DEBIAN."""
    held = list(files_below(folder))
    sums, size = "", 0
    for it in held:
        path = f"{folder}/{it}"
        size += 1 if os.path.islink(path) else (os.path.getsize(path) + 1023) // 1024
        if not os.path.islink(path):
            with open(path, "rb") as file:
                sums += f"{hashlib.md5(file.read()).hexdigest()}  {it}\n"
    whole = {
        "Package": name,
        "Source": "dadofennel",
        "Version": known["version"],
        "Architecture": known["architecture"],
        "Maintainer": MAINTAINER,
        "Installed-Size": str(size),
        **{field: text.format(**known) for field, text in fields.items()},
        "Priority": "optional",
        "Description": about.rstrip("\n"),
    }
    write(f"{folder}/DEBIAN/control", "".join(f"{field}: {text}\n" for field, text in whole.items()))
    write(f"{folder}/DEBIAN/md5sums", sums)


def shared(folder, name, machine, known):
    """What says which package has the shared library, since which version it has each symbol, and that the loader is told of it."""
    soname, path = f"libdadofennel.so.{known['major']}", f"{folder}/{known['lib']}/libdadofennel.so.{known['soversion']}"
    said = release_files.said_by(machine.tool("nm"), "-D", "--defined-only", "--with-symbol-versions", path)
    names = sorted(line.split()[2].replace("@@", "@") for line in said.splitlines())
    names = [it if "@" in it else f"{it}@{it}" for it in names]
    lines = "".join(f" {it} {FIRST}\n" for it in names)
    write(f"{folder}/DEBIAN/symbols", f"{soname} {name} #MINVER#\n* Build-Depends-Package: libdadofennel-dev\n{lines}")
    write(f"{folder}/DEBIAN/shlibs", f"libdadofennel {known['major']} {name} (>= {known['soversion']})\n")
    write(f"{folder}/DEBIAN/triggers", "activate-noawait ldconfig\n")


def settle(folder, when):
    """Gives all below a folder one time, and the modes of an installation."""
    for at, folders, names in os.walk(folder):
        for name in names + ["."]:
            path = os.path.join(at, name)
            if not os.path.islink(path):
                os.chmod(path, 0o755 if os.path.isdir(path) or os.stat(path).st_mode & 0o100 and ".so" not in name else 0o644)
            os.utime(path, (when, when), follow_symlinks=False)


def python_below(folder, wheel):
    """Installs a wheel under usr/lib/python3 below a folder, as Debian has modules: dpkg's own list stands for RECORD, and the package's
    copyright for LICENSE."""
    for name, data in release_files.members(wheel):
        to = f"{folder}/usr/lib/python3/dist-packages/{name}"
        if name.endswith(".dist-info/RECORD"):
            to, data = f"{os.path.dirname(to)}/INSTALLER", "debian\n"
        if not name.endswith(".dist-info/LICENSE"):
            write(to, data)


def scripts(folder, name):
    for script, text in SCRIPTS.items():
        write(f"{folder}/DEBIAN/{script}", "#!/bin/sh\nset -e\n" + text.format(name=name))
        os.chmod(f"{folder}/DEBIAN/{script}", 0o755)


def package(name, built, dist, known, when):
    """Writes one package."""
    fields, synopsis, more, files = PACKAGES[name]
    with tempfile.TemporaryDirectory(prefix="package-") as folder:
        for source, to in files:
            source = source.format(**known)
            put(f"{built.usual}/{source}", f"{folder}/{to or source}")
        documents(folder, name, known["version"], when, f"{built.usual}/usr/share/doc/dadofennel/LICENSE")
        control(folder, name, fields, f"{synopsis}\n{ABOUT}{more.format(**known)}", known)
        if name == PYTHON:
            scripts(folder, name)
        elif name.startswith("lib") and not name.endswith("-dev"):
            shared(folder, name, built.machine, known)
        settle(folder, when)
        environment = dict(os.environ, SOURCE_DATE_EPOCH=str(when))
        words = ["dpkg-deb", "--root-owner-group", "-Zxz", "--threads-max=1", "--build", folder]
        words += [f"{dist}/{name}_{known['version']}_{built.machine.debian}.deb"]
        subprocess.run(words, stdout=subprocess.DEVNULL, check=True, env=environment)


def make(built, dist, version, when, wheel=None):
    """Writes a machine's packages to a folder: of what is built for it, and of the wheel, where there is one."""
    soversion = release_files.header_version()
    known = {"version": version, "soversion": soversion, "major": soversion.split(".")[0], "architecture": built.machine.debian}
    needs = f" It needs {built.machine.needs}.\n" if built.machine.needs else ""
    known.update(built.glibc, lib=f"usr/lib/{built.machine.multiarch}", needs=needs)
    names = [it for it in PACKAGES if it not in ("acsub", PYTHON)] + ["acsub"] * bool(built.program)
    if wheel:
        python_below(built.usual, wheel)
        module = release_files.only(f"{built.usual}/usr/lib/python3/dist-packages/dadofennel/*.so")
        known["python"] = release_files.least_glibc(built.machine, module)
        names.append(PYTHON)
    for name in names:
        package(name, built, dist, known, when)
