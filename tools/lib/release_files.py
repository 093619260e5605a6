"""What the tools of a release share: commands, sums, archives that are the same whenever they are made, and what an archive holds."""
import glob
import gzip
import hashlib
import io
import os
import re
import subprocess
import sys
import tarfile
import zipfile

import launch

ROOT = launch.REPOSITORY
HEADER = f"{ROOT}/bindings/c/dadofennel.h"
COMPILED = (b"\x7fELF", b"!<arch>\n")


def stop(text):
    sys.exit(f"release: {text}")


def said_by(*words, **how):
    """What a command writes. The run ends where it fails."""
    ran = subprocess.run(words, stdout=subprocess.PIPE, stderr=subprocess.PIPE, **how)
    if ran.returncode:
        stop(f"{' '.join(words)} failed: {ran.stderr.decode(errors='replace').strip()[-900:]}")
    return ran.stdout.decode(errors="replace")


def digest(path):
    with open(path, "rb") as file:
        return hashlib.sha256(file.read()).hexdigest()


def write(path, data):
    os.makedirs(os.path.dirname(path), exist_ok=True)
    with open(path, "wb") as file:
        file.write(data if isinstance(data, bytes) else data.encode())


def only(pattern):
    """The one file of a pattern."""
    found = glob.glob(pattern)
    if len(found) != 1:
        stop(f"there are {len(found)} files {pattern}, and not one")
    return found[0]


def least_glibc(machine, path):
    """The least version of glibc that has all that a file names of it."""
    versions = re.findall(r"GLIBC_([0-9.]+)", said_by(machine.tool("objdump"), "-T", path))
    return max(versions, key=lambda it: [int(number) for number in it.split(".")])


def header_version():
    with open(HEADER) as file:
        return re.search(r'^#define DADO_VERSION "(.*)"$', file.read(), re.M)[1]


def epoch():
    """The time of all files."""
    given = os.environ.get("SOURCE_DATE_EPOCH")
    return int(given or said_by("git", "-C", ROOT, "log", "-1", "--format=%ct"))


def packed(folder, name, path, when):
    """Packs a folder under a name: sorted, of root, with one time and the modes of an installation."""
    def plain(it):
        it.uid = it.gid = 0
        it.uname = it.gname = "root"
        it.mtime = when
        it.mode = 0o755 if it.isdir() or it.mode & 0o100 else 0o644
        return it

    held = io.BytesIO()
    with tarfile.open(fileobj=held, mode="w", format=tarfile.GNU_FORMAT) as archive:
        archive.add(folder, name, recursive=False, filter=plain)
        inner = sorted(os.path.join(at, it) for at, folders, names in os.walk(folder) for it in folders + names)
        for it in inner:
            archive.add(it, f"{name}/{os.path.relpath(it, folder)}", recursive=False, filter=plain)
    with open(path, "wb") as file, gzip.GzipFile("", "wb", 9, file, mtime=0) as out:
        out.write(held.getvalue())


def members(path):
    """The files in an archive of a release, each with its bytes."""
    if path.endswith(".whl"):
        with zipfile.ZipFile(path) as archive:
            for name in archive.namelist():
                yield name, archive.read(name)
        return
    if path.endswith(".deb"):
        data = subprocess.run(["dpkg-deb", "--fsys-tarfile", path], stdout=subprocess.PIPE, check=True).stdout
    else:
        with open(path, "rb") as file:
            data = gzip.decompress(file.read())
    with tarfile.open(fileobj=io.BytesIO(data)) as archive:
        for it in archive:
            if it.isfile():
                yield os.path.normpath(it.name), archive.extractfile(it).read()


def compiled_in(path):
    """The files in an archive of a release that were compiled: programs, libraries and modules, each with its sum."""
    return sorted((name, hashlib.sha256(data).hexdigest()) for name, data in members(path) if data.startswith(COMPILED))
