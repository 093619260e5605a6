"""The package for Go as a release has it: dadofennel-go-V.tar.gz, a module of sources alone, which finds the library by pkg-config."""
import gzip
import io
import os
import tarfile

ROOT = os.path.dirname(os.path.dirname(os.path.dirname(os.path.abspath(__file__))))
MODULE = f"{ROOT}/bindings/go"
KINDS = (".go", ".h", ".mod", ".md")
"""What a module has. The scripts `test` and `bench` need the rest of the repository."""


def files():
    """Where each file is, by its name in the module."""
    found = {"LICENSE": f"{ROOT}/LICENSE"}
    for folder, _, names in os.walk(MODULE):
        for name in names:
            if name.endswith(KINDS):
                path = f"{folder}/{name}"
                found[os.path.relpath(path, MODULE)] = path
    return found


def make(dist, version, when):
    """Writes the file to the folder, with one time for all that it has: the same bytes for the same sources. Returns its path."""
    name = f"dadofennel-go-{version}"
    held = io.BytesIO()
    with tarfile.open(fileobj=held, mode="w", format=tarfile.GNU_FORMAT) as archive:
        for inner, path in sorted(files().items()):
            with open(path, "rb") as file:
                text = file.read()
            entry = tarfile.TarInfo(f"{name}/{inner}")
            entry.size, entry.mtime, entry.mode, entry.uname, entry.gname = len(text), when, 0o644, "root", "root"
            archive.addfile(entry, io.BytesIO(text))
    made = f"{dist}/{name}.tar.gz"
    with open(made, "wb") as file, gzip.GzipFile("", "wb", 9, file, mtime=0) as out:
        out.write(held.getvalue())
    return made
