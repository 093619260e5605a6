"""What a wheel and a source distribution have, as bytes: the same files give the same bytes, whoever makes them and when.

Names are in order, and times are those that are given.
"""
import base64
import gzip
import hashlib
import io
import os
import re
import tarfile
import time
import zipfile

HERE = os.path.dirname(os.path.dirname(os.path.abspath(__file__)))
MODULE = "dadofennel/_native.abi3.so"
BUILDER = "dadofennel_build"
EARLIEST = 315532800
"""The first second that a zip file can tell: that of 1980."""

SUMMARY = "Search for many patterns at once, in str and in bytes: a proved library"
AUTHOR = "Dadofennel maintainers"
EMAIL = "maintainers@users.noreply.dadofennel.example"
KEYWORDS = ["aho-corasick", "multi-pattern", "search", "replace", "mask"]
PYTHONS = ["3.8", "3.9", "3.10", "3.11", "3.12", "3.13"]
CLASSIFIERS = [
    "Intended Audience :: Developers",
    "License :: OSI Approved :: MIT License",
    "Operating System :: POSIX :: Linux",
    "Programming Language :: C",
    "Programming Language :: Python :: 3",
    *(f"Programming Language :: Python :: {it}" for it in PYTHONS),
    "Programming Language :: Python :: Implementation :: CPython",
    "Topic :: Software Development :: Libraries",
    "Topic :: Text Processing",
    "Typing :: Typed",
]


def public_version(version):
    """The version as Python writes it: 1.1.0~rc1 is 1.1.0rc1, and 1.1.0-dev is 1.1.0.dev0."""
    parts = re.fullmatch(r"(\d+\.\d+\.\d+)(?:[~-]?\.?(a|alpha|b|beta|rc|dev)\.?(\d*))?(?:\+([a-z0-9]+(?:\.[a-z0-9]+)*))?", version)
    if not parts:
        raise ValueError(f"{version} can't be the version of a package of Python: 1.0.0, 1.0.0~rc1, 1.0.0~dev1 and 1.0.0+local can")
    release, kind, number, local = parts.groups()
    mark = {"alpha": "a", "beta": "b", "dev": ".dev"}.get(kind, kind) if kind else ""
    return release + (mark + (number or "0") if kind else "") + (f"+{local}" if local else "")


def read(path):
    with open(path, "rb") as file:
        return file.read()


def license_text():
    """The licence: of the sources distributed, or of the clone."""
    places = [os.path.join(HERE, "LICENSE"), os.path.join(HERE, "..", "..", "LICENSE")]
    return read(next(it for it in places if os.path.exists(it)))


def below(folder, *endings):
    """The files in a folder of the package that have one of these endings, by name."""
    return [f"{folder}/{name}" for name in sorted(os.listdir(os.path.join(HERE, folder))) if name.endswith(endings)]


def package():
    """The files of the package, with their names in a wheel."""
    return below("dadofennel", ".py", ".pyi", ".typed")


def metadata(version):
    """METADATA of a wheel, PKG-INFO of sources."""
    fields = [
        ("Metadata-Version", "2.1"), ("Name", "dadofennel"), ("Version", version), ("Summary", SUMMARY),
        ("Author", AUTHOR), ("Author-email", f"{AUTHOR} <{EMAIL}>"), ("License", "MIT"), ("License-File", "LICENSE"),
        ("Keywords", ",".join(KEYWORDS)), *(("Classifier", it) for it in CLASSIFIERS),
        ("Requires-Python", f">={PYTHONS[0]}"), ("Description-Content-Type", "text/markdown; charset=UTF-8"),
    ]
    head = "".join(f"{name}: {value}\n" for name, value in fields)
    return head.encode() + b"\n" + read(os.path.join(HERE, "README.md"))


def info(version, tag):
    """The files of a wheel's folder of information, but for RECORD."""
    folder = f"dadofennel-{version}.dist-info"
    told = f"Wheel-Version: 1.0\nGenerator: {BUILDER}\nRoot-Is-Purelib: false\nTag: {tag}\n"
    return [(f"{folder}/LICENSE", license_text(), 0o644), (f"{folder}/METADATA", metadata(version), 0o644),
            (f"{folder}/WHEEL", told.encode(), 0o644)]


def wheel(version, tag, contents, when):
    """The bytes of a wheel of these contents: names, bytes and modes."""
    contents = sorted(contents) + info(version, tag)
    record = f"dadofennel-{version}.dist-info/RECORD"
    lines = "".join(f"{name},sha256={digest(data)},{len(data)}\n" for name, data, _ in contents) + f"{record},,\n"
    held = io.BytesIO()
    with zipfile.ZipFile(held, "w", zipfile.ZIP_DEFLATED) as archive:
        for name, data, mode in [*contents, (record, lines.encode(), 0o644)]:
            entry = zipfile.ZipInfo(name, time.gmtime(max(when, EARLIEST))[:6])
            entry.create_system, entry.external_attr, entry.compress_type = 3, (0o100000 | mode) << 16, zipfile.ZIP_DEFLATED
            archive.writestr(entry, data)
    return held.getvalue()


def digest(data):
    return base64.urlsafe_b64encode(hashlib.sha256(data).digest()).rstrip(b"=").decode()


def sources():
    """The files of a source distribution, but for those that are made: their names below the package's folder."""
    return ["README.md", "pyproject.toml", *below("backend", ".py"), *package(), *below("native", ".c", ".h"), *below("tests", ".py")]


def sdist(version, when):
    """The bytes of a source distribution."""
    root = f"dadofennel-{version}"
    contents = {name: read(os.path.join(HERE, name)) for name in sources()}
    contents.update({"LICENSE": license_text(), "PKG-INFO": metadata(version)})
    folders = {os.path.dirname(it) for it in contents} - {""}
    held = io.BytesIO()
    with gzip.GzipFile("", "wb", 9, held, mtime=when) as out, tarfile.open(fileobj=out, mode="w", format=tarfile.PAX_FORMAT) as archive:
        for name in sorted([".", *folders, *contents]):
            entry = tarfile.TarInfo(root if name == "." else f"{root}/{name}")
            entry.mtime, entry.mode, entry.uname, entry.gname = when, 0o644, "root", "root"
            if name not in contents:
                entry.type, entry.mode = tarfile.DIRTYPE, 0o755
            entry.size = len(contents.get(name, b""))
            archive.addfile(entry, io.BytesIO(contents.get(name, b"")))
    return held.getvalue()
