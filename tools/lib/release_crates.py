"""The crates of a release: dadofennel-sys with the library's archives within, by target, dadofennel over it, and the one that stands for
aho-corasick. And a project outside the repository that is built on them."""
import contextlib
import glob
import gzip
import hashlib
import io
import json
import os
import re
import shutil
import subprocess
import sys
import tarfile
import tempfile

import launch

SOURCES = f"{launch.REPOSITORY}/bindings/rust"
LICENSE = f"{launch.REPOSITORY}/LICENSE"

# Of each crate: its folder's files and folders that are in it. The tests of dadofennel-sys need the header, so they are not.
CRATES = {
    "dadofennel-sys": ["build.rs", "src"],
    "dadofennel": ["README.md", "src", "examples", "tests"],
    "aho-corasick": ["README.md", "src", "tests"],
}

NORMAL = "# The manifest of the repository (Cargo.toml.orig), with versions in the place of paths.\n\n"


# ---- What is made ----


def numbered(version):
    """A release's version as Cargo has it: 1.0.0~rc1 is 1.0.0-rc1."""
    return version.replace("~", "-", 1)


def manifest(name, version):
    """The version of a crate, its manifest in the repository, and the manifest that needs no other folder."""
    with open(f"{SOURCES}/{name}/Cargo.toml") as file:
        text = file.read()
    own = re.search(r'^version = "(.*)"$', text, re.M)[1] if name == "aho-corasick" else version
    normal = re.sub(r'^version = ".*"$', f'version = "{own}"', text, flags=re.M)
    normal = re.sub(r'\{ path = "[^"]*", version = "[^"]*" \}', f'"={version}"', normal)
    if "path" in normal:
        sys.exit(f"release: the manifest of {name} names a path")
    return own, text, NORMAL + normal


def held(name):
    """The files of a crate's folder that are in it, by their paths from there."""
    for item in CRATES[name]:
        path = f"{SOURCES}/{name}/{item}"
        if os.path.isfile(path):
            yield item, path
        for at, _, names in os.walk(path):
            for file in names:
                yield os.path.relpath(f"{at}/{file}", f"{SOURCES}/{name}"), f"{at}/{file}"


def packed(folder, files, when):
    """A tar of files below a folder, packed: the same bytes for the same files."""
    out = io.BytesIO()
    with gzip.GzipFile(filename="", mode="wb", compresslevel=9, fileobj=out, mtime=0) as packing:
        with tarfile.open(fileobj=packing, mode="w", format=tarfile.USTAR_FORMAT) as tar:
            for path, data in sorted(files.items()):
                entry = tarfile.TarInfo(f"{folder}/{path}")
                entry.size, entry.mtime, entry.mode = len(data), when, 0o644
                tar.addfile(entry, io.BytesIO(data))
    return out.getvalue()


def read(path):
    with open(path, "rb") as file:
        return file.read()


def write(path, data):
    os.makedirs(os.path.dirname(path), exist_ok=True)
    with open(path, "wb") as file:
        file.write(data if isinstance(data, bytes) else data.encode())


def make(archives, dist, version, when):
    """Writes the crates to a folder. `archives` has the path of libdadofennel.a for each target, as x86_64-unknown-linux-gnu. Returns the
    paths of what it wrote."""
    version = numbered(version)
    paths = []
    for name in CRATES:
        own, original, normal = manifest(name, version)
        files = {"Cargo.toml": normal.encode(), "Cargo.toml.orig": original.encode(), "LICENSE": read(LICENSE)}
        files.update({path: read(source) for path, source in held(name)})
        if name == "dadofennel-sys":
            files.update({f"lib/{target}/libdadofennel.a": read(archive) for target, archive in archives.items()})
        paths.append(f"{dist}/{name}-{own}.crate")
        write(paths[-1], packed(f"{name}-{own}", files, when))
    return paths


# ---- What is tried ----

PROJECT = """\
[package]
name = "project"
version = "0.0.0"
edition = "2021"

[dependencies]
aho-corasick = "1.1"
dadofennel = "={version}"

[workspace]
"""

TESTS = """\
use aho_corasick::automaton::Automaton;
use aho_corasick::{dfa::DFA, packed::Searcher, AhoCorasick, Input};

const WORDS: [&str; 3] = ["append", "appendage", "app"];
const TEXT: &str = "append the app to the appendage";

#[test]
fn dadofennel_searches() {
    let ac = dadofennel::AhoCorasick::new(WORDS).unwrap();
    let found: Vec<_> = ac.find_iter(TEXT).map(|it| (it.pattern().as_usize(), it.range())).collect();
    assert_eq!(vec![(2, 0..3), (2, 11..14), (2, 22..25)], found);
    assert_eq!("*end the * to the *endage", ac.replace_all(TEXT, &["-", "+", "*"]));
    assert!(dadofennel::version().starts_with("{library}"), "{}", dadofennel::version());
}

#[test]
fn aho_corasick_is_ours() {
    let ac = AhoCorasick::new(WORDS).unwrap();
    let all: Vec<_> = ac.find_overlapping_iter(TEXT).map(|it| (it.pattern().as_usize(), it.range())).collect();
    assert_eq!(vec![(2, 0..3), (0, 0..6), (2, 11..14), (2, 22..25), (0, 22..28), (1, 22..31)], all);
    assert_eq!(Some(11..14), DFA::new(WORDS).unwrap().try_find(&Input::new(TEXT).range(1..)).unwrap().map(|it| it.range()));
    let found: Vec<_> = Searcher::new(WORDS).unwrap().find_iter(TEXT).map(|it| it.range()).collect();
    assert_eq!(vec![0..6, 11..14, 22..28], found);
    let one: aho_corasick::Match = dadofennel::Match::must(0, 0..1);
    assert_eq!(0..1, one.range());
}
"""

# What a build must not ask: the script stands in its place, and its call is an error.
ABSENT = ["pkg-config", "rt"]


def unpacked(dist, folder):
    """Unpacks the crates of a folder into another one, as a source of crates for Cargo: by name, where each is."""
    found = {}
    for path in sorted(glob.glob(f"{dist}/*.crate")):
        with tarfile.open(path) as tar:
            tar.extractall(folder)
            top = tar.getnames()[0].split("/")[0]
        sums = {}
        for at, _, names in os.walk(f"{folder}/{top}"):
            for name in names:
                sums[os.path.relpath(f"{at}/{name}", f"{folder}/{top}")] = hashlib.sha256(read(f"{at}/{name}")).hexdigest()
        sums = {"files": sums, "package": hashlib.sha256(read(path)).hexdigest()}
        write(f"{folder}/{top}/.cargo-checksum.json", json.dumps(sums))
        found[re.match(r"(.*?)-\d", top)[1]] = f"{folder}/{top}"
    return found


def project(folder, source, version, patched):
    """Writes a project that takes its crates from a folder, or by their paths."""
    lines = "".join(f'{name} = {{ path = "{path}" }}\n' for name, path in patched.items())
    library = re.match(r"[0-9.]*", version)[0]
    write(f"{folder}/Cargo.toml", PROJECT.format(version=version) + (f"\n[patch.crates-io]\n{lines}" if patched else ""))
    write(f"{folder}/src/lib.rs", "//! A project outside the repository.\n")
    write(f"{folder}/tests/tests.rs", TESTS.replace("{library}", library))
    sources = f'[source.crates-io]\nreplace-with = "here"\n\n[source.here]\ndirectory = "{source}"\n'
    write(f"{folder}/.cargo/config.toml", sources)


def compilers():
    """The cargos that are here: that of CARGO, or of the path, and Debian's. Each with its rustc and what it says it is."""
    first = os.environ.get("CARGO", shutil.which("cargo"))
    for cargo in dict.fromkeys(filter(None, [first, "/usr/bin/cargo"])):
        rustc = os.path.join(os.path.dirname(cargo), "rustc")
        if os.path.exists(cargo) and os.path.exists(rustc):
            said = subprocess.run([rustc, "--version"], stdout=subprocess.PIPE, check=True).stdout.decode().strip()
            yield said.split("(")[0].strip(), cargo, rustc


def bare(room, rustc):
    """An environment in which a build has the compiler and the linker, and fails where it asks for what a release doesn't need."""
    for name in ABSENT:
        write(f"{room}/absent/{name}", f"#!/bin/sh\necho 'a build asked for {name}' >&2\nexit 99\n")
        os.chmod(f"{room}/absent/{name}", 0o755)
    kept = {name: text for name, text in os.environ.items() if not name.startswith(("CARGO", "RUST", "DADOFENNEL"))}
    kept.update({name: os.environ[name] for name in ("RUSTUP_HOME", "RUSTUP_TOOLCHAIN") if name in os.environ})
    kept["PATH"] = f"{room}/absent:{kept['PATH']}"
    return {**kept, "RUSTC": rustc, "CARGO_HOME": f"{room}/cargo", "CARGO_TARGET_DIR": f"{room}/target", "CARGO_BUILD_JOBS": "1"}


def tested(cargo, folder, environment):
    """Runs the tests of a project. Each must be there, and pass."""
    words = [cargo, "test", "--offline", "--quiet", "--test", "tests"]
    ran = subprocess.run(words, cwd=folder, env=environment, stdout=subprocess.PIPE, stderr=subprocess.STDOUT)
    said = ran.stdout.decode(errors="replace")
    if ran.returncode or "2 passed" not in said:
        raise AssertionError(f"{' '.join(words)}: status {ran.returncode}: {said.strip()[-1500:]}")


def tried(dist):
    """Builds a project outside the repository on the crates of a folder, without the network and without what the repository needs, by
    each compiler that is here: once with the crates as a source of Cargo, and once by their paths, in the place of those of crates.io.
    It runs the project's tests. Returns what was tried, a line each; an AssertionError says what failed."""
    lines = []
    with tempfile.TemporaryDirectory(prefix="crates-") as room:
        crates = unpacked(dist, f"{room}/crates")
        if set(crates) != set(CRATES):
            raise AssertionError(f"{dist} has the crates {', '.join(sorted(crates)) or 'of none'}")
        os.mkdir(f"{room}/none")
        version = crates["dadofennel"].rsplit("/dadofennel-", 1)[1]
        project(f"{room}/source", f"{room}/crates", version, {})
        project(f"{room}/paths", f"{room}/none", version, crates)
        for name, cargo, rustc in compilers():
            for form in ("source", "paths"):
                shutil.rmtree(f"{room}/target", ignore_errors=True)
                with contextlib.suppress(FileNotFoundError):
                    os.remove(f"{room}/{form}/Cargo.lock")
                tested(cargo, f"{room}/{form}", bare(room, rustc))
                lines.append(f"crates by {name}, {'as a source of Cargo' if form == 'source' else 'by their paths'}")
    if not lines:
        raise AssertionError("there is no cargo")
    return lines
