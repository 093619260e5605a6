"""Crates that Debian has in source, and copies of them that are built on ours.

Its packages librust-*-dev put crates into REGISTRY. The vendored crates of its source package rustc-web are newer; VENDOR of the
environment names a folder of them, which `bindings/rust/tests/fetch` fills."""
import glob
import os
import re
import shutil
import subprocess
import sys

HERE = os.path.dirname(os.path.abspath(__file__))
CARGO = os.environ.get("CARGO", "cargo")
REGISTRY = "/usr/share/cargo/registry"
VENDOR = os.environ.get("VENDOR", "")
CRATE = os.path.normpath(f"{HERE}/../aho-corasick")
FACE = f"{HERE}/face-0.7"


def help_asked(page):
    if {"-h", "--help"} & set(sys.argv):
        print(page.strip())
        sys.exit(0)


def leave_out(why):
    """Ends with a line that says what isn't there."""
    sys.exit(f"left out: {why}")


def found(pattern, *folders):
    """The newest crate of this name and version, in the first folder that has one."""
    for folder in filter(None, folders):
        paths = [it for it in glob.glob(f"{folder}/{pattern}") if os.path.exists(f"{it}/Cargo.toml")]
        if paths:
            return max(paths, key=lambda it: [int(number) for number in re.findall(r"\d+", it.rsplit("-", 1)[1])])
    return None


def gathered(folder, *folders):
    """Writes to a folder a source of crates for Cargo: those of other folders, of the first where two have the same."""
    os.makedirs(folder, exist_ok=True)
    for source in filter(None, folders):
        for path in glob.glob(f"{source}/*/.cargo-checksum.json"):
            path = os.path.dirname(path)
            if not os.path.lexists(f"{folder}/{os.path.basename(path)}"):
                os.symlink(path, f"{folder}/{os.path.basename(path)}")
    return folder


def copied(source, folder, sources, ours):
    """Copies a crate, where Cargo takes crates from `sources`, with ours in the place of aho-corasick."""
    shutil.rmtree(folder, ignore_errors=True)
    shutil.copytree(source, folder, ignore=shutil.ignore_patterns("benches", "debian", ".cargo*", "Cargo.lock"))
    write(f"{folder}/.cargo/config.toml", f'[source.crates-io]\nreplace-with = "here"\n\n[source.here]\ndirectory = "{sources}"\n')
    edit(f"{folder}/Cargo.toml", [(r"\Z", f'\n[patch.crates-io]\naho-corasick = {{ path = "{ours}" }}\n\n[workspace]\n')])


def cargo(folder, *words):
    """Runs Cargo in a folder, and returns what it wrote. The run ends where it fails."""
    ran = subprocess.run([CARGO, *words], cwd=folder, stdout=subprocess.PIPE, stderr=subprocess.STDOUT)
    said = ran.stdout.decode(errors="replace")
    if ran.returncode:
        sys.exit(f"{said[-6000:]}\n{CARGO} {' '.join(words)} failed in {folder}")
    return said


def tested(folder, *words):
    """Runs tests, and returns how many passed."""
    said = cargo(folder, "test", "--offline", *words)
    return sum(int(it) for it in re.findall(r"test result: ok\. (\d+) passed", said))


def on_ours(folder):
    """Ends where a crate isn't built on ours alone."""
    built = re.findall(r"aho-corasick v(\S+)", cargo(folder, "tree", "--offline", "--prefix", "none"))
    if not built or any(not it.endswith("+dadofennel") for it in built):
        sys.exit(f"{folder} is built on aho-corasick {', '.join(built)}")


def edit(path, edits):
    """Changes a file; each change must find its place."""
    text = read(path)
    for old, new in edits:
        text, count = re.subn(old, new, text)
        if not count:
            sys.exit(f"{path} has no {old}")
    write(path, text)


def read(path):
    with open(path, encoding="utf-8") as file:
        return file.read()


def write(path, text):
    os.makedirs(os.path.dirname(path), exist_ok=True)
    with open(path, "w", encoding="utf-8") as file:
        file.write(text)


# ---- The tests and examples of the public crate ----


def fenced(text):
    """The blocks of code in the documentation of a file, each with the words after its fence: those in no other language."""
    text = re.sub(r"^ *//[/!] ?", "", text, flags=re.M)
    blocks = re.findall(r"^```([\w, ]*)\n(.*?)^```$", text, re.M | re.S)
    known = {"", "rust", "should_panic", "no_run"}
    return [(set(words.replace(",", " ").split()), code) for words, code in blocks if set(words.replace(",", " ").split()) <= known]


def listed(file, between):
    """The lines of a list beside this file, each in two parts; those that begin with # are comments."""
    lines = [line for line in read(f"{HERE}/{file}").splitlines() if line and not line.startswith("#")]
    return {name: rest for name, _, rest in (line.partition(between) for line in lines)}


def edited(text, edits):
    for old, new in edits:
        text = re.sub(old, new, text)
    return text
