"""The files of a release for Python: a wheel with the library in it, and the sources, which are built over a library that is installed.

usage: python tools/lib/release_wheel.py PREFIX DIST [PYTHON ..]

Makes both in the folder DIST, over the library that bindings/c/build has installed below PREFIX, and tries them with each CPython from 3.8
on that is named, or else is found here. `make` and `tried` are what tools/release calls. It needs a C compiler, objdump, nm and readelf,
for another processor those that begin with its name, as aarch64-linux-gnu-gcc.
"""
import glob
import hashlib
import os
import platform
import re
import shutil
import subprocess
import sys
import sysconfig
import tarfile
import tempfile
import time
import zipfile

sys.dont_write_bytecode = True
ROOT = os.path.dirname(os.path.dirname(os.path.dirname(os.path.abspath(__file__))))
sys.path.insert(0, f"{ROOT}/bindings/python/backend")
import dadofennel_build as build  # noqa: E402
import dadofennel_library as library  # noqa: E402
import dadofennel_pack as pack  # noqa: E402

SHOWN = {"PyInit__native"}
"""The symbols that the extension module may show."""

OF_GLIBC = {"libc.so.6", "libm.so.6", "libpthread.so.0", "libdl.so.2", "librt.so.1"}
"""The libraries that each system of a manylinux tag has, as far as the module could need them."""

OLDEST = (2, 17)
"""The glibc of manylinux2014."""

LINKED = ["-Wl,-s", "-Wl,--build-id=none", "-Wl,-z,relro", "-Wl,-z,now"]


def tool(name, machine):
    """A tool for this processor, or the one of another."""
    return name if machine == platform.machine() else f"{machine}-linux-gnu-{name}"


def said_by(*words):
    return subprocess.run(words, stdout=subprocess.PIPE, check=True).stdout.decode()


def glibc_of(path, machine):
    """The least glibc that has all that a file names of it, as two numbers."""
    named = re.findall(r"GLIBC_(\d+)\.(\d+)", said_by(tool("objdump", machine), "-T", path))
    return max((int(major), int(minor)) for major, minor in named)


def platform_of(path, machine):
    """The tag of the systems that an extension module serves: what it needs of them decides."""
    libraries = set(re.findall(r"NEEDED.*\[(.*)\]", said_by(tool("readelf", machine), "-d", path)))
    others = {it for it in libraries - OF_GLIBC if not it.startswith("ld-linux")}
    if others:
        raise ValueError(f"the module needs {', '.join(sorted(others))}, which no manylinux tag promises")
    shown = {line.split()[-1] for line in said_by(tool("nm", machine), "-D", "--defined-only", path).splitlines()}
    if shown != SHOWN:
        raise ValueError(f"the module shows {', '.join(sorted(shown ^ SHOWN))}")
    glibc = glibc_of(path, machine)
    return f"manylinux2014_{machine}" if glibc <= OLDEST else f"manylinux_{glibc[0]}_{glibc[1]}_{machine}"


def headers_for(machine, folder):
    """What lets the compiler of another machine take the headers of Python here. Debian's ask for those of its machine, for which these
    stand: both have 64 bits, and the module keeps to the limited API."""
    name = os.path.relpath(sysconfig.get_config_h_filename(), "/usr/include")
    mine = f"/usr/include/{platform.machine()}-linux-gnu/{name}"
    if machine == platform.machine() or name.startswith("..") or not os.path.exists(mine):
        return ""
    to = f"{folder}/{machine}-linux-gnu/{name}"
    os.makedirs(os.path.dirname(to))
    shutil.copy(mine, to)
    return f" -I{folder}"


def make(prefix, dist, version, when, machine="x86_64"):
    """Writes the wheel and the sources to a folder, and returns their names. `when` is the time of all files, in seconds since 1970.

    The library is the archive below `prefix`, for that machine. The compiler is CC, or cc, or for another machine than this its own.
    """
    public = pack.public_version(version)
    found = library.under(prefix, machine)
    compiler = os.environ.get("CC") or tool("gcc" if machine != platform.machine() else "cc", machine)
    with tempfile.TemporaryDirectory(prefix="wheel-") as folder:
        path = f"{folder}/{os.path.basename(pack.MODULE)}"
        build.compile_module(found, path, compiler + headers_for(machine, folder), LINKED)
        tag = f"cp38-abi3-{platform_of(path, machine)}"
        contents = [*build.package(), (pack.MODULE, pack.read(path), 0o755)]
    wheel = build.written(dist, f"dadofennel-{public}-{tag}.whl", pack.wheel(public, tag, contents, when))
    return [wheel, build.written(dist, f"dadofennel-{public}.tar.gz", pack.sdist(public, when))]


# ---- Trying them ----


def pythons():
    """Each CPython from 3.8 on that is found here, one of each version: those of pyenv, and those on the path."""
    places = glob.glob(os.path.expanduser("~/.pyenv/versions/*/bin/python3")) + ["/usr/bin/python3"]
    places += [it for it in (shutil.which(f"python3.{minor}") for minor in range(8, 20)) if it]
    found = {}
    for path in places:
        asked = "import sys; print(sys.implementation.name, *sys.version_info[:3], sep='.')"
        ran = subprocess.run([path, "-c", asked], stdout=subprocess.PIPE, stderr=subprocess.DEVNULL)
        told = ran.stdout.decode().strip().split(".")
        if ran.returncode == 0 and told[0] == "cpython" and (int(told[1]), int(told[2])) >= (3, 8):
            found.setdefault(tuple(map(int, told[1:])), path)
    return [path for _, path in sorted(found.items())]


def bundled_pip(python):
    """The wheel of pip that a Python brings, from which it runs."""
    asked = "import ensurepip, os; print(os.path.dirname(ensurepip.__file__))"
    places = [f"{said_by(python, '-c', asked).strip()}/_bundled", "/usr/share/python-wheels"]
    return next(it for place in places for it in sorted(glob.glob(f"{place}/pip-*.whl")))


class Trial:
    """What is tried, row by row, in a folder outside the repository."""

    def __init__(self, folder):
        self.folder, self.passed, self.failed = folder, 0, 0

    def run(self, *words, **variables):
        """A command that has to end well, without what this process was told of Python and of the library."""
        kept = {name: it for name, it in os.environ.items() if not name.startswith(("PYTHON", "DADOFENNEL", "PIP_"))}
        environment = {**kept, "PYTHONDONTWRITEBYTECODE": "1", "PIP_DISABLE_PIP_VERSION_CHECK": "1", **variables}
        ran = subprocess.run(words, stdout=subprocess.PIPE, stderr=subprocess.STDOUT, cwd=self.folder, env=environment)
        said = ran.stdout.decode(errors="replace")
        if ran.returncode:
            raise AssertionError(f"{' '.join(words)}: status {ran.returncode}: {said.strip()[-1500:]}")
        return said

    def row(self, name, call, *words):
        begun = time.monotonic()
        try:
            call(self, *words)
            self.passed += 1
            print(f"ok      {name}, {time.monotonic() - begun:.0f} s", flush=True)
        except (AssertionError, OSError, subprocess.CalledProcessError) as error:
            self.failed += 1
            print(f"FAILED  {name}\n{error}", flush=True)

    def environment(self, python):
        """A new environment of a Python, which has nothing."""
        folder = f"{self.folder}/{len(os.listdir(self.folder))}"
        self.run(python, "-m", "venv", "--without-pip", folder)
        return f"{folder}/bin/python"

    def pip(self, python, *words, **variables):
        """Runs the pip that comes with a Python, in an environment."""
        return self.run(python, "-m", "pip", *words, PYTHONPATH=bundled_pip(python), **variables)


def record_holds(trial, wheel):
    """RECORD has each file but itself, with its digest and its length."""
    with zipfile.ZipFile(wheel) as archive:
        names = archive.namelist()
        record = next(it for it in names if it.endswith("/RECORD"))
        lines = dict(line.split(",", 1) for line in archive.read(record).decode().splitlines())
        for name in names:
            data = archive.read(name)
            expected = "," if name == record else f"sha256={pack.digest(data)},{len(data)}"
            if lines.pop(name) != expected:
                raise AssertionError(f"RECORD has another digest of {name}")
    if lines:
        raise AssertionError(f"RECORD has {', '.join(lines)}, and the wheel hasn't")


def tests_pass(trial, python, sources):
    """The package's own tests, and the examples of its page, of the sources distributed."""
    cases = os.environ.get("CASES", "300")
    for path in sorted(set(glob.glob(f"{sources}/tests/test_*.py")) - {f"{sources}/tests/test_build.py"}):
        warned = "ignore" if path.endswith("test_dask.py") else "error"
        trial.run(python, "-W", warned, path, CASES=cases)
    trial.run(python, f"{sources}/tests/examples.py", f"{sources}/README.md")


def leaves_nothing(trial, python):
    """What was installed goes with the package."""
    trial.pip(python, "uninstall", "-q", "-y", "dadofennel")
    left = glob.glob(f"{os.path.dirname(os.path.dirname(python))}/lib/python3*/site-packages/dadofennel*")
    if left:
        raise AssertionError(f"{', '.join(left)} is left")


def wheel_serves(trial, python, wheel, sources):
    it = trial.environment(python)
    trial.pip(it, "install", "-q", "--no-index", "--no-deps", wheel)
    tests_pass(trial, it, sources)
    leaves_nothing(trial, it)


def sources_serve(trial, python, sdist, sources, variables):
    it = trial.environment(python)
    trial.pip(it, "install", "-q", "--no-index", "--no-build-isolation", sdist, **variables)
    tests_pass(trial, it, sources)


def sources_say_what_lacks(trial, python, sdist):
    """Without a library the build ends, and says what to do."""
    it = trial.environment(python)
    try:
        trial.pip(it, "install", "-q", "--no-index", "--no-build-isolation", sdist, PKG_CONFIG="/nowhere")
    except AssertionError as error:
        if "set DADOFENNEL_PREFIX to where it is" not in str(error):
            raise
    else:
        raise AssertionError("it was built of nothing")


def library_of(trial, dist, prefix):
    """Where the library of the release is: the folder that is given, or the release's archive, unpacked; or nowhere."""
    packed = glob.glob(f"{dist}/dadofennel-*-linux-{platform.machine()}.tar.gz")
    if prefix or not packed:
        return prefix
    os.mkdir(f"{trial.folder}/library")
    with tarfile.open(packed[0]) as archive:
        archive.extractall(f"{trial.folder}/library")
    return glob.glob(f"{trial.folder}/library/*")[0]


def has_headers(python):
    asked = "import os, sysconfig; print(os.path.exists(sysconfig.get_config_var('INCLUDEPY') + '/Python.h'))"
    return said_by(python, "-c", asked).strip() == "True"


def tried(dist, given=None, prefix=None):
    """Tries the wheel and the sources of a folder with each of these Pythons, or else of those that are found here.

    The sources are built over the library below `prefix`, or that of the release's archive in the same folder; without either they are
    left out. Prints a row for each, and returns how many passed and how many failed.
    """
    wheel, = glob.glob(f"{os.path.abspath(dist)}/dadofennel-*-cp38-abi3-*_{platform.machine()}.whl")
    sdist = re.sub(r"-cp38-abi3-.*", ".tar.gz", wheel)
    given = given or pythons()
    with tempfile.TemporaryDirectory(prefix="wheel-try-") as folder:
        trial = Trial(folder)
        with tarfile.open(sdist) as archive:
            archive.extractall(folder)
        sources = f"{folder}/{os.path.basename(sdist)[:-len('.tar.gz')]}"
        trial.row("RECORD of the wheel", record_holds, wheel)
        for python in given:
            trial.row(f"the wheel, by {said_by(python, '-V').strip()}", wheel_serves, python, wheel, sources)
        last = next((it for it in reversed(given) if has_headers(it)), None)
        root = library_of(trial, dist, prefix and os.path.abspath(prefix))
        if last and root:
            name = said_by(last, "-V").strip()
            of_prefix, of_system = {"DADOFENNEL_PREFIX": root}, {"PKG_CONFIG_PATH": f"{root}/lib/pkgconfig"}
            trial.row(f"the sources, by {name} and DADOFENNEL_PREFIX", sources_serve, last, sdist, sources, of_prefix)
            trial.row(f"the sources, by {name} and pkg-config", sources_serve, last, sdist, sources, of_system)
            trial.row("the sources without a library", sources_say_what_lacks, last, sdist)
        else:
            print("left out: the sources (no library to build over, or no Python with its headers)")
    return trial.passed, trial.failed


def main(words):
    if len(words) < 2 or words[0].startswith("-"):
        sys.exit(__doc__)
    os.makedirs(words[1], exist_ok=True)
    when = int(os.environ.get("SOURCE_DATE_EPOCH") or said_by("git", "-C", ROOT, "log", "-1", "--format=%ct"))
    for name in make(words[0], words[1], library.needed(), when):
        print(f"{hashlib.sha256(pack.read(f'{words[1]}/{name}')).hexdigest()}  {name}")
    passed, failed = tried(words[1], words[2:] or None, words[0])
    print(f"{passed} passed, {failed} failed")
    return 1 if failed else 0


if __name__ == "__main__":
    sys.exit(main(sys.argv[1:]))
