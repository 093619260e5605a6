"""Tries the files of a release where nothing of this repository is, and no toolchain: in a bare Debian, or in a folder with the C library
alone; and what runs on other things than those on what this machine has of them."""
import glob
import hashlib
import importlib.util
import os
import re
import shutil
import subprocess
import sys
import tempfile

import launch
import release_aarch64
import release_arm64
import release_crates
import release_files
import release_node
import release_wheel
from release_room import COMPILERS, TOOLCHAIN, Here, Room, Rows, equal, without_toolchain
from release_rows import by_cmake, by_pkg_config, examples_work, go_works, program_works, wheel_works

SUITE = "bookworm"
NEEDED = ["gcc", "libc6-dev", "pkg-config", "cmake", "make"]
PYTHON = ["python3", "python3-venv"]
PYTHON_TESTS = ["test_automaton", "test_threads", "test_ahocorasick"]
EXAMPLES = "/usr/share/doc/libdadofennel-dev/examples"
PACKAGES = ("acsub", "libdadofennel1", "libdadofennel-dev")
PACKAGE = "python3-dadofennel"
MACHINE = "x86_64"


# ---- What is tried ----


def sums_hold(dist):
    with open(f"{dist}/SHA256SUMS") as file:
        lines = [line.split() for line in file]
    for expected, name in lines:
        with open(f"{dist}/{name}", "rb") as other:
            equal(hashlib.sha256(other.read()).hexdigest(), expected)
    equal(sorted(name for _, name in lines), sorted(it for it in os.listdir(dist) if it != "SHA256SUMS"))


def proved_names_all(dist):
    """PROVED has the sum of each file that was compiled, in whatever file of the release it is."""
    with open(f"{dist}/PROVED") as file:
        text = file.read()
    for name in sorted(os.listdir(dist)):
        if name not in ("PROVED", "SHA256SUMS"):
            for inner, total in release_files.compiled_in(f"{dist}/{name}"):
                if f"    {inner} sha256={total}\n" not in text:
                    raise AssertionError(f"PROVED has no sum of {inner} in {name}")


def is_bare(room):
    """There is no toolchain, and no compiler."""
    for name in TOOLCHAIN + COMPILERS:
        if any(os.path.lexists(f"{room.folder}/{at}/{name}") for at in ("bin", "usr/bin", "usr/sbin", "usr/local/bin")):
            raise AssertionError(f"{name} is there")


def has(room, *names):
    """Installs packages of Debian itself, and doesn't wait until each file is on the disk."""
    room.must("apt-get", "update")
    room.must("apt-get", "install", "-y", "--no-install-recommends", "-o", "Dpkg::Options::=--force-unsafe-io", *names)


def module_works(room, python):
    """The tests of Python's package, outside the repository."""
    for name in PYTHON_TESTS:
        room.must(python, "-W", "error", f"/tests/{name}.py", folder="/tests", PYTHONDONTWRITEBYTECODE="1", CASES="300")


def is_installed_by_pip(room, wheel):
    """pip installs the wheel into a new environment, with no index of packages."""
    room.must("python3", "-m", "venv", "/venv")
    room.must("/venv/bin/pip", "install", "--quiet", "--no-index", "--disable-pip-version-check", wheel)


def packages_leave_nothing(room, *names):
    """Once the packages are gone, so is what they brought."""
    room.must("dpkg", "--purge", *names)
    left = [it for it in glob.glob(f"{room.folder}/usr/**/*", recursive=True) if re.search(r"dadofennel|acsub", os.path.basename(it))]
    equal(left, [])


def lintian_is_clean(packages):
    """lintian has no error and no warning."""
    words = ["lintian", "--allow-root", "--fail-on", "error,warning", *packages]
    ran = subprocess.run(words, stdout=subprocess.PIPE, stderr=subprocess.STDOUT)
    if ran.returncode:
        raise AssertionError(ran.stdout.decode(errors="replace"))


# ---- Where it is tried ----


def in_debian(rows, room, dist, version):
    """All of it, in a Debian of its own."""
    name = f"dadofennel-{version}-linux-{MACHINE}"
    packages = {it: f"/dist/{it}_{version}_amd64.deb" for it in PACKAGES if os.path.exists(f"{dist}/{it}_{version}_amd64.deb")}
    for it in [*packages.values(), f"/dist/{name}.tar.gz"]:
        room.bring(f"{dist}/{os.path.basename(it)}", it)
    room.bring_rows()
    rows.row("a bare Debian has no toolchain and no compiler", is_bare, room)
    if packages:
        rows.row("acsub and libdadofennel1 are installed", room.must, "dpkg", "-i", packages["acsub"], packages["libdadofennel1"])
        rows.row("the program of the package", program_works, room, "acsub", version)
    else:
        rows.leave_out("Debian's packages: the release has none")
    rows.row("the tarball is unpacked", room.must, "tar", "-xzf", f"/dist/{name}.tar.gz", "-C", "/opt")
    rows.row("the program of the tarball", program_works, room, f"/opt/{name}/bin/acsub", version)
    rows.row("a compiler is installed", has, room, *NEEDED)
    if packages:
        rows.row("libdadofennel-dev is installed", room.must, "dpkg", "-i", packages["libdadofennel-dev"])
        rows.row("the package's examples, by pkg-config", by_pkg_config, room, "", "/usr/lib/x86_64-linux-gnu", EXAMPLES, "/built/package")
        rows.row("the package's examples, by CMake", by_cmake, room, "", EXAMPLES, version, "/built/package-cmake")
        rows.row("what the packages bring goes with them", packages_leave_nothing, room, *PACKAGES)
    for prefix in (f"/opt/{name}", "/srv/moved"):
        if prefix == "/srv/moved":
            room.must("mv", f"/opt/{name}", prefix)
        examples = f"{prefix}/share/doc/dadofennel/examples"
        rows.row(f"the examples in {prefix}, by pkg-config", by_pkg_config, room, prefix, f"{prefix}/lib", examples, f"/built{prefix}")
        rows.row(f"the examples in {prefix}, by CMake", by_cmake, room, prefix, examples, version, f"/built{prefix}-cmake")
    python_in_debian(rows, room, dist, version)


def python_in_debian(rows, room, dist, version):
    """The wheel, and the package of Debian that was made of it, by Debian's Python."""
    wheels = glob.glob(f"{dist}/*_{MACHINE}.whl")
    packages = glob.glob(f"{dist}/{PACKAGE}_{version}_amd64.deb")
    if not wheels:
        return rows.leave_out("the wheel in Debian: the release has none")
    for it in wheels + packages:
        room.bring(it, f"/dist/{os.path.basename(it)}")
    room.bring(f"{launch.REPOSITORY}/bindings/python/tests", "/tests")
    rows.row("Python is installed", has, room, *PYTHON)
    rows.row("pip installs the wheel", is_installed_by_pip, room, f"/dist/{os.path.basename(wheels[0])}")
    rows.row("the tests of Python's package, by the wheel", module_works, room, "/venv/bin/python")
    room.must("rm", "-r", "/venv")
    for it in packages:
        rows.row(f"{PACKAGE} is installed", room.must, "dpkg", "-i", f"/dist/{os.path.basename(it)}")
        rows.row(f"the tests of Python's package, by {PACKAGE}", module_works, room, "/usr/bin/python3")
        rows.row(f"what {PACKAGE} brings goes with it", packages_leave_nothing, room, PACKAGE)
    return None


def with_libc_alone(rows, room, dist, version):
    """The program, and examples that were compiled outside."""
    name = f"dadofennel-{version}-linux-{MACHINE}"
    room.bring_rows()
    for path in ("/lib64/ld-linux-x86-64.so.2", "/lib/x86_64-linux-gnu/libc.so.6", "/usr/bin/env"):
        room.bring(path, path)
    os.makedirs(f"{room.folder}/opt", exist_ok=True)
    subprocess.run(["tar", "-xzf", f"{dist}/{name}.tar.gz", "-C", f"{room.folder}/opt"], check=True)
    inside, outside = f"/opt/{name}", f"{room.folder}/opt/{name}"
    rows.row("the program of the tarball", program_works, room, f"{inside}/bin/acsub", version)
    for form, more in (("shared", ["-L", f"{outside}/lib", "-ldadofennel"]), ("archive", [f"{outside}/lib/libdadofennel.a"])):
        os.makedirs(f"{room.folder}/built/{form}")
        for example in ("example", "pieces"):
            source = f"{outside}/share/doc/dadofennel/examples/{example}.c"
            words = ["cc", "-I", f"{outside}/include", source, *more, "-o", f"{room.folder}/built/{form}/{example}"]
            subprocess.run(words, check=True)
        rows.row(f"the examples, {form}", examples_work, room, f"/built/{form}", LD_LIBRARY_PATH=f"{inside}/lib")


def debian(rows, folder, made_before):
    """Makes a bare Debian in a folder. The answer is whether it could."""
    if made_before:
        subprocess.run(["cp", "-a", f"{made_before}/.", folder], check=True)
        return True
    if os.geteuid() or not shutil.which("debootstrap"):
        rows.leave_out("a bare Debian (no debootstrap, or no root to run it): a folder with the C library alone is taken")
        return False
    log = f"{folder}.log"
    with open(log, "w") as file:
        ran = subprocess.run(["debootstrap", "--variant=minbase", SUITE, folder], stdout=file, stderr=file)
    if ran.returncode:
        with open(log) as file:
            last = file.read().strip().splitlines()[-1:]
        rows.leave_out(f"a bare Debian (debootstrap: {last}): a folder with the C library alone is taken")
        shutil.rmtree(folder)
        os.mkdir(folder)
    return ran.returncode == 0


# ---- On what this machine has ----


def version_of(dist):
    """The version of the release in a folder."""
    found = glob.glob(f"{dist}/dadofennel-*-linux-{MACHINE}.tar.gz")
    if len(found) != 1:
        sys.exit(f"release: there is no release in {dist}")
    return re.search(r"dadofennel-(.*)-linux", os.path.basename(found[0]))[1]


def here(rows, dist):
    """The wheel by each Python that is here; the crates and the packages for Node and Go."""
    if glob.glob(f"{dist}/*_{MACHINE}.whl"):
        rows.group("the wheel", release_wheel.tried, dist)
    if glob.glob(f"{dist}/*.crate") and (shutil.which("cargo") or rows.leave_out("the crates (cargo)")):
        rows.group("the crates", release_crates.tried, dist)
    for package in glob.glob(f"{dist}/*.tgz"):
        if shutil.which("node") and shutil.which("npm") or rows.leave_out("the package for Node (node, npm)"):
            rows.group("the package for Node", release_node.tried, package)
    for module in glob.glob(f"{dist}/dadofennel-go-*.tar.gz"):
        library = module.replace("dadofennel-go-", "dadofennel-").replace(".tar.gz", f"-linux-{MACHINE}.tar.gz")
        if shutil.which("go") and shutil.which("pkg-config") or rows.leave_out("the package for Go (go, pkg-config)"):
            with tempfile.TemporaryDirectory(prefix="go-") as folder:
                rows.row("the package for Go", go_works, Here(folder), module, library, folder)


def on_aarch64(rows, dist, version, outer):
    """What is for aarch64, under an emulator, beside the program of this machine."""
    name = f"dadofennel-{version}-linux-{MACHINE}"
    subprocess.run(["tar", "-xzf", f"{dist}/{name}.tar.gz", "-C", outer], check=True)
    release_aarch64.tried(rows, dist, version, outer, f"{outer}/{name}/bin/acsub")
    release_arm64.tried(rows, dist, version, outer)


def tried(dist, made_before):
    """Tries the files of a folder, and returns 1 where something failed."""
    version, rows = version_of(dist), Rows()
    with tempfile.TemporaryDirectory(prefix="release-try-") as outer:
        os.chmod(outer, 0o755)
        folder = f"{outer}/root"
        os.mkdir(folder)
        rows.row("SHA256SUMS", sums_hold, dist)
        rows.row("PROVED", proved_names_all, dist)
        packages = sorted(glob.glob(f"{dist}/*.deb"))
        if packages and (shutil.which("lintian") or rows.leave_out("lintian")):
            rows.row("lintian", lintian_is_clean, packages)
        (in_debian if debian(rows, folder, made_before) else with_libc_alone)(rows, Room(folder), dist, version)
        here(rows, dist)
        on_aarch64(rows, dist, version, outer)
    return rows.ended()


def tried_here(dist):
    """Tries the tar and the wheel on this machine, with a PATH that lacks the toolchain."""
    version, rows = version_of(dist), Rows()
    os.environ["PATH"] = without_toolchain(os.environ["PATH"])
    with tempfile.TemporaryDirectory(prefix="release-try-") as folder:
        room, prefix = Here(folder), f"{folder}/dadofennel-{version}-linux-{MACHINE}"
        room.bring_rows()
        rows.row("SHA256SUMS", sums_hold, dist)
        rows.row("the PATH lacks the toolchain", equal, [it for it in TOOLCHAIN if shutil.which(it)], [])
        rows.row("the tarball is unpacked", room.must, "tar", "-xzf", f"{dist}/{os.path.basename(prefix)}.tar.gz", "-C", folder)
        rows.row("the program of the tarball", program_works, room, f"{prefix}/bin/acsub", version)
        examples = f"{prefix}/share/doc/dadofennel/examples"
        if shutil.which("pkg-config"):
            rows.row("the examples, by pkg-config", by_pkg_config, room, prefix, f"{prefix}/lib", examples, f"{folder}/built")
        else:
            rows.leave_out("the examples (pkg-config)")
        if shutil.which("cmake"):
            rows.row("the examples, by CMake", by_cmake, room, prefix, examples, version, f"{folder}/cmake")
        else:
            rows.leave_out("the examples, by CMake (cmake)")
        for wheel in glob.glob(f"{dist}/*_{MACHINE}.whl"):
            if importlib.util.find_spec("ensurepip") or rows.leave_out("the wheel (ensurepip: Debian's python3-venv)"):
                rows.row("the wheel", wheel_works, room, sys.executable, wheel, f"{folder}/venv")
    return rows.ended()
