"""What of a release is tried in a room: the program, and the examples of the library for C."""
import os
import re

import launch
from release_room import CRATE, equal

CMAKE = """\
cmake_minimum_required(VERSION 3.13)
project(examples C)
find_package(dadofennel {version} REQUIRED)
foreach(example IN ITEMS example pieces)
    foreach(form IN ITEMS dadofennel static)
        add_executable(${{example}}_${{form}} {examples}/${{example}}.c)
        target_link_libraries(${{example}}_${{form}} PRIVATE dadofennel::${{form}})
    endforeach()
endforeach()
"""

SHOWN = """\
from dadofennel import Automaton
ac = Automaton(["fox", "brown", "quick"])
assert ac.replace("The quick brown fox.", ["sloth", "grey", "slow"]) == "The slow grey sloth."
assert ac.replace("Der quick brown fox: \u20ac", ["sloth", "grey", "slow"]) == "Der slow grey sloth: \u20ac"
"""

LISTED = "2 4 9\n1 10 15\n0 16 19\nThe slow grey sloth.\n"
GIVEN = "The quick fox in the foxglove.\n" * 3000
PIECES = GIVEN.replace("quick", "slow").replace("foxglove", "rose").replace("fox", "sloth")


def number_of(version):
    """The version that programs say: 1.0.0 of 1.0.0~rc1."""
    return re.match(r"[0-9.]+", version)[0]


def program_works(room, program, version):
    """The stored run of the program, a row of each mode, a long run, and a fault."""
    with open(f"{CRATE}/stdin") as given, open(f"{CRATE}/stdout") as expected, open(f"{CRATE}/args") as words:
        equal(room.must(program, *words.read().split(), given=given.read(), folder=room.rows), expected.read())
    equal(room.must(program, "--version").strip(), f"acsub {number_of(version)}")
    text = "The quick brown fox.\n"
    for mode, shown in (("replace", "The slow grey sloth.\n"), ("list", "2 4 9\n1 10 15\n0 16 19\n"), ("mask", "The ***** ***** ***.\n")):
        equal(room.must(program, mode, "words.tsv", "--text", given=text, folder=room.rows), shown)
    many = room.must(program, "replace", "words.tsv", "--text", "--kind", "leftmost-longest", "--stream", given=text * 20000, folder=room.rows)
    equal(many, "The slow grey sloth.\n" * 20000)
    wrote, said, status = room.run(program, "list", "no-such-file", "--text", folder=room.rows)
    if status == 0 or wrote or len(said.splitlines()) != 1:
        raise AssertionError(f"a fault: status {status}, {said!r}")


def examples_work(room, folder, *by, **variables):
    """What the two examples write, run by these words."""
    equal(room.must(*by, f"{folder}/example", **variables), LISTED)
    equal(room.must(*by, f"{folder}/pieces", given=GIVEN, **variables), PIECES)


def compile_all(room, how, examples, folder, **variables):
    """Compiles both examples to a folder: by the words for pkg-config, and by further ones for the compiler."""
    room.must("mkdir", "-p", folder)
    for name in ("example", "pieces"):
        words = room.must("pkg-config", *how[0], "dadofennel", **variables).split()
        room.must("cc", "-std=c99", "-Wall", "-Werror", "-o", f"{folder}/{name}", f"{examples}/{name}.c", *words, *how[1])


def by_pkg_config(room, prefix, lib, examples, out, **variables):
    """Shared, with the archive, and with the C library's archive too."""
    if prefix:
        variables["PKG_CONFIG_PATH"] = f"{lib}/pkgconfig"
    found = {"LD_LIBRARY_PATH": lib} if prefix else {}
    compile_all(room, (["--cflags", "--libs"], []), examples, f"{out}/shared", **variables)
    examples_work(room, f"{out}/shared", **found)
    compile_all(room, (["--cflags"], [f"{lib}/libdadofennel.a"]), examples, f"{out}/archive", **variables)
    examples_work(room, f"{out}/archive")
    compile_all(room, (["--static", "--cflags", "--libs"], ["-static"]), examples, f"{out}/static", **variables)
    examples_work(room, f"{out}/static")


def by_cmake(room, prefix, examples, version, out):
    room.must("mkdir", "-p", out)
    room.write(f"{out}/CMakeLists.txt", CMAKE.format(version=number_of(version), examples=examples))
    room.must("cmake", "-S", out, "-B", f"{out}/made", *([f"-DCMAKE_PREFIX_PATH={prefix}"] if prefix else []))
    room.must("cmake", "--build", f"{out}/made")
    for form in ("dadofennel", "static"):
        equal(room.must(f"{out}/made/example_{form}"), LISTED)
        equal(room.must(f"{out}/made/pieces_{form}", given=GIVEN), PIECES)


def python_works(room, *python):
    """An example of Python's package, and its tests by the names of pyahocorasick, run by these words."""
    room.must(*python, "-B", "-W", "error", "-c", SHOWN)
    room.must(*python, "-B", "-W", "error", f"{launch.REPOSITORY}/bindings/python/tests/test_ahocorasick.py", CASES="100")


def wheel_works(room, python, wheel, folder):
    """A wheel in a new environment of a Python, with no index of packages."""
    room.must(python, "-m", "venv", folder)
    room.must(f"{folder}/bin/pip", "install", "--quiet", "--no-index", "--no-deps", "--disable-pip-version-check", wheel)
    python_works(room, f"{folder}/bin/python")


def go_works(room, module, library, folder):
    """The tests of the package for Go, over the library of the tar: with no network, and without this repository."""
    room.must("tar", "-xzf", module, "-C", folder)
    room.must("tar", "-xzf", library, "-C", folder)
    name, prefix = (f"{folder}/{os.path.basename(it)[:-len('.tar.gz')]}" for it in (module, library))
    variables = {"PKG_CONFIG_PATH": f"{prefix}/lib/pkgconfig", "LD_LIBRARY_PATH": f"{prefix}/lib", "GOCACHE": f"{folder}/cache"}
    variables.update(GOPROXY="off", GOFLAGS="-count=1", GOTOOLCHAIN="local", GOWORK="off", CASES="200")
    room.must("go", "vet", "./...", folder=name, **variables)
    room.must("go", "test", "./...", folder=name, **variables)
