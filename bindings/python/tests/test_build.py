"""What builds the package: how the library for C is found, or proved; what a wheel and the sources have; and `pip install`.

usage: python test_build.py [TEST ..]

The last is tried in a copy of the repository's folders, with DADOFENNEL_PREFIX as the library, and without the network.
"""
import contextlib
import email
import glob
import io
import os
import platform
import pty
import shutil
import subprocess
import sys
import tarfile
import tempfile
import unittest
import unittest.mock
import zipfile

HERE = os.path.dirname(os.path.abspath(__file__))
PYTHON = os.path.dirname(HERE)
ROOT = os.path.dirname(os.path.dirname(PYTHON))
PREFIX = os.environ.get("DADOFENNEL_PREFIX")
sys.dont_write_bytecode = True
sys.path.insert(0, f"{PYTHON}/backend")
import dadofennel_library as library  # noqa: E402
import dadofennel_pack as pack  # noqa: E402

WHEN = 1795000000
IN_A_CLONE = unittest.skipUnless(PREFIX and os.path.exists(f"{ROOT}/bindings/c/dadofennel.h"), "no clone, or DADOFENNEL_PREFIX isn't set")


def written(path, text, mode=0o644):
    os.makedirs(os.path.dirname(path), exist_ok=True)
    with open(path, "w") as file:
        file.write(text)
    os.chmod(path, mode)
    return path


def installed(prefix, version, lib="lib"):
    """A folder with a header of a version, and an archive that has nothing."""
    written(f"{prefix}/include/dadofennel.h", f'#define DADO_VERSION "{version}"\n')
    written(f"{prefix}/{lib}/libdadofennel.a", "")
    return prefix


class InAFolder(unittest.TestCase):
    """A test with a folder of its own, and what it sets of the environment for itself."""

    def setUp(self):
        self.room = contextlib.ExitStack()
        self.addCleanup(self.room.close)
        self.folder = self.room.enter_context(tempfile.TemporaryDirectory())
        self.said = io.StringIO()
        self.room.enter_context(contextlib.redirect_stdout(self.said))
        self.set(library, "TERMINAL", f"{self.folder}/terminal")
        self.set(library, "C", f"{self.folder}/c")
        self.set(library, "HERE", f"{self.folder}/python")
        written(f"{self.folder}/c/dadofennel.h", '#define DADO_VERSION "1.2.3"\n')
        written(f"{self.folder}/c/build", "", 0o755)
        kept = {name: it for name, it in os.environ.items() if not name.startswith(("DADOFENNEL", "PKG_CONFIG"))}
        self.room.enter_context(unittest.mock.patch.dict(os.environ, kept, clear=True))
        os.environ["PKG_CONFIG"] = "/nowhere/pkg-config"

    def set(self, where, name, value):
        self.room.enter_context(unittest.mock.patch.object(where, name, value))

    def terminal(self):
        with open(library.TERMINAL) as file:
            return file.read()


class Found(InAFolder):
    """Which library is taken."""

    def test_of_the_environment(self):
        os.environ["DADOFENNEL_PREFIX"] = installed(f"{self.folder}/p", "1.2.3")
        self.assertEqual(library.library(), (f"{self.folder}/p/include", f"{self.folder}/p/lib/libdadofennel.a", "1.2.3"))
        for version in ("1.2.4", "1.10.0", "1.2.3~rc1"):
            installed(f"{self.folder}/p", version)
            self.assertEqual(library.library().version, version)
        for version in ("1.2.2", "1.1.9", "2.0.0", "0.9.9"):
            installed(f"{self.folder}/p", version)
            self.assertRaisesRegex(RuntimeError, f"has the library {version}, and this package needs 1.2.3", library.library)
        os.environ["DADOFENNEL_PREFIX"] = f"{self.folder}/none"
        self.assertRaisesRegex(FileNotFoundError, "none has no include", library.library)

    def test_of_a_machine(self):
        for lib in ("lib/aarch64-linux-gnu", "lib64"):
            prefix = installed(f"{self.folder}/{lib}", "1.2.3", lib)
            self.assertEqual(library.under(prefix, "aarch64").archive, f"{prefix}/{lib}/libdadofennel.a")

    def pkg_config(self, version):
        """What says where such a library is, and that there is no other package."""
        prefix = installed(f"{self.folder}/system", version)
        answers = f'[ "$2" = dadofennel ] || exit 1\ncase $1 in *includedir) echo {prefix}/include ;; *libdir) echo {prefix}/x/../lib ;; esac'
        os.environ["PKG_CONFIG"] = written(f"{self.folder}/pkg-config", f"#!/bin/sh\n{answers}\n", 0o755)
        return prefix

    def test_of_the_system(self):
        prefix = self.pkg_config("1.3.0")
        self.assertEqual(library.library(), (f"{prefix}/include", f"{prefix}/lib/libdadofennel.a", "1.3.0"))
        self.assertIn(f"the system's library is taken: {prefix}/lib/libdadofennel.a, 1.3.0", self.terminal())
        with unittest.mock.patch.dict(os.environ, DADOFENNEL_PREFIX=installed(f"{self.folder}/p", "1.2.3")):
            self.assertEqual(library.library().version, "1.2.3")
        installed(f"{self.folder}/c/out", "1.2.9")
        self.assertEqual(library.library().version, "1.2.9")

    def test_what_the_system_has_and_does_not_serve(self):
        prefix = self.pkg_config("1.2.0")
        with unittest.mock.patch.dict(os.environ, PATH=""):
            self.assertRaisesRegex(FileNotFoundError, "set DADOFENNEL_PREFIX to where it is", library.library)
            self.assertIn("the system's library is 1.2.0, and 1.2.3 is needed", self.said.getvalue())
            os.remove(f"{prefix}/lib/libdadofennel.a")
            self.assertRaises(FileNotFoundError, library.library)
            self.assertIn(f"the system's library has no {prefix}/lib/libdadofennel.a", self.said.getvalue())

    def test_sources_that_are_no_clone(self):
        self.set(library, "HERE", f"{self.folder}/sources")
        written(f"{self.folder}/sources/PKG-INFO", "Metadata-Version: 2.1\nName: dadofennel\nVersion: 1.4.0rc1\n\nVersion: 9\n")
        self.assertEqual((library.needed(), library.is_clone()), ("1.4.0rc1", False))
        installed(f"{self.folder}/c/out", "1.4.0")
        self.assertRaisesRegex(FileNotFoundError, "so that pkg-config finds dadofennel, or set DADOFENNEL_PREFIX", library.library)
        self.pkg_config("1.4.0")
        self.assertEqual(library.library().version, "1.4.0")


class Proved(InAFolder):
    """What is shown while the library is proved."""

    def builds(self, lines):
        body = f"#!/bin/sh\nset -e\n{lines}\nmkdir -p $1/include $1/lib\ncp {self.folder}/c/dadofennel.h $1/include\n: > $1/lib/libdadofennel.a\n"
        written(f"{self.folder}/c/build", body, 0o755)
        written(f"{self.folder}/bin/rt", "#!/bin/sh\n", 0o755)
        os.environ["PATH"] = f"{self.folder}/bin:{os.environ['PATH']}"

    def test_progress(self):
        self.builds("echo == ac_common; echo proved >&2")
        found = library.library()
        self.assertEqual(found.archive, f"{self.folder}/c/out/lib/libdadofennel.a")
        self.assertIn("takes 20 to 60 minutes at first", self.said.getvalue())
        self.assertIn("  0:00 == ac_common\n  0:00 proved\n", self.said.getvalue())
        self.assertTrue(self.terminal().startswith("\n  0:00 "), self.terminal())

    def test_silence(self):
        self.builds("sleep 0.5; echo done")
        library.shown([f"{self.folder}/c/build", f"{self.folder}/c/out"], every=0.2)
        lines = [it.split(None, 1)[1] for it in self.said.getvalue().splitlines()]
        self.assertEqual((lines[0], set(lines)), ("still at work", {"still at work", "done"}))

    def test_a_proof_that_fails(self):
        self.builds("echo refused; exit 3")
        self.assertRaises(subprocess.CalledProcessError, library.library)
        self.assertIn("refused", self.said.getvalue())

    def test_no_toolchain(self):
        os.environ["PATH"] = ""
        self.assertRaisesRegex(FileNotFoundError, "no toolchain that could prove it", library.library)


class Packed(unittest.TestCase):
    """The files of the wheel and of the sources."""

    def test_versions(self):
        for given, expected in (("1.0.0", "1.0.0"), ("1.1.0~rc2", "1.1.0rc2"), ("1.1.0rc2", "1.1.0rc2"), ("1.1.0~beta1", "1.1.0b1"),
                                ("1.1.0-dev", "1.1.0.dev0"), ("1.1.0.dev0", "1.1.0.dev0"), ("1.0.0+deb1.2", "1.0.0+deb1.2"),
                                ("1.0.0~rc1+x", "1.0.0rc1+x")):
            self.assertEqual(pack.public_version(given), expected)
        for wrong in ("1.0", "1.0.0~x", "1.0.0 ", "1.0.0+", "v1.0.0", "1.0.0~rc1~rc2"):
            self.assertRaises(ValueError, pack.public_version, wrong)

    def test_wheel(self):
        contents = [("dadofennel/b.py", b"b", 0o644), ("dadofennel/a.so", b"a", 0o755)]
        made = pack.wheel("1.0.0", "cp38-abi3-x", contents, WHEN)
        self.assertEqual(made, pack.wheel("1.0.0", "cp38-abi3-x", contents[::-1], WHEN))
        with zipfile.ZipFile(io.BytesIO(made)) as archive:
            info = "dadofennel-1.0.0.dist-info"
            self.assertEqual(archive.namelist(), ["dadofennel/a.so", "dadofennel/b.py", f"{info}/LICENSE", f"{info}/METADATA",
                                                  f"{info}/WHEEL", f"{info}/RECORD"])
            self.assertEqual({it.date_time for it in archive.infolist()}, {(2026, 11, 18, 11, 6, 40)})
            self.assertEqual([it.external_attr >> 16 for it in archive.infolist()[:2]], [0o100755, 0o100644])
            record = archive.read(f"{info}/RECORD").decode().splitlines()
            self.assertIn(f"dadofennel/b.py,sha256={sha_of_b()},1", record)
            self.assertEqual((record[-1], len(record)), (f"{info}/RECORD,,", 6))
            self.assertIn("Permission is hereby granted", archive.read(f"{info}/LICENSE").decode())
        self.assertEqual(zipfile.ZipFile(io.BytesIO(pack.wheel("1.0.0", "x", [], 0))).infolist()[0].date_time, (1980, 1, 1, 0, 0, 0))

    def test_metadata(self):
        told = email.message_from_bytes(pack.metadata("1.0.0"))
        self.assertEqual((told["Name"], told["Version"], told["License"], told["Requires-Python"]), ("dadofennel", "1.0.0", "MIT", ">=3.8"))
        self.assertIn("License :: OSI Approved :: MIT License", told.get_all("Classifier"))
        self.assertIn("# dadofennel for Python", told.get_payload())
        try:
            import tomllib
        except ImportError:
            return
        with open(f"{PYTHON}/pyproject.toml", "rb") as file:
            project = tomllib.load(file)["project"]
        self.assertEqual(project["classifiers"], told.get_all("Classifier"))
        self.assertEqual((project["name"], project["description"], project["requires-python"], project["license"]["text"]),
                         (told["Name"], told["Summary"], told["Requires-Python"], told["License"]))
        self.assertEqual(project["authors"], [{"name": told["Author"], "email": pack.EMAIL}])
        self.assertEqual(",".join(project["keywords"]), told["Keywords"])

    def test_sources(self):
        made = pack.sdist("1.0.0", WHEN)
        self.assertEqual(made, pack.sdist("1.0.0", WHEN))
        with tarfile.open(fileobj=io.BytesIO(made)) as archive:
            names = archive.getnames()
            self.assertEqual(names, sorted(names))
            for name in ("PKG-INFO", "LICENSE", "README.md", "pyproject.toml", "backend/dadofennel_build.py", "native/module.c",
                         "dadofennel/py.typed", "dadofennel/_native.pyi", "tests/test_automaton.py"):
                self.assertIn(f"dadofennel-1.0.0/{name}", names)
            self.assertFalse([it for it in names if it.endswith((".so", ".pyc"))])
            self.assertEqual({(it.mtime, it.uid, it.gid, it.uname) for it in archive}, {(WHEN, 0, 0, "root")})
            self.assertEqual({it.mode for it in archive.getmembers()}, {0o644, 0o755})
            told = archive.extractfile("dadofennel-1.0.0/PKG-INFO").read()
        self.assertEqual(told, pack.metadata("1.0.0"))

    def test_every_file_of_the_package_is_packed(self):
        held = {os.path.basename(it) for it in pack.package()}
        there = {it for it in os.listdir(f"{PYTHON}/dadofennel") if not it.endswith((".so", ".pyc")) and it != "__pycache__"}
        self.assertEqual(held, there)


def sha_of_b():
    """The digest of the one byte `b`, as RECORD has it: by another program."""
    ran = subprocess.run("printf b | openssl dgst -sha256 -binary | base64", shell=True, stdout=subprocess.PIPE, check=True)
    return ran.stdout.decode().strip().rstrip("=").translate(str.maketrans("+/", "-_"))


def release():
    """The module that makes the files of a release."""
    with unittest.mock.patch.object(sys, "path", [f"{ROOT}/tools/lib", *sys.path]):
        import release_wheel
    return release_wheel


@IN_A_CLONE
class Released(unittest.TestCase):
    """The files of a release, and the systems that a module is for."""

    def setUp(self):
        self.release = release()
        self.room = tempfile.TemporaryDirectory()
        self.addCleanup(self.room.cleanup)
        self.folder = self.room.name

    def test_both_files(self):
        made = {}
        for turn in "ab":
            os.mkdir(f"{self.folder}/{turn}")
            names = self.release.make(PREFIX, f"{self.folder}/{turn}", "1.0.0~rc1", WHEN, platform.machine())
            made[turn] = {name: pack.read(f"{self.folder}/{turn}/{name}") for name in names}
        self.assertEqual(made["a"], made["b"])
        wheel, sources = names
        self.assertEqual((wheel[:30], sources), ("dadofennel-1.0.0rc1-cp38-abi3-", "dadofennel-1.0.0rc1.tar.gz"))
        self.release.record_holds(None, f"{self.folder}/a/{wheel}")
        with zipfile.ZipFile(f"{self.folder}/a/{wheel}") as archive:
            path = archive.extract(pack.MODULE, self.folder)
            told = email.message_from_bytes(archive.read("dadofennel-1.0.0rc1.dist-info/WHEEL"))
        self.assertEqual(wheel, f"dadofennel-1.0.0rc1-{told['Tag']}.whl")
        sections = subprocess.run(["readelf", "-S", "--wide", path], stdout=subprocess.PIPE, check=True).stdout.decode()
        self.assertNotIn(".symtab", sections)
        self.assertNotIn(".debug", sections)

    def module(self, source, *more):
        with open(f"{self.folder}/it.c", "w") as file:
            file.write(source)
        words = ["cc", "-shared", "-fPIC", "-fvisibility=hidden", f"{self.folder}/it.c", "-o", f"{self.folder}/it.so", *more]
        subprocess.run(words, check=True)
        return f"{self.folder}/it.so"

    def test_systems(self):
        """The symbol of the newest glibc decides; what no such system has is refused, and so is a module that shows more."""
        shown = '__attribute__((visibility("default"))) '
        plain, machine = f"#include <string.h>\nint n; {shown}void PyInit__native(char *p) {{ n = strlen(p); }}", platform.machine()
        self.assertEqual(self.release.platform_of(self.module(plain), machine), f"manylinux2014_{machine}")
        with unittest.mock.patch.object(self.release, "glibc_of", lambda *_: (2, 30)):
            self.assertEqual(self.release.platform_of(self.module(plain), machine), f"manylinux_2_30_{machine}")
        for table, expected in (("GLIBC_2.2.5) strlen\n (GLIBC_2.14) memcpy", (2, 14)), ("GLIBC_2.9 a\nGLIBC_2.34 b", (2, 34))):
            with unittest.mock.patch.object(self.release, "said_by", lambda *_: table):
                self.assertEqual(self.release.glibc_of("x", machine), expected)
        more = self.module(f"{plain} {shown}int other;")
        self.assertRaisesRegex(ValueError, "shows other", self.release.platform_of, more, machine)
        subprocess.run(["cc", "-shared", "-o", f"{self.folder}/libelse.so", "-xc", "/dev/null"], check=True)
        more = self.module(plain, "-Wl,--no-as-needed", f"-L{self.folder}", "-lelse")
        self.assertRaisesRegex(ValueError, "needs libelse.so", self.release.platform_of, more, machine)


@IN_A_CLONE
class Installed(unittest.TestCase):
    """`pip install` of a copy of the clone."""

    def setUp(self):
        self.room = tempfile.TemporaryDirectory()
        self.addCleanup(self.room.cleanup)
        self.folder = self.room.name
        ignored = shutil.ignore_patterns("*.so", "__pycache__", "out")
        shutil.copytree(PYTHON, f"{self.folder}/bindings/python", ignore=ignored)
        shutil.copytree(f"{ROOT}/bindings/c", f"{self.folder}/bindings/c", ignore=ignored)
        shutil.copy(f"{ROOT}/LICENSE", self.folder)
        subprocess.run([sys.executable, "-m", "venv", "--without-pip", f"{self.folder}/venv"], check=True)
        kept = {name: it for name, it in os.environ.items() if not name.startswith(("DADOFENNEL", "PKG_CONFIG", "PYTHON", "PIP_"))}
        self.environment = dict(kept, PKG_CONFIG="/nowhere", PYTHONDONTWRITEBYTECODE="1")
        self.with_pip = dict(self.environment, PYTHONPATH=release().bundled_pip(sys.executable))

    def pip(self, *words, **variables):
        command = [f"{self.folder}/venv/bin/python", "-m", "pip", "install", "-q", "--no-index", "--disable-pip-version-check", *words]
        ran = subprocess.run(command, stdout=subprocess.PIPE, stderr=subprocess.STDOUT, env=dict(self.with_pip, **variables))
        self.assertEqual(ran.returncode, 0, ran.stdout.decode())

    def python(self, program):
        ran = subprocess.run([f"{self.folder}/venv/bin/python", "-c", program], stdout=subprocess.PIPE, stderr=subprocess.STDOUT,
                             cwd=self.folder, env=self.environment)
        self.assertEqual(ran.returncode, 0, ran.stdout.decode())
        return ran.stdout.decode().strip()

    def test_editable(self):
        self.pip("-e", f"{self.folder}/bindings/python", DADOFENNEL_PREFIX=PREFIX)
        find = "import dadofennel; print(dadofennel.__file__, dadofennel.Automaton(['fox']).find('a fox').span)"
        self.assertEqual(self.python(find), f"{self.folder}/bindings/python/dadofennel/__init__.py (2, 5)")
        with open(f"{self.folder}/bindings/python/dadofennel/__init__.py", "a") as file:
            file.write("\nchanged = 7\n")
        self.assertEqual(self.python("import dadofennel; print(dadofennel.changed)"), "7")
        self.assertEqual(glob.glob(f"{self.folder}/venv/lib/python3*/site-packages/dadofennel/*"), [])

    def test_progress_on_the_terminal(self):
        """pip hides what a build writes, so the terminal is told."""
        fake = f"#!/bin/sh\nsleep 0.1\necho == ac_of_the_test\nmkdir -p $1\ncp -a {PREFIX}/. $1\n"
        written(f"{self.folder}/bindings/c/build", fake, 0o755)
        written(f"{self.folder}/bin/rt", "#!/bin/sh\n", 0o755)
        command = [f"{self.folder}/venv/bin/python", "-m", "pip", "install", "--no-index", "--disable-pip-version-check",
                   f"{self.folder}/bindings/python"]
        child, terminal = pty.fork()
        if child == 0:
            os.execvpe(command[0], command, dict(self.with_pip, PATH=f"{self.folder}/bin:{os.environ['PATH']}"))
        shown = b""
        with contextlib.suppress(OSError):
            while True:
                shown += os.read(terminal, 4096)
        os.close(terminal)
        self.assertEqual(os.waitpid(child, 0)[1], 0, shown.decode())
        for line in (b"no library was found", b"takes 20 to 60 minutes", b"0:00 == ac_of_the_test", b"Successfully installed dadofennel"):
            self.assertIn(line, shown)
        self.assertEqual(self.python("import dadofennel; print(dadofennel.Automaton(['a']).is_match('a'))"), "True")


if __name__ == "__main__":
    unittest.main()
