"""Where the files of a release are tried: rows that say how each thing ended, and folders that programs run in as their root."""
import os
import shutil
import subprocess

import launch

CRATE = f"{launch.REPOSITORY}/crates/acsub"
TOOLCHAIN = ("rt", "rattle")
COMPILERS = ("cc", "gcc", "clang")
ENVIRONMENT = {"PATH": "/usr/sbin:/usr/bin:/sbin:/bin", "LC_ALL": "C", "DEBIAN_FRONTEND": "noninteractive", "HOME": "/"}
# goes into a folder as root, with what the system tells of processes where that may be had: for this command alone
CHANGE = '[ ! -d "$0/proc" ] || mount -t proc proc "$0/proc" 2> /dev/null; exec chroot "$0" "$@"'
RULES = "fox\tsloth\nbrown\tgrey\nquick\tslow\n"


class Rows:
    """What was tried, and how it ended."""

    def __init__(self):
        self.passed, self.failed, self.absent = 0, 0, 0

    def row(self, name, call, *words, **how):
        """Tries one thing, and says how it ended. The answer is whether it ended well."""
        try:
            call(*words, **how)
            self.passed += 1
            print(f"ok      {name}", flush=True)
            return True
        except (AssertionError, OSError, subprocess.SubprocessError) as error:
            self.failed += 1
            print(f"FAILED  {name}\n{error}", flush=True)
            return False

    def group(self, name, call, *words):
        """Tries what another module tries: it prints a row for each thing, and returns how many passed and how many failed; or it returns
        a line for each thing that passed, or nothing where that was one thing, and fails as a row does."""
        try:
            told = call(*words)
        except (AssertionError, OSError, ValueError, subprocess.SubprocessError) as error:
            self.failed += 1
            print(f"FAILED  {name}\n{error}", flush=True)
            return
        if isinstance(told, tuple):
            self.passed, self.failed = self.passed + told[0], self.failed + told[1]
            return
        lines = [name] if told is None else told
        self.passed += len(lines)
        for line in lines:
            print(f"ok      {line}", flush=True)

    def leave_out(self, what):
        self.absent += 1
        print(f"left out: {what}", flush=True)

    def ended(self):
        """Says how many passed, and returns the status."""
        print(f"{self.passed} passed, {self.failed} failed, {self.absent} left out")
        return 1 if self.failed or not self.passed else 0


class Room:
    """A folder that programs run in as their root."""

    rows = "/rows"

    def __init__(self, folder):
        self.folder = folder

    def ran(self, words, given, folder, variables):
        """Runs a command there, by its place below the root."""
        begin = ["env", "--chdir", folder] if folder != "/" else []
        change = ["unshare", "--mount", "sh", "-c", CHANGE, self.folder] if os.geteuid() == 0 else ["unshare", "-r", "chroot", self.folder]
        how = {"input": given, "stdout": subprocess.PIPE, "stderr": subprocess.PIPE, "env": {**ENVIRONMENT, **variables}}
        return subprocess.run([*change, *begin, *words], **how)

    def run(self, *words, given="", folder="/", **variables):
        """Runs a command, and returns what it wrote, what it said and its status."""
        ran = self.ran(words, given.encode(), folder, variables)
        return ran.stdout.decode(errors="replace"), ran.stderr.decode(errors="replace"), ran.returncode

    def must(self, *words, **how):
        """The same, where it has to end well."""
        wrote, said, status = self.run(*words, **how)
        if status:
            raise AssertionError(f"{' '.join(words)}: status {status}: {(wrote + said).strip()[-900:]}")
        return wrote

    def bring(self, path, to):
        os.makedirs(os.path.dirname(f"{self.folder}{to}"), exist_ok=True)
        (shutil.copytree if os.path.isdir(path) else shutil.copy)(path, f"{self.folder}{to}")

    def write(self, path, text):
        with open(f"{self.folder}{path}", "w") as file:
            file.write(text)

    def bring_rows(self):
        """Brings the rows of the program: the data of the stored run, and rules as plain text."""
        self.bring(f"{CRATE}/data", self.rows)
        self.write(f"{self.rows}/words.tsv", RULES)


class Here(Room):
    """This machine, with a folder to write to. Paths are those of the machine, and the PATH is that of this process."""

    def __init__(self, folder):
        super().__init__("")
        self.rows = f"{folder}/rows"

    def ran(self, words, given, folder, variables):
        how = {"input": given, "stdout": subprocess.PIPE, "stderr": subprocess.PIPE, "env": {**os.environ, "LC_ALL": "C", **variables}}
        return subprocess.run(words, cwd=folder, **how)


def without_toolchain(path):
    """A PATH without the folders in which the toolchain is."""
    return os.pathsep.join(it for it in path.split(os.pathsep) if not any(os.path.lexists(f"{it}/{name}") for name in TOOLCHAIN))


def equal(left, right):
    if left != right:
        raise AssertionError(f"{left[:300]!r} is not {right[:300]!r}")
