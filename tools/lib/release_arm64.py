"""Tries the wheel and the package for Node of a release for aarch64 under qemu-user: by Debian's Python and Node for arm64, which are
unpacked here and not installed."""
import glob
import os
import shutil
import subprocess

import release_files
import release_node
from release_machine import AARCH64
from release_room import Here, equal
from release_rows import number_of, python_works

SUITE = "bookworm"
PROGRAMS = ["python3", "nodejs"]


def system(folder):
    """Unpacks a Debian for arm64 with these programs into a folder."""
    words = ["debootstrap", "--foreign", f"--arch={AARCH64.debian}", "--variant=minbase", f"--include={','.join(PROGRAMS)}", SUITE, folder]
    subprocess.run(words, check=True, stdout=subprocess.DEVNULL, stderr=subprocess.PIPE)
    for package in sorted(glob.glob(f"{folder}/var/cache/apt/archives/*.deb")):
        with subprocess.Popen(["dpkg-deb", "--fsys-tarfile", package], stdout=subprocess.PIPE) as read:
            subprocess.run(["tar", "-x", "--keep-directory-symlink", "-C", folder], stdin=read.stdout, check=True)
        if read.returncode:
            raise AssertionError(f"dpkg-deb can't read {package}")


def unpacked(path, folder):
    """Unpacks a file of the release into a folder."""
    for name, data in release_files.members(path):
        release_files.write(f"{folder}/{name}", data)


def emulated(root, program, **variables):
    """The words that run a program of that Debian."""
    known = {"LD_LIBRARY_PATH": f"{root}/usr/lib/{AARCH64.multiarch}", **variables}
    return ["qemu-aarch64", "-L", root, *(it for name, text in known.items() for it in ("-E", f"{name}={text}")), program]


def wheel_works(room, root, wheel, folder):
    """An example of the package, and those of its tests that start no other program, since nothing emulates that."""
    unpacked(wheel, folder)
    python_works(room, *emulated(root, release_files.only(f"{root}/usr/bin/python3.[0-9]*"), PYTHONPATH=folder))


def node_works(room, root, package, folder, version):
    """The small test that the package's own trial runs."""
    unpacked(package, folder)
    os.makedirs(f"{folder}/node_modules")
    os.rename(f"{folder}/package", f"{folder}/node_modules/dadofennel")
    release_files.write(f"{folder}/tried.js", release_node.TRIED)
    equal(room.must(*emulated(root, f"{root}/usr/bin/node"), "tried.js", folder=folder).strip(), number_of(version))


def tried(rows, dist, version, folder):
    """Tries both, where Debian's Python and Node for arm64 can be had."""
    wheels = glob.glob(f"{dist}/*_{AARCH64.name}.whl")
    packages = [it for it in glob.glob(f"{dist}/*.tgz") if any(f"linux-{AARCH64.node}/" in name for name, _ in release_files.members(it))]
    if not wheels + packages:
        return rows.leave_out("aarch64: the release has no wheel and no addon for Node for it")
    if os.geteuid() or not shutil.which("debootstrap") or not shutil.which("qemu-aarch64"):
        return rows.leave_out("aarch64: the wheel and the package for Node (debootstrap, root to run it, qemu-aarch64)")
    root, room = f"{folder}/arm64", Here(folder)
    if rows.row("aarch64: Debian's Python and Node are unpacked", system, root):
        for it in wheels:
            rows.row("aarch64: the wheel", wheel_works, room, root, it, f"{folder}/wheel")
        for it in packages:
            rows.row("aarch64: the package for Node", node_works, room, root, it, f"{folder}/node", version)
    return None
