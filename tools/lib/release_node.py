"""The package for Node of a release: a file that npm installs without a compiler and without a network."""
import gzip
import io
import json
import os
import shutil
import subprocess
import tarfile
import tempfile

ROOT = os.path.dirname(os.path.dirname(os.path.dirname(os.path.abspath(__file__))))
PACKAGE = f"{ROOT}/bindings/node"

# Where each file of the package comes from, but for package.json and the addons.
FILES = {
    "LICENSE": f"{ROOT}/LICENSE",
    "README.md": f"{PACKAGE}/README.md",
    "index.d.ts": f"{PACKAGE}/index.d.ts",
    "index.js": f"{PACKAGE}/index.js",
}

TRIED = """\
const assert = require('node:assert');
const { once } = require('node:events');
const { Worker } = require('node:worker_threads');
const { Automaton, version } = require('dadofennel');

async function run() {
  const ac = new Automaton(['fox', 'brown', 'quick', '\\u00e9']);
  assert.strictEqual(ac.replace('The quick brown fox.', ['sloth', 'grey', 'slow', 'e']), 'The slow grey sloth.');
  assert.deepStrictEqual(ac.findAll('\\u{1f98a}\\u00e9 fox'), [{ pattern: 3, start: 2, end: 3 }, { pattern: 0, start: 4, end: 7 }]);
  assert.strictEqual((await ac.findAllAsync('fox '.repeat(5000))).length, 5000);
  assert.strictEqual(new Automaton([Buffer.from('hunter2')]).mask(Buffer.from('a hunter2')).toString(), 'a *******');
  assert.strictEqual((await import('dadofennel')).Automaton, Automaton);
  const source = "const { Automaton } = require('dadofennel');" +
    "require('node:worker_threads').parentPort.postMessage(new Automaton(['a']).isMatch('cab'))";
  assert.deepStrictEqual(await once(new Worker(source, { eval: true }), 'message'), [true]);
  console.log(version);
}

run();
"""


def version_of_npm(version):
    """A version as npm has it: 1.0.0-rc1 for 1.0.0~rc1."""
    return version.replace("~", "-")


def described(prefixes, version):
    """The text of package.json."""
    with open(f"{PACKAGE}/package.json") as file:
        held = json.load(file)
    held["version"] = version_of_npm(version)
    held["cpu"] = sorted(prefixes)
    return json.dumps(held, indent=2) + "\n"


def contents(prefixes, version):
    """The bytes of each file, by its path in the package."""
    paths = dict(FILES)
    paths.update({f"lib/{it}": f"{PACKAGE}/lib/{it}" for it in os.listdir(f"{PACKAGE}/lib")})
    paths.update({f"prebuilds/linux-{arch}/dadofennel.node": path for arch, path in prefixes.items()})
    held = {"package.json": described(prefixes, version).encode()}
    for name, path in paths.items():
        with open(path, "rb") as file:
            held[name] = file.read()
    return held


def make(prefixes, dist, version, when):
    """Writes dadofennel-V.tgz to a folder, and returns its path. `prefixes` has the addon that bindings/node/build made, by processor as
    Node names it: x64, arm64. `when` is the time of all files, in seconds."""
    out = io.BytesIO()
    with tarfile.open(fileobj=out, mode="w", format=tarfile.USTAR_FORMAT) as archive:
        for name, data in sorted(contents(prefixes, version).items()):
            it = tarfile.TarInfo(f"package/{name}")
            it.size, it.mtime, it.mode = len(data), when, 0o644
            archive.addfile(it, io.BytesIO(data))
    path = f"{dist}/dadofennel-{version}.tgz"
    with open(path, "wb") as file, gzip.GzipFile("", "wb", 9, file, mtime=0) as packed:
        packed.write(out.getvalue())
    return path


def lacks():
    """What isn't there that `tried` needs, or nothing."""
    return [it for it in ("node", "npm") if not shutil.which(it)]


def ran(words, folder, **variables):
    """What a command writes in a folder. It is an AssertionError where the command fails."""
    environment = {**os.environ, "HOME": folder, "npm_config_cache": f"{folder}/cache", "npm_config_update_notifier": "false", **variables}
    for name in ("NODE_PATH", "NODE_OPTIONS"):
        environment.pop(name, None)
    it = subprocess.run(words, cwd=folder, env=environment, stdout=subprocess.PIPE, stderr=subprocess.STDOUT)
    said = it.stdout.decode(errors="replace")
    if it.returncode:
        raise AssertionError(f"{' '.join(words)}: {said.strip()[-900:]}")
    return said


def tried(tgz):
    """Installs the package in an empty folder, without a network, and runs a small test there. What is wrong is an AssertionError."""
    with tempfile.TemporaryDirectory(prefix="node-try-") as folder:
        ran(["npm", "install", "--offline", "--no-audit", "--no-fund", os.path.abspath(tgz)], folder)
        with open(f"{folder}/node_modules/dadofennel/package.json") as file:
            version = json.load(file)["version"]
        with open(f"{folder}/tried.js", "w") as file:
            file.write(TRIED)
        said = ran(["node", "tried.js"], folder).strip()
        if not version.startswith(said):
            raise AssertionError(f"the package is {version}, and its library {said}")
