"""Files through `acsub` on the workers of a Dask cluster: `python -m dadofennel.dask`, or the functions here, which take a client.

A file is cut at line ends into pieces, each goes through `acsub` on some worker, and what they write is put together: the bytes of one
run over the whole file. Where cutting can't be right, a file is one piece (`whole_because`). Places of a list count from the file's
beginning.

Each worker needs this package and `acsub`. All workers and the client see the inputs and the folder for the outputs by the same
paths. A worker that dies has its pieces done again by others; that is Dask's work. An output appears under its name when it is
complete, and not at all where something fails: until then it is a file of a hidden folder beside it, which is removed in the end.
"""
import argparse
import errno
import os
import shutil
import signal
import stat
import subprocess
import sys
import tempfile
import threading
import time
import uuid
from contextlib import suppress
from typing import IO, Any, Callable, Dict, Iterator, List, NamedTuple, Optional, Sequence, Tuple, Union

PIECE = 256 << 20
"""About how many bytes a piece has."""

BLOCK = 1 << 20
"""How many bytes are copied at once."""

MILLION = 1000000

MODES = ("replace", "list", "overlap", "mask")

Progress = Callable[[int, int], None]
"""What is told how many bytes are done, and of how many."""


class Fault(Exception):
    """A run that failed: a line that says why, and the status of `acsub`, or 1 where that isn't at fault."""

    def __init__(self, line: str, status: int = 1) -> None:
        super().__init__(line, status)
        self.line, self.status = line, status

    def __str__(self) -> str:
        return self.line


def replace(client: Any, rules: str, inputs: Sequence[str], out: str, **how: Any) -> List[str]:
    """`run` with the mode `replace`."""
    return run(client, "replace", rules, inputs, out, **how)


def matches(client: Any, rules: str, inputs: Sequence[str], out: str, **how: Any) -> List[str]:
    """`run` with the mode `list`."""
    return run(client, "list", rules, inputs, out, **how)


def overlapping(client: Any, rules: str, inputs: Sequence[str], out: str, **how: Any) -> List[str]:
    """`run` with the mode `overlap`."""
    return run(client, "overlap", rules, inputs, out, **how)


def masks(client: Any, rules: str, inputs: Sequence[str], out: str, **how: Any) -> List[str]:
    """`run` with the mode `mask`."""
    return run(client, "mask", rules, inputs, out, **how)


def run(
    client: Any, mode: str, rules: str, inputs: Sequence[str], out: str, *, options: Sequence[str] = (), piece: int = PIECE,
    acsub: str = "acsub", progress: Optional[Progress] = None,
) -> List[str]:
    """Writes to the folder `out`, for each input under its own name, what `acsub MODE RULES` with these options writes of it.

    `client` is a `distributed.Client`. `piece` is about how many bytes a piece has: it ends after the line at that place. `acsub` is
    the program, as the workers find it. `progress` is called with how many bytes are done, and of how many.

    Returns the paths of what was written. Raises `Fault` where `acsub` refuses the rules or the options, or fails; where an input
    isn't a file, or has changed; or where two outputs would have one name. What stood there under that name stays then. An
    output that was complete before stays, too.
    """
    if mode not in MODES:
        raise ValueError(f"mode is one of {', '.join(MODES)}, not {mode!r}")
    if piece < 1:
        raise ValueError("a piece has at least one byte")
    rules = os.fspath(rules)
    files = _files(inputs, out)
    os.makedirs(out, exist_ok=True)
    room = tempfile.mkdtemp(prefix=".dadofennel-", dir=os.path.abspath(out))
    try:
        # all workers read one copy of the rules, even where the file changes during the run
        kept = os.path.join(room, "rules")
        _copied(rules, kept)
        words = (acsub, mode, kept, *options)
        try:
            client.submit(_try_words, words, pure=False).result()
        except ImportError as error:
            raise Fault(f"a worker lacks this package: {error}") from None
        with open(kept, "rb") as file:
            text = file.read()
        longest = max(map(len, _patterns(text, "--text" in options)), default=0)
        whole = whole_because(text, options)
        return _Run(client, words, longest, files, room, None if whole else piece, progress).outputs()
    finally:
        shutil.rmtree(room, ignore_errors=True)


def whole_because(rules: bytes, options: Sequence[str]) -> Optional[str]:
    """Why a file must be one piece with these rules and options of `acsub`, or None where it may be cut at line ends.

    No match lies across a line's end where no pattern has a byte that matches the line feed. A walk then does on both sides what it
    does in the whole, under each kind; that is proved (`walk_splits_after_unused`). An empty pattern would match on both sides of a
    cut.
    """
    ends = {10}
    for option, value in zip(options, options[1:]):
        if option == "--pairs":
            pairs = bytes.fromhex(value)
            ends.update(b if a == 10 else a for a, b in zip(pairs[::2], pairs[1::2]) if 10 in (a, b))
    for pattern in _patterns(rules, "--text" in options):
        if not pattern:
            return "a pattern is empty"
        if not ends.isdisjoint(pattern):
            return "a pattern holds a line feed, or the byte that --pairs makes it match"
    return None


def _patterns(rules: bytes, text: bool) -> Iterator[bytes]:
    """The patterns of a rule file that `acsub` accepts."""
    for line in rules.splitlines() if not text else rules.split(b"\n"):
        pattern, tab, _ = line.partition(b"\t")
        if not text:
            yield bytes.fromhex(pattern.decode())
        elif line:
            yield pattern if tab or not pattern.endswith(b"\r") else pattern[:-1]


# ---- the inputs


class _File:
    """An input, and how far its output is."""

    def __init__(self, path: str, target: str) -> None:
        self.path, self.target = os.path.abspath(path), target
        try:
            about = os.stat(path)
        except OSError as error:
            raise Fault(f"{path}: {error.strerror}") from None
        if not stat.S_ISREG(about.st_mode):
            raise Fault(f"{path}: is not a file")
        self.size, self.changed = about.st_size, about.st_mtime_ns
        self.made: Dict[int, "_Made"] = {}
        self.pieces, self.begun, self.copied, self.length = 1, 0, 0, 0
        self.whole = ""

    def check(self) -> None:
        """Raises a fault where the input isn't what it was."""
        with suppress(OSError):
            about = os.stat(self.path)
            if (about.st_size, about.st_mtime_ns) == (self.size, self.changed):
                return
        raise Fault(f"{self.path}: has changed while it was read")


def _files(inputs: Sequence[str], out: str) -> List[_File]:
    targets: Dict[str, str] = {}
    files = []
    for path in inputs:
        target = os.path.join(os.path.abspath(out), os.path.basename(path))
        if target in targets:
            raise Fault(f"{path}: would be written to the same file as {targets[target]}")
        targets[target] = path
        file = _File(path, target)
        if os.path.exists(target) and os.path.samefile(path, target):
            raise Fault(f"{path}: is in the folder for the outputs")
        files.append(file)
    return files


def _copied(source: str, target: str) -> None:
    try:
        shutil.copyfile(source, target)
    except OSError as error:
        raise Fault(f"{source}: {error.strerror}", 3) from None


# ---- the client's side


class _Run:
    """A run over some files: which pieces are at work, which are made, and what was put together of them.

    A piece is written to a file of its own, whose name its worker chooses, so what a worker still writes that was taken for
    dead is never used. The first piece of an input becomes its output; the others are appended to it by workers, each as soon as
    all before it are made, so that their places are known.
    """

    def __init__(
        self, client: Any, words: Tuple[str, ...], longest: int, files: List[_File], room: str, piece: Optional[int],
        progress: Optional[Progress],
    ) -> None:
        self.client, self.words, self.files, self.room, self.progress = client, words, files, room, progress
        self.total, self.done = sum(file.size for file in files), 0
        self.at_work: Dict[Any, Tuple[_File, int, Optional[_Made]]] = {}
        for file in files:
            step = piece or max(file.size, 1)
            starts = range(0, file.size, step) or range(1)
            file.pieces = len(starts)
            for number, start in enumerate(starts):
                span = _Span(file.path, start, min(start + step, file.size), file.size)
                self.at_work[client.submit(_make, words, longest, span, room, pure=False)] = (file, number, None)

    def outputs(self) -> List[str]:
        """Waits until all is done."""
        from distributed import as_completed
        self.told(0)
        waiting = as_completed(list(self.at_work))
        try:
            for future in waiting:
                result = future.result()
                file, number, copied = self.at_work.pop(future)
                future.release()
                if copied is None:
                    file.made[number] = result
                    self.told(min(result.stop, file.size) - result.start)
                else:
                    file.copied += 1
                    os.unlink(copied.path)
                for more in self.placed(file):
                    waiting.add(more)
                if file.copied == file.pieces - 1 and file.begun == file.pieces:
                    file.check()
                    os.replace(file.whole, file.target)
        finally:
            self.client.cancel(list(self.at_work))
        return [file.target for file in self.files]

    def placed(self, file: _File) -> Iterator[Any]:
        """Submits the copying of each piece of which the place is known by now."""
        while file.begun in file.made:
            made = file.made.pop(file.begun)
            if file.begun == 0:
                file.whole = made.path
            else:
                # ahead of the pieces that are still to be made: so they don't all wait on the disk at once
                future = self.client.submit(_append, made.path, file.whole, file.length, pure=False, priority=1)
                self.at_work[future] = (file, file.begun, made)
                yield future
            file.length += made.length
            file.begun += 1

    def told(self, more: int) -> None:
        self.done += more
        if self.progress:
            self.progress(self.done, self.total)


# ---- the workers' side


class _Span(NamedTuple):
    """A part of a file of this size: the lines that start from `start` on and before `stop`."""

    path: str
    start: int
    stop: int
    size: int


class _Made(NamedTuple):
    """What was written of a span, and how much."""

    path: str
    length: int
    start: int
    stop: int


def _started(words: Sequence[str], **how: Any) -> "subprocess.Popen[bytes]":
    try:
        return subprocess.Popen(list(words), stderr=subprocess.PIPE, **how)
    except OSError as error:
        raise Fault(f"{words[0]}: {error.strerror} on a worker: install acsub there, or say where it is (--acsub)") from None


def _ended(child: "subprocess.Popen[bytes]", what: str) -> None:
    """Waits for a run, and raises its fault if it has one."""
    assert child.stderr
    with child.stderr:
        said = child.stderr.read().decode(errors="replace").strip()
    status = child.wait()
    if status:
        raise Fault(f"{what}{said or f'acsub ended with status {status}'}", status if status > 0 else 1)


def _try_words(words: Sequence[str]) -> None:
    """Runs over no text, so that bad words and rules are refused once."""
    _ended(_started(words, stdin=subprocess.DEVNULL, stdout=subprocess.DEVNULL), "")


def _make(words: Sequence[str], longest: int, span: _Span, room: str) -> _Made:
    """Runs `acsub` over the lines of a span. The longest pattern has `longest` bytes."""
    path = os.path.join(room, uuid.uuid4().hex)
    with open(span.path, "rb", buffering=0) as file, open(path, "wb") as out:
        low = _line_start(file.fileno(), span.start, span.stop)
        if low is not None:
            high = _line_start(file.fileno(), span.stop, span.size) if span.stop < span.size else span.size
            _through(words, longest, file, low, span.size if high is None else high, out)
    return _Made(path, os.path.getsize(path), span.start, span.stop)


def _line_start(file: int, at: int, end: int) -> Optional[int]:
    """The first place from `at` on and before `end` at which a line starts: 0, or after a line feed."""
    if at == 0:
        return 0
    place, last = at - 1, end - 1
    while place < last:
        block = os.pread(file, min(BLOCK, last - place), place)
        if not block:
            return None
        found = block.find(b"\n")
        if found >= 0:
            return place + found + 1
        place += len(block)
    return None


def _through(words: Sequence[str], longest: int, file: IO[bytes], low: int, high: int, out: IO[bytes]) -> None:
    """Runs `acsub` over these bytes of a file. Where it lists, the places are moved to where they lie in the file.

    Line feeds before these bytes, which no pattern has, make them start a whole number of millions from their place in the file. So
    nearly all places are moved by a change of their first digits.
    """
    moved = words[1] in ("list", "overlap") and low > 0
    child = _started(words, stdin=subprocess.PIPE, stdout=subprocess.PIPE if moved else out)
    assert child.stdin
    fed: List[Union[int, OSError]] = []
    feeder = threading.Thread(target=_feed, args=(child.stdin, low % MILLION if moved else 0, file, low, high, fed))
    feeder.start()
    try:
        if moved:
            assert child.stdout
            with child.stdout:
                _move(child.stdout, low // MILLION, longest, out)
        feeder.join()
        _ended(child, f"{file.name}: ")
    except BaseException:
        child.kill()
        child.wait()
        feeder.join()
        raise
    if isinstance(fed[0], OSError):
        raise Fault(f"{file.name}: {fed[0].strerror}")
    if fed[0] != high - low:
        raise Fault(f"{file.name}: has changed while it was read")


def _feed(pipe: IO[bytes], feeds: int, file: IO[bytes], low: int, high: int, fed: List[Union[int, OSError]]) -> None:
    """Writes so many line feeds and these bytes of a file to a pipe, and notes how many bytes they were, or what failed. A run that
    ends early has a status that says why."""
    at = low
    try:
        with pipe:
            pipe.write(b"\n" * feeds)
            pipe.flush()
            while at < high:
                sent = _send(pipe.fileno(), file.fileno(), at, min(BLOCK, high - at))
                if sent == 0:
                    break
                at += sent
        fed.append(at - low)
    except OSError as error:
        fed.append(error)


def _send(pipe: int, file: int, at: int, size: int) -> int:
    """Writes some of these bytes to a pipe, without a copy where the file system can. Returns how many."""
    try:
        return os.sendfile(pipe, file, at, size)
    except OSError as error:
        if error.errno not in (errno.EINVAL, errno.ENOSYS):
            raise
    return os.write(pipe, os.pread(file, size, at))


# ---- the places of a list


def _move(lines: IO[bytes], millions: int, longest: int, out: IO[bytes]) -> None:
    """Copies lines `number start end`, which are in the order of their ends, with both places so many millions further on."""
    rest = b""
    while True:
        block = lines.read(BLOCK)
        if not block:
            return
        block = rest + block
        end = block.rfind(b"\n") + 1
        rest = block[end:]
        at = 0
        while at < end:
            at = _move_million(block, at, end, millions, longest, out)


def _move_million(block: bytes, at: int, end: int, millions: int, longest: int, out: IO[bytes]) -> int:
    """Moves the lines from `at` on whose ends lie in one million, and returns where the next line is."""
    own = _end_of(block, at) // MILLION
    stop = _first_line(block, at, end, (own + 1) * MILLION)
    # What may start in the million before, and what has too few digits. All other places have the same digits before the last six.
    few = _first_line(block, at, stop, own * MILLION + longest) if own else stop
    out.write(_moved(block[at:few], millions * MILLION))
    out.write(block[few:stop].replace(b" %d" % own, b" %d" % (own + millions)))
    return stop


def _moved(lines: bytes, offset: int) -> bytes:
    """Lines with both places moved, number by number."""
    numbers = list(map(int, lines.split()))
    numbers[1::3] = [it + offset for it in numbers[1::3]]
    numbers[2::3] = [it + offset for it in numbers[2::3]]
    return b"%d %d %d\n" * (len(numbers) // 3) % tuple(numbers)


def _end_of(block: bytes, at: int) -> int:
    """The third number of a line."""
    stop = block.index(b"\n", at)
    return int(block[block.rindex(b" ", at, stop) + 1:stop])


def _first_line(block: bytes, low: int, high: int, place: int) -> int:
    """Where the first line is, of those from `low` up to `high`, whose end is at least this place; `high`, if there is none."""
    while low < high:
        middle = block.rfind(b"\n", low, (low + high) // 2) + 1 or low
        if _end_of(block, middle) < place:
            low = block.index(b"\n", middle) + 1
        else:
            high = middle
    return low


def _append(source: str, target: str, at: int) -> None:
    """Copies a file into another one, from a place on."""
    with open(source, "rb", buffering=0) as made, open(target, "r+b", buffering=0) as whole:
        whole.seek(at)
        shutil.copyfileobj(made, whole, BLOCK)


# ---- the command line


class Bar:
    """A progress bar on a terminal: how much is done, of how much, and how fast."""

    WIDTH = 30

    def __init__(self, to: Any) -> None:
        self.to, self.since = to, time.monotonic()

    def __call__(self, done: int, total: int) -> None:
        part, seconds = done / total if total else 1.0, time.monotonic() - self.since
        filled = int(part * self.WIDTH)
        speed = f"{done / seconds / 1e6:.0f} MB/s" if done and seconds else ""
        self.to.write(f"\r[{'#' * filled}{' ' * (self.WIDTH - filled)}] {part:4.0%} of {total / 1e6:.0f} MB, {seconds:.0f} s {speed:12}")
        self.to.flush()

    def end(self) -> None:
        self.to.write("\n")


def _size(text: str) -> int:
    """A number of bytes, as 256M: K, M and G are powers of 1024."""
    factor = {"K": 1 << 10, "M": 1 << 20, "G": 1 << 30}.get(text[-1:].upper(), 1)
    number = int(text if factor == 1 else text[:-1]) * factor
    if number < 1:
        raise ValueError(text)
    return number


def _parser() -> argparse.ArgumentParser:
    ask = argparse.ArgumentParser(
        prog="python -m dadofennel.dask", allow_abbrev=False, formatter_class=argparse.RawDescriptionHelpFormatter,
        description="Runs acsub over files on the workers of a Dask cluster. The bytes are those of one run over each whole file.",
        epilog="Files are cut at line ends, so that no match lies across a cut. A file is one piece where that can't be said: where a\n"
        "pattern is empty, since it would match on both sides of a cut; and where a pattern holds a line feed, or the byte that\n"
        "--pairs makes match it, since a match could lie across a cut. A line that is longer than a piece is in one piece.\n\n"
        "Workers need this package and acsub, and see the inputs and FOLDER by the paths that are given here.")
    ask.add_argument("mode", choices=MODES, metavar="MODE", help="replace, list, overlap or mask; a list's places count from the file's beginning")
    ask.add_argument("rules", metavar="RULES", help="the rule file")
    ask.add_argument("inputs", metavar="IN", nargs="+", help="a file")
    ask.add_argument("--scheduler", required=True, metavar="ADDRESS", help="of the cluster's scheduler, as tcp://host:8786")
    ask.add_argument("--out", required=True, metavar="FOLDER", help="where the outputs are written, each under its input's name")
    ask.add_argument("--piece", type=_size, default=PIECE, metavar="SIZE", help="about how large a piece is (256M)")
    ask.add_argument("--acsub", default="acsub", metavar="PROGRAM", help="the program on the workers (acsub)")
    ask.add_argument("--progress", action="store_true", help="draws the progress bar, on a terminal or not")
    own = ask.add_argument_group("options of acsub, which acsub --help describes")
    for word in FLAGS:
        own.add_argument(word, action="store_true")
    for word, value in VALUES.items():
        own.add_argument(word, metavar=value)
    return ask


FLAGS = ("--text", "--stream", "--fold", "--no-prefilter", "--no-byte-classes")
VALUES = {"--with": "HEX", "--kind": "K", "--pairs": "HEX", "--engine": "E", "--dense-depth": "N"}


def _options(given: argparse.Namespace) -> List[str]:
    """The options of acsub among the words."""
    said = vars(given)
    words = [word for word in FLAGS if said[word[2:].replace("-", "_")]]
    for word in VALUES:
        value = said[word[2:].replace("-", "_")]
        if value is not None:
            words += [word, value]
    return words


def main(words: Optional[Sequence[str]] = None) -> int:
    given = _parser().parse_intermixed_args(words)
    try:
        from distributed import Client
        from distributed.scheduler import KilledWorker
    except ImportError:
        print("dadofennel.dask: there is no Dask here: install Debian's python3-distributed, or the package distributed", file=sys.stderr)
        return 1
    bar = Bar(sys.stderr) if given.progress or sys.stderr.isatty() else None
    try:
        with Client(given.scheduler) as client:
            if not client.scheduler_info()["workers"]:
                print("dadofennel.dask: the scheduler has no worker yet; waiting for one", file=sys.stderr)
            run(client, given.mode, given.rules, given.inputs, given.out, options=_options(given), piece=given.piece,
                acsub=given.acsub, progress=bar)
        return 0
    except Fault as fault:
        line, status = fault.line, fault.status
    except KilledWorker as fault:
        line, status = f"dadofennel.dask: too many workers died over one piece: {fault}", 1
    except OSError as error:
        line, status = f"dadofennel.dask: {error}", 1
    except KeyboardInterrupt:
        line, status = "dadofennel.dask: interrupted", 130
    finally:
        if bar:
            bar.end()
    print(line, file=sys.stderr)
    return status


if __name__ == "__main__":
    # by the module's own name, under which the workers find its functions
    from dadofennel.dask import main as main_of_module
    signal.signal(signal.SIGTERM, lambda number, _: sys.exit(128 + number))
    sys.exit(main_of_module())
