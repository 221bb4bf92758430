"""Runs of the tools and of x7 for their tests: in a folder of their own, with a limit of time."""
from __future__ import annotations

import os
import random
import runpy
import shlex
import signal
import subprocess
import sys
import tempfile
import traceback
from typing import Callable, Mapping, NamedTuple, Sequence

from casefiles import TOOLS, Tally, made_part_text
import x7formats as x7

# what hasn't ended by then hangs, however busy the machine is
SECONDS = 600
# the path of x7, empty where it isn't built; the tools take it too, in whatever folder they run
X7 = x7.program() or ""
if X7:
    os.environ["X7"] = X7
# how the shell closes a standard file
CLOSING = ("<&-", ">&-", "2>&-")


class Came(NamedTuple):
    """What came of a run."""

    status: int | None  # none where it didn't end in time
    out: bytes
    err: bytes


def run(folder: str, words: Sequence[object], given: bytes = b"", closed: Sequence[int] = ()) -> Came:
    """Runs a command in a folder, with some of its standard files closed; status None where it doesn't end in time."""
    command = [str(it) for it in words]
    if closed:
        # the shell closes them: code of Python between fork and exec may hang where there are threads
        command = ["sh", "-c", f'exec "$@" {" ".join(CLOSING[number] for number in closed)}', "sh", *command]
    try:
        done = subprocess.run(command, input=given, timeout=SECONDS, cwd=folder, capture_output=True, check=False)
    except subprocess.TimeoutExpired:
        return Came(None, b"", b"")
    return Came(done.returncode, done.stdout, done.stderr)


def run_here(folder: str, words: Sequence[str]) -> Came:
    """Runs a tool in a fork of this process, which has read the library and the shared modules by then: many runs cost
    little."""
    paths = [os.path.join(folder, name) for name in (".out", ".err")]
    child = os.fork()
    if child == 0:
        status = 70
        try:
            os.chdir(folder)
            for number, name, path in zip((0, 1, 2), ("stdin", "stdout", "stderr"), (os.devnull, *paths)):
                how, mode = (os.O_RDONLY, "r") if name == "stdin" else (os.O_WRONLY | os.O_CREAT | os.O_TRUNC, "w")
                os.dup2(os.open(path, how, 0o600), number)
                setattr(sys, name, open(number, mode, closefd=False, encoding="utf-8", errors="backslashreplace"))
            signal.alarm(SECONDS)
            sys.argv = [os.path.join(TOOLS, words[0]), *words[1:]]
            status = status_of(sys.argv[0])
        finally:
            for file in (sys.stdout, sys.stderr):
                file.flush()
            os._exit(status)
    ended = os.waitpid(child, 0)[1]
    out, err = (read_and_remove(path) for path in paths)
    return Came(os.WEXITSTATUS(ended) if os.WIFEXITED(ended) else None, out, err)


def status_of(path: str) -> int:
    """Runs a program of Python in this process, to its status."""
    try:
        runpy.run_path(path, run_name="__main__")
    except SystemExit as ended:
        return ended.code if isinstance(ended.code, int) else int(ended.code is not None)
    except BaseException:
        traceback.print_exc()
        return 1
    return 0


def read_and_remove(path: str) -> bytes:
    """The bytes of a file, which is removed."""
    with open(path, "rb") as file:
        data = file.read()
    os.remove(path)
    return data


class Bench:
    """A folder with a tally: tools are run in it, and what they write is put there."""

    def __init__(self, folder: object) -> None:
        self.folder = str(folder)
        self.tally = Tally()

    def path(self, name: str) -> str:
        """The path of a file of the bench."""
        return os.path.join(self.folder, name)

    def put(self, name: str, data: bytes | str) -> None:
        """Writes a file of the bench."""
        with open(self.path(name), "wb") as file:
            file.write(data.encode() if isinstance(data, str) else data)

    def get(self, name: str) -> bytes:
        """The bytes of a file of the bench."""
        with open(self.path(name), "rb") as file:
            return file.read()

    def tool(self, *words: str, given: bytes = b"", closed: Sequence[int] = ()) -> Came:
        """Runs a tool."""
        return run(self.folder, [sys.executable, os.path.join(TOOLS, words[0]), *words[1:]], given, closed)

    def many(self, *words: str) -> Came:
        """Runs a tool as one of many."""
        return run_here(self.folder, words)

    def command(self, words: Sequence[str]) -> str:
        """A tool and its words, for a shell."""
        return " ".join(shlex.quote(it) for it in [sys.executable, os.path.join(TOOLS, words[0]), *words[1:]])

    def shell(self, text: str) -> Came:
        """Runs a text of the shell."""
        return run(self.folder, ["sh", "-c", text])

    def x7(self, *words: str) -> Came:
        """Runs x7."""
        return run(self.folder, [X7, *words])

    def make(self, name: str, *words: str) -> None:
        """Puts what a tool, or x7, writes."""
        came = self.x7(*words[1:]) if words[0] == "x7" else self.tool(*words)
        if came.status not in (0, 1):
            self.tally.check(" ".join(words), False, f"status {came.status}, {came.err.decode(errors='replace')}")
        self.put(name, came.out)

    def refuses(self, *words: str, what: str = "", given: bytes = b"", closed: Sequence[int] = ()) -> None:
        """A tool refuses these words: status 2, one line, nothing written."""
        before = sorted(os.listdir(self.folder))
        came = self.tool(*words, given=given, closed=closed) if given or closed else self.many(*words)
        line = came.err.decode(errors="replace")
        is_line = 2 in closed or line.count("\n") == 1 and line.startswith(words[0]) and what in line
        is_so = came.status == 2 and came.out == b"" and is_line and sorted(os.listdir(self.folder)) == before
        note = f"status {came.status}, {came.out[:80]!r}, {line[:300]!r}"
        self.tally.check(" ".join(words) + f" {list(closed) or ''}", is_so, note)


def frame_of(seed: int, words: int = 101) -> bytes:
    """The bytes of a frame from a number, the same at each run."""
    return random.Random(seed).getrandbits(32 * words).to_bytes(4 * words, "big")


def text_of_frames(frames: Mapping[str, bytes]) -> str:
    """The text of frames by their addresses in hexadecimal digits."""
    return x7.frames_text({int(far, 16): frame for far, frame in frames.items()})


def run_parts(what: str, *parts: Callable[[Bench], None]) -> None:
    """Runs parts of a test on one bench, in a folder of its own, and ends with the tally's line; each wants x7, and
    without it `what` is skipped."""
    with tempfile.TemporaryDirectory() as folder:
        bench = Bench(folder)
        if X7:
            for part in parts:
                part(bench)
        else:
            bench.tally.skip(f"{what}: x7 isn't built")
        bench.tally.end()


# a made-up device with frames of 101 words, two rows of which have the same columns
DEVICE = made_part_text("made", [(0, 0, 0, [4, 6, 3]), (0, 1, 0, [4, 6, 3]), (1, 0, 0, [5])])
