#!/usr/bin/env python3
"""What the scripts of this folder share: their words and their folder, the program, what a command costs, and a part
file of one row.

    bench/measure.py COMMAND..    the processor time and the memory of a command, whose output is dropped

It needs GNU time as /usr/bin/time.
"""
from __future__ import annotations

import contextlib
import os
import pathlib
import subprocess
import sys
import tempfile
from typing import Callable, Iterator, NamedTuple, Sequence, Union

TOP = pathlib.Path(__file__).resolve().parent.parent
sys.path.insert(0, str(TOP / "tools"))

# what a script needs of x7run
from x7run import Refused as Refused, run as run, wanted_program as wanted_program  # noqa: E402

Command = Sequence[Union[str, pathlib.Path]]


class Cost(NamedTuple):
    """What a command costs."""

    seconds: float  # of a processor, the least of some runs
    mebibytes: float  # of memory, the most of some runs


def one_cost(command: Command) -> Cost:
    """The cost of one run. GNU time stands between, since the memory of a child counts what its parent has."""
    with tempfile.NamedTemporaryFile("r") as memory:
        timed = ["/usr/bin/time", "-q", "-f", "%M", "-o", memory.name, *command]
        child = subprocess.Popen(timed, stdout=subprocess.DEVNULL, env={**os.environ, "LC_ALL": "C"})
        _, status, usage = os.wait4(child.pid, 0)
        child.returncode = status
        if status != 0:
            raise Refused(f"{command[0]} ended with status {os.WEXITSTATUS(status)}")
        return Cost(usage.ru_utime + usage.ru_stime, int(memory.read()) / 1024)


def cost(command: Command, runs: int = 3, prepare: Callable[[], None] = lambda: None) -> Cost:
    """The cost of some runs of a command; before each one something is prepared."""
    costs = []
    for _ in range(runs):
        prepare()
        costs.append(one_cost(command))
    return Cost(min(it.seconds for it in costs), max(it.mebibytes for it in costs))


def seconds_of(command: Command, runs: int = 3) -> float:
    """The least processor time of some runs of a command."""
    return cost(command, runs).seconds


def part_text(name: str, columns: int, minors: int, idcode: int = 1) -> str:
    """A part file of one row, with as many frames in each column."""
    row = ", ".join([str(minors)] * columns)
    keys = f'name = "{name}"\nidcode = 0x{idcode:08X}\n'
    return f"{keys}\n[[row]]\nblock = 0\nhalf = 0\nrow = 0\nminors = [{row}]\n"


def no_words(words: list[str]) -> None:
    """Refuses words, for a script that takes none."""
    if words:
        name = os.path.basename(sys.argv[0])
        raise Refused(f"it takes no words ({name} --help)")


@contextlib.contextmanager
def folder_of(words: list[str], options: str = "") -> Iterator[pathlib.Path]:
    """The folder that a script's words name, or a new one that is removed."""
    name = os.path.basename(sys.argv[0])
    if len(words) > 1 or any(it.startswith("-") for it in words):
        raise Refused(f"usage: {name}{options} [FOLDER] ({name} --help)")
    with tempfile.TemporaryDirectory(prefix="x7-bench-") as room:
        folder = pathlib.Path(words[0] if words else room)
        folder.mkdir(parents=True, exist_ok=True)
        yield folder


def main(words: list[str]) -> None:
    """Prints what a command costs."""
    if not words or words[0].startswith("-"):
        raise Refused("usage: measure.py COMMAND.. (measure.py --help)")
    seconds, mebibytes = cost(words)
    print(f"{seconds:.3f} s, {mebibytes:.1f} MiB")


if __name__ == "__main__":
    run(main, __doc__)
