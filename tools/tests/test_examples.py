#!/usr/bin/env python3
"""Tests that the listing and the reports in examples/ are what x7 writes, and that the tools show what README says of
them."""
from __future__ import annotations

import os
import tempfile
from typing import Sequence

from casefiles import TOP, text_of
from runs import X7, Bench, run

EXAMPLES = os.path.join(TOP, "examples")
# What each file holds: the words of x7, of which those with a dot are files.
MADE = {
    "first.list": ["list first.bin"],
    "first.report": ["play tiny.part first.bin"],
    "chip.report": ["plan full chip.part chip.frames", "play chip.part 0"],
    "chip_changed.report": [
        "plan full chip.part chip.frames", "plan partial chip.part chip_change.frames", "play chip.part 0 1"],
}


def example(name: str) -> bytes:
    """The bytes of an example."""
    with open(os.path.join(EXAMPLES, name), "rb") as file:
        return file.read()


def made(bench: Bench, commands: Sequence[str]) -> bytes:
    """What the last of some commands writes; a number stands for what the one of that number wrote."""
    out = b""
    for number, command in enumerate(commands):
        words = [os.path.join(EXAMPLES, it) if "." in it else it for it in command.split()]
        out = run(bench.folder, [X7, *words]).out
        bench.put(str(number), out)
    return out


def check_readme(bench: Bench, command: str, text: bytes, count: int) -> None:
    """README shows a command and the first `count` lines of what it writes."""
    block = f"    $ {command}\n" + "".join(f"    {line}\n" for line in text.decode().splitlines()[:count])
    bench.tally.check(f"README shows what {command} writes", f"{block}    ..\n" in text_of("README.md"), block)


with tempfile.TemporaryDirectory() as folder:
    bench = Bench(folder)
    figure = "ten minutes to half an hour, and more on slower machines"
    has_it = [it for it in ("README.md", "x7") if figure in text_of(it)]
    bench.tally.same("README and ./x7 say how long a build takes", has_it, ["README.md", "x7"])
    check_readme(bench, "./x7 list examples/first.bin", example("first.list"), 5)
    check_readme(bench, "./x7 play examples/tiny.part examples/first.bin", example("first.report"), 4)
    if X7:
        played = made(bench, ["plan full tiny.part tiny.frames", "play tiny.part 0"])
        check_readme(bench, "./x7 play examples/tiny.part ~/tiny.bin", played, 4)
    else:
        bench.tally.skip("README's stream that starts a device")
    for name, commands in MADE.items():
        if X7:
            bench.tally.same(f"examples/{name}", made(bench, commands), example(name))
        else:
            bench.tally.skip(name)
    part, stream = (os.path.join(EXAMPLES, it) for it in ("tiny.part", "first.bin"))
    came = bench.tool("why", "--part", part, stream)
    bench.tally.same("why of the first stream, status", came.status, 1)
    check_readme(bench, "tools/why --part examples/tiny.part examples/first.bin", came.out, 3)
    listed = bench.tool("why", *(os.path.join(EXAMPLES, it) for it in ("first.list", "first.report")))
    bench.tally.same("why of its listing and its report", listed.out.splitlines()[:3], came.out.splitlines()[:3])
    bench.tally.end()
