#!/usr/bin/env python3
"""Tests that each script of bench/ says what it does, and says in a line what it can't take: no x7, other words, a file
for a folder, a reader that left; and what those say that need no x7."""
from __future__ import annotations

import functools
import importlib
import os
import re
import subprocess
import sys
import tempfile

from casefiles import TOP, Tally, put_file
from runs import Came, run

BENCH = os.path.join(TOP, "bench")
NEED_X7 = ["closed", "full", "groups", "no_memory", "run", "svf", "update"]
TIMES = "x7_one 40 1 39 900\nx7_two 90 4 250 1500\n"
tally = Tally()


def scripts() -> list[str]:
    """The scripts of the folder."""
    found = sorted(it for it in os.listdir(BENCH) if re.fullmatch(r"\w+(\.py)?", it))
    return [it for it in found if it != "__pycache__"]


def refused(name: str, came: Came, text: bytes = b"") -> None:
    """A refusal: status 2, and one line that has a text."""
    shown = (came.status, came.out, came.err.count(b"\n"), text in came.err)
    tally.same(name, shown, (2, b"", 1, True))


def wordless(folder: str) -> None:
    """What each says of itself, of other words, and where there is no x7."""
    for name in scripts():
        path = os.path.join(BENCH, name)
        came = run(folder, [path, "--help"])
        is_document = came.status == 0 and len(came.out) > 60 and not came.out.startswith(b"#") and not came.err
        tally.check(f"{name} --help", is_document, str(came))
        refused(f"{name} with other words", run(folder, [path, "--other"]))
    for name in NEED_X7:
        refused(f"{name} without x7", run(folder, [os.path.join(BENCH, name)]), b"nowhere")
    refused("measure.py without words", run(folder, [os.path.join(BENCH, "measure.py")]))


def tables(folder: str) -> None:
    """The tables of names, the version and the seconds are those of the repository."""
    for name in ("name_tables.py", "seconds", "version"):
        came = run(folder, [os.path.join(BENCH, name)])
        tally.check(f"{name} in another folder", came.status == 0, str(came))
    searched = run(folder, [os.path.join(BENCH, "name_tables.py"), "--search"])
    printed = run(folder, [os.path.join(BENCH, "name_tables.py"), "--print"])
    tally.check("--search keeps what serves", searched.out.count(b"(as now)") == 2, str(searched))
    tally.same("--search makes the same tables", searched.out.split(b"\n", 2)[2], printed.out)
    times = put_file(folder, "times", TIMES)
    made = run(folder, [os.path.join(BENCH, "seconds"), "--of", times])
    tally.same("SECONDS of a build", made.out, b'SECONDS = {\n    "x7_one": 39, "x7_two": 200,\n}\n')
    put_file(folder, "times", "x7_one 40 one 39 900\n")
    refused("SECONDS of another text", run(folder, [os.path.join(BENCH, "seconds"), "--of", times]), b"line 1")


def search() -> None:
    """A name that shares the place of another finds weights and a factor by which it doesn't."""
    sys.path.insert(0, BENCH)
    made = importlib.import_module("name_tables")
    at = made.REGISTERS.index("R15")
    for name, weights_are_kept in (("SEED", True), ("DNA", False)):
        made.REGISTERS[at] = name
        weights, factor = made.weights_that_serve(), made.factor_that_serves()
        tally.same(f"{name}: weights are kept", weights == made.present()[0], weights_are_kept)
        tally.same(f"{name}: the factor is kept", factor == made.present()[1], not weights_are_kept)
        by_factor = functools.partial(made.by_four_bytes, factor)
        by = {made.REGS: functools.partial(made.by_letters, weights), made.LISTING: by_factor}
        for names in made.all_names():
            places = [by[names.path](key) for key in names.keys()]
            tally.same(f"{name}: {names.path} {names.table}", len(set(places)), len(names.numbers))
    made.REGISTERS[at] = "R15"


def measured() -> None:
    """The cost of a command that works and holds memory is that of the command."""
    script = "x = bytearray(1 << 27)\nfor _ in range(3 * 10 ** 6): pass"
    words = [os.path.join(BENCH, "measure.py"), sys.executable, "-c", script]
    done = subprocess.run(words, stdout=subprocess.PIPE, stderr=subprocess.PIPE, check=False)
    found = re.fullmatch(rb"(\d+\.\d+) s, (\d+\.\d) MiB\n", done.stdout)
    tally.check("measure.py", found and float(found[1]) > 0.02 and 128 < float(found[2]) < 160, str(done))


def left(folder: str) -> None:
    """A file for a folder, and a reader that left."""
    os.environ["X7"] = sys.executable
    for name in NEED_X7:
        came = run(folder, [os.path.join(BENCH, name), os.path.realpath(__file__)])
        refused(f"{name} with a file for a folder", came)
    for words in (["bench/name_tables.py", "--print"], ["bench/no_memory", "--help"], ["build", "--help"]):
        came = run(folder, ["sh", "-c", '"$@" | true', "sh", os.path.join(TOP, words[0]), *words[1:]])
        is_quiet = b"Traceback" not in came.err and came.err.count(b"\n") <= 1
        tally.check(f"{' '.join(words)} whose reader left", is_quiet, str(came))


with tempfile.TemporaryDirectory() as FOLDER:
    os.environ["X7"] = os.path.join(FOLDER, "nowhere")
    wordless(FOLDER)
    tables(FOLDER)
    search()
    if os.path.exists("/usr/bin/time"):
        measured()
    else:
        tally.skip("GNU time")
    left(FOLDER)
tally.end()
