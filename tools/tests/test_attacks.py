#!/usr/bin/env python3
"""Tests the wrong bodies that the prover must refuse, those of the gate and those of attacks/: each still fits its
file."""
from __future__ import annotations

import glob
import os
import subprocess
import sys

from casefiles import TOOLS, TOP, Tally


def parts_of(edit: str) -> tuple[str, list[tuple[str, str]]]:
    """What an edit changes: its file, and pairs of the line that goes and the line that comes."""
    with open(edit, encoding="utf-8") as file:
        lines = [line.rstrip("\n").partition(": ") for line in file]
    olds = [text for key, _, text in lines if key == "old"]
    news = [text for key, _, text in lines if key in ("new", "new:")]
    assert len(olds) == len(news), f"{edit} has {len(olds)} lines that go and {len(news)} that come"
    return next(text for key, _, text in lines if key == "file"), list(zip(olds, news))


def check_edit(tally: Tally, crate: str, edit: str) -> None:
    """Each line that goes stands in the file once, and another comes."""
    name, pairs = parts_of(edit)
    label = os.path.relpath(edit, TOP)
    with open(os.path.join(TOP, "crates", crate, name), encoding="utf-8") as file:
        text = file.read()
    tally.same(label, [(text.count(old), old == new) for old, new in pairs], [(1, False)] * max(1, len(pairs)))


def check_words(tally: Tally) -> None:
    """The tool takes names of crates with attacks alone."""
    command = [sys.executable, os.path.join(TOOLS, "attack"), "x7_nothing"]
    ran = subprocess.run(command, check=False, capture_output=True)
    said = (ran.returncode, ran.stdout, ran.stderr.startswith(b"attack: no wrong bodies"))
    tally.same("a crate without attacks", said, (2, b"", True))


def check_folder(tally: Tally, folder: str) -> None:
    """A folder has at most eight edits and nothing else, and each fits its file."""
    label = os.path.relpath(folder, TOP)
    crate = label.split(os.sep)[1]
    edits = sorted(glob.glob(os.path.join(folder, "*.edit")))
    found = (0 < len(edits) <= 8, len(os.listdir(folder)))
    tally.same(f"{label} has edits, at most eight, and nothing else", found, (True, len(edits)))
    for edit in edits:
        check_edit(tally, crate, edit)


tally = Tally()
for place in ("crates/*/must-fail", "attacks/*"):
    for folder in sorted(glob.glob(os.path.join(TOP, place))):
        check_folder(tally, folder)
check_words(tally)
tally.end()
