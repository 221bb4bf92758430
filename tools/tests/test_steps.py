#!/usr/bin/env python3
"""Compares the steps of tools/flash_steps with the calls that are proved of an update: with the law of x7_update on a
flash of three sectors, which is read from its source."""
from __future__ import annotations

import os
import re
import tempfile
from typing import Tuple

from casefiles import TOP, Tally, put_file

from calls import called
from x7formats import SYNC
from x7layout import FREE, SECTOR, SLOTS, SPENT, slot_of

LAW = os.path.join(TOP, "crates", "x7_update", "src", "call_laws.rt")
STREAM = bytes(range(1, 7))
TALLY = Tally()
# what is done at a place of a flash: a verb of flash_steps, the place, and the bytes
Call = Tuple[str, int, bytes]


def first_sector() -> bytes:
    """The first sector of the law's flash: slot 0 is open, slot 1 the next, and all lead to the third sector."""
    slot = slot_of((2 * SECTOR).to_bytes(4, "big"))
    return slot + (FREE + slot[4:]) * (SLOTS - 1)


def bytes_named(name: str) -> bytes:
    """The bytes that the law calls so."""
    padded = STREAM + b"\xff" * (SECTOR - len(STREAM))
    known = {"first_sector": first_sector(), "spent_switch": SPENT, "open_switch": SYNC, "stream": STREAM}
    return padded if name.startswith("(slice_range (padded stream") else known[name]


def law_calls() -> list[Call]:
    """The calls of the law, as its contract has them."""
    with open(LAW, encoding="utf-8") as lines:
        law = lines.read().partition("update_calls_of_three_sectors")[2]
    text = " ".join(re.split(r"≡ (?=Read 0)", law, maxsplit=1)[1].partition("∷ []")[0].split())
    verbs = {"Read": "read", "Programmed": "program"}
    found: list[Call] = []
    for call in text.split("∷"):
        verb, place, *rest = call.split(maxsplit=2)
        if verb == "Erased":
            found.append(("erase", int(place) * SECTOR, b"\xff" * SECTOR))
        else:
            found.append((verbs[verb], int(place), bytes_named(rest[0].strip())))
    return found


def listed_calls(text: str) -> list[Call]:
    """The steps of a list, those on bytes that follow each other as one."""
    found: list[Call] = []
    for line in text.splitlines():
        if line.startswith("#"):
            continue
        verb, place, count, *rest = line.split()
        filled = verb == "erase" or rest == ["erased"]
        data = b"\xff" * int(count) if filled else bytes.fromhex(rest[0])
        at = int(place, 16)
        if found and verb != "erase" and found[-1][0] == verb and found[-1][1] + len(found[-1][2]) == at:
            found[-1] = (verb, found[-1][1], found[-1][2] + data)
        else:
            found.append((verb, at, data))
    return found


def steps(folder: str, *options: str) -> None:
    """The list is the law's, but for the read of the first sector, of which the tool has the bytes."""
    flash = put_file(folder, "flash", first_sector() + b"\xff" * (2 * SECTOR))
    stream = put_file(folder, "stream", STREAM)
    status, out, err = called("flash_steps", *options, "--bytes", "--any", flash, stream)
    TALLY.check(f"steps {' '.join(options)}", status == 0, err)
    calls = law_calls()
    TALLY.same("the law reads the first sector", calls[0], ("read", 0, first_sector()))
    TALLY.same(f"steps {' '.join(options)} are the law's", listed_calls(out.decode()), calls[1:])


def options_anywhere(folder: str) -> None:
    """Options stand at any place and in both forms; a wrong number is refused."""
    flash = put_file(folder, "flash", first_sector() + b"\xff" * (2 * SECTOR))
    stream = put_file(folder, "stream", STREAM)
    wanted = called("flash_steps", "--any", "--page", "16", flash, stream)
    TALLY.same("options at any place", called("flash_steps", flash, "--page=16", stream, "--any"), wanted)
    for word in ("--page=x", "--start-unit=2", "--size=-1"):
        status, _, err = called("flash_steps", word, "--any", flash, stream)
        TALLY.check(f"flash_steps {word}", status == 2 and "usage: flash_steps " in str(err), str(err))


with tempfile.TemporaryDirectory(prefix="x7-test-") as folder_name:
    options_anywhere(folder_name)
    steps(folder_name)
    steps(folder_name, "--page", "0")
TALLY.end()
