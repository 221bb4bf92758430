#!/usr/bin/env python3
"""Tests tools/why on the kinds of damage of `damages.py`, made of planned streams, an uncompressed and a compressed
one: each is named right, or it is one of those of which less is known, and nothing wrong is said of any; nor of a good
file.

    test_damages.py                    as `tools/test damages` does
    test_damages.py STREAM OTHER ..    the same of a stream and one of another device, each two: counts, and what isn't
    right
"""
from __future__ import annotations

import collections
import os
import re
import sys
import tempfile
import time

from casefiles import Tally, put_file
from calls import called
from damaged import Damage, Good, coded
from damages import Verdict, all_of, judged
import streams as s

# The kinds of which `why` knows less: that something is wrong, and that what happened is unknown.
KNOWN_LESS = re.compile(r"\d+ bytes lost, no header")


def said(damage: Damage, folder: str) -> tuple[int, str]:
    """The status of `why --alone` of the files, and what it says."""
    paths = [put_file(folder, f"s{number}.bit", raw) for number, raw in enumerate(damage.files)]
    status, out, err = called("why", "--alone", *paths)
    return status, out.decode() + err


def other_device(lines: list[str]) -> Good:
    """A planned stream of another device."""
    return coded(s.bit(s.with_data(lines, "IDCODE", "03631093"), "7a100tcsg324"))


def most_of(damage: Damage, good: Good) -> int:
    """How many bytes a kind of damage has to do with."""
    return max(sum(map(len, damage.files)), len(good.raw))


def table(tally: Tally, kind: str, good: Good, other: Good, folder: str) -> None:
    """Every kind of damage of a stream."""
    for damage in all_of(good, other):
        status, text = said(damage, folder)
        verdict = judged(damage, status, text, most_of(damage, good))
        allowed = (Verdict.RIGHT, Verdict.UNKNOWN) if KNOWN_LESS.fullmatch(damage.name) else (Verdict.RIGHT,)
        came = f"{verdict.value}, status {status}: {text[:400]!r}, wanted {damage.right!r}"
        tally.check(f"{kind}, {damage.name}", verdict in allowed, came)


def half_written(tally: Tally, good: Good, folder: str) -> None:
    """A flash of 4 MiB that is half written is judged in a short time, by its beginning alone."""
    begun = time.process_time()
    flash = good.data[: good.middle] + b"\xff" * ((1 << 22) - good.middle)
    status, out, _ = called("why", "--alone", put_file(folder, "half.bin", flash))
    spent = time.process_time() - begun
    tally.check(
        "a half-written flash",
        status == 1 and f"from there on all is FF ({(1 << 22) - good.middle} bytes)" in out.decode(),
        out[:300],
    )
    tally.check("its time", spent < 2, f"{spent} seconds of a processor")


def of_files(paths: list[str]) -> None:
    """Tries streams that are given, in pairs, and says what isn't right, and the counts."""
    counts: dict[Verdict, int] = collections.Counter()
    with tempfile.TemporaryDirectory() as folder:
        for one, other in zip(paths[::2], paths[1::2]):
            with open(one, "rb") as first, open(other, "rb") as second:
                good, foreign = Good(first.read()), Good(second.read())
            for damage in all_of(good, foreign):
                status, text = said(damage, folder)
                verdict = judged(damage, status, text, most_of(damage, good))
                counts[verdict] += 1
                if verdict is not Verdict.RIGHT:
                    print(f"{os.path.basename(one)}, {damage.name}: {verdict.value}, status {status}: "
                          f"{text.split(chr(10))[0][:200]}", flush=True)
    print(", ".join(f"{verdict.name.lower()} {counts[verdict]}" for verdict in Verdict if counts[verdict]))


if len(sys.argv) > 2:
    of_files(sys.argv[1:])
    sys.exit(0)
TALLY = Tally()
with tempfile.TemporaryDirectory() as FOLDER:
    table(TALLY, "full", coded(s.bit(s.full())), other_device(s.full()), FOLDER)
    table(TALLY, "compressed", coded(s.bit(s.compressed())), other_device(s.compressed()), FOLDER)
    half_written(TALLY, Good(s.bit(s.full())), FOLDER)
TALLY.end()
