"""An update of the vendor's MultiBoot, cut at its steps: what a power loss leaves is booted. python3 (3.8), its
library, and x7.

This tries; it proves nothing. Of a flash with slots a law of x7_recovery says the like of every moment.
"""
from __future__ import annotations

import random
from enum import Enum
from typing import Iterator, NamedTuple

from x7boots import Bench, course, is_golden, runs, went
from x7checks import Checks
from x7formats import Report
from x7steps import Step, Verb, done
from x7times import CFG_MON

# How many of the steps of a kind that stand in a row are cut.
MOST_OF_A_ROW = 12
# The seed of the bits that are torn.
SEED = 7


class Left(Enum):
    """What a boot of a cut update is like."""

    BEFORE = "as before"
    GOLDEN = "the golden stream"
    UPDATED = "as updated"
    OTHER = "otherwise"


class Cut(NamedTuple):
    """A flash as a power loss leaves it."""

    name: str  # at which step
    flash: bytes  # what it holds


class References(NamedTuple):
    """The boots with which that of a cut is compared."""

    before: Report  # of the flash before the update
    golden: Report | None  # with no update there, or none where the golden stream doesn't start
    updated: Report  # of the updated flash


def chosen(steps: list[Step]) -> list[int]:
    """The steps that are cut, from 0: the first and the last and some between them of each row of programs or erases. A
    read changes nothing."""
    found: list[int] = []
    first = 0
    while first < len(steps):
        end = first
        while end < len(steps) and steps[end].verb is steps[first].verb:
            end += 1
        if steps[first].verb is not Verb.READ:
            count = min(end - first, MOST_OF_A_ROW)
            found += sorted({first + (end - 1 - first) * it // max(count - 1, 1) for it in range(count)})
        first = end
    return found


def torn(before: bytes, after: bytes, take: random.Random) -> bytes:
    """Bytes of which some bits are as before and some as after, at random."""
    old, new = int.from_bytes(before, "big"), int.from_bytes(after, "big")
    return (old ^ (old ^ new) & take.getrandbits(8 * len(before))).to_bytes(len(before), "big")


def cuts(flash: bytes, steps: list[Step]) -> Iterator[Cut]:
    """What a power loss leaves before a step, and in the midst of it."""
    now, take, wanted = bytearray(flash), random.Random(SEED), set(chosen(steps))
    for number, step in enumerate(steps):
        area = slice(step.place, step.place + len(step.data))
        old = bytes(now[area])
        if number in wanted:
            yield Cut(f"before step {number + 1}", bytes(now))
        done(now, step)
        if number in wanted:
            middle = torn(old, bytes(now[area]), take)
            yield Cut(f"in step {number + 1}", bytes(now[: area.start] + middle + now[area.stop :]))


def is_alike(one: Report, other: Report) -> bool:
    """Whether two boots go the same way and leave the same frames and lines."""
    lines = [(it.phase, it.done, it.gts, it.gwe, it.boot_end) for it in (one, other)]
    return course(one) == course(other) and one.frames == other.frames and lines[0] == lines[1]


def left_by(report: Report, known: References) -> Left:
    """What the boot of a cut update is like."""
    if is_alike(report, known.updated):
        return Left.UPDATED
    if is_alike(report, known.before):
        return Left.BEFORE
    if known.golden is not None and is_golden(report) and report.frames == known.golden.frames:
        return Left.GOLDEN
    return Left.OTHER


def cuts_counted(found: list[tuple[Cut, Left]]) -> str:
    """How many cuts were tried, and what they left, in words."""
    parts = [f"{sum(left is it for _, left in found)} {it.value}" for it in (Left.BEFORE, Left.GOLDEN, Left.UPDATED)]
    return f"{len(found)} cuts boot: {', '.join(parts)}"


def try_cuts(checks: Checks, bench: Bench, timer: int, flash: bytes, steps: list[Step], known: References) -> None:
    """Boots what power losses leave of a flash of the vendor's MultiBoot in the steps of an update. `timer` is the word
    of TIMER with which the golden stream leads on."""
    found, wrong, wrapped = [], [], 0
    for cut in cuts(flash, steps):
        report = bench.boot(cut.flash)
        left = left_by(report, known)
        found.append((cut, left))
        if left is Left.OTHER:
            wrong.append(f"{cut.name}: {went(report)}{'' if runs(report) else ', and the device does not run'}")
        wrapped += left is Left.GOLDEN and report.attempts[1].ending == "wrap"
    checks.tell(not wrong, "power", cuts_counted(found), " | ".join(wrong[:4]))
    if not wrapped:
        return
    rests = f"{wrapped} of these reach the golden stream"
    if timer & CFG_MON:
        checks.note("power", f"{rests} by the watchdog that it arms before its IPROG (TIMER {timer:08X})")
    else:
        why = "it arms no watchdog (TIMER) before its IPROG, and the guide has that fallback for BPI alone"
        checks.note("power", f"{rests} by the flash's end: {why}: with an SPI flash a board may hang")
