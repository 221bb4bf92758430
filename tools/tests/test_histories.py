#!/usr/bin/env python3
"""Compares x7 with the plain program of x7report.py on random histories, whole reports of `play` and texts of `boot`.

    test_histories.py [COUNT [SEED]]   COUNT plays and half as many boots, 200 where none is said, of the seeds from
                                       SEED on, or from 1

It says the seed of each difference, the first line that differs, and a part file and an assembly text that show it,
with as few pieces as were found; and whether a plain program with one wrong rule is seen beside x7 on these
histories."""
from __future__ import annotations

import os
import subprocess
import sys
import tempfile
from typing import Tuple, Union

from casefiles import Tally
from calls import program
import histories as h
import x7formats as x7
import x7report as r
from x7device import Device
from x7frames import WCFG, PartFrames
from x7partfile import Part

# what was written, and the status
Written = Tuple[str, int]
COUNT, SHOWN = 200, 3
FRAME_FAULTS = (["Address"], ["Overrun"], ["Multi"])
X7 = program()
tally = Tally()


class Play:
    """A play of streams: how a seed leads to one, how x7 plays it, and how the plain program does."""

    name = "play"
    history = staticmethod(h.play_history)

    def by_x7(self, part: str, lines: list[str]) -> Written:
        """What x7 writes of the streams of these lines, and its status."""
        streams = h.streams_of(lines)
        for number, stream in enumerate(streams):
            x7.write_file(in_folder(f"s{number}"), stream)
        return ran("play", part, [f"s{number}" for number in range(len(streams))])

    def plainly(self, part: str, lines: list[str], device: type[r.PartDevice] = r.PartDevice) -> Written:
        """What the plain program, or one with a wrong rule, writes of them."""
        return r.play(h.part_of(part), b"".join(h.streams_of(lines)), device)


class Boot:
    """A boot from a flash, with erased bytes between its streams."""

    name = "boot"
    history = staticmethod(h.boot_history)

    def flash(self, lines: list[str]) -> bytes:
        """The flash that holds the streams, each at a multiple of 256 bytes."""
        return b"".join(stream + b"\xff" * (-len(stream) % 256) for stream in h.streams_of(lines))

    def by_x7(self, part: str, lines: list[str]) -> Written:
        """What x7 writes of the streams of these lines, and its status."""
        x7.write_file(in_folder("flash"), self.flash(lines))
        return ran("boot", part, ["flash"])

    def plainly(self, part: str, lines: list[str], device: type[r.PartDevice] = r.PartDevice) -> Written:
        """What the plain program, or one with a wrong rule, writes of them."""
        return r.boot(h.part_of(part), self.flash(lines), device)


Kind = Union[Play, Boot]


def in_folder(name: str) -> str:
    """The path of a file in the folder of the runs."""
    return os.path.join(FOLDER, name)


def ran(form: str, part: str, names: list[str]) -> Written:
    """What x7 writes, and its status."""
    x7.write_file(in_folder("part"), part)
    assert X7, "without x7 nothing is run"
    done = subprocess.run([X7, form, "part", *names], cwd=FOLDER, capture_output=True, check=False)
    return done.stdout.decode() + done.stderr.decode(), done.returncode


def differs(kind: Kind, part: str, pieces: list[h.Piece]) -> str | None:
    """What is said of a history where the two differ, or none."""
    lines = h.lines_of(pieces)
    (came, status), (wanted, wanted_status) = kind.by_x7(part, lines), kind.plainly(part, lines)
    if (came, status) == (wanted, wanted_status):
        return None
    both = zip([*came.splitlines(), "no more"], [*wanted.splitlines(), "no more"])
    lines_that_differ = (f"x7 '{one[:200]}', plainly '{other[:200]}'" for one, other in both if one != other)
    return f"{next(lines_that_differ, 'only the status')}, status {status} and {wanted_status}"


def fewest(kind: Kind, part: str, pieces: list[h.Piece]) -> list[h.Piece]:
    """The pieces without those that a difference doesn't need."""
    size = max(len(pieces) // 2, 1)
    while True:
        at = 0
        while at < len(pieces):
            fewer = pieces[:at] + pieces[at + size :]
            if fewer and differs(kind, part, fewer):
                pieces = fewer
            else:
                at += size
        if size == 1:
            return pieces
        size = max(size // 2, 1)


def is_alike(seed: int) -> bool:
    """Whether the device without frames comes to the same, where no fault of frames ends it."""
    text, pieces = h.play_history(seed)
    data, part = b"".join(h.streams_of(h.lines_of(pieces))), h.part_of(text)
    whole, bare = r.PartDevice(part).play(data), Device(part.idcode, part.lock, part.match).play(data)
    left = [(it.taken, it.end, it.phase, it.gts, it.gwe, it.ghigh, it.registers) for it in (whole, bare)]
    return whole.end[1:2] in FRAME_FAULTS or left[0] == left[1]


def compare(kind: Kind, seed: int) -> None:
    """Compares the history of a seed; answers it with what x7 wrote."""
    part, pieces = kind.history(seed)
    difference = differs(kind, part, pieces)
    if difference and tally.failed < SHOWN:
        pieces = fewest(kind, part, pieces)
        pieces = fewest(kind, part, [[line] for line in h.lines_of(pieces)])
        first = differs(kind, part, pieces) or ""
        difference = "\n".join([first, "# the part file", part, "# the assembly text", *h.lines_of(pieces)])
    tally.check(f"{kind.name} of seed {seed}", not difference, difference or "")


# ---- wrong rules, each of which the histories must tell


class HoldsNoFrame(PartFrames):
    """Writes each frame as soon as it is whole."""

    def landed(self) -> dict[int, bytes]:
        frames = (self.frame_of_run(at) for at in range(self.count()))
        return {far: frame for far, frame in zip(self.slots_from_base(), frames) if far is not None}


class HasNoPads(PartFrames):
    """Has no pads between its rows."""

    def __init__(self, part: Part) -> None:
        super().__init__(part)
        self.slots = list(part.addresses())
        self.slot_of = {far: slot for slot, far in enumerate(part.addresses())}


class HasNoPadFrame(PartFrames):
    """Gives no frame of zeros before the frames read back."""

    def begin_run(self, base: int) -> None:
        super().begin_run(base)
        self.given = self.size // 4 if self.command == r.RCFG else 0


class KeepsTheSource(PartFrames):
    """Takes the source of copies also over another command."""

    def store(self, register: int, word: int) -> None:
        before = self.source
        super().store(register, word)
        self.source = self.source or before


class MovesAtCopies(PartFrames):
    """Moves FAR at each copy."""

    def copy(self) -> tuple[str, ...]:
        fault = super().copy()
        self.base = next((it for it in self.slots_from_base()[1:2] if it is not None), self.base)
        return fault


def with_frames(frames: type[PartFrames]) -> type[r.PartDevice]:
    """A device whose frames follow a wrong rule."""
    return type(frames.__name__, (r.PartDevice,), {"frames_kind": frames, "__doc__": frames.__doc__})


class RunsOverFar(r.PartDevice):
    """Doesn't execute the command again at a FAR load."""

    def execute(self, command: int, after: int) -> None:
        if self.is_cmd:
            super().execute(command, after)

    def write(self, data: bytes, step: x7.Step) -> None:
        self.is_cmd, self.check.command = step.register == x7.CMD, 0
        super().write(data, step)


class IgnoresMask(r.PartDevice):
    """Takes all bits of CTL0."""

    def store(self, number: int, word: int, after: int, compared: x7.Compared | None) -> None:
        kept = self.registers["MASK"]
        self.registers["MASK"] = kept if number != x7.CTL0 else 0xFFFFFFFF
        super().store(number, word, after, compared)
        self.registers["MASK"] = kept if number == x7.CTL0 else self.registers["MASK"]


class StartsAtOnce(r.PartDevice):
    """Begins startup at START."""

    def execute(self, command: int, after: int) -> None:
        super().execute(command, after)
        if command == x7.CODES["START"] and self.begun is None:
            self.begun, self.cor0 = after, self.registers["COR0"]


class ForgetsNoShutdown(r.PartDevice):
    """Takes a shutdown without RCRC or a right check."""

    def execute(self, command: int, after: int) -> None:
        super().execute(command, after)
        self.take_shutdown(after)


class FoldsLout(r.PartDevice):
    """Folds LOUT into the check."""

    def write(self, data: bytes, step: x7.Step) -> None:
        super().write(data, step)
        if step.register == x7.LOUT:
            self.check.value = x7.fold(self.check.value, x7.LOUT, x7.payload(data, step))


class CountsOneByteMore(r.PartDevice):
    """Lets the watchdog fire a byte later."""

    def load_watchdog(self, after: int) -> None:
        super().load_watchdog(after)
        self.deadline = self.deadline and self.deadline + 1


class ForgetsTheCheck(r.PartDevice):
    """Reads CRC as 0."""

    def value(self, name: str) -> int:
        return 0 if name == "CRC" else super().value(name)


class AsksTooLate(r.PartDevice):
    """Asks for a matched device only where frame data are taken."""

    def frame_data(self, data: bytes, step: x7.Step) -> None:
        if self.matched or step.register == x7.MFWR or self.command == WCFG:
            super().frame_data(data, step)
        else:
            self.check.write(data, step)


class ObeysIprog(r.PartDevice):
    """Obeys IPROG in a fallback."""

    def execute(self, command: int, after: int) -> None:
        super(r.PartDevice, self).execute(command, after)


class ForgetsTheAttempt(r.PartDevice):
    """Forgets the attempt before."""

    def __init__(self, part: Part, start: r.Start = r.BENCH) -> None:
        super().__init__(part, start._replace(before=0))


WRONG_FRAMES = (HoldsNoFrame, HasNoPads, HasNoPadFrame, KeepsTheSource, MovesAtCopies)
WRONG_PLAYS = (
    RunsOverFar, IgnoresMask, StartsAtOnce, ForgetsNoShutdown, FoldsLout, CountsOneByteMore, ForgetsTheCheck,
    AsksTooLate,
)
WRONG_BOOTS = (ObeysIprog, ForgetsTheAttempt)
WRONG: list[tuple[Kind, type[r.PartDevice]]] = [
    *((Play(), with_frames(it)) for it in WRONG_FRAMES), *((Play(), it) for it in WRONG_PLAYS),
    *((Boot(), it) for it in WRONG_BOOTS),
]


def is_seen(kind: Kind, device: type[r.PartDevice]) -> bool:
    """Whether one of the histories that are tried where nothing else is said tells the plain program from one with a
    wrong rule."""
    for seed in range(1, COUNT + 1):
        part, pieces = kind.history(seed)
        lines = h.lines_of(pieces)
        if kind.plainly(part, lines) != kind.plainly(part, lines, device):
            return True
    return False


def main(words: list[str]) -> None:
    """COUNT plays and half as many boots, and the wrong rules."""
    if len(words) > 2 or not all(it.isdecimal() for it in words):
        sys.exit("usage: test_histories.py [COUNT [SEED]]")
    count, first = [int(it) for it in words + [str(COUNT), "1"][len(words) :]]
    kinds: list[tuple[Kind, int]] = [(Play(), count), (Boot(), count // 2)]
    for kind, number in kinds:
        for seed in range(first, first + number):
            if X7:
                compare(kind, seed)
            else:
                tally.skip(kind.name)
    for seed in range(first, first + count):
        tally.check(f"the device without frames, of seed {seed}", is_alike(seed))
    for kind, device in WRONG:
        tally.check(f"a wrong rule is seen: {device.__doc__}", is_seen(kind, device))
    tally.end()


with tempfile.TemporaryDirectory() as FOLDER:
    main(sys.argv[1:])
