"""A stream of `x7 plan`, step by step, and the same frames in the sequences of the vendor's streams (docs/FORMATS.md,
planned streams)."""
from __future__ import annotations

from typing import NamedTuple, NoReturn, Sequence

from x7asked import whole
from x7formats import (
    CMD, COR0, CRC, CTL0, CTL1, CODES, FAR, FDRI, IDCODE, MASK, MFWR, NOP, SYNC, Refused, Step, StepKind, bytes_of,
    payload, steps, type1_header, type2_header, with_checks, write_packet,
)  # fmt: skip
from x7partfile import fields_of_far

# What the vendor's streams write: words of MFWR for a copy, no-ops after one in block type 1, and FAR once startup is
# asked for.
WORDS_OF_COPY, NOPS_AFTER_BLOCK_COPY, PARKED = 4, 8, 0x03BE0000


class FrameRun(NamedTuple):
    """Frames from an address on, and copies of a frame after them."""

    far: int  # the address of the first
    data: bytes  # of the frames
    copies: list[int]  # the addresses of the copies


class Planned:
    """What a stream of `x7 plan full` or `plan partial` asks, step by step; any other stream is refused."""

    def __init__(self, path: str) -> None:
        self.data = whole(path).stream.data
        self.path = path
        self.settings: dict[int, int] = {}  # the words of the registers before the frames, by number
        self.runs: list[FrameRun] = []
        self.copies = False  # whether it copies frames
        self.is_full = False  # whether it is a stream of `plan full`
        self.left = [it for it in steps(self.data) if it.kind != "nop"]
        self.head = self.take("bytes")
        self.take("sync")
        self.begin()
        while self.next_is(CMD, "WCFG"):
            self.run()
        self.end()

    def refuse(self) -> NoReturn:
        """Refuses a stream whose sequences aren't known."""
        plans = "`x7 plan full` or `x7 plan partial`, which alone have sequences that are known here"
        raise Refused(f"{self.path} is no stream of {plans}")

    def take(self, kind: StepKind, register: int | None = None) -> Step:
        """Takes the next step, which has to be of a kind; answers its step."""
        if not self.left or self.left[0].kind != kind or register is not None and self.left[0].register != register:
            self.refuse()
        return self.left.pop(0)

    def words(self, register: int) -> tuple[int, ...]:
        """The words of the next write, which has to be one of a register."""
        return payload(self.data, self.take("write", register))

    def next_is(self, register: int, command: str | None = None) -> bool:
        """Whether the next step is a write of a register, of a command."""
        if not self.left or self.left[0].kind != "write" or self.left[0].register != register:
            return False
        return command is None or payload(self.data, self.left[0]) == (CODES[command],)

    def command(self, name: str) -> None:
        """Takes a command."""
        if not self.next_is(CMD, name):
            self.refuse()
        self.left.pop(0)

    def begin(self) -> None:
        """Takes what stands before the frames."""
        self.is_full = self.next_is(CMD, "SHUTDOWN")
        if self.is_full:
            self.command("SHUTDOWN")
        self.command("RCRC")
        for register in (IDCODE, COR0, MASK, CTL0) if self.is_full else (IDCODE,):
            (self.settings[register],) = self.words(register)

    def run(self) -> None:
        """Takes frames from an address on, and copies of a frame after them."""
        self.command("WCFG")
        (far,) = self.words(FAR)
        step = self.take("write", FDRI)
        step = self.take("write", FDRI) if step.word_count == 0 else step
        fars: list[int] = []
        if self.next_is(CMD, "MFW"):
            self.command("MFW")
            self.copies = True
            while self.next_is(FAR):
                fars += self.words(FAR)
                if self.words(MFWR) != (0,):
                    self.refuse()
            if fars[:1] != [far]:
                self.refuse()
        self.runs.append(FrameRun(far, self.data[step.first : step.end], fars))

    def end(self) -> None:
        """Takes what stands after the frames."""
        self.take("write", CRC)
        if self.is_full:
            self.command("LFRM")
            self.command("START")
            self.take("write", CRC)
        self.command("DESYNC")
        has_more = [it.kind for it in self.left] not in ([], ["bytes"])
        if has_more or self.left and set(self.data[self.left[0].place :]) - {0x20, 0}:
            self.refuse()
        if self.is_full and self.copies or not self.runs:
            self.refuse()


class StreamWriter:
    """The data of a stream as they are written."""

    def __init__(self, head: bytes) -> None:
        self.data = bytearray(head + SYNC)
        self.checks: list[int] = []  # the places of its checks

    def nops(self, count: int) -> None:
        """Appends no-ops."""
        self.data += NOP * count

    def command(self, name: str, nops: int = 0) -> None:
        """Appends a write of a command to CMD, and no-ops."""
        self.write(CMD, [CODES[name]], nops)

    def write(self, register: int, words: Sequence[int], nops: int = 0) -> None:
        """Appends a write of words to a register, and no-ops."""
        self.data += write_packet(register, words)
        self.nops(nops)

    def check(self) -> None:
        """Appends a write to CRC, whose word is filled in at the end, and two no-ops."""
        self.write(CRC, [0])
        self.checks.append(len(self.data) - 4)
        self.nops(2)

    def frame_data(self, data: bytes) -> None:
        """Frame data, by a type 1 packet where their number fits it."""
        count = len(data) // 4
        if count < 1 << 11:
            self.data += bytes_of([type1_header("write", FDRI, count)])
        else:
            self.data += bytes_of([type1_header("write", FDRI, 0), type2_header("write", count)])
        self.data += data


def write_runs(to: StreamWriter, runs: list[FrameRun]) -> None:
    """Writes runs of frames; FAR of the first stands before its WCFG, that of each further one after it."""
    (far, data, fars), *more = runs
    to.write(FAR, [far])
    to.command("WCFG", 1)
    write_frames(to, data, fars)
    for far, data, fars in more:
        to.command("WCFG", 1)
        to.write(FAR, [far], 1)
        write_frames(to, data, fars)


def write_frames(to: StreamWriter, data: bytes, fars: list[int]) -> None:
    """Writes frames at the address in FAR, and copies; the first copy stays at that address."""
    to.frame_data(data)
    if not fars:
        return
    to.command("MFW", 12)
    for number, it in enumerate(fars):
        if number:
            to.write(FAR, [it])
        count = WORDS_OF_COPY if number else 2 * WORDS_OF_COPY
        to.write(MFWR, [0] * count, NOPS_AFTER_BLOCK_COPY if fields_of_far(it).block == 1 else 0)


def in_vendor_form(planned: Planned) -> bytes:
    """The data of a planned stream in the vendor's sequences."""
    to, settings = StreamWriter(planned.data[: planned.head.end]), planned.settings
    to.nops(1)
    to.command("NULL", 1)
    to.command("RCRC", 2)
    if planned.is_full:
        to.write(COR0, [settings[COR0]])
    to.write(IDCODE, [settings[IDCODE]])
    if planned.is_full:
        to.command("SWITCH", 1)
        to.write(MASK, [settings[MASK]])
        to.write(CTL0, [settings[CTL0]])
    if planned.copies:
        to.write(MASK, [0x1000])
        to.write(CTL1, [0x1000])
    to.nops(8)
    write_runs(to, planned.runs)
    to.check()
    end_vendor_form(to, planned)
    return with_checks(bytes(to.data), to.checks)


def end_vendor_form(to: StreamWriter, planned: Planned) -> None:
    """Writes what stands after the frames."""
    if planned.is_full:
        to.command("GRESTORE", 1)
        to.command("LFRM", 100)
        to.command("START", 1)
        to.write(FAR, [PARKED])
        to.write(MASK, [planned.settings[MASK]])
        to.write(CTL0, [planned.settings[CTL0]])
    if planned.copies:
        to.write(MASK, [0x1000])
        to.write(CTL1, [0])
    if planned.is_full or planned.copies:
        to.check()
    to.command("DESYNC")
    to.nops(400 if planned.is_full else 16)
