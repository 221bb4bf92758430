"""Random histories for tests: parts, and the streams of a play or the bytes of a flash, as pieces of an assembly text.
A seed always leads to the same history, and what is left of one whose pieces are dropped is still one."""
from __future__ import annotations

import itertools
import random
from typing import List, Mapping

from casefiles import TOOLS as TOOLS  # (it puts the tools on the path)
import x7formats as x7
from x7partfile import Part, part_of as part_of
from streams import bytes_of_lines, command, data_lines

# lines of an assembly text
Piece = List[str]
NEXT = "# the next stream"
TURN = 65536  # bytes that x7 reads of a stream at a time
PART_ROWS = [(block, half, row) for block in range(3) for half in range(2) for row in range(3)]


def part_text(rng: random.Random) -> str:
    """A part file of a few small rows."""
    keys: dict[str, object] = {"name": '"small"', "idcode": rng.getrandbits(32) | 1}
    for key, most in (("mode", 7), ("bus_width", 3), ("lock", 12), ("match", 12)):
        if rng.random() < 0.5:
            keys[key] = rng.randint(0, most)
    if rng.random() < 0.8:
        keys["frame_words"] = rng.choice([2, 2, 3, 3, 4, 5, 9, 101])
    if rng.random() < 0.5:
        widths = [rng.randint(7, 12), rng.randint(10, 12), rng.randint(5, 7), 1, rng.randint(2, 3)]
        keys["far"] = widths if sum(widths) <= 32 else [12, 10, 5, 1, 3]
    if rng.random() < 0.3:
        keys["start_unit"] = rng.choice([1, 256])
    lines = [f"{key} = {value}" for key, value in keys.items()]
    for block, half, row in rng.sample(PART_ROWS, rng.randint(1, 4)):
        minors = [rng.randint(1, 3) for _ in range(rng.randint(1, 3))]
        lines += ["[[row]]", f"block = {block}", f"half = {half}", f"row = {row}", f"minors = {minors}"]
    return "\n".join([*lines, ""])


class Maker:
    """Makes pieces, each a list of lines. A tame one keeps what stops a device seldom."""

    def __init__(self, rng: random.Random, part: Part, is_tame: bool) -> None:
        self.rng = rng
        self.part = part
        self.is_tame = is_tame
        self.addresses = part.addresses()  # those of the part, in order

    def is_wild(self, chance: float) -> bool:
        """Whether to do what mostly stops a device."""
        return self.rng.random() < (chance / 8 if self.is_tame else chance)

    def word(self) -> int:
        """A word: all bits alike, few bits, or any."""
        few = self.rng.getrandbits(5)
        return self.rng.choice([0, 0xFFFFFFFF, few, self.rng.getrandbits(32), self.rng.getrandbits(32)])

    # packets

    def packet(self, kind: str, register: str, count: int) -> Piece:
        """The header of a packet: of type 1, also with bits that have no effect, or of type 2."""
        way, number = self.rng.random(), x7.NUMBERS[register]
        if way < 0.25 or count > 0x7FF:
            first = self.rng.choice([0, 0, 1]) if kind == "read" else 0
            return [f"{kind} {register} {first}", *["nop"] * self.rng.choice([0, 0, 2]), f"{kind}2 {count}"]
        if way < 0.3:
            bits = self.rng.getrandbits(32) & 0x07FC1800
            return [f"word {x7.type1_header(kind, number, count) | bits:08X}"]
        return [f"{kind} {register} {count}"]

    def write(self, register: str, words: list[int]) -> Piece:
        """A write of these words to a register."""
        return self.packet("write", register, len(words)) + data_lines(words)

    def order(self, name: str) -> Piece:
        """A command, at times with bits that have no effect."""
        if self.rng.random() < 0.9:
            return command(name)
        return self.write("CMD", [self.rng.getrandbits(27) << 5 | x7.CODES[name]])

    def address(self) -> int:
        """A word for FAR."""
        if self.is_wild(0.2):
            near = [self.addresses[-1] + 1, self.addresses[0] + 1]
            return self.rng.choice([self.rng.getrandbits(32), near[0], near[1] + self.rng.getrandbits(3)])
        far = self.rng.choice(self.addresses)
        return far | (self.rng.getrandbits(32) << sum(self.part.far) & 0xFFFFFFFF if self.rng.random() < 0.1 else 0)

    def frame_words(self, most: int) -> list[int]:
        """Words for some frames, and at times a part of one."""
        size = self.part.frame_words
        count = size * self.rng.randint(0, most) + self.rng.choice([0, 0, 0, 1, size - 1])
        words = [self.rng.getrandbits(32) for _ in range(count)]
        for at in range(0, count, size):
            if self.rng.random() < 0.15:
                words[at : at + size] = [0] * len(words[at : at + size])
        return words

    # pieces

    def far(self) -> Piece:
        """A write of one frame address, or of two, to FAR."""
        return self.write("FAR", [self.address() for _ in range(self.rng.choice([1, 1, 1, 1, 2]))])

    def any_command(self) -> Piece:
        """One of all commands, those of frames most often."""
        names = ["WCFG"] * 4 + ["MFW"] * 3 + ["RCFG"] * 3
        names += ["RCRC", "LFRM", "AGHIGH", "START", "SHUTDOWN", "LTIMER", "NULL", "GRESTORE", "SWITCH"]
        names += ["RCAP", "GCAPTURE", "CRCC", "BSPI_READ", "FALL_EDGE", "DESYNC", "IPROG"]
        name = self.rng.choice(names)
        return self.order("NULL" if name == "IPROG" and not self.is_wild(0.5) else name)

    def again(self) -> Piece:
        """A command that FAR loads execute again, and that something comes between."""
        between = self.rng.choice([self.any_write, self.read, self.session, self.options, self.shutdown])
        name = self.rng.choice(["RCRC", "RCRC", "START", "SHUTDOWN", "LTIMER", "LFRM", "AGHIGH", "DESYNC"])
        return self.order(name) + (self.gap() if name == "DESYNC" else between()) + self.far() + self.read()

    def frames(self) -> Piece:
        """Frame data, mostly after WCFG and FAR, and at times in several packets with others between them."""
        lines = self.order("WCFG") if self.rng.random() < 0.7 else []
        lines += self.far() if self.rng.random() < (0.85 if self.is_tame else 0.6) else []
        lines += self.write("FDRI", self.frame_words(len(self.part.slots()) + 1 if self.is_wild(0.3) else 4))
        while self.rng.random() < 0.3:
            lines += self.rng.choice([self.read, self.controls, self.filler])()
            lines += self.write("FDRI", self.frame_words(2))
        return lines

    def copies(self) -> Piece:
        """Copies of a frame, mostly after the frame that is their source."""
        lines: Piece = []
        if self.is_tame or self.rng.random() < 0.7:
            lines += self.order("WCFG") + self.far()
            words = self.frame_words(3)
            lines += self.write("FDRI", words + [self.rng.getrandbits(32) for _ in range(self.part.frame_words)])
            lines += self.order("MFW")
            if self.rng.random() < 0.06:
                lines += self.order(self.rng.choice(["MFW", "NULL"])) + self.order("MFW")
        for _ in range(self.rng.randint(1, 3)):
            lines += self.far() if self.rng.random() < 0.8 else []
            lines += self.write("MFWR", [self.word() for _ in range(self.rng.choice([1, 1, 4]))])
        return lines

    def readback(self) -> Piece:
        """Reads of frame data, mostly after RCFG and FAR."""
        lines = self.order("RCFG") if self.rng.random() < 0.8 else []
        lines += self.far() if self.rng.random() < (0.85 if self.is_tame else 0.6) else []
        size = self.part.frame_words
        for _ in range(self.rng.choice([1, 1, 2, 3])):
            count = self.rng.choice([size * self.rng.randint(0, 6), self.rng.randint(0, 3 * size)])
            lines += self.packet("read", "FDRO", count) + (self.read() if self.rng.random() < 0.3 else [])
        return lines

    def read(self) -> Piece:
        """A read of a register, mostly of one that other pieces change."""
        known = ["FAR", "FAR", "STAT", "STAT", "CRC", "CTL0", "CMD", "TIMER", "BOOTSTS"]
        register = self.rng.choice([*known, self.rng.choice(x7.REGISTERS)])
        register = "CRC" if register == "FDRO" else register
        return self.packet("read", register, self.rng.choice([0, 1, 1, 1, 2]))

    def any_write(self) -> Piece:
        """A write of words to any register that doesn't ask for frames."""
        others = ("FDRI", "MFWR", "CMD", "FAR", "IDCODE", "CRC", "CBC", "TIMER", "CTL0")
        registers = [it for it in x7.REGISTERS if it not in others]
        register = "CBC" if self.is_wild(0.05) else self.rng.choice(registers)
        return self.write(register, [self.word() for _ in range(self.rng.choice([0, 1, 1, 1, 2, 9]))])

    def controls(self) -> Piece:
        """MASK and CTL0, at times with SBITS and DEC."""
        mask, word = self.word() & ~0x40, self.word()
        if self.is_wild(0.1):
            mask |= 0x40
        if self.is_tame and self.rng.random() < 0.8:
            mask, word = mask | 0x30, word & ~0x30
        lines = self.write("MASK", [mask]) if self.rng.random() < 0.7 else []
        return lines + self.write("CTL0", [word]) if mask & 0x40 == 0 or self.is_wild(0.5) else lines

    def options(self) -> Piece:
        """A write to COR0."""
        return self.write("COR0", [self.rng.choice([0x02003FE5, self.rng.getrandbits(32), self.rng.getrandbits(32)])])

    def check(self) -> Piece:
        """A word for CRC, which is mostly the right one; seldom two, of which the second is 0."""
        if self.is_wild(0.3):
            return self.write("CRC", [self.word()])
        return ["crc", *(self.write("CRC", [0]) if self.rng.random() < 0.1 else [])]

    def identification(self) -> Piece:
        """A write to IDCODE: of the part in any version, or seldom of another one."""
        word = self.part.idcode ^ (self.rng.getrandbits(4) << 28)
        return self.write("IDCODE", [word ^ (1 << self.rng.randint(0, 31)) if self.is_wild(0.15) else word])

    def timer(self) -> Piece:
        """A word for TIMER, with few words as its time where it may fire."""
        time = self.rng.choice([0, self.rng.randint(1, 80), self.rng.randint(60, 2000), self.rng.randint(60, 2000)])
        return self.write("TIMER", [self.rng.getrandbits(1) << 31 | self.rng.choice([0, 1, 1]) << 30 | time])

    def filler(self) -> Piece:
        """Words without effect, or seldom no packet."""
        if self.is_wild(0.2):
            words = [0x20000005, 0x40000001, 0x50000001, 0x7ABCDEF0, 0x38000000, 0xAA995567]
            return [f"word {self.rng.choice(words):08X}"]
        nops = ["nop"] * self.rng.randint(1, 9)
        return self.rng.choice([nops, ["word FFFFFFFF"], ["sync"], ["word 00000000"], ["word 2000BEEF"]])

    def gap(self) -> Piece:
        """Bytes that are no word of a session, and the sync word."""
        made = [b"", b"\xff" * self.rng.randint(1, 40), bytes.fromhex("000000BB11220044") + b"\xff" * 8]
        made += [b"\xaa", b"\xaa\x99", b"\xaa\xaa\x99\x55"]
        made += [bytes(self.rng.getrandbits(8) for _ in range(self.rng.randint(1, 9)))]
        given = self.rng.choice(made)
        lines = ["bytes " + given[at : at + 32].hex().upper() for at in range(0, len(given), 32)]
        return lines + ["sync"]

    def session(self) -> Piece:
        """The end of a session, and the beginning of the next."""
        return self.order("DESYNC") + self.gap()

    def startup(self) -> Piece:
        """What startup asks for, and bytes for its ticks."""
        lines = self.options() if self.rng.random() < 0.6 else []
        lines += self.order("START") + (self.check() if self.rng.random() < 0.3 else []) + self.order("DESYNC")
        lines += ["bytes " + "FF" * self.rng.randint(1, 32) for _ in range(self.rng.randint(0, 3))]
        return lines + ["sync", *self.read()] if self.rng.random() < 0.8 else lines

    def shutdown(self) -> Piece:
        """A SHUTDOWN, with time to take effect or without, and then a check, a FAR or nothing."""
        lines = self.order("SHUTDOWN") + (self.filler() if self.rng.random() < 0.4 else [])
        return lines + self.rng.choice([self.order("RCRC"), ["crc"], self.far(), []])

    def leap(self) -> Piece:
        """A start address, and IPROG."""
        address = self.rng.choice([self.rng.randint(0, 2000), self.rng.randint(0, 8), self.rng.getrandbits(32)])
        return self.write("WBSTAR", [address]) + (self.order("IPROG") if self.rng.random() < 0.7 else [])

    def cut(self) -> Piece:
        """A packet whose payload isn't all there, and an end within a word."""
        register = self.rng.choice(["FDRI", "FAR", "CMD", "COR0", "AXSS", "LOUT", "MFWR"])
        words = [self.rng.getrandbits(32) & ~0x1F for _ in range(self.rng.randint(0, 3))]
        lines = self.packet("write", register, len(words) + self.rng.randint(1, 3)) + data_lines(words)
        return lines + (["bytes " + "00" * self.rng.randint(1, 3)] if self.rng.random() < 0.5 else [])


PIECES = {
    "frames": 8, "copies": 4, "readback": 6, "far": 4, "any_command": 8, "read": 5, "any_write": 5, "controls": 3,
    "options": 2, "check": 4, "again": 3, "identification": 1, "timer": 2, "filler": 3, "session": 2, "startup": 3,
    "shutdown": 2,
}


def pieces_of(rng: random.Random, part: Part, more: Mapping[str, float] | None = None) -> list[Piece]:
    """The pieces of one or more streams."""
    maker = Maker(rng, part, rng.random() < 0.7)
    found: list[Piece] = []
    weights: dict[str, float] = {**PIECES, **(more or {})}
    if rng.random() < 0.08:
        rows = ["bytes " + "FF" * 32] * ((TURN - rng.randint(0, 1200)) // 32)
        found.append([*rows, "bytes " + "FF" * rng.randint(1, 32)])
    for number in range(rng.choice([1, 1, 1, 2, 3])):
        if number:
            found.append([NEXT])
        if rng.random() < 0.9 or not number:
            found.append(maker.gap())
        if rng.random() < 0.9:
            found.append(maker.identification())
        elif rng.random() < 0.5:
            found.append(maker.write("FDRI", maker.frame_words(2)))
        for name in rng.choices(list(weights), list(weights.values()), k=rng.randint(1, 20)):
            found.append(getattr(maker, name)())
        if rng.random() < 0.15:
            found.append(maker.cut())
        elif rng.random() < 0.8:
            found.append(maker.order("DESYNC"))
    return found


def lines_of(pieces: list[Piece]) -> list[str]:
    """The lines of all pieces, in their order."""
    return [line for piece in pieces for line in piece]


def streams_of(lines: list[str]) -> list[bytes]:
    """The data of each stream of these lines, checks made as if they were one."""
    groups: list[list[str]] = [[]]
    for line in lines:
        if line == NEXT:
            groups.append([])
        else:
            groups[-1].append(line)
    sizes = [len(bytes_of_lines(group)[0]) for group in groups]
    data, made = bytes_of_lines([line for line in lines if line != NEXT])
    whole = x7.with_checks(data, made)
    ends = list(itertools.accumulate(sizes))
    return [whole[first:end] for first, end in zip([0, *ends], ends)]


def play_history(seed: int) -> tuple[str, list[Piece]]:
    """A part file and the pieces of the streams of a play."""
    rng = random.Random(seed)
    text = part_text(rng)
    return text, pieces_of(rng, part_of(text), {"leap": 0.5})


def boot_history(seed: int) -> tuple[str, list[Piece]]:
    """A part file and the pieces of a flash."""
    rng = random.Random(seed)
    text = part_text(rng)
    return text, pieces_of(rng, part_of(text), {"leap": 3, "startup": 6, "timer": 3})
