"""The whole report of `x7 play`, and the text of `x7 boot`, frames included, by the rules of docs/FORMATS.md: a plain
program, with which test_histories.py compares x7. It takes word by word, so it is for small parts."""
from __future__ import annotations

import itertools
from typing import Iterable, Iterator, NamedTuple, Sequence

from casefiles import TOOLS as TOOLS  # (it puts the tools on the path)
import x7formats as x7
from x7device import Device, ticks_to_the_end
from x7fields import STARTUP_STATES
from x7frames import WCFG, PartFrames
from x7partfile import Part

RCFG = x7.CODES["RCFG"]
SHOWN = [
    "CRC", "FAR", "CMD", "CTL0", "MASK", "STAT", "COR0", "IDCODE", "AXSS", "COR1", "WBSTAR", "TIMER", "BOOTSTS", "CTL1",
    "BSPI",
]
FALLBACKS = ("Id", "Crc", "Watchdog")
MOST_ATTEMPTS = 16


class Start(NamedTuple):
    """How a device begins."""

    kind: str  # of the attempt: 'bench', 'power', 'iprog' or 'fallback'
    kept: dict[str, int]  # the registers that it keeps of the attempt before
    before: int  # the low byte of BOOTSTS of the attempt before


BENCH = Start("bench", {}, 0)


def words_of_step(step: x7.Step) -> list[x7.Step]:
    """Each word of a write as a step of its own; any other step alone."""
    if step.kind != "write" or not step.present:
        return [step]
    return [step._replace(first=at, present=1, end=at + 4) for at in range(step.first, step.end, 4)]


class PartDevice(Device):
    """A device of a part, with its frames."""

    frames_kind = PartFrames

    def __init__(self, part: Part, start: Start = BENCH) -> None:
        super().__init__(part.idcode, part.lock, part.match)
        self.part = part
        self.start = start  # how it began
        self.part_frames = self.frames_kind(part)  # the frames, and those on their way
        self.words_out: list[int] = []  # what was read
        self.started: int | None = None  # the place at which startup came to phase 7
        self.ignored = False  # whether an IPROG was ignored
        self.wrapped = False  # whether the flash's end came
        self.registers.update(start.kept)
        self.load_watchdog(0)

    # accesses

    def take(self, data: bytes, step: x7.Step) -> None:
        """Takes a step, word by word, and looks where phase 7 comes."""
        for one in words_of_step(step):
            self.watch(one.end)
            if self.has_stopped:
                return
            self.look_for_the_end(one.end - 1)
            self.taken = one.end
            super().take(data, one)
            self.look_for_the_end(one.end)
            if self.has_stopped:
                return

    def look_for_the_end(self, after: int) -> None:
        """Keeps the first place at which startup has come to phase 7."""
        if self.started is None and self.begun is not None:
            place = self.begun + 4 * ticks_to_the_end(self.cor0, self.lock, self.match)
            self.started = place if place <= after else None

    def frame_data(self, data: bytes, step: x7.Step) -> None:
        """Takes a write of a word to FDRI or MFWR."""
        self.check.write(data, step)
        for word in x7.payload(data, step):
            if not self.matched:
                self.stop(step.end, "fault", "Id", f"{self.part.idcode:08X}", "00000000")
            elif self.registers["CTL0"] >> 5 & 1:
                pass
            elif step.register == x7.MFWR:
                self.refuse(step.end, self.part_frames.copy())
            elif self.command == WCFG:
                self.refuse(step.end, self.part_frames.add(word.to_bytes(4, "big")))

    def refuse(self, after: int, fault: Sequence[str]) -> None:
        """Ends the play at a fault of frames, where there is one."""
        if fault:
            self.stop(after, "fault", *fault)

    def store(self, number: int, word: int, after: int, compared: x7.Compared | None) -> None:
        """Stores a word; FAR and CMD begin a run."""
        if number in (x7.FAR, x7.CMD):
            self.part_frames.store(number, word)
        super().store(number, word, after, compared)

    def execute(self, command: int, after: int) -> None:
        """Executes a command; a fallback ignores IPROG."""
        if command == x7.CODES["IPROG"] and self.start.kind == "fallback":
            self.ignored = True
        else:
            super().execute(command, after)

    def load_watchdog(self, after: int) -> None:
        """A fallback has no watchdog."""
        if self.start.kind != "fallback":
            super().load_watchdog(after)

    def read(self, step: x7.Step) -> None:
        """Takes a read."""
        assert step.register is not None, "a read is one of a register"
        name = x7.REGISTERS[step.register]
        if step.word_count:
            is_frames = name == "FDRO"
            count = step.word_count
            self.words_out += self.read_back(count, step.end) if is_frames else [self.value(name)] * count

    def read_back(self, count: int, after: int) -> list[int]:
        """The words of a read of FDRO; zeros where CMD isn't RCFG or SBITS isn't 00."""
        if self.command != RCFG or self.registers["CTL0"] >> 4 & 3:
            return [0] * count
        fault = self.part_frames.address_fault()
        self.refuse(after, fault)
        return [] if fault else self.part_frames.read_back(count)

    # what it shows

    def is_fault(self, name: str) -> bool:
        """Whether a fault of this name ended the play."""
        return self.end[:2] == ["fault", name]

    def value(self, name: str) -> int:
        """A register as it is read; 0 where nothing can be read."""
        if name == "CRC":
            return int(self.end[2], 16) if self.is_fault("Crc") else self.check.value
        if name == "FAR":
            return self.part_frames.far()
        if name == "STAT":
            return self.status()
        if name == "BOOTSTS":
            return self.boot_byte() | self.start.before << 8
        return {**self.registers, "CMD": self.command, "IDCODE": self.part.idcode}.get(name, 0)

    def status(self) -> int:
        """The word of STAT."""
        ticks = 0 if self.begun is None else (self.taken - self.begun) // 4
        bits = {
            0: self.is_fault("Crc"), 2: ticks >= self.lock, 3: ticks >= self.match, 4: self.phase == 7, 5: self.gts,
            6: self.gwe, 7: self.ghigh, 8: self.part.mode, 11: 1, 12: not self.is_fault("Crc"), 13: self.done,
            14: self.done, 15: self.is_fault("Id"), 18: STARTUP_STATES[self.phase], 25: self.part.bus_width,
        }
        return sum(int(value) << low for low, value in bits.items())

    @property
    def done(self) -> int:
        """Whether DONE is high, as 0 or 1."""
        return int(self.phase >= self.done_phase)

    def boot_byte(self) -> int:
        """The seven bits of BOOTSTS of this attempt."""
        if self.start.kind == "bench":
            return 0
        bits = [
            True, self.start.kind == "fallback", self.start.kind == "iprog" or self.ignored,
            self.is_fault("Watchdog"), self.is_fault("Id"), self.is_fault("Crc"), self.wrapped,
        ]
        return sum(bit << at for at, bit in enumerate(bits))

    def report(self, words_out: list[int]) -> Iterator[str]:
        """The lines of the report, with these words read out."""
        yield from [f"part {self.part.name}", f"taken {self.taken}", f"end {' '.join(self.end)}"]
        yield f"phase {self.phase} done {self.done} gts {self.gts} gwe {self.gwe}"
        yield from (f"reg {name} {self.value(name):08X}" for name in SHOWN)
        yield f"reads {len(words_out)}"
        yield from x7.rows("data", "".join(f"{it:08X}" for it in words_out), 64, 8)
        shown = {far: frame for far, frame in self.part_frames.memory().items() if any(frame)}
        yield f"frames {len(shown)}"
        yield from x7.frames_text(shown).splitlines()


def text_of(lines: Iterable[str]) -> str:
    """Lines as a text, each with its end."""
    return "".join(f"{line}\n" for line in lines)


def play(part: Part, data: bytes, device: type[PartDevice] = PartDevice) -> tuple[str, int]:
    """The report of `x7 play`, and its status."""
    it = device(part).play(data)
    return text_of(it.report(it.words_out)), int(it.end[0] == "fault")


def attempt(part: Part, start: Start, data: bytes, device: type[PartDevice] = PartDevice) -> tuple[str, PartDevice]:
    """An attempt of a boot over the bytes from its address on: how it ends, and its device as it then is."""
    it = device(part, start).play(data)
    if it.started is not None:
        return "started", device(part, start).play(data[: it.started])
    if it.end[0] == "iprog":
        return "iprog", it
    if it.end[0] == "fault" and it.end[1] in FALLBACKS:
        return it.end[1].lower(), it
    it.wrapped = True
    return "wrap", it


def boot(part: Part, flash: bytes, device: type[PartDevice] = PartDevice) -> tuple[str, int]:
    """The text of `x7 boot`, and its status."""
    lines, address, start = [f"boot {part.name}"], 0, Start("power", {}, 0)
    for number in itertools.count(1):
        ending, it = attempt(part, start, flash[address:], device)
        lines.append(f"attempt {number} {start.kind} {address:08X} {ending}")
        if ending == "started" or ending == "iprog" and number >= MOST_ATTEMPTS:
            end = "started" if ending == "started" else "loop"
            break
        if ending != "iprog" and (start.kind == "fallback" or it.registers["CTL0"] >> 10 & 1):
            end = "stopped"
            break
        wbstar = it.registers["WBSTAR"]
        place = wbstar & 0x1FFFFFFF if part.start_unit == 1 else (wbstar & 0xFFFFFF) * 256
        kept = {name: it.registers[name] for name in ("WBSTAR", "TIMER", "BSPI")}
        start = Start("iprog" if ending == "iprog" else "fallback", kept, it.boot_byte())
        address = place if ending == "iprog" else 0
    return text_of([*lines, f"end {end}", *it.report([])]), int(end != "started")
