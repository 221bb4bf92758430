"""What streams do to a device, but for its frames: the rules of docs/FORMATS.md on accesses, commands, checks, startup
and watchdog.

Neither x7 nor a part file is needed, so the faults Address and Overrun, Multi where the source of copies is missing,
and what frames hold aren't known here; x7frames has them."""
from __future__ import annotations

from typing import NamedTuple, TypeVar

import x7formats as x7
from x7parts import DEVICE_BITS

DESYNC, IPROG = x7.CODES["DESYNC"], x7.CODES["IPROG"]
MOST_READS = 1 << 24
KEPT = ["CTL0", "MASK", "COR0", "AXSS", "COR1", "WBSTAR", "TIMER", "CTL1", "BSPI"]
KEPT_NUMBERS = {x7.NUMBERS[name]: name for name in KEPT}

AnyDevice = TypeVar("AnyDevice", bound="Device")


class Written(NamedTuple):
    """A word that was written to a register other than those of frames."""

    after: int  # the place after it
    register: str  # the register's name
    word: int


class Command(NamedTuple):
    """A word that was written to CMD."""

    after: int  # the place after it
    word: str  # the command's name


def phase_after(ticks: int, cor0: int, lock: int, match: int) -> int:
    """The phase of startup after a number of ticks, with COR0, and the ticks that lock and match take."""
    phase, tick = 0, 0
    while tick < ticks and phase < 7:
        waits = cor0 >> 6 & 7 == phase and tick < lock or cor0 >> 9 & 7 == phase and tick < match
        phase += not waits
        tick += 1
    return phase


def ticks_to_the_end(cor0: int, lock: int, match: int) -> int:
    """How many ticks startup takes to phase 7."""
    return next(ticks for ticks in range(7, 8 + lock + match) if phase_after(ticks, cor0, lock, match) == 7)


def is_high(code: int, phase: int, done_phase: int) -> bool:
    """Whether outputs or writes are enabled in a phase, by the code of GTS_CYCLE or GWE_CYCLE."""
    return code != 7 and phase >= (done_phase if code == 6 else code + 1)


class Device:
    """A device that takes streams: how it ends, and what was written."""

    def __init__(self, idcode: int | None = None, lock: int = 0, match: int = 0) -> None:
        self.idcode = idcode  # of the device, where it is known
        self.lock = lock  # the ticks of startup until the clocks are locked
        self.match = match  # the ticks of startup until the impedance is matched
        self.registers = dict.fromkeys(KEPT, 0)  # the words of the registers that only keep theirs, by name
        self.command = 0  # the code in CMD
        self.check = x7.RunningCheck()
        self.end = ["searching"]  # the words after 'end' in a report
        self.taken = 0  # the bytes taken
        self.matched = False  # whether an IDCODE came, and none that differs
        self.reads = 0  # the words that reads asked for
        self.armed = False  # whether START came, and no DESYNC since
        self.begun: int | None = None  # the place at which startup began
        self.cor0 = 0  # COR0 as it was there
        self.shutdown = False  # whether a shutdown is pending
        self.ghigh = False  # whether the interconnect is as configured
        self.deadline: int | None = None  # the place at which the watchdog fires, where it runs
        self.loaded = 0  # the place at which its time was loaded
        self.written: list[Written] = []  # what was written, in order
        self.dropped: list[x7.Step] = []  # the writes of frames that CTL0 forbids
        self.frames: list[x7.Step] = []  # the writes of frames and copies that were taken
        self.checked = 0  # how many checks held

    # what was left

    @property
    def phase(self) -> int:
        """The phase of startup after the bytes taken, four bytes a tick."""
        ticks = 0 if self.begun is None else (self.taken - self.begun) // 4
        return phase_after(ticks, self.cor0, self.lock, self.match)

    @property
    def done_phase(self) -> int:
        """The phase in which DONE goes high."""
        return min((self.cor0 >> 12 & 7) + 1, 6)

    @property
    def gts(self) -> int:
        """Whether the outputs are on, as 0 or 1."""
        return int(is_high(self.cor0 >> 3 & 7, self.phase, self.done_phase))

    @property
    def gwe(self) -> int:
        """Whether flip-flops and memories can be written, as 0 or 1."""
        return int(is_high(self.cor0 & 7, self.phase, self.done_phase))

    @property
    def has_stopped(self) -> bool:
        """Whether a fault or IPROG ended the device's play."""
        return self.end[0] in ("fault", "iprog")

    @property
    def commands(self) -> list[Command]:
        """What was written to CMD, in order."""
        return [Command(it.after, x7.command_of(it.word)) for it in self.written if it.register == "CMD"]

    def last(self, register: str) -> Written | None:
        """The last word written to a register, or none."""
        return next((it for it in reversed(self.written) if it.register == register), None)

    # what it takes

    def play(self: AnyDevice, data: bytes) -> AnyDevice:
        """Takes the data of streams, one after the other, from the beginning."""
        for step in x7.steps(data):
            self.take(data, step)
            if self.has_stopped:
                return self
            self.taken = step.end
            self.watch(step.end)
            if self.has_stopped:
                return self
        return self

    def take(self, data: bytes, step: x7.Step) -> None:
        """Takes a step."""
        if step.kind != "write":
            self.watch(step.end)
        if self.has_stopped:
            return
        if step.kind == "sync":
            self.end = ["synced"]
        elif step.kind == "bad":
            self.stop(step.end, "fault", "Packet", f"{step.word:08X}")
        elif step.kind == "read":
            self.read(step)
        elif step.kind == "write" and step.register in (x7.FDRI, x7.MFWR):
            self.frame_data(data, step)
        elif step.kind == "write":
            self.write(data, step)

    def stop(self, after: int, *end: str) -> None:
        """Ends the play after this many bytes, where nothing ended it before."""
        if not self.has_stopped:
            self.end, self.taken = list(end), after

    def watch(self, after: int) -> None:
        """Lets the watchdog fire where its time is over and startup hasn't ended."""
        if self.deadline is None or after < self.deadline:
            return
        ticks = 0 if self.begun is None else (self.deadline - self.begun) // 4
        if phase_after(ticks, self.cor0, self.lock, self.match) != 7:
            self.stop(self.deadline, "fault", "Watchdog")

    def read(self, step: x7.Step) -> None:
        """Takes a read."""
        self.reads += step.word_count

    def frame_data(self, data: bytes, step: x7.Step) -> None:
        """Takes a write of frame data, or a copy."""
        if step.present:
            self.watch(step.first + 4)
        if step.present and not self.matched:
            self.stop(step.first + 4, "fault", "Id", f"{self.idcode or 0:08X}", "00000000")
        if self.has_stopped:
            return
        if step.present and self.registers["CTL0"] >> 5 & 1:
            self.dropped.append(step)
        elif step.present and (step.register == x7.MFWR or self.command == x7.CODES["WCFG"]):
            if step.register == x7.MFWR and self.command != x7.CODES["MFW"]:
                self.stop(step.first + 4, "fault", "Multi")
                return
            self.frames.append(step)
        self.check.write(data, step)

    def write(self, data: bytes, step: x7.Step) -> None:
        """Takes the words of a write to any other register."""
        number = step.register
        assert number is not None, "a write is one to a register"
        name = x7.REGISTERS[number]
        compared = iter(self.check.write(data, step))
        for at, word in enumerate(x7.payload(data, step)):
            after = step.first + 4 * at + 4
            self.watch(after)
            if self.has_stopped:
                return
            self.written.append(Written(after, name, word))
            self.store(number, word, after, next(compared, None))

    def store(self, number: int, word: int, after: int, compared: x7.Compared | None) -> None:
        """Stores a word, and lets its effects and faults follow."""
        if number in (x7.CTL0, x7.CTL1):
            name, mask = KEPT_NUMBERS[number], self.registers["MASK"]
            self.registers[name] = self.registers[name] & ~mask | word & mask
            if number == x7.CTL0 and self.registers["CTL0"] >> 6 & 1:
                self.stop(after, "fault", "Encrypted")
        elif number in KEPT_NUMBERS:
            self.registers[KEPT_NUMBERS[number]] = word
            if number == x7.TIMER:
                self.load_watchdog(after)
        elif number == x7.CRC and compared:
            self.compare(compared, after)
        elif number == x7.CBC:
            self.stop(after, "fault", "Encrypted")
        elif number == x7.IDCODE:
            self.identify(word, after)
        elif number == x7.FAR and self.command not in (DESYNC, IPROG):
            self.execute(self.command, after)
        elif number == x7.CMD:
            self.command = word & 31
            self.execute(self.command, after)

    def compare(self, compared: x7.Compared, after: int) -> None:
        """Compares the running check."""
        if compared.check != compared.word:
            self.stop(after, "fault", "Crc", f"{compared.check:08X}", f"{compared.word:08X}")
        else:
            self.checked += 1
            self.take_shutdown(after)

    def identify(self, word: int, after: int) -> None:
        """Compares a word of IDCODE, where the device is known."""
        if self.idcode is not None and (word ^ self.idcode) & DEVICE_BITS:
            self.stop(after, "fault", "Id", f"{self.idcode:08X}", f"{word:08X}")
        self.matched = True

    def load_watchdog(self, after: int) -> None:
        """Sets by TIMER the byte at which the watchdog fires, where it runs."""
        timer = self.registers["TIMER"]
        runs = timer >> 30 & 1 and timer & 0x3FFFFFFF
        self.deadline, self.loaded = after + 4 * (timer & 0x3FFFFFFF) if runs else None, after

    def take_shutdown(self, after: int) -> None:
        """Takes a shutdown that is pending; the watchdog, which stood still since phase 7, goes on."""
        if self.shutdown:
            if self.deadline is not None and self.begun is not None:
                ended = self.begun + 4 * ticks_to_the_end(self.cor0, self.lock, self.match)
                self.deadline += max(after - max(ended - 1, self.loaded), 0)
            self.shutdown = False
            self.begun = None
            self.armed = False
            self.ghigh = False

    def execute(self, command: int, after: int) -> None:
        """Executes a command."""
        name = x7.COMMANDS.get(command, "NULL")
        if name == "RCRC":
            self.take_shutdown(after)
        elif name == "SHUTDOWN":
            self.shutdown = True
        elif name in ("LFRM", "AGHIGH"):
            self.ghigh = name == "LFRM"
        elif name == "LTIMER":
            self.load_watchdog(after)
        elif name == "START":
            self.armed = True
            if not self.matched:
                self.stop(after, "fault", "Id", f"{self.idcode or 0:08X}", "00000000")
        elif name == "IPROG":
            self.stop(after, "iprog", f"{self.registers['WBSTAR']:08X}")
        elif name == "DESYNC":
            self.end = ["searching"]
            if self.armed and self.begun is None:
                self.begun, self.cor0 = after, self.registers["COR0"]
            self.armed = False
