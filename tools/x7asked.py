"""What a stream asks of a device: its IDCODEs, commands and checks, and whether it is whole. python3 (3.8) and its
library alone."""
from __future__ import annotations

from typing import NamedTuple

from x7device import Device
from x7formats import CMD, CODES, REGISTERS, SYNC, TIMER, Stream, checks_of, payload, steps, stream_alone, with_checks
from x7parts import is_7_series
from x7run import CALLED, Refused, read_file
from x7times import CFG_MON, Verdict, Watch, watch

# The bit of CTL0 that forbids a fallback (UG470, control register 0: ConfigFallback).
CONFIG_FALLBACK = 1 << 10
# The bits of COR0 with the clock of startup, 00 for CCLK (UG470, configuration options register 0: SSCLKSRC).
SSCLKSRC = 3 << 15

# What may stand before the first RCRC of a golden stream to which each failed update falls back (x7_recovery,
# specs/Clean).
LEAD, LEAD_COMMANDS = {"WBSTAR", "TIMER", "BSPI"}, {CODES["NULL"], CODES["BSPI_READ"], CODES["SHUTDOWN"]}


class Armed(NamedTuple):
    """A word of TIMER that the watchdog's count begins anew with."""

    after: int  # the place after the word, or after the command LTIMER
    timer: int  # the word


class Reader(Device):
    """A device that takes a stream to its end: no watchdog ends it, since that counts time and not bytes. It keeps each
    word with which one begins to count."""

    def __init__(self, ignores_iprog: bool = False) -> None:
        super().__init__()
        self.armed_by: list[Armed] = []
        self.ignores_iprog = ignores_iprog

    def load_watchdog(self, after: int) -> None:
        """Keeps the word of TIMER."""
        self.armed_by.append(Armed(after, self.registers["TIMER"]))

    def execute(self, command: int, after: int) -> None:
        """Executes a command; a fallback ignores IPROG."""
        if not (self.ignores_iprog and command == CODES["IPROG"]):
            super().execute(command, after)


class Asked:
    """What the data of a stream ask of a device: its IDCODEs, its commands, its checks and the words of CTL0. `wrong`
    says why it is for no 7-series device, or isn't whole, or nothing. With `ignores_iprog` it is read as a fallback
    reads it."""

    def __init__(self, stream: Stream, ignores_iprog: bool = False) -> None:
        self.stream, self.device = stream, Reader(ignores_iprog)
        self.device.play(stream.data)
        written = self.device.written
        self.idcodes: list[int] = [it.word for it in written if it.register == "IDCODE"]
        self.commands: list[str] = [it.word for it in self.device.commands]
        self.checks = sum(it.register == "CRC" for it in written)
        self.ctl0s: list[int] = [it.word for it in written if it.register == "CTL0"]
        self.cor0: int = self.device.registers["COR0"]
        self.bspi: int = self.device.registers["BSPI"]
        self.has_frames, self.reads = bool(self.device.frames), self.device.reads
        self.wrong = self.why_foreign() or self.why_not_whole()

    def sets(self, register: str) -> bool:
        """Whether it writes a register."""
        return any(it.register == register for it in self.device.written)

    def why_foreign(self) -> str:
        """Why the stream is for no 7-series device, by an IDCODE that it writes, or nothing."""
        foreign = [it for it in self.idcodes if not is_7_series(it)]
        return f"{foreign[0]:08X} is the IDCODE of no 7-series device" if foreign else ""

    def why_not_whole(self) -> str:
        """Why the stream isn't whole, or nothing."""
        header, data = self.stream
        end = self.device.end
        if header and header.length != len(data):
            return f"its header tells of {header.length} bytes of data, and it has {len(data)}"
        if SYNC not in data:
            return f"it has no sync word AA995566: it is no stream ({CALLED}turn knows packed and swapped ones)"
        if end == ["synced"]:
            return "its session doesn't end: no DESYNC, so it is cut off or lacks its end"
        if end[0] != "fault":
            return ""
        endings = {
            "Crc": "a check fails: the words before it have {0}, and the stream says {1}",
            "Packet": "{0} stands where a packet's header should: words were lost, or added",
            "Encrypted": "it is encrypted",
            "Id": "frames or START come before any IDCODE",
            "Multi": "a frame is to be copied (MFWR) under another command than MFW",
        }
        return f"{endings[end[1]].format(*end[2:])}, at byte {self.device.taken} of the data"

    def why_no_stream(self) -> str:
        """Why it is no whole stream for one device, or nothing."""
        if self.wrong:
            return self.wrong
        if not self.idcodes and "IPROG" in self.commands:
            return "it leads on to another address (IPROG) before any IDCODE: it is a flash image, and no stream"
        return self.why_no_idcode()

    def why_no_update(self) -> str:
        """Why no flash should be updated with the stream, whatever the device, or nothing."""
        no_check = "" if self.checks else "it has no check: damage isn't seen, and nothing falls back"
        return self.why_no_stream() or no_check

    def lead(self) -> list[str] | None:
        """What stands before the first RCRC and may not stand there in a golden stream; none where there is no RCRC."""
        found: list[str] = []
        for step in steps(self.stream.data):
            if step.kind != "write" or not step.present or step.register is None or REGISTERS[step.register] in LEAD:
                continue
            if step.register != CMD:
                found.append(REGISTERS[step.register])
                continue
            for word in payload(self.stream.data, step):
                if word == CODES["RCRC"]:
                    return found
                if word not in LEAD_COMMANDS:
                    found.append(f"CMD {word:08X}")
        return None

    def why_no_idcode(self) -> str:
        """Why the stream has no one IDCODE, or nothing."""
        if not self.idcodes:
            return "it writes no IDCODE"
        if len({it & 0xFFFFFFF for it in self.idcodes}) > 1:
            return "it writes different IDCODEs: " + ", ".join(f"{it:08X}" for it in sorted(set(self.idcodes)))
        return ""

    def idcode(self) -> int:
        """The IDCODE that the stream writes."""
        if self.why_no_idcode():
            raise Refused(self.why_no_idcode())
        return self.idcodes[0]

    @property
    def loaded(self) -> int:
        """How many bytes of the data a device has read when its startup begins; all where none begins."""
        begun: int | None = self.device.begun
        return len(self.stream.data) if begun is None else begun

    def watches(self, kept: int = 0) -> list[Watch]:
        """The watchdog's time beside that of what is read of the stream while it counts, for each word of TIMER, `kept`
        from before among them; where no watchdog runs, the time of the whole load."""
        begun = [Armed(0, kept), *(it for it in self.device.armed_by if it.after < self.loaded)]
        ends = [it.after for it in begun[1:]] + [self.loaded]
        found = [watch(it.timer, end - it.after, self.cor0, self.bspi) for it, end in zip(begun, ends)]
        return [it for it in found if it.verdict is not Verdict.OFF] or self.unwatched()

    def unwatched(self) -> list[Watch]:
        """The time of the whole load with no watchdog, as in a fallback."""
        return [watch(0, self.loaded, self.cor0, self.bspi)]


def asked_of(path: str) -> Asked:
    """What the stream of a file asks."""
    return Asked(stream_alone(path, read_file(path)))


def whole(path: str) -> Asked:
    """What the stream of a file asks, where nothing is wrong with it as a stream. A watchdog that the bytes of the file
    outlast is nothing wrong: on a board it counts time (x7times)."""
    asked = asked_of(path)
    if asked.wrong:
        raise Refused(f"{path}: {asked.wrong}")
    return asked


def unarmed(data: bytes) -> bytes:
    """Data in which no word of TIMER arms a watchdog, the checks that were right made anew: x7 counts bytes where a
    device counts time, so a boot is tried without."""
    changed = bytearray(data)
    for step in steps(data):
        if step.kind == "write" and step.register == TIMER:
            for at, word in enumerate(payload(data, step)):
                place = step.first + 4 * at
                changed[place : place + 4] = (word & ~CFG_MON).to_bytes(4, "big")
    if changed == data:
        return data
    return with_checks(bytes(changed), [it.place for it in checks_of(data) if it.check == it.word])
