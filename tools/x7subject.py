"""What `why` is asked about: streams, or listings of such, the report of their play, where there is one, and the part;
and what becomes of the device."""
from __future__ import annotations

import functools
import os
from typing import NamedTuple

import x7formats as x7
from x7device import Device
from x7partfile import Part

# bits of STAT: MMCM_LOCK, the clocks are locked, and DCI_MATCH, the impedance is matched
LOCKED, MATCHED = 1 << 2, 1 << 3
# what a report of another program may lack
USED = ("COR0", "CTL0", "TIMER", "STAT", "WBSTAR")


class Untimed(Device):
    """A device without frames whose watchdog doesn't run: of a watchdog `why` judges by seconds."""

    def load_watchdog(self, after: int) -> None:
        """Lets the watchdog be."""


class Written(NamedTuple):
    """A word that a stream writes to a register."""

    after: int  # the place after it in the data of all streams
    word: int


class Source:
    """A stream, or the listing of one."""

    def __init__(self, path: str, stream: x7.Stream, is_listing: bool, first: int) -> None:
        self.path = path  # of the file
        self.name = os.path.basename(path)  # as it is shown
        self.header = stream.header  # of the .bit file, or none
        self.data = stream.data  # without the header
        self.is_listing = is_listing  # whether the file is a listing
        self.first = first  # where its data begin in those of all streams

    @property
    def header_count(self) -> int:
        """How many bytes of data the header tells of; 0 without a header."""
        return self.header.length if self.header else 0

    @property
    def lost(self) -> int:
        """How many bytes fewer there are than the header tells of; below 0 where there are more; 0 without a header."""
        return self.header.length - len(self.data) if self.header else 0

    @property
    def part(self) -> str:
        """The part that the header names, or nothing."""
        return x7.text_of(self.header.part) if self.header else ""

    @property
    def date(self) -> str:
        """The date and time in the header, or nothing."""
        return f"{x7.text_of(self.header.date)} {x7.text_of(self.header.time)}".strip() if self.header else ""

    @functools.cached_property
    def steps(self) -> list[x7.Step]:
        """The steps of its data."""
        return list(x7.steps(self.data))

    @functools.cached_property
    def alone(self) -> Device:
        """A device without frames that took this stream alone, whatever its IDCODE."""
        return Untimed().play(self.data)

    @property
    def is_whole(self) -> bool:
        """Whether the stream has sessions, all of which come to their end."""
        return self.alone.end == ["searching"] and bool(self.alone.written)

    def writes(self, register: int) -> list[Written]:
        """What it writes to a register, each packet's first word."""
        found = [it for it in self.steps if it.kind == "write" and it.register == register and it.present]
        return [Written(self.first + it.first + 4, x7.word_at(self.data, it.first)) for it in found]

    @property
    def has_frames(self) -> bool:
        """Whether it writes frames."""
        return any(it.kind == "write" and it.register in (x7.FDRI, x7.MFWR) for it in self.steps)

    @property
    def idcode(self) -> Written | None:
        """The first IDCODE that it writes, or none."""
        return next(iter(self.writes(x7.IDCODE)), None)


class Fate(NamedTuple):
    """What becomes of the device."""

    end: list[str]  # the words after 'end' of a report
    taken: int  # bytes of the data of all streams
    phase: int  # of startup, 0 to 7
    gts: int  # 1 where the outputs are enabled
    gwe: int  # 1 where flip-flops and memories can be written
    ghigh: int  # 1 where the interconnect is on
    registers: dict[str, int]  # by name


class Subject:
    """What is asked about: the streams, what they do to a device, and the report, where there is one."""

    def __init__(
        self, sources: list[Source], report: x7.Report | None, part: Part | None, is_of_shelf: bool = False,
    ) -> None:
        self.sources = sources  # in the order of the play
        self.report = report  # of their play, boot or SVF text, or none
        self.part = part  # that they were played on, where it is known
        self.is_of_shelf = is_of_shelf  # whether the part was found by the IDCODE of a stream, and not given
        self.data = sources[0].data if len(sources) == 1 else b"".join(it.data for it in sources)  # of all streams
        # whether the report is a play's
        self.is_play = report is not None and not report.attempts and report.svf is None

    @functools.cached_property
    def device(self) -> Device:
        """A device without frames that took the streams; its watchdog doesn't run."""
        reported = self.report.registers.get("IDCODE") if self.report else None
        known = self.part.idcode if self.part else reported
        return Untimed(known, self.part.lock if self.part else 0, self.part.match if self.part else 0).play(self.data)

    @functools.cached_property
    def fate(self) -> Fate:
        """What becomes of the device: by the report, or where there is none by the device without frames."""
        return fate_of_report(self.report) if self.report else fate_of_device(self.device)

    def source_at(self, after: int) -> Source | None:
        """The stream that the byte before a place stands in, or none."""
        return next((it for it in self.sources if it.first < after <= it.first + len(it.data)), None)

    def has(self, name: str) -> bool:
        """Whether a command was executed."""
        return any(it.word == name for it in self.device.commands)

    def place(self, after: int) -> str:
        """A place as a text: the byte, the line of the listing, and the header of its packet."""
        source = self.source_at(after)
        if source is None:
            return f"byte {after} of the data of all streams, which isn't in these"
        at, found = after - source.first, self.line(source, after - source.first)
        several = len(self.sources) > 1
        text = f"byte {at} of the data{f' of {source.name}' if several else ''}"
        if found is None:
            return text
        whose = "its" if several else "the"
        head = f", of '{found.head}'" if found.head else ""
        return f"{text}, line {found.number} of {whose} listing: '{found.text[:60]}'{head}"

    @staticmethod
    def line(source: Source, at: int) -> x7.ListedLine | None:
        """The line of a stream's listing that the byte before a place stands in."""
        return x7.listed_line_at(source.path, at) if source.is_listing else x7.line_at(
            x7.Stream(source.header, source.data), at,
        )


def fate_of_report(report: x7.Report) -> Fate:
    """What a report says of the device; a register that it lacks counts as 0."""
    registers = {**dict.fromkeys(USED, 0), **report.registers}
    return Fate(report.end, report.taken, report.phase, report.gts, report.gwe, registers["STAT"] >> 7 & 1, registers)


def fate_of_device(it: Device) -> Fate:
    """What the streams do to a device without frames."""
    return Fate(it.end, it.taken, it.phase, it.gts, it.gwe, int(it.ghigh), {**it.registers, "STAT": LOCKED | MATCHED})
