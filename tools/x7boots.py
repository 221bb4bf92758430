"""Boots of copies of a flash by x7, for a tool that tries what a board will do. python3 (3.8), its library, and x7.

A watchdog counts time on a board and bytes in x7, so copies are booted with no watchdog armed (`unarmed` of x7asked);
x7times says what its time is beside that of a load.
"""
from __future__ import annotations

import os
import subprocess
from typing import NamedTuple

from x7formats import Report, read_report
from x7partfile import Part, read_part
from x7run import Refused, write_file
from x7shelf import part_file

# The bit of STAT that says that the interconnect is as configured (UG470, status register).
GHIGH_B = 1 << 7


class Ended(NamedTuple):
    """How a call of x7 ended."""

    status: int  # its status
    text: bytes  # what it wrote to standard output
    line: str  # what it said on standard error


class Bench:
    """x7, the part, and a folder for copies. The part is a part file, or a device of the shelf."""

    def __init__(self, program_path: str, part_named: str, folder: str) -> None:
        self.x7, self.part_path, self.folder = program_path, part_file(part_named), folder
        self.part: Part = read_part(self.part_path)

    def path(self, name: str) -> str:
        """The path of a copy."""
        return os.path.join(self.folder, name)

    def run(self, *words: str) -> Ended:
        """Runs x7."""
        try:
            done = subprocess.run(
                [self.x7, *words], stdin=subprocess.DEVNULL, stdout=subprocess.PIPE, stderr=subprocess.PIPE, check=False
            )  # fmt: skip
        except OSError as error:
            raise Refused(f"{self.x7} can't be run: {error.strerror}") from None
        return Ended(done.returncode, done.stdout, done.stderr.decode(errors="replace").strip())

    def report(self, what: str, done: Ended) -> Report:
        """The report that a call wrote, or the line with which x7 refused it."""
        if done.status > 1:
            raise Refused(done.line or f"x7 {what} ended with status {done.status}")
        if not done.text:
            raise Refused(f"{self.x7} {what} wrote no report: it is no x7")
        write_file(self.path("report"), done.text)
        return read_report(self.path("report"))

    def boot(self, flash: bytes) -> Report:
        """The report of a boot of a copy that holds this."""
        write_file(self.path("flash"), flash)
        return self.report("boot", self.run("boot", self.part_path, self.path("flash")))

    def play(self, data: bytes) -> Report:
        """The report of a play of these data of a stream."""
        write_file(self.path("stream"), data)
        return self.report("play", self.run("play", self.part_path, self.path("stream")))


def course(report: Report) -> list[tuple[str, int, str]]:
    """The attempts of a boot: the kind of each, its place in the flash, and its ending."""
    return [(it.kind, it.address, it.ending) for it in report.attempts]


def went(report: Report) -> str:
    """The course of a boot in words."""
    path = "; ".join(f"{kind} at {address:08X} {ending}" for kind, address, ending in course(report))
    return f"{path}; end {report.boot_end}"


def runs(report: Report) -> bool:
    """Whether the device runs: phase 7, and outputs, writes and interconnect are enabled."""
    is_on = (report.phase, report.done, report.gts, report.gwe) == (7, 1, 1, 1)
    return is_on and bool(report.registers["STAT"] & GHIGH_B)


def stands(report: Report) -> str:
    """What is enabled, in words."""
    lines = f"phase {report.phase} done {report.done} gts {report.gts} gwe {report.gwe}"
    return f"{lines} GHIGH_B {report.registers['STAT'] >> 7 & 1}"


def is_golden(report: Report) -> bool:
    """Whether a boot falls back from the update, and the golden stream starts and runs."""
    kinds = [it.kind for it in report.attempts]
    return kinds == ["power", "iprog", "fallback"] and report.boot_end == "started" and runs(report)
