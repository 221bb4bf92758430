#!/usr/bin/env python3
"""Tests the device without frames against every report of the repository's worked cases: taken, end, phase, and
registers; and the whole report of a plain program, frames included, against those of short streams."""
from __future__ import annotations

import os
import tempfile

from casefiles import DATA, Case, Tally, all_cases, line_text, put_file
import x7formats as x7
from x7device import KEPT, Device
from x7partfile import Part, read_part
import x7report

tally = Tally()
FRAME_FAULTS = ("Address", "Overrun", "Multi")
SHORT, MOST_READS = 20000, 100000


def in_file(name: str, data: bytes) -> str:
    """The path of a file that holds these bytes."""
    return put_file(FOLDER, name, data)


def wanted_lines(case: Case) -> dict[str, str]:
    """The lines of a report that a case shows, by their first words."""
    lines = case.text.decode("ascii", "replace").splitlines() if case.text and case.is_plain else case.has
    found = {}
    for line in filter(None, lines):
        found[" ".join(line.split()[:2 if line.startswith("reg ") else 1])] = line
    return found


def whole_report(name: str, case: Case, part: Part, data: bytes) -> None:
    """A case of `play` of a short stream: its status, and its text or the lines that it shows, are those of the plain
    program."""
    text, status = x7report.play(part, data)
    tally.same(f"{name}, status", status, case.status)
    if case.text and case.is_plain:
        tally.same(f"{name}, whole", text, case.text.decode())
    shown = text.splitlines(True)
    for line in case.has:
        tally.check(f"{name}, has", line_text(line) in shown, line)


def play_case(name: str, case: Case) -> None:
    """A case of `play`: what its report shows is what the device without frames comes to, where no frame's fault ends
    it."""
    lines = wanted_lines(case)
    part = read_part(in_file("part", case.bytes_of(case.words[1]) or TINY))
    streams = [case.bytes_of(word) for word in case.words[2:]]
    given = [raw for raw in streams if raw is not None]
    if len(given) < len(streams):
        return
    data = b"".join(x7.stream_of(raw).data for raw in given)
    device = Device(part.idcode, part.lock, part.match).play(data)
    if len(data) <= SHORT and device.reads <= MOST_READS:
        whole_report(name, case, part, data)
    if any(fault in lines.get("end", "") for fault in FRAME_FAULTS):
        return
    done = int(device.phase >= device.done_phase)
    came = {
        "taken": f"taken {device.taken}",
        "end": f"end {' '.join(device.end)}",
        "phase": f"phase {device.phase} done {done} gts {device.gts} gwe {device.gwe}",
        **{f"reg {it}": f"reg {it} {device.registers[it]:08X}" for it in KEPT},
        "reg CRC": f"reg CRC {device.check.value:08X}",
    }
    for key, line in came.items():
        if key in lines and (key != "reg CRC" or not device.has_stopped):
            tally.same(f"{name}, {key}", line, lines[key])


TINY = x7.read_file(os.path.join(DATA, "tiny.part"))
with tempfile.TemporaryDirectory() as FOLDER:
    for cases, case in all_cases():
        if case.words[:1] == ["play"] and len(case.words) > 2 and case.status in (0, 1):
            play_case(f"{cases}, {case.name}", case)
tally.end()
