#!/usr/bin/env python3
"""Tests the shared module against every listing, check, part file and report of the repository's worked cases."""
from __future__ import annotations

import io
import sys
import tempfile

from casefiles import Case, Tally, all_cases, put_file
import x7formats as x7
from x7partfile import read_part

tally = Tally()


def listing_text(raw: bytes) -> bytes:
    """The text of the listing of a stream."""
    return "".join(f"{line}\n" for line in x7.listing_of(x7.stream_of(raw))).encode()


def in_file(data: bytes) -> str:
    """A file with these bytes, for a reader that takes a path."""
    return put_file(FOLDER, "file", data)


def listing_case(name: str, case: Case) -> None:
    """A case of `list`: the text is the one that x7 writes, and reading it gives the stream again."""
    raw = case.bytes_of(case.words[1])
    if raw is None or case.status not in (0, 5):
        return
    try:
        came, refused = listing_text(raw), ""
    except x7.Refused as error:
        came, refused = b"", str(error)
    if case.status == 5:
        tally.check(name, refused and case.error.split()[-1] in refused, refused)
        return
    if case.has:
        for line in case.has:
            tally.check(name, line.encode() in came.split(b"\n"), line)
    elif case.is_plain:
        tally.same(name, came, case.text)
    stream = x7.read_listing(in_file(came))
    tally.same(f"{name}, back", (stream.header, stream.data), tuple(x7.stream_of(raw)))


def assembly_case(name: str, case: Case) -> None:
    """A case of `asm` of which the text is whole: reading it gives the stream, and listing that is its own reading."""
    text = case.bytes_of(case.words[1])
    if text is None or case.status != 0 or not case.is_plain or case.has:
        return
    stream = x7.read_listing(in_file(text))
    tally.same(name, stream.data, x7.stream_of(case.text).data)


def part_case(name: str, case: Case) -> None:
    """A case with a part file of its own: it is taken where x7 takes it."""
    parts = [case.inputs[word] for word in case.words[1:2] if word in case.inputs]
    if case.words[:1] not in (["play"], ["boot"], ["gen"], ["debug"], ["svf"]) or not parts or case.status == 6:
        return
    try:
        read_part(in_file(parts[0]))
        taken = ""
    except x7.Refused as error:
        taken = str(error)
    if case.status == 4:
        tally.check(name, taken, "a part that x7 refuses was taken")
    elif case.status in (0, 1):
        tally.check(name, not taken, taken)


def report_case(name: str, case: Case) -> None:
    """A case whose text is a report: it is read, and the fields are those of its lines."""
    is_report = case.words[:1] in (["play"], ["boot"], ["svf"]) and case.status in (0, 1)
    if not is_report or not case.is_plain or case.has:
        return
    report = x7.read_report(in_file(case.text))
    lines = case.text.decode().splitlines()
    tally.check(name, f"part {report.part}" in lines and f"taken {report.taken}" in lines)
    tally.check(name, f"phase {report.phase} done {report.done} gts {report.gts} gwe {report.gwe}" in lines)
    tally.check(name, "end " + " ".join(report.end) in lines)
    tally.same(name, len(report.frames), sum(line.startswith("frame ") for line in lines))


def checks() -> None:
    """The check of a worked example (docs/FORMATS.md, the running check), plain and with the tables for long runs."""
    data = bytes.fromhex("AA995566 30008001 00000007 30008001 00000000 30000001 20BD8EDE")
    tally.same("check", [it[1] for it in x7.checks_of(data)], [0x20BD8EDE])
    words = [(number * 2654435761) & 0xFFFFFFFF for number in range(70000)]
    halves = x7.fold(x7.fold(0, 2, words[:100]), 2, words[100:])
    plain = 0
    for word in words[:200]:
        for bit in range(32):
            plain = plain >> 1 ^ (x7.POLYNOMIAL if (plain ^ word >> bit) & 1 else 0)
        for bit in range(5):
            plain = plain >> 1 ^ (x7.POLYNOMIAL if (plain ^ 2 >> bit) & 1 else 0)
    tally.same("check by bits", x7.fold(0, 2, words[:200]), plain)
    tally.same("check of a long run", x7.fold(0, 2, words), halves)


def names() -> None:
    """A file's name that isn't UTF-8 is written with an escape."""
    written = io.BytesIO()
    kept, sys.stdout = sys.stdout, io.TextIOWrapper(written)
    try:
        x7.write_out("\udcff.bit\n")
        came = written.getvalue()
    finally:
        sys.stdout = kept
    tally.same("a name that isn't UTF-8", came, b"\\udcff.bit\n")


def lines() -> None:
    """The line of each place of a stream is the one that holds the byte."""
    raw = bytes.fromhex("FF AA995566 20000000 20000000 30004009" + "00000001" * 9 + "30008001 0000000D 00 00")
    stream = x7.stream_of(raw)
    listed = list(x7.listing_of(stream))
    path = in_file(listing_text(raw))
    for place in range(1, len(raw) + 1):
        one, other = x7.line_at(stream, place), x7.listed_line_at(path, place)
        assert one and other, f"a line holds byte {place}"
        tally.same(f"line at {place}", one, other)
        tally.same(f"text at {place}", one.text, listed[one.number - 1])


def noted_lines() -> None:
    """In a text for `x7 asm` a comment or an empty line is no packet's header, and counts as a line, also at the end of
    a block."""
    path = in_file(b"sync\nwrite FDRI 1\n# note\n\ndata 00000001\n")
    tally.same("a line after a comment", x7.listed_line_at(path, 12), x7.ListedLine(5, "data 00000001", "write FDRI 1"))
    # the first block ends with an empty line
    ahead = b"#" * ((1 << 20) - 1) + b"\n\n"
    path = in_file(ahead + b"sync\n")
    tally.same("a line after a block", x7.listed_line_at(path, 4), x7.ListedLine(3, "sync", ""))


with tempfile.TemporaryDirectory() as FOLDER:
    kinds = {"list": listing_case, "asm": assembly_case}
    for file, case in all_cases():
        name = f"{file}, {case.name}"
        try:
            if len(case.words) > 1 and case.status != 2:
                kinds.get(case.words[0], lambda *_: None)(name, case)
                part_case(name, case)
                report_case(name, case)
        except x7.Refused as error:
            tally.check(name, False, f"refused: {error}")
    checks()
    names()
    lines()
    noted_lines()
tally.end()
