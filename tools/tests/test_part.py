#!/usr/bin/env python3
"""Tests tools/part: a part from a compressed stream and its listing, from the open database's part.json and part.yaml
in both of their forms; and the streams and files of which it makes none, and leaves the file as it was."""
from __future__ import annotations

import json
import os
import re
import tempfile
from typing import Any, Callable, Dict

from casefiles import Tally, header, put_file
from calls import called, ran, shell_status
import streams as s
import x7formats as x7
from x7partfile import read_part

# The tables of part.json.
Table = Dict[str, Any]

tally = Tally()
SMALL = s.compressed()
RAW, DATA = s.bit(SMALL), s.data_of(SMALL)
HEADER = len(RAW) - len(DATA)
LISTING = "".join(f"{it}\n" for it in x7.listing_of(x7.stream_of(RAW)))
# the part that is wanted of all of them
WANTED = s.part()
BUSES = {0: "CLB_IO_CLK", 1: "BLOCK_RAM"}
HALVES = ("top", "bottom")
# the tags of the open database's YAML, and its beginning
TAG = "!<xilinx/xc7series/"
YAML_HEAD = [f"{TAG}part>", f"idcode: 0x{WANTED.idcode:x}"]
NO_GUESS = "; no column is a guess\n"
# what is said of a table that makes no part, of a stream that is shorter than its header says, and of one without end
NO_TABLE, TOO_SHORT, NO_END = "part.json or part.yaml|makes no part", "its header tells of", "no DESYNC"


def in_file(data: bytes | str, name: str) -> str:
    """The path of a file that holds these bytes."""
    return put_file(FOLDER, name, data)


def made(name: str, path: str, *more: str) -> str:
    """A part is made, and it is the one that is wanted. Answers what was said."""
    out = os.path.join(FOLDER, "out.part")
    status, text, err = called("part", path, out, *more)
    is_so = status == 0 and not text and "6 rows" not in err and "3 rows, 25 frames" in err
    tally.check(name, is_so, f"status {status}: {err}")
    if status == 0:
        part = read_part(out)
        tally.same(f"{name}: rows", (part.rows, part.idcode), (WANTED.rows, WANTED.idcode))
        os.remove(out)
    return err


def refused(name: str, data: bytes | str, said: str, *more: str) -> None:
    """None is made: a line, status 2, and what was there stays."""
    out = in_file(b"kept", "kept.part")
    status, text, err = called("part", in_file(data, "bad"), out, *more)
    lines = [it for it in err.splitlines() if "warning" not in it]
    is_so = status == 2 and not text and len(lines) == 1 and re.search(said, err)
    tally.check(name, is_so, f"status {status}: {err!r}, wanted {said!r}")
    with open(out, "rb") as file:
        tally.same(f"{name}: the file", file.read(), b"kept")


def regions() -> Table:
    """The part as the database has it: halves, rows, buses and columns."""
    table: Table = {half: {"rows": {}} for half in HALVES}
    for block, half, row, minors in WANTED.rows:
        rows = table[HALVES[half]]["rows"]
        buses = rows.setdefault(str(row), {"configuration_buses": {}})["configuration_buses"]
        columns = {str(at): {"frame_count": it} for at, it in enumerate(minors)}
        buses[BUSES[block]] = {"configuration_columns": columns}
    return {"global_clock_regions": table, "idcode": WANTED.idcode, "iobanks": {"0": "X1Y78"}}


def yaml_regions() -> str:
    """The part that is wanted as YAML, with the tags of the database."""
    lines = [*YAML_HEAD, "global_clock_regions:"]
    for half, name in enumerate(HALVES):
        lines += [f"  {name}: {TAG}global_clock_region>", "    rows:"]
        for row in sorted({it.row for it in WANTED.rows if it.half == half}):
            lines += [f"      {row}: {TAG}row>", "        configuration_buses:"]
            for it in WANTED.rows:
                if it.half == half and it.row == row:
                    bus = f"          {BUSES[it.block]}: {TAG}configuration_bus>"
                    lines += [bus, "            configuration_columns:"]
                    for at, count in enumerate(it.minors):
                        column = f"              {at}: {TAG}configuration_column>"
                        lines += [column, f"                frame_count: {count}"]
    return "\n".join(lines) + "\n"


def yaml_ranges() -> str:
    """The part that is wanted in the older form: ranges of addresses."""
    lines = [*YAML_HEAD, "configuration_ranges:"]
    for block, half, row, minors in WANTED.rows:
        for at, count in enumerate(minors):
            lines += [f"  - {TAG}configuration_frame_range>"]
            for name, minor in (("begin", 0), ("end", count)):
                lines += [
                    f"    {name}: {TAG}configuration_frame_address>", f"      block_type: {BUSES[block]}",
                    f"      row_half: {HALVES[half]}", f"      row: {row}", f"      column: {at}",
                    f"      minor: {minor}",
                ]  # fmt: skip
    return "\n".join(lines) + "\n"


def good() -> None:
    """Files that give a part."""
    err = made("a .bit file", in_file(RAW, "small.bit"))
    tally.check("no guess", err.endswith(NO_GUESS), err)
    made("a raw file", in_file(DATA, "small.bin"))
    made("a listing", in_file(LISTING, "small.list"), "mine")
    err = made("a debug stream", in_file(s.bit(s.debug()), "debug.bit"))
    tally.check("no guess of a debug stream", err.endswith(NO_GUESS), err)
    made("part.json", in_file(json.dumps(regions()), "part.json"))
    made("part.json, a name", in_file(json.dumps(regions(), indent=2), "part.json"), "mine")
    made("part.yaml", in_file(yaml_regions(), "part.yaml"))
    made("part.yaml, ranges", in_file(yaml_ranges(), "part.yaml"))


def guesses() -> None:
    """Which columns are guesses, where addresses aren't named."""
    err = said_without("00000081")
    guess = "; columns with a guess: top row 0 of block 0: 1 (minors 1)\n"
    tally.check("a minor within a column isn't named", err.endswith(guess), err)
    err = said_without("00000082")
    tally.check("a column's last minor isn't named", " 24 frames; " in err and err.endswith(NO_GUESS), err)


def said_without(far: str) -> str:
    """What is said of a compressed stream that doesn't name this address."""
    at = SMALL.index(f"data {far}")
    path = in_file(s.bit([*SMALL[: at - 1], *SMALL[at + 3 :]]), "guess.bit")
    return called("part", path, os.path.join(FOLDER, "guess.part"))[2]


def without_lout(lines: list[str]) -> list[str]:
    """Lines without the addresses of frames in LOUT."""
    return [line for line, before in zip(lines, ["", *lines]) if "write LOUT 1" not in (line, before)]


def damaged() -> None:
    """Files that were cut or changed on their way, and what is said of each."""
    lines = LISTING.splitlines(keepends=True)
    place = HEADER + 400
    for name, data, said in (
        ("a stream that is cut off", RAW[: len(RAW) // 2], TOO_SHORT),
        ("a raw one that is cut off", DATA[: len(DATA) // 2], NO_END),
        ("half a listing", LISTING[: len(LISTING) // 2].encode(), f"no listing|{TOO_SHORT}"),
        ("half of its lines", "".join(lines[:60]).encode(), TOO_SHORT),
        ("half of its lines, no header", "".join(lines[1:60]).encode(), NO_END),
        ("a bit of a frame", RAW[:place] + bytes([RAW[place] ^ 1]) + RAW[place + 1 :], "a check fails: .*, at byte"),
        ("a text transfer", header(len(DATA)) + DATA.replace(b"\n", b"\r\n"), TOO_SHORT),
        ("a listing of another system", LISTING.replace("\n", "\r\n").encode(), "line 1, which ends with 0D 0A"),
        ("a header that is cut", RAW[:30], "ends inside its header"),
        ("an empty file", b"", "no sync word"),
        ("no sync word", b"\xff" * 4000, "no sync word"),
    ):
        refused(name, data, said)


def others() -> None:
    """Whole streams that don't tell their part, and what is said of each."""
    for name, data, said in (
        ("an uncompressed stream", s.bit(s.full()), "all frames stand in one run"),
        ("a debug stream without addresses", s.data_of(without_lout(s.debug())), "neither FAR nor LOUT"),
        ("a Spartan-6 by its header", s.bit(SMALL, "6slx9tqg144"),
         "of the family Spartan-6, and for no 7-series device"),
        ("no frames", s.data_of(s.HEAD + s.command("RCRC") + s.command("DESYNC")), "writes no IDCODE, or no frames"),
        ("a header of another device", s.bit(SMALL, "7k325tffg900"), "names a 7k325tffg900, and it writes 0362D093"),
        ("IPROG", s.data_of([*s.HEAD, *s.command("IPROG")]), "leads on"),
    ):
        refused(name, data, said)
    refused("a name with blanks", RAW, "NAME", "two words")


def buses_of(table: Table) -> Table:
    """The buses of row 0 in the top half."""
    buses: Table = table["global_clock_regions"]["top"]["rows"]["0"]["configuration_buses"]
    return buses


def give_count(table: Table, count: object) -> None:
    """Gives another count of frames to the first column of block memory."""
    buses_of(table)["BLOCK_RAM"]["configuration_columns"]["0"]["frame_count"] = count


# What is changed in part.json, so that it makes no part.
CHANGES: list[tuple[str, Callable[[Table], object]]] = [
    ("without a column", lambda it: buses_of(it)["CLB_IO_CLK"]["configuration_columns"].pop("1")),
    ("without an IDCODE", lambda it: it.pop("idcode")),
    ("without regions", lambda it: it.pop("global_clock_regions")),
    ("an odd bus", lambda it: buses_of(it).update(X={})),
    ("too many minors", lambda it: give_count(it, 3000000000)),
    ("a count that is a text", lambda it: give_count(it, "many")),
    ("an even IDCODE", lambda it: it.update(idcode=4)),
    ("a list", lambda it: it.update(global_clock_regions=[1])),
]


def bad_tables() -> None:
    """Files of the open database that make no part."""
    for name, change in CHANGES:
        table = regions()
        change(table)
        refused(f"part.json {name}", json.dumps(table), NO_TABLE, "mine")
    refused("JSON that is cut", json.dumps(regions())[:-20], "part.json or part.yaml")
    refused("YAML that is cut", yaml_regions()[:150], NO_TABLE)
    refused("deep JSON", '{"a":' + "[" * 100000, "part.json or part.yaml")


def words() -> None:
    """Words that the tool takes and words that it refuses."""
    path = in_file(RAW, "small.bit")
    tally.check("help", b"tools/part small.bit" in ran("part", "--help")[1])
    bad: list[list[str]] = [
        [], [path], [path, "a", "b", "c"], ["/nowhere", "a"], [FOLDER, "a"], [path, "/nowhere/at/all"], [path, FOLDER],
    ]  # fmt: skip
    for given in bad:
        status, text, err = ran("part", *given, cwd=FOLDER)
        is_so = status == 2 and not text and err.count("\n") == 1 and err.startswith("part: ")
        tally.check(f"words {given}", is_so, f"{status} {err!r}")
    out = os.path.join(FOLDER, "quiet.part")
    tally.same("standard files closed", shell_status("part", [path, out], ">&- 2>&- <&-"), 0)
    tally.check("and the part is there", os.path.exists(out) and read_part(out).rows == WANTED.rows)


with tempfile.TemporaryDirectory() as FOLDER:
    good()
    guesses()
    damaged()
    others()
    bad_tables()
    words()
tally.end()
