#!/usr/bin/env python3
"""Tests tools/turn: each way of turning comes back, from the file's first byte on, a few bytes later and after headers
of all lengths; text and packed files and dumps; what it writes for a bus is the stream with its bits or bytes in
another order, which it turns back; and what isn't taken leaves no output."""
from __future__ import annotations

import gzip
import shlex
import tempfile
from typing import NamedTuple

from casefiles import Tally, header, put_file
from calls import called, ran, shell_status
import streams
import x7kinds

tally = Tally()
DATA = streams.data_of(streams.full())


def in_file(data: bytes, name: str = "file") -> str:
    """The path of a file that holds these bytes."""
    return put_file(FOLDER, name, data)


def turned(name: str, raw: bytes, wanted: bytes, said: str = "") -> None:
    """The file gives just these bytes, and this is said."""
    status, out, err = called("turn", in_file(raw))
    tally.check(name, status == 0 and out == wanted, f"status {status}, {len(out)} bytes, {err.strip()}")
    tally.check(f"{name}: what is said", said in err, err.strip())


def refused(name: str, raw: bytes, said: str, *options: str) -> None:
    """The file gives nothing: status 2, and one line that says why."""
    status, out, err = called("turn", *options, in_file(raw))
    is_refused = status == 2 and not out and said in err and err.count("\n") == 1
    tally.check(name, is_refused, f"status {status}, {len(out)} bytes, {err.strip()}")


def ways() -> None:
    """Every way that is known is its own inverse, so it makes the turned file too."""
    for way in x7kinds.WAYS:
        raw = way.back(DATA)
        turned(f"{way.what}, a raw file", raw, DATA, f"{way.what} {way.how}")
        # of three bytes in front those that fill a group are turned with it
        kept = 3 % way.size
        turned(f"{way.what}, after three bytes", b"abc" + raw, b"abc"[:kept] + way.back(b"abc"[kept:]) + DATA)
        for length in range(8):
            head = header(len(DATA), design="m" * length)
            turned(f"{way.what}, after a header of {len(head)} bytes", head + raw, head + DATA)
            turned(f"{way.what}, a whole file of {len(head)} bytes more", way.back(head + DATA), head + DATA)


def rbt(lines: list[bytes], bits: int | None = None) -> bytes:
    """A .rbt file of these lines, whose head says how many bits there are."""
    count = 32 * len(lines) if bits is None else bits
    head = [b"Xilinx ASCII Bitstream", b"Created by hand", b"Bits:        %d" % count]
    return b"\n".join(head + lines) + b"\n"


def dump(size: int, is_lowest_first: bool) -> bytes:
    """A dump of DATA, a label and a row of 16 bytes a line, in groups of `size` bytes."""
    text = b""
    for at in range(0, len(DATA), 16):
        groups = [DATA[it : it + size] for it in range(at, min(at + 16, len(DATA)), size)]
        row = " ".join(bytes(it[::-1] if is_lowest_first else it).hex() for it in groups)
        text += f"{at:08x} {row}\n".encode()
    return text + f"{len(DATA):08x}\n".encode()


def texts() -> None:
    """Streams as texts: bits, digits, dumps."""
    lines = [f"{int.from_bytes(DATA[at:at + 4], 'big'):032b}".encode() for at in range(0, len(DATA), 4)]
    said = "turn: the digits of a dump packed\nturn: written"
    for size in (1, 2, 4):
        turned(f"a dump of {8 * size} bits", dump(size, size > 1), DATA, said)
    turned("a dump with its words the other way", dump(4, False), DATA, "turn: the bytes of each word swapped")
    digits = DATA.hex(" ", 4).upper().encode()
    turned("words", digits, DATA, "the digits of a dump packed")
    turned("a packed dump", gzip.compress(digits), DATA, "turn: unpacked\nturn: the digits of a dump packed\n")
    turned("a dump of turned bytes", DATA.translate(x7kinds.MIRRORED).hex().encode(), DATA, "the bits of each byte")
    rows = dump(1, False).splitlines(keepends=True)
    refused("a dump that lost a line", b"".join(rows[:9] + rows[10:]), "line 10 of the dump")
    turned("a .rbt file", rbt(lines), DATA, "the digits of a .rbt file packed")
    turned("a .rbt file with 0D 0A", rbt(lines).replace(b"\n", b"\r\n"), DATA)
    turned("a gzip file", gzip.compress(DATA), DATA, "unpacked")
    turned("a stream as it is", DATA, DATA, "written as it is")
    refused("a .rbt file with a digit 2", rbt([*lines[:9], b"2" + lines[9][1:], *lines[10:]]), "line 13")
    refused("a .rbt file with a line cut", rbt([*lines[:9], lines[9][:-1], *lines[10:]]), "line 13")
    refused("a .rbt file whose first line is damaged", rbt([b"x" + lines[0][1:], *lines[1:]]), "line 4")
    refused("a .rbt file whose last line is cut off", rbt(lines)[:-5], "damaged, or cut off")
    refused("a .rbt file that lost a line", rbt([*lines[:9], *lines[10:]], 32 * len(lines)), "lines were lost")
    refused("a .rbt file with a line twice", rbt([*lines[:9], *lines[8:]], 32 * len(lines)), "lines were added")
    refused("a gzip file that is cut off", gzip.compress(DATA)[:-20], "damaged")
    for raw in (b"", bytes(range(7, 250)) * 9, b"<!DOCTYPE html><html>", b"\xff" * 999):
        refused(f"{len(raw)} bytes", raw, "no sync word")


class Bus(NamedTuple):
    """How a bus takes a stream."""

    order: list[int]  # which byte of a group stands at each place on the bus
    mirrors_bits: bool  # whether each byte's bits are swapped


# the bus of each way of --to
BUSES: dict[str, Bus] = {
    "bits": Bus([0], True),
    "halves": Bus([1, 0], False),
    "words": Bus([3, 2, 1, 0], False),
    "bits,halves": Bus([1, 0], True),
    "halves,bits": Bus([1, 0], True),
    "bits,words": Bus([3, 2, 1, 0], True),
}


def as_bus(data: bytes, bus: Bus) -> bytes:
    """Data as a bus takes it, made byte by byte."""
    size = len(bus.order)
    moved = [data[at - at % size + bus.order[at % size]] for at in range(len(data))]
    return bytes(int(f"{it:08b}"[::-1], 2) if bus.mirrors_bits else it for it in moved)


def buses() -> None:
    """What is written for each bus, of a stream in each form, is turned back to the same stream."""
    head = header(len(DATA))
    for way, bus in BUSES.items():
        wanted = as_bus(DATA, bus)
        forms = {"a stream": DATA, "a .bit file": head + DATA, "a gzip file": gzip.compress(DATA), "itself": wanted}
        for name, raw in {**forms, "a dump": dump(1, False)}.items():
            status, out, err = called("turn", "--to", way, in_file(raw))
            tally.same(f"{way} of {name}", (status, out), (0, wanted))
            tally.check(f"{way} of {name}: the header", ("bytes left out" in err) == (name == "a .bit file"), err)
        turned(f"{way}, back", wanted, DATA, "swapped")
        refused(f"{way} of no stream", bytes(64), "no sync word", "--to", way)
        refused(f"{way} of a stream of nothing", b"\xaa\x99\x55\x66" + b"\xee" * 60, "no stream begins", "--to", way)
        refused(f"{way} of a stream and a turned one", DATA + wanted, "such a turned stream too", "--to", way)
        if way != "bits":
            refused(f"{way} of an odd byte", DATA + b"\0", f"{len(DATA) + 1} bytes, and", "--to", way)


def calls() -> None:
    """Words that the tool takes and words that it refuses."""
    path = in_file(DATA)
    for way in ("", "bytes", "bits,bits", "words,halves", "bits,words,halves", "words,"):
        refused(f"--to {way}", DATA, "--to takes", "--to", way)
    for options in (["--back"], ["--to", "bits", path]):
        refused(f"words {options[:2]}", DATA, "usage", *options)
    tally.check("help", ran("turn", "--help")[:1] == (0,))
    wrong: list[list[str]] = [[], [path, path], ["/nowhere/at/all"], [FOLDER]]
    for words in wrong:
        status, out, err = ran("turn", *words)
        tally.check(f"words {len(words)}", status == 2 and not out and err.count("\n") == 1, err)
    tally.same("standard output is closed", shell_status("turn", [path], ">&- 2>/dev/null"), 2)
    tally.same("the others are closed", shell_status("turn", [path], f"2>&- <&- | cmp -s - {shlex.quote(path)}"), 0)


with tempfile.TemporaryDirectory() as FOLDER:
    ways()
    texts()
    buses()
    calls()
tally.end()
