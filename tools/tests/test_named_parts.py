#!/usr/bin/env python3
"""Tests calls that name no part file: check_update takes the shelf's file for the stream's IDCODE, frame_map that of
the name in a report, and `part --shelf` shows the one for a stream. And svf says of a Zynq-7000 that another port
stands in its chain."""
from __future__ import annotations

from runs import Bench, run_parts
import streams as s
import x7formats as x7
from x7shelf import part_of_device

# the full stream, which waits for no lock or match, with CTL0 bit 10 as 0: a boot that fails with it may fall back
ALLOWED = [it.replace("00000501", "00000101") if it.startswith("data") else it for it in s.full()]


def make(bench: Bench) -> None:
    """Streams of a device of the shelf, a flash with slots, and reports."""
    bench.put("next.bit", s.bit(ALLOWED))
    bench.put("small.part", s.PART)
    bench.put("foreign.bit", s.bit(s.with_data(ALLOWED, "IDCODE", "03727093")))
    bench.put("no_idcode.bin", s.data_of([*s.HEAD, *s.command("DESYNC")]))
    bench.make("flash", "x7", "image", "next.bit", "next.bit")
    bench.make("shelf.report", "x7", "play", str(part_of_device("xc7a35t")), "next.bit")
    bench.make("small.report", "x7", "play", "small.part", "next.bit")


def updates(bench: Bench) -> None:
    """check_update says the same with the name of the device and without, and which part it took."""
    named = bench.tool("check_update", "xc7a35t", "flash", "next.bit")
    found = bench.tool("check_update", "flash", "next.bit")
    note, _, rest = found.out.decode().partition("\n")
    bench.tally.same("check_update without a part", (found.status, rest), (named.status, named.out.decode()))
    bench.tally.check("its note", note.startswith("note: part: xc7a35t of the shelf, by the IDCODE 0362D093"), note)
    bench.tally.check("it is tried", b"\nok: boot: " in named.out and b"\nok: frames: " in named.out, named.out)
    at_end = bench.tool("check_update", "flash", "--size=0", "next.bit")
    bench.tally.check("with an option between", b"fails: size: " in at_end.out, at_end)
    bench.refuses("check_update", "small.part", "next.bit", what="small.part is a part file, and no flash")
    for name in ("foreign.bit", "no_idcode.bin"):
        bench.refuses("check_update", "flash", name, what=f"{name}: the shelf has no part file for its device")
    bench.refuses("check_update", "next.bit", what="usage: check_update ")


def pictures(bench: Bench) -> None:
    """frame_map draws the same with the part and without."""
    named = bench.tool("frame_map", "xc7a35t", "shelf.report")
    bench.tally.check("frame_map of a device", named.status == 0 and named.out.startswith(b"<svg "), named)
    for words in (["shelf.report"], ["shelf.report", "shelf.report"]):
        came = bench.tool("frame_map", *words)
        bench.tally.check(f"frame_map {' '.join(words)}", came.status == 0 and came.out.startswith(b"<svg "), came)
    bench.tally.same("the same picture", bench.tool("frame_map", "shelf.report").out, named.out)
    bench.refuses("frame_map", "small.report", what="small: there is no such file, and no device of the shelf")


def paths(bench: Bench) -> None:
    """`part --shelf` shows the part file of a stream, of its listing, and of standard input."""
    wanted = (0, f"{part_of_device('xc7a35t')}\n".encode())
    bench.put("next.list", "".join(f"{it}\n" for it in x7.listing_of(x7.stream_of(bench.get("next.bit")))))
    for name in ("next.bit", "next.list"):
        came = bench.tool("part", "--shelf", name)
        bench.tally.same(f"part --shelf {name}", (came.status, came.out), wanted)
    came = bench.tool("part", "--shelf", "-", given=bench.get("next.bit"))
    bench.tally.same("part --shelf -", (came.status, came.out), wanted)
    bench.refuses("part", "--shelf", "foreign.bit", what="foreign.bit: the shelf has no part file for its device")


def arm_ports(bench: Bench) -> None:
    """svf says of a stream for a Zynq-7000 that a port stands before it, unless an option names one."""
    for options, is_said in (("", True), ("--guard", True), ("--trailer 4", False), ("--header=4", False)):
        came = bench.tool("svf", *options.split(), "foreign.bit")
        line = b"svf: foreign.bit is for the xc7z020: its ARM port stands in the chain"
        is_so = came.status == 0 and came.err.startswith(line) == is_said and bool(came.err) == is_said
        bench.tally.check(f"svf of a Zynq {options}", is_so, came.err)
    bench.tally.same("svf of another", bench.tool("svf", "next.bit").err, b"")


run_parts("parts that aren't named", make, updates, pictures, paths, arm_ports)
