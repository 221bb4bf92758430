#!/usr/bin/env python3
"""Tests the shelf: its part files agree with the table of devices and with the guide's bitstream lengths, and each way
to one leads there. Where Debian's package openfpgaloader is at hand, in /usr/share/openFPGALoader or in the folder that
OPENFPGALOADER in the environment names, the files are made again and compared, and its streams are played on them."""
from __future__ import annotations

import glob
import gzip
import os
import sys
import tempfile

from casefiles import TOP, Tally, put_file, text_of
from calls import called
import runs
import streams as s
import x7formats as x7
import x7shelf
from x7columns import word_count
from x7partfile import read_part
from x7parts import IDCODES

# Bits of an uncompressed stream (UG470, bitstream lengths); parts/make has them by their devices.
LENGTHS = {
    "xc7a12t": 9934432, "xc7a25t": 9934432, "xc7s25": 9934432, "xc7a15t": 17536096, "xc7a35t": 17536096,
    "xc7a50t": 17536096, "xc7s50": 17536096, "xc7a75t": 30606304, "xc7a100t": 30606304, "xc7k160t": 53540576,
    "xc7k325t": 91548896,
}  # fmt: skip
PACKAGE = os.environ.get("OPENFPGALOADER") or "/usr/share/openFPGALoader"
MAKE = os.path.join(TOP, "parts", "make")
# The stream that stands for a user's own in README.
SHOWN = "spiOverJtag_xc7a35tcsg324.bit"

tally = Tally()


def part_files() -> None:
    """Each part file is that of its device."""
    tally.same("the devices of the shelf", x7shelf.devices(), sorted(LENGTHS))
    for device in x7shelf.devices():
        part = read_part(os.path.join(x7shelf.FOLDER, f"{device}.part"))
        tally.same(f"{device}: name and IDCODE", (part.name, part.idcode), (device, IDCODES[device[2:]]))
        tally.same(f"{device}: bitstream length", 32 * word_count(part.rows) + 18656, LENGTHS[device])


def ways() -> None:
    """The ways to a part file, and where there is none."""
    a35 = os.path.join(x7shelf.FOLDER, "xc7a35t.part")
    for name in "xc7a35t 7a35t XC7A35T 7a35tcpg236 xc7a35tcpg236-1 xa7a35tcsg324-2I 7a35ticsg324-1L".split():
        tally.same(f"the part of {name}", x7shelf.part_of_device(name), a35)
        tally.same(f"the part file {name}", x7shelf.part_file(name), a35)
    for name in ("", "xc7a35", "xc7z020", "6slx9", "xc7a35t.part", "xc7a35t_mine", "xc7a35t/x", "a35t"):
        tally.same(f"no part of {name}", x7shelf.part_of_device(name), None)
    tally.same("by the IDCODE", x7shelf.part_of_idcode(0x0362D093), a35)
    tally.same("by the IDCODE of a later version", x7shelf.part_of_idcode(0x1362D093), a35)
    tally.same("by an IDCODE that the shelf lacks", x7shelf.part_of_idcode(0x03727093), None)
    tally.same("by an IDCODE of nothing", x7shelf.part_of_idcode(0), None)
    tally.same("by data", x7shelf.part_of_data(s.data_of(s.full())), a35)
    tally.same("by data without an IDCODE", x7shelf.part_of_data(s.data_of(s.HEAD)), None)
    tally.same("by no data", x7shelf.part_of_data(b""), None)


def files(folder: str) -> None:
    """By the stream of a file, its listing, and a name that may be a file's."""
    a35, raw = x7shelf.part_of_device("xc7a35t"), s.bit(s.full())
    lines = "".join(f"{line}\n" for line in x7.listing_of(x7.stream_of(raw)))
    tally.same("by a stream's file", x7shelf.part_of_stream(put_file(folder, "full.bit", raw)), a35)
    tally.same("by its listing", x7shelf.part_of_stream(put_file(folder, "full.list", lines)), a35)
    tally.same("by a file that is no stream", x7shelf.part_of_stream(put_file(folder, "text", b"text\n")), None)
    mine = put_file(folder, "xc7a35t", s.PART)
    tally.same("a file goes before a device", x7shelf.part_file(mine), mine)
    tally.check("a name that is neither is refused", is_refused(os.path.join(folder, "xc7a35t.part")))


def is_refused(word: str) -> bool:
    """Whether no part file is found under a name."""
    try:
        x7shelf.part_file(word)
    except x7.Refused as refused:
        return "no such file, and no device of the shelf" in str(refused)
    return False


def the_tool() -> None:
    """What `part --shelf` shows."""
    path = f"{x7shelf.part_of_device('xc7s50')}\n".encode()
    tally.same("part --shelf of a device", called("part", "--shelf", "7s50csga324"), (0, path, ""))
    names = "".join(f"{it}\n" for it in sorted(LENGTHS)).encode()
    tally.same("part --shelf", called("part", "--shelf"), (0, names, ""))
    for words in (["xc7z020"], ["xc7s50", "more"], ["design.bit"]):
        status, out, err = called("part", "--shelf", *words)
        tally.check(f"part --shelf {words}", status == 2 and not out and err.count("\n") == 1, err)


def unpacked(path: str, folder: str) -> str:
    """The path of a stream that isn't packed."""
    name = os.path.basename(path)
    return put_file(folder, name[:-3], gzip.decompress(x7.read_file(path))) if name.endswith(".gz") else path


def of_the_package(folder: str) -> None:
    """The part files are those that the package's streams give, and each of these starts its device on one."""
    paths = sorted(glob.glob(os.path.join(PACKAGE, "spiOverJtag_xc7*.bit*")))
    if not paths:
        tally.skip(f"the part files made again: {PACKAGE} has no stream (Debian's package openfpgaloader)")
        return
    came = runs.run(folder, [sys.executable, MAKE, "--compare", PACKAGE])
    tally.same("the part files made again", (came.status, came.out), (0, b"11 part files, 0 differ\n"))
    if not runs.X7:
        tally.skip("plays on the shelf: x7 isn't built")
        return
    for path in paths:
        stream = unpacked(path, folder)
        part = x7shelf.part_of_stream(stream)
        if part:
            came = runs.run(folder, [runs.X7, "play", part, stream])
            is_started = came.status == 0 and b"\nphase 7 done 1 gts 1 gwe 1\n" in came.out
            tally.check(f"{os.path.basename(stream)} starts on {os.path.basename(part)}", is_started, came.out[:200])
            if os.path.basename(stream) == SHOWN:
                lines = "".join(f"    {line}\n" for line in came.out.decode().splitlines()[:4])
                tally.check("README shows its play", f" design.bit\n{lines}    ..\n" in text_of("README.md"), lines)


with tempfile.TemporaryDirectory() as place:
    part_files()
    ways()
    files(place)
    the_tool()
    of_the_package(place)
tally.end()
