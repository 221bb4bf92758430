#!/usr/bin/env python3
"""Tests the forms of tools/why beside its causes: what a stream is, plays on the shelf and on a stream's own part,
notes of what keeps a board dead, the watchdog by seconds, several files, and words of a board."""
from __future__ import annotations

from casefiles import Tally, put_file
import re
import tempfile

from calls import called, program
from damaged import Good
import streams as s
import x7formats as x7
from x7asked import unarmed
from x7device import Device
from x7notes import package_of
from x7pins import swap_table
from x7subject import Untimed

TALLY = Tally()
FULL, SMALL = s.full(), s.compressed()
GOOD = Good(s.bit(FULL))
# steps of the watchdog that are fewer than any load of a planned stream takes, and more than one takes at 3 MHz
SHORT, LONG, ARMED = 1, 0x00FFFFFF, 1 << 30


def said(folder: str, options: list[str], *raws: bytes) -> tuple[int, str]:
    """The status of why of these files, after these options, and what it says."""
    paths = [put_file(folder, f"f{number}.bit", raw) for number, raw in enumerate(raws)]
    status, out, err = called("why", *options, *paths)
    return status, out.decode() + err


def asked(name: str, came: tuple[int, str], status: int, pattern: str) -> None:
    """The status is this one, and what is said matches."""
    TALLY.check(name, came[0] == status and re.search(pattern, came[1]), f"status {came[0]}: {came[1][:400]!r}, "
                                                                         f"wanted {pattern!r}")


def about(folder: str) -> None:
    """What a stream is."""
    full, small, part = s.bit(FULL), s.bit(SMALL), s.bit(s.partial())
    of_full, flash = said(folder, ["--about"], full), said(folder, ["--about"], GOOD.setting(x7.NUMBERS["BSPI"], 0x26C))
    count = len(s.part().addresses())
    asked("about a design", of_full, 0, "^design made   2026/11/29 10:00:00\n")
    pattern = rf"\npart   7a35tcpg236, IDCODE 0362D093 \(xc7a35t\); {len(GOOD.data)} bytes, as the header says\n"
    asked("about a part", of_full, 0, pattern)
    pattern = rf"\nframes uncompressed, \d+ written, pads among them, {count} not zero; 2 checks\n"
    asked("about frames", of_full, 0, pattern)
    pattern = rf"\nframes compressed, {count} written, {count} not zero; 2 checks\n"
    asked("about a compressed one", said(folder, ["--about"], small), 0, pattern)
    pattern = "start  CCLK at 3 MHz; no wait for lock or match; DONE in phase 4, outputs in phase 5, writes in phase 6"
    asked("about its start", of_full, 0, pattern)
    pattern = "rules  fallback forbidden .CTL0 bit 10.; PERSIST 0; security 0; not encrypted"
    asked("about its rules", of_full, 0, pattern)
    pattern = r"read by 6C, four lines, 32 address bits \(BSPI 0000026C\); watchdog off; WBSTAR 00000000; bus width"
    asked("about its flash", flash, 0, pattern)
    asked("about a damaged one", said(folder, ["--about"], full[:-3000]), 0, "it ends as 'synced'")
    asked("about a partial one", said(folder, ["--about"], part), 0, "start  no START")
    asked("about several", said(folder, ["--about"], full, small), 0, "uncompressed(.|\n)*compressed")
    asked("about no stream", said(folder, ["--about"], b"hello\n"), 2, "has no sync word")


def own_parts(folder: str) -> None:
    """A part of a stream whose header's length is off, with bytes past its end, and of the second of two."""
    small, length = s.bit(SMALL), Good(s.bit(SMALL))
    off = length.head[:-4] + (len(length.data) + 4096).to_bytes(4, "big") + length.data
    cases = [("bytes past its end", [small + b"\0" * 77]), ("a length that is off", [off])]
    for name, raws in [*cases, ("a partial one first", [s.bit(s.partial()), small])]:
        asked(f"own part: {name}", said(folder, ["--own-part"], *raws), 0, "^it starts: phase 7")
    foreign = said(folder, ["--own-part"], s.bit(SMALL, "7a100tcsg324"))
    asked("own part: another device's header", foreign, 1, "its header names 7a100tcsg324")


def shelf(folder: str) -> None:
    """Plays on the part file of the shelf."""
    full = said(folder, [], s.bit(FULL))
    asked("shelf", full, 0, "^it starts: phase 7; 7a35tcpg236 of 2026/11/29")
    asked("shelf: which", full, 0, "note: played on the shelf's part file xc7a35t.part")
    asked("shelf: a device's name", said(folder, ["--part", "xc7a35t"], s.bit(FULL)), 0, "^it starts: phase 7")
    partial = said(folder, [], s.bit(s.partial()))
    asked("shelf: a partial one alone", partial, 0, "^nothing is wrong in the stream alone.*partial")
    foreign = said(folder, [], s.bit(FULL, "7a100tcsg324"))
    asked("shelf: a header of another device", foreign, 1, "^cause: .*its header names 7a100tcsg324")
    at = FULL.index("write FDRI 0") - 4
    far = said(folder, [], s.bit([*FULL[:at], "data 00FFFF80", *FULL[at + 1 :]]))
    asked("shelf: frames that it lacks", far, 0, "^nothing is wrong(.|\n)*note: the shelf's part file .* has no place")


def notes(folder: str) -> None:
    """Notes where a part is given."""
    part = put_file(folder, "small.part", s.PART)
    named = put_file(folder, "named.part", s.PART.replace('name = "small"', 'name = "7a35tftg256"'))
    foreign = said(folder, ["--part", part], s.bit(FULL, "7a100tcsg324"))
    asked("a header of another device, played", foreign, 0, "^it starts(.|\n)*note: the header names 7a100tcsg324")
    package = said(folder, ["--part", named], s.bit(FULL))
    asked("another package", package, 0, "note: 7a35tftg256 and 7a35tcpg236 are one die in two packages")
    waits = s.bit(s.with_data(FULL, "COR0", "02003EA5"))
    pattern = "note: startup waits in phase 2 for the clocks to lock .LOCK_CYCLE of COR0 02003EA5."
    asked("a wait for clocks", said(folder, ["--part", part], waits), 0, pattern)
    slow = put_file(folder, "slow.part", s.PART.replace("mode = 1", "mode = 1\nlock = 10"))
    came = said(folder, ["--part", slow], waits)
    TALLY.check("no note where the part file has lock", came[0] == 0 and "LOCK_CYCLE" not in came[1], came[1])
    names = ("7a35tcpg236", "xc7a35tcpg236-1", "xc7a35t", "small")
    TALLY.same("a package", [package_of(it) for it in names], ["cpg236", "cpg236", "", ""])


def watchdogs(folder: str) -> None:
    """A watchdog is judged by seconds: one that is long enough is no cause, though x7's counts bytes."""
    short, long = (s.bit(s.with_data(FULL, "TIMER", f"{ARMED | steps:08X}")) for steps in (SHORT, LONG))
    # a number of steps that x7's watchdog of bytes ends, and that is some 11 ms, where the load takes some 35 at 3 MHz
    enough = s.bit(s.with_data(FULL, "TIMER", f"{ARMED | 0xB00:08X}"))
    pattern = "^cause: the watchdog fires before startup has ended: TIMER 40000001 waits some"
    asked("too short", said(folder, ["--alone"], short), 1, pattern)
    asked("long", said(folder, ["--alone"], long), 0, "^nothing is wrong")
    data = x7.stream_of(enough).data
    TALLY.same("x7's would fire", Device().play(data).end, ["fault", "Watchdog"])
    came = said(folder, ["--alone"], enough)
    asked("by seconds it may", came, 0, "note: the watchdog may fire")
    calm = Device().play(unarmed(data))
    TALLY.same("disarmed, it starts", (calm.phase, calm.checked), (7, 2))
    broken = data[: GOOD.checks[0]] + b"\0\0\0\0" + data[GOOD.checks[0] + 4 :]
    TALLY.same("a check that failed fails", Untimed().play(unarmed(broken)).end[:2], ["fault", "Crc"])


def words() -> None:
    """Words of a board in all their forms."""
    forms = ["0b1001100100001100", "0000_990C", "0000 990C", f"{0x990C:032b}"]
    for given in [*(["--stat", it] for it in forms), ["--stat", "0000", "990C"], ["--stat=0000990C"]]:
        status, out, err = called("why", *given)
        TALLY.check(f"word {given}", status == 0 and out.startswith(b"STAT 0000990C\n"), f"{status} {out[:60]!r} {err}")
    for given in (["--stat", "0b" + "1" * 33], ["--stat", ""], ["--stat", "_"], ["--stat", "1", "--part", "x"]):
        status, out, err = called("why", *given)
        TALLY.check(f"no word {given}", status == 2 and not out, f"{status} {out[:60]!r} {err}")
    status, out, _ = called("why", "--ctl0", "00000500")
    TALLY.check("outputs off", b"it says: all outputs are off (GTS_USER_B is 0)" in out, str(out[:200]))


def exchanged_lines(folder: str) -> None:
    """Lines 3 and 7 of a byte may be exchanged, and the sync word stays: said of a stream that then plays alone."""
    table = swap_table([3, 7])
    moved = GOOD.data.translate(table)
    TALLY.check("the sync word stays", x7.SYNC in moved)
    asked("lines 3 and 7", said(folder, ["--alone"], moved), 1, "bits 3 and 7 of each byte are exchanged")
    broken = moved[: GOOD.middle] + bytes([moved[GOOD.middle] ^ 1]) + moved[GOOD.middle + 1 :]
    came = said(folder, ["--alone"], broken)
    TALLY.check("lines 3 and 7, and damage", came[0] == 1 and "exchanged" not in came[1], came[1])


def steps() -> None:
    """Words FFFFFFFF and 00000000 in a row are one step, and a line each of the listing."""
    data = x7.SYNC + b"\xff" * 4096 + bytes(4096) + x7.NOP + b"\xff\xff"
    found = list(x7.steps(data))
    TALLY.same(
        "steps",
        [(it.kind, it.word_count) for it in found],
        [("sync", 0), ("filler", 1024), ("filler", 1024), ("nop", 1), ("bytes", 0)],
    )
    TALLY.same("lines", len(list(x7.listing_of(x7.Stream(None, data)))), 1 + 2048 + 2)
    TALLY.same("a line", x7.line_at(x7.Stream(None, data), 4104), (1026, "word 00000000", ""))


with tempfile.TemporaryDirectory() as FOLDER:
    about(FOLDER)
    if program():
        own_parts(FOLDER)
        shelf(FOLDER)
        notes(FOLDER)
    else:
        TALLY.skip("plays by x7")
    watchdogs(FOLDER)
    exchanged_lines(FOLDER)
    words()
    steps()
TALLY.end()
