#!/usr/bin/env python3
"""Tests tools/why: the kinds of damage that streams meet, each with the cause that is to be said, from the stream
alone, from its listing, and, where x7 is built, from a play; reports of boots; and what isn't taken."""
from __future__ import annotations

import bz2
import gzip
import lzma
import os
import re
import resource
import tempfile
from typing import NamedTuple, Sequence

from casefiles import Tally, header, put_file, text_of
from calls import called, program, ran, shell_status
import streams as s
from x7device import Device
import x7formats as x7
import x7kinds

tally = Tally()
# listings, as lists of lines
FULL, SMALL, PARTIAL = s.full(), s.compressed(), s.partial()
# the full stream as a .bit file, its data alone, and the partial one and the compressed one as .bit files
RAW, DATA, CHANGE, PACKED = s.bit(FULL), s.data_of(FULL), s.bit(PARTIAL), s.bit(SMALL)
LISTING = "".join(f"{it}\n" for it in x7.listing_of(x7.stream_of(RAW))).encode()
BOARD = text_of("crates", "x7_cases", "data", "BOARD.md")
# places in RAW, and in DATA
HEADER = len(RAW) - len(DATA)
FDRI = DATA.index(bytes.fromhex("3000400050"))
# the header of the frame data's packet, and its count
FRAMES_HEAD = DATA[FDRI : FDRI + 8]
START, DESYNC = DATA.rindex(bytes.fromhex("3000800100000005")), DATA.rindex(bytes.fromhex("300080010000000D"))
# what is said
GOOD = "it starts: phase 7|nothing is wrong"
LOST = "were lost among the frame data"
TOO_EARLY = "DESYNC comes too early"
OTHER_STREAMS = "the report is of other streams than these"
LEADS_ON = r"it starts \(phase 7\), and then the stream leads on to flash address 00400000"
# what isn't said of a listing
UNLISTED = "empty|boot image|it is damaged|packets follow"


class Said(NamedTuple):
    """Streams, and what `why` says of them."""

    name: str
    files: list[bytes]  # one after the other
    pattern: str = GOOD  # what is said


def flipped(data: bytes, place: int, bit: int = 1) -> bytes:
    """The bytes with one bit other at this place."""
    return data[:place] + bytes([data[place] ^ bit]) + data[place + 1 :]


def without(raw: bytes, place: int, count: int) -> bytes:
    """The bytes without `count` of them at this place."""
    return raw[:place] + raw[place + count :]


def no_check(lines: Sequence[str]) -> list[str]:
    """Lines with RCRC in place of each check."""
    return [it for line in lines for it in (s.command("RCRC") if line == "crc" else [line])]


def with_word(register: str, word: str) -> bytes:
    """The full stream as a .bit file, with another word of the first write to a register."""
    return s.bit(s.with_data(FULL, register, word))


def with_line(old: str, new: str) -> bytes:
    """The full stream as a .bit file, with its first line that is `old` replaced."""
    return s.bit(s.replaced(FULL, old, new))


def without_idcode() -> bytes:
    """The full stream as a .bit file, without its write to IDCODE."""
    at = FULL.index("write IDCODE 1")
    return s.bit(FULL[:at] + FULL[at + 2 :])


def swap(how: str) -> x7kinds.Way:
    """The way of turning with this name."""
    return next(way for way in x7kinds.WAYS if way.what == how)


GOOD_ONES = [
    Said("a .bit file", [RAW]),
    Said("a raw file", [DATA]),
    Said("a compressed one", [PACKED]),
    Said("bytes before it", [b"\x12\x34\x56" + DATA]),
    Said("another version", [with_word("IDCODE", "1362D093")]),
    Said("no-ops after DESYNC lost", [RAW[:-400]]),
    Said("full and partial", [RAW, CHANGE]),
    Said("the full one twice", [RAW, RAW]),
]
# Streams that were cut, or lost bytes.
CUT = [
    Said("cut in frames", [RAW[: HEADER + 3000]], "cut off: its header tells of"),
    Said("cut before START", [RAW[: HEADER + START]], "cut off"),
    Said("cut after the header", [RAW[:HEADER]], "cut off right after its header"),
    Said("cut in FF", [RAW[: HEADER + 20]], "cut off before its sync word"),
    Said("cut before the sync word", [RAW[: HEADER + 44]], "cut off before its sync word"),
    Said("cut after DESYNC", [RAW[: HEADER + DESYNC + 20]], "end in phase 3"),
    Said("its beginning lost", [DATA[60:]], "packets follow from offset"),
    Said("no check and a word lost", [without(s.bit(no_check(FULL)), HEADER + FDRI + 400, 4)],
         f"4 bytes of the stream were lost|4 bytes {LOST}"),
    Said("no check and a frame lost", [without(s.bit(no_check(SMALL)), HEADER + FDRI, 24)], "lost|stands where"),
    *(Said(f"{count} bytes lost among frames", [without(RAW, HEADER + FDRI + 800, count)], f"{count} bytes {LOST}")
      for count in (80, 404, 480, 510, 512, 1024, 2048)),
    *(Said(f"{count} bytes lost, no header", [without(DATA, FDRI + 800, count)], LOST) for count in (404, 1024)),
]
# Streams for another device.
FOREIGN = [
    Said("another device", [with_word("IDCODE", "0362C093")], r"0362C093 \(xc7a50t\).*7a35tcpg236"),
    Said("another family by its header", [s.bit(FULL, "6slx9tqg144")], "Spartan-6"),
    Said("Spartan-3E", [header(8, "3s500evq100") + b"\xff" * 4 + b"\xaa\x99\x55\x66"], "Spartan-3"),
    Said("UltraScale", [s.bit(FULL, "xcvu9p-flga2104")], "Virtex UltraScale"),
    Said("another family by its IDCODE", [s.data_of(s.with_data(FULL, "IDCODE", "04B31093"))],
         "no 7-series device"),
    Said("no IDCODE", [without_idcode()], "before any IDCODE"),
    Said("streams of two devices", [s.bit(s.with_data(FULL, "IDCODE", "0362C093"), "7a50tcpg236"), CHANGE],
         "for different devices|for a device with IDCODE 0362C093"),
]
# Streams with words that are damaged, or that no device starts with.
WRONG_WORDS = [
    Said("the sync word damaged", [RAW.replace(x7.SYNC, b"\xaa\x99\x55\x67", 1)], "it is damaged: AA995567"),
    Said("a bit of a frame", [flipped(RAW, HEADER + FDRI + 40)], "a check fails"),
    Said("START damaged", [with_line("cmd START", "cmd NULL")], "START is damaged or lost"),
    Said("DESYNC damaged", [with_line("cmd DESYNC", "cmd NULL")],
         "after START stands the command NULL, and no DESYNC"),
    Said("DESYNC to IPROG", [with_line("cmd DESYNC", "cmd IPROG")], "it stands where DESYNC should"),
    Said("DESYNC too early", [with_line("cmd NULL", "cmd DESYNC")], TOO_EARLY),
    Said("again too early", [with_line("cmd SWITCH", "cmd DESYNC")], TOO_EARLY),
    Said("MFW damaged", [s.bit(s.replaced(SMALL, "cmd MFW", "cmd NULL"))],
         "under the command NULL, and copies want MFW"),
    Said("encrypted", [s.bit(s.with_data(s.with_data(FULL, "MASK", "00000541"), "CTL0", "00000541"))], "encrypted"),
    Said("GTS kept", [with_word("COR0", "02003FFD")], "the outputs stay off for ever: GTS_CYCLE"),
    Said("GWE kept", [with_word("COR0", "02003FE7")], "GWE_CYCLE"),
    Said("a watchdog", [with_word("TIMER", "40000010")], "the watchdog fires before startup has ended"),
    Said("a count up", [RAW.replace(FRAMES_HEAD, FRAMES_HEAD[:5] + b"\x02" + FRAMES_HEAD[6:], 1)], "its count is"),
    Said("a read of millions", [s.bit([*FULL[:4], "read STAT 0", "read2 100000000", *FULL[4:]])],
         "asks for more words"),
]
# Several streams, one after the other.
SEVERAL = [
    Said("AGHIGH after startup", [RAW, s.data_of(["sync", *s.command("AGHIGH"), *s.command("DESYNC")])],
         "GHIGH_B is 0"),
    Said("full, then IPROG", [RAW, s.data_of(["sync", *s.written("WBSTAR", "00400000"), *s.command("IPROG")])],
         LEADS_ON),
    Said("SBITS, then a partial one", [s.bit(s.replaced(FULL, "data 00000501", "data 00000521", 3)), CHANGE],
         "SBITS 1x"),
    Said("full and a damaged partial", [RAW, flipped(CHANGE, HEADER + 180)],
         "s1.bit: it runs .phase 7., but after startup a fault came: a check fails"),
    Said("partial and a damaged full", [CHANGE, flipped(RAW, HEADER + FDRI + 40)], "s1.bit: a check fails"),
    Said("damaged full and partial", [flipped(RAW, HEADER + FDRI + 40), CHANGE], "s0.bit: a check fails"),
]
# What is no stream, or one in another form.
OTHER_KINDS = [
    Said("empty", [b""], "the file is empty"),
    Said("all FF", [b"\xff" * 999], "all bytes are FF, as in an erased flash"),
    Said("all 00", [bytes(999)], "all bytes are 00"),
    Said("gzip", [gzip.compress(RAW)], "gzip"),
    Said("xz", [lzma.compress(RAW)], "xz"),
    Said("bzip2", [bz2.compress(RAW)], "bzip2"),
    Said("zip", [b"PK\x03\x04" + RAW], "zip"),
    Said("HTML", [b"\n<html><body>404"], "HTML"),
    Said("a pointer of git-lfs", [b"version https://git-lfs.github.com/spec/v1\n"], "git-lfs"),
    Said("text", [b"hello\n"], "a text, which begins 'hello'"),
    Said("Intel HEX", [b":020000040000FA\n"], "Intel HEX"),
    Said("S-records", [b"S1130000FFFFFFFFFFFFFFFFFFFFFFFFFFFFFFFFFC\n"], "S-records"),
    Said("a hex dump", [b"00000000: ffff ffff  ....\n"], "hex dump"),
    Said("hexadecimal digits", [DATA.hex().encode()], "hexadecimal digits"),
    Said("base64", [b"//////////////////////////////////////////AAAAuxEiAET//////////6qZVWYgAAAA\n"], "base64"),
    Said("a boot image of a Zynq", [
        bytes(32) + b"\x66\x55\x99\xaaXNLX" + bytes(900) + swap("the bytes of each word").back(DATA),
    ], "Zynq-7000"),
    Said("a text transfer", [header(len(DATA)) + DATA.replace(b"\n", b"\r\n")], "as text"),
    Said("recoded", [DATA.decode("latin1").encode()], "UTF-8"),
    Said("seven bits", [bytes(it & 127 for it in DATA)], "highest bit"),
    Said("a bit late", [(int.from_bytes(DATA, "big") >> 1).to_bytes(len(DATA), "big")],
         "all bits come 1 places late"),
]
# Streams whose bits, bytes or words were turned.
TURNED = [
    Said(f"{way.what} turned{after}", [head + way.back(DATA)], f"{way.what} (is|are) {way.how}")
    for way in x7kinds.WAYS
    for after, head in (("", b""), (" after a header", header(len(DATA), design="mm")))
]
BAD = [*CUT, *FOREIGN, *WRONG_WORDS, *SEVERAL, *OTHER_KINDS, *TURNED]
NOTES = [
    Said("no check", [s.bit(no_check(FULL))], "note: no write to CRC"),
    Said("a clock of the cable", [with_word("COR0", "02013FE5")], "note: startup runs on TCK"),
    Said("a clock of the design", [with_word("COR0", "0200BFE5")], "note: startup runs on a clock of the design"),
    Said("a length that is too large", [header(len(DATA) + 4096) + DATA], "length: the header tells of"),
]


def in_file(data: bytes, name: str) -> str:
    """The path of a file that holds these bytes."""
    return put_file(FOLDER, name, data)


def files_of(raws: Sequence[bytes]) -> list[str]:
    """The paths of files that hold these streams."""
    return [in_file(raw, f"s{number}.bit") for number, raw in enumerate(raws)]


def lists_of(raws: Sequence[bytes]) -> list[str]:
    """The paths of files that hold the listings of streams."""
    lists = ("".join(f"{it}\n" for it in x7.listing_of(x7.stream_of(raw))) for raw in raws)
    return [in_file(text.encode(), f"s{number}.bit") for number, text in enumerate(lists)]


def asked(name: str, words: Sequence[str], pattern: str, status: int) -> None:
    """why says this of the words, with this status, and never fails itself."""
    came, out, err = called("why", *words)
    text = out.decode() + err
    is_so = came == status and re.search(pattern, text)
    tally.check(name, is_so, f"status {came}: {text[:300]!r}, wanted {pattern!r}")
    section = re.search("read on: BOARD, (.*)", text)
    is_there = not section or f"\n## {section[1]}\n" in BOARD
    tally.check(f"{name}: its section", is_there, section and section[1])


def table(cases: Sequence[Said], status: int) -> None:
    """Each case alone, and with its part where x7 is at hand."""
    for name, raws, pattern in cases:
        paths = files_of(raws)
        asked(name, ["--alone", *paths], pattern, status)
        if program() and all(raws):
            part = in_file(s.PART.encode(), "small.part")
            asked(f"{name}, played", ["--part", part, *paths], pattern, status)
        lists = lists_of(raws)
        if all(os.path.getsize(it) for it in lists) and not re.search(UNLISTED, pattern):
            asked(f"{name}, listed", ["--alone", *lists], pattern, status)


def played(lines: Sequence[str] = FULL) -> Device:
    """A device that has taken a stream."""
    return Device(s.IDCODE).play(s.data_of(lines))


def report_text(device: Device, end: str = "", stat: int = 0) -> str:
    """A report as x7 would write it, of a device that is played here; with another end, or another STAT, where one is
    given."""
    known = stat or 0x190C | device.ghigh << 7 | device.gwe << 6 | device.gts << 5
    registers = {
        **device.registers, "STAT": known, "CMD": device.command, "IDCODE": s.IDCODE, "CRC": device.check.value,
    }  # fmt: skip
    lines = ["part small", f"taken {device.taken}", f"end {end or ' '.join(device.end)}"]
    lines += [f"phase {device.phase} done {int(device.phase >= device.done_phase)} gts {device.gts} gwe {device.gwe}"]
    lines += [f"reg {name} {word:08X}" for name, word in registers.items()]
    return "\n".join([*lines, "reads 0", "frames 0", ""])


def with_reports() -> None:
    """Listings and reports that belong together, and such that don't."""
    good, other = played(), s.data_of(s.with_data(FULL, "COR0", "02003EE5"))
    report = in_file(report_text(good).encode(), "good.report")
    full, cut, two = in_file(RAW, "full.bit"), in_file(RAW[:-3000], "cut.bit"), in_file(other, "other.bin")
    starts = (
        "^it starts: phase 7; 7a35tcpg236 of 2026/11/29 10:00:00\n"
        "next: .*why --stat W\nread on: BOARD, Phase 7"
    )
    asked("a report", [full, report], starts, 0)
    asked("a report of a longer stream", [cut, report], f"{OTHER_STREAMS}: it took", 1)
    asked("a report of another stream", [two, report], f"{OTHER_STREAMS}: it has COR0", 1)
    asked("a report of one of two", [full, full, report], OTHER_STREAMS, 1)
    wrong = {
        "Crc": "fault Crc 0000ABCD 0000DCBA", "Packet": "fault Packet 0000ABCD",
        "Id": f"fault Id {s.IDCODE:08X} 03651093",
    }  # fmt: skip
    for fault, line in wrong.items():
        damaged = in_file(report_text(good, line).encode(), f"{fault}.report")
        said = f"{OTHER_STREAMS}: it took .* and ends as '{line}'"
        asked(f"a report of a damaged stream, {fault}", [full, damaged], said, 1)
    asked("an empty report", [full, in_file(b"", "empty")], "there is no report", 1)
    waiting = s.with_data(FULL, "COR0", "02003EA5")
    waits = Device(s.IDCODE, 60000).play(s.data_of(waiting))
    report = in_file(report_text(waits, stat=0x1988).encode(), "waits.report")
    asked("a wait", [in_file(s.bit(waiting), "waits.bit"), report],
          "startup waits in phase 2 for the clocks to lock", 1)


# The beginnings of the lines of attempts.
POWER, UPDATE = "1 power 00000000", "2 iprog 00020000"
# Attempts of a boot, how it ends, what is said, and the status.
BOOTS = [
    ([f"{POWER} iprog", f"{UPDATE} started"], "started", "^it starts: phase 7", 0),
    ([f"{POWER} started"], "started", "^it starts: phase 7", 0),
    ([f"{POWER} iprog", f"{UPDATE} crc", "3 fallback 00000000 started"], "started",
     "it starts, but with the golden image: iprog at 00020000: crc", 1),
    ([f"{POWER} iprog", f"{UPDATE} wrap", "3 fallback 00000000 started"], "started",
     "golden image: iprog at 00020000: wrap(.|\n)*note: wrap .* with an SPI flash a board may hang", 1),
    ([f"{POWER} watchdog", "2 fallback 00000000 started"], "started",
     "the flash has one image, and a fallback has no watchdog", 1),
    ([f"{POWER} crc", "2 fallback 00000000 crc"], "stopped",
     "no attempt started .*the flash has one image, and the fallback finds the same one", 1),
    ([f"{POWER} iprog", "2 iprog 00002300 started"], "started", "which is no sector's beginning", 1),
    ([f"{POWER} iprog", f"{UPDATE} wrap"], "stopped", "no fallback follows: CTL0 00000501 has bit 10 set", 1),
    ([f"{number} iprog 00230000 iprog" for number in range(1, 17)], "loop",
     "each attempt leads to another one", 1),
]


def boot_file(attempts: Sequence[str], end: str, device: Device) -> str:
    """The path of what `x7 boot` writes of these attempts."""
    lines = ["boot small", *(f"attempt {it}" for it in attempts), f"end {end}", report_text(device)]
    return in_file("\n".join(lines).encode(), "boot.report")


def boots() -> None:
    """Texts of boots: which image started, and why not another."""
    good, stream = played(), in_file(RAW, "update.bit")
    for attempts, end, pattern, status in BOOTS:
        asked(f"boot {attempts[-1]}", [stream, boot_file(attempts, end, good)], pattern, status)
    erased = boot_file([f"{POWER} wrap", "2 fallback 00000000 wrap"], "stopped", Device(s.IDCODE))
    asked("boot of an erased flash", [stream, erased], "nowhere in the flash is a sync word", 1)
    clock = s.with_data(FULL, "COR0", "02013FE5")
    on_tck = boot_file([f"{POWER} started"], "started", played(clock))
    asked("boot on TCK", [in_file(s.bit(clock), "clock.bit"), on_tck], "which a flash doesn't give", 1)


# Words that a board shows, and what is said of each.
SHOWN = [
    ("--stat", "0000990C", "BOARD, A stream for another device(.|\n)*ID_ERROR +1.*wrong IDCODE"),
    ("--stat", "0x401079FC", "it says: the device runs"),
    ("--stat", f"{0x401079FC:032b}", "^STAT 401079FC\nit says: the device runs"),
    ("--stat", "FFFFFFFF", "no device answers"),
    ("--stat", "0000090D", "a check failed"),
    ("--stat", "401039FC", "the pin is low: something on the board holds it"),
    ("--stat", "0000090C",
     "^STAT 0000090C\nit says: INIT_B is low without a failed check(.|\n)*BOARD, A board that doesn't answer"),
    ("--stat", "0000190C", "it says: startup hasn't begun"),
    ("--stat", "000C1988", "startup stands in phase 2: MMCM_LOCK is 0"),
    ("--bootsts", "00002507", "the attempt before a check failed: it fell back"),
    ("--cor0", "02003FFF", "KEEP"),
    ("--cor0", "02013FE5", "doesn't run on CCLK"),
    ("--ctl0", "00000501", "no fallback"),
]
NO_WORDS = ["--stat", "--stat 12G", "--stat 123456789", "--stat " + "01" * 15, "--far 1", "--stat 1 x"]


def words() -> None:
    """Words of a board, and words that why refuses."""
    for option, word, pattern in SHOWN:
        asked(f"{option} {word}", [option, word], pattern, 0)
    asked("two words", ["--stat", "0000990C", "--ctl0", "501"], "STAT 0000990C(.|\n)*CTL0 00000501", 0)
    for wrong in NO_WORDS:
        asked(f"words {wrong}", wrong.split(), "^why: ", 2)


# texts that begin as listings and are none
NO_LISTINGS = [
    b"sync\nbytes\n", b"sync\ndata 004", b"sync\nnop \n", b"bytes F\n", b"bit A\n", b"nop\nnop\nwrite XX 1\n",
    b"nop\n" * 3 + b"\xff\n",
]  # fmt: skip


def refused() -> None:
    """What can't be taken: one line, status 2, and no output."""
    stream, report = in_file(RAW, "s.bit"), in_file(b"part x\ntaken 1\nend synced\n", "cut.report")
    cases: list[list[str]] = [
        [], ["/nowhere"], [FOLDER], [stream, "/nowhere"], ["--part", stream, stream], ["--part", "/nowhere", stream],
        [report], [stream, report], ["--own-part"], ["--own-part", "/nowhere"],
        *([in_file(text, f"l{number}.list")] for number, text in enumerate(NO_LISTINGS)),
        [in_file(RAW[:20], "h.bit")], [in_file(RAW[:13] + b"b" + RAW[14:], "letter.bit")],
    ]  # fmt: skip
    for number, it in enumerate(cases):
        status, out, err = ran("why", *it)
        is_so = status == 2 and not out and err.count("\n") == 1 and err.startswith("why: ")
        tally.check(f"refused {number} {it}", is_so, f"status {status} {out[:99]!r} {err!r}")
    for how, wanted in (
        (">&- 2>/dev/null", 2),
        ("2>&- >/dev/null", 0),
        ("<&- >/dev/null 2>/dev/null", 0),
        ("> /dev/full 2>/dev/null", 2),
    ):
        tally.same(f"why {how}", shell_status("why", [stream], how), wanted)
    for size in range(0, 1200, 83):
        status, _, err = called("why", in_file(LISTING[:size], "beginning.list"))
        tally.check(f"the first {size} bytes of a listing", status in (1, 2) and "Traceback" not in err, err)


def large() -> None:
    """A listing of 60 MB of no-ops takes little time and memory."""
    path = in_file(b"sync\n" + b"nop\n" * 15000000, "nops.list")
    status, _, _ = ran("why", path)
    used = resource.getrusage(resource.RUSAGE_CHILDREN)
    is_so = status == 1 and used.ru_maxrss < 400 << 10
    tally.check("a listing of no-ops", is_so, f"status {status}, {used.ru_maxrss} KiB")
    os.remove(path)


def own_parts() -> None:
    """Streams on parts that are made of themselves."""
    nothing_played = "nothing is wrong(.|\n)*note: nothing was played: part: .*one run"
    asked("an uncompressed stream on its own part", ["--own-part", *files_of([RAW])], nothing_played, 0)
    cut = files_of([RAW[:-3000]])
    asked("a damaged stream on its own part", ["--own-part", *cut], "^cause: the stream is cut off", 1)
    if program():
        packed = files_of([PACKED])
        asked("a compressed stream on its own part", ["--own-part", *packed], "^it starts: phase 7", 0)


def alone() -> None:
    """Streams of which no part can be told."""
    dies = files_of([s.data_of(s.with_data(FULL, "IDCODE", "036B3093"))])
    asked("a device of several dies", dies, "note: 036B3093 is a device of several dies", 0)
    asked("a partial stream alone", files_of([CHANGE]), "nothing is wrong in the stream alone.*partial", 0)


with tempfile.TemporaryDirectory() as FOLDER:
    table(GOOD_ONES, 0)
    table(BAD, 1)
    table(NOTES, 0)
    with_reports()
    boots()
    words()
    refused()
    large()
    alone()
    tally.check("help", b"the likely cause" in ran("why", "--help")[1])
    own_parts()
if not program():
    tally.skip("plays by x7")
tally.end()
