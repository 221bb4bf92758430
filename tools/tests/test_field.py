"""Tests what `check_update` says of cases that the model starts and a board doesn't, or the other way round: golden
streams, modes, times, what an erase takes, opcodes; and that none of the good ones is refused."""
from __future__ import annotations

from typing import NamedTuple, Sequence

from runs import DEVICE, Bench, frame_of, run_parts, text_of_frames
import x7formats as x7
from x7layout import SECTOR

SIZE = 6 * SECTOR
UPDATE = 2 * SECTOR
# what comes before COR0 in a made stream, and how one becomes another
BEFORE_COR0 = "write COR0 1\ndata 02003FE5"
START = "write CMD 1\ncmd SHUTDOWN"
FAST = {"data 02003FE5": "data 02423FE5", START: f"write BSPI 1\ndata 0000026B\nwrite CMD 1\ncmd BSPI_READ\n{START}"}


class Golden(NamedTuple):
    """A golden stream that is changed, and what is said of it."""

    name: str
    changes: dict[str, str]  # lines of its listing, old and new
    fails: list[str]  # the checks that fail


class Timed(NamedTuple):
    """A stream with a watchdog, and what is said of it."""

    name: str
    word: str  # of TIMER
    changes: dict[str, str]  # further lines of its listing, old and new
    fails: list[str]  # the checks that fail
    notes: list[str]  # the notes that are made


class Said(NamedTuple):
    """What a call of `check_update` said."""

    status: int | None  # its status, or none where it didn't end in time
    fails: set[str]  # the names of the checks that fail
    lines: dict[str, str]  # the line of each check, by its name
    notes: dict[str, str]  # the notes, by their names


def said(bench: Bench, *words: str) -> Said:
    """Calls `check_update`, whose inputs must stay as they are."""
    before = {it: bench.get(it) for it in words[-2:]}
    came = bench.tool("check_update", *words)
    parts = [line.split(": ", 2) for line in came.out.decode().splitlines() if ": " in line]
    bench.tally.check(f"{words} leaves its inputs", all(bench.get(it) == data for it, data in before.items()))
    lines = {name: text for kind, name, text in parts if kind != "note"}
    notes = {name: text for kind, name, text in parts if kind == "note"}
    return Said(came.status, {name for kind, name, _ in parts if kind == "fails"}, lines, notes)


def expect(
    bench: Bench, name: str, fails: Sequence[str], words: Sequence[str], notes: Sequence[str] = ("damaged",)
) -> Said:
    """The checks that fail are these, and the notes that are made."""
    found = said(bench, *words)
    bench.tally.same(name, (found.status, found.fails), (int(bool(fails)), set(fails)))
    bench.tally.same(f"{name}: notes", set(found.notes), set(notes))
    return found


def make(bench: Bench) -> None:
    """A part, streams for it, and a flash."""
    bench.put("made.part", "mode = 1\n" + DEVICE)
    for name, seed in (("golden", 1), ("update", 2), ("next", 3)):
        bench.put("frames", text_of_frames({"00000000": frame_of(seed), "00400085": frame_of(10 * seed)}))
        bench.make(name, "x7", "plan", "full", "made.part", "frames")
    put_flash(bench, "golden", "update")


def put_flash(bench: Bench, golden: str, update: str) -> None:
    """The flash with these streams."""
    bench.make("image", "x7", "image", golden, update)
    bench.put("flash", bench.get("image").ljust(SIZE, b"\xff"))


def changed(bench: Bench, stream: str, changes: dict[str, str]) -> str:
    """The name of a stream with changes of its listing, its checks made anew."""
    lines = "\n".join(x7.listing_of(x7.stream_of(bench.get(stream)))).replace("write CRC 1\ndata ", "crc\n# ")
    for old, new in changes.items():
        bench.tally.check(f"{stream} has {old!r}", old in lines)
        lines = lines.replace(old, new)
    bench.put("listing", lines)
    bench.make("other", "x7", "asm", "listing")
    return "other"


def goldens(bench: Bench) -> None:
    """The golden stream is judged as the update is."""
    words = ["made.part", "flash", "next"]
    other_device = {"data 0362D093": "data 0362C093"}
    cases: list[Golden] = [
        Golden("a golden stream of JTAG's clock", {"data 02003FE5": "data 02013FE5"}, ["golden clock"]),
        Golden("a golden stream of the user's clock", {"data 02003FE5": "data 0200BFE5"}, ["golden clock"]),
        Golden("a golden stream without a check", {"crc\n": "# "}, ["golden stream"]),
        Golden("a golden stream for another device", other_device, ["golden idcode", "closed", "damaged"]),
        Golden("a golden stream at 33 MHz on four lines", FAST, []),
    ]
    for name, changes, fails in cases:
        put_flash(bench, changed(bench, "golden", changes), "update")
        expect(bench, name, fails, words, [] if "damaged" in fails else ["damaged"])
    bench.put("nothing", b"name = 'none'\n")
    put_flash(bench, "nothing", "update")
    found = expect(bench, "a golden stream that is none", ["golden stream", "clean", "closed", "damaged"], words, [])
    bench.tally.check("it is said to be none", "no sync word" in found.lines["golden stream"], found)
    cut = bench.get("golden")[:-90]
    bench.put("other", cut)
    put_flash(bench, "other", "update")
    found = expect(bench, "a golden stream that is cut off", ["golden stream", "closed", "damaged"], words, [])
    bench.tally.check("it is said to be cut off", "doesn't end" in found.lines["golden stream"], found)
    put_flash(bench, "golden", "update")


def modes(bench: Bench) -> None:
    """Modes in which the device reads no SPI flash fail; 1, and a part file without a mode, don't."""
    for mode in range(8):
        bench.put("mode.part", f"mode = {mode}\n" + DEVICE)
        found = expect(bench, f"mode {mode}", [] if mode < 2 else ["mode"], ["mode.part", "flash", "next"])
        line = found.lines["mode"]
        bench.tally.check(f"mode {mode} is said", ("BPI" if mode == 2 else "mode") in line, line)
    bench.put("mode.part", DEVICE)
    expect(bench, "no mode", [], ["mode.part", "flash", "next"])


def armed(word: str, changes: dict[str, str]) -> dict[str, str]:
    """Changes that let a stream write TIMER too."""
    return {**changes, BEFORE_COR0.split("\n", maxsplit=1)[0]: f"write TIMER 1\ndata {word}\nwrite COR0 1"}


def times(bench: Bench) -> None:
    """A watchdog is judged by seconds: it fails where it is too short at any clock, and what isn't sure is noted. The
    stream has some 15,000 bytes: 40 ms on one line at 3 MHz, 0.9 on four at 33."""
    words = ["made.part", "flash", "other"]
    ends, other_clock = ["damaged"], {"data 02003FE5": "data 02083FE5"}
    cases: list[Timed] = [
        Timed("a watchdog that lasts, in fewer bytes than the stream's", "40000E00", FAST, [], ends),
        Timed("a watchdog that lasts", "40100000", {}, [], ends),
        Timed("a watchdog that lasts at these clocks", "40003000", {}, [], ["time", *ends]),
        Timed("a watchdog that doesn't at these clocks", "40001000", {}, [], ["time", *ends]),
        Timed("a watchdog whose clock isn't known", "40001000", other_clock, [], ["time", *ends]),
        Timed("a watchdog that lasts at no clock", "40000010", {}, ["time"], ends),
        Timed("no watchdog", "00000010", {}, [], ends),
    ]
    for name, word, changes, fails, notes in cases:
        changed(bench, "next", armed(word, changes))
        found = expect(bench, name, fails, words, notes)
        text = found.notes.get("time") or found.lines["time"]
        bench.tally.check(f"{name}: both times are said", "bytes at" in text and "take" in text, text)
        bench.tally.same(f"{name}: allow_fallback takes it", bench.tool("allow_fallback", "other").status, 0)
    cases_of_goldens: list[Timed] = [
        Timed("a golden watchdog that lasts", "40100000", {}, [], ["damaged"]),
        Timed("a golden watchdog that may not last", "40001000", {}, [], ["golden time", "damaged"]),
        Timed("a golden watchdog that lasts at no clock", "40000010", {}, ["golden time"], ["damaged"]),
    ]
    for name, word, changes, fails, notes in cases_of_goldens:
        put_flash(bench, changed(bench, "golden", armed(word, changes)), "update")
        expect(bench, name, fails, ["made.part", "flash", "next"], notes)
    put_flash(bench, "golden", "update")
    found = said(bench, "made.part", "flash", "next")
    first = "65536 bytes at 3 MHz and one line take some 0.17 s until"
    bench.tally.check("the time before the golden stream is said", first in found.lines["golden time"], found)


def rests(bench: Bench) -> None:
    """What an update erases beside the old one fails, and an end of the region keeps it; the old update itself,
    however long, is nothing that is lost."""
    flash, words = bench.get("flash"), ["made.part", "flash", "next"]
    end = UPDATE + len(bench.get("update"))
    second = flash[: 4 * SECTOR] + bench.get("golden").ljust(2 * SECTOR, b"\xff")
    for name, data, place in (
        ("a second image", second, 4 * SECTOR),
        ("a key in the last bytes", flash[:-16] + bytes(16), SIZE - 16),
        ("bytes right after the update", flash[:end] + b"\0" + flash[end + 1 :], end),
    ):
        bench.put("flash", data)
        found = expect(bench, name, ["rest"], words)
        bench.tally.check(f"{name}: its place is said", f"{place:08X}" in found.lines["rest"], found.lines)
    bench.put("flash", second)
    found = expect(bench, "a region that ends before the second image", [], ["--end", "00040000", *words])
    later = "not there: the device reads on past 00040000"
    bench.tally.check("the second image starts where the update is missing", later in found.notes["damaged"], found)
    other = flash[: 4 * SECTOR] + bytes(2 * SECTOR)
    bench.put("flash", other)
    found = expect(bench, "a region that ends before other data", [], ["--end", "00040000", *words])
    bench.tally.check("they are no image", "hang" in found.notes["damaged"], found)
    bench.put("flash", flash)
    put_long(bench)
    put_flash(bench, "golden", "long")
    expect(bench, "an old update that is longer", [], words)
    bench.put("flash", bench.get("flash")[: UPDATE + 5000].ljust(SIZE, b"\xff"))
    expect(bench, "an old update that was cut short", [], words)
    bench.put("flash", bench.get("image")[:UPDATE].ljust(SIZE, b"\xff"))
    expect(bench, "no old update", [], words)
    put_flash(bench, "golden", "update")


def put_long(bench: Bench) -> None:
    """A stream with no-ops before its end and after it, as the vendor's have."""
    many = "nop\n" * 20000
    changed(bench, "update", {"write CMD 1\ncmd DESYNC": f"{many}write CMD 1\ncmd DESYNC\n{many.rstrip()}"})
    bench.put("long", bench.get("other"))


def opcodes(bench: Bench) -> None:
    """An opcode that wants 32 address bits is noted, of the update and of the golden stream."""
    for word in ("0000000B", "0000026B", "0000026C", "0000000C", "00000013"):
        notes = [] if word.endswith("B") else ["address"]
        changed(bench, "next", {START: f"write BSPI 1\ndata {word}\n{START}"})
        found = expect(bench, f"BSPI {word}", [], ["made.part", "flash", "other"], ["damaged", *notes])
        bench.tally.check(f"BSPI {word}: its word is said", not notes or word in found.notes["address"], found.notes)
    put_flash(bench, changed(bench, "golden", {START: f"write BSPI 1\ndata 0000026C\n{START}"}), "update")
    found = expect(bench, "the golden stream's opcode", [], ["made.part", "flash", "next"], ["address", "damaged"])
    bench.tally.check("it is the golden stream's", "golden" in found.notes["address"], found.notes)
    put_flash(bench, "golden", "update")


def sizes(bench: Bench) -> None:
    """A file that is too short is lengthened with FF, and no other bytes."""
    found = expect(bench, "the file is too short", ["size"], ["--size", str(2 * SIZE), "made.part", "flash", "next"])
    command = f"head -c {SIZE} /dev/zero | tr '\\0' '\\377' >> flash"
    bench.tally.check("with FF", command in found.lines["size"], found.lines["size"])
    bench.put("kept", bench.get("flash"))
    bench.shell(found.lines["size"].rsplit(": ", 1)[1])
    bench.tally.same("that command", bench.get("flash"), bench.get("kept").ljust(2 * SIZE, b"\xff"))
    expect(bench, "then it has its size", [], ["--size", str(2 * SIZE), "made.part", "flash", "next"])
    put_flash(bench, "golden", "update")
    bench.put("other", bench.get("next") + bytes(SIZE))
    expect(bench, "a stream that is too long", ["update"], ["made.part", "flash", "other"], [])
    bench.put("other", bench.get("next") + bytes(30_000_000))
    for stream, line in (("next", ""), ("other", "check_update: the boots take some 10 seconds\n")):
        came = bench.tool("check_update", "made.part", "flash", stream)
        bench.tally.same(f"how long {stream} takes is said", came.err.decode(), line)


run_parts("check_update", make, goldens, modes, times, rests, opcodes, sizes)
