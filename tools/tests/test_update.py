#!/usr/bin/env python3
"""Tests `flash_steps`, `allow_fallback` and `check_update`: the steps, done one by one, leave the flash that `x7
update` leaves, and in its order; what a power loss leaves between two steps boots; each check fails of the flash or the
stream that it is for."""
from __future__ import annotations

import random
import re
from typing import Iterator

from casefiles import header
from runs import DEVICE, Bench, frame_of, run_parts, text_of_frames
import x7formats as x7
from x7layout import SECTOR, slot_of

SIZE = 5 * SECTOR
PART = ["made.part"]
# the words of a check of an update, and of the steps of one
CHECK, STEPS = [*PART, "flash", "next"], ["flash", "next"]
# the texts of a header that has none
NO_TEXTS = [""] * 4
# a header for data of length 0
EMPTY_HEADER = header(0, *NO_TEXTS)
BAD_WORDS_OF_CHECKS: list[list[str]] = [
    [], [*PART, "flash"], ["nowhere", "flash", "next"], [*PART, "nowhere", "next"], ["flash", "flash", "next"],
    ["--size", "x", *CHECK], ["--x7", "/nowhere", *CHECK], ["--none", *CHECK], ["--end", *CHECK],
    ["--end", "00020001", *CHECK], ["--end", "00010000", *CHECK], ["--end", "00060000", *CHECK],
    ["--end", "end", *CHECK],
]  # fmt: skip
BAD_WORDS_OF_STEPS: list[list[str]] = [
    [], ["flash"], ["flash", "nowhere"], ["nowhere", "next"], [*STEPS, "next"], ["--page", *STEPS],
    ["--page", "x", *STEPS], ["--end", "00020001", *STEPS], ["--size", "327680", *STEPS],
    ["--start-unit", "2", *STEPS], ["--vendor", "--size", "327680", *STEPS], ["--vendor", *STEPS],
]  # fmt: skip


def make(bench: Bench) -> None:
    """A part, streams for it, and a flash."""
    bench.put("made.part", DEVICE)
    for name, seed in (("golden", 1), ("update", 2), ("next", 3)):
        bench.put("frames", text_of_frames({"00000000": frame_of(seed), "00400085": frame_of(10 * seed)}))
        bench.make(name, "x7", "plan", "full", "made.part", "frames")
    bench.make("image", "x7", "image", "golden", "update")
    new_flash(bench)
    listing = lines_of(bench, "next").replace("data 00000101", "data 00000501")
    bench.put("listing", listing.replace("write CRC 1\ndata ", "crc\n# "))
    bench.make("forbids", "x7", "asm", "listing")


def new_flash(bench: Bench) -> None:
    """The flash as it was at first."""
    bench.put("flash", bench.get("image").ljust(SIZE, b"\xff"))


def lines_of(bench: Bench, stream: str) -> str:
    """The listing of a stream."""
    return "\n".join(x7.listing_of(x7.stream_of(bench.get(stream))))


# ---- steps


def apply(flash: bytearray, line: str, raw: bytes) -> bool:
    """Does a step: an erase sets bits, a program clears them. Answers whether a read found what is wanted."""
    verb, digits, size, *rest = line.split()
    place, count = int(digits, 16), int(size)
    if verb == "erase":
        flash[place : place + count] = b"\xff" * count
        return place % SECTOR == 0 and count == SECTOR
    if rest == ["erased"]:
        wanted = b"\xff" * count
    elif rest[0] == "from":
        wanted = raw[int(rest[1]) : int(rest[1]) + count]
    else:
        wanted = bytes.fromhex(rest[0])
    if verb == "read":
        return flash[place : place + count] == wanted
    old = bytes(flash[place : place + count])
    flash[place : place + count] = bytes(one & other for one, other in zip(old, wanted))
    return flash[place : place + count] == wanted


def steps_of(bench: Bench, *words: str) -> list[str]:
    """The steps that flash_steps lists."""
    came = bench.tool("flash_steps", *words)
    bench.tally.same(f"flash_steps {' '.join(words)}", came.status, 0)
    return [line for line in came.out.decode().splitlines() if not line.startswith("#")]


def do_steps(bench: Bench, name: str, stream: str, *options: str) -> None:
    """Does the steps of an update, and compares what they leave with what `x7 update` leaves."""
    flash, raw = bytearray(bench.get("flash")), bench.get(stream)
    steps = steps_of(bench, *options, "flash", stream)
    for number, line in enumerate(steps):
        bench.tally.check(f"{name}, step {number + 1}: {line[:60]}", apply(flash, line, raw))
    bench.put("copy", bench.get("flash"))
    came = bench.x7("update", "copy", stream)
    bench.tally.same(f"{name}: x7 update", (came.status, bench.get("copy") == bytes(flash)), (0, True))
    verbs = [line.split()[0] for line in steps]
    kinds = re.sub(r"(\w)\1+", r"\1", "".join(it[0] for it in verbs))
    bench.tally.check(f"{name}: the order is {kinds}", kinds in ("peprpr", "eprpr", "perpr", "erpr"))


def steps(bench: Bench) -> None:
    """Several updates one after the other, by each form of the list."""
    for number, options in enumerate(["", "--page 0", "--bytes", "--bytes --page 100"]):
        for stream in ("next", "update"):
            do_steps(bench, f"update {number} {stream}", stream, *options.split())
        bench.put("flash", bench.get("copy"))
    paged = steps_of(bench, *STEPS)
    places = [(int(line.split()[1], 16), int(line.split()[2])) for line in paged if line.startswith("program")]
    are_whole = all(place // 256 == (place + size - 1) // 256 for place, size in places)
    bench.tally.check("a program stays in its page", are_whole)
    bench.tally.same("a page has 256 bytes where none is said", paged, steps_of(bench, "--page", "256", *STEPS))
    begins = [it for it in steps_of(bench, "--page", "0", *STEPS) if it.startswith("program 00020000")]
    whole = f"program 00020000 {len(bench.get('next'))} from 0"
    bench.tally.same("--page 0 has one program of the stream", begins, [whole])
    bench.put("nothing", b"")
    do_steps(bench, "an empty stream", "nothing", "--any")
    bench.put("headed", header(len(bench.get("next")), *NO_TEXTS) + bench.get("next"))
    do_steps(bench, "a stream after a header", "headed", "--page", "512")
    bench.put("closed", x7.bytes_of([0]) + bench.get("image")[4:].ljust(SIZE - 4, b"\xff"))
    bench.put("flash", bench.get("closed"))
    do_steps(bench, "no slot is open", "next")


def regions(bench: Bench) -> None:
    """The first sector in place of the flash gives the same steps; a region with an end gives those of a file that is
    cut there, of which `x7 update` leaves the same."""
    new_flash(bench)
    bench.put("first", bench.get("flash")[:SECTOR])
    sized = ["--size", str(SIZE)]
    bench.tally.same("--size", steps_of(bench, *sized, "first", "next"), steps_of(bench, *STEPS))
    bench.put("region", bench.get("flash")[: 3 * SECTOR])
    region = steps_of(bench, "region", "next")
    bench.tally.same("--end", steps_of(bench, "--end", "00030000", *STEPS), region)
    bench.tally.same("--size with --end", steps_of(bench, *sized, "--end", "30000", "first", "next"), region)
    second = bench.get("flash")[: 3 * SECTOR] + bytes(2 * SECTOR)
    after = bytearray(second)
    for line in region:
        bench.tally.check(f"region: {line[:60]}", apply(after, line, bench.get("next")))
    bench.x7("update", "region", "next")
    bench.tally.same("what lies after the region stays", bytes(after), bench.get("region") + second[3 * SECTOR :])
    bench.put("long", bytes(2 * SECTOR))
    bench.refuses("flash_steps", "--any", "--end", "00030000", "flash", "long", what="--end 00030000")
    bench.refuses("flash_steps", "--any", "--size", str(3 * SECTOR), "first", "long", what="flash's end")


def no_streams(bench: Bench) -> None:
    """What no flash should be updated with is refused, and --any takes it."""
    bench.put("nothing", b"")
    bench.put("cut", bench.get("next")[:-70])
    bench.put("listing", lines_of(bench, "next").replace("write CRC 1\ndata ", "nop\n# "))
    bench.make("unchecked", "x7", "asm", "listing")
    for name, what in (
        ("made.part", "no sync word"),
        ("nothing", "no sync word"),
        ("cut", "DESYNC"),
        ("image", "flash image"),
        ("unchecked", "no check"),
    ):
        bench.refuses("flash_steps", "flash", name, what=what)
        fits = len(bench.get(name)) <= 3 * SECTOR
        status = bench.tool("flash_steps", "--any", "flash", name).status
        bench.tally.same(f"--any takes {name}", status, 0 if fits else 2)


def cuts(bench: Bench) -> None:
    """The power goes between two steps, or in the middle of one: what is there boots."""
    new_flash(bench)
    raw, flash, rng = bench.get("next"), bytearray(bench.get("flash")), random.Random(5)
    for number, line in enumerate(steps_of(bench, *STEPS)):
        torn, before = bytearray(flash), bytes(flash)
        apply(flash, line, raw)
        is_tried = number % 31 < 2  # two steps in 31: a boot takes a while
        for place in range(len(flash)) if before != flash and is_tried else ():
            if before[place] != flash[place]:
                torn[place] = before[place] if rng.random() < 0.5 else flash[place]
        if is_tried:
            bench.put("torn", bytes(torn))
            came = bench.x7("boot", "made.part", "torn")
            is_so = came.status == 0 and b"end started" in came.out
            bench.tally.check(f"torn in step {number + 1}", is_so, came.out[:200])


def bad_flashes(bench: Bench) -> Iterator[tuple[str, bytes]]:
    """Flashes without a layout, by name."""
    image = bench.get("image")
    yield "short", image[: SECTOR - 1]
    yield "one", image[:SECTOR]
    yield "odd", image[:-1]
    yield "nothing", b""
    yield "stream", bench.get("next").ljust(2 * SECTOR, b"\xff")
    yield "slot", image[:100] + b"\0" + image[101:]
    yield "first", image[:5] + b"\1" + image[6:]
    yield "two", image[:64] + x7.SYNC + image[68:]
    # whose slots lead to a place where no update may begin
    slot = slot_of(b"\0\1\0\0")
    yield "place", (slot + (b"\xff" * 4 + slot[4:]) * 2047).ljust(len(image), b"\xff")
    yield "last", image[: SECTOR - 32] + b"\0\0\0\0" + image[SECTOR - 28 :]
    yield "ff", b"\xff" * len(image)
    yield "zero", bytes(len(image))


def layouts(bench: Bench) -> None:
    """Flashes without a layout are refused with the place that x7 tells."""
    for name, flash in bad_flashes(bench):
        bench.put("bad", flash)
        refused = bench.x7("update", "bad", "next")
        place = refused.err.decode().rsplit(" ", 1)[-1].strip()
        bench.tally.same(f"x7 refuses {name}", refused.status, 5)
        bench.refuses("flash_steps", "bad", "next", what=f"layout byte {place}:")
        came = bench.tool("check_update", *PART, "bad", "next")
        is_so = came.status == 1 and f"fails: layout: layout byte {place}:".encode() in came.out
        bench.tally.check(f"check_update {name}", is_so, came.out[:200])
    bench.put("long", bytes(4 * SECTOR))
    bench.refuses("flash_steps", "--any", "image", "long", what="FF: head -c N /dev/zero")
    bench.put("listing", bench.x7("list", "next").out)
    bench.refuses("flash_steps", "image", "listing", what="is a listing: x7 asm")
    bench.refuses("allow_fallback", "listing", what="is a listing: x7 asm")


# ---- a stream that is allowed to fall back


def allowed(bench: Bench) -> None:
    """CTL0 loses bit 10 and nothing else, the checks are right, and what isn't whole is refused."""
    bench.make("allows", "allow_fallback", "forbids")
    bench.tally.check("forbids has the bit", bench.get("forbids") != bench.get("next"))
    bench.tally.same("what it writes is the stream with 101", bench.get("allows"), bench.get("next"))
    bench.make("again", "allow_fallback", "next")
    bench.tally.same("a stream that falls back stays", bench.get("again"), bench.get("next"))
    data = bench.get("forbids")
    bench.put("headed", header(len(data), *NO_TEXTS) + data)
    bench.make("still", "allow_fallback", "headed")
    bench.tally.same("a header stays", bench.get("still")[len(EMPTY_HEADER) :], bench.get("next"))
    for bad, what in (
        (data[:-80], "DESYNC"),
        (data[:500] + bytes([data[500] ^ 4]) + data[501:], "check fails"),
        (b"", "no sync word"),
        (EMPTY_HEADER + data, "header tells"),
    ):
        bench.put("bad", bad)
        bench.refuses("allow_fallback", "bad", what=what)
    bench.refuses("allow_fallback")
    bench.refuses("allow_fallback", "nowhere", what="nowhere")
    bench.refuses("allow_fallback", "forbids", closed=[1])


# ---- checks of an update

# the checks, in their order
NAMES = [
    "size", "layout", "rest", "mode", "stream", "idcode", "clock", "fallback", "time", "jump", "address",
    "golden stream", "golden idcode", "golden clock", "golden time", "clean", "closed", "update", "boot", "frames",
    "damaged",
]  # fmt: skip


# Changes of an update's listing, and the checks that fail of what it then is.
CHANGES: list[tuple[str, str, str, list[str]]] = [
    ("another device", "data 0362D093", "data 0362C093", ["idcode", "boot", "frames"]),
    ("a clock of JTAG", "data 02003FE5", "data 02013FE5", ["clock"]),
    ("outputs stay off", "data 02003FE5", "data 02003FFD", ["boot"]),
    ("interconnect stays high", "cmd LFRM", "cmd AGHIGH", ["boot"]),
    ("a jump", "cmd START", "cmd IPROG", ["jump", "boot"]),
    ("no check", "crc\n", "# ", []),
]


def checked(bench: Bench, name: str, fails: list[str], *words: str) -> tuple[list[str], list[str]]:
    """Runs all checks; those that fail are these. Answers the lines of the checks and those of the notes."""
    before = {it: bench.get(it) for it in words if it in ("flash", "other", "next")}
    came = bench.tool("check_update", *words)
    lines = came.out.decode().splitlines()
    notes = [line for line in lines if line.startswith("note: ")]
    lines = [line for line in lines if line.startswith(("ok: ", "fails: "))]
    failing = {line.split(": ")[1] for line in lines if line.startswith("fails")}
    bench.tally.same(f"{name}", (came.status, failing), (int(bool(fails)), set(fails)))
    bench.tally.check(f"{name} leaves its inputs", all(bench.get(it) == data for it, data in before.items()))
    return lines, notes


def mended(bench: Bench, stream: str, old: str, new: str) -> None:
    """A stream with a change of its listing, its checks made anew."""
    listing = lines_of(bench, stream).replace("write CRC 1\ndata ", "crc\n# ")
    bench.put("listing", listing.replace(old, new, 1))
    bench.make("other", "x7", "asm", "listing")


def checks(bench: Bench) -> None:
    """Each check fails of what it is for."""
    new_flash(bench)
    lines, _ = checked(bench, "all is well", [], "--size", str(SIZE), *CHECK)
    bench.tally.same("every check is made, in this order", [line.split(": ")[1] for line in lines], NAMES)
    checked(bench, "the file is too short", ["size"], "--size", str(2 * SIZE), *CHECK)
    checked(bench, "no fallback", ["fallback", "damaged"], *PART, "flash", "forbids")
    for name, old, new, fails in CHANGES:
        mended(bench, "next", old, new)
        checked(bench, name, fails, *PART, "flash", "other")
    bench.put("other", bench.get("next")[:-70])
    checked(bench, "cut off", ["stream"], *PART, "flash", "other")
    bench.put("other", bench.get("image"))
    checked(bench, "an image in place of a stream", ["stream"], *PART, "flash", "other")
    goldens(bench)
    ends_of_the_flash(bench)


def ends_of_the_flash(bench: Bench) -> None:
    """A note names the damages of which the fallback comes at the flash's end: without a watchdog, and where the
    update arms one."""
    mended(bench, "next", "write COR0 1", "write TIMER 1\ndata 40010000\nwrite COR0 1")
    for name, stream, ends in (("no watchdog", "next", "cut in half, not there"), ("a watchdog", "other", "not there")):
        _, notes = checked(bench, f"ends of the flash, {name}", [], *PART, "flash", stream)
        notes = [it for it in notes if it.startswith("note: damaged: ")]
        bench.tally.same(f"{name}: the note", [it.split(": ")[2] for it in notes], [ends])
        is_said = all("SPI" in it and "BPI" in it for it in notes)
        bench.tally.check(f"{name}: the note says where a board may hang", is_said, notes)


def goldens(bench: Bench) -> None:
    """Golden streams that don't do what an update wants of them."""
    shutdown = "write CMD 1\ncmd SHUTDOWN"
    for name, old, new, fails in (
        ("golden outputs stay off", "data 02003FE5", "data 02003FFD", ["closed", "damaged"]),
        ("golden begins otherwise", shutdown, f"write AXSS 1\ndata 00000000\n{shutdown}", ["clean"]),
        ("golden for another device", "data 0362D093", "data 0362C093", ["golden idcode", "closed", "damaged"]),
        ("golden leads on", shutdown, f"write CMD 1\ncmd IPROG\n{shutdown}", ["jump", "clean", "closed"]),
    ):
        mended(bench, "golden", old, new)
        bench.make("bad", "x7", "image", "other", "update")
        checked(bench, name, fails, *PART, "bad", "next")


def words(bench: Bench) -> None:
    """Words that the tools refuse."""
    for it in BAD_WORDS_OF_CHECKS:
        bench.refuses("check_update", *it)
    for it in BAD_WORDS_OF_STEPS:
        bench.refuses("flash_steps", *it)
    bench.refuses("flash_steps", *STEPS, closed=[1])
    bench.refuses("check_update", *CHECK, closed=[1])


run_parts("updates", make, steps, regions, no_streams, cuts, layouts, allowed, checks, words)
