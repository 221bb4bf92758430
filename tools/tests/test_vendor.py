"""Tests `check_update` and `flash_steps` on the vendor's MultiBoot: a golden stream at 0 that leads by WBSTAR and
IPROG to the one update. The steps, done one by one, leave the new stream and nothing else; whatever they are cut at
boots."""
from __future__ import annotations

import random
from typing import Sequence

from runs import DEVICE, Bench, frame_of, run_parts, text_of_frames
import x7formats as x7
from x7layout import SECTOR

SIZE, UPDATE = 5 * SECTOR, 2 * SECTOR
START = "write CMD 1\ncmd SHUTDOWN"
LEADS = "write WBSTAR 1\ndata 00020000\nwrite CMD 1\ncmd IPROG\n"
NAMES = [
    "size", "layout", "rest", "mode", "stream", "idcode", "clock", "fallback", "time", "jump", "address",
    "golden stream", "golden idcode", "golden clock", "golden time", "closed", "update", "boot", "frames", "damaged",
    "power",
]  # fmt: skip


def changed(bench: Bench, name: str, stream: str, changes: dict[str, str]) -> None:
    """Puts a stream with changes of its listing, its checks made anew."""
    lines = "\n".join(x7.listing_of(x7.stream_of(bench.get(stream)))).replace("write CRC 1\ndata ", "crc\n# ")
    for old, new in changes.items():
        bench.tally.check(f"{stream} has {old!r}", old in lines)
        lines = lines.replace(old, new)
    bench.put("listing", lines)
    bench.make(name, "x7", "asm", "listing")


def make(bench: Bench) -> None:
    """A part, streams for it, and a flash."""
    bench.put("made.part", "mode = 1\n" + DEVICE)
    for name, seed in (("plain", 1), ("update", 2), ("next", 3)):
        bench.put("frames", text_of_frames({"00000000": frame_of(seed), "00400085": frame_of(10 * seed)}))
        bench.make(name, "x7", "plan", "full", "made.part", "frames")
    changed(bench, "golden", "plain", {START: LEADS + START})
    put_flash(bench, "golden", "update")


def put_flash(bench: Bench, golden: str, update: str, place: int = UPDATE, size: int = SIZE) -> None:
    """A flash with the golden stream at 0 and the update at a place."""
    flash = bench.get(golden).ljust(place, b"\xff") + bench.get(update)
    bench.put("flash", flash.ljust(size, b"\xff"))


def said(bench: Bench, *words: str) -> tuple[int | None, list[tuple[str, str, str]]]:
    """The status of a call of `check_update`, and the kind, name and text of each line but the last."""
    came = bench.tool("check_update", *words)
    lines = [line.split(": ", 2) for line in came.out.decode().splitlines() if ": " in line]
    return came.status, [(kind, name, text) for kind, name, text in lines]


def expect(bench: Bench, name: str, fails: Sequence[str], words: Sequence[str]) -> dict[str, str]:
    """The checks that fail are these; answers the notes by their names."""
    status, lines = said(bench, *words)
    failing: set[str] = {it for kind, it, _ in lines if kind == "fails"}
    bench.tally.check(name, (status, failing) == (int(bool(fails)), set(fails)), str(lines))
    return {it: text for kind, it, text in lines if kind == "note"}


# ---- steps


def steps_of(bench: Bench, *words: str) -> list[str]:
    """The steps that flash_steps lists."""
    came = bench.tool("flash_steps", *words)
    bench.tally.check(f"flash_steps {' '.join(words)}", came.status == 0, came.err.decode())
    return [line for line in came.out.decode().splitlines() if not line.startswith("#")]


def wanted_of(line: str, raw: bytes) -> tuple[str, int, bytes]:
    """The verb of a step, its place, and its bytes."""
    verb, place, count, *rest = line.split()
    if verb == "erase" or rest == ["erased"]:
        return verb, int(place, 16), b"\xff" * int(count)
    if rest[0] == "from":
        return verb, int(place, 16), raw[int(rest[1]) : int(rest[1]) + int(count)]
    return verb, int(place, 16), bytes.fromhex(rest[0])


def do(flash: bytearray, line: str, raw: bytes) -> bool:
    """Does a step, and answers whether it keeps the rules of a flash and leaves what it says."""
    verb, place, data = wanted_of(line, raw)
    old = bytes(flash[place : place + len(data)])
    if verb == "erase":
        flash[place : place + len(data)] = data
        return place % SECTOR == 0 and len(data) == SECTOR
    if verb == "program":
        flash[place : place + len(data)] = bytes(one & other for one, other in zip(old, data))
    in_page = verb == "read" or place // 256 == (place + len(data) - 1) // 256
    return in_page and bytes(flash[place : place + len(data)]) == data


def order(bench: Bench) -> None:
    """The steps leave the new stream at the update's place and FF after it; the first clears the old sync word, and
    the last program is the new one."""
    before, raw = bench.get("flash"), bench.get("next")
    sync = raw.index(x7.SYNC)
    ways: list[list[str]] = [[], ["--vendor"], ["--bytes"], ["--page", "64"]]
    for options in ways:
        flash, lines = bytearray(before), steps_of(bench, *options, "flash", "next")
        for number, line in enumerate(lines):
            if number in (1, len(lines) - 2):
                bench.tally.check(f"{options}: no sync word at the update's place", x7.SYNC not in flash[UPDATE:])
            bench.tally.check(f"{options}: step {number + 1}: {line[:60]}", do(flash, line, raw))
        bench.tally.same(f"{options}: what is left", bytes(flash), before[:UPDATE] + raw.ljust(SIZE - UPDATE, b"\xff"))
        old = UPDATE + bench.get("update").index(x7.SYNC)
        bench.tally.same(f"{options}: the first step", lines[0], f"program {old:08X} 4 00000000")
        last = [f"{verb} {UPDATE + sync:08X} 4 AA995566" for verb in ("program", "read")]
        bench.tally.same(f"{options}: the last steps", lines[-2:], last)
    region = steps_of(bench, "--end", "00040000", "flash", "next")
    ends_of_steps = [int(it.split()[1], 16) + int(it.split()[2]) for it in region]
    bench.tally.check("no step is past the end", max(ends_of_steps) <= 4 * SECTOR)
    bench.put("flash", before[:UPDATE].ljust(SIZE, b"\xff"))
    first = steps_of(bench, "flash", "next")[0]
    bench.tally.check("where nothing is there an erase is first", first.startswith("erase"))
    bench.put("flash", before)
    bench.put("headed", b"\xff" * 300 + raw)
    last_read = steps_of(bench, "flash", "headed")[-1]
    bench.tally.same("a sync word in a later page", last_read, f"read {UPDATE + sync + 300:08X} 4 AA995566")


def cuts(bench: Bench) -> None:
    """The power goes in the midst of a step: what is there starts as before, or the golden stream, or as updated.
    Steps on the sync words are torn in each way of a nibble."""
    raw, flash, take = bench.get("next"), bytearray(bench.get("flash")), random.Random(11)
    golden = x7_frames(bench, bench.get("flash")[:UPDATE].ljust(SIZE, b"\xff"))
    known = [golden, x7_frames(bench, bytes(flash)), None]
    after = bench.get("flash")[:UPDATE] + raw.ljust(SIZE - UPDATE, b"\xff")
    known[2] = x7_frames(bench, after)
    lines = steps_of(bench, "flash", "next")
    for number, line in enumerate(lines):
        before = bytes(flash)
        do(flash, line, raw)
        if before == flash or number % 9 and number not in (0, 1, len(lines) - 2):
            continue
        for _ in range(6 if len(line) < 40 else 2):
            mask = take.getrandbits(8 * SIZE)
            old, new = int.from_bytes(before, "big"), int.from_bytes(flash, "big")
            torn = (old ^ (old ^ new) & mask).to_bytes(SIZE, "big")
            bench.tally.check(f"torn in step {number + 1}: {line[:40]}", x7_frames(bench, torn) in known)


def x7_frames(bench: Bench, flash: bytes) -> bytes:
    """The frames with which a device starts from a flash, or nothing where none starts."""
    bench.put("torn", flash)
    text: bytes = bench.x7("boot", "made.part", "torn").out
    return text[text.index(b"\nframes ") :] if b"\nend started\n" in text else b""


# ---- checks


def layouts(bench: Bench) -> None:
    """A flash is taken by what is at 0; what leads nowhere is refused."""
    status, lines = said(bench, "--size", str(SIZE), "made.part", "flash", "next")
    names = [name for kind, name, _ in lines if kind != "note"]
    bench.tally.same("every check is made, and none fails", (status, names), (0, NAMES))
    expect(bench, "--vendor says the same", [], ["--vendor", "made.part", "flash", "next"])
    for name, changes, what in (
        ("no jump", {LEADS: ""}, "layout byte"),
        ("a place within a sector", {"data 00020000": "data 00020100"}, "no sector of 65536 bytes begins"),
        ("a place in the golden stream", {"data 00020000": "data 00000000"}, "after the golden stream"),
        ("a place past the end", {"data 00020000": "data 00050000"}, "before the end"),
    ):
        changed(bench, "other", "golden", changes)
        put_flash(bench, "other", "update")
        expect(bench, name, ["layout"], ["made.part", "flash", "next"])
        bench.refuses("flash_steps", "flash", "next", what=what)
    bench.refuses("flash_steps", "--vendor", "plain", "next", what="layout byte")
    bench.make("image", "x7", "image", "plain", "update")
    bench.refuses("flash_steps", "--vendor", "image", "next", what="no whole stream at 0")
    put_flash(bench, "golden", "update")


def failing(bench: Bench) -> None:
    """What doesn't hold fails: of the update, the golden stream, and the flash."""
    words = ["made.part", "flash", "other"]
    for name, changes, fails in (
        ("an update that forbids a fallback", {"data 00000101": "data 00000501"}, ["fallback", "damaged"]),
        ("an update of JTAG's clock", {"data 02003FE5": "data 02013FE5"}, ["clock"]),
        ("an update that leads on", {"cmd START": "cmd IPROG"}, ["jump", "boot"]),
    ):
        changed(bench, "other", "next", changes)
        expect(bench, name, fails, words)
    bench.put("other", bench.get("next"))
    foreign = {"data 0362D093": "data 0362C093"}
    for name, changes, fails in (
        ("a golden stream of the user's clock", {"data 02003FE5": "data 0200BFE5"}, ["golden clock"]),
        ("a golden stream for another device", foreign, ["golden idcode", "closed", "damaged", "power"]),
        ("a golden stream without a check", {"crc\n": "# "}, ["golden stream"]),
    ):
        changed(bench, "leads", "golden", changes)
        put_flash(bench, "leads", "update")
        expect(bench, name, fails, words)
    bench.put("bpi.part", "mode = 2\n" + DEVICE)
    put_flash(bench, "golden", "update")
    expect(bench, "BPI", ["mode"], ["bpi.part", "flash", "next"])
    bench.put("flash", bench.get("flash")[:-4] + b"keys")
    expect(bench, "keys at the end", ["rest"], words)
    expect(bench, "keys after the region", [], ["--end", "00040000", *words])
    bench.put("other", bytes(48) + bench.get("next") + bytes(4 * SECTOR))
    expect(bench, "an update that is too long", ["update"], words)
    put_flash(bench, "golden", "update")


def ends(bench: Bench) -> None:
    """What a power loss leaves rests on the flash's end, or on the watchdog that the golden stream arms; a start
    address may count 256 bytes."""
    notes = expect(bench, "no watchdog", [], ["made.part", "flash", "next"])
    power = notes["power"]
    bench.tally.check("the note on a power loss", "arms no watchdog" in power and "hang" in power, notes)
    bench.tally.check("the note on damages", notes["damaged"].startswith("cut in half, not there"), notes)
    changed(bench, "leads", "golden", {LEADS: f"write TIMER 1\ndata 40100000\n{LEADS}"})
    put_flash(bench, "leads", "update")
    notes = expect(bench, "the golden stream arms a watchdog", [], ["made.part", "flash", "next"])
    bench.tally.check("the note on a power loss", "TIMER 40100000" in notes["power"], notes)
    bench.tally.same("damages that hang", notes.get("damaged"), None)
    changed(bench, "disarms", "next", {"write COR0 1": "write TIMER 1\ndata 00000000\nwrite COR0 1"})
    notes = expect(bench, "the update ends the watchdog", [], ["made.part", "flash", "disarms"])
    bench.tally.check("damages that hang", notes["damaged"].startswith("cut in half: "), notes)
    changed(bench, "leads", "golden", {LEADS: f"write TIMER 1\ndata 40000010\n{LEADS}"})
    put_flash(bench, "leads", "update")
    expect(bench, "a golden watchdog that is too short for all", ["time"], ["made.part", "flash", "next"])
    changed(bench, "leads", "golden", {"data 00020000": "data 00000200"})
    put_flash(bench, "leads", "update")
    bench.put("long.part", "start_unit = 256\nmode = 1\n" + DEVICE)
    expect(bench, "a start address that counts 256 bytes", [], ["long.part", "flash", "next"])
    lines = steps_of(bench, "--start-unit", "256", "flash", "next")
    bench.tally.check("its steps", any(it.startswith("erase 00020000") for it in lines))


run_parts("the vendor's MultiBoot", make, order, cuts, layouts, failing, ends)
