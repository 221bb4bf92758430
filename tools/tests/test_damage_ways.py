#!/usr/bin/env python3
"""Tests the ways by which `why` mends a stream to see what was damaged: orders of data lines, exchanged address lines,
bytes 0D of a transfer as text, the error correction codes of frames, the watchdog of several words of TIMER; and that
the quick ways of the check and of a place in a listing give what the plain ones give."""
from __future__ import annotations

import itertools
import random
import tempfile
import time

from calls import called
from casefiles import Tally, put_file
import damaged
import damages
import streams as s
import x7address
import x7codes
import x7formats as x7
import x7lineends
import x7pins
from x7damage import beginning, plays

TALLY = Tally()
GOOD = damaged.coded(s.bit(s.full()))
SMALL = damaged.coded(s.bit(s.compressed()))


def said(folder: str, raw: bytes, *words: str) -> tuple[int, str]:
    """The status of `why --alone` of a file, and what it says."""
    status, out, err = called("why", *(words or ("--alone",)), put_file(folder, "s0.bit", raw))
    return status, out.decode() + err


def plain_line(stream: x7.Stream, place: int) -> tuple[int, str, str] | None:
    """The line of a listing that the byte before a place stands in, by its lines one after the other."""
    number = 1 if stream.header else 0
    for step in x7.steps(stream.data):
        for line, first, after in x7.step_lines(stream.data, step):
            number += 1
            if first < place <= after:
                is_payload = first >= step.first and step.kind == "write"
                return number, line, x7.head_line(step) if is_payload else ""
    return None


def quick_ways() -> None:
    """The check of long writes by blocks, and the line at a place by counts."""
    take = random.Random(3)
    for _ in range(12):
        pieces = [take.choice([bytes(2048), take.randbytes(404), bytes(4040)]) for _ in range(20)]
        data, check = b"".join(pieces), take.getrandbits(32)
        first = take.randrange(2000)
        end = first + (len(data) - first) // 4 * 4 - 4 * take.randrange(300)
        wanted = x7.fold(check, x7.FDRI, x7.words_of(data[first:end]))
        TALLY.same("a long write", x7.fold_many(check, x7.FDRI, data, first, end), wanted)
    for good in (GOOD, SMALL):
        other = damaged.flip(good.data, good.middle)
        for data in (good.data, other, good.data[: good.middle + 3], b"\1\2\3" + good.data, b"\xff" * 999):
            stream = x7.Stream(x7.header_of(good.raw), data)
            for place in [*range(1, 90), *(take.randrange(len(data)) for _ in range(60)), len(data), len(data) + 9]:
                TALLY.same(f"the line at {place}", x7.line_at(stream, place), plain_line(stream, place))


def orders() -> None:
    """Any order of the eight data lines is found, and put back."""
    take = random.Random(5)
    every = list(itertools.permutations(range(8)))
    for order in [(3, 1, 2, 7, 4, 5, 6, 0), *take.sample(every, 60)]:
        moved = damaged.each_byte(SMALL.data, lambda it: damaged.exchanged_bits(it, dict(enumerate(order))))
        back = x7pins.order_table(list(order))
        TALLY.check(f"order {order} is put back", moved.translate(back) == SMALL.data)
        found = x7pins.exchanged(moved, plays)
        named = x7pins.of_order(list(order)) if sorted(order) != list(order) else None
        TALLY.same(f"order {order}", found, named)
    TALLY.same("the sync word has 16 orders", len(x7pins.sync_orders(x7.SYNC)), 16)
    TALLY.same("other bytes have none", x7pins.sync_orders(b"\x01\x02\x03\x04"), [])
    TALLY.same("a good stream", x7pins.exchanged(SMALL.data, plays), None)
    broken = damaged.flip(SMALL.data, SMALL.middle)
    moved = damaged.each_byte(broken, lambda it: damaged.exchanged_bits(it, {0: 3, 3: 0, 4: 6, 6: 4}))
    wires = x7pins.exchanged(moved, plays)
    text = wires.text if wires else ""
    TALLY.check("damaged besides", "which is unknown" in text or "0 comes as bit 3" in text, text)


def addresses() -> None:
    """Each pair of address lines, exchanged, is put back by exchanging it, and told."""
    data = random.Random(9).randbytes(4096)
    for one, other in itertools.combinations(range(12), 2):
        wanted = damaged.exchanged_places(data, one, other)
        TALLY.same(f"lines {one} and {other}", x7address.exchanged_places(data, one, other), wanted)
        prefix = x7address.exchanged_prefix(data, one, other)
        TALLY.same(f"the prefix of {one} and {other}", prefix, wanted[: x7address.PREFIX])
    TALLY.same("no whole flash", x7address.exchanged_lines(GOOD.data, plays), None)
    flash = GOOD.data.ljust(1 << 14, b"\xff")
    TALLY.same("none is exchanged", x7address.exchanged_lines(damaged.flip(flash, GOOD.middle), plays), None)


def line_ends(folder: str) -> None:
    """Bytes 0D that a transfer as text took are put back; a stream in which other bytes were lost is not called so."""
    for name, good in (("full", GOOD), ("compressed", SMALL)):
        ended = damages.with_line_ends(good)
        TALLY.check(f"{name} has 0D 0A", plays(ended) and ended.count(b"\r\n") == 3)
        TALLY.same(name, x7lineends.with_line_ends(ended.replace(b"\r\n", b"\n"), plays), ended)
        TALLY.same(f"{name} as it is", x7lineends.with_line_ends(ended, plays), None)
        lost = damaged.cut_out(good.data, good.middle, 1)
        TALLY.same(f"{name}, another byte lost", x7lineends.with_line_ends(lost, plays), None)
        status, text = said(folder, good.bit(lost))
        TALLY.check(f"{name}, what is said of it", status == 1 and "0D 0A" not in text, text)


def beginnings() -> None:
    """Where a stream begins, also after millions of bytes FF, in a short time."""
    begun, empty = time.process_time(), b"\x01" + b"\xff" * 3000000
    plain = bytes.fromhex("000000BB11220044FFFFFFFFFFFFFFFFAA995566")
    for data, wanted in (
        (b"\x01" + b"\xff" * 16 + plain, 1), (b"\xff" * 8 + x7.SYNC, 0), (b"\x01\xff" + x7.SYNC, None),
        (b"\x55" + plain[:9] + x7.SYNC, None), (b"\x55" + plain, 9), (empty + b"\x02", None),
        (x7.SYNC + empty + plain, len(empty) + 4 - 65536), (GOOD.data, 0),
    ):  # fmt: skip
        TALLY.same(f"the beginning in {len(data)} bytes", beginning(data), wanted)
    TALLY.check("in a short time", time.process_time() - begun < 2, time.process_time() - begun)


def codes(folder: str) -> None:
    """The codes of frames name the frame that is damaged, also two; and say nothing where there are none."""
    held = x7codes.frames_of(GOOD.data)
    TALLY.check("every frame is right", held and all(it.is_right and it.has_code for it in held))
    broken = damaged.flip(damaged.flip(GOOD.data, held[2].place + 40), held[5].place + 7)
    found = x7codes.codes_of(broken)
    TALLY.same("two are wrong", found and found.wrong, [held[2].place, held[5].place])
    status, text = said(folder, GOOD.bit(broken))
    where = ", ".join(f"{it.place} to {it.place + 403}" for it in (held[2], held[5]))
    TALLY.check("two are named", status == 1 and f"2 of {len(held)} frames, at offsets {where}" in text, text)
    status, text = said(folder, GOOD.bit(damaged.flip(GOOD.data, GOOD.checks[0])))
    TALLY.check("a damaged check", f"before it that hold something: {len(held)}, each with the" in text, text)
    without = s.bit(s.full())
    status, text = said(folder, damaged.flip(without, len(without) // 2))
    TALLY.check("frames without codes", "none with the" in text and "which is unknown" in text, text)
    zeros = s.data_of([*s.HEAD, *s.order("RCRC")])
    TALLY.same("no frames", x7codes.codes_of(zeros), None)


def readbacks() -> None:
    """Frames alone are known by their codes, and random bytes are not."""
    take = random.Random(1)
    frames = damaged.with_codes(bytes(404) + take.randbytes(404 * 9) + bytes(808))
    TALLY.same("a readback", x7codes.frames_alone(frames), x7codes.Alone(0, 9, None))
    changed = frames[:900] + b"\x5a" + frames[901:]
    TALLY.same("one frame has changed", x7codes.frames_alone(changed), x7codes.Alone(0, 8, None))
    for count in (404, 4040, 40400):
        TALLY.same(f"{count} random bytes", x7codes.frames_alone(take.randbytes(count)), None)
    for nothing in (b"", bytes(4040), b"\xff" * 4040):
        TALLY.same("nothing", x7codes.frames_alone(nothing), None)


def watchdogs(folder: str) -> None:
    """Of several words of TIMER each is judged up to the next one, and the worst is told with its own place."""
    lines: list[str] = s.with_data(s.full(), "TIMER", "40000001")
    short = s.bit([*lines[:4], *s.written("TIMER", "40000100"), *lines[4:]])
    status, text = said(folder, short)
    TALLY.check("the second", status == 1 and "TIMER 40000001 waits" in text and "'data 40000001'" in text, text)
    off = s.bit([*s.full()[:4], *s.written("TIMER", "40000100"), *s.full()[4:]])
    TALLY.check("armed, then off", said(folder, off)[0] == 0, said(folder, off))


with tempfile.TemporaryDirectory() as FOLDER:
    quick_ways()
    orders()
    addresses()
    line_ends(FOLDER)
    beginnings()
    codes(FOLDER)
    readbacks()
    watchdogs(FOLDER)
TALLY.end()
