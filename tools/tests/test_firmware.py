#!/usr/bin/env python3
"""Tests tools/firmware: built by the C compiler of this machine with all its warnings and sanitizers, over a model of a
NOR flash (nor_flash.c), the steps are those of `flash_steps` and leave what they leave; flashes without a layout are
refused, nothing written; 10,000 updates at random whose power goes in any step leave no dead flash. Where x7 is built,
it boots what cuts leave."""
from __future__ import annotations

import os
import random
import shutil
import tempfile

from casefiles import TOOLS
from runs import X7, Bench, run
import streams
from x7layout import SECTOR, SLOT_SIZE, SLOTS, slot_of

COMPILER = shutil.which("cc") or ""
FIRMWARE, MODEL = os.path.join(TOOLS, "firmware"), os.path.join(TOOLS, "tests", "nor_flash.c")
STRICT = ["-std=c99", "-pedantic", "-Wall", "-Wextra", "-Werror", "-O2"]
SANITIZERS = ["-fsanitize=address,undefined", "-fno-sanitize-recover=all"]
# how many updates the power cuts, as the compiler builds them, and with sanitizers, which take some ten times as long
CUTS, SANITIZED_CUTS = 10000, 1000


def build(bench: Bench, name: str, *options: str) -> bool:
    """Builds the model with the firmware; says whether it could."""
    sources = [MODEL, os.path.join(FIRMWARE, "x7_update.c")]
    came = run(bench.folder, [COMPILER, *STRICT, *options, f"-I{FIRMWARE}", *sources, "-o", name])
    bench.tally.check(f"{name} is built", came.status == 0, came.err.decode(errors="replace")[-600:])
    return came.status == 0


def has_sanitizers(bench: Bench) -> bool:
    """Whether the compiler has the sanitizers, and what they build runs here."""
    bench.put("one.c", "int main(void) { return 0; }\n")
    built = run(bench.folder, [COMPILER, *SANITIZERS, "one.c", "-o", "one"]).status == 0
    return built and run(bench.folder, ["./one"]).status == 0


def flash_with(words: list[bytes], update: int, size: int, take: random.Random) -> bytes:
    """A flash of this size whose first slots have these switch words; golden stream and update are any bytes."""
    slot = slot_of(update.to_bytes(4, "big"))
    words = words + [b"\xff" * 4] * (SLOTS - len(words))
    rest = take.getrandbits(8 * (size - SECTOR)).to_bytes(size - SECTOR, "big")
    return b"".join(word + slot[4:] for word in words) + rest


def flashes() -> list[tuple[str, bytes]]:
    """Flashes with slots of all kinds: free, spent, open, torn."""
    take, spent, opened = random.Random(11), bytes(4), slot_of(bytes(4))[:4]
    torn = [bytes.fromhex(it) for it in ("AA995567", "AA985566", "FFFFFFFE", "80000000", "AA9955FF")]
    cases: dict[str, list[bytes]] = {
        "new": [], "an image": [opened], "closed": [spent], "two updates": [spent, opened], "torn": [*torn, opened],
        "all torn": torn, "a free one among them": [spent, b"\xff" * 4, spent], "open before a torn": [opened, torn[0]],
        "the last but one": [spent] * (SLOTS - 2) + [opened], "one left": [spent] * (SLOTS - 1),
    }  # fmt: skip
    found = []
    for name, words in cases.items():
        for update, end in ((2, 2), (2, 3), (3, 5)) if name == "torn" else ((2, 3),):
            flash = flash_with(words, update * SECTOR, end * SECTOR, take)
            found.append((f"{name}, {end} sectors", flash))
    return found


def updates() -> list[bytes]:
    """A stream with no-ops after it: none, up to a whole page, up to a sector."""
    data = streams.data_of(streams.full())
    sizes = [len(data), -(-len(data) // 256) * 256, SECTOR]
    return [data + bytes.fromhex("20000000") * ((size - len(data)) // 4) for size in sizes]


def merged(lines: list[str]) -> list[str]:
    """Steps with reads that follow one another joined: how long one is, is a board's affair."""
    joined: list[str] = []
    for line in lines:
        verb, place, count, *digits = line.split()
        if verb == "read" and digits == ["erased"]:
            digits = ["FF" * int(count)]
        before = joined[-1].split() if joined else [""]
        if verb == before[0] == "read" and int(before[1], 16) + int(before[2]) == int(place, 16):
            joined[-1] = f"read {before[1]} {int(before[2]) + int(count)} {before[3]}{digits[0]}"
        else:
            joined.append(" ".join([verb, place, count, *digits]))
    return joined


def steps(bench: Bench, program: str, page: int) -> None:
    """The steps are those of flash_steps, and leave what they leave."""
    for name, flash in flashes():
        for data in updates():
            case = f"{name}, {len(data)} bytes, pages of {page}"
            bench.put("flash", flash)
            bench.put("stream", data)
            listed = bench.many("flash_steps", "--bytes", "--page", str(page), "flash", "stream")
            came = run(bench.folder, [f"./{program}", "steps", "flash", "stream"])
            lines = came.out.decode().splitlines()
            if listed.status:
                is_refused = lines == ["result 3 after 0 steps"] and bench.get("flash") == flash
                bench.tally.check(f"{case}: refused", b"bytes" in listed.err and is_refused, lines[-1:])
                continue
            wanted = [line for line in listed.out.decode().splitlines() if not line.startswith("#")]
            bench.tally.same(f"{case}: the steps", merged(lines[:-1]), merged(wanted))
            bench.tally.check(f"{case}: the result", lines[-1].startswith("result 0 after "), lines[-1])
            bench.tally.check(f"{case}: what is left", bench.get("flash") == done(flash, wanted))


def done(flash: bytes, lines: list[str]) -> bytes:
    """What steps leave of a flash."""
    left = bytearray(flash)
    for verb, place, count, *digits in (line.split() for line in lines):
        at, end = int(place, 16), int(place, 16) + int(count)
        if verb == "erase":
            left[at:end] = b"\xff" * (end - at)
        elif verb == "program":
            left[at:end] = bytes(one & other for one, other in zip(left[at:end], bytes.fromhex(digits[0])))
    return bytes(left)


def layouts(bench: Bench, program: str) -> None:
    """Flashes without a layout are refused, and nothing is written."""
    take, opened = random.Random(3), slot_of(bytes(4))[:4]
    good = flash_with([opened], 2 * SECTOR, 3 * SECTOR, take)
    bad = {
        "nothing": (1, b""), "one sector": (1, good[:SECTOR]), "no whole sectors": (1, good[:-1]),
        "a byte of the first slot": (1, good[:9] + b"\0" + good[10:]),
        "two open": (1, flash_with([opened] * 2, 2 * SECTOR, 3 * SECTOR, take)),
        "another slot": (1, good[:332] + b"\1" + good[333:]),
        "the last byte of the last": (1, good[: SECTOR - 1] + b"\0" + good[SECTOR:]),
        "an update in the golden stream": (1, flash_with([opened], SECTOR, 3 * SECTOR, take)),
        "an update past the end": (1, flash_with([opened], 4 * SECTOR, 3 * SECTOR, take)),
        "an update inside a sector": (1, flash_with([opened], 2 * SECTOR + 256, 3 * SECTOR, take)),
        "FF": (1, b"\xff" * 3 * SECTOR),
        "no slot left": (2, good[: SECTOR - SLOT_SIZE] + bytes(4) + good[SECTOR - SLOT_SIZE + 4 :]),
    }  # fmt: skip
    bench.put("stream", streams.data_of(streams.full()))
    for name, (result, flash) in bad.items():
        bench.put("flash", flash)
        came = run(bench.folder, [f"./{program}", "steps", "flash", "stream"])
        bench.tally.same(f"{name}: refused", came.out.decode(), f"result {result} after 0 steps\n")
        bench.tally.check(f"{name}: nothing is written", bench.get("flash") == flash)
        bench.tally.same(f"{name}: flash_steps", bench.many("flash_steps", "flash", "stream").status, 2)


def cuts(bench: Bench, program: str, count: int) -> None:
    """No cut leaves a dead flash."""
    came = run(bench.folder, [f"./{program}", "tries", count, 1])
    said = f"{came.out.decode()}{came.err.decode(errors='replace')[-600:]}".strip()
    bench.tally.check(f"{program}: {said}", came.status == 0 and f"{count} of them cut: 0 dead, 0 wrong" in said, said)


def boots(bench: Bench, program: str) -> None:
    """What x7 makes of a flash that a cut left: the golden stream, or the update before, or the new one."""
    if not X7:
        bench.tally.skip("boots: x7 isn't built")
        return
    bench.put("made.part", streams.PART)
    for name, lines in (("golden", streams.full()), ("update", streams.compressed()), ("stream", streams.full())):
        bench.put(name, streams.data_of(streams.with_data(lines, "COR1", "00000000")))
    bench.make("image", "x7", "image", "golden", "update")
    bench.put("flash", bench.get("image"))
    last = run(bench.folder, [f"./{program}", "steps", "flash", "stream"]).out.decode().splitlines()[-1]
    count = int(last.split()[-2])
    bench.tally.check("the flash is updated", last.startswith("result 0 after ") and count > 30, last)
    for step in (1, 1, 1, 2, 3, 4, 20, 31, count // 2, count - 2, count - 1, count - 1, count - 1, count):
        for seed in (step, step + 1):
            bench.put("flash", bench.get("image"))
            came = run(bench.folder, [f"./{program}", "cut", "flash", "stream", step, seed])
            bench.tally.check(f"the power goes in step {step}", came.out.startswith(b"power"), came.out)
            booted = bench.x7("boot", "made.part", "flash")
            has_started = booted.status == 0 and b"end started" in booted.out
            bench.tally.check(f"cut in step {step}", has_started, booted.out[:200])


with tempfile.TemporaryDirectory() as FOLDER:
    BENCH = Bench(FOLDER)
    if not COMPILER:
        BENCH.tally.skip("firmware: there is no cc")
    elif build(BENCH, "plain") and build(BENCH, "pages", "-DX7_PAGE=100"):
        steps(BENCH, "plain", 256)
        steps(BENCH, "pages", 100)
        layouts(BENCH, "plain")
        cuts(BENCH, "plain", CUTS)
        boots(BENCH, "plain")
        if not has_sanitizers(BENCH):
            BENCH.tally.skip("firmware: cc has no sanitizers")
        elif build(BENCH, "sanitized", *SANITIZERS):
            layouts(BENCH, "sanitized")
            cuts(BENCH, "sanitized", SANITIZED_CUTS)
    BENCH.tally.end()
