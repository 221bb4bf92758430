#!/usr/bin/env python3
"""Tests `flash`: each stream stands at its place without its header and FF elsewhere, what it says of them is so, and
what overlaps, doesn't fit or is no stream is refused. Where x7 is built, the flash boots as said, and its Intel HEX is
the flash again."""
from __future__ import annotations

import tempfile

from casefiles import header
from runs import X7, Bench
import streams
import x7formats as x7

SIZE = 1 << 18
PLACE = 0x20000


def leading(start: int, bspi: int | None = None) -> list[str]:
    """The lines of a golden stream of the vendor's form that leads to an address by IPROG, after a word of BSPI."""
    lines = streams.with_data(streams.full(), "WBSTAR", f"{start:08X}")
    lines = streams.replaced(lines, "cmd NULL", "cmd IPROG")
    return lines if bspi is None else streams.replaced(lines, "sync", ["sync", "write BSPI 1", f"data {bspi:08X}"])


def make(bench: Bench) -> None:
    """The streams, with headers and without."""
    for name, lines in (("golden", leading(PLACE)), ("update", streams.compressed()), ("plain", streams.full())):
        bench.put(name, streams.data_of(lines))
        bench.put(f"{name}.bit", streams.bit(lines))
    bench.put("made.part", streams.PART)
    bench.put("software", b"\x7fELF" + bytes(range(256)) * 9)


def writes(bench: Bench, name: str, *words: str, wanted: bytes, said: str) -> None:
    """The words give this flash, and this is said."""
    came = bench.tool("flash", *words)
    bench.tally.same(name, (came.status, came.out == wanted), (0, True))
    bench.tally.same(f"{name}: what is said", came.err.decode(), said)


def laid(size: int, **pieces: bytes) -> bytes:
    """A flash of this size with pieces at places, each named by its place, p and hexadecimal digits."""
    flash = b""
    for place, data in sorted((int(key[1:], 16), data) for key, data in pieces.items()):
        flash = flash.ljust(place, b"\xff") + data
    return flash.ljust(size, b"\xff")


def places(bench: Bench) -> None:
    """Streams at their places, in any order, with headers and without."""
    golden, update = bench.get("golden"), bench.get("update")
    both = laid(SIZE, p0=golden, p20000=update)
    ends = [f"{at + len(data) - 1:08X}" for at, data in ((0, golden), (PLACE, update))]
    for names in (["golden", "update"], ["golden.bit", "update.bit"], ["update.bit", "golden.bit"]):
        said = [f"flash: 00000000-{ends[0]} {it}" for it in names if it.startswith("golden")]
        said += [f"flash: 00020000-{ends[1]} {it}" for it in names if it.startswith("update")]
        first, last = (it.split()[2] for it in said)
        said.append(f"flash: WBSTAR of {first} leads to 00020000, where {last} begins; IPROG goes there")
        words = [f"{'0' if it.startswith('golden') else '20000'}:{it}" for it in names]
        text = "".join(f"{it}\n" for it in said)
        for size in ("256K", str(SIZE)):
            writes(bench, f"{names} {size}", "--size", size, *words, wanted=both, said=text)
    bench.put("both", both)
    came = bench.tool("flash", "--size", "1M", "--any", "0x0:golden.bit", "0000f000:software")
    bench.tally.check("software", came.out == laid(1 << 20, p0=golden, pf000=bench.get("software")), came.err)


def touching(bench: Bench) -> None:
    """Streams that touch don't overlap; one byte less does; and the flash's end is as near."""
    golden = bench.get("golden")
    end = f"{len(golden):X}"
    bench.make("touch", "flash", "--size", "256K", "0:golden", f"{end}:update")
    bench.tally.same("they touch", bench.get("touch"), (golden + bench.get("update")).ljust(SIZE, b"\xff"))
    bench.refuses("flash", "--size", "256K", "0:golden", f"{len(golden) - 1:X}:update", what="they overlap")
    bench.refuses("flash", "--size", "256K", "100:golden", "100:update", what="they overlap")
    bench.refuses("flash", "--size", "256K", "0:golden", "80:update", what="they overlap")
    last = SIZE - len(golden)
    bench.make("last", "flash", "--size", "256K", f"{last:X}:golden")
    bench.tally.same("the last byte", bench.get("last"), golden.rjust(SIZE, b"\xff"))
    bench.refuses("flash", "--size", "256K", f"{last + 1:X}:golden", what="of 262144 bytes before 00040000")
    bench.refuses("flash", "--size", str(SIZE - 1), f"{last:X}:golden", what="of 262143 bytes")


def last_line(bench: Bench, *words: str) -> str:
    """The last line that is said."""
    return bench.tool("flash", *words).err.decode().splitlines()[-1]


def leads(bench: Bench) -> None:
    """Where WBSTAR of the first one leads."""
    counts = "(it counts 256 bytes: BSPI 0000026C)"
    for lines, ending in (
        (leading(PLACE + 4), "leads to 00020004, inside update; IPROG goes there"),
        (leading(0x3F000), "leads to 0003F000, where nothing stands; IPROG goes there"),
        (leading(SIZE), "leads to 00040000, past the flash's end; IPROG goes there"),
        (leading(0x60000000 + PLACE), "leads to 00020000, where update begins; IPROG goes there"),
        (leading(0x200, 0x26C), f"leads to 00020000 {counts}, where update begins; IPROG goes there"),
        (leading(PLACE, 0x26B), "leads to 00020000, where update begins; IPROG goes there"),
        (streams.full(), "leads to 00000000, where first begins; no IPROG goes there"),
        (streams.partial(), "writes no WBSTAR"),
    ):
        bench.put("first", streams.data_of(lines))
        verb = "" if ending.startswith("writes") else "WBSTAR of "
        came = last_line(bench, "--size", "256K", "0:first", "20000:update")
        bench.tally.same(ending, came, f"flash: {verb}first {ending}")


def refused(bench: Bench) -> None:
    """What is no stream, and words that the tool doesn't take."""
    data = bench.get("update")
    bench.put("cut.bit", header(len(data)) + data[:-4])
    bench.put("swapped", data.translate(bytes(int(f"{it:08b}"[::-1], 2) for it in range(256))))
    bench.put("nothing", b"")
    bench.put("listing", "\n".join(x7.listing_of(x7.stream_of(data))))
    for name, what in (
        ("cut.bit", "header tells"), ("swapped", "turn"), ("nothing", "no sync word"), ("listing", "x7 asm"),
        ("software", "--any"), ("nowhere", "nowhere"), ("made.part", "no sync word"),
    ):  # fmt: skip
        bench.refuses("flash", "--size", "256K", f"0:{name}", what=what)
    for word in ("update", ":update", "0:", "g:update", "-1:update", "100000000:update"):
        bench.refuses("flash", "--size", "256K", word, what="is no PLACE:STREAM")
    for words in ("", "0:update", "--size 256K", "--size 0 0:update", "--size 0:update", "--none 0:update"):
        bench.refuses("flash", *words.split())
    for size in ("1G", "129M", "-1", "134217729", "16m", "0x100"):
        bench.refuses("flash", "--size", size, "0:update")
    bench.refuses("flash", "--size", "256K", "0:update", closed=[1])


def boots(bench: Bench) -> None:
    """A device goes where it is said, and the Intel HEX is the flash again."""
    if not X7:
        bench.tally.skip("boots: x7 isn't built")
        return
    came = bench.x7("boot", "made.part", "both").out.decode().splitlines()[1:4]
    went = ["attempt 1 power 00000000 iprog", "attempt 2 iprog 00020000 started", "end started"]
    bench.tally.same("boot", came, went)
    bench.make("hex", "x7", "mcs", "both")
    bench.make("again", "x7", "unmcs", "hex")
    bench.tally.check("mcs and back", bench.get("again") == bench.get("both"))


with tempfile.TemporaryDirectory() as FOLDER:
    BENCH = Bench(FOLDER)
    for part in (make, places, touching, leads, refused, boots):
        part(BENCH)
    BENCH.tally.end()
