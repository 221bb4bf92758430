#!/usr/bin/env python3
"""Tests `frames`: its texts, the ECC by a second formula, what streams write against what they were planned for and
against what x7 plays, and planned streams in the vendor's sequences."""
from __future__ import annotations

import random
import tempfile
from typing import Dict, Iterator, Sequence

from runs import DEVICE, X7, Bench, Came, frame_of, text_of_frames
import x7formats as x7
from x7partfile import read_part

# Frames by their addresses in hexadecimal digits.
Frames = Dict[str, bytes]

# the IDCODEs of an xc7a35t, which the made part has too, of an xc7a50t and of an xc7z020
A35T, A50T, ZYNQ = 0x0362D093, 0x0362C093, 0x03727093
# addresses of the made part: some of row 0 of its top half, then others
ROW = ["00000000", "00000003", "00000080", "00000082", "00000101"]
FARS = [*ROW, "00400000", "00400085", "00800000", "00800004"]
# a frame at each of them
ONE: Frames = {far: frame_of(int(far, 16)) for far in FARS}
IN_ROW: Frames = {far: ONE[far] for far in ROW}
ERASED = bytes(4 * x7.FRAME_WORDS)
# the place of a frame's ECC, in bits 12:0 of its word 50
ECC_PLACE = 4 * 50
# ways in which a part is named, or not
NAMED_PARTS: list[list[str]] = [[], ["--part", "xc7a35t"], ["--part=7a35tcpg236-1"]]
# what is no region
NO_REGIONS = [
    "", "column", "column=", "column=3-1", "column=1,column=2", "minor=x", "far=xyz", "colour=1", "column=-1",
    "row=top", "far=bottom", "column=1_0", "half=left", "half=2", "half=0-2",
]  # fmt: skip


def report_of(frames: Frames, part: str = "made", end: str = "searching") -> str:
    """A report that shows these frames."""
    shown = {far: frame for far, frame in frames.items() if any(frame)}
    head = f"part {part}\ntaken 4\nend {end}\nphase 7 done 1 gts 1 gwe 1\nreg STAT 000010E0\nreads 0\n"
    return f"{head}frames {len(shown)}\n" + text_of_frames(shown)


def lines_of(came: Came) -> list[str]:
    """The lines that a tool wrote, without comments."""
    return [line for line in came.out.decode().splitlines() if not line.startswith("#")]


def gives(bench: Bench, name: str, words: Sequence[str], frames: Frames) -> None:
    """`frames` with these words writes the text of these frames."""
    bench.tally.same(name, lines_of(bench.tool("frames", *words)), text_of_frames(frames).splitlines())


def texts(bench: Bench) -> None:
    """Frames of a report, and what differs."""
    other = {**ONE, "00000080": frame_of(1), "00400001": frame_of(2)}
    del other["00000003"]
    bench.put("one", report_of(ONE))
    bench.put("other", report_of(other))
    bench.put("foreign", report_of(ONE, "foreign"))
    bench.put("frames", text_of_frames(ONE))
    gives(bench, "of", ["of", "one"], ONE)
    differs = {"00000003": ERASED, "00000080": other["00000080"], "00400001": other["00400001"]}
    gives(bench, "differ", ["differ", "one", "other"], differs)
    gives(bench, "differ in nothing", ["differ", "one", "one"], {})
    bench.refuses("frames", "differ", "one", "foreign", what="different parts")


def regions(bench: Bench) -> None:
    """The frames of regions, and what is no region."""
    gives(bench, "region", ["region", "frames", "block=0,half=top,row=0"], IN_ROW)
    two = {far: ONE[far] for far in ("00000080", "00000082", "00800004")}
    gives(bench, "regions", ["region", "frames", "block=0,half=0,column=1-1", "far=00800001-00800010"], two)
    for wrong in NO_REGIONS:
        bench.refuses("frames", "region", "frames", wrong, what="no region")


def moves(bench: Bench) -> None:
    """The frames of a row, moved to another one."""
    bench.put("row", text_of_frames(IN_ROW))
    moved = {f"{int(far, 16) | 0x400000:08X}": frame for far, frame in IN_ROW.items()}
    gives(bench, "move", ["move", "row", "half=bottom,row=0"], moved)
    gives(bench, "move in a part", ["move", "row", "half=bottom,row=0", "--part", "made.part"], moved)
    bench.refuses("frames", "move", "frames", "half=1,row=0", what="rows")
    bench.refuses("frames", "move", "row", "half=1,row=7", "--part", "made.part", what="no column 0")
    bench.refuses("frames", "move", "row", "half=1", what="no row to move to")
    head = "half = 1\nrow = 0\nminors = "
    bench.put("uneven.part", DEVICE.replace(head + "[4, 6, 3]", head + "[4, 7, 3]"))
    bench.refuses("frames", "move", "row", "half=1,row=0", "--part", "uneven.part", what="of another kind")


def ecc_by_bits(frame: bytes) -> int:
    """The ECC by the formula of the open 7-series database, bit by bit."""
    ecc = 0
    for index, data in enumerate(x7.words_of(frame)):
        value = index * 32 + (0x1360 if index > 0x25 else 0x1340 if index > 0x6 else 0x1320)
        data &= 0xFFFFE000 if index == 0x32 else 0xFFFFFFFF
        for bit in range(32):
            ecc ^= (value + bit) * (data >> bit & 1)
    parity = ecc & 0xFFF
    for shift in (8, 4, 2, 1):
        parity ^= parity >> shift
    return ecc ^ (parity & 1) << 12


def ecc_says(bench: Bench, name: str, file: str, status: int, lines: list[str]) -> None:
    """`frames ecc` of a file ends with this status and writes these lines."""
    came = bench.tool("frames", "ecc", file)
    bench.tally.same(name, (came.status, lines_of(came)), (status, lines))


def ecc(bench: Bench) -> None:
    """The ECC is found and made as the formula has it, and each single bit that is wrong is found."""
    frames = {f"{far:08X}": frame_of(far) for far in range(12)}
    bench.put("stale", text_of_frames(frames))
    wrong = [
        f"wrong {far} has {x7.word_at(frame, ECC_PLACE) & 0x1FFF:04X} want {ecc_by_bits(frame):04X}"
        for far, frame in frames.items()
    ]
    ecc_says(bench, "ecc", "stale", 1, [*wrong, "ecc 12 frames, 12 wrong"])
    bench.make("mended", "frames", "mend", "stale")
    ecc_says(bench, "ecc of what was mended", "mended", 0, ["ecc 12 frames, 0 wrong"])
    mended = x7.read_frames(bench.path("mended"))
    kept = all(without_ecc(mended[int(far, 16)]) == without_ecc(frame) for far, frame in frames.items())
    bench.tally.check("mend changes word 50 alone", kept)
    flipped: Frames = {}
    for bit in random.Random(4).sample(range(8 * len(ERASED)), 200):
        flipped[f"{len(flipped):08X}"] = (int.from_bytes(mended[3], "big") ^ 1 << bit).to_bytes(len(ERASED), "big")
    bench.put("flipped", text_of_frames(flipped))
    found = lines_of(bench.tool("frames", "ecc", "flipped"))[-1]
    bench.tally.same("a bit is found", found, "ecc 200 frames, 200 wrong")


def without_ecc(frame: bytes) -> tuple[bytes, bytes]:
    """A frame's words before and after the one with its ECC."""
    return frame[:ECC_PLACE], frame[ECC_PLACE + 4 :]


def short_frames(bench: Bench) -> None:
    """A frame of two words has no ECC."""
    bench.put("short", "frame 00000000 0000000100000002\n")
    bench.refuses("frames", "ecc", "short", what="has 2 words")
    bench.refuses("frames", "mend", "short", what="has 2 words")
    said = "a frame of the part made has 101 words, and one here 2: line 1"
    bench.refuses("frames", "mend", "short", "--part", "made.part", what=said)


def plans(bench: Bench) -> Iterator[tuple[int, Frames]]:
    """Plans of some frames, of which some have one content, with the frames of each."""
    addresses = read_part(bench.path("made.part")).addresses()
    for seed in range(8):
        take = random.Random(seed)
        fars = take.sample(addresses, take.randint(1, len(addresses)))
        contents = [frame_of(number) for number in range(max(1, len(fars) // (1 + seed % 3)))] + [ERASED]
        yield seed, {f"{far:08X}": take.choice(contents) for far in fars}


def played(bench: Bench, *files: str) -> x7.Report:
    """What x7 reports of streams."""
    bench.make("report", "x7", "play", "made.part", *files)
    return x7.read_report(bench.path("report"))


def planned(bench: Bench) -> None:
    """What a planned stream writes is what was planned, and the same stream in the vendor's sequences plays to the
    same."""
    everything = set(read_part(bench.path("made.part")).addresses())
    bench.make("full0", "x7", "plan", "full", "made.part", "/dev/null")
    for seed, frames in plans(bench):
        bench.put("plan", text_of_frames(frames))
        for kind in ("full", "partial"):
            name = f"{kind} {seed}"
            bench.make("stream", "x7", "plan", kind, "made.part", "plan")
            bench.make("vendor", "frames", "vendor", "stream")
            bench.tally.check(f"{name} has another form", bench.get("vendor") != bench.get("stream"))
            before = ["full0"] if kind == "partial" else []
            one, other = (played(bench, *before, it) for it in ("stream", "vendor"))
            state = (other.frames, other.end, other.phase)
            bench.tally.same(f"{name} plays to the same", state, (one.frames, one.end, 7))
            wanted = {int(far, 16) for far in frames} if kind == "partial" else everything
            for stream in ("stream", "vendor"):
                written(bench, f"{name} {stream}", stream, wanted)
                bench.tally.check(f"{name} {stream} shows no other frame", set(one.frames) <= wanted)
        vendor_sequences(bench, f"partial {seed}")


def written(bench: Bench, name: str, stream: str, wanted: set[int]) -> None:
    """The addresses that `touch` tells are those that are wanted, and so is its status against regions."""
    part = read_part(bench.path("made.part"))
    came = bench.tool("frames", "touch", "made.part", stream)
    told = set()
    for line in lines_of(came):
        words = line.replace(",", "").split()
        if words[0] == "frames":
            told |= {far for far in part.addresses() if int(words[1], 16) <= far <= int(words[3], 16)}
    bench.tally.same(f"{name} writes", (came.status, told), (0, wanted))
    least, most = min(wanted), max(wanted)
    inside = bench.tool("frames", "touch", "made.part", stream, f"far={least:08X}-{most:08X}")
    bench.tally.same(f"{name} within its region", inside.status, 0)
    outside = bench.tool("frames", "touch", "made.part", stream, f"far={least + 1:08X}-{most + 1:08X}")
    is_told = outside.status == 1 and f"outside {least:08X} to".encode() in outside.out
    bench.tally.check(f"{name} outside a region", is_told, outside.out.decode())


def vendor_sequences(bench: Bench, name: str) -> None:
    """Of a partial stream with copies: what stands around them."""
    listed = list(x7.listing_of(x7.stream_of(bench.get("vendor"))))
    for at, line in enumerate(listed):
        if line == "cmd MFW":
            bench.tally.same(f"{name} after MFW", listed[at + 1 : at + 14], ["nop"] * 12 + ["write MFWR 8"])
    if "cmd MFW" in listed:
        first, last = listed.index("write CTL1 1"), len(listed) - 1 - listed[::-1].index("write CTL1 1")
        bench.tally.same(f"{name} CTL1", (listed[first + 1], listed[last + 1]), ("data 00001000", "data 00000000"))
        bench.tally.check(f"{name} CTL1 is around", first < listed.index("cmd MFW") < last)


def others(bench: Bench) -> None:
    """Streams and words that aren't taken."""
    bench.put("empty", b"")
    bench.put("plan", text_of_frames({"00000080": frame_of(1)}))
    bench.make("partial", "x7", "plan", "partial", "made.part", "plan")
    data = bench.get("partial")
    bench.put("cut", data[:-40])
    bench.put("bit", data[:300] + bytes([data[300] ^ 1]) + data[301:])
    bench.put("other.part", DEVICE.replace(f"{A35T:08X}", f"{A50T:08X}"))
    bench.put("small.part", DEVICE.replace("[4, 6, 3]", "[4]"))
    for words, what in (
        ("made.part empty", "no sync word"),
        ("made.part cut", "DESYNC"),
        ("made.part bit", "check fails"),
        ("other.part partial", "IDCODE"),
        ("small.part partial", "00000080, an address that the part made doesn't have"),
        ("made.part partial column=x", "no region"),
        ("nowhere partial", "nowhere"),
    ):
        bench.refuses("frames", "touch", *words.split(), what=what)
    for name in ("empty", "cut", "bit", "made.part", "nowhere"):
        bench.refuses("frames", "vendor", name, what=name)
    bench.make("read", "x7", "plan", "read", "made.part", "00000000", "2")
    bench.refuses("frames", "vendor", "read", what="no stream of")
    bench.make("vendor", "frames", "vendor", "partial")
    bench.refuses("frames", "vendor", "vendor", what="no stream of")


def at_bit(frame: bytes, word: int, bit: int) -> bytes:
    """A frame with a bit of a word turned."""
    turned = 1 << 32 * (x7.FRAME_WORDS - 1 - word) + bit
    return (int.from_bytes(frame, "big") ^ turned).to_bytes(len(frame), "big")


def command(name: str) -> bytes:
    """The bytes of a write of a command."""
    return x7.write_packet(x7.CMD, [x7.CODES[name]])


def stream_of(*packets: bytes, idcode: int = A35T) -> bytes:
    """A stream of one session for a device, that of the tests where none is said."""
    return x7.SYNC + b"".join(
        [command("RCRC"), x7.write_packet(x7.IDCODE, [idcode]), *packets, command("DESYNC")])


def stream_of_frames(idcode: int, frames: Frames) -> bytes:
    """A stream that writes these frames, each with a pad."""
    pad = [0] * x7.FRAME_WORDS
    packets = [
        x7.write_packet(x7.FAR, [int(far, 16)]) + x7.write_packet(x7.FDRI, [*x7.words_of(frame), *pad])
        for far, frame in frames.items()
    ]
    return stream_of(command("WCFG"), *packets, idcode=idcode)


# frames of a stream, and those of another one, which has two bits other in one frame, a new frame, and one less
OF_A: Frames = {"00000000": frame_of(1), "00000080": frame_of(2), "00400001": frame_of(3)}
OF_B: Frames = {
    "00000000": at_bit(at_bit(OF_A["00000000"], 45, 12), 45, 31),
    "00000080": OF_A["00000080"],
    "00000101": at_bit(ERASED, 100, 0),
}


def bits_that_differ() -> list[str]:
    """The lines of the bits in which OF_B differs from OF_A."""
    word = x7.words_of(OF_A["00000000"])[45]
    turned = [f"00000000 word 45 bit {bit} {word >> bit & 1} {1 - (word >> bit & 1)}" for bit in (12, 31)]
    gone = [
        f"00400001 word {at} bit {bit} 1 0"
        for at, value in enumerate(x7.words_of(OF_A["00400001"]))
        for bit in range(32)
        if value >> bit & 1
    ]
    return [*turned, "00000101 word 100 bit 0 0 1", *gone]


def streams(bench: Bench) -> None:
    """Streams in place of reports, on a part that is named, or on the shelf's; and what differs, bit by bit."""
    same, tool, bits = bench.tally.same, bench.tool, bits_that_differ()
    differs = {"00000000": OF_B["00000000"], "00000101": OF_B["00000101"], "00400001": ERASED}
    for name, frames in (("a", OF_A), ("b", OF_B)):
        bench.put(f"{name}.bin", stream_of_frames(A35T, frames))
        bench.put(f"{name}.report", report_of(frames, "xc7a35t"))
    for part in NAMED_PARTS:
        gives(bench, f"of a stream {part}", [*part, "of", "a.bin"], OF_A)
        gives(bench, f"differ of streams {part}", ["differ", *part, "a.bin", "b.bin"], differs)
        came = tool("frames", "differ", "a.bin", "b.bin", "--bits", *part)
        same(f"bits of streams {part}", lines_of(came), bits)
    same("bits of reports", lines_of(tool("frames", "differ", "--bits", "a.report", "b.report")), bits)
    same("bits of a report and a stream", lines_of(tool("frames", "differ", "--bits", "a.report", "b.bin")), bits)
    came = tool("frames", "differ", "--bits", "a.bin", "a.bin")
    same("bits of the same", (came.status, came.out), (0, b"# 0 bits in 0 frames of the part xc7a35t differ\n"))
    came = tool("frames", "touch", "a.bin", "half=0")
    same("touch on the shelf", (came.status, lines_of(came)[-1]), (1, "outside 00400001 to 00400001, 1"))
    came = tool("frames", "touch", "-", given=bench.get("a.bin"))
    same("touch of standard input", lines_of(came)[0], "writes 3 frames")


def streams_refused(bench: Bench) -> None:
    """Streams of different parts, of a part that isn't on the shelf, and a part that is no file."""
    bench.put("a50.bin", stream_of_frames(A50T, OF_A))
    bench.put("zynq.bin", stream_of_frames(ZYNQ, OF_A))
    a50 = ["differ", "--bits", "a.bin", "a50.bin"]
    bench.refuses("frames", *a50, what="different parts, xc7a35t and xc7a50t")
    bench.refuses("frames", *a50, "--part", "xc7a35t", what="IDCODE 0362C093, and the part xc7a35t")
    zynq = "is for the IDCODE 03727093, of which the shelf has no part file: give one by --part"
    bench.refuses("frames", "of", "zynq.bin", what=zynq)
    no_part = "xc7z020: there is no such file, and no device of the shelf"
    bench.refuses("frames", "of", "a.bin", "--part", "xc7z020", what=no_part)


def database_texts(bench: Bench) -> None:
    """Texts of the open database's tools: to one and back."""
    bench.put("one.report", report_of(ONE))
    came = bench.tool("frames", "of", "--frm", "one.report")
    bench.tally.same("of --frm", came.out.decode().splitlines(), [f"0x{far} {frm_words(far)}" for far in sorted(ONE)])
    bench.put("one.frm", came.out)
    gives(bench, "from", ["from", "one.frm"], ONE)
    gives(bench, "from, with a part", ["from", "one.frm", "--part", "made.part"], ONE)
    bench.put("windows.frm", came.out.replace(b"\n", b"\r\n").lower() + b"# a comment\n\n")
    gives(bench, "from, in lower case", ["from", "windows.frm"], ONE)


def frm_words(far: str) -> str:
    """The words of a frame of ONE as the open database's tools write them."""
    return ",".join(f"0x{it:08X}" for it in x7.words_of(ONE[far]))


def database_texts_refused(bench: Bench) -> None:
    """What is no text of the open database's tools."""
    for text, what in (
        ("words\n", "line 1"),
        ("0x00000000 0x1 0x2\n", "line 1"),  # without a comma
        (",0x1\n", "line 1"),  # without an address
        ("0x00000000 0x123456789\n", "line 1"),  # a long word
        ("0x0 0x1\n0x00000000 0x1\n", "00000000 twice: line 2"),
        ("0x0 0x1,0x2\n0x1 0x1\n", "has 1 words, and not 2: line 2"),
        (text_of_frames(ONE), "line 1"),
    ):
        bench.put("bad.frm", text)
        bench.refuses("frames", "from", "bad.frm", what=what)
    bench.put("far.frm", f"0x00000004 {frm_words('00000000')}\n")
    no_address = "the part has no address 00000004: line 1"
    bench.refuses("frames", "from", "far.frm", "--part", "made.part", what=no_address)
    bench.put("short.frm", "0x00000000 0x1,0x2\n")
    bench.refuses("frames", "from", "short.frm", "--part", "made.part", what="has 2 words, and not 101: line 1")


# writes of the first frame's address, of a copy there, and of one frame with its pad
FAR_0, COPY, FRAME = (
    x7.write_packet(x7.FAR, [0]), x7.write_packet(x7.MFWR, [0]), x7.write_packet(x7.FDRI, [1] * 202),
)  # fmt: skip
# packets of which a device drops or refuses frames, and what `touch` says of them
REFUSED_FRAMES = {
    "dropped under NULL": ([command("NULL"), FAR_0, FRAME], "under the command NULL"),
    "dropped by SBITS": (
        [x7.write_packet(x7.MASK, [0x30]) + x7.write_packet(x7.CTL0, [0x20]), command("WCFG"), FAR_0, FRAME], "SBITS",
    ),
    "a copy under NULL": ([command("NULL"), FAR_0, COPY], "another command than MFW"),
    "a copy of nothing": ([command("WCFG"), command("MFW"), FAR_0, COPY], "none was written"),
    "no address": (
        [command("WCFG"), x7.write_packet(x7.FAR, [0x7F]), FRAME],
        "0000007F, an address that the part made doesn't have",
    ),
    "no place": (
        [command("WCFG"), x7.write_packet(x7.FAR, [0x00800004]), x7.write_packet(x7.FDRI, [1] * 1010)],
        "more frames after 00800004 than the part made has places",
    ),
}  # fmt: skip


def refused_frames(bench: Bench) -> None:
    """Streams of which a device drops or refuses frames, and what `touch` says of them."""
    for name, (packets, what) in REFUSED_FRAMES.items():
        bench.put(name, stream_of(*packets))
        bench.refuses("frames", "touch", "made.part", name, what=what)
    told = ["writes 1 frames", "frames 00000000 to 00000000, 1"]
    bench.put("kept", stream_of(command("WCFG"), FAR_0, FRAME, command("AGHIGH")))
    came = bench.tool("frames", "touch", "made.part", "kept")
    bench.tally.same("touch of one frame", lines_of(came), [*told, "command AGHIGH"])
    after_iprog = [command("IPROG"), command("WCFG"), FAR_0, FRAME]
    bench.put("after IPROG", stream_of(*after_iprog))
    came = bench.tool("frames", "touch", "made.part", "after IPROG")
    bench.tally.same("touch after IPROG", lines_of(came), [*told, "command IPROG"])
    bench.put("bad after IPROG", stream_of(*after_iprog, x7.write_packet(x7.CRC, [0])))
    bench.refuses("frames", "touch", "made.part", "bad after IPROG", what="fault: Crc")


def options_refused(bench: Bench) -> None:
    """The forms that have no use for a part file, or for an option, refuse it."""
    bench.put("kept", stream_of(command("NULL")))
    bench.put("renamed.part", DEVICE.replace('"made"', '"renamed"'))
    for option, words in (
        ("part=made.part", ["vendor", "kept"]),
        ("frm", ["differ", "one", "other"]),
        ("bits", ["of", "one"]),
        ("bits", ["ecc", "frames"]),
    ):
        form, name = words[0], option.split("=")[0]
        bench.refuses("frames", *words, f"--{option}", what=f"{form} takes no --{name}: usage: frames {form} ")
    renamed = "one is the report of a play on made, and --part names renamed"
    bench.refuses("frames", "of", "one", "--part", "renamed.part", what=renamed)
    bench.refuses("frames", "touch", "made.part", "kept", "--part", "made.part", what="'kept' is no region")


def main(folder: str) -> None:
    """All tests, in a folder of their own."""
    bench = Bench(folder)
    bench.put("made.part", DEVICE)
    for part in (
        texts, regions, moves, ecc, short_frames, refused_frames, options_refused, streams, streams_refused,
        database_texts, database_texts_refused,
    ):  # fmt: skip
        part(bench)
    if X7:
        planned(bench)
        others(bench)
    else:
        bench.tally.skip("planned streams: x7 isn't built")
    for words in ("", "of", "of nowhere", "of made.part", "turn x", "differ one", "ecc made.part", "touch made.part"):
        bench.refuses("frames", *words.split())
    bench.tally.end()


with tempfile.TemporaryDirectory() as name:
    main(name)
