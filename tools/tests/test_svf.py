#!/usr/bin/env python3
"""Tests `svf`: what it writes plays on x7's test access port to the state that the stream comes to, in full, as a
change and as a readback, also after its guard; what it adds for a chain; and what can't start so is refused.
test_openocd has openocd play such texts."""
from __future__ import annotations

from casefiles import header
from runs import DEVICE, Bench, frame_of, run_parts, text_of_frames
import x7formats as x7


def make(bench: Bench) -> None:
    """A full stream with a header, a change, and a read of three frames, over the pads after a row."""
    bench.put("made.part", DEVICE)
    full = {"00000000": frame_of(1), "00000101": frame_of(2), "00800004": frame_of(3)}
    change = {"00000101": frame_of(4), "00000102": frame_of(5), "00400000": frame_of(6)}
    bench.put("full.frames", text_of_frames(full))
    bench.put("change.frames", text_of_frames(change))
    bench.make("full", "x7", "plan", "full", "made.part", "full.frames")
    bench.make("change", "x7", "plan", "partial", "made.part", "change.frames")
    bench.make("read", "x7", "plan", "read", "made.part", "00000101", "5")
    bench.put("full.bit", with_header(bench.get("full")))
    bench.make("report", "x7", "play", "made.part", "full", "change", "read")


def with_header(data: bytes, length: int | None = None) -> bytes:
    """A stream after a header, which gives `length` as its bytes, or how many they are."""
    return header(len(data) if length is None else length, "made", "design") + data


def ends(bench: Bench, name: str, *texts: str) -> x7.Report:
    """Plays texts one after the other on a new port: the line, and the report."""
    bench.put("played", b"".join(bench.get(text) for text in texts))
    came = bench.x7("svf", "made.part", "played")
    bench.put("came", came.out)
    report = x7.read_report(bench.path("came"))
    bench.tally.same(name, (came.status, report.svf), (0, "done"))
    return report


def differs(bench: Bench, name: str, *texts: str) -> None:
    """Texts of which a scan reads what it doesn't want."""
    bench.put("played", b"".join(bench.get(text) for text in texts))
    came = bench.x7("svf", "made.part", "played")
    bench.tally.check(name, came.status == 1 and came.out.startswith(b"svf differs"), came.out[:80])


def state_of(report: x7.Report) -> tuple[object, ...]:
    """What is compared of two reports."""
    return (
        report.frames, report.phase, report.done, report.gts, report.gwe, report.registers["STAT"], report.end,
    )  # fmt: skip


def plays(bench: Bench) -> None:
    """The texts of the three kinds, played."""
    same = bench.tally.same
    bench.make("full.svf", "svf", "full.bit")
    bench.make("plain.svf", "svf", "full")
    same("a header is left out", bench.get("full.svf"), bench.get("plain.svf"))
    bench.make("change.svf", "svf", "--partial", "change")
    bench.make("read.svf", "svf", "--read", "made.part", "read", "report")
    others = bench.get("change.svf") + bench.get("read.svf")
    bench.tally.check("a change has no JPROGRAM", b"SIR 6 TDI (0B)" not in others)
    bench.make("alone", "x7", "play", "made.part", "full")
    bench.make("both", "x7", "play", "made.part", "full", "change")
    for name, texts, report in (
        ("full", ["full.svf"], "alone"),
        ("change", ["full.svf", "change.svf"], "both"),
        ("read", ["full.svf", "change.svf", "read.svf"], "both"),
    ):
        came, wanted = ends(bench, name, *texts), x7.read_report(bench.path(report))
        same(f"{name} comes to the same", state_of(came), state_of(wanted))
    differs(bench, "a change on a device that doesn't run", "change.svf")
    differs(bench, "a readback without the change", "full.svf", "read.svf")
    bench.put("other.svf", bench.get("full.svf").replace(b"0362D093", b"0362C093"))
    differs(bench, "another device", "other.svf")


def guards(bench: Bench) -> None:
    """The guard is the beginning of the text that it guards, and x7 stops in it on another device, or on one that
    doesn't run."""
    bench.make("guard.svf", "svf", "--guard", "full.bit")
    bench.make("runs.svf", "svf", "--guard", "change")
    for name, text in (("guard.svf", "full.svf"), ("runs.svf", "change.svf")):
        lines, guarded = (bench.get(it).splitlines()[1:] for it in (name, text))
        bench.tally.same(f"{name} begins as {text}", lines, [*guarded[: len(lines) - 1], b"STATE RESET;"])
    bench.tally.same("a full stream's looks at the IDCODE alone", len(bench.get("guard.svf").splitlines()), 5)
    ends(bench, "guards before their texts", "guard.svf", "full.svf", "runs.svf", "change.svf")
    differs(bench, "a guard of a device that doesn't run", "guard.svf", "runs.svf")
    bench.put("other.guard", bench.get("guard.svf").replace(b"0362D093", b"0362C093"))
    differs(bench, "a guard of another device", "other.guard", "full.svf")
    refusals = {"read": "no frame", "nothing": "no sync word", "image": "IPROG", "two": "different IDCODEs"}
    for name, what in refusals.items():
        bench.refuses("svf", "--guard", name, what=what)


def chains(bench: Bench) -> None:
    """Statements for the other devices of a chain stand after the first line, and nothing else is other."""
    texts = {"full.svf": ["full.bit"], "change.svf": ["--partial", "change"], "guard.svf": ["--guard", "full.bit"]}
    for options, statements in (
        ("--trailer 4", "HIR 0;|HDR 0;|TIR 4 TDI (F);|TDR 1 TDI (0);"),
        ("--header 6", "HIR 6 TDI (3F);|HDR 1 TDI (0);|TIR 0;|TDR 0;"),
        ("--header 5 --trailer 4 --header 8", "HIR 13 TDI (1FFF);|HDR 2 TDI (0);|TIR 4 TDI (F);|TDR 1 TDI (0);"),
        ("--trailer 64 --trailer 2", "HIR 0;|HDR 0;|TIR 66 TDI (3" + "F" * 16 + ");|TDR 2 TDI (0);"),
        (" ".join(["--header 4"] * 5), "HIR 20 TDI (FFFFF);|HDR 5 TDI (00);|TIR 0;|TDR 0;"),
    ):
        for name, words in texts.items():
            bench.make("chain.svf", "svf", *options.split(), *words)
            head, *rest = bench.get(name).decode().splitlines()
            came = bench.get("chain.svf").decode().splitlines()
            bench.tally.same(f"{options} of {name}", came, [head, *statements.split("|"), *rest])
    bench.make("chain.svf", "svf", "--trailer", "4", "--read", "made.part", "read", "report")
    head, *rest = bench.get("read.svf").decode().splitlines()
    bench.tally.same("of a read", bench.get("chain.svf").decode().splitlines()[5:], rest)
    for count in ("1", "65", "x", "-4", "100"):
        bench.refuses("svf", "--trailer", count, "full", what="2 to 64 bits")
    bench.refuses("svf", *["--header", "4"] * 17, "full", what="16 other devices")
    for line in ("--header", "--header 4", "--trailer 4 --guard", "--guard full full"):
        bench.refuses("svf", *line.split())


def masked(bench: Bench) -> None:
    """A bit that may be any isn't wanted, every other one is."""
    report = bench.get("report").decode()
    words = [line for line in report.splitlines() if line.startswith("data ")]
    count = sum(len(line.split()) - 1 for line in words)
    digits = "".join(line[5:].replace(" ", "") for line in words)
    at = 8 * (101 + 7)
    changed = digits[:at] + f"{int(digits[at], 16) ^ 1:X}" + digits[at + 1 :]
    free = "0" * at + "1" + "0" * (len(digits) - at - 1)
    for name, text in (("wrong.report", changed), ("mask.report", free), ("nothing.report", "0" * len(digits))):
        given = [text[at : at + 8] for at in range(0, len(text), 8)]
        rows = "".join(f"data {' '.join(given[at : at + 8])}\n" for at in range(0, len(given), 8))
        bench.put(name, report.replace("".join(f"{line}\n" for line in words), rows))
    bench.tally.check("words", count == 101 * 6)
    bench.make("wrong.svf", "svf", "--read", "made.part", "read", "wrong.report")
    differs(bench, "a word that differs", "full.svf", "change.svf", "wrong.svf")
    bench.make("masked.svf", "svf", "--read", "made.part", "read", "wrong.report", "--mask", "mask.report")
    ends(bench, "a bit that may be any", "full.svf", "change.svf", "masked.svf")
    bench.make("open.svf", "svf", "--read", "made.part", "read", "wrong.report", "--mask", "nothing.report")
    differs(bench, "a mask of zeros wants every bit", "full.svf", "change.svf", "open.svf")


def refused(bench: Bench) -> None:
    """What can't start so."""
    data = bench.get("full")
    bench.make("image", "x7", "image", "full", "change")
    bench.put("cut", data[:-100])
    bench.put("bit", data[:400] + bytes([data[400] ^ 8]) + data[401:])
    bench.put("short.bit", with_header(data, len(data) + 4))
    bench.put("header", with_header(data)[:20])
    bench.put("letter", with_header(data).replace(b"\0b\0\5", b"\0q\0\5"))
    bench.put("family", data.replace(bytes.fromhex("0362D093"), bytes.fromhex("04B31093")))
    bench.put("nothing", b"")
    two = data.replace(x7.write_packet(x7.IDCODE, [0x0362D093]), x7.write_packet(x7.IDCODE, [0x0362D093, 0x0362C093]))
    bench.put("two", x7.with_checks(two, [it.place for it in x7.checks_of(two)]))
    bench.put("jump", data.replace(bytes.fromhex("3000800100000005"), bytes.fromhex("300080010000000F")))
    bench.put("text", b"these are no streams, these are words\n" * 40)
    for name, what in (
        ("change", "no START"),
        ("read", "no START"),
        ("image", "IPROG"),
        ("cut", "DESYNC"),
        ("bit", "check fails"),
        ("short.bit", "header tells"),
        ("header", "header"),
        ("letter", "letter"),
        ("family", "no 7-series"),
        ("two", "two: it writes different IDCODEs"),
        ("nothing", "no sync word"),
        ("text", "no sync word"),
        ("nowhere", "nowhere"),
    ):  # fmt: skip
        bench.refuses("svf", name, what=what)
    bench.refuses("svf", "jump")
    for name, what in (("full", "full stream"), ("read", "no frame"), ("nothing", "no sync word"), ("image", "IPROG")):
        bench.refuses("svf", "--partial", name, what=what)


def refused_reads(bench: Bench) -> None:
    """What is no stream or no report of a read, and words that the tool doesn't take."""
    bench.refuses("svf", "--read", "made.part", "full", "report", what="no stream of")
    bench.refuses("svf", "--read", "made.part", "change", "report", what="no stream of")
    bench.refuses("svf", "--read", "made.part", "read", "both", what="read out")
    bench.refuses("svf", "--read", "made.part", "read", "nothing", what="nothing")
    bench.refuses("svf", "--read", "full", "read", "report", what="full")
    bench.put("named.part", DEVICE.replace('"made"', '"other"'))
    bench.refuses("svf", "--read", "named.part", "read", "report", what="of the part made")
    for words in ("", "--partial", "--read", "--read made.part read", "full full", "--full full", "0362D093"):
        bench.refuses("svf", *words.split())
    bench.refuses("svf", "full", closed=[1])


run_parts("svf", make, plays, masked, refused, refused_reads, guards, chains)
