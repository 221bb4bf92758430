#!/usr/bin/env python3
"""Tests every tool alike: its help, words that it can't take, hostile files, closed standard files and a full disk. A
run ends with status 0 or 1 and a text, or with 2, one line, and nothing written."""
from __future__ import annotations

import concurrent.futures
import gzip
import os
import pty
import random
import subprocess
import sys
import tempfile
from typing import Dict, Sequence

from casefiles import DATA, TOOLS, tool_names
from runs import SECONDS, Bench, Came, frame_of
import x7formats as x7

# What files hold, by their names.
Files = Dict[str, bytes]

# The words of each tool, in which F stands for a file.
FORMS = [
    "allow_fallback F", "check_update F F F", "check_update good.part F good", "check_update good.part image F",
    "flash_steps F F", "flash_steps image F", "follow F", "frame_map F F", "frame_map F F F", "frame_map good.part F",
    "frames of F", "frames differ F F", "frames region F column=1", "frames of --frm F", "frames from F",
    "frames differ --bits F F", "frames touch F", "frames of F --part good.part", "frames move F half=0,row=0",
    "frames ecc F", "frames mend F", "frames touch F F", "frames touch good.part F", "frames touch F good",
    "frames vendor F", "part F new", "svf F", "svf --partial F", "svf --read F F F", "svf --read good.part F F",
    "turn F", "why F", "why F F", "why F report", "why good F", "why --stat F", "why --stat 0000990C --cor0 F",
]  # fmt: skip

# How many of the hostile files each form is tried with.
TRIED = 16

# Runs of which the text is due on standard output.
GOOD = [
    "allow_fallback good", "flash_steps image good", "frames of report", "frames ecc mended", "frames mend frames",
    "frames touch good.part good", "svf good", "turn good", "why good", "frame_map good.part report",
]  # fmt: skip
# Which standard files are closed.
CLOSED = ([0], [1], [2], [0, 1], [0, 2], [1, 2], [0, 1, 2])

# A report of x7, of a device that runs.
REPORT = (
    "part board\ntaken 188\nend searching\nphase 7 done 1 gts 1 gwe 1\nreg STAT 000010E0\nreg COR0 02003FE5\n"
    "reg CTL0 00000101\nreads 0\nframes 1\nframe 00000000 00000001000000020000000300000004\n"
)
SECTOR = 65536
# A slot of an image that leads to its second sector.
SLOT = bytes.fromhex("20000000300200010002000030008001 0000000F300080010000000D")


def good_files(bench: Bench) -> bytes:
    """Makes files that some tool takes, and answers the bytes of the stream."""
    with open(os.path.join(DATA, "examples", "good.bit.gz"), "rb") as file:
        good = gzip.decompress(file.read())
    with open(os.path.join(DATA, "examples", "board.part"), "rb") as part:
        bench.put("good.part", part.read())
    first, data = x7.SYNC + SLOT + (b"\xff" * 4 + SLOT) * 2047, x7.stream_of(good).data
    bench.put("good", good)
    bench.put("image", (first + data.ljust(SECTOR, b"\xff") + data).ljust(3 * SECTOR, b"\xff"))
    bench.put("report", REPORT)
    bench.put("frames", x7.frames_text({0: frame_of(1)}))
    bench.make("mended", "frames", "mend", "frames")
    bench.put("listing", "".join(f"{line}\n" for line in x7.listing_of(x7.stream_of(good))))
    return good


def words(*them: int) -> bytes:
    """The bytes of words."""
    return x7.bytes_of(them)


def hostile_streams(good: bytes) -> Files:
    """What is no stream, or one that is cut, damaged, or asks for very much."""
    return {
        "empty": b"",
        "byte": b"\xaa",
        "zeros": bytes(70000),
        "erased": b"\xff" * 70000,
        "random": random.Random(1).getrandbits(8 * 5000).to_bytes(5000, "big"),
        "fixed": x7.FIXED,
        "header": good[:40],
        "letter": good[:13] + b"z" + good[14:],
        "cut": good[:150],
        "sync": x7.SYNC,
        "tail": good + b"\x30",
        "long": x7.SYNC + words(0x30004000, 0x57FFFFFF, 1, 2),
        "reads": x7.SYNC + words(0x28006000, 0x4FFFFFFF, 0x20000000),
        "loads": x7.SYNC + words(0x30008001, 1) + words(0x30002001, 0xFFFFFFFF, 0x30004001, 7) * 200,
        "copies": x7.SYNC + words(0x30014004, 0, 0, 0, 0),
        "words": b"these are words\n" * 300,
        "latin": "gr\xfc\xdfe\n".encode("latin-1") * 50,
    }


def hostile_texts(listing: str, report: str) -> Files:
    """What is no text of x7, or one that is cut or damaged."""
    texts = {
        "page": "    $ exit 3\n    $ kill $$\n```\n$ printf '\\377'\n",
        "bytes": "bytes\n",
        "bytes cut": listing.split("data")[0] + "bytes",
        "data": "sync\nwrite FAR 1\ndata 004",
        "listing cut": listing[:-9],
        "nops": "nop\n" * 50000,
        "report cut": report[: report.index("frames")],
        "report half": report[:-20],
        "phase": "part a\ntaken x\nend\nphase\n",
        "end": "part board\ntaken 1\nend fault\nphase 0 done 0 gts 0 gwe 0\nreads 0\nframes 0\n",
        "boot": "boot board\nattempt 1\nend\n",
        "svf": "svf differs\npart board\ntaken 1\n",
        "frame": "frame 00000000\nframe\nframe 1 2\n",
        "frame short": "frame 00000000 00000001\n",
        "frame twice": "frame 00000000 00000001\n" * 2,
    }
    return {name: text.encode() for name, text in texts.items()}


def hostile_parts(part: str) -> Files:
    """What is no part file that x7 takes."""
    texts = {
        "part huge": part.replace("minors = [", "minors = [3000000000, "),
        "part text": part.replace("minors = [", "minors = ['x', "),
        "part none": 'name = "a"\nidcode = 1\n',
        "part odd": "row = 3\n",
        "part deep": "x = " + "[" * 5000 + "\n",
        "part wide": part + "far = [12, 12, 8, 1, 3]\n",
    }
    return {name: text.encode() for name, text in texts.items()}


def hostile_kinds(good: bytes) -> Files:
    """Files of other kinds."""
    return {
        "json": b'{"rows": [1, {"a": []}]}',
        "json deep": b"[" * 100000,
        "gzip": b"\x1f\x8b\x08\0\0\0\0\0",
        "gzip cut": gzip.compress(good)[:60],
        "gzip end": gzip.compress(good)[:-4],
        "zip": b"PK\3\4" + bytes(40),
        "rbt": b"Xilinx ASCII Bitstream\nBits: 64\n" + b"1" * 31 + b"2\n" + b"10" * 16 + b"\n",
        "mcs": b":10000000AA\n:00000001FF\n",
    }


def hostile_files(bench: Bench, good: bytes) -> list[str]:
    """Makes the hostile files, and answers the names of all that forms are tried with."""
    report, listing, part = (bench.get(it).decode() for it in ("report", "listing", "good.part"))
    files = {
        **hostile_streams(good), **hostile_texts(listing, report), **hostile_parts(part), **hostile_kinds(good),
    }  # fmt: skip
    for name, data in files.items():
        bench.put(name, data)
    os.mkdir(bench.path("folder"))
    return [*files, "folder", "nowhere", "good", "good.part", "image", "report", "frames", "listing", ""]


def judge(bench: Bench, form: Sequence[str], came: Came, new: set[str]) -> None:
    """Whether a run ended as it should."""
    line = came.err.decode(errors="replace")
    if came.status == 2:
        is_so = not came.out and not new and line.startswith(f"{form[0]}: ") and line.count("\n") == 1
    else:
        writes = bool(came.out or new or form[0] == "part" and came.status)
        is_so = came.status in (0, 1) and writes and "Traceback" not in line
    note = f"status {came.status}, {len(came.out)} bytes, {line[-300:]!r}, new files {sorted(new)}"
    bench.tally.check(" ".join(form), is_so, note)


def run_form(bench: Bench, form: str, files: list[str], take: random.Random) -> None:
    """Runs a form with each file in one of its places, and others at random in the others."""
    places = [at for at, word in enumerate(form.split()) if word == "F"]
    for file in take.sample(files, TRIED):
        given = form.split()
        for at in places:
            given[at] = take.choice(files)
        given[take.choice(places)] = file
        before = set(os.listdir(bench.folder))
        came = bench.many(*given)
        new = set(os.listdir(bench.folder)) - before
        judge(bench, given, came, new)
        for name in new:
            os.remove(bench.path(name))


def standard_files(bench: Bench) -> None:
    """Closed standard files, and one that takes nothing."""
    with concurrent.futures.ThreadPoolExecutor(os.cpu_count()) as pool:
        list(pool.map(lambda form: standard_files_of(bench, form.split()), GOOD))


def standard_files_of(bench: Bench, form: list[str]) -> None:
    """The runs of one form."""
    check, name = bench.tally.check, " ".join(form)
    whole = bench.tool(*form)
    check(f"{name}: is good", whole.status == 0 and whole.out, f"status {whole.status}, {whole.err[:200]!r}")
    for closed in CLOSED:
        came = bench.tool(*form, closed=closed)
        wanted = (2, b"") if 1 in closed else (whole.status, whole.out)
        bench.tally.same(f"{name} with {closed} closed", (came.status, came.out), wanted)
        check(f"{name} with {closed} closed, no traceback", b"Traceback" not in came.err, came.err[-200:])
    full = bench.shell(f"exec > /dev/full; exec {bench.command(form)}")
    is_so = full.status == 2 and full.err.count(b"\n") == 1
    check(f"{name} on a full disk", is_so, f"status {full.status}, {full.err[:200]!r}")


def on_terminal(bench: Bench) -> None:
    """A stream isn't written to a terminal; a text is."""
    for form, status in (("turn good", 2), ("allow_fallback good", 2), ("frames of report", 0)):
        ours, theirs = pty.openpty()
        name, *more = form.split()
        started = subprocess.Popen(
            [sys.executable, os.path.join(TOOLS, name), *more],
            cwd=bench.folder, stdout=theirs, stderr=subprocess.PIPE)
        os.close(theirs)
        said = started.communicate(timeout=SECONDS)[1]
        os.close(ours)
        is_so = started.returncode == status and (b"is a terminal" in said) == (status == 2)
        bench.tally.check(f"{form} on a terminal", is_so, f"status {started.returncode}, {said[:200]!r}")


def usages(bench: Bench) -> None:
    """Words that a form can't take are answered by the form's own line; a part file that is made anew, by what it
    is; and words of a board by the first one that is none, whatever stands before it."""
    bench.refuses("frames", "move", "a", "b", "c", what="usage: frames move FRAMES half=1,row=0 > FRAMES\n")
    bench.refuses("frames", "touch", what="usage: frames touch STREAM [REGION..]\n")
    bench.refuses("part", "good.part", "new", what="good.part is a part file already\n")
    for form, what in ("--foo 1", "usage: why "), ("--cor0 XYZ", "XYZ is no word"), ("--cor0", "usage: why "):
        bench.refuses("why", "--stat", "0000990C", *form.split(), what=what)


def helps(bench: Bench, names: list[str]) -> None:
    """The help of each tool, and words that none takes."""
    for name in names:
        for word in ("--help", "-h"):
            came = bench.many(name, word)
            is_so = came.status == 0 and len(came.out) > 200 and not came.err
            bench.tally.check(f"{name} {word}", is_so, f"status {came.status}, {came.err[:200]!r}")
        if name not in ("test", "attack"):
            bench.refuses(name)
        if name != "test":
            bench.refuses(name, *["x"] * 12)
        bench.refuses(name, "--nonsense", "x", "y", "z")
        bench.refuses(name, "--help", closed=[1])


def main(folder: str) -> None:
    """All tests, in a folder of their own."""
    bench, take = Bench(folder), random.Random(2)
    good = good_files(bench)
    files = hostile_files(bench, good)
    helps(bench, tool_names())
    standard_files(bench)
    on_terminal(bench)
    usages(bench)
    for form in FORMS:
        run_form(bench, form, files, take)
    bench.tally.end()


with tempfile.TemporaryDirectory() as name:
    main(name)
