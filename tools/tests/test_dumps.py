#!/usr/bin/env python3
"""Tests x7dumps: what `xxd`, `hexdump` and `od` write of a file, each in its forms, gives the bytes of the file again,
from texts that stand here and, where these programs are installed, from their own; and a dump that is damaged is
refused with its line."""
from __future__ import annotations

import random
import shutil
import subprocess
import tempfile

from casefiles import Tally, put_file
from x7dumps import bytes_of_dump, is_dump
from x7run import Refused

tally = Tally()

# 16 bytes three times, the beginning of a stream, and a last row of 7 bytes
DATA = b"\xff" * 48 + bytes.fromhex("000000BB11220044FFFFFFFFAA995566") + bytes.fromhex("20000000300080")


def in_rows(first: str, filled: str, row: str, rest: str) -> str:
    """What `xxd` writes of DATA, and `md` of U-Boot, from the place `first` on: three rows of FF, and the two after
    them."""
    places = range(int(first, 16), int(first, 16) + 80, 16)
    return "".join(f"{place:08x}: {it}\n" for place, it in zip(places, [filled, filled, filled, row, rest]))


def with_star(places: str, filled: str, row: str, rest: str) -> str:
    """What `hexdump` and `od` write of DATA: `*` for rows that are as the one before, and at the end how many bytes
    there are."""
    first, second, third, end = places.split()
    return f"{first} {filled}\n*\n{second} {row}\n{third} {rest}\n{end}\n"


FILLED_WORDS, FILLED_HALVES = "ffffffff ffffffff ffffffff ffffffff", "ffff ffff ffff ffff ffff ffff ffff ffff"
WORDS, HALVES = "bb000000 44002211 ffffffff 665599aa", "0000 bb00 2211 4400 ffff ffff 99aa 6655"
# what each program writes of DATA
TEXTS = {
    "xxd": in_rows(
        "00000000", FILLED_HALVES + "  ................",
        '0000 00bb 1122 0044 ffff ffff aa99 5566  .....".D......Uf',
        "2000 0000 3000 80                         ...0..",
    ),
    "xxd -e": in_rows(
        "00000000", FILLED_WORDS + "  ................",
        WORDS + '  .....".D......Uf',
        "00000020   800030                     ...0..",
    ),
    "xxd -g4": in_rows(
        "00000000", FILLED_WORDS + "  ................",
        '000000bb 11220044 ffffffff aa995566  .....".D......Uf',
        "20000000 300080                       ...0..",
    ),
    "xxd -b": """\
00000000: 11111111 11111111 11111111 11111111 11111111 11111111  ......
00000006: 11111111 11111111 11111111 11111111 11111111 11111111  ......
0000000c: 11111111 11111111 11111111 11111111 11111111 11111111  ......
00000012: 11111111 11111111 11111111 11111111 11111111 11111111  ......
00000018: 11111111 11111111 11111111 11111111 11111111 11111111  ......
0000001e: 11111111 11111111 11111111 11111111 11111111 11111111  ......
00000024: 11111111 11111111 11111111 11111111 11111111 11111111  ......
0000002a: 11111111 11111111 11111111 11111111 11111111 11111111  ......
00000030: 00000000 00000000 00000000 10111011 00010001 00100010  ....."
00000036: 00000000 01000100 11111111 11111111 11111111 11111111  .D....
0000003c: 10101010 10011001 01010101 01100110 00100000 00000000  ..Uf .
00000042: 00000000 00000000 00110000 00000000 10000000           ..0..
""",
    "xxd -p": f"{'ff' * 30}\n{'ff' * 18}000000bb11220044ffffffff\naa99556620000000300080\n",
    "hexdump -C": with_star(
        "00000000 00000030 00000040 00000047",
        " ff ff ff ff ff ff ff ff  ff ff ff ff ff ff ff ff  |................|",
        ' 00 00 00 bb 11 22 00 44  ff ff ff ff aa 99 55 66  |.....".D......Uf|',
        " 20 00 00 00 30 00 80                              | ...0..|",
    ),
    "hexdump": with_star(
        "0000000 0000030 0000040 0000047", FILLED_HALVES, HALVES, "0020 0000 0030 0080" + " " * 20,
    ),
    "od -tx1": with_star(
        "0000000 0000060 0000100 0000107",
        "ff ff ff ff ff ff ff ff ff ff ff ff ff ff ff ff",
        "00 00 00 bb 11 22 00 44 ff ff ff ff aa 99 55 66",
        "20 00 00 00 30 00 80",
    ),
    "od -Ax -tx4z": with_star(
        "000000 000030 000040 000047",
        FILLED_WORDS + "  >................<",
        WORDS + '  >.....".D......Uf<',
        "00000020 00800030                    > ...0..<",
    ),
    "od": with_star(
        "0000000 0000060 0000100 0000107",
        "177777 177777 177777 177777 177777 177777 177777 177777",
        "000000 135400 021021 042000 177777 177777 114652 063125",
        "000040 000000 000060 000200",
    ),
    "od -Ad -tx2": with_star("0000000 0000048 0000064 0000071", FILLED_HALVES, HALVES, "0020 0000 0030 0080"),
    "words": "FFFFFFFF FFFFFFFF FFFFFFFF FFFFFFFF\n" * 3 + "000000BB 11220044 FFFFFFFF AA995566\n20000000 300080\n",
    "words, one a line": "FFFFFFFF\n" * 12 + "000000BB\n11220044\nFFFFFFFF\nAA995566\n20000000\n300080\n",
    "words in one line": "FFFFFFFF " * 12 + "000000BB 11220044 FFFFFFFF AA995566 20000000 300080",
    "md of U-Boot, with other bytes after them": in_rows(
        "80000000", FILLED_WORDS + "    ................",
        WORDS + '    .....".D......Uf',
        "00000020 00800030                      ...0...",
    ),
}  # fmt: skip
# texts that are no dumps
OTHERS = [
    b"", b"\n", b"*\n", b"ff\n", b"design.bit\n", b"frame 00000000 00000001\n", b"sync\nnop\n", b":020000040000FA\n",
    b"S00600004844521B\n", b'name = "made"\n', b"SIR 6 TDI (09);\n", b"AAAA/+==\n", b"\xff" * 64, b"0: a line\n",
    b"10:30:00 2026/11/29\n", (b"01" * 16 + b"\n") * 4, b"0000000 fff fff\n0000003 fff fff\n", b"12345678 bottles\n",
]  # fmt: skip
# the options of each program, one text a form
PROGRAMS = {
    "xxd": "|-e|-e -g2|-e -g8|-g1|-g4|-g8|-g0|-b|-b -c4|-p|-p -c4|-u|-a|-c32",
    "hexdump": "|-v|-C|-Cv|-x|-b",
    "od": "|-v|-b|-tx1|-tx1 -v|-tx2|-tx4|-tx8|-An -v -tx1|-Ax -tx1z|-Ax -tx4z|-Ad -tx1|-tx1 -w32",
}


def came(text: bytes) -> object:
    """The bytes of a text, or the line that refuses it."""
    try:
        return bytes_of_dump(text)
    except Refused as refused:
        return str(refused)


def gives(name: str, text: bytes, wanted: bytes) -> None:
    """A text gives these bytes, also with 0D 0A, without blanks at the ends of lines, and after a byte order mark."""
    lines = text.split(b"\n")
    trimmed = b"\n".join(line.rstrip() for line in lines)
    for form in (text, text.replace(b"\n", b"\r\n"), trimmed, b"\xef\xbb\xbf" + text, text + b"\n\n"):
        tally.same(f"{name}: the bytes", came(form), wanted)


def stands_here() -> None:
    """The texts of this file."""
    for name, text in TEXTS.items():
        gives(name, text.encode(), DATA + (b"\0" if name.startswith("md") else b""))
        tally.check(f"{name} is a dump", is_dump(text.encode()))
    for other in OTHERS:
        tally.check(f"{other[:20]!r} is no dump", not is_dump(other) and bytes_of_dump(other) is None)


def streams(take: random.Random) -> list[bytes]:
    """Data of all small sizes, with runs of one byte, and two rows that differ, which tell how labels count."""
    found = [(DATA * 5)[:size] for size in (*range(56, 71), 100, 255, 256, 257)]
    for _ in range(20):
        data = bytearray(take.choice([0, 255, 0x30, take.randrange(256)]) for _ in range(take.randrange(48, 700)))
        at = take.randrange(len(data))
        data[at:at] = bytes([take.choice([0, 255, 65])]) * take.randrange(200)
        found.append(bytes(range(32)) + bytes(data))
    return found


def of_programs(folder: str) -> None:
    """What the programs themselves write."""
    for program, options in PROGRAMS.items():
        if not shutil.which(program):
            tally.skip(f"no {program}")
            continue
        for data in streams(random.Random(7)):
            path = put_file(folder, "data", data)
            for option in options.split("|"):
                text = subprocess.run([program, *option.split(), path], stdout=subprocess.PIPE, check=True).stdout
                tally.same(f"{program} {option}, {len(data)} bytes", came(text), data)


def refused(name: str, text: str, said: str) -> None:
    """A text is a dump, and is refused with this line."""
    it = came(text.encode())
    tally.check(name, isinstance(it, str) and said in it, str(it)[:200])


def damaged() -> None:
    """Dumps that lost lines, or have lines that are none."""
    long = "".join(f"{at:08x}: {'ff' * 16}  {'.' * 16}\n" for at in range(0, 512, 16))
    lines = long.splitlines(keepends=True)
    refused("a lost line", "".join(lines[:20] + lines[21:]), "line 21 of the dump begins at 336, and the rows before")
    refused("a line twice", "".join(lines[:20] + lines[19:]), "line 21 of the dump begins at 304")
    refused("a line of words", "".join(lines[:20]) + "and so on\n", "line 21 of the dump isn't like those before")
    refused("a group of odd digits", "".join(lines[:20]) + "00000140: fff\n", "line 21 of the dump has 'fff'")
    refused("a line without a label", "".join(lines[:20]) + "ffff\n", "line 21 of the dump has no place")
    refused("a label of other digits", TEXTS["od -tx1"].replace("0000100 20", "0000108 20"), "line 4 of the dump")
    refused("a row `*` at the end", "".join(lines[:20]) + "*\n", "ends with a row `*`")
    refused("a row `*` without labels", "ffffffff 00000000\n" * 4 + "*\n", "line 5 of the dump is `*`")
    refused("a place past every flash", TEXTS["hexdump -C"] + "*\n10000000\n", "line 7 of the dump is past 134217728")
    refused("another octal digit", TEXTS["od"].replace("000040", "000048"), "line 4 of the dump has '000048'")


stands_here()
damaged()
with tempfile.TemporaryDirectory() as FOLDER:
    of_programs(FOLDER)
tally.end()
