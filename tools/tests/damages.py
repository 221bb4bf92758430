"""Kinds of damage that streams meet on their way, each made of a good stream: what a cable, a flash, an editor, a
server or a wrong command leaves, and what `why` should say of it. Any whole stream of a device serves, planned or the
vendor's."""
from __future__ import annotations

import base64
import binascii
import bz2
import gzip
import io
import lzma
import random
import re
import tarfile
import zipfile
from enum import Enum
from typing import Callable, Iterator

from casefiles import header  # (casefiles puts the tools on the path)
from damaged import LOOSE, Damage, Good, cut_out, each_byte, exchanged_bits, exchanged_places, flip, put, put_in, row
from damaged import with_codes
from x7codes import FRAME_BYTES
import x7formats as x7
import x7kinds


def cuts(g: Good) -> list[Damage]:
    """The end is missing."""
    found = []
    places = {
        "in FF": 20, "before the sync word": g.sync - 2, "after the sync word": g.sync + 4, "in frames": g.middle,
        "before the frames": g.frames.first - 8, "within a word": g.middle + 3, "before the check": g.checks[0] - 4,
        "before START": g.start - 4, "before DESYNC": g.desync - 4, "within DESYNC": g.desync + 3,
    }
    for name, place in places.items():
        found.append(row(f"cut {name}", [g.bit(g.data[:place])], "cut off"))
        right = "cut off|doesn't end|all bytes are FF" + ("|no sync word" if place <= g.sync else "")
        found.append(row(f"cut {name}, no header", [g.data[:place]], right))
    found.append(row("cut after the header", [g.head], "cut off right after its header"))
    found.append(row("cut in startup", [g.bit(g.data[: g.desync + 16])], "end in phase 3"))
    found.append(row(
        "cut, then the next copy",
        [g.bit(g.data[: g.middle]) + g.raw],
        r"second header|cut off|another (header|stream)",
    ))
    return found


def losses(g: Good) -> list[Damage]:
    """Bytes are lost or added."""
    found, place = [], g.middle - 3
    for count in (1, 2, 3, 4, 5, 80, 256, 404, 512, 1024, 4096, 65536):
        if 2 * count < len(g.data) - place:
            right = (
                rf"(^|\D){count} bytes? .{{0,30}}lost|header tells of {len(g.data)} bytes.*has "
                rf"{len(g.data) - count}\b"
            )
            found.append(row(f"{count} bytes lost", [g.bit(cut_out(g.data, place, count))], right, 1, LOOSE))
            right = rf"(^|\D){count} bytes? .{{0,30}}lost|{(4 - count) % 4} bytes? .*off|off their words"
            found.append(row(f"{count} bytes lost, no header", [cut_out(g.data, place, count)], right, 1, LOOSE))
    for count in (1, 2, 4, 64, 512):
        more = bytes(random.Random(count).randrange(256) for _ in range(count))
        right = rf"(^|\D){count} bytes? .{{0,30}}added|header tells of {len(g.data)} bytes.*has {len(g.data) + count}\b"
        found.append(row(f"{count} bytes added", [g.bit(put_in(g.data, place, more))], right, 1, LOOSE))
        found.append(
            row(f"{count} bytes added, no header", [put_in(g.data, place, more)], right + "|off their words", 1, LOOSE)
        )
    page = g.data[g.middle // 256 * 256 :][:256]
    twice = g.bit(put_in(g.data, g.middle // 256 * 256, page))
    found.append(row("a page twice", [twice], r"256 bytes .{0,30}added|tells of .* bytes were added", 1, LOOSE))
    eaten = g.bit(b"".join(g.data[at : at + 511] for at in range(0, len(g.data), 512)))
    found.append(row("each 512th byte lost", [eaten], "bytes were lost|bytes .*lost", 1, LOOSE))
    found.append(row("the beginning lost", [g.data[g.sync + 12 :]], "packets follow from offset"))
    found.append(row("a page lost first", [g.data[256:]], "packets follow from offset|beginning"))
    late = (int.from_bytes(g.data, "big") >> 3).to_bytes(len(g.data), "big")
    found.append(row("three bits late", [late], "all bits come 3 places late"))
    return found


def lines(g: Good) -> list[Damage]:
    """What a serial line, a shell or a tool for texts does."""
    xon = b"".join(g.data[at : at + 1000] + b"\x13\x11"[at // 1000 % 2 :][:1] for at in range(0, len(g.data), 1000))
    lf, ended = g.data.replace(b"\n", b"\r\n"), with_line_ends(g)
    found = [
        row("text mode, 0D0A to 0A", [g.head + ended.replace(b"\r\n", b"\n")], "makes 0A of 0D 0A", 1, LOOSE),
        row("text mode, 0D0A to 0A, no header", [ended.replace(b"\r\n", b"\n")], "makes 0A of 0D 0A", 1, LOOSE),
        row("text mode, 0A to 0D0A", [g.bit(lf)], "as text"),
        row("text mode, no header", [lf], "as text"),
        row("XON and XOFF eaten", [g.bit(g.data.translate(None, b"\x11\x13"))], "XON", 1, LOOSE),
        row("XON and XOFF eaten, no header", [g.data.translate(None, b"\x11\x13")], "XON", 1, LOOSE),
        row("XON and XOFF added", [g.bit(xon)], r"XON|bytes were added|\d+ bytes .*added", 1, LOOSE),
        row("0D eaten", [g.bit(g.data.translate(None, b"\r"))], "byte 0D", 1, LOOSE),
        row("0D to 0A", [g.bit(each_byte(g.data, lambda it: 10 if it == 13 else it))], "0D", 1, LOOSE),
        doubled_ff(g),
        row("00 lost", [g.bit(g.data.translate(None, b"\0"))], "00", 1, LOOSE),
        row("00 to 20", [g.bit(g.data.replace(b"\0", b" "))], "00"),
        row("00 to 20, no header", [g.data.replace(b"\0", b" ")], "00"),
        row("00 to 20, header too", [g.raw.replace(b"\0", b" ")], "00"),
        row("seven bits", [each_byte(g.data, lambda it: it & 127)], "highest bit"),
        row("to UTF-8", [g.data.decode("latin1").encode()], "UTF-8"),
        row("what no text has lost", [g.data.decode("utf-8", "replace").encode()], "recoded as a text"),
        row(
            "SLIP",
            [b"\xc0" + g.data.replace(b"\xdb", b"\xdb\xdd").replace(b"\xc0", b"\xdb\xdc") + b"\xc0"],
            "SLIP|unknown",
        ),
        row("a blank line in front", [b"\n" + g.raw], "header|byte|starts|nothing is wrong", 0),
        row("each byte twice", [g.bit(b"".join(bytes([it, it]) for it in g.data[:60000]))], "twice|doubled"),
        row(
            "each word twice", [b"".join(2 * g.data[at : at + 4] for at in range(0, 60000, 4))], "twice|doubled|repeat",
        ),
        row("UTF-16", [g.data.decode("latin1").encode("utf-16-le")], "00|UTF-16|every second byte"),
    ]
    return found


def with_line_ends(g: Good) -> bytes:
    """The stream's data, which have 0D 0A in them. Where the stream has none, three frames get one each, and their
    codes and the checks are made anew."""
    if g.data.count(b"\r\n") > 1:
        return g.data
    data = g.data
    for part in range(1, 4):
        frame_count = g.frames.present // x7.FRAME_WORDS
        place = g.frames.first + frame_count * part // 4 * FRAME_BYTES
        at = 100 * part + 21  # within a word, and not in the code's
        frame = data[place : place + at] + b"\r\n" + data[place + at + 2 : place + FRAME_BYTES]
        data = data[:place] + with_codes(frame) + data[place + FRAME_BYTES :]
    return x7.with_checks(data, g.checks)


def doubled_ff(g: Good) -> Damage:
    """Each byte FF twice, as telnet sends it: of a stream that has none after its sync word no word is damaged."""
    doubled = g.bit(g.data.replace(b"\xff", b"\xff\xff"))
    if b"\xff" in g.data[g.sync :]:
        return row("FF doubled", [doubled], "each (byte )?FF|doubled", 1, LOOSE)
    return row("FF doubled in front", [doubled], "length: the header", 0)


def bits(g: Good) -> list[Damage]:
    """A word, or a bit of one, is another one."""
    idcode, far = g.word_of(x7.IDCODE), g.word_of(x7.FAR)
    return [
        row("a bit of a frame", [g.bit(flip(g.data, g.middle))], "a check fails"),
        row("a bit of a frame, no header", [flip(g.data, g.middle)], "a check fails"),
        row("a bit of the check", [g.bit(flip(g.data, g.checks[0]))], "a check fails"),
        row("a bit of the last check", [g.bit(flip(g.data, g.checks[-1] + 3))], "a check fails"),
        row("a bit of the sync word", [g.bit(flip(g.data, g.sync + 3))], "it is damaged: AA995567"),
        row("a bit of the IDCODE", [g.bit(flip(g.data, idcode + 2, 0x10))], "IDCODE|a check fails"),
        row("a bit by which it is no device's", [g.bit(flip(g.data, idcode + 1, 2))], "IDCODE .* is damaged: with 0"),
        row("a bit of COR0", [g.bit(flip(g.data, g.word_of(x7.COR0) + 1, 0x80))], "a check fails"),
        row("a bit of FAR", [g.bit(flip(g.data, far + 2, 0x40))], "a check fails|a column|Address|address"),
        row(
            "a bit of FDRI's count",
            [g.bit(flip(g.data, g.frames.place + 3))],
            "its count|words were lost or added|a check fails|damaged",
        ),
        row(
            "a large bit of FDRI's count",
            [g.bit(flip(g.data, g.frames.place + 2, 2))],
            "its count|cut off|words were lost or added|count is damaged",
        ),
        row("a word of the frames", [g.bit(put(g.data, g.middle // 4 * 4, 0x5A5A5A5A))], "a check fails"),
        row(
            "the check 0000DEFC",
            [g.bit(put(put(g.data, g.checks[0], 0xDEFC), g.checks[-1], 0xDEFC))],
            "DEFC.{0,200}(is off|DISABLE|constant)",
            1,
            "a check fails",
        ),
    ]


def commands(g: Good) -> list[Damage]:
    """A command is another one, or words stand where none should."""
    return [
        row("START to another command", [g.mended(put(g.data, g.start, 0))], "START is damaged or lost"),
        row("DESYNC to another command", [g.mended(put(g.data, g.desync, 0))], "no DESYNC"),
        row("DESYNC to IPROG", [g.mended(put(g.data, g.desync, 15))], "where DESYNC should"),
        row("a command to DESYNC", [g.mended(put(g.data, g.command("SWITCH"), 13))], "DESYNC comes too early"),
        row(
            "RCRC to another command",
            [g.bit(put(g.data, g.command("RCRC"), 6))],
            "a check fails|starts|nothing is wrong",
        ),
        row("WCFG to another command", [g.bit(put(g.data, g.command("WCFG"), 0))], "a check fails|WCFG"),
        row("LFRM to another command", [g.bit(put(g.data, g.command("LFRM"), 4))], "a check fails|LFRM"),
        row(
            "no-ops to words of no packet",
            [g.bit(put(g.data, g.sync + 4, 0xE0000000))],
            "stands where a packet's header should",
        ),
        row("a false sync word in front", [g.bit(b"\x12" + x7.SYNC + b"\x55" * 6 + g.data)], "isn't the stream's own"),
        row("a false sync word in front, no header", [x7.SYNC + b"\x30\x01" + g.data], "isn't the stream's own"),
    ]


def turned(g: Good) -> list[Damage]:
    """Bits, bytes or words in another order."""
    found = []
    for way in x7kinds.WAYS:
        right = f"{way.what} (is|are) {way.how}"
        found.append(row(f"{way.what} {way.how}", [way.back(g.data)], right))
        found.append(row(f"{way.what} {way.how}, header kept", [g.bit(way.back(g.data))], right))
    for name in (
        "the bytes of each word", "the bits of each byte", "the bytes of each halfword", "the halfwords of each word",
    ):
        way = next(it for it in x7kinds.WAYS if it.what == name)
        for lead, place in (("the middle", g.middle // 4 * 4), ("a sector", len(g.data) // 2 // 4096 * 4096 or 1024)):
            data = g.data[:place] + way.back(g.data[place:])
            right = f"{way.what} (is|are) {way.how}.*(from|its end|its beginning)|from .*{way.what}"
            found.append(row(f"{name} swapped from {lead} on", [g.bit(data)], right, 1, LOOSE))
    found.append(row("the file reversed", [g.data[::-1]], "whole|last byte|reversed"))
    found.append(row("the file reversed, header too", [g.raw[::-1]], "whole|last byte|reversed"))
    found.append(row(
        "the file reversed bit by bit", [g.data[::-1].translate(x7kinds.MIRRORED)], "whole|last bit|last byte|reversed",
    ))
    return found


def pins(g: Good) -> list[Damage]:
    """Data lines that are stuck, exchanged, joined or inverted."""
    found = []
    for bit in range(8):
        text = f"(bit|line)s? (D)?{bit}.*|highest bit"
        found.append(row(
            f"line {bit} at 0", [each_byte(g.data, lambda it: it & ~(1 << bit))], f"{text}stuck|always 0|highest bit",
        ))
        found.append(row(f"line {bit} at 1", [each_byte(g.data, lambda it: it | 1 << bit)], f"{text}stuck|always 1"))
        found.append(row(f"line {bit} inverted", [each_byte(g.data, lambda it: it ^ 1 << bit)], "inverted"))
    for one, other in ((0, 1), (0, 7), (2, 5), (3, 4), (6, 7), (0, 4)):
        swap = {one: other, other: one}
        found.append(row(
            f"lines {one} and {other} exchanged",
            [each_byte(g.data, lambda it: exchanged_bits(it, swap))],
            f"{one} and {other} .*exchanged",
        ))
        joined = each_byte(
            g.data, lambda it: it if (it >> one & 1) == (it >> other & 1) else it & ~(1 << one | 1 << other),
        )
        found.append(row(f"lines {one} and {other} joined", [joined], f"{one} and {other} .*(joined|same)"))
    four = {0: 1, 1: 0, 4: 5, 5: 4}
    found.append(
        row("lines 0 and 1 of four exchanged", [each_byte(g.data, lambda it: exchanged_bits(it, four))], "exchanged")
    )
    found += orders_of_lines(g) + address_lines(g)
    found.append(row("line 2 of four at 0", [each_byte(g.data, lambda it: it & 0xBB)], "always 0|stuck"))
    found.append(row("every second byte", [g.data[::2]], "every second byte"))
    found.append(row("every other second byte", [g.data[1::2]], "every second byte"))
    for size in (1, 2, 4, 256, 4096):
        if 4 * size > len(g.data):
            continue
        blocks = b"".join(2 * g.data[at : at + size] for at in range(0, min(len(g.data), 70000), 2 * size))
        found.append(row(f"address line of {size} at 0", [blocks], "twice|address line"))
    return found


def orders_of_lines(g: Good) -> list[Damage]:
    """Three data lines or more in another order; bit n of each byte comes as the bit that stands at place n."""
    found = []
    for name, order in (
        ("three data lines in a ring", (1, 2, 0, 3, 4, 5, 6, 7)),
        ("three data lines of both halves in a ring", (0, 4, 2, 7, 1, 5, 6, 3)),
        ("four data lines in a ring", (1, 2, 3, 0, 4, 5, 6, 7)),
        ("two pairs of data lines", (1, 0, 3, 2, 4, 5, 6, 7)),
        ("eight data lines in a ring", (1, 2, 3, 4, 5, 6, 7, 0)),
        ("eight data lines at random", (5, 0, 3, 6, 2, 7, 1, 4)),
        ("three lines of a bus of four in a ring", (1, 2, 0, 3, 5, 6, 4, 7)),
        ("a bus of four the other way round", (3, 2, 1, 0, 7, 6, 5, 4)),
    ):
        moved = each_byte(g.data, lambda it: exchanged_bits(it, dict(enumerate(order))))
        ways = ".*".join(f"{bit} comes as (bit|line) {order[bit]}" for bit in range(4) if order[bit] != bit)
        found.append(row(name, [moved], f"are exchanged.*{ways}"))
    moved = each_byte(g.data, lambda it: exchanged_bits(it, {0: 4, 4: 0, 2: 6, 6: 2}))
    found.append(row("two pairs that leave the sync word", [moved], "are exchanged.*0 comes as bit 4.*2 comes as"))
    return found


def address_lines(g: Good) -> list[Damage]:
    """Two address lines of a parallel flash that are exchanged, and that is read as a whole."""
    width = len(g.data).bit_length()
    flash = g.data.ljust(1 << width, b"\xff")
    found = []
    for one, other in ((0, 1), (1, 2), (2, 9), (4, 7), (8, 11), (9, 12), (10, width - 1), (width - 2, width - 1)):
        if one < other < width:
            moved = exchanged_places(flash, one, other)
            right = f"bits {one} and {other} of each byte's address are exchanged"
            found.append(row(f"address lines {one} and {other} exchanged", [moved], right))
    return found


def flashes(g: Good, other: Good) -> list[Damage]:
    """What a flash holds: partly written, not erased, of several streams."""
    return [*half_written(g), *not_erased(g, other), *several_streams(g, other), *readbacks(g)]


def half_written(g: Good) -> list[Damage]:
    """A flash, or a file, of which a part was written."""
    found, size, half = [], len(g.data), len(g.data) // 2 // 256 * 256
    for name, count, whole in (
        ("half", half, size + 65536),
        ("half, of a large flash", half, 1 << 22),
        ("the first page", 256, 65536),
        ("the end", g.desync - 64, size + 65536),
    ):
        file = g.data[:count] + b"\xff" * (whole - count)
        found.append(row(f"partly written: {name}", [file], r"is FF|an erased flash"))
    found.append(row("partly written, then 00", [g.data[:half] + bytes(65536)], r"is 00|are 00", 1, LOOSE))
    begun = g.bit(g.data[:half] + bytes(size - half))
    found.append(row("begun and not filled", [begun], r"is 00|are 00", 1, LOOSE))
    place, right = g.middle // 256 * 256, r"bytes .*(are|is) (all )?FF|FF .*page|page.*FF"
    for count in (256, 4096, 65536):
        if place + count < g.desync - 512:
            page = g.data[:place] + b"\xff" * count + g.data[place + count :]
            found.append(row(f"{count} bytes of FF within", [g.bit(page)], right, 1, LOOSE))
            found.append(row(f"{count} bytes of FF within, no header", [page], right, 1, LOOSE))
    found.append(row("the first page FF", [b"\xff" * 256 + g.data[256:]], "packets follow|beginning"))
    found.append(row("all FF", [b"\xff" * 70000], "all bytes are FF, as in an erased flash"))
    found.append(row("all 00", [bytes(70000)], "all bytes are 00"))
    return found


def not_erased(g: Good, other: Good) -> list[Damage]:
    """A flash that was written where it wasn't erased: a bit is 1 where all that was written has it."""
    right, half = "erased|unknown", len(g.data) // 2 // 256 * 256
    found = []
    for name, second in (("two images", other.data), ("two images of one device", other_design(g))):
        both = bytes(one & two for one, two in zip(g.data, second))
        found.append(row(f"{name} in one flash, neither erased", [both], right))
    over = g.data[:half] + bytes(it & 0x5A for it in g.data[half:])
    found.append(row("written at a place that wasn't erased", [over], right))
    return found


def other_design(g: Good) -> bytes:
    """The data of another design for the device of a stream: its frames that hold something hold other bits."""
    data, take = g.data, random.Random(2)
    for it in g.writes:
        if it.register == x7.FDRI:
            frames = data[it.first : it.end]
            parts = (frames[at : at + 404] for at in range(0, len(frames), 404))
            changed = (bytes(one and take.randrange(256) for one in part) if any(part) else part for part in parts)
            data = data[: it.first] + with_codes(b"".join(changed)) + data[it.end :]
    return x7.with_checks(data, g.checks)


def several_streams(g: Good, other: Good) -> list[Damage]:
    """A flash with a stream's parts in another order, or with two streams."""
    flash, half = g.data + b"\xff" * (-len(g.data) % 65536), len(g.data) // 2 // 256 * 256
    order, two = "exchanged|other order|wrong order|begins at offset", "two devices|different devices|second "
    two += "(header|stream)"
    return [
        row("halves exchanged", [g.data[half:] + g.data[:half]], order),
        row("halves exchanged, header kept", [g.bit(g.data[half:] + g.data[:half])], order),
        row("the second half alone", [g.data[half:]], "beginning|packets follow|unknown"),
        row("a flash of the stream", [flash], "starts|nothing is wrong", 0),
        row("read twice", [2 * flash], "second|twice|repeat|starts|nothing is wrong", 0),
        row("two devices", [g.raw + other.raw], two),
        row("two devices, no header", [g.data + other.data], two),
        row("two devices in one flash", [flash + other.data], two),
    ]


def raw_frames(g: Good) -> bytes:
    """The frame data of a stream, without packets, and a pad frame in front as readback has it."""
    return bytes(404) + b"".join(g.data[it.first : it.end] for it in g.writes if it.register == x7.FDRI)


def readbacks(g: Good) -> list[Damage]:
    """Frames as a device gives them, with the error correction code of each in its word 50, given as a stream."""
    frames = with_codes(raw_frames(g))
    names = ("the bytes of each word", "the bits of each byte")
    ways = [next(it for it in x7kinds.WAYS if it.what == name) for name in names]
    held = next(at for at in range(0, len(frames), 404) if frames[at : at + 404].strip(b"\0"))
    right = "frame data alone, as of a readback"
    swapped = ways[0].back(raw_frames(g))
    return [
        row("frames alone", [raw_frames(g)], "readback|frames alone|frame data"),
        row("frames alone, swapped", [swapped], "readback|frames alone|frame data|unknown"),
        row("a readback with codes", [frames], right + ": .*error correction code"),
        *(row(f"a readback, {it.what} swapped", [it.back(frames)], f"{right}, {it.what} swapped") for it in ways),
        row("a readback with codes after words of its own", [bytes(40) + frames], right + ", from offset 40 on"),
        row("one frame of a readback, and its pad", [bytes(404) + frames[held : held + 404]], right),
        row("a readback in a header", [g.bit(frames)], right),
    ]


def packed(g: Good) -> list[Damage]:
    """Files that hold a stream in another form, and files of other kinds."""
    return [*compressed(g), *as_text(g), *of_others(g)]


def compressed(g: Good) -> list[Damage]:
    """Files in which a stream is packed."""
    zipped, tarred = io.BytesIO(), io.BytesIO()
    with zipfile.ZipFile(zipped, "w") as file:
        file.writestr("design.bit", g.raw)
    with tarfile.open(fileobj=tarred, mode="w") as tar:
        info = tarfile.TarInfo("design.bit")
        info.size = len(g.raw)
        tar.addfile(info, io.BytesIO(g.raw))
    return [
        row("gzip", [gzip.compress(g.raw)], "gzip"),
        row("gzip cut off", [gzip.compress(g.raw)[:900]], "gzip"),
        row("xz", [lzma.compress(g.raw)], "xz"),
        row("lzma", [lzma.compress(g.raw, lzma.FORMAT_ALONE)], "lzma"),
        row("bzip2", [bz2.compress(g.raw)], "bzip2"),
        row("zip", [zipped.getvalue()], "zip"),
        row("tar", [tarred.getvalue()], r"\btar\b"),
        row("7z", [b"7z\xbc\xaf\x27\x1c" + gzip.compress(g.raw)], "7z"),
        row("zstd", [b"\x28\xb5\x2f\xfd" + gzip.compress(g.raw)], "zstd"),
        row("lz4", [b"\x04\x22\x4d\x18" + gzip.compress(g.raw)], "lz4"),
    ]


def as_text(g: Good) -> list[Damage]:
    """Files that hold a stream as a text."""
    rbt = b"Xilinx ASCII Bitstream\nBits: %d\n" % (8 * len(g.data)) + b"".join(
        b"%s\n" % f"{it:032b}".encode() for it in x7.words_of(g.data[:4096])
    )
    packed_in_c = "const unsigned char design[] = {\n" + ",\n".join(
        "  " + ", ".join(f"0x{it:02x}" for it in g.raw[at : at + 12]) for at in range(0, 1200, 12)
    ) + "};\n"
    return [
        row("rbt", [rbt], r"\.rbt"),
        row("Intel HEX", [intel_hex(g.data)], "Intel HEX"),
        row("Intel HEX with a mark", [b"\xef\xbb\xbf" + intel_hex(g.data)], "Intel HEX"),
        row("S-records", [b"S1130000FFFFFFFFFFFFFFFFFFFFFFFFFFFFFFFFFC\n" * 9], "S-record"),
        row("base64", [base64.encodebytes(g.data)], "base64"),
        row(
            "uuencode",
            [b"begin 644 design.bit\n" + b"".join(binascii.b2a_uu(g.raw[at : at + 45]) for at in range(0, 4500, 45))],
            "uuencode|text",
        ),
        row("an array in C", [packed_in_c.encode()], "C source|array|text"),
    ]


def of_others(g: Good) -> list[Damage]:
    """Files of other kinds, some of which hold a stream."""
    return [
        row("ELF", [b"\x7fELF" + bytes(900)], "ELF"),
        row(
            "BOOT.BIN",
            [bytes(32) + b"\x66\x55\x99\xaaXNLX" + bytes(900) + x7kinds.exchanged(g.data, 4, (3, 2, 1, 0))],
            "Zynq-7000",
        ),
        row("a device tree", [b"\xd0\x0d\xfe\xed" + bytes(900)], "device tree"),
        row("a U-Boot image", [b"\x27\x05\x19\x56" + bytes(60) + g.data], "U-Boot"),
        row("sof", [b"SOF\0" + bytes(900)], "sof|Intel|Altera"),
        row("png", [b"\x89PNG\r\n\x1a\n" + bytes(900)], "PNG|picture"),
        row("pdf", [b"%PDF-1.4\n" + bytes(900)], "PDF"),
    ]


def intel_hex(data: bytes) -> bytes:
    """The first bytes of data as Intel HEX."""
    lines = [":020000040000FA"]
    for at in range(0, min(len(data), 4096), 16):
        body = bytes([16]) + at.to_bytes(2, "big") + b"\0" + data[at : at + 16]
        lines.append(f":{body.hex().upper()}{-sum(body) & 255:02X}")
    return ("\n".join([*lines, ":00000001FF"]) + "\n").encode()


def texts(g: Good) -> list[Damage]:
    """Texts in place of a stream."""
    svf = b"STATE RESET;\nSIR 6 TDI (0B);\n"
    return [
        row("HTML", [b"<!DOCTYPE html>\n<html><body>404 Not Found</body></html>\n"], "HTML"),
        row("XML", [b"<?xml version=\"1.0\"?>\n<Error><Code>NoSuchKey</Code></Error>\n"], "XML"),
        row("JSON", [b"{\"message\": \"Not Found\", \"status\": 404}\n"], "JSON|a text, which begins"),
        row("git-lfs", [b"version https://git-lfs.github.com/spec/v1\noid sha256:0\n"], "git-lfs"),
        row("SVF", [svf], "SVF"),
        row("SVF after a comment", [b"! made by a tool\n\n" + svf], "SVF"),
        row("a line of x7", [b"x7: bad input: design.bit\n"], "x7 refused"),
        row("a text", [b"hello\nworld\n"], "a text, which begins 'hello'"),
        row("a mark and a text", [b"\xef\xbb\xbfhello\n"], "a text, which begins"),
        row("empty", [b""], "the file is empty"),
        row(
            "a part file",
            [b"name = \"xc7a35t\"\nidcode = 0x0362D093\n\n[[row]]\nblock = 0\n"],
            "part file|a text, which begins",
        ),
        row("a frames text", [b"frame 00000000 " + b"00000000" * 101 + b"\n"], "frames|a text, which begins"),
        row("a constraints file", [b"set_property PACKAGE_PIN W5 [get_ports clk]\n"], "text"),
    ]


def dump_rows(data: bytes, width: int = 16) -> list[bytes]:
    """The first bytes of data in rows."""
    return [data[at : at + width] for at in range(0, min(len(data), 1024), width)]


def ascii_of(part: bytes) -> str:
    """Bytes as a dump shows them."""
    return "".join(chr(it) if 32 <= it < 127 else "." for it in part)


def dumps(g: Good) -> list[Damage]:
    """Dumps as text. Only what xxd writes in hexadecimal is for xxd -r."""
    def lines(form: Callable[[int, bytes], str]) -> bytes:
        return "".join(f"{form(16 * at, part)}\n" for at, part in enumerate(dump_rows(g.data))).encode()

    def halves(part: bytes, order: str) -> list[int]:
        return [int.from_bytes(part[at : at + 2], order) for at in range(0, 16, 2)]  # type: ignore[arg-type]

    def words(part: bytes, order: str) -> list[int]:
        return [int.from_bytes(part[at : at + 4], order) for at in range(0, 16, 4)]  # type: ignore[arg-type]

    xxd = lines(lambda at, it: f"{at:08x}: {' '.join(f'{one:04x}' for one in halves(it, 'big'))}  {ascii_of(it)}")
    upper = lines(lambda at, it: f"{at:08x}: {' '.join(f'{one:04X}' for one in halves(it, 'big'))}  {ascii_of(it)}")
    hexdump_c = lines(lambda at, it: f"{at:08x}  {it[:8].hex(' ')}  {it[8:].hex(' ')}  |{ascii_of(it)}|")
    hexdump = lines(lambda at, it: f"{at:07x} {' '.join(f'{one:04x}' for one in halves(it, 'little'))}")
    od = lines(lambda at, it: f"{at:07o} {' '.join(f'{one:06o}' for one in halves(it, 'little'))}")
    od_x1 = lines(lambda at, it: f"{at:07o} {it.hex(' ')}")
    od_x4 = lines(lambda at, it: f"{at:07o} {' '.join(f'{one:08x}' for one in words(it, 'little'))}")
    xxd_e = lines(lambda at, it: f"{at:08x}: {' '.join(f'{one:08x}' for one in words(it, 'little'))}  {ascii_of(it)}")
    six = enumerate(dump_rows(g.data, 6))
    bits_of = [f"{6 * at:08x}: {' '.join(f'{one:08b}' for one in it)}  {ascii_of(it)}\n" for at, it in six]
    in_words = lines(lambda at, it: " ".join(f"{one:08X}" for one in words(it, "big")))
    xxd_p = "\n".join(it.hex() for it in dump_rows(g.data, 30)).encode() + b"\n"
    no_xxd = r"(?s)^(?!.*xxd -r).*dump"
    return [
        row("xxd", [xxd], "hex dump(.|\n)*xxd -r FILE"),
        row("xxd -u", [upper], "hex dump(.|\n)*xxd -r FILE"),
        row("xxd -p", [xxd_p], "hexadecimal digits(.|\n)*xxd -r -p|turn FILE"),
        row("xxd -i", [b"unsigned char design_bit[] = {\n  0xff, 0xff, 0xff, 0xff\n};\n"], "C source|array|text"),
        row("xxd -e", [xxd_e], no_xxd),
        row("xxd -b", ["".join(bits_of).encode()], no_xxd),
        row("hexdump -C", [hexdump_c], no_xxd),
        row("hexdump", [hexdump], no_xxd),
        row("od", [od], no_xxd),
        row("od -tx1", [od_x1], no_xxd),
        row("od -tx4", [od_x4], no_xxd),
        row("words of 8 digits", [in_words], r"(?s)^(?!.*xxd -r FILE).*(digits|dump|words)"),
        row("bytes with blanks", [lines(lambda at, it: it.hex(" ").upper())], r"(?s)^(?!.*xxd -r FILE).*(digits|dump)"),
    ]


def headers(g: Good, other: Good) -> list[Damage]:
    """The header is another one's, or damaged."""
    length = len(g.data)
    own = x7.header_of(g.raw)
    assert own is not None
    part = x7.text_of(own.part)
    foreign = "7a100tcsg324" if not part.startswith("7a100t") else "7a35tcpg236"
    return [
        row(
            "a length too large",
            [g.head[:-4] + (length + 4096).to_bytes(4, "big") + g.data],
            "length: the header tells of",
            0,
        ),
        row(
            "a length of the whole file",
            [g.head[:-4] + len(g.raw).to_bytes(4, "big") + g.data],
            "length: the header tells of",
            0,
        ),
        row("another device's header", [header(length, foreign) + g.data], "its header names"),
        row("the header twice", [g.head + g.raw], "header", 0),
        row("bytes after the end", [g.raw + b"\0" * 16], "length: the header tells of", 0),
        row("a line's end after it", [g.raw + b"\r\n"], "length: the header tells of|starts|nothing is wrong", 0),
        row("the header cut", [g.raw[:40]], "ends inside its header", 2),
        row("a letter of the header", [g.raw[:13] + b"b" + g.raw[14:]], "isn't the letter", 2),
        row("a Spartan-6", [header(length, "6slx9tqg144") + g.data], "Spartan-6"),
        row("an UltraScale+", [header(length, "xcvu9p-flga2104") + g.data], "UltraScale"),
        row("Spartan-6, no header", [spartan_6()], "Spartan-6|16 bits"),
        row("Spartan-3E, no header", [spartan_3e()], "Spartan-3"),
        row("another family by its IDCODE", [g.with_word(x7.IDCODE, 0x04B31093)[len(g.head) :]], "no 7-series device"),
    ]


def spartan_6() -> bytes:
    """The beginning of a Spartan-6's stream, in packets of 16 bits: sync word, FLR, COR1, COR2, IDCODE, and frames."""
    words = (
        "FFFF FFFF AA99 5566 30A1 0007 2000 31A1 0380 3141 3D00 3161 09EE 31C2 0400 1093 30E1 00CF 30C1 0081 "
        "2000 2000"
    )
    return b"\xff" * 12 + bytes.fromhex(words.replace(" ", "")) + bytes.fromhex("3022 0000 0000 30A1 0001 5060 0000 "
                                                                                "298A".replace(" ", "")) + bytes(40000)


def spartan_3e() -> bytes:
    """The beginning of a Spartan-3E's stream: RCRC, FLR, COR, IDCODE, MASK, and frames."""
    words = (
        "FFFFFFFF AA995566 30008001 00000007 30016001 00000060 30012001 020031E5 3001C001 01C22093 3000C001 00000000 "
        "30008001 00000009 "
        "30002001 00000000 30008001 00000001 30004000 5001149A"
    )
    return bytes.fromhex(words.replace(" ", "")) + bytes(40000)


def settings(g: Good) -> list[Damage]:
    """Settings that keep a board dead, or that are worth saying, in a stream that is whole."""
    cor0 = x7.word_at(g.data, g.word_of(x7.COR0))
    width = g.data.find(bytes.fromhex("000000BB11220044"))
    found = [
        row("GTS kept", [g.with_word(x7.COR0, cor0 | 0x38)], "outputs stay off for ever"),
        row("GWE kept", [g.with_word(x7.COR0, cor0 | 7)], "GWE_CYCLE"),
        row("GTS_USER_B 0", [g.ctl0(0x500)], "GTS_USER_B"),
        row("SBITS 1x before the frames", [g.ctl0(0x521)], "frames .* are dropped: CTL0 has SBITS 1x"),
        row("SBITS 1x after the frames", [g.ctl0(0x521, True)], "starts|nothing is wrong", 0),
        row("encrypted", [g.ctl0(0x541)], "encrypted"),
        row("LOCK waits", [g.with_word(x7.COR0, cor0 & ~0x1C0 | 2 << 6)], "LOCK_CYCLE", 0),
        row("MATCH waits", [g.with_word(x7.COR0, cor0 & ~0xE00 | 1 << 9)], "MATCH_CYCLE", 0),
        row("SSCLKSRC TCK", [g.with_word(x7.COR0, cor0 | 1 << 16)], "TCK", 0),
        row("SSCLKSRC user", [g.with_word(x7.COR0, cor0 & ~0x18000 | 1 << 15)], "clock of the design", 0),
        row("TIMER short", [g.last(x7.TIMER, 0x40000001)], "TIMER|watchdog"),
        row("TIMER short, then off", [g.setting(x7.TIMER, 0x40000100)], "^(it starts|nothing is wrong)", 0),
        row("BSPI of 32 bits", [g.last(31, 0x26C)], "BSPI 0000026C.: .*32 address bits", 0),
        row("BSPI of four lines", [g.last(31, 0x26B)], "BSPI 0000026B.: all 4 data lines", 0),
        row("no check", [no_checks(g)], "no write to CRC", 0),
    ]
    frames = [at for at in range(g.frames.first, g.frames.end, FRAME_BYTES) if any(g.data[at : at + FRAME_BYTES])]
    if len(frames) > 2:
        edited = g.mended(flip(g.data, frames[1] + 40))
        found.append(row("a frame edited, its code kept", [edited], "note: the error correction code of 1 of", 0))
    if width >= 0:
        found.append(row(
            "no bus width pattern",
            [g.bit(g.data.replace(bytes.fromhex("000000BB11220044"), b"\xff" * 8, 1))],
            "bus width",
            0,
        ))
        found.append(row("a damaged bus width pattern", [g.bit(flip(g.data, width + 3))], "bus width", 0))
    return found


def no_checks(g: Good) -> bytes:
    """The stream with RCRC in place of each check."""
    data = g.data
    for place in g.checks:
        data = data[: place - 4] + x7.write_packet(x7.CMD, [x7.CODES["RCRC"]]) + data[place + 4 :]
    return g.bit(data)


def several(g: Good, other: Good) -> list[Damage]:
    """Several files."""
    return [
        row("a cut one, then a good one", [g.bit(g.data[: g.middle]), g.raw], "s0.bit: .*cut off"),
        row("a good one, then a cut one", [g.raw, g.bit(g.data[: g.middle])], "s1.bit: .*(cut off|doesn't end)"),
        row("a damaged one, then a good one", [g.bit(flip(g.data, g.middle)), g.raw], "s0.bit: a check fails"),
        row("a good one, then a damaged one", [g.raw, g.bit(flip(g.data, g.middle))], "s1.bit: .*a check fails"),
        row("two devices", [g.raw, other.raw], "different devices|for a device with"),
        row("the same twice", [g.raw, g.raw], "starts|nothing is wrong", 0),
    ]


def good(g: Good) -> list[Damage]:
    """Good files, of which nothing wrong may be said."""
    return [
        row("the stream", [g.raw], "starts|nothing is wrong", 0),
        row("the stream without its header", [g.data], "starts|nothing is wrong", 0),
        row("bytes in front", [b"\x12\x34\x56" + g.data], "starts|nothing is wrong", 0),
        row("FF in front", [b"\xff" * 4096 + g.data], "starts|nothing is wrong", 0),
        row(
            "another version",
            [g.with_word(x7.IDCODE, x7.word_at(g.data, g.word_of(x7.IDCODE)) ^ 0x10000000)],
            "starts|nothing is wrong",
            0,
        ),
        row("fallback allowed", [g.ctl0(0x101)], "starts|nothing is wrong", 0),
        row("the last no-ops lost", [g.bit(g.data[: g.desync + 64])], "starts|nothing is wrong", 0),
    ]


def all_of(g: Good, other: Good) -> Iterator[Damage]:
    """All kinds, of a stream and one of another device, one group after the other: those of a large one would fill the
    memory at once."""
    for group in (cuts, losses, lines, bits, commands, turned, pins, packed, texts, dumps, settings, good):
        yield from group(g)
    for pair in (flashes, headers, several):
        yield from pair(g, other)


class Verdict(Enum):
    """How well what was said fits."""

    RIGHT = "it says what happened"
    WEAKER = "it is true, and says less"
    UNKNOWN = "it says that what happened, or how much of it, is unknown"
    NOTHING = "it says nothing of it"
    WRONG = "it isn't so"


# A number of bytes or words in what is said.
COUNTED = re.compile(r"(\d+) (?:bytes|words)")
# What says that something is unknown. The kind of a cause doesn't tell it: of lost bytes, or of a check that fails, how
# many or which may be unknown too.
SAYS_UNKNOWN = re.compile("unknown|nor one in any way")


def judged(damage: Damage, status: int, text: str, most: int) -> Verdict:
    """How well what was said fits; `most` is how many bytes there are. A count past these, and a good file that is
    blamed, are wrong."""
    if status == 2 != damage.status or any(int(it) > 4 * most for it in COUNTED.findall(text)):
        return Verdict.WRONG
    names_it = bool(re.search(damage.right, text))
    if names_it and status == damage.status:
        return Verdict.RIGHT
    if SAYS_UNKNOWN.search(text):
        return Verdict.UNKNOWN
    if status == 0 and damage.status == 1:
        return Verdict.NOTHING
    if names_it or damage.weaker and status == 1 and re.search(damage.weaker, text):
        return Verdict.WEAKER
    return Verdict.NOTHING if status == 0 else Verdict.WRONG
