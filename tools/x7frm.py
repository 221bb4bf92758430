"""The frames of the open database's tools (Project X-Ray): texts of lines `0x00400080 0x00000000,0x..`, a frame address
and the words of its frame, which fasm2frames writes and xc7frames2bit reads. python3 (3.8) and its library alone."""
from __future__ import annotations

import re
from typing import Mapping

from x7formats import bytes_of, words_of
from x7partfile import Part
from x7run import Refused, read_file

LINE = re.compile(rb"0x([0-9A-Fa-f]{1,8})[ \t]+(0x[0-9A-Fa-f]{1,8}(?:[ \t]*,[ \t]*0x[0-9A-Fa-f]{1,8})*)[ \t]*")


def frm_text(frames: Mapping[int, bytes]) -> str:
    """The text of frames by their addresses, in number order."""
    lines = (f"0x{far:08X} {','.join(f'0x{it:08X}' for it in words_of(frames[far]))}\n" for far in sorted(frames))
    return "".join(lines)


def read_frm(path: str, part: Part | None) -> dict[int, bytes]:
    """The bytes of each frame of a text by its address. With a part, of its addresses and its frame's size; a frame
    that stands twice, and one of another size than the first, are refused."""
    frames: dict[int, bytes] = {}
    known, size = set(part.addresses()) if part else None, part.frame_words if part else None
    for number, line in enumerate(read_file(path).split(b"\n"), 1):
        line = line.strip()
        if not line or line.startswith(b"#"):
            continue
        found = LINE.fullmatch(line)
        if not found:
            raise Refused(f"{path} is no text of frames `0xADDRESS 0xWORD,0xWORD..`: line {number}")
        far, words = int(found[1], 16), [int(it, 16) for it in found[2].split(b",")]
        size = size or len(words)
        if len(words) != size:
            raise Refused(f"{path}: a frame has {len(words)} words, and not {size}: line {number}")
        if known is not None and far not in known:
            raise Refused(f"{path}: the part has no address {far:08X}: line {number}")
        if far in frames:
            raise Refused(f"{path} has the address {far:08X} twice: line {number}")
        frames[far] = bytes_of(words)
    return frames
