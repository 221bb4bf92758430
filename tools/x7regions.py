"""Regions of frames: words of ranges of block type, half, row, column and minor, or of addresses. python3 (3.8) and its
library alone."""
from __future__ import annotations

import re
from typing import Dict, Iterable, Sequence, Tuple

from x7partfile import Part
from x7run import Refused

FIELDS = ("block", "half", "row", "column", "minor")
HALVES = {"top": "0", "bottom": "1"}
RANGE = re.compile(r"(block|half|row|column|minor|far)=([0-9A-Za-z]+)(?:-([0-9A-Za-z]+))?")
# The first and the last number of each field that a region speaks of.
Region = Dict[str, Tuple[int, int]]


def number_of(key: str, digits: str) -> int:
    """The number that stands under a key of a region; a half may stand by its name."""
    return int(HALVES.get(digits, digits) if key == "half" else digits, 16 if key == "far" else 10)


def region_of(word: str) -> Region:
    """The ranges of a region by their keys."""
    ranges: Region = {}
    for piece in word.split(","):
        found = RANGE.fullmatch(piece)
        if not found or found[1] in ranges:
            keys = f"{', '.join(FIELDS)} or far"
            why = f"{piece!r} is no range KEY=FIRST or KEY=FIRST-LAST of {keys}, or the key stands twice"
            raise Refused(f"'{word}' is no region: {why}")
        try:
            least, most = (number_of(found[1], it) for it in (found[2], found[3] or found[2]))
        except ValueError:
            raise Refused(f"'{word}' is no region: {piece!r} has no numbers") from None
        if least > most:
            raise Refused(f"'{word}' is no region: {piece!r} ends before it begins")
        if found[1] == "half" and most > 1:
            raise Refused(f"'{word}' is no region: a half is 0 or 1")
        ranges[found[1]] = (least, most)
    return ranges


def is_inside(part: Part, regions: Sequence[Region], far: int) -> bool:
    """Whether a frame address lies in one of the regions."""
    has = {**dict(zip(FIELDS, part.fields(far))), "far": far}
    return any(all(least <= has[key] <= most for key, (least, most) in it.items()) for it in regions)


def ranges_of(part: Part, fars: Iterable[int]) -> list[tuple[int, int, int]]:
    """Addresses as ranges: the first, the last and how many, each the next address of the part."""
    place = {far: at for at, far in enumerate(part.addresses())}
    found: list[tuple[int, int, int]] = []
    for far in sorted(fars):
        if found and place[far] == place[found[-1][1]] + 1:
            found[-1] = (found[-1][0], far, found[-1][2] + 1)
        else:
            found.append((far, far, 1))
    return found
