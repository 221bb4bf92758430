"""Two address lines of a parallel flash that are exchanged: a flash that was read as a whole, whose bytes stand where
two bits of their place are the other way round. python3 (3.8) and its library alone."""
from __future__ import annotations

from itertools import combinations
from typing import Iterator

import x7formats as x7
import x7kinds
from x7pins import Judge, Wires

# how many of its first bytes are put in order to see whether a stream begins there
PREFIX = 1024
# the fewest bytes of a flash that was read as a whole
FEWEST_BYTES = 4096


def is_whole_flash(data: bytes) -> bool:
    """Whether data have as many bytes as address lines reach."""
    return len(data) >= FEWEST_BYTES and not len(data) & (len(data) - 1)


def exchanged_prefix(data: bytes, one: int, other: int) -> bytes:
    """The first bytes of data in which bits `one` and `other` of each place are exchanged."""
    both = 1 << one | 1 << other
    if PREFIX <= 1 << one:
        return data[:PREFIX]
    return bytes(data[it ^ both if (it >> one ^ it >> other) & 1 else it] for it in range(PREFIX))


def exchanged_places(data: bytes, one: int, other: int) -> bytes:
    """Data in which bits `one` and `other` of each place are exchanged, of which `one` is the lower."""
    turned, low, high = bytearray(data), 1 << one, 1 << other
    if high < len(data) // (2 * low):
        # few blocks of a period, and each of them all over the data at once
        for at in range(low, high, 2 * low):
            for place in range(at, at + low):
                turned[place :: 2 * high] = data[place - low + high :: 2 * high]
                turned[place - low + high :: 2 * high] = data[place :: 2 * high]
        return bytes(turned)
    for begin in range(0, len(data), 2 * high):
        for at in range(begin + low, begin + high, 2 * low):
            to = at - low + high
            turned[at : at + low], turned[to : to + low] = data[to : to + low], data[at : at + low]
    return bytes(turned)


def steps_well(data: bytes) -> bool:
    """Whether the first session of data has packets alone, and comes to its end: what wrong places hardly have."""
    at = data.find(x7.SYNC)
    for step in x7.session(data, at + 4):
        if step.kind in ("bad", "bytes") or step.kind == "write" and step.present < step.word_count:
            return False
        if step.kind == "write" and x7.ends_session(data, step):
            return True
    return False


def orders_of(data: bytes) -> Iterator[tuple[int, int, bytes]]:
    """Pairs of lines that may be exchanged, each with the data in their order. None is past all that isn't FF."""
    end = len(data.rstrip(b"\xff"))
    for one, other in combinations(range(len(data).bit_length() - 1), 2):
        if end > 1 << other and x7kinds.is_stream(exchanged_prefix(data, one, other)):
            turned = exchanged_places(data, one, other)
            if turned != data and steps_well(turned):
                yield one, other, turned


def exchanged_lines(data: bytes, is_stream: Judge) -> Wires | None:
    """Two address lines that are exchanged, or none; `is_stream` judges the data in their order."""
    if not is_whole_flash(data):
        return None
    for one, other, turned in orders_of(data):
        if is_stream(turned):
            names = f"A{one} and A{other} of a flash of 8 bits"
            names += f", A{one - 1} and A{other - 1} of one of 16" if one else ""
            text = f"bits {one} and {other} of each byte's address are exchanged: two address lines ({names})"
            return Wires(text, "exchange these two lines, or write the flash as it is read")
    return None
