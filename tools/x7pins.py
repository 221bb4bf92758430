"""What wires do to a stream, told by its known beginning (words FFFFFFFF, then the sync word AA995566) and by what
holds of every byte: data lines that are stuck, exchanged, inverted or joined, address lines that are stuck, and half
of a bus. python3 (3.8) and its library alone."""
from __future__ import annotations

import re
from itertools import combinations, product
from typing import Callable, Iterator, NamedTuple

import x7formats as x7
import x7kinds

# how many of its first bytes a file is searched in for its beginning, and judged by
SEARCHED, JUDGED = 4096, 65536
# what stands right before a sync word, as bytes, in every stream that is known
LEAD = b"\xff" * 8
# fewer values of a byte than this tell nothing of wires
FEWEST_VALUES = 5
# The fewest bytes that tell of stuck address lines.
FEWEST_BYTES = 256
# What remains of the bus width pattern, and of a sync word and its no-op, where every second byte, or halfword, is
# missing.
HALVES = [
    ("byte", ("00001100FFFFFFFFAA55", "00BB2244FFFFFFFF9966", "FFFFFFFFAA552000", "FFFFFFFF99660000")),
    ("halfword", ("00001122FFFFFFFFAA99", "00BB0044FFFFFFFF5566", "FFFFFFFFAA992000", "FFFFFFFF55660000")),
]  # fmt: skip


# Whether data are a stream.
Judge = Callable[[bytes], bool]


class Wires(NamedTuple):
    """What wires did."""

    text: str  # as a sentence without its point
    remedy: str


def listed(bits: list[int]) -> str:
    """Bits as a text."""
    if len(bits) == 1:
        return f"bit {bits[0]}"
    return f"bits {', '.join(map(str, bits[:-1]))} and {bits[-1]}"


def verb(bits: list[int]) -> str:
    """What is said of one or more bits."""
    return "is" if len(bits) == 1 else "are"


def has_beginning(data: bytes, turn: bytes) -> bool:
    """Whether the known beginning, each byte turned by a table, stands in the first bytes of data."""
    return (LEAD + x7.SYNC).translate(turn) in data[:SEARCHED]


def table_of(keep: int, put: int) -> bytes:
    """The table of bytes of which some bits are kept, and others put in."""
    return bytes(byte & keep | put for byte in range(256))


def stuck(data: bytes) -> Wires | None:
    """Data lines that are the same in every byte, or none."""
    values = set(data)
    ones, zeros = 0, 255
    for value in values:
        ones, zeros = ones | value, zeros & value
    if len(values) < FEWEST_VALUES or (ones == 255 and not zeros) or not has_beginning(data, table_of(ones, zeros)):
        return None
    low = [bit for bit in range(8) if not ones >> bit & 1]
    high = [bit for bit in range(8) if zeros >> bit & 1]
    said = [f"{listed(it)} of each byte {verb(it)} always {to}" for it, to in ((low, 0), (high, 1)) if it]
    bits = sorted(low + high)
    lines = "a data line is stuck" if len(bits) == 1 else "data lines are stuck"
    if len(bits) == 2 and bits[1] - bits[0] == 4:
        lines = "a line of a bus of four is stuck"
    return Wires(f"{' and '.join(said)}: {lines}", "look at that line: a short, an open pin, another driver")


def joined(data: bytes) -> Wires | None:
    """Two data lines that carry the same bits in every byte, or none."""
    values = set(data)
    if len(values) < FEWEST_VALUES:
        return None
    for one, other in combinations(range(8), 2):
        if any((it >> one ^ it >> other) & 1 for it in values):
            continue
        both = 1 << one | 1 << other
        drives: tuple[Callable[[int], int], ...] = (
            lambda it: it >> one & it >> other & 1,
            lambda it: (it >> one | it >> other) & 1,
            lambda it: it >> one & 1,
            lambda it: it >> other & 1,
        )
        for drive in drives:
            table = bytes(byte & ~both | both * drive(byte) for byte in range(256))
            if has_beginning(data, table):
                text = (
                    f"bits {one} and {other} of each byte are always the same: two data lines are joined, or one is "
                    "read twice"
                )
                return Wires(text, "look at these two lines for a short")
    return None


# Four bytes that a sync word may have become after words FFFFFFFF.
AFTER_LEAD = re.compile(rb"\xff{8}([^\xff]{4})", re.S)


def swap_table(pairs: list[int]) -> bytes:
    """The table of bytes with bits exchanged, by pairs."""
    places = list(range(8))
    for one, other in zip(pairs[::2], pairs[1::2]):
        places[one], places[other] = places[other], places[one]
    return order_table(places)


def order_table(places: list[int]) -> bytes:
    """The table that puts bits back in their order: bit number n of a byte is the one that stands at `places[n]`."""
    return bytes(sum((byte >> place & 1) << bit for bit, place in enumerate(places)) for byte in range(256))


def sync_orders(four: bytes) -> list[list[int]]:
    """The orders of the eight bits that make a sync word of four bytes, the usual one among them where they are one;
    none of other bytes. The halves of each of its bytes are alike, so for each of four pairs two orders do."""
    first, second = four[0], four[1]
    if four[2] != first ^ 255 or four[3] != second ^ 255:
        return []
    # AA has bits 1 and 3 of a half byte, 99 bits 0 and 3
    masks = (~first & second, first & ~second, ~first & ~second & 255, first & second)
    pairs = [[bit for bit in range(8) if mask >> bit & 1] for mask in masks]
    if any(len(it) != 2 for it in pairs):
        return []
    found = []
    for turns in product((0, 1), repeat=4):
        found.append([pair[turn] for pair, turn in zip(pairs, turns)] + [pair[1 - turn] for pair, turn in zip(
            pairs, turns)])
    return found


def orders_of(data: bytes) -> Iterator[list[int]]:
    """The orders of data lines, but the usual one, in which data begin as a stream."""
    seen = set()
    for found in AFTER_LEAD.finditer(data[:SEARCHED]):
        for places in sync_orders(found[1]):
            if tuple(places) not in seen and places != sorted(places):
                seen.add(tuple(places))
                if begins_well(data[:JUDGED].translate(order_table(places))):
                    yield places


def begins_well(data: bytes) -> bool:
    """Whether data begin as a stream."""
    return x7kinds.is_stream(data[:JUDGED])


def exchanged(data: bytes, is_stream: Judge) -> Wires | None:
    """Data lines that are exchanged, two or more, or none. Where it isn't clear which, that is said."""
    orders = list(orders_of(data))
    sure = next((it for it in orders if is_stream(data.translate(order_table(it)))), None)
    if sure or len(orders) == 1 and x7.SYNC not in data[:SEARCHED]:
        return of_order(sure or orders[0])
    if not orders or x7.SYNC in data[:SEARCHED]:
        return None
    text = "data lines are exchanged; which is unknown, since the stream is damaged besides"
    return Wires(text, "compare the lines with the board's drawing, and take the file again")


def of_order(places: list[int]) -> Wires:
    """What is said of data lines in this order."""
    moved = [bit for bit in range(8) if places[bit] != bit]
    if all(places[places[bit]] == bit for bit in moved) and len(moved) == 2:
        return Wires(f"{listed(moved)} of each byte are exchanged: two data lines", "exchange these two lines")
    if all(places[bit + 4] == places[bit] + 4 for bit in range(4)):
        low = [bit for bit in moved if bit < 4]
        if len(low) == 2:
            lines = " and ".join(listed([bit + half for bit in low]) for half in (0, 4))
            return Wires(f"{lines} of each byte are exchanged: two lines of a bus of four", "exchange these two lines")
        text = f"lines {listed(low)[5:]} of a bus of four are exchanged: {ways(low, places, 'line')}"
        return Wires(text, "put these lines in their order")
    text = f"{listed(moved)} of each byte are exchanged: {ways(moved, places, 'bit')}: {len(moved)} data lines"
    return Wires(text, "put these lines in their order")


def ways(bits: list[int], places: list[int], what: str) -> str:
    """Where each of some bits stands."""
    return ", ".join(f"{what} {bit} comes as {what} {places[bit]}" for bit in bits)


def inverted(data: bytes) -> Wires | None:
    """Data lines that are inverted, one of eight or of four, or none."""
    for bits in [[bit] for bit in range(8)] + [[bit, bit + 4] for bit in range(4)]:
        mask = sum(1 << bit for bit in bits)
        table = bytes(byte ^ mask for byte in range(256))
        if has_beginning(data, table) and x7kinds.is_stream(data[:JUDGED].translate(table)):
            are = "is" if len(bits) == 1 else "are"
            return Wires(f"{listed(bits)} of each byte {are} inverted: a data line", "look at that line")
    return None


def half(data: bytes) -> Wires | None:
    """Every second byte, or halfword, of a stream, or none."""
    for what, patterns in HALVES:
        if any(bytes.fromhex(it) in data[:SEARCHED] for it in patterns):
            text = (
                f"every second {what} of a stream stands in it alone, as in one of two flashes, or where half of a bus "
                "is read"
            )
            return Wires(text, "read the other half too, and put both together")
    return None


def is_repeated(data: bytes, size: int) -> bool:
    """Whether each second block of this size repeats the one before; bytes of no whole pair don't count."""
    pairs = len(data) // (2 * size)
    if size <= 16:
        whole = data[: 2 * size * pairs]
        return all(whole[at :: 2 * size] == whole[at + size :: 2 * size] for at in range(size))
    return all(data[at : at + size] == data[at + size : at + 2 * size] for at in range(0, 2 * size * pairs, 2 * size))


def repeated(data: bytes) -> Wires | None:
    """Blocks each of which stands twice, in all of the data, or none."""
    size = 1
    while len(data) >= FEWEST_BYTES and 2 * size <= len(data):
        if is_repeated(data, size) and len(set(data)) >= FEWEST_VALUES:
            what = "byte" if size == 1 else f"block of {size} bytes"
            if 4 * size > len(data):
                return Wires(
                    f"the {size} bytes from offset {size} on repeat those before them", "give the first half alone",
                )
            text = (
                f"each {what} stands twice, as where an address line is stuck, and every second {what} may be missing"
            )
            return Wires(text, "look at that address line, or at how the file was read")
        size *= 2
    return None


def wires_of(data: bytes, is_stream: Judge = begins_well) -> Wires | None:
    """What wires did to a stream, or none; `is_stream` judges one in which exchanged lines were put back, since the
    beginning alone may not tell in which of two orders they are."""
    found = repeated(data) or stuck(data) or joined(data)
    return found or exchanged(data, is_stream) or inverted(data) or half(data)
