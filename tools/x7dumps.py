"""The bytes of a dump: of what `xxd`, `hexdump`, `od` and the like write of a file as text, and of words as hexadecimal
digits. python3 (3.8) and its library alone.

`is_dump(raw)` says by the first lines whether a file is one, and `bytes_of_dump(raw)` gives the bytes that it shows. A
row has a label or none (the place of its first byte, with or without a colon), groups of digits, and a column of
characters or none. The size of the first group, the labels' steps and the characters tell how the digits are read:

    xxd, xxd -gN, xxd -u     colon, groups of any size with the highest byte first
    xxd -e, U-Boot's md      colon, groups with the lowest byte first, as the column of characters shows
    xxd -b                   colon, eight digits 0 and 1 for each byte
    hexdump -C, od -tx1      groups of one byte
    hexdump, od -tx2, -tx4   label without a colon, groups with the lowest byte first
    od, od -b                six octal digits for two bytes with the lowest first, three for one
    xxd -p, words            no label, groups with the highest byte first

A row `*` stands for rows that equal the one before, up to the next label. Labels of rows that follow one another tell
whether they count by 16, 8 or 10; where no two do, they are taken as `hexdump` or `od -tx1` writes them. All of this is
this project's choice, after what these programs write.
"""
from __future__ import annotations

import re
from typing import Iterator, NamedTuple, Sequence

from x7run import Refused

# the most bytes of a dump: of the largest flash that x7 takes
MOST_BYTES = 1 << 27
# how many bytes, and how many lines of them, tell whether a file is a dump
JUDGED_BYTES, JUDGED_LINES = 4096, 3
# the fewest digits of a first line without a label
FEWEST_DIGITS = 8
# the most bytes of a row with characters: `xxd -c 256`
MOST_A_ROW = 256

COLON = re.compile(r"(?:0[xX])?([0-9A-Fa-f]{1,16}):[ \t]*")
PLAIN = re.compile(r"[0-9A-Fa-f]+(?:[ \t]+[0-9A-Fa-f]+)*")
GROUPS = re.compile(r"[0-9A-Fa-f]+(?: [0-9A-Fa-f]+)*")
# the column of characters of `hexdump -C` and of `od -tx1z`
FRAMED = re.compile(r"[ \t]+(?:\|(.*)\||>(.*)<)$")
BINARY = re.compile(r"[01]{8}")


class Kind(NamedTuple):
    """How a group of digits stands for bytes."""

    base: int  # of its digits: 2, 8 or 16
    size: int  # in bytes; 0 where groups are of any size


class Row(NamedTuple):
    """A line of a dump."""

    number: int  # of the line, from 1
    label: str | None  # the digits of the place of its first byte, or none
    groups: list[str]  # of digits, with the column of characters cut off
    characters: str  # the column of characters, or empty
    has_colon: bool  # whether one stands after the label

    def is_star(self) -> bool:
        """Whether it stands for rows that equal the one before."""
        return self.groups == ["*"]


HEX_OF_ANY_SIZE = Kind(16, 0)
# groups by how many digits they have, beside those of two hexadecimal digits a byte
OCTAL = {3: Kind(8, 1), 6: Kind(8, 2)}
BITS = Kind(2, 1)


def after_colon(number: int, label: str, body: str, is_bits: bool) -> Row | None:
    """The row of a label, a colon and this body, or none: its groups stand one blank apart, and more blanks before as
    many characters as there are bytes. Only where a group lacks digits do more blanks stand before it, in the last row
    of `xxd -e`."""
    body = body.rstrip("\r")
    groups = GROUPS.match(body)
    if not groups:
        return None
    digits, rest = groups[0], body[groups.end() :]
    count = len(digits.replace(" ", "")) // (8 if is_bits else 2)
    if len(rest.strip()) <= count and (not rest or rest[0] in " \t"):
        return Row(number, label, digits.split(), rest[-count:] if len(rest) >= count + 2 else "", True)
    for count in range(1, min(len(body) // 3, MOST_A_ROW) + 1):
        digits, rest = body[:-count], body[-count:]
        if digits.endswith("  ") and PLAIN.fullmatch(digits.strip()) and len("".join(digits.split())) == 2 * count:
            return Row(number, label, digits.split(), rest, True)
    return None


def row_of(number: int, line: str, is_bits: bool) -> Row | None:
    """The row of a line, its label among the groups where no colon stands after it, or none."""
    if line.strip() == "*":
        return Row(number, None, ["*"], "", False)
    colon = COLON.match(line)
    if colon:
        return after_colon(number, colon[1], line[colon.end() :], is_bits)
    line = line.strip()
    framed = FRAMED.search(line)
    digits = line[: framed.start()] if framed else line
    characters = (framed[1] or framed[2] or "") if framed else ""
    return Row(number, None, digits.split(), characters, False) if PLAIN.fullmatch(digits) else None


def has_bits(lines: Sequence[str]) -> bool:
    """Whether lines are of `xxd -b`: eight digits 0 and 1 a group, which the labels or the characters count."""
    rows = [row_of(1, line, True) for line in lines[:2]]
    first, second = rows[0], rows[1] if len(rows) > 1 else None
    if first is None or first.label is None or not all(BINARY.fullmatch(it) for it in first.groups):
        return False
    count = len(first.groups)
    if second is None or second.label is None:
        return len(first.characters) == count
    return int(second.label, 16) - int(first.label, 16) == count


def rows_of(lines: Sequence[str]) -> Iterator[Row]:
    """The rows of lines, of which empty ones mean nothing; a line that is no row is refused."""
    is_bits = has_bits([line for line in lines[:JUDGED_LINES] if line.strip()])
    for number, line in enumerate(lines, 1):
        if line.strip():
            row = row_of(number, line, is_bits)
            if row is None:
                raise Refused(f"line {number} of the dump isn't like those before: '{line.strip()[:40]}'")
            yield row


def with_labels(rows: list[Row]) -> list[Row]:
    """The rows with the first group as label, where no colon says which is: where it has another size than the second
    one, or counts the bytes of the rows."""
    first = rows[0]
    if first.has_colon or len(first.groups) < 2:
        return rows
    sizes = [len(it) for it in first.groups]
    labelled = [row if row.is_star() else row._replace(label=row.groups[0], groups=row.groups[1:]) for row in rows]
    if sizes[0] != sizes[1]:
        return labelled if sizes[0] > sizes[1] or sizes[0] >= 6 else rows
    return labelled if len(rows) > 1 and not faults(labelled[:2], HEX_OF_ANY_SIZE, 16) else rows


def kind_of(rows: list[Row]) -> Kind:
    """How the groups of rows stand for bytes, by those of the first row."""
    first = rows[0]
    digits = len(first.groups[0])
    if first.has_colon and has_bits([f"{row.label}: {' '.join(row.groups)}  {row.characters}" for row in rows[:2]]):
        return BITS
    if first.label is not None and not first.has_colon and digits in OCTAL:
        return OCTAL[digits]
    return Kind(16, digits // 2) if first.label is not None else HEX_OF_ANY_SIZE


def bases_of(rows: list[Row], kind: Kind) -> list[int]:
    """The bases in which labels may count, the likeliest first: `od` counts by eight in seven digits."""
    is_of_od = not rows[0].has_colon and len(rows[0].label or "") == 7 and (kind.size == 1 or kind.base == 8)
    return [8, 16, 10] if is_of_od else [16, 8, 10]


def count_of(row: Row, kind: Kind) -> int:
    """How many bytes a row's groups stand for."""
    return len(row.groups) * kind.size if kind.base != 16 else sum(len(it) for it in row.groups) // 2


def faults(rows: list[Row], kind: Kind, base: int) -> str:
    """Why the labels of rows don't count their bytes by this base, or nothing."""
    place, count, is_open = -1, 0, False
    for row in rows:
        if row.is_star():
            is_open = True
            continue
        try:
            at = int(row.label or "", base)
        except ValueError:
            return f"line {row.number} of the dump has no place such as those before"
        is_next = at > place and (at - place) % max(count, 1) == 0 if is_open else at == place
        # the last group of a dump of words may be filled up, past the end that the last line tells
        is_filled = not row.groups and not is_open and place - max(kind.size, 1) < at < place
        if place >= 0 and not is_next and not is_filled:
            where = f"line {row.number} of the dump begins at {at}, and the rows before it end at {place}"
            return f"{where}: lines were lost, or added"
        count, is_open = count_of(row, kind), False
        place = at + count
    return "the dump ends with a row `*`, and no place after it" if is_open else ""


def is_lowest_first(rows: list[Row], kind: Kind) -> bool:
    """Whether the lowest byte of a group stands first in the file: by the first column of characters that tells, else
    by the form of the dump."""
    if kind.size < 2:
        return False
    for row in rows:
        if row.characters and not row.is_star() and len(row.characters) == count_of(row, kind):
            agree = [shows(row.characters, bytes_of(row, kind, is_turned)) for is_turned in (False, True)]
            if agree[0] != agree[1]:
                return agree[1]
    return not rows[0].has_colon


def shows(characters: str, data: bytes) -> bool:
    """Whether a column of characters shows these bytes, with a point for what can't be shown."""
    return all(it == "." or ord(it) == byte for it, byte in zip(characters, data))


def bytes_of(row: Row, kind: Kind, is_turned: bool) -> bytes:
    """The bytes of a row's groups, the highest byte of each first, or the lowest."""
    groups = row.groups
    if kind == BITS:
        return int("".join(groups), 2).to_bytes(len(groups), "big")
    if kind.base != 16:
        groups = [f"{int(it, kind.base):0{2 * kind.size}x}" for it in groups]
    if not is_turned:
        return bytes.fromhex("".join(groups))
    return bytes.fromhex("".join(reversed(groups)))[::-1]


def data_of(rows: list[Row], kind: Kind, base: int) -> bytes:
    """The bytes of rows whose labels count them by this base."""
    is_turned, data, last, is_open = is_lowest_first(rows, kind), bytearray(), b"", False
    begin = int(rows[0].label or "0", base)
    for row in rows:
        if row.is_star():
            is_open = True
            continue
        if row.label is not None:
            place = int(row.label, base) - begin
            if place > MOST_BYTES:
                raise Refused(f"line {row.number} of the dump is past {MOST_BYTES} bytes, which no flash has")
            missing = place - len(data)
            data += (last * (missing // len(last) + 1))[:missing] if is_open and last else b""
            del data[place:]
        last, is_open = bytes_of(row, kind, is_turned), False
        data += last
    return bytes(data)


def refuse_groups(rows: list[Row], kind: Kind) -> None:
    """Refuses the first row with a group that stands for no bytes."""
    size = len(rows[0].groups[0])
    whole = re.compile({2: "[01]{8}", 8: f"[0-7]{{{size}}}", 16: "(?:[0-9A-Fa-f]{2})+"}[kind.base])
    for row in rows:
        wrong = [it for it in row.groups if not row.is_star() and not whole.fullmatch(it)]
        if wrong:
            raise Refused(f"line {row.number} of the dump has '{wrong[0][:40]}', which stands for no bytes")


def read_rows(lines: Sequence[str]) -> bytes:
    """The bytes of the lines of a dump."""
    rows = with_labels(list(rows_of(lines)))
    kind = kind_of(rows)
    refuse_groups(rows, kind)
    if rows[0].label is None:
        star = next((row for row in rows if row.is_star()), None)
        if star:
            where = f"line {star.number} of the dump is `*`, and no place tells how many rows it stands for"
            raise Refused(f"{where}: make it anew with -v")
        return data_of(rows, kind, 16)
    bases = bases_of(rows, kind)
    found = [faults(rows, kind, base) for base in bases]
    if all(found):
        raise Refused(found[0])
    return data_of(rows, kind, bases[found.index("")])


def lines_of(raw: bytes) -> list[str]:
    """The lines of a text, without a byte order mark."""
    raw = raw[3:] if raw.startswith(b"\xef\xbb\xbf") else raw
    return [line.rstrip("\r") for line in raw.decode("ascii", "replace").split("\n")]


def first_lines(raw: bytes) -> list[str]:
    """The lines that tell whether a file is a dump: none that is cut, or the first one up to a whole group or byte."""
    lines = [line for line in lines_of(raw[:JUDGED_BYTES]) if line.strip()]
    if len(raw) <= JUDGED_BYTES or not lines:
        return lines[:JUDGED_LINES]
    if len(lines) > 1:
        return lines[:-1][:JUDGED_LINES]
    blank = lines[0].rfind(" ")
    return [lines[0][:blank] if blank > 0 else lines[0][: len(lines[0]) // 2 * 2]]


def is_dump(raw: bytes) -> bool:
    """Whether a file of these first bytes is a dump, by its first lines. Lines of 32 digits 0 and 1 are none."""
    judged = first_lines(raw)
    if not judged or all(re.fullmatch(r"[01]{32}", line.strip()) for line in judged):
        return False
    try:
        rows = list(rows_of(judged))
        first = with_labels(rows)[0]
        is_long = first.label is not None or sum(map(len, first.groups)) >= FEWEST_DIGITS
        return is_long and not first.is_star() and bool(read_rows(lines_to_label(judged)))
    except Refused:
        return False


def lines_to_label(lines: list[str]) -> list[str]:
    """Lines without the rows `*` at their end, which the lines after them decide."""
    while lines and lines[-1].strip() == "*":
        lines = lines[:-1]
    return lines


def bytes_of_dump(raw: bytes) -> bytes | None:
    """The bytes that a dump shows, or none where a file is no dump. A dump that is damaged is refused with its line."""
    return read_rows(lines_of(raw)) if is_dump(raw) else None
