"""Part files (docs/PARTS.md, what a part file says): their reader, what x7 refuses of them, and a part with its frame
addresses and slots. python3 (3.8) and its library alone."""
from __future__ import annotations

import re
from typing import Any, Dict, NamedTuple, Sequence

from x7formats import FRAME_WORDS
from x7run import Refused, read_file

TOKEN = re.compile(r"""(?:\s|\#[^\n]*)*("(?:[^"\\\n]|\\.)*"|'[^'\n]*'|\[\[|\]\]|[\[\]{},=]|[A-Za-z0-9_+.\-]+|\Z)""")
ROW_KEYS = {"block": (0, 2), "half": (0, 1), "row": (0, 31)}
PART_KEYS = {"idcode": (1, 0xFFFFFFFF), "mode": (0, 7), "bus_width": (0, 3), "lock": (0, 65535), "match": (0, 65535)}
# The bits of minor, column, row, half and block type in FAR of every 7-series device (UG470, frame address register),
# and how few and how many x7 takes.
FAR_BITS = [7, 10, 5, 1, 3]
FAR_WIDTHS = [(7, 12), (10, 12), (5, 8), (1, 1), (2, 3)]
MOST_FRAMES, MOST_WORDS, MOST_MINORS, MOST_COLUMNS, MOST_ROWS = 131072, 13277056, 128, 1024, 192
# The keys of a part file, or of one of its rows, with their values.
Table = Dict[str, Any]


class Row(NamedTuple):
    """A row of one block type of a device."""

    # the block type: 0 logic and interconnect, 1 contents of block memory, 2 CFG_CLB
    block: int
    # the half: 0 top, 1 bottom
    half: int
    # its number, from the middle of the device outwards
    row: int
    # how many frames each column has, from column 0 on
    minors: list[int]


class Toml:
    """A reader of the TOML that part files use: keys, whole numbers, texts, lists, and tables `[[row]]`."""

    def __init__(self, text: str) -> None:
        # the whole text
        self.text = text
        # where its next token begins
        self.at = 0
        # the present one
        self.token = ""
        self.next()

    def next(self) -> str:
        """Moves to the next token, and gives the one that was present."""
        taken, found = self.token, TOKEN.match(self.text, self.at)
        if not found:
            raise Refused(f"line {self.line()} is no TOML that a part file has")
        self.token, self.at = found[1], found.end()
        return taken

    def line(self) -> int:
        """The number of the line that the next token stands on, from 1."""
        return self.text.count("\n", 0, self.at) + 1

    def want(self, token: str) -> None:
        """Takes this token, or refuses the text."""
        if self.next() != token:
            raise Refused(f"line {self.line()} lacks '{token}', or has it elsewhere")

    def value(self) -> Any:
        """Takes a value: a text, a list, a table or a number."""
        token = self.next()
        if token[:1] in ("'", '"') and token:
            return token[1:-1]
        if token == "[":
            return self.several("]")
        if token == "{":
            pairs = self.several("}")
            return dict(pairs)
        try:
            return int(token, 0)
        except ValueError:
            raise Refused(f"'{token}' is no value that a part file has") from None

    def several(self, end: str) -> list[Any]:
        """The values up to a bracket, or the pairs up to a brace."""
        found: list[Any] = []
        while self.token != end:
            found.append(self.pair() if end == "}" else self.value())
            if self.token != end:
                self.want(",")
        self.next()
        return found

    def pair(self) -> tuple[str, Any]:
        """Takes a key and its value."""
        key = self.next()
        self.want("=")
        return key, self.value()

    def tables(self) -> Table:
        """The pairs of the top, with those of each `[[row]]` in a list."""
        top: Table = {}
        table = top
        while self.token:
            if self.token == "[[":
                self.next()
                if self.next() != "row" or self.next() != "]]":
                    raise Refused("a part file has no other tables than [[row]]")
                table = {}
                top.setdefault("row", []).append(table)
                continue
            key, value = self.pair()
            if key in table:
                raise Refused(f"the key {key} stands twice")
            table[key] = value
        return top


class FarFields(NamedTuple):
    """The fields of a frame address, from its highest bits on."""

    # the block type
    block: int
    half: int
    row: int
    column: int
    minor: int


def fields_of_far(far: int, bits: Sequence[int] = FAR_BITS) -> FarFields:
    """The fields of a frame address."""
    found = []
    for width in bits:
        found.append(far & (1 << width) - 1)
        far >>= width
    minor, column, row, half, block = found
    return FarFields(block, half, row, column, minor)


class Part:
    """A part, of the keys of its file."""

    def __init__(self, table: Table) -> None:
        # the name in reports
        self.name: str = table["name"]
        # the IDCODE, its version in bits 31:28
        self.idcode: int = table["idcode"]
        # the mode pins M2 M1 M0, as STAT shows them
        self.mode: int = table.get("mode", 0)
        # the code of the bus width in STAT: 0 x1, 1 x8, 2 x16, 3 x32
        self.bus_width: int = table.get("bus_width", 0)
        # ticks of four bytes until the clocks are locked
        self.lock: int = table.get("lock", 0)
        # ticks until the impedance is matched
        self.match: int = table.get("match", 0)
        # words of a frame
        self.frame_words: int = table.get("frame_words", FRAME_WORDS)
        # bytes that one step of the address in WBSTAR stands for: 1 or 256
        self.start_unit: int = table.get("start_unit", 1)
        # bits of minor, column, row, half and block type in FAR
        self.far: list[int] = table.get("far", FAR_BITS)
        # the rows in the order of their addresses
        self.rows = sorted(Row(it["block"], it["half"], it["row"], it["minors"]) for it in table["row"])

    def address(self, fields: FarFields) -> int:
        """The frame address with this block type, half, row, column and minor."""
        block, half, row, column, minor = fields
        low = self.far
        return (((block << low[3] | half) << low[2] | row) << low[1] | column) << low[0] | minor

    def fields(self, far: int) -> FarFields:
        """The fields of a frame address of the part."""
        return fields_of_far(far, self.far)

    def row_addresses(self, row: Row) -> list[int]:
        """The addresses of a row, in number order."""
        places = ((column, minor) for column, minors in enumerate(row.minors) for minor in range(minors))
        return [self.address(FarFields(row.block, row.half, row.row, column, minor)) for column, minor in places]

    def addresses(self) -> list[int]:
        """All addresses, in number order."""
        return [far for row in self.rows for far in self.row_addresses(row)]

    def slots(self) -> list[int | None]:
        """The slots in the order of writing: an address, or none at the two pads after each row."""
        return [it for row in self.rows for it in [*self.row_addresses(row), None, None]]


def check_number(table: Table, key: str, least: int, most: int, where: str = "") -> None:
    """Refuses a value that is no whole number of a range."""
    if key not in table:
        raise Refused(f"the key {key}{where} is missing")
    if isinstance(table[key], bool) or not isinstance(table[key], int) or not least <= table[key] <= most:
        raise Refused(f"{key}{where} is {str(table[key])[:40]!r}, and no whole number from {least} to {most}")


def check_list(values: Any, count: tuple[int, int], least: int, most: int, what: str) -> None:
    """Refuses what is no list of `count[0]` to `count[1]` whole numbers of a range."""
    if not isinstance(values, list) or not count[0] <= len(values) <= count[1]:
        raise Refused(f"{what} is no list of {count[0]} to {count[1]} whole numbers")
    for value in values:
        if isinstance(value, bool) or not isinstance(value, int) or not least <= value <= most:
            raise Refused(f"{what} has {str(value)[:40]!r}, and no whole number from {least} to {most}")


def check_part(table: Table) -> None:
    """Refuses a part that x7 refuses."""
    name = table.get("name")
    if not isinstance(name, str) or not re.fullmatch("[!-~]{1,64}", name):
        raise Refused("name is missing, or no text of 1 to 64 letters without blanks")
    for key, (least, most) in PART_KEYS.items():
        if key == "idcode" or key in table:
            check_number(table, key, least, most)
    if table["idcode"] % 2 == 0:
        raise Refused("idcode is even, and an IDCODE is odd")
    if "frame_words" in table:
        check_number(table, "frame_words", 2, 255)
    if table.get("start_unit", 1) not in (1, 256):
        raise Refused("start_unit is neither 1 nor 256")
    if "far" in table:
        check_list(table["far"], (5, 5), 1, 12, "far")
        are_taken = all(least <= it <= most for it, (least, most) in zip(table["far"], FAR_WIDTHS))
        if sum(table["far"]) > 32 or not are_taken:
            raise Refused("far has a width that x7 doesn't take, or more than 32 bits in all")
    unknown = set(table) - {*PART_KEYS, "name", "far", "frame_words", "start_unit", "row"}
    if unknown:
        raise Refused(f"the key {min(unknown)} is none that a part file has")
    check_rows(table.get("row"), table.get("frame_words", FRAME_WORDS))


def check_rows(given: Any, frame_words: int) -> None:
    """Refuses rows that x7 refuses."""
    are_tables = isinstance(given, list) and all(isinstance(row, dict) for row in given)
    if not are_tables or not 1 <= len(given) <= MOST_ROWS:
        raise Refused(f"there are none, or more than {MOST_ROWS}, tables [[row]]")
    seen, frames = set(), 0
    for number, row in enumerate(given, 1):
        where = f" in row {number}"
        for key, (least, most) in ROW_KEYS.items():
            check_number(row, key, least, most, where)
        check_list(row.get("minors"), (1, MOST_COLUMNS), 1, MOST_MINORS, f"minors{where}")
        if set(row) - {*ROW_KEYS, "minors"}:
            raise Refused(f"the key {min(set(row) - {*ROW_KEYS, 'minors'})}{where} is none that a row has")
        place = (row["block"], row["half"], row["row"])
        if place in seen:
            raise Refused(f"row {number} has the block type, half and row of an earlier one")
        seen.add(place)
        frames += sum(row["minors"])
    if frames > MOST_FRAMES:
        raise Refused(f"there are {frames} frames, and x7 takes {MOST_FRAMES} at most")
    if (frames + 2 * len(given)) * frame_words > MOST_WORDS:
        raise Refused(f"frames and pads have more than {MOST_WORDS} words")


def is_part_text(raw: bytes) -> bool:
    """Whether a file that begins with these bytes seems to be a part file: a line of it gives a name or an IDCODE."""
    return bool(re.search(rb"(?m)^(name|idcode)[ \t]*=", raw[:4096]))


def part_of(text: str) -> Part:
    """The part that the text of a part file says."""
    table = Toml(text).tables()
    check_part(table)
    return Part(table)


def read_part(path: str) -> Part:
    """The part that a part file says."""
    try:
        return part_of(read_file(path).decode("utf-8"))
    except UnicodeDecodeError:
        raise Refused(f"{path} is no part file: it isn't UTF-8") from None
    except Refused as refused:
        if str(refused).startswith(f"{path}: "):
            raise
        raise Refused(f"{path} is no part file that x7 takes: {refused}") from None
