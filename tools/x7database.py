"""The part.json and part.yaml of the open database of the 7 series (Project X-Ray): the rows and the IDCODE of a
device. python3 (3.8) and its library alone."""
from __future__ import annotations

import json
import re
from collections import defaultdict
from typing import Any

from x7partfile import Row
from x7run import Refused

# Block types and halves by the names that the database has for them.
BLOCKS = {"CLB_IO_CLK": 0, "BLOCK_RAM": 1, "CFG_CLB": 2}
HALVES = {"top": 0, "bottom": 1}
# How one of these files begins.
BEGINNING = re.compile(rb"\s*(\{|---|!<|idcode:|global_clock_regions:|configuration_ranges:|iobanks:|#)")


def is_database(raw: bytes) -> bool:
    """Whether the bytes of a file begin as one of the database."""
    return BEGINNING.match(raw) is not None


def value_of(text: str) -> int | str:
    """A number or a text of YAML."""
    text = text.strip().strip("'\"")
    try:
        return int(text, 0)
    except ValueError:
        return text


def yaml_of(text: str) -> Any:
    """Nested keys and lists of a YAML text, without its tags: as much as the database's files have."""
    lines: list[tuple[int, str]] = []
    for line in text.splitlines():
        line = re.sub(r"!<[^>]*>|!\S+", "", line).rstrip()
        if line.strip() and line.strip() != "---" and not line.lstrip().startswith("#"):
            lines.append((len(line) - len(line.lstrip()), line.strip()))
    found, at = block_of(lines, 0, lines[0][0] if lines else 0)
    if at != len(lines):
        raise ValueError("indentation")
    return found


def block_of(lines: list[tuple[int, str]], at: int, depth: int) -> tuple[Any, int]:
    """The value of the lines of one depth, and the line after them."""
    found: Any = None
    while at < len(lines) and lines[at][0] == depth:
        text = lines[at][1]
        if text == "-" or text.startswith("- "):
            found = found if found is not None else []
            inner = text[1:].strip()
            if inner:
                # a list's element begins on the line of its dash
                lines[at] = (depth + 2, inner)
                value, at = block_of(lines, at, depth + 2)
            else:
                value, at = block_of(lines, at + 1, lines[at + 1][0])
            found.append(value)
            continue
        found = found if found is not None else {}
        key, colon, rest = text.partition(":")
        if not colon:
            raise ValueError(text)
        if rest.strip():
            found[str(value_of(key))], at = value_of(rest), at + 1
        elif has_block(lines, at, depth):
            found[str(value_of(key))], at = block_of(lines, at + 1, lines[at + 1][0])
        else:
            found[str(value_of(key))], at = {}, at + 1
    return found, at


def has_block(lines: list[tuple[int, str]], at: int, depth: int) -> bool:
    """Whether a block belongs to the key on a line: lines that stand deeper, or a list at the same depth."""
    if at + 1 >= len(lines):
        return False
    next_depth, text = lines[at + 1]
    return next_depth > depth or next_depth == depth and text.startswith("-")


def rows_of_regions(regions: Any) -> list[Row]:
    """The rows of `global_clock_regions`: halves, rows, buses, and columns with their number of frames."""
    rows = []
    for half, region in regions.items():
        for row, buses in region["rows"].items():
            for bus, columns in buses["configuration_buses"].items():
                counts = {int(column): it["frame_count"] for column, it in columns["configuration_columns"].items()}
                if sorted(counts) != list(range(len(counts))):
                    raise Refused(f"the {half} row {row} lacks a column of {bus}")
                rows.append(Row(BLOCKS[bus], HALVES[half], int(row), [counts[column] for column in range(len(counts))]))
    return rows


def rows_of_ranges(ranges: Any) -> list[Row]:
    """The rows of `configuration_ranges`: each from an address up to before another one of its column."""
    columns: dict[tuple[int, int, int], dict[int, int]] = defaultdict(dict)
    for it in ranges:
        begin, end = it["begin"], it["end"]
        key = (BLOCKS[begin["block_type"]], HALVES[begin["row_half"]], int(begin["row"]))
        same = all(begin[name] == end[name] for name in ("block_type", "row_half", "row", "column"))
        count = int(end["minor"]) - int(begin["minor"]) if same else None
        if count is None or count <= 0 or int(begin["minor"]) != 0:
            raise Refused(f"a range of {begin['block_type']}, {begin['row_half']} row {begin['row']}, isn't one column")
        columns[key][int(begin["column"])] = count
    for key, counts in columns.items():
        if sorted(counts) != list(range(len(counts))):
            raise Refused(f"row {key} lacks a column")
    return [Row(*key, [counts[column] for column in range(len(counts))]) for key, counts in columns.items()]


def rows_of_database(path: str, raw: bytes) -> tuple[list[Row], Any]:
    """The rows and the IDCODE of a part.json or part.yaml, as it has them; a file that isn't one is refused."""
    is_none = f"{path} is no part.json or part.yaml of the open database"
    try:
        text = raw.decode("utf-8")
        table = json.loads(text) if text.lstrip().startswith("{") else yaml_of(text)
        regions, ranges = table.get("global_clock_regions"), table.get("configuration_ranges")
        if not regions and not ranges:
            raise Refused("it has neither global_clock_regions nor configuration_ranges")
        rows = rows_of_regions(regions) if regions else rows_of_ranges(ranges)
        return sorted(rows), value_of(str(table["idcode"]))
    except Refused as refused:
        raise Refused(f"{is_none}: {refused}") from None
    except (ValueError, KeyError, AttributeError, TypeError, IndexError, RecursionError) as error:
        raise Refused(f"{is_none}: {type(error).__name__} {error}"[:200]) from None
