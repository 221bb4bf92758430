"""The rows and columns of a device, read off a stream that names its frames: a compressed one, which loads FAR before
nearly each of them, or a debug one, which writes the address of each to LOUT. python3 (3.8) and its library alone."""
from __future__ import annotations

from typing import Dict, Iterable, NamedTuple, Set, Tuple

import x7formats as x7
from x7asked import Asked
from x7partfile import MOST_MINORS, Row, fields_of_far
from x7parts import DEVICE_BITS, family_of, idcode_of_name
from x7run import CALLED, Refused, read_file, sign

NOT_COMPRESSED = (
    "the stream isn't compressed, and names no columns (write it with BITSTREAM.GENERAL.COMPRESS TRUE, or take the "
    "part.json of the open database)"
)
# Block type, half and row, by which the rows of a device are told apart.
Key = Tuple[int, int, int]
# The minors that a stream names of each column of each row.
Columns = Dict[Key, Dict[int, Set[int]]]


class Named(NamedTuple):
    """What a stream names of its device."""

    # the part in the header, as `7a35tcpg236`, or none without a header
    part: str | None
    # the IDCODE that it writes first
    idcode: int
    # the minors of each column of each row
    columns: Columns


class Rows(NamedTuple):
    """The rows of a device, in the order of their addresses."""

    rows: list[Row]
    # the columns of a row of which minors, or all, aren't named, each with what isn't
    guesses: dict[Key, list[str]]


def stream_in(path: str) -> x7.Stream:
    """The stream in a file, or the one of a listing."""
    raw = read_file(path)
    found: x7.Stream = x7.read_listing(path) if x7.is_listing(raw) else x7.stream_named(path, raw)
    return found


def check_stream(path: str, stream: x7.Stream) -> None:
    """Refuses a stream that isn't whole, or is another family's by its header; warns of another family's IDCODE, and
    where there is no check."""
    part = x7.text_of(stream.header.part) if stream.header else ""
    family = family_of(part)
    if family:
        why = f"by its header it is for the part {part}, of the family {family}, and for no 7-series device"
        raise Refused(f"{path}: {why}")
    asked = Asked(stream)
    if asked.why_not_whole():
        raise Refused(f"{path}: {asked.why_not_whole()} ({CALLED}why says more)")
    if "IPROG" in asked.commands:
        raise Refused(f"{path} leads on to another place of a flash (IPROG), and its frames aren't all there")
    if asked.why_foreign():
        sign(
            f"warning: {asked.why_foreign()}: other families have other frames and addresses, and what is played "
            "on this part says nothing of the device"
        )
    if not asked.device.checked:
        sign(f"warning: {path} has no check, so nothing says that it is whole")


class FrameRuns:
    """The frames that the packets of a stream name, as runs of addresses within a column."""

    def __init__(self) -> None:
        # the IDCODE that is written first, or none
        self.idcode: int | None = None
        # each run that is named: its first address, and how many frames follow one another from there
        self.runs: list[tuple[int, int]] = []
        # FAR where no frame was written since it was loaded
        self.far: int | None = None
        # how many writes of frame data there were for which nothing named an address
        self.nameless = 0
        # whether frame data came since LOUT was written
        self.has_data = False

    def take(self, data: bytes, step: x7.Step) -> None:
        """Takes a write of a register, of a word at least."""
        if step.register == x7.FAR:
            self.far = x7.payload(data, step)[-1]
        elif step.register == x7.IDCODE and self.idcode is None:
            self.idcode = x7.word_at(data, step.first)
        elif step.register == x7.FDRI:
            self.nameless += bool(self.runs) and self.far is None
            # the last frame of a run only pushes the one before into its place
            self.frames(max(step.present // x7.FRAME_WORDS - 1, 1))
            self.has_data = True
        elif step.register == x7.MFWR:
            self.frames(1)
        elif step.register == x7.LOUT and self.has_data:
            # a debug stream writes the address of each frame there, after it
            self.runs.append((x7.word_at(data, step.first), 1))
            self.nameless, self.has_data = max(self.nameless - 1, 0), False

    def frames(self, count: int) -> None:
        """Takes frames from FAR on; the first copy (MFWR) goes to where the frame before it went, and loads no FAR."""
        if self.far is not None:
            self.runs.append((self.far, count))
        self.far = None


def runs_of(data: bytes) -> FrameRuns:
    """The runs of frames that the data of a stream name."""
    found = FrameRuns()
    for step in x7.steps(data):
        if step.kind == "write" and step.present:
            found.take(data, step)
    if found.nameless:
        raise Refused(
            "runs of frame data follow one another, and neither FAR nor LOUT (as in a debug stream) names their address"
        )
    return found


def columns_of(runs: Iterable[tuple[int, int]]) -> Columns:
    """The minors that are named, by row and column."""
    rows: Columns = {}
    for far, count in runs:
        block, half, row, column, minor = fields_of_far(far)
        if minor + count > MOST_MINORS:
            raise Refused(f"a run of {count} frames from {far:08X} crosses columns: {NOT_COMPRESSED}")
        minors = rows.setdefault((block, half, row), {}).setdefault(column, set())
        minors.update(range(minor, minor + count))
    return rows


def named_by(path: str) -> Named:
    """What the stream of a file names. One that isn't whole, or names no columns, is refused."""
    stream = stream_in(path)
    check_stream(path, stream)
    found = runs_of(stream.data)
    if found.idcode is None or not found.runs:
        raise Refused(
            f"{path} writes no IDCODE, or no frames: it is no stream of a 7-series device (one of words of 16 bits "
            "isn't)"
        )
    if len(found.runs) == 1:
        raise Refused(f"{path}: all frames stand in one run: {NOT_COMPRESSED}")
    part = x7.text_of(stream.header.part) if stream.header else None
    if part and idcode_of_name(part) not in (None, found.idcode & DEVICE_BITS):
        raise Refused(
            f"{path}: its header names a {part}, and it writes {found.idcode:08X}, the IDCODE of another device "
            f"({CALLED}why says more)",
        )
    return Named(part, found.idcode, columns_of(found.runs))


def unnamed(columns: dict[int, set[int]]) -> list[str]:
    """The columns of a row of which a minor, or all, aren't named, each with what isn't."""
    found = []
    for column in range(max(columns) + 1):
        named = columns.get(column, set())
        missing = sorted(set(range(max(named, default=0) + 1)) - named)
        if missing:
            found.append(f"{column} (minors {', '.join(map(str, missing))})")
    return found


def rows_of(columns: Columns) -> Rows:
    """The rows of the columns that are named: up to the last column of a row, and the last minor of a column."""
    rows, guesses = [], {}
    for key, row in sorted(columns.items()):
        rows.append(Row(*key, [max(row.get(column, {0})) + 1 for column in range(max(row) + 1)]))
        if unnamed(row):
            guesses[key] = unnamed(row)
    return Rows(rows, guesses)


def merged(several: Iterable[Columns]) -> Columns:
    """What several streams of one device name together."""
    found: Columns = {}
    for columns in several:
        for key, row in columns.items():
            for column, minors in row.items():
                found.setdefault(key, {}).setdefault(column, set()).update(minors)
    return found


def word_count(rows: list[Row]) -> int:
    """The words of frame data in an uncompressed stream: those of all frames, and of two pads after each row."""
    total = sum(sum(row.minors) for row in rows) + 2 * len(rows)
    return total * x7.FRAME_WORDS


def found_line(rows: list[Row]) -> str:
    """What was found as a line."""
    total = sum(sum(row.minors) for row in rows)
    return f"{len(rows)} rows, {total} frames; an uncompressed stream of the device has `write2 {word_count(rows)}`"


def part_text(head: list[str], name: str, idcode: int, found: Rows) -> str:
    """The text of a part file, with these lines on top."""
    lines = [*head, f'name = "{name}"', f"idcode = 0x{idcode:08X}", ""]
    for row in found.rows:
        guesses = found.guesses.get((row.block, row.half, row.row))
        lines += [f"# not named in the stream, so a guess: columns {'; '.join(guesses)}"] if guesses else []
        lines += ["[[row]]", f"block = {row.block}", f"half = {row.half}", f"row = {row.row}"]
        lines += [f"minors = [{', '.join(map(str, row.minors))}]", ""]
    return "\n".join([*lines, f"# {found_line(found.rows)}", ""])
