"""The worked cases of crates/x7_cases, as far as the tools are tested against them: its README has the format."""
from __future__ import annotations

import glob
import os
import re
import sys
from typing import Callable, Iterator, NoReturn, Sequence

HERE = os.path.dirname(os.path.realpath(__file__))
TOOLS = os.path.dirname(HERE)
TOP = os.path.dirname(TOOLS)
DATA = os.path.join(TOP, "crates", "x7_cases", "data")
sys.path.insert(0, TOOLS)

from x7formats import FIXED  # noqa: E402


def tool_names() -> list[str]:
    """The names of all tools: of the files of their folder those without an ending."""
    files = (it for it in os.listdir(TOOLS) if os.path.isfile(os.path.join(TOOLS, it)))
    return sorted(it for it in files if re.fullmatch(r"\w+", it))


def hex_bytes(words: list[str]) -> bytes:
    """The bytes of a HEX list: digits, or digits and how many times."""
    parts = (word.partition("*") for word in words)
    return b"".join(bytes.fromhex(digits) * int(times or 1) for digits, _, times in parts)


def line_text(text: str) -> str:
    """A LINE with each `<TEXT*N>` written out, and its end."""
    return re.sub(r"<([^<>]*)\*(\d+)>", lambda it: it[1] * int(it[2]), text) + "\n"


# What a line of an input adds to it, by its key.
INPUTS: dict[str, Callable[[Case, list[str], str], bytes]] = {
    "bytes": lambda case, words, rest: hex_bytes(words[1:]),
    "flash": lambda case, words, rest: hex_bytes(words[1:]),
    "text": lambda case, words, rest: line_text(rest[len(words[0]) + 1 :]).encode(),
    "text_lines": lambda case, words, rest: line_text(rest.split(" ", 2)[2]).encode() * int(words[1]),
    "slice": lambda case, words, rest: case.named(words[1])[int(words[2]) : int(words[3])],
    "flash_slice": lambda case, words, rest: case.named(words[1])[int(words[2]) : int(words[3])],
}
# What a line of the output adds to it, by its key.
OUTPUTS: dict[str, Callable[[Case, list[str], str], bytes]] = {
    "out": lambda case, words, rest: line_text(rest).encode(),
    "out_lines": lambda case, words, rest: line_text(rest.partition(" ")[2]).encode() * int(words[0]),
    "out_bytes": lambda case, words, rest: hex_bytes(words),
    "out_slice": lambda case, words, rest: case.named(words[0])[int(words[1]) : int(words[2])],
}
# The keys of a case that is run in more ways than one, or whose output isn't given whole.
VARIED = {
    "prefix", "any", "cut_each", "change_each", "room", "in_fails", "out_fails", "err_fails", "flash_fails", "length",
}


class Case:
    """A case of a file of cases."""

    def __init__(self, name: str, streams: dict[str, bytes], kept: dict[str, bytes]) -> None:
        self.name = name
        self.words: list[str] = []  # of the command
        self.status = 0
        self.error = ""  # the line on standard error
        self.inputs: dict[str, bytes] = {}  # its own inputs by name
        self.streams = streams  # those of the file of cases
        self.kept = kept  # the texts that earlier cases kept
        self.text = b""  # what it writes, where that is given whole
        self.has: list[str] = []  # lines that it writes
        self.keeps: list[str] = []  # the names under which its text is kept
        self.is_plain = True  # whether it is run in one way, and its output is whole or has some lines

    def named(self, name: str) -> bytes:
        """The bytes of a stream of the file of cases, or of a text that an earlier case kept."""
        return self.streams.get(name, self.kept.get(name, b""))

    def add(self, key: str, words: list[str], rest: str) -> None:
        """Takes a line."""
        if key in INPUTS:
            self.inputs[words[0]] = self.inputs.get(words[0], b"") + INPUTS[key](self, words, rest)
        elif key in OUTPUTS:
            self.text += OUTPUTS[key](self, words, rest)
        elif key == "words":
            self.words = words
        elif key == "status":
            self.status = int(words[0])
        elif key == "err":
            self.error = rest
        elif key == "has":
            self.has.append(rest)
        elif key == "keep":
            self.keeps.append(words[0])
        if key in VARIED or key == "out_slice" and words[0] not in self.streams and words[0] not in self.kept:
            self.is_plain = False

    def bytes_of(self, name: str) -> bytes | None:
        """The bytes of an input that the words name."""
        return self.inputs.get(name, self.streams.get(name, self.kept.get(name)))


def put_file(folder: str, name: str, data: bytes | str) -> str:
    """Writes a file with these bytes, or this text, and gives its path."""
    path = os.path.join(folder, name)
    with open(path, "wb") as file:
        file.write(data if isinstance(data, bytes) else data.encode())
    return path


def text_of(*path: str) -> str:
    """The text of a file of the tree."""
    with open(os.path.join(TOP, *path), encoding="utf-8") as file:
        return file.read()


def made_part_text(name: str, rows: Sequence[tuple[int, int, int, list[int]]], settings: str = "") -> str:
    """A part file of a made-up device, with the IDCODE of an xc7a35t; a row is its block type, half, row and minors."""
    text = f'name = "{name}"\nidcode = 0x0362D093\n{settings}'
    for block, half, row, minors in rows:
        text += f"\n[[row]]\nblock = {block}\nhalf = {half}\nrow = {row}\nminors = {minors}\n"
    return text


def header(
    length: int, part_name: str = "7a35tcpg236", design: str = "made", date: str = "2026/11/29", time: str = "10:00:00",
) -> bytes:
    """A header of a .bit file that gives `length` as the bytes of the data; an empty text is a field without bytes."""
    fields = [text.encode() + b"\0" if text else b"" for text in (design, part_name, date, time)]
    texts = b"".join(bytes([letter]) + len(field).to_bytes(2, "big") + field for letter, field in zip(b"abcd", fields))
    return FIXED + texts + b"e" + length.to_bytes(4, "big")


def cases_of(path: str) -> Iterator[Case]:
    """The cases of a file."""
    streams: dict[str, bytes] = {}
    kept: dict[str, bytes] = {}
    case: Case | None = None
    for line in text_of(path).splitlines():
        key, _, rest = line.partition(" ")
        words = rest.split()
        if not line or line.startswith("#"):
            continue
        if key == "case":
            case = Case(rest, streams, kept)
        elif key == "end" and case:
            for name in case.keeps:
                if case.is_plain and not case.has:
                    kept[name] = case.text
            yield case
            case = None
        elif key == "stream" and case is None:
            streams[words[0]] = streams.get(words[0], b"") + hex_bytes(words[1:])
        elif case is not None:
            case.add(key, words, rest)


def all_cases() -> Iterator[tuple[str, Case]]:
    """The cases of every file, with the file's name."""
    for path in sorted(glob.glob(os.path.join(DATA, "*.txt"))):
        for case in cases_of(path):
            yield os.path.basename(path), case


class Tally:
    """Counts what was tried, says on standard error what differs, and ends a test with its line."""

    def __init__(self) -> None:
        self.passed = 0
        self.failed = 0
        self.skipped = 0  # what the machine lacks something for

    def check(self, name: str, is_so: object, note: object = "") -> None:
        """Counts one trial, which passes where a value is true; where it failed, says its name and what came."""
        self.passed, self.failed = self.passed + bool(is_so), self.failed + (not is_so)
        if not is_so:
            print(f"{os.path.basename(sys.argv[0])}: {name}{': ' if note else ''}{note}", file=sys.stderr)

    def same(self, name: str, came: object, wanted: object) -> None:
        """Counts a trial that passes where both values are equal."""
        self.check(name, came == wanted, f"came {str(came)[:300]!r}, wanted {str(wanted)[:300]!r}")

    def skip(self, name: str) -> None:
        """Counts what the machine lacks something for, and says it on standard error."""
        self.skipped += 1
        print(f"{os.path.basename(sys.argv[0])}: skipped: {name}", file=sys.stderr)

    def end(self) -> NoReturn:
        """Prints the counts, and ends with status 1 where something failed."""
        more = f", {self.skipped} skipped" if self.skipped else ""
        print(f"{self.passed} passed, {self.failed} failed{more}")
        sys.exit(self.failed > 0)
