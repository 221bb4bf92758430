"""What docs/FORMATS.md says, for the tools of this folder: streams and their packets, listings, checks, reports and
frames texts. python3 (3.8) and its library alone.

A stream is a header, or none, and data: `stream_of(raw)`. The data are read as steps, each with its place:
`steps(data)`. Listings, reports and frames texts have a reader here, and those that the tools write have a writer;
x7partfile has that of part files. What can't be taken raises `Refused` with a sentence, which `run` makes one line on
standard error and status 2.
"""
from __future__ import annotations

import functools
import re
import struct
from typing import TYPE_CHECKING, BinaryIO, Collection, Generator, Iterator, Literal, Mapping, NamedTuple, Sequence

# what a tool needs of x7run beside the formats, under one name
from x7run import CALLED as CALLED, NO_PROGRAM as NO_PROGRAM, Refused as Refused, program as program, run as run
from x7run import read_file as read_file, say as say, write_file as write_file, write_out as write_out

if TYPE_CHECKING:
    from x7partfile import Part

# ---- words, registers and commands (UG470, configuration registers; command register codes)

SYNC_WORD, DUMMY_WORD = 0xAA995566, 0xFFFFFFFF
SYNC = bytes.fromhex("AA995566")
NOP = bytes.fromhex("20000000")
FRAME_WORDS = 101
MOST_BYTES = 1 << 26

NAMES = {
    0: "CRC", 1: "FAR", 2: "FDRI", 3: "FDRO", 4: "CMD", 5: "CTL0", 6: "MASK", 7: "STAT", 8: "LOUT", 9: "COR0",
    10: "MFWR", 11: "CBC", 12: "IDCODE", 13: "AXSS", 14: "COR1", 16: "WBSTAR", 17: "TIMER", 22: "BOOTSTS", 24: "CTL1",
    31: "BSPI",
}
CRC, FAR, FDRI, FDRO, CMD, CTL0, MASK, LOUT, COR0, MFWR, CBC, IDCODE = 0, 1, 2, 3, 4, 5, 6, 8, 9, 10, 11, 12
WBSTAR, TIMER, CTL1 = 16, 17, 24
REGISTERS = [NAMES.get(number, f"R{number:02}") for number in range(32)]
COMMANDS = {
    0: "NULL", 1: "WCFG", 2: "MFW", 3: "LFRM", 4: "RCFG", 5: "START", 6: "RCAP", 7: "RCRC", 8: "AGHIGH", 9: "SWITCH",
    10: "GRESTORE", 11: "SHUTDOWN", 12: "GCAPTURE", 13: "DESYNC", 15: "IPROG", 16: "CRCC", 17: "LTIMER",
    18: "BSPI_READ", 19: "FALL_EDGE",
}
CODES = {name: code for code, name in COMMANDS.items()}
NUMBERS = {name: number for number, name in enumerate(REGISTERS)}


def word_at(data: bytes, place: int) -> int:
    """The word at a place, the highest byte first."""
    return int.from_bytes(data[place : place + 4], "big")


def words_of(data: bytes) -> tuple[int, ...]:
    """The words of bytes."""
    return struct.unpack(f">{len(data) // 4}I", data)


def bytes_of(words: Sequence[int]) -> bytes:
    """The bytes of words."""
    return struct.pack(f">{len(words)}I", *words)


def command_of(word: int) -> str:
    """The name of the command that a word of CMD calls for, by its low five bits."""
    return COMMANDS.get(word & 31, "NULL")


def type1_header(kind: str, register: int, count: int) -> int:
    """The header of a type 1 packet, a "write" or a "read", of at most 2,047 words."""
    return (0x30000000 if kind == "write" else 0x28000000) + register * 0x2000 + count


def type2_header(kind: str, count: int) -> int:
    """The header of a type 2 packet, a "write" or a "read"."""
    return (0x50000000 if kind == "write" else 0x48000000) + count


def write_packet(register: int, words: Sequence[int]) -> bytes:
    """The bytes of a type 1 write of at most 2,047 words."""
    return bytes_of([type1_header("write", register, len(words)), *words])


# ---- the header of a .bit file

FIXED = bytes.fromhex("00090FF00FF00FF00FF0000001")


class Header(NamedTuple):
    """The header of a .bit file. Its four texts are as they stand, with their closing zeros."""

    design: bytes  # field a: the design's name and its settings
    part: bytes  # field b: the part's name
    date: bytes  # field c
    time: bytes  # field d
    length: int  # field e: how many bytes of data follow, as the header says
    size: int  # the bytes of the header itself


class Stream(NamedTuple):
    """A configuration stream: what a device takes, and what stands before it in a file."""

    header: Header | None
    data: bytes


def header_of(raw: bytes) -> Header | None:
    """The header at the beginning of a file's bytes, or none. A header that is cut or has another letter is refused."""
    if not raw.startswith(FIXED):
        return None
    at, texts = len(FIXED), []
    for letter in b"abcde":
        if at < len(raw) and raw[at] != letter:
            raise Refused(f"byte {at} of the header isn't the letter '{letter:c}' of its field")
        size = 4 if letter == ord("e") else int.from_bytes(raw[at + 1 : at + 3], "big")
        first = at + 1 if letter == ord("e") else at + 3
        if first + size > len(raw):
            raise Refused(f"the file ends inside its header, at byte {len(raw)}")
        texts.append(bytes(raw[first : first + size]))
        at = first + size
    design, part, date, time, length = texts
    return Header(design, part, date, time, int.from_bytes(length, "big"), at)


def stream_of(raw: bytes) -> Stream:
    """The header and the data of a file's bytes."""
    header = header_of(raw)
    return Stream(header, raw[header.size :] if header else raw)


def stream_named(path: str, raw: bytes) -> Stream:
    """The stream of the bytes of a file, whose path stands before what is refused."""
    try:
        return stream_of(raw)
    except Refused as refused:
        raise Refused(f"{path}: {refused}") from None


def stream_alone(path: str, raw: bytes) -> Stream:
    """The stream of the bytes of a file, which is no listing, and whose path stands before what is refused."""
    if is_listing(raw):
        raise Refused(f"{path} is a listing: x7 asm {path} > STREAM makes the stream")
    return stream_named(path, raw)


def text_of(field: bytes) -> str:
    """A text of a header without its closing zero."""
    return field.rstrip(b"\0").decode("ascii", "replace")


# ---- steps: what stands in the data, in order

MANY = NOP * 256
# words without effect that stand in runs: bytes of an erased, and of an empty flash
FILLERS = (b"\xff" * 4, bytes(4))


# The kinds of steps. 'bytes' are no words (before a sync word, after a session, the tail); 'sync' begins a session;
# 'nop' are words 20000000; 'write' and 'read' are packets; 'filler' is a word without effect, or words FFFFFFFF or
# 00000000 in a row; 'bad' is one that is no packet.
StepKind = Literal["bytes", "sync", "nop", "write", "read", "filler", "bad"]


class Step(NamedTuple):
    """What stands at a place of the data: bytes that are no words, a word alone, no-ops in a row, or a packet. Places
    count the bytes of the data."""

    kind: StepKind
    place: int  # where it begins
    word: int  # its first word; 0 of bytes
    register: int | None  # the number of the register that a packet writes or reads; none of all else
    word_count: int  # the words of a packet as its header says, or how many words in a row
    first: int  # where a packet's payload begins
    present: int  # how many words of a write's payload are there
    end: int  # the place after it


def steps(data: bytes) -> Iterator[Step]:
    """The steps of a stream's data, which cover it."""
    place = 0
    while place < len(data):
        at = data.find(SYNC, place)
        if at != place:
            yield Step("bytes", place, 0, None, 0, place, 0, len(data) if at < 0 else at)
        if at < 0:
            return
        yield Step("sync", at, word_at(data, at), None, 0, at + 4, 0, at + 4)
        place = yield from session(data, at + 4)


def session(data: bytes, place: int) -> Generator[Step, None, int]:
    """The steps of a session after its sync word; answers where it ends."""
    named = None
    while place + 4 <= len(data):
        end = end_of_nops(data, place)
        if end > place:
            yield Step("nop", place, 0x20000000, None, (end - place) // 4, end, 0, end)
            place = end
            continue
        end = end_of_fillers(data, place)
        if end > place:
            yield Step("filler", place, word_at(data, place), None, (end - place) // 4, end, 0, end)
            place = end
            continue
        step = packet(data, place, named)
        named = named if step.register is None else step.register
        yield step
        place = step.end
        if step.kind == "write" and ends_session(data, step):
            return place
    if place < len(data):
        yield Step("bytes", place, 0, None, 0, place, 0, len(data))
    return len(data)


def end_of_nops(data: bytes, place: int) -> int:
    """Where the no-ops end that stand from a place on."""
    while data.startswith(MANY, place):
        place += len(MANY)
    while data.startswith(NOP, place):
        place += 4
    return place


def end_of_fillers(data: bytes, place: int) -> int:
    """Where the words FFFFFFFF or 00000000 end that stand from a place on: an erased or an empty flash has millions."""
    word = data[place : place + 4]
    if word not in FILLERS:
        return place
    for count in (1024, 32, 1):
        many = word * count
        while data.startswith(many, place):
            place += len(many)
    return place


def packet(data: bytes, place: int, named: int | None) -> Step:
    """The step of a word in a header's place, with its payload; `named` is the register that the nearest type 1 packet
    names."""
    word = word_at(data, place)
    kind_bits, first, end = word >> 27, place + 4, place + 4
    if word in (SYNC_WORD, DUMMY_WORD) or kind_bits >> 2 == 0 or kind_bits == 0b00100:
        return Step("filler", place, word, None, 0, first, 0, end)
    kinds: dict[int, StepKind] = {0b00110: "write", 0b00101: "read", 0b01010: "write", 0b01001: "read"}
    is_type_1 = kind_bits >> 2 == 1
    register = word >> 13 & 31 if is_type_1 else named
    if kind_bits not in kinds or register is None:
        return Step("bad", place, word, None, 0, first, 0, end)
    count, present = word & (0x7FF if is_type_1 else 0x7FFFFFF), 0
    if kinds[kind_bits] == "write":
        present = min(count, (len(data) - first) // 4)
        if register == CMD:
            ends = [at for at in range(present) if data[first + 4 * at + 3] & 31 == CODES["DESYNC"]]
            present = ends[0] + 1 if ends else present
        end = first + 4 * present
    return Step(kinds[kind_bits], place, word, register, count, first, present, end)


def ends_session(data: bytes, step: Step) -> bool:
    """Whether the last word of a write's payload is DESYNC."""
    return step.register == CMD and step.present > 0 and data[step.end - 1] & 31 == CODES["DESYNC"]


def payload(data: bytes, step: Step) -> tuple[int, ...]:
    """The words of a write's payload that are there."""
    return words_of(data[step.first : step.first + 4 * step.present])


# ---- listings


def head_line(step: Step) -> str:
    """The line of a word in a header's place."""
    word, register = step.word, step.register
    if word == SYNC_WORD:
        return "sync"
    if register is not None and word == type1_header(step.kind, register, step.word_count):
        return f"{step.kind} {REGISTERS[register]} {step.word_count}"
    if register is not None and word >> 29 == 2:
        return f"{step.kind}2 {step.word_count}"
    return f"word {word:08X}"


def command_line(word: int) -> str:
    """The line of a payload word of CMD."""
    return f"cmd {COMMANDS[word]}" if word in COMMANDS else f"data {word:08X}"


def rows(name: str, digits: str, width: int, blanks: int) -> Iterator[str]:
    """Lines of `width` digits at most, with a blank before every `blanks` of them."""
    for at in range(0, len(digits), width):
        row = digits[at : at + width]
        yield name + "".join(f" {row[it:it + blanks]}" for it in range(0, len(row), blanks))


def step_lines(data: bytes, step: Step) -> Iterator[tuple[str, int, int]]:
    """The lines of a step, each with its place and the place after it."""
    if step.kind == "bytes":
        for at, line in enumerate(rows("bytes", data[step.place : step.end].hex().upper(), 64, 64)):
            yield line, step.place + 32 * at, min(step.place + 32 * at + 32, step.end)
        return
    if step.kind == "nop":
        for at in range(step.place, step.end, 4):
            yield "nop", at, at + 4
        return
    if step.kind == "filler":
        for at in range(step.place, step.end, 4):
            yield head_line(step), at, at + 4
        return
    yield head_line(step), step.place, step.place + 4
    if step.register == CMD:
        for at, word in enumerate(payload(data, step)):
            yield command_line(word), step.first + 4 * at, step.first + 4 * at + 4
    elif step.present:
        digits = data[step.first : step.first + 4 * step.present].hex().upper()
        for at, line in enumerate(rows("data", digits, 64, 8)):
            yield line, step.first + 32 * at, min(step.first + 32 * at + 32, step.end)


def bit_line(header: Header) -> str:
    """The line of a header."""
    return " ".join(["bit", *(field.hex().upper() or "-" for field in header[:4]), str(header.length)])


def listing_of(stream: Stream) -> Iterator[str]:
    """The lines that `x7 list` writes of a stream, one after the other."""
    if stream.header:
        yield bit_line(stream.header)
    for step in steps(stream.data):
        if step.kind == "nop":
            yield from ["nop"] * step.word_count
        else:
            for line, _, _ in step_lines(stream.data, step):
                yield line


class ListedLine(NamedTuple):
    """A line of a listing."""

    number: int
    text: str
    head: str  # the packet's header, where the line is of a payload


def line_at(stream: Stream, place: int) -> ListedLine | None:
    """The line of `x7 list` that the byte before a place stands in."""
    number = 1 if stream.header else 0
    for step in steps(stream.data):
        if step.end < place:
            number += line_count(step)
            continue
        if step.register != CMD and step.first < place <= step.end and step.present:
            row = (place - step.first - 1) // 32
            first = step.first + 32 * row
            digits = stream.data[first : min(first + 32, step.end)].hex().upper()
            head = head_line(step) if step.kind == "write" else ""
            return ListedLine(number + row + 2, next(rows("data", digits, 64, 8)), head)
        for line, first, after in step_lines(stream.data, step):
            number += 1
            if first < place <= after:
                is_payload = first >= step.first and step.kind == "write"
                return ListedLine(number, line, head_line(step) if is_payload else "")
    return None


def line_count(step: Step) -> int:
    """How many lines a listing has of a step."""
    if step.kind == "bytes":
        return -(-(step.end - step.place) // 32)
    if step.kind in ("nop", "filler"):
        return max(step.word_count, 1)
    return 1 + (step.present if step.register == CMD else -(-step.present // 8))


HEAD = re.compile(rb"(write|read) (\w+) (0|[1-9]\d{0,3})|(write|read)2 (0|[1-9]\d{0,8})|word ([0-9A-F]{8})")
HEX = re.compile(rb"data(?: [0-9A-F]{8}){1,8}|bytes (?:[0-9A-F]{2}){1,32}")
COMMAND_LINES = {f"cmd {name}".encode(): code.to_bytes(4, "big") for code, name in COMMANDS.items()}
LINES = {b"sync": SYNC, b"nop": NOP, **COMMAND_LINES}
BIT = re.compile(rb"bit" + rb" ((?:[0-9A-F]{2})+|-)" * 4 + rb" (0|[1-9]\d{0,9})")


@functools.lru_cache(maxsize=1024)  # most lines of a long stream are equal
def line_bytes(line: bytes) -> bytes | None:
    """The bytes that a line of a listing stands for, or none."""
    if line in LINES:
        return LINES[line]
    if HEX.fullmatch(line):
        return bytes.fromhex(line.split(b" ", 1)[1].decode())
    found = HEAD.fullmatch(line)
    if not found:
        return None
    if found[6]:
        return bytes.fromhex(found[6].decode())
    if found[4]:
        count = int(found[5])
        return bytes_of([type2_header(found[4].decode(), count)]) if count <= 0x7FFFFFF else None
    number = NUMBERS.get(found[2].decode())
    if number is None or int(found[3]) > 0x7FF:
        return None
    return bytes_of([type1_header(found[1].decode(), number, int(found[3]))])


def header_of_line(line: bytes) -> Header | None:
    """The header of a line `bit`, or none."""
    found = BIT.fullmatch(line)
    if not found or int(found[5]) >= 1 << 32:
        return None
    fields = [b"" if field == b"-" else bytes.fromhex(field.decode()) for field in found.groups()[:4]]
    design, part, date, time = fields
    return Header(design, part, date, time, int(found[5]), len(FIXED) + 17 + sum(map(len, fields)))


def lines_of(block: bytes) -> list[bytes]:
    """The lines of a block, without their ends."""
    return block[: len(block) - block.endswith(b"\n")].split(b"\n") if block else []


def blocks(file: BinaryIO) -> Iterator[bytes]:
    """A file's bytes in blocks that end with a line, so that a large one isn't held twice."""
    while True:
        block = file.read(1 << 20)
        if not block:
            return
        yield block + file.readline()


def is_listing(raw: bytes) -> bool:
    """Whether a file that begins with these bytes is a listing of `x7 list`, and no stream."""
    return bool(re.match(rb"(bit|bytes|sync|nop|write|read|write2|read2|word|data|cmd)( [^\n]*)?\r?\n", raw))


def not_listed(path: str, number: int, line: bytes) -> Refused:
    """The refusal of a line that no listing has."""
    ends = ", which ends with 0D 0A (tr -d '\\r' makes the listing)" if line.endswith(b"\r") else ""
    return Refused(f"{path} is no listing of `x7 list`: line {number}{ends}")


def read_listing(path: str) -> Stream:
    """The stream of a listing, or of a text for `x7 asm`: its lines `crc` are made, comments and empty lines mean
    nothing."""
    header, data, number = None, bytearray(), 0
    made: list[int] = []  # where the words of the lines `crc` stand
    with open(path, "rb") as file:
        for block in blocks(file):
            count = block.count(b"nop\n")
            if 4 * count == len(block):
                data += NOP * count
                number, block = number + count, b""
            for line in lines_of(block):
                number += 1
                known = line_bytes(line)
                if known is not None:
                    data += known
                elif line == b"crc":
                    made.append(len(data) + 4)
                    data += bytes.fromhex("3000000100000000")
                elif number == 1 and line.startswith(b"bit "):
                    header = header_of_line(line)
                    if header is None:
                        raise not_listed(path, 1, line)
                elif line and not line.startswith(b"#"):
                    raise not_listed(path, number, line)
            if len(data) > MOST_BYTES:
                raise Refused(f"{path} stands for more than {MOST_BYTES} bytes, which x7 doesn't take: line {number}")
    return Stream(header, with_checks(bytes(data), made))


def listed_line_at(path: str, place: int) -> ListedLine | None:
    """The line of a listing, or of a text for `x7 asm`, that the byte before a place stands in."""
    number, at, head = 0, 0, ""
    with open(path, "rb") as file:
        for block in blocks(file):
            count = block.count(b"nop\n")
            if 4 * count == len(block) and at + 4 * count < place:
                number, at, head = number + count, at + 4 * count, "nop"
                continue
            for line in lines_of(block):
                number += 1
                size = 8 if line == b"crc" else len(line_bytes(line) or b"")
                text = line.decode("ascii", "replace")
                is_payload = line.startswith((b"data ", b"cmd "))
                if line and not line.startswith(b"#") and not is_payload:
                    head = text
                if at < place <= at + size:
                    return ListedLine(number, text, head if is_payload else "")
                at += size
    return None


# ---- the running check: CRC-32C over each word's 32 bits and its register's five, from the lowest

POLYNOMIAL = 0x82F63B78


def shifted(value: int, count: int) -> int:
    """The check after `count` bits that are 0."""
    for _ in range(count):
        value = value >> 1 ^ (POLYNOMIAL if value & 1 else 0)
    return value


class Tables(NamedTuple):
    """What the parts of a word and a register become over the bits of both, since the check is linear."""

    low: list[int]  # of the low half of a word
    high: list[int]  # of the high half of a word
    registers: list[int]  # of a register's number


@functools.lru_cache(maxsize=None)
def tables() -> Tables:
    """The tables, made when first asked for."""
    quarters = [[shifted(byte << shift, 37) for byte in range(256)] for shift in (0, 8, 16, 24)]
    low = [one ^ other for one in quarters[1] for other in quarters[0]]
    high = [one ^ other for one in quarters[3] for other in quarters[2]]
    return Tables(low, high, [shifted(number, 5) for number in range(32)])


def fold(check: int, register: int, words: Sequence[int]) -> int:
    """The check after words were written to a register."""
    low, high, registers = tables()
    added = registers[register]
    for word in words:
        word ^= check
        check = low[word & 0xFFFF] ^ high[word >> 16] ^ added
    return check


# A long write is folded by blocks of so many bytes, at places of the data that are multiples of it, or up to three
# bytes after. A block whose fold is known, as of words 0, is folded at once: a stream is often played more than once,
# also with its parts exchanged.
MANY_WORDS, BLOCK = 1024, 1024


@functools.lru_cache(maxsize=None)
def block_tables() -> list[list[int]]:
    """What each byte of the check becomes over a block: the lowest first."""
    bits = [fold(1 << bit, CRC, (0,) * (BLOCK // 4)) for bit in range(32)]
    found = []
    for first in range(0, 32, 8):
        table = [0]
        for bit in range(8):
            table += [it ^ bits[first + bit] for it in table]
        found.append(table)
    return found


@functools.lru_cache(maxsize=1 << 14)
def fold_block(register: int, block: bytes) -> int:
    """What a block adds to the check after it was written to a register."""
    return fold(0, register, words_of(block))


def fold_many(check: int, register: int, data: bytes, first: int, end: int) -> int:
    """The check after the many words of data between two places were written to a register."""
    one, two, three, four = block_tables()
    shift = first % 4
    while first < end:
        after = min(end, (first - shift) // BLOCK * BLOCK + BLOCK + shift)
        block = data[first:after]
        if after - first == BLOCK:
            check = one[check & 255] ^ two[check >> 8 & 255] ^ three[check >> 16 & 255] ^ four[check >> 24]
            check ^= fold_block(register, block)
        else:
            check = fold(check, register, words_of(block))
        first = after
    return check


class Compared(NamedTuple):
    """A word that was written to CRC, beside the running check there."""

    place: int  # of the word in the data
    check: int
    word: int


class RunningCheck:
    """The running check of a device over the writes that it is given, in order."""

    def __init__(self) -> None:
        self.value = 0  # the check
        self.command = 0  # the code in CMD

    def write(self, data: bytes, step: Step) -> list[Compared]:
        """Takes a write, and answers what was compared for each word that it gives CRC."""
        compared = []
        if step.register == CRC:
            for at, word in enumerate(payload(data, step)):
                compared.append(Compared(step.first + 4 * at, self.value, word))
                self.value = 0
        elif step.register == CMD:
            for word in payload(data, step):
                self.command = word & 31
                self.value = 0 if self.command == CODES["RCRC"] else fold(self.value, CMD, [word])
        elif step.register is not None and step.register != LOUT:
            if step.present < MANY_WORDS:
                self.value = fold(self.value, step.register, payload(data, step))
            else:
                self.value = fold_many(self.value, step.register, data, step.first, step.end)
            if step.register == FAR and step.present and self.command == CODES["RCRC"]:
                # a write to FAR executes the command in CMD again
                self.value = 0
        return compared


def checks_of(data: bytes) -> Iterator[Compared]:
    """Each comparison of the running check in the data: the place of the word, the check there, and the word."""
    check = RunningCheck()
    for step in steps(data):
        if step.kind == "write":
            for it in check.write(data, step):
                yield it


def with_checks(data: bytes, places: Collection[int]) -> bytes:
    """The data with the running check written at each of these places, which hold words for CRC."""
    if not places:
        return data
    data, wanted = bytearray(data), set(places)
    for place, check, _ in checks_of(bytes(data)):
        if place in wanted:
            data[place : place + 4] = check.to_bytes(4, "big")
    return bytes(data)


# ---- reports


class Attempt(NamedTuple):
    """An attempt of a boot."""

    number: int  # from 1
    kind: str  # 'power', 'iprog' or 'fallback'
    address: int  # where in the flash it begins
    ending: str  # 'started', 'iprog', or why it failed


class Report:
    """A report of `x7 play`, or the text of `x7 boot` or `x7 svf`."""

    def __init__(self) -> None:
        self.part = ""  # the part's name
        self.taken = 0  # the bytes taken
        self.end: list[str] = []  # the words after 'end'
        self.attempts: list[Attempt] = []  # of a boot
        self.boot_end = ""  # how the boot ended, of a boot
        self.svf: str | tuple[int, int] | None = None  # of an SVF: 'done', or the statement and the bit where it ended
        self.phase = 0  # of startup
        self.done = 0  # the pin DONE
        self.gts = 0  # whether the outputs are on
        self.gwe = 0  # whether flip-flops and memories can be written
        self.registers: dict[str, int] = {}  # by name
        self.reads: list[int] = []  # the words read out
        self.frames: dict[int, str] = {}  # the digits of each frame by its address

    def line(self, words: list[str]) -> None:
        """Takes the words of a line."""
        key = words[0]
        if key in ("part", "boot"):
            self.part = words[1]
        elif key == "taken":
            self.taken = int(words[1])
        elif key == "attempt":
            self.attempts.append(Attempt(int(words[1]), words[2], int(words[3], 16), words[-1]))
        elif key == "end" and self.attempts and not self.boot_end:
            self.boot_end = words[1]
        elif key == "end":
            self.end = words[1:]
        elif key == "phase":
            self.phase, self.done, self.gts, self.gwe = (int(it) for it in words[1::2])
        elif key == "reg":
            self.registers[words[1]] = int(words[2], 16)
        elif key == "svf":
            self.svf = "done" if words[1] == "done" else (int(words[2]), int(words[3]))
        elif key == "data":
            self.reads += [int(it, 16) for it in words[1:]]
        elif key == "frame":
            self.frames[int(words[1], 16)] = words[2]
        elif key not in ("reads", "frames"):
            raise ValueError


def read_report(path: str) -> Report:
    """The report in a file. An empty one, as where a command was refused, is refused too, as is one that is cut off."""
    report, number = Report(), 0
    last: list[str] = []
    try:
        with open(path, encoding="ascii") as file:
            for number, line in enumerate(file, 1):
                last = line.split()
                report.line(last)
                if not line.endswith("\n"):
                    raise ValueError
    except (ValueError, IndexError):
        raise Refused(f"{path} is no report of `x7 play`, `x7 boot` or `x7 svf`: line {number}") from None
    if not number:
        raise Refused(f"{path} is empty: the command that wrote it was refused, and has said why on standard error")
    if not report.end or last[0] not in ("frames", "frame"):
        raise Refused(f"{path} is no whole report of `x7 play`, `x7 boot` or `x7 svf`: it ends at line {number}")
    return report


# ---- frames texts


def read_frames(path: str, part: Part | None = None) -> dict[int, bytes]:
    """The words of each frame of a frames text, as bytes by the address. With a part, of its addresses and its frame's
    size."""
    frames: dict[int, bytes] = {}
    part_addresses = set(part.addresses()) if part else set()
    for number, line in enumerate(read_file(path).split(b"\n"), 1):
        line = line[:-1] if line.endswith(b"\r") else line
        if not line or line.startswith(b"#"):
            continue
        found = re.fullmatch(rb"frame ([0-9A-F]{8}) ((?:[0-9A-Fa-f]{8})+)", line)
        if not found:
            raise Refused(f"{path} is no frames text: line {number}")
        if part and len(found[2]) != 8 * part.frame_words:
            wants = f"a frame of the part {part.name} has {part.frame_words} words"
            raise Refused(f"{path}: {wants}, and one here {len(found[2]) // 8}: line {number}")
        far = int(found[1], 16)
        if part and far not in part_addresses:
            raise Refused(f"{path}: the part {part.name} has no address {far:08X}: line {number}")
        if far in frames:
            raise Refused(f"{path} has the address {far:08X} twice: line {number}")
        frames[far] = bytes.fromhex(found[2].decode())
    return frames


def frames_text(frames: Mapping[int, bytes]) -> str:
    """The frames text of bytes by the address, in number order."""
    return "".join(f"frame {far:08X} {frames[far].hex().upper()}\n" for far in sorted(frames))
