"""A stream that is whole, with its places, and ways to change its bytes: what the kinds of damage of `damages.py` are
made with."""
from __future__ import annotations

from typing import Callable, List, NamedTuple

import x7formats as x7
from x7ecc import ecc_of, ecc_tables, with_ecc

Files = List[bytes]


class Damage(NamedTuple):
    """A kind of damage."""

    name: str  # what happened
    files: Files  # what `why` is given, one after the other
    right: str  # a pattern of what is right to say
    status: int  # what `why` ends with
    weaker: str  # a pattern of what is true and says less


class Good:
    """A whole stream with a header, and the places in its data."""

    def __init__(self, raw: bytes) -> None:
        stream = x7.stream_of(raw)
        self.raw = raw  # the file
        self.data = bytes(stream.data)  # without the header
        self.head = raw[: len(raw) - len(self.data)]  # the header
        writes = [it for it in x7.steps(self.data) if it.kind == "write" and it.present]
        self.writes = writes  # the packets that write
        frames = [it for it in writes if it.register == x7.FDRI]
        self.frames = max(frames, key=lambda it: it.present)  # the longest packet of frame data
        self.middle = self.frames.first + 4 * (self.frames.present // 2)  # a place of frame data
        self.checks = [it.first for it in writes if it.register == x7.CRC]  # the words for CRC
        self.sync = self.data.index(x7.SYNC)  # the sync word
        self.desync = self.command("DESYNC")  # the word DESYNC
        self.start = self.command("START")  # the word START

    def command(self, name: str) -> int:
        """The place of the last word of CMD that calls for a command."""
        code = x7.CODES[name]
        return max(it.first for it in self.writes if it.register == x7.CMD and x7.word_at(self.data, it.first) == code)

    def word_of(self, register: int, number: int = 0) -> int:
        """The place of a register's word, by the number of its write."""
        return [it.first for it in self.writes if it.register == register][number]

    def bit(self, data: bytes) -> bytes:
        """Other data behind the header as it is."""
        return self.head + data

    def mended(self, data: bytes, places: list[int] | None = None) -> bytes:
        """The file of data whose checks are made anew."""
        return self.head + x7.with_checks(data, self.checks if places is None else places)

    def with_word(self, register: int, word: int, number: int = 0) -> bytes:
        """The file with another word of a register, and its checks made anew."""
        return self.mended(put(self.data, self.word_of(register, number), word))

    def ctl0(self, word: int, is_last: bool = False) -> bytes:
        """The file in which each write of CTL0 has another word, or that after the frames alone, its MASK all bits, and
        its checks made anew."""
        data = self.data
        for it in self.writes:
            if is_last and it.place < self.frames.place:
                continue
            data = put(data, it.first, word) if it.register == x7.CTL0 else data
            data = put(data, it.first, 0xFFFFFFFF) if it.register == x7.MASK else data
        return self.mended(data)

    def last(self, register: int, word: int) -> bytes:
        """The file in which a register has another word: in its own last write, or in one more."""
        count = sum(it.register == register for it in self.writes)
        return self.with_word(register, word, count - 1) if count else self.setting(register, word)

    def setting(self, register: int, word: int) -> bytes:
        """The file with one more write of a register before its first RCRC, the header's length made anew."""
        at = self.sync + 8
        data = self.data[:at] + x7.write_packet(register, [word]) + self.data[at:]
        data = x7.with_checks(data, [it + 8 for it in self.checks])
        return self.head[:-4] + len(data).to_bytes(4, "big") + data


def coded(raw: bytes) -> Good:
    """A stream with the error correction code in each of its frames, as the vendor's have it, and its checks anew."""
    good = Good(raw)
    data = good.data
    for it in good.writes:
        if it.register == x7.FDRI:
            data = data[: it.first] + with_codes(data[it.first : it.end]) + data[it.end :]
    return Good(good.mended(data))


def put(data: bytes, place: int, word: int) -> bytes:
    """The data with another word at a place."""
    return data[:place] + word.to_bytes(4, "big") + data[place + 4 :]


def flip(data: bytes, place: int, bit: int = 1) -> bytes:
    """The data with one bit other in the byte at a place."""
    return data[:place] + bytes([data[place] ^ bit]) + data[place + 1 :]


def cut_out(data: bytes, place: int, count: int) -> bytes:
    """The data without some bytes."""
    return data[:place] + data[place + count :]


def put_in(data: bytes, place: int, more: bytes) -> bytes:
    """The data with more bytes at a place."""
    return data[:place] + more + data[place:]


def each_byte(data: bytes, change: Callable[[int], int]) -> bytes:
    """The data with each byte changed."""
    return data.translate(bytes(change(it) & 255 for it in range(256)))


def exchanged_bits(byte: int, pairs: dict[int, int]) -> int:
    """A byte whose bits go to other places."""
    return sum((byte >> bit & 1) << pairs.get(bit, bit) for bit in range(8))


def with_codes(frames: bytes) -> bytes:
    """Frames with the error correction code of each."""
    tables = ecc_tables()
    parts = (frames[at : at + 404] for at in range(0, len(frames), 404))
    return b"".join(with_ecc(it, ecc_of(it, tables)) if any(it) and len(it) == 404 else it for it in parts)


def exchanged_places(data: bytes, one: int, other: int) -> bytes:
    """The data with two bits of each byte's place exchanged."""
    both, moved = 1 << one | 1 << other, bytearray(data)
    step = 1 << one
    for place in range(0, len(data), step):
        if (place >> one ^ place >> other) & 1:
            moved[place : place + step] = data[place ^ both : (place ^ both) + step]
    return bytes(moved)


def row(name: str, files: Files, right: str, status: int = 1, weaker: str = "") -> Damage:
    """A kind of damage of which it is said that something is wrong."""
    return Damage(name, files, right, status, weaker)


# What is true of lost and added words, and says less than their number.
LOOSE = (
    "words were lost or added|MFW was lost|asks for more words than there|a check fails|bytes were "
    "(lost|added)|stands where a packet"
)
