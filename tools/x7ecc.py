"""The error correction code of a frame of 101 words: bits 12:0 of its word 50, as the open database of the 7 series has
it. python3 (3.8) and its library alone."""
from __future__ import annotations

from x7formats import FRAME_WORDS, word_at

ECC_WORD, ECC_BITS = 50, 0x1FFF


def places() -> list[int]:
    """What a bit of each word of a frame adds to the ECC, for its lowest bit: its number, past the powers of two."""
    return [32 * word + (0x1360 if word > 0x25 else 0x1340 if word > 6 else 0x1320) for word in range(FRAME_WORDS)]


def ecc_tables() -> list[list[int]]:
    """What each value of each byte of a frame adds to the ECC. Bits 12:0 of word 50 add nothing."""
    tables = []
    for word, place in enumerate(places()):
        for byte in range(4):
            low = 24 - 8 * byte
            is_kept = [word != ECC_WORD or low + bit > 12 for bit in range(8)]
            adds = [place + low + bit if is_kept[bit] else 0 for bit in range(8)]
            table = [0]
            for bit in range(8):
                table += [it ^ adds[bit] for it in table]
            tables.append(table)
    return tables


def ecc_of(frame: bytes, tables: list[list[int]]) -> int:
    """The ECC of a frame: the sum of what its bits add, and the parity of that in bit 12."""
    value = 0
    for table, byte in zip(tables, frame):
        value ^= table[byte]
    return value ^ (bin(value & 0xFFF).count("1") & 1) << 12


def ecc_in(frame: bytes) -> int:
    """The ECC that stands in a frame."""
    return int(word_at(frame, 4 * ECC_WORD)) & ECC_BITS


def with_ecc(frame: bytes, value: int) -> bytes:
    """A frame in which this ECC stands."""
    at = 4 * ECC_WORD
    word = int(word_at(frame, at)) & ~ECC_BITS | value
    return frame[:at] + word.to_bytes(4, "big") + frame[at + 4 :]
