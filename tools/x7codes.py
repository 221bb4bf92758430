"""The frames within the data of a stream, or of a readback, and whether the error correction code of each is that of
its words: it tells where frames were damaged, and that bytes without packets are frames. python3 (3.8) and its library
alone."""
from __future__ import annotations

import functools
import re
from typing import NamedTuple

import x7formats as x7
import x7kinds
from x7ecc import ecc_in, ecc_of, ecc_tables

FRAME_BYTES = 4 * x7.FRAME_WORDS
ZEROS = bytes(FRAME_BYTES)
# How many frames that hold something are looked at to see whether bytes are frames alone, the fewest that tell, and the
# most that may have another code.
LOOKED, FEWEST, MOST_WRONG = 12, 2, 2
# how many bytes are searched for these
SEARCHED = 1 << 21


@functools.lru_cache(maxsize=None)
def tables() -> list[list[int]]:
    """What each value of each byte of a frame adds to the code, made when first asked for."""
    return ecc_tables()


def is_right(frame: bytes) -> bool:
    """Whether the code in a frame is that of its words."""
    return ecc_of(frame, tables()) == ecc_in(frame)


class Frame(NamedTuple):
    """A frame that holds something, as it stands in the data of a stream."""

    place: int  # of its first byte
    is_right: bool  # whether its code is that of its words
    has_code: bool  # whether any bit of its code is 1


def frames_of(data: bytes, before: int | None = None) -> list[Frame]:
    """The frames that hold something of a stream's data, of whole ones in each write to FDRI, up to a place."""
    found = []
    for step in x7.steps(data if before is None else data[:before]):
        if step.kind == "write" and step.register == x7.FDRI and step.word_count % x7.FRAME_WORDS == 0:
            for place in range(step.first, step.end - FRAME_BYTES + 1, FRAME_BYTES):
                frame = data[place : place + FRAME_BYTES]
                if frame != ZEROS:
                    found.append(Frame(place, is_right(frame), ecc_in(frame) != 0))
    return found


class Codes(NamedTuple):
    """What the codes of the frames of a stream tell."""

    held: int  # how many frames hold something
    wrong: list[int]  # the places of those whose code isn't that of their words


def codes_of(data: bytes, before: int | None = None) -> Codes | None:
    """What the codes of the frames tell up to a place; none where the frames have no codes, or there are none."""
    found = frames_of(data, before)
    if not any(it.has_code for it in found):
        return None
    return Codes(len(found), [it.place for it in found if not it.is_right])


# ---- frames alone


class Alone(NamedTuple):
    """Frame data without packets."""

    first: int  # the place of the first frame
    right: int  # how many of the frames that were looked at have the right code
    way: x7kinds.Way | None  # how its bytes were turned, or none


# a byte of a frame that holds something
HELD = re.compile(rb"[^\x00\xff]")


def held_places(data: bytes) -> list[int]:
    """Places of bytes that hold something, one of each piece as long as a frame, the first ones."""
    found: list[int] = []
    for begin in range(0, min(len(data), SEARCHED), FRAME_BYTES):
        piece = data[begin : begin + FRAME_BYTES]
        held = HELD.search(piece) if piece != ZEROS else None
        if held:
            found.append(begin + held.start())
        if len(found) > LOOKED:
            break
    return found


def frames_from(data: bytes, first: int, held: list[int]) -> int:
    """How many of the frames around places that hold something, where frames stand from a place on, have the right
    code; 0 where more than a few have not, as those of memories in logic, which change, may."""
    places = sorted({first + (it - first) // FRAME_BYTES * FRAME_BYTES for it in held if it >= first})
    right = wrong = 0
    for place in places:
        frame = data[place : place + FRAME_BYTES]
        if len(frame) == FRAME_BYTES:
            is_well = ecc_in(frame) != 0 and is_right(frame)
            right, wrong = right + is_well, wrong + (not is_well)
        if wrong > MOST_WRONG:
            return 0
    return right if 4 * wrong <= right else 0


def frames_alone(data: bytes) -> Alone | None:
    """Frames that data are without packets, in any way that bytes are turned, or none. They may begin a few words late,
    as in a readback."""
    held = held_places(data)
    size = min(len(data), held[-1] + 2 * FRAME_BYTES) if held else 0
    size -= size % 8
    for way in [None, *x7kinds.WAYS]:
        turned = data[:size] if way is None else way.back(data[:size])
        for first in range(0, min(FRAME_BYTES, size), 4):
            count = frames_from(turned, first, held)
            if count >= FEWEST or count and len(data) - first in (FRAME_BYTES, 2 * FRAME_BYTES):
                return Alone(first, count, way)
    return None
