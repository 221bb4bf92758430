"""Streams that went through a transfer as text which makes 0A of 0D 0A: where the bytes 0D stood is searched, by the
error correction codes of frames and by packets that stand off their words. python3 (3.8) and its library alone."""
from __future__ import annotations

import re
from itertools import combinations, product
from typing import Callable, Iterator, NamedTuple, Sequence

import x7formats as x7
from x7codes import FRAME_BYTES, is_right
from x7ecc import ecc_in

# whether data are a stream
Judge = Callable[[bytes], bool]
# packets of the vendor's streams and planned ones, by which places are found that aren't at words
ANCHORS = re.compile(
    rb"\x30\x00\x80\x01\x00\x00\x00[\x00-\x13]|\x30\x00\x20\x01.{4}\x30|\x30\x01\x40[\x01\x04]\x00"
    rb"|\x30\x00\x40[\x00\x65]",
    re.S,
)
# how many ways to put bytes back are tried, and how many bytes 0D may be gone of one frame
MOST_TRIED, MOST_OF_A_FRAME = 400, 2


class Slip(NamedTuple):
    """Bytes of a stream between which some were lost."""

    low: int  # the place after the last packet that stood right
    high: int  # the place of the first that stands off
    lost: int  # how many, 1 to 3


def slips(data: bytes) -> list[Slip]:
    """Where bytes were lost, by packets that stand off their words."""
    found, sync = [], data.find(x7.SYNC)
    last, shift = sync + 4, 0
    for it in ANCHORS.finditer(data, sync + 4):
        now = (it.start() - sync) % 4
        if now != shift:
            found.append(Slip(last, it.start(), (shift - now) % 4))
        last, shift = it.end() - 1, now
    return found


def put_back(data: bytes, places: Sequence[int]) -> bytes:
    """Data with a byte 0D before each of these places."""
    parts, last = [], 0
    for place in sorted(places):
        parts += [data[last:place], b"\r"]
        last = place
    return b"".join([*parts, data[last:]])


def line_feeds(data: bytes, low: int, high: int) -> list[int]:
    """The places of bytes 0A between two places."""
    return [low + it.start() for it in re.finditer(b"\n", data[low:high])]


def by_codes(data: bytes) -> bytes:
    """Data in which bytes 0D stand again where the frame around them then has its right code."""
    done, begin = data, 0
    while True:
        mended = next_by_codes(done, begin)
        if mended is None:
            return done
        done, begin = mended


def next_by_codes(data: bytes, begin: int) -> tuple[bytes, int] | None:
    """Data with the first frame mended that begins at a place or later and lacks bytes, and the place after it; or
    none."""
    for step in x7.steps(data):
        if step.kind != "write" or step.register != x7.FDRI or step.word_count % x7.FRAME_WORDS or step.end <= begin:
            continue
        for place in range(step.first, step.first + 4 * step.word_count - FRAME_BYTES + 1, FRAME_BYTES):
            frame = data[place : place + FRAME_BYTES]
            if place < begin or not frame.strip(b"\0") or is_right(frame):
                continue
            mended = mended_frame(frame)
            if mended is None:
                return None
            made, count = mended
            return data[:place] + made + data[place + count :], place + FRAME_BYTES
    return None


def mended_frame(frame: bytes) -> tuple[bytes, int] | None:
    """A frame with bytes 0D put back, and of how many bytes it was made; none where that gives no right code."""
    for count in range(1, MOST_OF_A_FRAME + 1):
        taken = frame[: FRAME_BYTES - count]
        for places in combinations(line_feeds(taken, 0, len(taken)), count):
            mended = put_back(taken, places)
            if ecc_in(mended) and is_right(mended):
                return mended, len(taken)
    return None


def choices(data: bytes) -> Iterator[list[int]]:
    """Ways to put bytes 0D back, so that each packet stands at a word: the places before which; none where there are
    too many."""
    ways, total = [], 1
    for slip in slips(data):
        feeds = list(combinations(line_feeds(data, slip.low, slip.high), slip.lost))
        total *= len(feeds)
        if not 0 < total <= MOST_TRIED:
            return
        ways.append(feeds)
    for chosen in product(*ways):
        yield [place for places in chosen for place in places]


def with_line_ends(data: bytes, is_stream: Judge) -> bytes | None:
    """The stream of data that lost the 0D of each 0D 0A, or none."""
    if b"\r\n" in data or b"\n" not in data or x7.SYNC not in data:
        return None
    mended = by_codes(data)
    for places in choices(mended):
        found = put_back(mended, places)
        if found != data and is_stream(found):
            return found
    return None
