"""What `why` says of a file that isn't a stream as it stands, or is one of another family. python3 (3.8) and its
library alone."""
from __future__ import annotations

import re

import x7formats as x7
import x7kinds
from x7address import exchanged_lines
from x7cause import TAKE_AGAIN, Cause, Kind, Section
from x7codes import Alone, frames_alone
from x7damage import plays
from x7parts import family_of, idcode_of_name, is_7_series
from x7pins import wires_of
from x7subject import Source

# the first bytes of a file that are looked at before all of it
LOOK_BYTES = 65536
SERIES_7 = "x7 reads streams of 7-series devices: Spartan-7, Artix-7, Kintex-7, Virtex-7, Zynq-7000"
# The lowest twelve bits of each IDCODE of the maker.
MAKER_BITS, MAKER = 0xFFF, 0x093
# Registers of Spartan-3 and Virtex-II that have other names in the 7 series: the frame length (FLR) and IDCODE.
OLD_FLR, OLD_IDCODE = 11, 14
# how many packets of 16 bits a Spartan-6's stream begins with at least, and how many words one may have there
FEWEST_PACKETS, MOST_COUNT = 6, 8
FRAME_BYTES = 4 * x7.FRAME_WORDS


def unsynced(kind: Kind, text: str, remedy: str, source: Source) -> Cause:
    """A cause by which a file has no sync word."""
    return Cause(kind, text, remedy, Section.NO_SYNC, None, source)


# ---- files


def cause_of_file(source: Source) -> Cause | None:
    """The cause where a file can't be a stream as it is, or none."""
    data = source.data
    if not data:
        return cause_of_empty(source)
    has_sync, reads = x7.SYNC in data, x7kinds.is_stream(data)
    kind = x7kinds.kind_of(data) if not source.header else None
    if kind and (x7kinds.packed_kind_of(data) or not has_sync or not reads):
        return unsynced(Kind.OTHER_FILE, f"{'' if has_sync else 'no sync word: '}{kind.what}", kind.remedy, source)
    if reads:
        return None
    found = x7kinds.turning_of(data) if not is_of_16_bits(data) else None
    if found:
        lead = "after the sync word stands no packet: " if has_sync else "no sync word: "
        return unsynced(
            Kind.TURNED, f"{lead}{found.way.what} are {found.way.how}", f"{x7.CALLED}turn FILE > NEW", source,
        )
    if not has_sync:
        return cause_of_no_sync(source)
    wires = exchanged_lines(data, plays) or wires_of(data, plays)
    if not wires:
        return None
    return unsynced(Kind.PINS, f"after the sync word stands no packet: {wires.text}", wires.remedy, source)


def cause_of_empty(source: Source) -> Cause:
    """The cause of a file without data."""
    if source.header:
        text = f"the stream is cut off right after its header, which tells of {source.header_count} bytes of data"
        return unsynced(Kind.CUT, text, TAKE_AGAIN, source)
    text = (
        "the file is empty; if it should be a listing, `x7 list` refused the stream, and its line on standard error "
        "says why"
    )
    return unsynced(Kind.EMPTY, text, "write it again", source)


def cause_of_no_sync(source: Source) -> Cause:
    """The cause where a file has no sync word, and is of no other kind that is known."""
    data = source.data
    if len(set(data[:LOOK_BYTES])) == 1 and len(set(data)) == 1 and source.lost <= 0:
        named = {0xFF: "all bytes are FF, as in an erased flash", 0: "all bytes are 00"}
        text = f"no sync word: {named.get(data[0], f'all bytes are {data[0]:02X}')}"
        return unsynced(Kind.ERASED, text, "write the stream into it, or look where the file comes from", source)
    wires = exchanged_lines(data, plays) or wires_of(data, plays)
    if wires:
        return unsynced(Kind.PINS, f"no sync word: {wires.text}", wires.remedy, source)
    packets = re.search(rb"\x30\x00\x80\x01\x00\x00\x00[\x00-\x13]|\x30\x01\x80\x01....", data, re.S)
    if packets:
        what = damaged_sync(data, packets.start())
        text = f"no sync word AA995566, though packets follow from offset {packets.start()} on: {what}"
        return unsynced(Kind.NO_BEGINNING, text, TAKE_AGAIN, source)
    alone = frames_alone(data)
    if alone:
        return cause_of_frames(source, alone)
    if source.lost > 0:
        text = (
            f"the stream is cut off before its sync word: its header tells of {source.header_count} bytes, and it has "
            f"{len(data)}"
        )
        return unsynced(Kind.CUT, text, TAKE_AGAIN, source)
    bits = x7kinds.late_by(data)
    if bits:
        text = f"no sync word: all bits come {bits} places late, as where a clock was lost or added"
        return unsynced(Kind.TURNED, text, "send it again; look at the clock's edge", source)
    return cause_of_unknown(source)


def cause_of_frames(source: Source, alone: Alone) -> Cause:
    """The cause where a file is frames without packets, as a readback gives them."""
    turned = f", {alone.way.what} {alone.way.how}" if alone.way else ""
    late = f", from offset {alone.first} on" if alone.first else ""
    codes = f"the error correction code (word 50) is right in {alone.right} of the first frames that hold something"
    text = f"no sync word, and no packets: it is frame data alone, as of a readback{turned}{late}: {codes}"
    remedy = "a device takes no frames without packets: give the .bit or .bin file from which it was configured"
    return unsynced(Kind.OTHER_FILE, text, remedy, source)


def cause_of_unknown(source: Source) -> Cause:
    """The cause where nothing names why the sync word is missing: what was seen."""
    data = source.data
    lead = len(data) - len(data.lstrip(b"\xff"))
    seen = f"{lead} bytes FF, and then " if lead else "its first bytes are "
    text = f"no sync word AA995566, nor one in any way that {x7.CALLED}turn knows: what the file is is unknown"
    if not len(data) % FRAME_BYTES:
        text += (
            f"; its {len(data)} bytes are {len(data) // FRAME_BYTES} frames exactly, so it may be frame data alone, as "
            "of a readback"
        )
    shown = data[lead : lead + 32].hex(" ", 4).upper()
    return unsynced(Kind.UNKNOWN, text, f"look where the file comes from: {seen}{shown}", source)


def damaged_sync(data: bytes, packets: int) -> str:
    """What became of the sync word before packets."""
    before = data[max(packets - 64, 0) : packets]
    for at in range(0, len(before) - 3):
        differs = int.from_bytes(before[at : at + 4], "big") ^ x7.SYNC_WORD
        if bin(differs).count("1") <= 4:
            return f"it is damaged: {before[at:at + 4].hex().upper()} stands where it should"
    return "the beginning of the stream is lost"


# ---- other families


def foreign(text: str, remedy: str, after: int | None, source: Source) -> Cause:
    """A cause by which a stream is of another family."""
    return Cause(Kind.OTHER_FAMILY, text, remedy, Section.OTHER_DEVICE, after, source)


def cause_of_header(source: Source) -> Cause | None:
    """The cause where the header names a part of another family, or none."""
    family = family_of(source.part)
    if not family:
        return None
    text = f"by its header the stream is for the part {source.part}, of the family {family}, and for no 7-series device"
    return foreign(text, SERIES_7, None, source)


def cause_of_family(source: Source) -> Cause | None:
    """The cause where the first packets are another family's, or none."""
    if is_of_16_bits(source.data):
        text = "its packets have words of 16 bits, as those of a Spartan-6 have, and no 7-series device's"
        return foreign(text, SERIES_7, None, source)
    old = next(iter(source.writes(OLD_IDCODE)), None)
    if old and source.writes(OLD_FLR) and old.word & MAKER_BITS == MAKER and not is_7_series(old.word):
        text = f"it writes the IDCODE {old.word:08X} to register 14, as streams of Spartan-3 and Virtex-II do"
        return foreign(text, SERIES_7, old.after, source)
    idcode = source.idcode
    if not idcode or is_7_series(idcode.word) or idcode_of_name(source.part) is not None:
        return None
    if idcode.word & MAKER_BITS != MAKER:
        return None
    text = (
        f"the stream is for the IDCODE {idcode.word:08X}, which is one of no 7-series device: other families have "
        "other frames"
    )
    return foreign(text, "give a stream of a 7-series device", idcode.after, source)


def is_of_16_bits(data: bytes) -> bool:
    """Whether after the sync word stand packets of 16 bits (UG380, packet types): type 31:29 of a word's upper half
    001, opcode, register and count in the same half."""
    place, packets = data.find(x7.SYNC) + 4, 0
    while 4 <= place < len(data) - 1 and packets < FEWEST_PACKETS:
        head = int.from_bytes(data[place : place + 2], "big")
        if head >> 13 != 1 or head & 31 > MOST_COUNT:
            return False
        if head >> 11 & 3:
            packets += 1
        place += 2 + 2 * (head & 31)
    return packets >= FEWEST_PACKETS
