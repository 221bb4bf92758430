"""Damage within a stream that explains more than the fault to which it leads: bytes that were lost, added, eaten or
changed, pages that weren't written, parts in another order. Each is told by what can be seen of it, or by mending it:
what then comes to its end, with checks that hold, was damaged so. python3 (3.8) and its library alone."""
from __future__ import annotations

import re
from itertools import combinations
from typing import Callable, NamedTuple, Pattern

import x7formats as x7
import x7kinds
from x7cause import COUNT_BYTES, TAKE_AGAIN, Cause, Kind, Section
from x7address import exchanged_lines
from x7lineends import with_line_ends
from x7parts import DEVICE_BITS, IDCODES, idcode_of_name, is_7_series, name_of_idcode
from x7pins import exchanged, repeated
from x7subject import Source, Untimed, Written

# a write to FDRI of fewer words than this isn't searched for packets: no frame fits in it
FEWEST_WORDS = 64
# the NOPs after frame data are searched in this many last bytes of a payload
TAIL_BYTES = 64
# how many bytes of packets `PACKETS` needs, of which all but the first may lie past the payload
PACKET_BYTES = 13
# Packets as they follow frame data: a check, a command or an address, and after it a no-op or a further packet.
PACKETS = re.compile(
    rb"\x30\x00\x00\x01.{4}(?:\x20\x00\x00\x00|\x30)|\x30\x00\x80\x01\x00\x00\x00[\x00-\x13](?:\x20\x00\x00\x00|\x30)"
    rb"|\x30\x00\x20\x01.{4}(?:\x20\x00\x00\x00|\x30\x00[\x40\x80]|\x30\x01\x40)",
    re.S,
)
# writes of commands, by which words that stand at other places than those of words are found
COMMANDS = re.compile(rb"\x30\x00\x80\x01\x00\x00\x00[\x00-\x13]")
DESYNC = x7.write_packet(x7.CMD, [x7.CODES["DESYNC"]])
# DESYNC is searched in this many last bytes: the vendor's streams have 400 no-ops after it
END_BYTES = 8192
FEWEST_ERASED = 64  # bytes FF at the end that are an erased flash
PAGE = 256  # bytes of a page of a flash
SURE_PAGE = 405  # bytes FF that aren't frames': of a frame's 404 the error correction code isn't all ones
FEWEST_ZEROS = 1024  # bytes 00 at the end that are no words of few frames
FEWEST_NOPS = 16  # words after DESYNC that are its no-ops
# how many bytes 24 bits of address reach, of an SPI flash: what ends there is cut off
ADDRESS_LIMIT = 1 << 24
FEWEST_BYTES = 512  # of a file that is judged by the bytes that it lacks
OFTEN = 24  # how often the bytes beside these must stand in it
# how many sync words after the first one are tried
MOST_SYNCS = 4


def plays(data: bytes) -> bool:
    """Whether data bring a device without frames through startup, with checks that hold."""
    device = Untimed().play(data)
    return device.end == ["searching"] and device.phase == 7 and device.checked > 0


def number_of(count: int, what: str = "byte") -> str:
    """A number of things."""
    return f"{count} {what}{'' if count == 1 else 's'}"


def counted(count: int, what: str = "byte") -> str:
    """A number of things, and that they were."""
    return f"{number_of(count, what)} {'was' if count == 1 else 'were'}"


def lost_or_added(count: int) -> str:
    """How many bytes were lost, or where the number is below 0 added."""
    return f"{counted(abs(count))} {'lost' if count > 0 else 'added'}"


# ---- bytes that a tool for texts, or a line, changes or takes


def cause_of_no_zeros(source: Source) -> Cause | None:
    """The cause where a stream has no byte 00, which every stream has, or none."""
    data = source.data
    if len(data) < FEWEST_BYTES or 0 in data or x7.SYNC not in data:
        return None
    counts = [data.count(bytes([it])) for it in range(255)]
    most = counts.index(max(counts))
    if 8 * counts[most] > len(data):
        text = (
            f"no byte 00 stands in it, and {counts[most]} bytes {most:02X}: each 00 became {most:02X}, as an editor "
            "saves a file"
        )
    else:
        text = "no byte 00 stands in it: the bytes 00 were lost, as where a tool for texts dropped them"
    return Cause(Kind.RECODED, text, "take the file again, as binary", Section.LOST_WORDS, None, source)


class Line(NamedTuple):
    """Bytes that a line takes out, or changes, as a terminal or a tool for texts does."""

    taken: tuple[int, ...]  # the bytes that are gone
    beside: tuple[int, ...]  # bytes that stand as often in any stream
    text: str  # what it is as
    trace: Pattern[bytes] | None = None  # what remains of what every stream has
    known: str = ""  # what that is


LINES = [
    Line(
        (0x11, 0x13), (0x10, 0x12, 0x14), "as where a serial line takes out XON and XOFF",
        re.compile(rb"\xff{4}\x00\x00\x00\xbb\x22\x00\x44\xff{4}"), "the bus width pattern",
    ),
    Line(
        (0x0D,), (0x0C, 0x0E), "as where it went through a transfer as text, which drops 0D or makes 0A of it",
        re.compile(rb"\x30\x00\x80\x01\x00\x00\x00\x0a?(?:\x20\x00\x00\x00){16}"), "DESYNC",
    ),
    Line((0x0A,), (0x09, 0x0B), "as where it went through a transfer as text, which drops 0A or makes 0D of it"),
    Line((0x1A,), (0x19, 0x1B), "as where a tool for texts took it for a file's end"),
    Line((0x03,), (0x02, 0x05), "as where a terminal takes it out"),
    Line((0x04,), (0x02, 0x05), "as where a terminal takes it out"),
]


def cause_of_eaten(source: Source) -> Cause | None:
    """The cause where bytes of a value are gone that stand as often as those beside it, or in every stream, or none."""
    data = source.data
    for line in LINES:
        if any(it in data for it in line.taken):
            continue
        if all(data.count(bytes([it])) >= OFTEN for it in line.beside):
            seen = f"{' and '.join(f'{it:02X}' for it in line.beside)} do"
        elif line.trace and line.trace.search(data):
            seen = f"{line.known} has it"
        else:
            continue
        names = " and no byte ".join(f"{it:02X}" for it in line.taken)
        text = f"no byte {names} stands in it, though {seen}: {line.text}"
        return Cause(Kind.RECODED, text, "take the file again, as binary", Section.LOST_WORDS, None, source)
    return None


def cause_of_text_mode(source: Source) -> Cause | None:
    """The cause where a file went through a transfer as text, which puts 0D before each 0A, or none."""
    lone = len(re.findall(rb"(?<!\r)\n", source.data))
    if lone or source.data.count(b"\n") <= 8:
        return None
    text = "the file went through a transfer as text, which puts 0D before each 0A"
    return Cause(Kind.RECODED, text, "take the file again, as binary", Section.LOST_WORDS, broken_at(source), source)


def without_slip(data: bytes) -> bytes:
    """What a frame of SLIP holds, or nothing."""
    if not (data.startswith(b"\xc0") and data.endswith(b"\xc0")) or b"\xc0" in data[1:-1]:
        return b""
    return data[1:-1].replace(b"\xdb\xdc", b"\xc0").replace(b"\xdb\xdd", b"\xdb")


class Mend(NamedTuple):
    """A way to mend what a line did."""

    back: Callable[[bytes], bytes]
    text: str  # what was done


MENDS = [
    Mend(lambda data: data.replace(b"\r\n", b"\n"), "the file went through a transfer as text, which puts 0D before "
                                                    "each 0A"),
    Mend(without_slip, "it is still in a frame of SLIP, with C0 at both ends"),
    Mend(lambda data: data.replace(b"\r\0", b"\r"), "a byte 00 stands after each 0D, as telnet sends it"),
    Mend(lambda data: data.replace(b"\xff\xff", b"\xff"), "each byte FF stands twice, as telnet sends it"),
    Mend(lambda data: data.translate(None, b"\x11\x13"), "bytes 11 and 13 (XON, XOFF) were added among its own"),
]
# how many of these are tried of a stream without a header, in which nothing tells of the right length
TRIED_ALONE = 3


def cause_of_line(source: Source) -> Cause | None:
    """The cause where a stream that was mended comes to its end, or none. With a header, the mended one has its
    length."""
    for mend in MENDS if source.header else MENDS[:TRIED_ALONE]:
        mended = mend.back(source.data)
        if len(mended) < FEWEST_BYTES or mended == source.data:
            continue
        if not source.header or len(mended) == source.header_count:
            if plays(mended):
                return Cause(
                    Kind.RECODED, mend.text, "take the file again, as binary", Section.LOST_WORDS, None, source,
                )
    return None


def cause_of_line_ends(source: Source) -> Cause | None:
    """The cause where a file went through a transfer as text that makes 0A of 0D 0A, or none."""
    data = source.data
    mended = with_line_ends(data, plays) if source.header is None or source.lost > 0 else None
    if mended is None or source.header and len(mended) != source.header_count:
        return None
    count = lost_or_added(len(mended) - len(data))
    text = f"the file went through a transfer as text, which makes 0A of 0D 0A: {count}"
    return Cause(Kind.RECODED, text, "take the file again, as binary", Section.LOST_WORDS, broken_at(source), source)


# ---- pages of a flash, and parts in another order


def broken_at(source: Source) -> int | None:
    """The place in the data of all streams after which the stream alone can't be taken, or none where it ends well."""
    return source.first + source.alone.taken if source.alone.has_stopped else None


def cause_of_erased_end(source: Source) -> Cause | None:
    """The cause where all is FF from a place within a session on, or none."""
    begin = len(source.data.rstrip(b"\xff"))
    count, end = len(source.data) - begin, source.alone
    if count < FEWEST_ERASED or end.end == ["searching"] or end.has_stopped and end.taken < begin:
        return None
    text = f"the stream stops at offset {begin}: from there on all is FF ({count} bytes), an erased flash"
    remedy = "write the flash again, and read it back: only its beginning was written"
    return Cause(Kind.ERASED, text, remedy, Section.EARLY_END, source.first + begin, source)


def cause_of_cleared_end(source: Source) -> Cause | None:
    """The cause where DESYNC and the no-ops after it stand at the end with bits cleared, or none: a flash takes a 1
    for a 0 by an erase alone."""
    data, sync = source.data.rstrip(b"\xff"), source.data.find(x7.SYNC)
    if sync < 0 or source.alone.end == ["searching"]:
        return None
    begin = max(len(data) - END_BYTES, sync)
    begin += (sync - begin) % 4
    words = list(x7.words_of(data[begin : begin + (len(data) - begin) // 4 * 4]))
    count = len(words)
    while words and words[-1] in (0, x7.word_at(x7.NOP, 0)):
        words.pop()
    if count - len(words) < FEWEST_NOPS or len(words) < 2:
        return None
    found, wanted = words[-2:], x7.words_of(DESYNC)
    cleared = sum(bin(other & ~one).count("1") for one, other in zip(found, wanted))
    if cleared < 2 or not all(found) or any(one & ~other for one, other in zip(found, wanted)):
        return None
    place, shown = begin + 4 * len(words) - 8, " ".join(f"{it:08X}" for it in found)
    text = (
        f"the stream's end, from offset {place} on, stands there with bits cleared: {shown} in place of "
        f"{DESYNC.hex(' ', 4).upper()}, as where it was written into a flash that wasn't erased"
    )
    remedy = "erase the flash and write it again; read it back"
    return Cause(Kind.ERASED, text, remedy, Section.LOST_WORDS, source.first + place + 8, source)


def cause_of_zero_end(source: Source) -> Cause | None:
    """The cause where all is 00 from a place within a session on, and no header tells that the end is missing, or
    none."""
    begin = len(source.data.rstrip(b"\0"))
    count, end = len(source.data) - begin, source.alone
    if count < FEWEST_ZEROS or source.lost > 0 or end.end == ["searching"] or end.has_stopped and end.taken < begin:
        return None
    if len(source.data) == ADDRESS_LIMIT:
        return None
    text = f"the stream stops at offset {begin}: from there on all is 00 ({count} bytes)"
    text += ", as in a file that was begun and not filled" + ("" if source.header else ", or one that is cut off")
    return Cause(Kind.CUT, text, TAKE_AGAIN, Section.EARLY_END, source.first + begin, source)


def cause_of_page(source: Source) -> Cause | None:
    """The cause where bytes FF stand within a stream as an unwritten page of a flash, or none. SURE_PAGE bytes or more
    are one; fewer only where they begin or end at a page's edge, counted in the data or in the file with its header."""
    data, head = source.data, source.header.size if source.header else 0
    sync, end = data.find(x7.SYNC), data.rfind(DESYNC)
    if sync < 0:
        return None
    found = [
        it.span() for it in re.finditer(rb"\xff{256,}", data[: end if end > 0 else len(data)]) if it.start() > sync
    ]
    for begin, after in sorted(found, key=lambda it: it[0] - it[1]):
        is_page = any((place + lead) % PAGE == 0 for place in (begin, after) for lead in (0, head))
        if after - begin >= SURE_PAGE or is_page:
            text = (
                f"from offset {begin} to {after - 1} all is FF ({after - begin} bytes), as in a flash of which a page "
                "was erased and not written"
            )
            remedy = "write the flash again, and read it back"
            return Cause(Kind.ERASED, text, remedy, Section.LOST_WORDS, source.first + begin + 1, source)
    return None


# a stream's beginning: words FF, the bus width pattern, and the sync word
LEAD, BUS_WIDTH = b"\xff" * 8, bytes.fromhex("000000BB11220044")


def begin_of_lead(data: bytes, end: int) -> int:
    """Where the bytes FF begin that end at a place: the last 65,536 bytes before it are looked at."""
    low = max(end - 65536, 0)
    return low + len(data[low:end].rstrip(b"\xff"))


def beginning(data: bytes) -> int | None:
    """Where a stream begins, with the words FF before its sync word, or none."""
    sync = data.find(x7.SYNC)
    while sync >= 0:
        lead = begin_of_lead(data, sync)
        if lead < sync and lead >= len(BUS_WIDTH) and data.startswith(BUS_WIDTH, lead - len(BUS_WIDTH)):
            first = begin_of_lead(data, lead - len(BUS_WIDTH))
            lead = first if data.startswith(LEAD, first) else lead
        if data.startswith(LEAD, lead):
            return lead
        sync = data.find(x7.SYNC, sync + 1)
    return None


def cause_of_exchange(source: Source) -> Cause | None:
    """The cause where the two parts of a file are exchanged, or none."""
    data, at = source.data, beginning(source.data)
    if at is None or at < PAGE or not PACKETS.search(data, 0, at):
        return None
    if not plays(data[at:] + data[:at]):
        return None
    text = f"the file's two parts are exchanged: the stream begins at offset {at}, and its end stands before that"
    remedy = (
        f"put them in order: tail -c +{at + 1 + (source.header.size if source.header else 0)} FILE > NEW, and the "
        "other part after it"
    )
    return Cause(Kind.TURNED, text, remedy, Section.LOST_WORDS, None, source)


def later_stream(data: bytes) -> int | None:
    """The place of a later sync word from which on data are a whole stream, or none."""
    at = data.find(x7.SYNC)
    for _ in range(MOST_SYNCS):
        at = data.find(x7.SYNC, at + 1)
        if at < 0:
            return None
        if plays(data[at:]):
            return at
    return None


def cause_of_later_stream(source: Source) -> Cause | None:
    """The cause where what stands before a whole stream keeps a device from taking it, or none."""
    data, first, at = source.data, source.data.find(x7.SYNC), later_stream(source.data)
    if at is None:
        return None
    header = data.rfind(x7.FIXED, first, at)
    if header >= 0:
        text = f"the stream is cut off at offset {header}, where the header of a second one begins, which is whole"
        return Cause(Kind.CUT, text, "give the second one alone", Section.EARLY_END, source.first + header, source)
    if x7kinds.is_stream(data[:at]):
        text = f"the stream is cut off before the sync word at offset {at}, from which on a second one is whole"
        return Cause(Kind.CUT, text, "give the second one alone", Section.EARLY_END, source.first + at, source)
    text = (
        f"the sync word at offset {first} isn't the stream's own, which stands at offset {at}: what comes between is "
        "taken for packets"
    )
    remedy = f"cut away what stands before the stream: tail -c +{at + 1} of the data, or less of it"
    return Cause(Kind.FALSE_SYNC, text, remedy, Section.NO_SYNC, source.first + first + 4, source)


def cause_of_turned_end(source: Source) -> Cause | None:
    """The cause where the end of a file is turned, and its beginning isn't, or none."""
    tail = source.data[-END_BYTES:]
    if DESYNC in tail or not COMMANDS.search(source.data):
        return None
    for way in x7kinds.WAYS:
        if any(DESYNC + x7.NOP in way.back(tail[offset:]) for offset in range(way.size)):
            text = f"{way.what} are {way.how} in its end, and not in its beginning"
            remedy = "make the file again, in one piece"
            return Cause(Kind.TURNED, text, remedy, Section.LOST_WORDS, broken_at(source), source)
    return None


# ---- bytes that were lost or added


def is_frame_data(steps: list[x7.Step], at: int) -> bool:
    """Whether a step writes frame data whose count may be believed: a type 2 packet alone right after the type 1 packet
    of no words."""
    step = steps[at]
    if step.kind != "write" or step.register != x7.FDRI or step.word_count < FEWEST_WORDS:
        return False
    before = steps[at - 1] if at else None
    return step.word >> 29 == 1 or before is not None and before.register == x7.FDRI and before.word_count == 0


def cause_of_swallowed(source: Source) -> Cause | None:
    """The cause where frame data take packets after them for frames, or end before their packets begin, or none."""
    steps = source.steps
    for at, step in enumerate(steps):
        if not is_frame_data(steps, at):
            continue
        begins = packets_begin(source.data, step)
        if begins is not None:
            return swallowed(source, step, begins)
        more = added_after(source, steps, at)
        if more:
            return cause_of_added(source, step, more)
        if step.kind == "bad":
            return None
    return None


def packets_begin(data: bytes, step: x7.Step) -> int | None:
    """Where packets begin within the payload of frame data, or none."""
    found = PACKETS.search(data, step.first, step.end + PACKET_BYTES)
    if found and found.start() < step.end:
        return found.start()
    ended = data.find(x7.NOP * 4, max(step.end - TAIL_BYTES, step.first), step.end)
    return ended if ended >= 0 and step.present < step.word_count else None


def added_after(source: Source, steps: list[x7.Step], at: int) -> int:
    """How many bytes stand between the end of frame data and the packets after them; 0 where a packet follows."""
    step = steps[at]
    following = steps[at + 1] if at + 1 < len(steps) else None
    if following is None or following.kind not in ("bad", "filler") and not is_odd(following):
        return 0
    found = PACKETS.search(source.data, step.end, step.end + (1 << 17))
    return found.start() - step.end if found else 0


def is_odd(step: x7.Step) -> bool:
    """Whether a step is a packet that doesn't follow frame data in any stream: of a register of no name, or of many
    words."""
    return step.kind in ("write", "read") and (step.register not in x7.NAMES or step.word_count > 1)


def most_lost(source: Source) -> int:
    """How many bytes may be lost: as many as a header tells, or where there is none half of what is there."""
    return max(source.lost, 0) if source.header else len(source.data) // 2


def swallowed(source: Source, step: x7.Step, begins: int) -> Cause | None:
    """The cause where packets begin within the payload of frame data, or none."""
    missing = step.first + 4 * step.word_count - begins
    head, place = x7.head_line(step), source.first + begins + 4
    if missing <= 0 or missing > most_lost(source) and not (source.lost == 0 and is_one_bit(missing)):
        return None
    if missing > most_lost(source):
        text = (
            f"the packet '{head}' takes packets after the frames for frames: its count is {missing // 4} words too "
            "large: the count is damaged, or the header's length is another file's"
        )
        return Cause(Kind.DAMAGED_WORD, text, TAKE_AGAIN, Section.LOST_WORDS, place, source)
    more = "" if source.header else ", or more, with packets after them (how many is unknown: no header)"
    if source.lost and source.lost != missing:
        more = f", and {lost_or_added(source.lost - missing)} after them or elsewhere, or the header's length is wrong"
    text = (
        f"{counted(missing)} lost among the frame data of '{head}'{more}: it takes the packets after them for frames, "
        "so check, START or DESYNC are missing"
    )
    return Cause(Kind.LOST, text, COUNT_BYTES, Section.LOST_WORDS, place, source)


def is_one_bit(count: int) -> bool:
    """Whether a number of bytes is one of words that one bit of a count tells."""
    return count % 4 == 0 and bin(count).count("1") == 1


def cause_of_added(source: Source, step: x7.Step, more: int) -> Cause | None:
    """The cause where `more` bytes stand between frame data and the packets after them, or none. They were added, or
    the count of the write is damaged and leaves them out. The header's length tells which; without a header it is
    unknown; where the length fits neither, there is no cause."""
    place = source.first + step.end + 4
    if not source.header:
        text = (
            f"{counted(more)} added among the frame data of '{x7.head_line(step)}', or its count is damaged, or others "
            "were lost, which is unknown: packets begin so much later"
        )
        return Cause(Kind.LOST, text, COUNT_BYTES, Section.LOST_WORDS, place, source)
    if source.lost == 0 and is_one_bit(more):
        text = (
            f"the packet '{x7.head_line(step)}' ends before its frames do: its count is {more // 4} words too small: "
            "it is damaged"
        )
        return Cause(Kind.DAMAGED_WORD, text, TAKE_AGAIN, Section.LOST_WORDS, place, source)
    if not source.lost or -source.lost != more:
        return None
    text = f"{counted(more)} added among the frame data of '{x7.head_line(step)}': packets begin so much later"
    return Cause(Kind.LOST, text, COUNT_BYTES, Section.LOST_WORDS, place, source)


def cause_of_shift(source: Source) -> Cause | None:
    """The cause where packets from a place on don't stand at the places of words, or none."""
    data, sync = source.data, source.data.find(x7.SYNC)
    places = [it.start() for it in COMMANDS.finditer(data, max(sync, 0))]
    shifts = [(it - data.rfind(x7.SYNC, 0, it)) % 4 for it in places]
    off = next((at for at, it in enumerate(shifts) if it), None)
    if sync < 0 or off is None:
        return None
    shift, last = shifts[off], places[off - 1] if off else sync
    where = f"between offsets {last} and {places[off]}"
    if source.lost and source.lost % 4 == 4 - shift:
        text = f"{lost_or_added(source.lost)} {where}: the packets after that aren't at the places of words"
    else:
        text = (
            f"bytes were lost or added {where}: from there on packets stand {number_of(shift)} off their words"
        )
    return Cause(Kind.LOST, text, COUNT_BYTES, Section.LOST_WORDS, source.first + places[off] + 1, source)


def cause_of_early_end(source: Source) -> Cause | None:
    """The cause where a session ends, and packets follow that no session takes, or none."""
    after = 0
    for step in source.steps:
        if step.kind == "bytes" and after:
            more = re.compile(rb"\x30\x00\x80\x01\x00\x00\x00[\x01-\x0D]").search(source.data, step.place, step.end)
            if more and (more.start() - step.place) % 4 == 0 and not source.data.startswith(x7.SYNC, step.end):
                text = (
                    f"DESYNC comes too early: the {len(source.data) - after} bytes after it, packets among them, are "
                    "not taken: another command was damaged into it"
                )
                return Cause(Kind.DAMAGED_WORD, text, TAKE_AGAIN, Section.EARLY_END, source.first + after, source)
        if step.kind == "write" and x7.ends_session(source.data, step):
            after = step.end
    return None


def cause_of_large_count(source: Source, most_reads: int) -> Cause | None:
    """The cause where a header asks for more words than x7 reads out, or than there are, or none."""
    for step in source.steps:
        ends = step.kind == "write" and x7.ends_session(source.data, step)
        missing = 4 * (step.word_count - step.present) if step.kind == "write" and not ends else 0
        if step.kind == "read" and step.word_count > most_reads or missing > 0 and source.header and missing > max(
            source.lost, 0,
        ) + 4:
            text = (
                f"'{x7.head_line(step)}' asks for more words than there can be: words were lost or added before it, or "
                "the word itself is damaged"
            )
            return Cause(Kind.LOST, text, COUNT_BYTES, Section.LOST_WORDS, source.first + step.first, source)
        if step.kind == "bad":
            return None
    return None


def cause_of_repeat(source: Source) -> Cause | None:
    """The cause where blocks of the file stand twice, or none."""
    found = repeated(source.data)
    return Cause(Kind.PINS, found.text, found.remedy, Section.LOST_WORDS, None, source) if found else None


def cause_of_lines(source: Source) -> Cause | None:
    """The cause where data lines are exchanged that leave the sync word as it is, or none."""
    found = exchanged(source.data, plays)
    return Cause(Kind.PINS, found.text, found.remedy, Section.LOST_WORDS, None, source) if found else None


def cause_of_address(source: Source) -> Cause | None:
    """The cause where two address lines are exchanged that leave the beginning as it is, or none."""
    found = exchanged_lines(source.data, plays) if not source.header else None
    return Cause(Kind.PINS, found.text, found.remedy, Section.LOST_WORDS, None, source) if found else None


def cause_of_idcode_word(source: Source, idcode: Written) -> Cause | None:
    """The cause where the stream plays with the IDCODE of a device from which its own differs in a bit or two, or
    none."""
    place = idcode.after - source.first - 4
    for known in IDCODES.values():
        if bin((known ^ idcode.word) & DEVICE_BITS).count("1") > 2:
            continue
        word = known | idcode.word & ~DEVICE_BITS
        if plays(source.data[:place] + word.to_bytes(4, "big") + source.data[place + 4 :]):
            text = (
                f"the IDCODE {idcode.word:08X}, which no device has, is damaged: with {word:08X} "
                f"({name_of_idcode(known)}) the checks hold"
            )
            return Cause(Kind.DAMAGED_WORD, text, TAKE_AGAIN, Section.OTHER_DEVICE, idcode.after, source)
    return None


def cause_of_images(source: Source) -> Cause | None:
    """The cause where the IDCODE is what those of two devices have in common, or none: in a flash that isn't erased
    between two images only bits that both have stay 1."""
    idcode = source.idcode
    code = idcode.word & DEVICE_BITS if idcode else 0
    if idcode is None or not is_7_series(code) or name_of_idcode(code):
        return None
    found = cause_of_idcode_word(source, idcode)
    own = idcode_of_name(source.part)
    pairs = [it for it in combinations(IDCODES.values(), 2) if it[0] & it[1] == code and (own is None or own in it)]
    if found or not pairs:
        return found
    names = " and ".join(f"{it:08X} ({name_of_idcode(it)})" for it in pairs[0])
    have = f"{names} have" if len(pairs) == 1 else "the IDCODEs of two devices have"
    text = (
        f"the stream writes the IDCODE {idcode.word:08X}, which no device has: it is what {have} in common, so two "
        "images may have been written into one flash that wasn't erased between"
    )
    remedy = "erase the flash, and write one image; or take the file again, where the word alone is damaged"
    return Cause(Kind.ERASED, text, remedy, Section.OTHER_DEVICE, idcode.after, source)


# What is looked for in a stream that doesn't come to its end, in this order: what is surest first.
LOOKS = [
    cause_of_repeat, cause_of_text_mode, cause_of_address, cause_of_cleared_end, cause_of_erased_end,
    cause_of_exchange, cause_of_later_stream, cause_of_turned_end, cause_of_page, cause_of_eaten, cause_of_line,
    cause_of_line_ends, cause_of_lines, cause_of_images, cause_of_zero_end, cause_of_swallowed, cause_of_shift,
]  # fmt: skip


def cause_of_damage(source: Source) -> Cause | None:
    """The cause of what is damaged within a stream that doesn't come to its end, or none."""
    if source.is_whole:
        return cause_of_swallowed(source) if source.alone.phase != 7 else None
    for look in LOOKS:
        found = look(source)
        if found:
            return found
    return None
