"""The layouts of a flash that is updated, and what is in it: that of slots, which `x7 update` takes (docs/FORMATS.md,
flash images), and the vendor's MultiBoot, a golden stream at 0 that leads to one update. python3 (3.8) and its
library alone."""
from __future__ import annotations

from typing import NamedTuple, Union

from x7asked import Asked
from x7formats import DUMMY_WORD, SYNC, Stream, end_of_nops, ends_session, steps, word_at
from x7run import Refused

SECTOR, SLOTS, SLOT_SIZE = 65536, 2048, 32
MOST_FLASH = 134217728
FREE, SPENT = b"\xff" * 4, b"\0" * 4
# What stands in a slot after its switch word, around the start address.
BEFORE_START, AFTER_START = bytes.fromhex("2000000030020001"), bytes.fromhex("300080010000000F300080010000000D")
# A run of FF of this many bytes in a session is erased flash.
ERASED_RUN = 4096
# The bits of WBSTAR that are a place in bytes, and those that count 256 bytes (UG470, warm boot start address
# register).
BYTE_BITS, LONG_BITS, LONG_UNIT = (1 << 29) - 1, (1 << 24) - 1, 256


class Layout(NamedTuple):
    """A flash with slots. Places are bytes of the flash."""

    update: int  # where the update stands
    opened: int | None  # the slot that is open, or none
    next: int  # the slot that an update opens

    @property
    def golden(self) -> int:
        """Where the golden stream stands."""
        return SECTOR


class VendorLayout(NamedTuple):
    """A flash of the vendor's MultiBoot: the golden stream at 0 writes WBSTAR and IPROG, and leads to the update."""

    update: int  # where the update stands
    end: int  # the place after the golden stream's session
    timer: int  # the word of TIMER at the golden stream's IPROG, which the attempt at the update keeps
    sync: int | None  # the place of the first sync word from the update's place on, or none

    @property
    def golden(self) -> int:
        """Where the golden stream stands."""
        return 0


AnyLayout = Union[Layout, VendorLayout]


def slot_of(start: bytes) -> bytes:
    """An open slot that leads to this start address."""
    return SYNC + BEFORE_START + start + AFTER_START


def begins_with_slots(data: bytes) -> bool:
    """Whether data, of a flash or its listing, begin as the first sector of an image does."""
    beginning = data[: SLOT_SIZE + 8]
    return BEFORE_START in beginning and AFTER_START in beginning


def refuse_layout(place: int, why: str) -> None:
    """Refuses a flash without a layout, by the first byte that differs from one."""
    raise Refused(f"layout byte {place}: {why}")


def check_size(size: int) -> None:
    """Refuses a size that no flash, or region of one, has that is updated."""
    if size % SECTOR or not 2 * SECTOR <= size <= MOST_FLASH:
        what = f"no two or more whole sectors of {SECTOR} up to {MOST_FLASH}"
        refuse_layout(size, f"the flash has {size} bytes, and {what}")


def layout_of(first: bytes, size: int | None = None) -> Layout:
    """Where the update of a flash stands, which slot is open, if one is, and which is the next. `first` is the flash,
    or its first sector where `size` gives the flash's bytes. A flash without a layout is refused with the place that
    `x7 update` tells."""
    size, wanted = len(first) if size is None else size, slot_of(first[12:16])
    check_size(size)
    check_slot(first, 0, wanted)
    update = word_at(first, 12)
    if update % SECTOR or not 2 * SECTOR <= update <= size:
        what = "is no sector of this flash after the golden stream's"
        unit = "of a part whose start address counts 256 bytes no flash with slots is updated"
        refuse_layout(12, f"the start address {update:08X} {what} ({unit})")
    return Layout(update, *slots_of(first, wanted))


def slots_of(first: bytes, wanted: bytes) -> tuple[int | None, int]:
    """Which slot is open, if one is, and which is the next, of slots that lead where the first one does."""
    opened, next_slot = None, 0
    for slot in range(SLOTS):
        check_slot(first, slot, wanted)
        switch = first[SLOT_SIZE * slot : SLOT_SIZE * slot + 4]
        if switch == SYNC and opened is not None:
            refuse_layout(SLOT_SIZE * slot, f"slot {slot} is open, and so is slot {opened}")
        opened = slot if switch == SYNC else opened
        next_slot = next_slot if switch == FREE else slot + 1
    if next_slot == SLOTS:
        why = "the last slot is used up, or the first sector was damaged: a new image has to be written"
        refuse_layout(SLOT_SIZE * (SLOTS - 1), why)
    return opened, next_slot


def check_slot(first: bytes, slot: int, wanted: bytes) -> None:
    """Refuses a slot that leads elsewhere than the first one, or isn't one."""
    for place in range(4, SLOT_SIZE):
        if first[SLOT_SIZE * slot + place : SLOT_SIZE * slot + place + 1] != wanted[place : place + 1]:
            why = "no image of `x7 image` begins so, or its first sector was damaged"
            refuse_layout(SLOT_SIZE * slot + place, why)


# ---- the vendor's MultiBoot


def start_place(wbstar: int, unit: int) -> int:
    """The place in bytes to which WBSTAR leads, of a part whose start address counts so many bytes."""
    return wbstar & BYTE_BITS if unit == 1 else (wbstar & LONG_BITS) * LONG_UNIT


def vendor_golden_of(flash: bytes) -> Asked | None:
    """What the stream at 0 asks, as a fallback reads it, where it leads on before its frames; else none. A slot, which
    leads on too, has no frames."""
    end = None if begins_with_slots(flash) else session_end(flash, 0)
    if end is None or Asked(Stream(None, flash[:end])).device.end[0] != "iprog":
        return None
    golden = Asked(Stream(None, flash[:end]), ignores_iprog=True)
    return golden if golden.has_frames else None


def vendor_layout_of(flash: bytes, size: int, unit: int) -> VendorLayout:
    """Where the golden stream at 0 leads, of a part whose start address counts `unit` bytes; or a refusal of a flash in
    which it leads nowhere that an update can stand."""
    check_size(size)
    golden = vendor_golden_of(flash)
    if golden is None:
        raise Refused("no whole stream at 0 leads on by WBSTAR and IPROG, as the vendor's MultiBoot has it")
    end = len(golden.stream.data)
    at_jump = Asked(golden.stream).device
    update = start_place(at_jump.registers["WBSTAR"], unit)
    leads = f"the golden stream at 0 leads to {update:08X}"
    if update % SECTOR:
        raise Refused(f"{leads}, where no sector of {SECTOR} bytes begins: its erase would take what is before it")
    if not -(-end // SECTOR) * SECTOR <= update < size:
        raise Refused(f"{leads}, and an update stands after the golden stream's sectors and before the end, {size:08X}")
    found = flash.find(SYNC, update, size)
    return VendorLayout(update, end, at_jump.registers["TIMER"], None if found < 0 else found)


def any_layout_of(flash: bytes, size: int, unit: int = 1, wants_vendor: bool = False) -> AnyLayout:
    """The layout of a flash: the vendor's where it is wanted or what is at 0 shows it, else that of slots."""
    if wants_vendor or vendor_golden_of(flash) is not None:
        return vendor_layout_of(flash, size, unit)
    return layout_of(flash, size)


# ---- what stands in a flash


def session_end(flash: bytes, place: int) -> int | None:
    """Where the first session from a place on ends, no-ops after it included; or none where words come that no stream
    has, or a run of FF as an erased flash has."""
    data, erased = flash[place:], 0
    for step in steps(data):
        erased = erased + 1 if step.kind == "filler" and step.word == DUMMY_WORD else 0
        if step.kind == "bad" or 4 * erased > ERASED_RUN:
            return None
        if step.kind == "write" and ends_session(data, step):
            end: int = place + end_of_nops(data, step.end)
            return end
    return None


def old_end(flash: bytes, update: int) -> int:
    """Where the update that a flash holds ends: after its session; of one that was cut off where an erased run
    begins; at its place where no stream begins there."""
    if SYNC not in flash[update : update + SECTOR]:
        return update
    end = session_end(flash, update)
    if end is not None:
        return end
    erased = flash.find(b"\xff" * ERASED_RUN, update)
    return len(flash) if erased < 0 else erased


class Rest(NamedTuple):
    """Bytes that aren't FF, of a part of a flash."""

    first: int  # the place of the first one
    last: int  # that of the last one
    held: int  # how many


def rest_of(flash: bytes, begin: int) -> Rest | None:
    """The bytes from a place on that aren't FF, or none."""
    data = flash[begin:]
    left = data.lstrip(b"\xff")
    if not left:
        return None
    return Rest(begin + len(data) - len(left), begin + len(data.rstrip(b"\xff")) - 1, len(data) - data.count(0xFF))


def lengthened(path: str, count: int | None) -> str:
    """How a file that lacks the last bytes of its flash, which are FF, gets them: a command; N stands in it for a count
    that isn't known."""
    return f"head -c {'N' if count is None else count} /dev/zero | tr '\\0' '\\377' >> {path}"


def region_end(words: str, size: int) -> int:
    """The end of a region by its hexadecimal digits: a beginning of a sector in a flash of this size, or its end."""
    try:
        end = int(words, 16)
    except ValueError:
        raise Refused(f"--end {words} is no place in hexadecimal digits") from None
    if end % SECTOR or not 2 * SECTOR <= end <= size:
        raise Refused(f"--end {end:08X}: no sector of {SECTOR} bytes begins there, from {2 * SECTOR:08X} to {size:08X}")
    return end


def golden_of(flash: bytes, layout: AnyLayout) -> Asked:
    """What the golden stream of a flash asks, as a fallback reads it: its first session, or all up to the update's
    place where that doesn't end."""
    if isinstance(layout, VendorLayout):
        return Asked(Stream(None, flash[: layout.end]), ignores_iprog=True)
    end = session_end(flash[: layout.update], layout.golden)
    return Asked(Stream(None, flash[layout.golden : layout.update if end is None else end]), ignores_iprog=True)
