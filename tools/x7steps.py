"""The steps of an update of a flash, in their order, as values and as lines (tools/flash_steps has the form of a line).
python3 (3.8) and its library alone."""
from __future__ import annotations

from enum import Enum
from typing import Iterator, NamedTuple

from x7formats import SYNC
from x7layout import FREE, SECTOR, SLOT_SIZE, SPENT, Layout, VendorLayout

# How many bytes a program has at most, and ends with: the page of nearly every SPI flash.
PAGE = 256


class Verb(Enum):
    """What a step does with the flash."""

    ERASE = "erase"  # all its bytes become FF
    PROGRAM = "program"  # its bytes are programmed, without an erase
    READ = "read"  # its bytes are read back, and are those


class Step(NamedTuple):
    """A step on the bytes of a flash from a place on."""

    verb: Verb  # what it does
    place: int  # its first byte
    data: bytes  # the bytes that it programs or reads; of an erase, FF
    offset: int | None  # where they stand in the data of the stream, where they are a part of it


def pieces(place: int, count: int, page: int) -> Iterator[tuple[int, int]]:
    """Places and sizes that cover `count` bytes from a place on, cut where a page ends; uncut where `page` is 0."""
    end = place + count
    while place < end:
        size = min(end, place // page * page + page) - place if page else end - place
        yield place, size
        place += size


def of_stream(
    verb: Verb, update: int, data: bytes, page: int, first: int = 0, end: int | None = None
) -> Iterator[Step]:
    """Programs of the bytes of a stream from `first` to `end`, to its end where none is said, or reads of them, page by
    page."""
    count = (len(data) if end is None else end) - first
    for place, size in pieces(update + first, count, page):
        offset = place - update
        yield Step(verb, place, data[offset : offset + size], offset)


def erases(update: int, size: int) -> Iterator[Step]:
    """Erases of all sectors from the update's place to the end."""
    for place in range(update, size, SECTOR):
        yield Step(Verb.ERASE, place, b"\xff" * SECTOR, None)


def erased_rest(end: int, size: int) -> Iterator[Step]:
    """The read of what is after the stream, where there is any: it is all FF."""
    if end < size:
        yield Step(Verb.READ, end, b"\xff" * (size - end), None)


def slot_steps(layout: Layout, size: int, data: bytes, page: int) -> list[Step]:
    """The steps of an update of a flash with slots, of `size` bytes, in the order of `x7 update`."""
    steps: list[Step] = []
    if layout.opened is not None:
        steps.append(Step(Verb.PROGRAM, SLOT_SIZE * layout.opened, SPENT, None))
    steps += erases(layout.update, size)
    steps += of_stream(Verb.PROGRAM, layout.update, data, page)
    steps += of_stream(Verb.READ, layout.update, data, page)
    steps += erased_rest(layout.update + len(data), size)
    return steps + [Step(verb, SLOT_SIZE * layout.next, SYNC, None) for verb in (Verb.PROGRAM, Verb.READ)]


def vendor_steps(layout: VendorLayout, size: int, data: bytes, page: int) -> list[Step]:
    """The steps of an update of the vendor's MultiBoot: the sync word of what stands there is cleared first, and that
    of the new stream written last, once all else was read back. In between no stream begins at the update's place."""
    sync, update = data.index(SYNC), layout.update
    place, after = update + sync, sync + len(SYNC)
    steps: list[Step] = []
    if layout.sync is not None:
        steps.append(Step(Verb.PROGRAM, layout.sync, SPENT, None))
    steps += erases(update, size)
    steps += of_stream(Verb.PROGRAM, update, data, page, 0, sync)
    steps += of_stream(Verb.PROGRAM, update, data, page, after)
    steps += of_stream(Verb.READ, update, data, page, 0, sync)
    steps.append(Step(Verb.READ, place, FREE, None))
    steps += of_stream(Verb.READ, update, data, page, after)
    steps += erased_rest(update + len(data), size)
    return steps + [Step(verb, place, SYNC, None) for verb in (Verb.PROGRAM, Verb.READ)]


def line_of(step: Step, header: int, has_bytes: bool) -> str:
    """The line of a step; `header` are the bytes before the data in the stream's file. With `has_bytes` it holds the
    bytes themselves, and where not their place in the file."""
    begin = f"{step.verb.value} {step.place:08X} {len(step.data)}"
    if step.verb is Verb.ERASE:
        return begin
    if step.offset is not None:
        return f"{begin} {step.data.hex().upper()}" if has_bytes else f"{begin} from {header + step.offset}"
    is_erased = step.verb is Verb.READ and not step.data.strip(b"\xff")
    return f"{begin} erased" if is_erased else f"{begin} {step.data.hex().upper()}"


def done(flash: bytearray, step: Step) -> bool:
    """Does a step: an erase sets bits, a program clears them. Answers whether the bytes are then those of the step."""
    area = slice(step.place, step.place + len(step.data))
    if step.verb is Verb.ERASE:
        flash[area] = step.data
    elif step.verb is Verb.PROGRAM:
        both = int.from_bytes(flash[area], "big") & int.from_bytes(step.data, "big")
        flash[area] = both.to_bytes(len(step.data), "big")
    return flash[area] == step.data
