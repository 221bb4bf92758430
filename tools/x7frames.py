"""The frames of a part and those on their way to it, by the rules of docs/FORMATS.md: where frame data and copies land,
what a readback gives, and where FAR stands. A device that takes word by word and one that takes whole packets ask the
same of it."""
from __future__ import annotations

from typing import Tuple

from x7formats import CMD, CODES, FAR, words_of
from x7partfile import Part

WCFG, MFW = CODES["WCFG"], CODES["MFW"]
# The words of a fault of frames, or none.
Fault = Tuple[str, ...]
# What the faults of frames say: FAR, the part in words, and of an overrun after which address it comes, if that is
# known.
FRAME_FAULTS = {
    "Address": "frames go to {far}, an address that {part} doesn't have",
    "Overrun": "there are more frames{after} than {part} has places",
    "Multi": "a frame is to be copied, and none was written before",
}


class PartFrames:
    """The frames of a part that were written, as bytes by the address, and the run of frame data since the last load of
    FAR or command. What is refused changes nothing: `add` and `copy` answer the fault of it, or none."""

    def __init__(self, part: Part) -> None:
        self.size = 4 * part.frame_words  # the bytes of a frame
        self.slots = part.slots()  # those of the part, in the order of writing
        self.last_address = part.addresses()[-1]
        self.slot_of = {far: slot for slot, far in enumerate(self.slots) if far is not None}
        self.far_mask = (1 << sum(part.far)) - 1  # the bits of an address
        self.stored: dict[int, bytes] = {}  # the frames that earlier runs wrote
        self.command = 0  # the code in CMD
        self.source: bytes | None = None  # the frame that copies put
        self.base = 0  # where the run begins
        self.run = bytearray()  # the frame data of the run
        self.given = 0  # how many words of a readback were given

    # the run

    def begin_run(self, base: int) -> None:
        """Begins a run at the base."""
        self.base = base
        self.run = bytearray()
        self.given = 0

    def slots_from_base(self) -> list[int | None]:
        """The slots from the base on; none where that is no address."""
        return self.slots[self.slot_of[self.base] :] if self.base in self.slot_of else []

    def count(self) -> int:
        """How many whole frames the run has."""
        return len(self.run) // self.size

    def frame_of_run(self, number: int) -> bytes:
        """The whole frame of the run with this number, from 0."""
        return bytes(self.run[number * self.size : number * self.size + self.size])

    def landed(self) -> dict[int, bytes]:
        """The whole frames of the run but the newest, at their slots; those at pads nowhere."""
        count = self.count() - 1
        if count < 1:
            return {}
        return {far: self.frame_of_run(at) for at, far in enumerate(self.slots_from_base()[:count]) if far is not None}

    def memory(self) -> dict[int, bytes]:
        """The frames that were written so far."""
        return {**self.stored, **self.landed()}

    def far(self) -> int:
        """FAR as it is read: where the newest whole frame of the run stands, or the next word's frame of a readback."""
        if self.base not in self.slot_of:
            return self.base
        newest = max(self.count(), 4 * self.given // self.size, 1) - 1
        return next((it for it in self.slots_from_base()[newest:] if it is not None), self.last_address)

    # accesses

    def store(self, register: int, word: int) -> None:
        """Takes a word of FAR or CMD, which ends the run and begins one: at the word, or at FAR as it is read. MFW
        after WCFG takes the newest whole frame of the run that ends as its source."""
        base = word & self.far_mask if register == FAR else self.far()
        if register == CMD:
            is_source = (self.command, word & 31) == (WCFG, MFW) and self.count()
            self.source = self.frame_of_run(self.count() - 1) if is_source else None
            self.command = word & 31
        self.stored.update(self.landed())
        self.begin_run(base)

    def address_fault(self) -> Fault:
        """The fault where FAR is no address, or none."""
        return () if self.base in self.slot_of else ("Address", f"{self.base:08X}")

    def add(self, data: bytes) -> Fault:
        """Takes frame data, a word at least."""
        if self.base not in self.slot_of:
            return self.address_fault()
        if (len(self.run) + len(data)) // self.size > len(self.slots) - self.slot_of[self.base]:
            return ("Overrun",)
        self.run += data
        return ()

    def copy(self) -> Fault:
        """Puts the source at the base."""
        if self.command != MFW or self.source is None:
            return ("Multi",)
        if self.base in self.slot_of:
            self.stored[self.base] = self.source
        return self.address_fault()

    def read_back(self, count: int) -> list[int]:
        """The next words of a readback: a frame of zeros, the frames from the base on, and zeros."""
        zeros = bytes(self.size)
        frames = (self.stored.get(far, zeros) if far is not None else zeros for far in self.slots_from_base())
        data = b"".join([zeros, *frames])
        first, self.given = self.given, self.given + count
        words = list(words_of(data[4 * first : 4 * self.given]))
        return words + [0] * (count - len(words))
