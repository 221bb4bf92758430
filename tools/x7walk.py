"""The frames that a stream writes, by the rules of a device (docs/FORMATS.md). No x7 is needed. python3 (3.8) and its
library alone."""
from __future__ import annotations

from typing import NamedTuple

from x7asked import Asked, asked_of
from x7device import IPROG, Device
from x7formats import CMD, FAR, FDRI, Compared, Step, command_of
from x7frames import FRAME_FAULTS, PartFrames
from x7partfile import Part, read_part
from x7parts import DEVICE_BITS
from x7run import CALLED, Refused
from x7shelf import part_of_idcode

ASKS_MORE = ("SHUTDOWN", "AGHIGH", "GRESTORE", "START", "IPROG")


class Walk(Device):
    """A device that takes a stream packet by packet, with the frames that it writes. Frame data that a device drops or
    refuses are refused."""

    def __init__(self, part: Part) -> None:
        super().__init__(part.idcode)
        # the part, and its frames
        self.part, self.part_frames = part, PartFrames(part)

    def store(self, number: int, word: int, after: int, compared: Compared | None) -> None:
        """Stores a word; FAR and CMD begin a run of frame data."""
        if number in (FAR, CMD):
            self.part_frames.store(number, word)
        super().store(number, word, after, compared)

    def execute(self, command: int, after: int) -> None:
        """Executes a command; IPROG is ignored, as by a fallback, so that the frames after it are told too."""
        if command != IPROG:
            super().execute(command, after)

    def frame_data(self, data: bytes, step: Step) -> None:
        """Takes a write of frame data, or a copy."""
        command = command_of(self.command)
        if step.present and step.register == FDRI and command != "WCFG":
            raise Refused(
                f"frame data come under the command {command}, where a device drops them: WCFG must stand before them"
            )
        super().frame_data(data, step)
        if self.dropped:
            raise Refused("frame data come where CTL0 forbids to write frames (SBITS), and a device drops them")
        if step.present and not self.has_stopped:
            is_data = step.register == FDRI
            fault = self.part_frames.add(data[step.first : step.end]) if is_data else self.part_frames.copy()
            if fault:
                far = f"{self.part_frames.base:08X}"
                said = FRAME_FAULTS[fault[0]]
                raise Refused(said.format(far=far, after=f" after {far}", part=f"the part {self.part.name}"))

    def asks_more(self) -> list[str]:
        """The commands of the stream that do more than frames say, in the order of their names."""
        return sorted({it.word for it in self.commands} & set(ASKS_MORE))


class Walked(NamedTuple):
    """A stream that a device took to its end."""

    # the device's part
    part: Part
    # the bytes of each frame that was written, by its address
    frames: dict[int, bytes]
    # the commands of the stream that do more than frames say
    commands: list[str]


def part_for(path: str, asked: Asked) -> Part:
    """The part of the shelf for a stream, by the IDCODE that it writes."""
    if not asked.idcodes:
        raise Refused(f"{path} writes no IDCODE, so no part file of the shelf can be taken: give one by --part")
    found = part_of_idcode(asked.idcodes[0])
    if not found:
        why = f"{path} is for the IDCODE {asked.idcodes[0]:08X}, of which the shelf has no part file"
        raise Refused(f"{why}: give one by --part ({CALLED}part makes it)")
    return read_part(found)


def walk_stream(path: str, part: Part | None) -> Walked:
    """The frames that the stream in a file writes, on a part, or where none is given on that of the shelf. A stream
    that isn't whole, is for another device, or stops at a fault is refused."""
    asked = asked_of(path)
    if asked.wrong:
        raise Refused(f"{path}: {asked.wrong}")
    part = part or part_for(path, asked)
    if asked.idcodes and any((it ^ part.idcode) & DEVICE_BITS for it in asked.idcodes):
        why = f"{path} is for the IDCODE {asked.idcodes[0]:08X}, and the part {part.name} has {part.idcode:08X}"
        raise Refused(f"{why}: give the part file of its device")
    walk = Walk(part)
    walk.play(asked.stream.data)
    if walk.end[0] == "fault":
        fault = " ".join(walk.end[1:])
        raise Refused(f"{path}: a device stops at a fault: {fault}, at byte {walk.taken} of the data")
    return Walked(part, walk.part_frames.memory(), walk.asks_more())
