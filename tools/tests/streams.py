"""Streams for tests, planned here: whole ones as the vendor's tool orders them, uncompressed and compressed, and
partial ones, of a small part that is made up; their headers, and what becomes of them when words are changed."""
from __future__ import annotations

from typing import Sequence

from casefiles import header, made_part_text  # (casefiles puts the tools on the path)
import x7formats as x7
from x7partfile import Part, part_of

IDCODE = 0x0362D093
PART = made_part_text("small", [(0, 0, 0, [4, 3, 5]), (0, 1, 0, [4, 3]), (1, 0, 0, [6])], "mode = 1\n")
HEAD = ["bytes " + "FF" * 32, "bytes 000000BB11220044" + "FF" * 8, "sync", "nop"]


def part() -> Part:
    """The part that the made streams are for."""
    return part_of(PART)


def data_lines(words: Sequence[int]) -> list[str]:
    """The lines of payload words, eight a line."""
    return ["data " + " ".join(f"{it:08X}" for it in words[at : at + 8]) for at in range(0, len(words), 8)]


def frame(number: int) -> list[int]:
    """A frame's words, which no packet looks like."""
    return [(number << 16 | at) & 0x0FFFFFFF for at in range(1, x7.FRAME_WORDS + 1)]


def command(name: str) -> list[str]:
    """The two lines that write a command to CMD."""
    return ["write CMD 1", f"cmd {name}"]


def order(name: str) -> list[str]:
    """A command, and a no-op after it."""
    return [*command(name), "nop"]


def written(register: str, word: str) -> list[str]:
    """The two lines that write a word to a register."""
    return [f"write {register} 1", f"data {word}"]


def beginning() -> list[str]:
    """The lines before the frames."""
    lines = HEAD + written("TIMER", "00000000") + written("WBSTAR", "00000000")
    lines += [*order("NULL"), *order("RCRC"), "nop"]
    lines += written("COR0", "02003FE5") + written("COR1", "00000000") + written("IDCODE", f"{IDCODE:08X}")
    lines += order("SWITCH") + written("MASK", "00000401") + written("CTL0", "00000501")
    return lines + written("MASK", "00000000") + written("CTL1", "00000000") + ["nop"] * 8


def end() -> list[str]:
    """The lines after the frames."""
    lines = ["crc", "nop", "nop", *order("GRESTORE"), *command("LFRM")] + ["nop"] * 100
    lines += order("START") + written("FAR", "00000000") + written("MASK", "00000501") + written("CTL0", "00000501")
    return lines + ["crc", "nop", "nop"] + command("DESYNC") + ["nop"] * 400


def full() -> list[str]:
    """The lines of an uncompressed stream."""
    words: list[int] = []
    for number, far in enumerate(part().slots()):
        words += frame(number) if far is not None else [0] * x7.FRAME_WORDS
    lines = beginning() + written("FAR", "00000000") + order("WCFG")
    return [*lines, "write FDRI 0", f"write2 {len(words)}", *data_lines(words), *end()]


def compressed() -> list[str]:
    """The lines of a compressed stream: one content, copied to all other places."""
    addresses = part().addresses()
    lines = beginning() + written("FAR", f"{addresses[0]:08X}") + order("WCFG")
    lines += [f"write FDRI {x7.FRAME_WORDS}", *data_lines(frame(1)), *command("MFW")] + ["nop"] * 12
    for far in addresses:
        lines += written("FAR", f"{far:08X}") + ["write MFWR 4", *data_lines([0] * 4)]
    return lines + end()


def debug() -> list[str]:
    """The lines of a debug stream: each frame alone, a check, and its address to LOUT."""
    lines = [*beginning(), "write LOUT 4", *data_lines([0] * 4), *written("FAR", "00000000"), *order("WCFG")]
    for number, far in enumerate(part().addresses()):
        lines += [f"write FDRI {x7.FRAME_WORDS}", *data_lines(frame(number)), "crc", *written("LOUT", f"{far:08X}")]
    return lines + end()


def partial() -> list[str]:
    """The lines of a partial stream: one frame."""
    lines = HEAD + order("RCRC") + written("IDCODE", f"{IDCODE:08X}") + command("WCFG") + written("FAR", "00000001")
    lines += [f"write FDRI {2 * x7.FRAME_WORDS}", *data_lines(frame(77) + [0] * x7.FRAME_WORDS), "crc"]
    return lines + command("DESYNC") + ["nop"] * 4


def replaced(lines: Sequence[str], old: str, new: str | list[str], count: int = 1) -> list[str]:
    """Lines with the first ones that are `old` replaced."""
    lines, at = list(lines), -1
    for _ in range(count):
        at = lines.index(old, at + 1)
        lines[at : at + 1] = new if isinstance(new, list) else [new]
    return lines


def with_data(lines: Sequence[str], register: str, word: str) -> list[str]:
    """Lines with the word of the first write to a register replaced."""
    at = lines.index(f"write {register} 1")
    return [*lines[: at + 1], f"data {word}", *lines[at + 2 :]]


def bytes_of_lines(lines: Sequence[str]) -> tuple[bytes, list[int]]:
    """The bytes of lines, and the places of the words of their checks, which aren't made."""
    data, places = bytearray(), []
    for line in lines:
        known = x7.line_bytes(line.encode())
        if line == "crc":
            places.append(len(data) + 4)
            known = x7.write_packet(x7.CRC, [0])
        if known is None:
            raise ValueError(f"no line of a listing: {line}")
        data += known
    return bytes(data), places


def data_of(lines: Sequence[str]) -> bytes:
    """The data of lines, checks made."""
    return x7.with_checks(*bytes_of_lines(lines))


def bit(lines: Sequence[str], part_name: str = "7a35tcpg236") -> bytes:
    """A .bit file of lines."""
    data = data_of(lines)
    return header(len(data), part_name) + data
