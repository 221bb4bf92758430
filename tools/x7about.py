"""What a stream is, as lines: design, part and date, frames, how a flash is read, startup, and what is forbidden.
python3 (3.8) and its library alone."""
from __future__ import annotations

from typing import NamedTuple

import x7formats as x7
from x7causes import outputs_off_at
from x7fields import field_of, fields_of
from x7notes import BUS_WIDTH, COUNTS, named
from x7subject import Source
from x7times import has_long_address, lines_of, opcode_of, rate_of
from x7watch import watch_of

FRAME_BYTES = 4 * x7.FRAME_WORDS
NAME_WIDTH = 6
# what SBITS forbids, by its code
NO_WRITES = "readback and writes forbidden (SBITS 1x)"
SECURITY = ("security 0", "readback forbidden (SBITS 01)", NO_WRITES, NO_WRITES)
CLOCKS = ("CCLK", "a clock of the design", "TCK", "TCK")
WAITS = (("LOCK_CYCLE", "the lock of clocks"), ("MATCH_CYCLE", "the match"))
ZEROS = bytes(FRAME_BYTES)


class Frames(NamedTuple):
    """The frames that a stream writes."""

    runs: int  # writes of frame data
    copies: int  # copies of a frame (MFWR)
    written: int  # frames written, pads among them where nothing tells which they are
    filled: int  # of these such as aren't all zero


def frames_of(source: Source) -> Frames:
    """The frames that a stream writes. The last frame of a run of frame data only pushes the one before into its place,
    or is the source of copies."""
    runs = copies = written = filled = 0
    last = b""
    for step in source.steps:
        if step.kind != "write" or not step.present:
            continue
        if step.register == x7.FDRI:
            data = source.data[step.first : step.end]
            frames = [data[at : at + FRAME_BYTES] for at in range(0, len(data), FRAME_BYTES)]
            landed, last = frames[:-1], frames[-1]
            runs, written, filled = runs + 1, written + len(landed), filled + sum(it != ZEROS for it in landed)
        elif step.register == x7.MFWR:
            copies, written, filled = copies + 1, written + 1, filled + (last != ZEROS)
    return Frames(runs, copies, written, filled)


def design_line(source: Source) -> str:
    """The design's name and settings, and when it was made."""
    if not source.header:
        return "unknown: the file has no header"
    name, *settings = x7.text_of(source.header.design).split(";")
    user = [it.split("=", 1)[1] for it in settings if it.lower().startswith("userid=")]
    more = [it for it in settings if not it.lower().startswith("userid=")]
    return ";".join([name, *more]) + (f", user id {user[0]}" if user else "") + f"   {source.date}"


def part_line(source: Source) -> str:
    """The part, the IDCODE, and the number of bytes."""
    idcode = source.idcode
    code = f"IDCODE {idcode.word:08X}{named(idcode.word)}" if idcode else "no IDCODE"
    told = ", as the header says" if source.header else ""
    told = f", and the header says {source.header_count}" if source.lost else told
    return f"{source.part + ', ' if source.part else ''}{code}; {len(source.data)} bytes{told}"


def frames_line(source: Source) -> str:
    """The frames and the checks."""
    found, checks = frames_of(source), source.alone.checked
    held = f"{checks} check{'' if checks == 1 else 's'}"
    ends = "" if source.alone.end == ["searching"] else f"; it ends as '{' '.join(source.alone.end)}' (why says more)"
    if not found.runs:
        return f"none; {held}{ends}"
    data = [it for it in source.steps if it.kind == "write" and it.register == x7.FDRI]
    if any(4 * it.present % FRAME_BYTES for it in data):
        return f"{sum(it.present for it in data)} words, no whole frames of {x7.FRAME_WORDS}; {held}{ends}"
    how = "compressed" if found.copies else "uncompressed"
    pads = "" if found.copies else ", pads among them"
    return f"{how}, {found.written} written{pads}, {found.filled} not zero; {held}{ends}"


def flash_line(source: Source, registers: dict[str, int]) -> str:
    """How an SPI flash is read, the watchdog, the start address, and the bus width pattern."""
    bspi, watch = registers["BSPI"], watch_of(source)
    said = [f"no opcode of an SPI flash (BSPI {bspi:08X})"]
    if opcode_of(bspi):
        bits = 32 if has_long_address(bspi) else 24
        said = [f"read by {opcode_of(bspi):02X}, {COUNTS[lines_of(bspi)]}, {bits} address bits (BSPI {bspi:08X})"]
    said.append(f"watchdog: {watch.watch.text}" if watch else "watchdog off")
    said.append(f"WBSTAR {registers['WBSTAR']:08X}")
    said.append(
        "bus width pattern" if BUS_WIDTH in source.data[: source.data.find(x7.SYNC)] else "no bus width pattern"
    )
    return "; ".join(said)


def start_line(source: Source, cor0: int) -> str:
    """The clock of startup, and its phases."""
    if not any(it.word == "START" for it in source.alone.commands):
        return "no START: a partial stream, or one that reads"
    meanings = {name: meaning for name, _, _, meaning in fields_of("COR0", cor0)}
    rate, clock = rate_of(cor0), CLOCKS[field_of(15, 2, cor0)]
    rated = f"{clock} at {rate} MHz" if rate else f"{clock}, OSCFSEL {field_of(17, 6, cor0)}"
    rated = rated if clock == "CCLK" else clock
    waits = [f"{what} {meanings[name]}" for name, what in WAITS if meanings[name] != "no wait"]
    waiting = "; ".join(waits) or "no wait for lock or match"
    return (
        f"{rated}; {waiting}; DONE in {meanings['DONE_CYCLE']}, outputs in {meanings['GTS_CYCLE']}, writes in "
        f"{meanings['GWE_CYCLE']} (COR0 {cor0:08X})"
    )


def rules_line(source: Source) -> str:
    """What CTL0 forbids."""
    ctl0 = source.alone.registers["CTL0"]
    said = ["fallback forbidden (CTL0 bit 10)" if ctl0 >> 10 & 1 else "fallback allowed"]
    said.append("outputs off (GTS_USER_B 0)" if outputs_off_at(source.alone) else "")
    said.append("configuration pins kept (PERSIST 1)" if ctl0 >> 3 & 1 else "PERSIST 0")
    said.append(SECURITY[ctl0 >> 4 & 3])
    said.append("encrypted" if ctl0 >> 6 & 1 else "not encrypted")
    return "; ".join(it for it in said if it)


def lines_about(source: Source) -> list[tuple[str, str]]:
    """The lines of a stream, each with its name."""
    registers = source.alone.registers
    return [
        ("design", design_line(source)), ("part", part_line(source)), ("frames", frames_line(source)),
        ("flash", flash_line(source, registers)), ("start", start_line(source, registers["COR0"])),
        ("rules", rules_line(source)),
    ]  # fmt: skip


def about(source: Source) -> str:
    """What a stream is. A file without a sync word is refused."""
    if x7.SYNC not in source.data:
        raise x7.Refused(f"{source.name} has no sync word: {x7.CALLED}why {source.name} says what it is")
    return "".join(f"{name:<{NAME_WIDTH}} {text}\n" for name, text in lines_about(source))
