"""What `why` says of streams besides the cause: settings that keep a board dead though a device starts, and what the
words can't show. python3 (3.8) and its library alone."""
from __future__ import annotations

import x7formats as x7
from x7cause import DAMAGED, Cause
from x7codes import codes_of
from x7parts import DEVICE_BITS, SSI, bare, family_of, idcode_of_name, name_of_idcode
from x7subject import Source, Subject
from x7times import has_long_address, lines_of, opcode_of
from x7watch import notes_of_watchdog

# What stands before a sync word, by which a bus of 8, 16 or 32 bits finds its width (UG470, bus width detection).
BUS_WIDTH = bytes.fromhex("000000BB11220044")
NO_WAIT = 7
COUNTS = {1: "one line", 2: "two lines", 4: "four lines"}


def named(idcode: int) -> str:
    """The device of an IDCODE in brackets, or nothing."""
    name = name_of_idcode(idcode)
    return f" ({name})" if name else ""


def has_check(source: Source) -> bool:
    """Whether a stream writes a word to CRC."""
    return bool(source.writes(x7.CRC))


def of_name(source: Source, subject: Subject) -> str:
    """Which stream is meant, where there are several."""
    return f" of {source.name}" if len(subject.sources) > 1 else ""


def notes_of_source(source: Source, subject: Subject) -> list[str]:
    """What is worth saying of one stream."""
    notes = []
    if source.has_frames and not has_check(source) and source.is_whole:
        notes.append(
            f"no write to CRC{of_name(source, subject)}: the stream has no check, so damage on its way shows nowhere "
            "(BITSTREAM.GENERAL.CRC DISABLE, or RCRC in its place)",
        )
    idcode = source.idcode
    if idcode and idcode.word & DEVICE_BITS in SSI:
        notes.append(
            f"{idcode.word:08X} is a device of several dies, whose streams hold further ones in register R30: x7 plays "
            "the first die's alone",
        )
    by_header = idcode_of_name(source.part)
    is_played = subject.report is not None or subject.part is not None
    if is_played and idcode and by_header is not None and (by_header ^ idcode.word) & DEVICE_BITS:
        notes.append(
            f"the header{of_name(source, subject)} names {source.part}, which has {by_header:08X}, and the stream "
            f"writes the IDCODE {idcode.word:08X}{named(idcode.word)}: the header is another stream's, or the word is "
            "damaged",
        )
    return notes + notes_of_width(source, subject) + notes_of_copies(source, subject) + notes_of_codes(source, subject)


def notes_of_codes(source: Source, subject: Subject) -> list[str]:
    """Where a few frames of a whole stream have another error correction code than their words, and most have not."""
    codes = codes_of(source.data) if source.has_frames and source.is_whole else None
    if codes is None or not codes.wrong or 2 * len(codes.wrong) > codes.held:
        return []
    return [
        f"the error correction code of {len(codes.wrong)} of {codes.held} frames{of_name(source, subject)} isn't that "
        f"of their words, first at offset {codes.wrong[0]}: frames that were changed, as by hand or after a readback. "
        f"A device takes them, and its own readback check (POST_CRC, SEM) tells of errors: {x7.CALLED}frames mend "
        "makes it anew",
    ]


def notes_of_copies(source: Source, subject: Subject) -> list[str]:
    """Where a second header stands in a file."""
    at = source.data.find(x7.FIXED)
    if at < 0:
        return []
    return [f"a second header of a .bit file stands at offset {at} of the data{of_name(source, subject)}"]


def notes_of_width(source: Source, subject: Subject) -> list[str]:
    """Where a full stream lacks the bus width pattern, or has another one."""
    before = source.data[: max(source.data.find(x7.SYNC), 0)]
    if not source.has_frames or not source.writes(x7.COR0) or BUS_WIDTH in before:
        return []
    what = "is damaged" if before.strip(b"\xff") else "is missing"
    return [
        f"the bus width pattern 000000BB 11220044 before the sync word{of_name(source, subject)} {what}: BPI and "
        "SelectMAP need it, SPI, serial and JTAG don't",
    ]


def notes_of_package(subject: Subject) -> list[str]:
    """Where the part file, or a header, names another package of the same device than a header does."""
    names = [it.part for it in subject.sources if it.part]
    given = [subject.part.name] if subject.part else []
    for one, other in zip([*given, *names], [*given, *names][1:]):
        codes = idcode_of_name(one), idcode_of_name(other)
        if codes[0] is None or codes[0] != codes[1] or not has_package(one) or not has_package(other):
            continue
        if package_of(one) != package_of(other):
            return [f"{one} and {other} are one die in two packages: the pins differ, so a stream for the one drives "
                    "other pins of the other"]
    return []


def package_of(part: str) -> str:
    """The package that a part's name has after the device's, without the speed grade; nothing of another name."""
    name = (name_of_idcode(idcode_of_name(part) or 0) or "")[2:]
    if not name:
        return ""
    return bare(part)[len(name) :].split("-")[0].lower()


def has_package(part: str) -> bool:
    """Whether a part's name has a package."""
    return bool(package_of(part))


def notes_of_waits(subject: Subject) -> list[str]:
    """Where startup waits for clocks or impedance on a board, and not in x7, since the part file has no number for
    it."""
    cor0, part, notes = subject.fate.registers.get("COR0", 0), subject.part, []
    for name, low, what, ticks in (
        ("LOCK_CYCLE", 6, "the clocks to lock", part.lock if part else 0),
        ("MATCH_CYCLE", 9, "the impedance to match", part.match if part else 0),
    ):
        phase = cor0 >> low & 7
        if phase != NO_WAIT and not ticks and subject.fate.phase == 7:
            notes.append(
                f"startup waits in phase {phase} for {what} ({name} of COR0 {cor0:08X}), which x7 takes to come at "
                "once: where it doesn't on a board, DONE stays low and nothing tells of an error",
            )
    return notes


def notes_of_flash(subject: Subject) -> list[str]:
    """How an SPI flash is to be read, where that asks for more than every flash and board has."""
    bspi = subject.fate.registers.get("BSPI", 0)
    lines, is_long = lines_of(bspi), has_long_address(bspi)
    if not opcode_of(bspi) or lines == 1 and not is_long:
        return []
    needs = [f"all {lines} data lines must be wired, and the flash must have them enabled"] if lines > 1 else []
    needs += ["the flash must know opcodes with 32 address bits, as those of more than 16 MiB do"] if is_long else []
    width = 32 if is_long else 24
    return [f"from an SPI flash it is read by the opcode {opcode_of(bspi):02X} over {COUNTS[lines]}, with {width} "
            f"address bits (BSPI {bspi:08X}): {'; '.join(needs)}"]


def notes_of_clock(subject: Subject) -> list[str]:
    """Where startup runs on another clock than CCLK."""
    cor0 = subject.fate.registers.get("COR0", 0)
    is_boot = subject.report is not None and bool(subject.report.attempts)
    if cor0 >> 16 & 1 and not is_boot:
        return ["startup runs on TCK (SSCLKSRC of COR0 is JtagClk): from a flash DONE would stay low"]
    if cor0 >> 15 & 3 == 1:
        return ["startup runs on a clock of the design (SSCLKSRC of COR0 is UserClk): it goes on only while that runs"]
    return []


def notes_of_wrap(subject: Subject) -> list[str]:
    """Where an attempt ended at the flash's end."""
    wraps = [it for it in (subject.report.attempts if subject.report else []) if it.ending == "wrap"]
    if not wraps:
        return []
    return [
        f"wrap says that from {wraps[0].address:08X} on no stream came to its end before the flash's: none is there, "
        "or it has no sync word, or the place is past the flash's end. The guide has this end for BPI alone: with an "
        "SPI flash a board may hang there",
    ]


def notes_of_others(subject: Subject) -> list[str]:
    """Where a flash that is given beside the report of its boot has streams for different devices."""
    if subject.report is None or not subject.report.attempts:
        return []
    notes = []
    for source in subject.sources:
        codes = {it.word & DEVICE_BITS: it.word for it in source.writes(x7.IDCODE)}
        if len(codes) > 1:
            names = " and ".join(f"{it:08X}{named(it)}" for it in codes.values())
            notes.append(f"{source.name} has streams for different devices: {names}; no device takes both")
    return notes


def notes_of(subject: Subject, found: Cause | None) -> list[str]:
    """What is worth saying besides a cause, or where there is none."""
    if found and (found.kind in DAMAGED or found.section is None) or any(family_of(it.part) for it in subject.sources):
        return []
    notes = [note for source in subject.sources for note in notes_of_source(source, subject)]
    notes += notes_of_package(subject) + notes_of_wrap(subject) + notes_of_others(subject)
    if not subject.has("START"):
        return notes
    return notes + notes_of_clock(subject) + notes_of_waits(subject) + notes_of_watchdog(subject) + notes_of_flash(
        subject
    )
