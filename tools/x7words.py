"""What a word that a board gives tells at once, and where the page BOARD has more."""
from __future__ import annotations

from typing import NamedTuple

from x7cause import Section
from x7fields import PHASE_OF_STATE, field_of

HELD_LOW = "the device has released DONE, and the pin is low: something on the board holds it"


class Reading(NamedTuple):
    """What a word says."""

    text: str
    section: Section | None  # where BOARD has more, or none where all is as it should be


def reading_of_stat(word: int) -> Reading:
    """What STAT says (UG470, status register), the first that holds."""
    phase = PHASE_OF_STATE[field_of(18, 3, word)]
    is_done_low = not word >> 14 & 1
    if word in (0, 0xFFFFFFFF):
        return Reading("no device answers: the cable, the chain or the power", Section.NO_ANSWER)
    if word >> 15 & 1:
        return Reading("the stream is for another device, or writes frames before its IDCODE", Section.OTHER_DEVICE)
    if word & 1:
        return Reading("a check failed: words were damaged or lost on their way", Section.CHECK)
    if not word >> 11 & 1:
        text = "the device is still clearing its memory, or PROGRAM_B is held low, or its supply isn't good"
        return Reading(text, Section.NO_ANSWER)
    if not word >> 12 & 1 and phase == 0 and is_done_low:
        return Reading("INIT_B is low without a failed check: something on the board holds it", Section.NO_ANSWER)
    if word >> 16 & 1:
        return Reading("the decryption failed", Section.FURTHER)
    if phase == 0 and is_done_low:
        text = "startup hasn't begun: nothing came, or no sync word, or the stream ended before START and DESYNC"
        return Reading(text, Section.NO_SYNC)
    if phase < 7:
        return Reading(f"startup stands in phase {phase}{waits(word)}", Section.WAITS)
    return reading_of_phase_7(word)


def is_held_low(word: int) -> bool:
    """Whether STAT says that DONE is released, and yet low."""
    return word >> 13 & 1 == 1 and word >> 14 & 1 == 0


def waits(word: int) -> str:
    """What startup waits for by STAT, as the end of a sentence."""
    bits = ((2, "MMCM_LOCK is 0: clocks aren't locked"), (3, "DCI_MATCH is 0: the impedance isn't matched"))
    found = [text for bit, text in bits if not word >> bit & 1]
    if is_held_low(word):
        found.append(HELD_LOW)
    return f": {'; '.join(found)}" if found else ": the clock of startup has stopped"


def reading_of_phase_7(word: int) -> Reading:
    """What STAT says once startup has ended."""
    if is_held_low(word):
        return Reading(HELD_LOW, Section.STARTED)
    off = [name for bit, name in ((5, "GTS_CFG_B"), (6, "GWE"), (7, "GHIGH_B")) if not word >> bit & 1]
    if off:
        are = "is" if len(off) == 1 else "are"
        return Reading(f"startup has ended, and {' and '.join(off)} {are} 0", Section.STARTED)
    return Reading("the device runs", None)


# Why an attempt failed, by the bit of BOOTSTS in an attempt's byte.
ATTEMPT_FAULTS = (
    (3, "the watchdog fired"), (4, "a wrong IDCODE came, or none"), (5, "a check failed"), (6, "the flash's end came"),
)


def reading_of_bootsts(word: int) -> Reading:
    """What BOOTSTS says (UG470, boot history status register): of the attempt before, where there was one."""
    is_fallback = word >> 1 & 1 == 1
    if not word & 1:
        return Reading("no attempt from a flash: the device was configured through a cable, or is on the bench", None)
    for at, which in ((0, "this attempt"), (8, "the attempt before")):
        found = " and ".join(text for bit, text in ATTEMPT_FAULTS if word >> at + bit & 1)
        if found and is_fallback:
            return Reading(f"in {which} {found}: it fell back", Section.FALLBACK)
        if found:
            return Reading(f"in {which} {found}", Section.NO_FALLBACK)
    if is_fallback:
        return Reading("this is a fallback", Section.FALLBACK)
    return Reading("this attempt has no error", None)


def reading_of_cor0(word: int) -> Reading:
    """What COR0 says (UG470, configuration options register 0), the first that holds."""
    if word & 7 == 7 or word >> 3 & 7 == 7:
        return Reading("GTS_CYCLE or GWE_CYCLE is 7 (KEEP): outputs or writes stay off for ever", Section.STARTED)
    if word >> 15 & 3:
        text = "startup doesn't run on CCLK: through a flash DONE stays low, unless that clock runs"
        return Reading(text, Section.STARTED)
    if word >> 6 & 7 != 7 or word >> 9 & 7 != 7:
        return Reading("startup waits for clocks or impedance in the phase that is named", Section.WAITS)
    return Reading("as the vendor's tool writes it: nothing waits, nothing is kept", None)


def reading_of_ctl0(word: int) -> Reading:
    """What CTL0 says (UG470, control register 0), the first that holds."""
    if word >> 6 & 1:
        return Reading("the stream is encrypted", Section.FURTHER)
    if not word & 1:
        return Reading("all outputs are off (GTS_USER_B is 0), though startup ends", Section.STARTED)
    if word >> 5 & 1:
        return Reading("frames may not be written any more: a partial stream changes nothing", Section.PARTIAL)
    if word >> 10 & 1:
        return Reading("a failed attempt stops: no fallback follows", Section.NO_FALLBACK)
    return Reading("a failed attempt falls back", None)


READINGS = {
    "STAT": reading_of_stat, "BOOTSTS": reading_of_bootsts, "COR0": reading_of_cor0, "CTL0": reading_of_ctl0,
}


def reading_of(register: str, word: int) -> list[tuple[str, str]]:
    """What a word of one of these registers says, and the section of BOARD, as lines."""
    text, section = READINGS[register](word)
    return [("it says", text)] + ([("read on", f"BOARD, {section.value}")] if section else [])
