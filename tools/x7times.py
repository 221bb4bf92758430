"""How long a device takes to read a stream from an SPI flash, and how long its watchdog waits, in seconds. python3
(3.8) and its library alone.

Clocks are known at their nominal rates, and each may be slower or faster by a half: the data sheets of the family
give 50 % for both. So a time is a `Seconds`, with the least and the most that it may be. `watch` compares the
watchdog's time with that of a load.
"""
from __future__ import annotations

from enum import Enum
from typing import NamedTuple

# The rates of CCLK in MHz that the vendor's tool offers (UG908, BITSTREAM.CONFIG.CONFIGRATE).
RATES = (3, 6, 9, 12, 16, 22, 26, 33, 40, 50, 66)
# The rate of CCLK as power comes, and the most that a device takes, also of an external clock (data sheets of the
# family).
POWER_UP_RATE, MOST_RATE = 3, 100
# How far a clock of the device may be off, as a part of its nominal rate (data sheets of the family).
TOLERANCE = 0.5
# The seconds of one step of the watchdog: its clock of some 65 MHz, divided by 256 (UG470, watchdog timer).
STEP_SECONDS = 4e-6
# In TIMER the bit CFG_MON, and the number of steps (UG470, watchdog timer).
CFG_MON, STEPS = 1 << 30, (1 << 30) - 1
# Opcodes of SPI flashes that read with 32 address bits: a read, a fast one, and one that gives two and four lines.
LONG_OPCODES = {0x13, 0x0C, 0x3C, 0x6C}


class Seconds(NamedTuple):
    """A time in seconds. It is surely no less than `least` and no more than `most`."""

    least: float  # where the clock is as fast as it may be
    nominal: float | None  # at the clock's nominal rate; none where that isn't known
    most: float  # where the clock is as slow as it may be


class Verdict(Enum):
    """What the watchdog's time is beside that of a load."""

    OFF = "no watchdog runs"
    ENOUGH = "enough"  # also where the watchdog's clock is fast, and CCLK slow
    CLOSE = "enough at nominal clocks alone"
    DOUBTFUL = "too short at nominal clocks, or the clock isn't known"
    SHORT = "surely too short"  # also where the watchdog's clock is slow, and CCLK the fastest that a device takes


class Watch(NamedTuple):
    """The watchdog's time beside that of a load, as a verdict and as a sentence."""

    verdict: Verdict  # what is known of it
    text: str  # both times, with what they come from


def rate_of(cor0: int) -> int | None:
    """The nominal rate of CCLK in MHz that OSCFSEL of COR0 asks for, or none where the code isn't known.

    No guide lists the codes. Seen in streams of the vendor's tool are 0, of its default of 3 MHz, and 33. So a code
    that is one of the vendor's rates is read as that rate (this project's reading).
    """
    code = cor0 >> 17 & 0x3F
    if code == 0:
        return POWER_UP_RATE
    return code if code in RATES else None


def lines_of(bspi: int) -> int:
    """How many data lines of a flash are read with a word of BSPI: bits 9:8 are 00 for one, 01 for two, 10 for four.

    No guide lists the bits. Seen in streams of the vendor's tool are 0000000B and 0000026B, opcodes of one and of four
    lines (this project's reading). The code 11 counts as four.
    """
    return (1, 2, 4, 4)[bspi >> 8 & 3]


def opcode_of(bspi: int) -> int:
    """The opcode in bits 7:0 of a word of BSPI, with which the flash is read; 0 where none was written."""
    return bspi & 0xFF


def has_long_address(bspi: int) -> bool:
    """Whether the opcode of a word of BSPI wants 32 address bits, which flashes of up to 16 MiB may not know."""
    return opcode_of(bspi) in LONG_OPCODES


def load_seconds(byte_count: int, cor0: int = 0, bspi: int = 0) -> Seconds:
    """How long a device of mode 1, master SPI, reads so many bytes of a flash at the clock of COR0 and on the lines
    of BSPI.

    Without both it is the time as power comes: one line, 3 MHz. Since no field that is known tells of an external clock
    (BITSTREAM.CONFIG.EXTMASTERCCLK_EN), `least` counts the fastest clock that a device takes.
    """
    cycles, rate = 8 * byte_count / lines_of(bspi), rate_of(cor0)
    slowest = (rate or POWER_UP_RATE) * (1 - TOLERANCE)
    return Seconds(cycles / MOST_RATE / 1e6, cycles / rate / 1e6 if rate else None, cycles / slowest / 1e6)


def timer_seconds(timer: int) -> Seconds | None:
    """How long the watchdog waits with a word of TIMER, or none where it doesn't run (CFG_MON is 0, or the number)."""
    if not timer & CFG_MON or not timer & STEPS:
        return None
    nominal = (timer & STEPS) * STEP_SECONDS
    return Seconds(nominal / (1 + TOLERANCE), nominal, nominal / (1 - TOLERANCE))


def shown(seconds: float) -> str:
    """A time as a text: two digits that count, in seconds, or whole ones from ten on."""
    if seconds < 0.001:
        return f"{seconds * 1000:#.2g} ms"
    return f"{seconds:.0f} s" if seconds >= 9.95 else f"{seconds:#.2g} s"


def clock_text(cor0: int, bspi: int) -> str:
    """The clock and the lines of a load as a text."""
    rate, count = rate_of(cor0), lines_of(bspi)
    clock = f"{rate} MHz" if rate else f"the clock of OSCFSEL {cor0 >> 17 & 0x3F}, which isn't known,"
    return f"{clock} and {'one line' if count == 1 else f'{count} lines'}"


def load_text(byte_count: int, cor0: int = 0, bspi: int = 0) -> str:
    """The sentence of a load: its bytes, the clock, and the seconds."""
    load = load_seconds(byte_count, cor0, bspi)
    time = f"{shown(load.least)} to {shown(load.most)}" if load.nominal is None else f"some {shown(load.nominal)}"
    return f"{byte_count} bytes at {clock_text(cor0, bspi)} take {time}"


def verdict_of(timer: Seconds | None, load: Seconds) -> Verdict:
    """What the watchdog's time is beside that of a load."""
    if timer is None:
        return Verdict.OFF
    if timer.most < load.least:
        return Verdict.SHORT
    if timer.least >= load.most:
        return Verdict.ENOUGH
    is_enough = timer.nominal is not None and load.nominal is not None and timer.nominal >= load.nominal
    return Verdict.CLOSE if is_enough else Verdict.DOUBTFUL


def watch(timer: int, byte_count: int, cor0: int = 0, bspi: int = 0) -> Watch:
    """The watchdog of a word of TIMER beside the load of the bytes that come after it."""
    waits = timer_seconds(timer)
    text = load_text(byte_count, cor0, bspi)
    if waits is None:
        return Watch(Verdict.OFF, text)
    found = verdict_of(waits, load_seconds(byte_count, cor0, bspi))
    return Watch(found, f"TIMER {timer:08X} waits some {shown(waits.nominal or waits.least)}; {text}")
