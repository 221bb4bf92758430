"""Tests `x7times`: the seconds of a load and of the watchdog, worked by hand, and what is said of both."""
from __future__ import annotations

from casefiles import Tally
import x7times as times
from x7times import Verdict

TALLY = Tally()
# COR0 of the vendor's default and of 33 MHz; BSPI of one and of four lines; an uncompressed stream of an xc7a35t
DEFAULT, FAST, ONE_LINE, FOUR_LINES, BYTES = 0x02003FE5, 0x02423FE5, 0x0000000B, 0x0000026B, 2192012


def near(name: str, came: float, wanted: float) -> None:
    """A number is the wanted one, to a thousandth."""
    TALLY.check(name, abs(came - wanted) <= wanted / 1000, f"came {came}, wanted {wanted}")


def fields() -> None:
    """Rates, lines and opcodes of words."""
    for code, rate in ((0, 3), (33, 33), (50, 50), (2, None), (63, None)):
        word = DEFAULT | code << 17
        TALLY.same(f"rate of {word:08X}", times.rate_of(word), rate)
    for word, lines in ((0, 1), (ONE_LINE, 1), (0x13B, 2), (FOUR_LINES, 4), (0x36B, 4)):
        TALLY.same(f"lines of {word:08X}", times.lines_of(word), lines)
    for word in (0, 0x03, 0x0B, 0x13B, 0x26B):
        TALLY.same(f"24 address bits of {word:08X}", times.has_long_address(word), False)
    for word in (0x13, 0x0C, 0x13C, 0x26C):
        TALLY.same(f"32 address bits of {word:08X}", times.has_long_address(word), True)


def loads() -> None:
    """Times of loads: 17,536,096 bits on one line, a quarter of them on four."""
    came = times.load_seconds(BYTES, DEFAULT, ONE_LINE)
    near("one line, 3 MHz", came.nominal or 0, 5.845)
    near("at half of the rate", came.most, 11.69)
    near("at 100 MHz", came.least, 0.17536)
    near("four lines, 33 MHz", times.load_seconds(BYTES, FAST, FOUR_LINES).nominal or 0, 0.13285)
    near("the first sector as power comes", times.load_seconds(65536).nominal or 0, 0.17476)
    unknown = times.load_seconds(BYTES, DEFAULT | 2 << 17, FOUR_LINES)
    TALLY.same("a code that isn't known", unknown.nominal, None)
    near("and its most, at 3 MHz", unknown.most, 2.9227)


def timers() -> None:
    """The watchdog's time, and where none runs."""
    waits = times.timer_seconds(0x40010000)
    TALLY.check("40010000 runs", waits is not None)
    if waits is not None:
        near("40010000 is a quarter of a second", waits.nominal or 0, 0.262144)
        near("its least", waits.least, 0.174763)
        near("its most", waits.most, 0.524288)
    for word in (0, 0x40000000, 0x00010000, 0x80010000):
        TALLY.same(f"TIMER {word:08X} doesn't run", times.timer_seconds(word), None)
    TALLY.check("bit 31 beside CFG_MON", times.timer_seconds(0xC0010000) == waits)


def verdicts() -> None:
    """What is said of a watchdog beside a load: a refusal only where no clocks make it long enough."""
    for timer, cor0, bspi, verdict in (
        (0, DEFAULT, FOUR_LINES, Verdict.OFF),
        (0x4001FBD0, FAST, FOUR_LINES, Verdict.ENOUGH),
        (0x40010000, FAST, FOUR_LINES, Verdict.CLOSE),
        (0x4008C000, DEFAULT, ONE_LINE, Verdict.DOUBTFUL),
        (0x40010000, DEFAULT, FOUR_LINES, Verdict.DOUBTFUL),
        (0x40010000, DEFAULT | 2 << 17, FOUR_LINES, Verdict.DOUBTFUL),
        (0x40001556, FAST, FOUR_LINES, Verdict.SHORT),
        (0x40001600, FAST, FOUR_LINES, Verdict.DOUBTFUL),
    ):
        found = times.watch(timer, BYTES, cor0, bspi)
        TALLY.same(f"TIMER {timer:08X} beside COR0 {cor0:08X}, BSPI {bspi:08X}", found.verdict, verdict)


def texts() -> None:
    """The sentences."""
    wanted = "TIMER 4008C000 waits some 2.3 s; 2192012 bytes at 3 MHz and one line take some 5.8 s"
    TALLY.same("both times", times.watch(0x4008C000, BYTES, DEFAULT, ONE_LINE).text, wanted)
    TALLY.same("the load alone", times.watch(0, 65536).text, "65536 bytes at 3 MHz and one line take some 0.17 s")
    wanted = "2192012 bytes at the clock of OSCFSEL 2, which isn't known, and 4 lines take 0.044 s to 2.9 s"
    TALLY.same("a clock that isn't known", times.load_text(BYTES, DEFAULT | 2 << 17, FOUR_LINES), wanted)
    for seconds, text in ((12.3, "12 s"), (9.96, "10 s"), (1.0, "1.0 s"), (0.0123, "0.012 s"), (0.00012, "0.12 ms")):
        TALLY.same(f"{seconds} s", times.shown(seconds), text)


for part in (fields, loads, timers, verdicts, texts):
    part()
TALLY.end()
