"""The watchdog of a stream, judged by seconds. x7's watchdog counts bytes, a device's counts time: so a stream that x7
ends by its watchdog may start on a board, and another one may not. python3 (3.8) and its library alone."""
from __future__ import annotations

from typing import NamedTuple

import x7formats as x7
from x7cause import Cause, Kind, Section
from x7subject import Source, Subject, Written
from x7times import CFG_MON, Verdict, Watch, watch

BSPI = x7.NUMBERS["BSPI"]
# verdicts, the worst first
WORST = (Verdict.SHORT, Verdict.DOUBTFUL, Verdict.CLOSE, Verdict.ENOUGH, Verdict.OFF)
# the verdicts by which the watchdog fires where x7's does
TOO_SHORT = (Verdict.SHORT, Verdict.DOUBTFUL)
REMEDY = "give TIMER a larger number, or write LTIMER now and then"


def end_of_startup(source: Source) -> int:
    """The place in the data of a stream where startup ends, four bytes a phase after the last DESYNC; else its end."""
    begun = source.alone.begun
    return min(begun + 32, len(source.data)) if begun is not None else len(source.data)


def last_word(source: Source, register: int) -> int:
    """The last word that a stream writes to a register; 0 where it writes none."""
    return next((it.word for it in reversed(source.writes(register))), 0)


class Armed(NamedTuple):
    """A watchdog that a stream arms."""

    word: Written  # of TIMER
    watch: Watch  # its time beside that of the load up to the next word of TIMER, or the end of startup


def watch_of(source: Source) -> Armed | None:
    """The watchdog that a stream arms, that of several which waits the least beside its load, or none."""
    words = source.writes(x7.TIMER)
    ends = [it.after - source.first for it in words[1:]] + [end_of_startup(source)]
    cor0, bspi = last_word(source, x7.COR0), last_word(source, BSPI)
    found = [
        Armed(it, watch(it.word, end - (it.after - source.first), cor0, bspi))
        for it, end in zip(words, ends) if it.word & CFG_MON
    ]  # fmt: skip
    return min(found, key=badness) if found else None


def badness(armed: Armed) -> int:
    """The number of a watchdog's verdict among all, the worst first."""
    return WORST.index(armed.watch.verdict)


def is_reported(subject: Subject) -> bool:
    """Whether a report ends by the watchdog."""
    return subject.report is not None and subject.report.end[:2] == ["fault", "Watchdog"]


def cause_of_watchdog(subject: Subject) -> Cause | None:
    """The cause where a watchdog fires before the load ends, or none: surely, or where a report ends by it, at nominal
    clocks."""
    for source in subject.sources:
        found = watch_of(source)
        short = TOO_SHORT if is_reported(subject) else TOO_SHORT[:1]
        if found and found.watch.verdict in short:
            count = 4 * (found.word.word & CFG_MON - 1)
            how = "" if not is_reported(subject) else f" (x7's, {count} bytes after the write to TIMER)"
            text = f"the watchdog fires before startup has ended{how}: {found.watch.text}"
            after = subject.fate.taken if is_reported(subject) else found.word.after
            return Cause(Kind.WATCHDOG, text, REMEDY, Section.WATCHDOG, after, source)
    return None


def notes_of_watchdog(subject: Subject) -> list[str]:
    """What is worth saying of a watchdog that isn't the cause."""
    notes = []
    for source in subject.sources:
        found = watch_of(source)
        if found is None:
            continue
        verdict, text = found.watch
        if is_reported(subject) and verdict not in TOO_SHORT:
            notes.append(f"x7's watchdog counts bytes, and fires; a board's counts time, and may not: {text}")
        elif verdict in (Verdict.DOUBTFUL, Verdict.CLOSE):
            notes.append(f"the watchdog may fire before startup has ended: {text}")
    return notes


def is_long_enough(source: Source) -> bool:
    """Whether a stream arms a watchdog that is long enough at nominal clocks."""
    found = watch_of(source)
    return found is not None and found.watch.verdict in (Verdict.ENOUGH, Verdict.CLOSE)
