"""What `why` says of the report of a boot, and of that of an SVF text. python3 (3.8) and its library alone."""
from __future__ import annotations

from typing import Callable, Optional

from x7cause import Cause, Kind, Section
from x7formats import CALLED, Attempt, Report
from x7layout import SECTOR, begins_with_slots
from x7subject import Subject

ALONE = "play the stream alone: x7 play PART STREAM"
# how an attempt ends that didn't fail
WELL = ("iprog", "started")
# What a cause of a play is found by.
Finder = Callable[[Subject], Optional[Cause]]


def shown(attempt: Attempt) -> str:
    """An attempt as a text."""
    return f"{attempt.kind} at {attempt.address:08X}: {attempt.ending}"


def path_of(report: Report) -> str:
    """The attempts as a text."""
    return "; ".join(shown(it) for it in report.attempts)


def leads_on(report: Report) -> bool:
    """Whether an attempt leads to another one."""
    return any("iprog" in (it.ending, it.kind) for it in report.attempts)


def boot_cause(text: str, remedy: str, section: Section) -> Cause:
    """A cause of a boot."""
    return Cause(Kind.BOOT, text, remedy, section)


def cause_of_boot(subject: Subject, report: Report, started: Finder) -> Cause | None:
    """The cause of a boot that did not start, or not with the update, or none; `started` looks at a device that has."""
    if report.boot_end == "loop":
        text = f"each attempt leads to another one ({path_of(report)})"
        return boot_cause(text, "a stream that writes IPROG must not lead to itself", Section.FALLBACK)
    if report.boot_end == "stopped":
        return cause_of_stopped_boot(subject, report)
    return cause_of_fallback(report) or cause_of_place(subject, report) or cause_of_clock(subject) or started(subject)


def cause_of_stopped_boot(subject: Subject, report: Report) -> Cause:
    """The cause of a boot of which no attempt started."""
    registers, path, leads = subject.fate.registers, path_of(report), leads_on(report)
    if report.end[0] == "searching" and not registers.get("CMD") and not leads:
        text = f"no attempt started ({path}): nowhere in the flash is a sync word"
        return boot_cause(text, f"{CALLED}why FLASH names what it is", Section.NO_SYNC)
    if report.attempts[-1].kind != "fallback":
        ctl0 = f"CTL0 {registers['CTL0']:08X}"
        text = f"no attempt started ({path}), and no fallback follows: {ctl0} has bit 10 set, which forbids it"
        remedy = "mend that image; and let the tool allow fallback (BITSTREAM.CONFIG.CONFIGFALLBACK ENABLE)"
        return boot_cause(text, remedy, Section.NO_FALLBACK)
    if not leads:
        text = f"no attempt started ({path}): the flash has one image, and the fallback finds the same one"
        return boot_cause(text, ALONE, Section.NO_FALLBACK)
    text = f"no attempt started ({path}): the golden image doesn't start either"
    return boot_cause(text, "play each of the two streams alone", Section.NO_FALLBACK)


def cause_of_fallback(report: Report) -> Cause | None:
    """The cause where an attempt started after one that failed, or none."""
    failed = [it for it in report.attempts if it.ending not in WELL]
    if not failed:
        return None
    if leads_on(report):
        text = f"it starts, but with the golden image: {'; '.join(map(shown, failed))}"
        return boot_cause(text, "play the update's stream alone", Section.FALLBACK)
    text = (
        f"it starts, but at the second attempt alone: {path_of(report)}; the flash has one image, and a fallback has "
        "no watchdog"
    )
    return boot_cause(text, ALONE, Section.FALLBACK)


def cause_of_place(subject: Subject, report: Report) -> Cause | None:
    """The cause where another image started than the one that was meant, or none."""
    last = report.attempts[-1]
    if last.address % SECTOR:
        text = (
            f"it starts, but from an attempt at {last.address:08X}, which is no sector's beginning "
            f"({path_of(report)}): another image than the one that was meant"
        )
        remedy = (
            "start_unit of the part file that made the image must be the device's: 1 where WBSTAR counts bytes, 256 "
            "with addresses of 32 bits"
        )
        return boot_cause(text, remedy, Section.FALLBACK)
    if len(report.attempts) == 1 and is_golden_alone(subject, report):
        text = (
            "it starts, but with the golden image: no slot of the flash led to an update, as where an update was "
            "interrupted"
        )
        return boot_cause(text, "run `x7 update` again", Section.INTERRUPTED)
    return None


def cause_of_clock(subject: Subject) -> Cause | None:
    """The cause where a boot's startup runs on a clock that a flash doesn't give, or none."""
    if not subject.fate.registers["COR0"] >> 16 & 1:
        return None
    text = "startup runs on TCK (SSCLKSRC of COR0 is JtagClk), which a flash doesn't give: DONE stays low"
    return boot_cause(text, "write the stream with BITSTREAM.STARTUP.STARTUPCLK CCLK", Section.STARTED)


def is_golden_alone(subject: Subject, report: Report) -> bool:
    """Whether the one attempt took the golden stream after a first sector: by the bytes taken, or by the first bytes of
    a listed flash."""
    total = len(subject.data)
    return begins_with_slots(subject.data) or max(SECTOR, total) < report.taken <= SECTOR + total


def cause_of_svf(subject: Subject, report: Report, started: Finder, fault: Finder, phase: Finder) -> Cause | None:
    """The cause where a scan of an SVF text reads what it doesn't want, or none; the others look at a device that has
    started, stopped at a fault, or stands in a phase."""
    if not isinstance(report.svf, tuple):
        return started(subject) if report.phase == 7 else phase(subject)
    statement, bit = report.svf
    differs = f"the scan of statement {statement} of the SVF text reads another bit {bit} than it wants"
    if report.taken == 0:
        remedy = "the text is for another device than the part file's, or the statement's TDO or MASK is wrong"
        return Cause(Kind.SVF, differs, remedy, Section.OTHER_DEVICE)
    if report.phase == 0 and not subject.has("START") and subject.device.end[0] == "searching":
        text = f"{differs}; the stream has no START: the text resets the device, and then sends a partial stream"
        return Cause(
            Kind.SVF, text, f"send a partial stream without JPROGRAM: {CALLED}svf --partial", Section.NOT_CONFIGURED,
        )
    found = fault(subject) if report.end[0] == "fault" else phase(subject) if report.phase != 7 else None
    if found:
        return found._replace(text=f"{differs}; {found.text}")
    remedy = "compare the statement's TDO and MASK with what the device should give"
    return Cause(Kind.SVF, f"{differs}, and yet the device starts (phase 7)", remedy, None)
