"""What `why` says of streams, and of the report of their play, boot or SVF text: the first cause that is found, with
its place, remedy and section. `cause_of` says in which order they are looked for."""
from __future__ import annotations

from typing import NamedTuple, Sequence

import x7formats as x7
from x7bootcause import cause_of_boot, cause_of_svf
from x7cause import COUNT_BYTES, TAKE_AGAIN, Cause, Kind, Section
from x7codes import FRAME_BYTES, codes_of
from x7damage import ADDRESS_LIMIT, cause_of_damage, cause_of_early_end, cause_of_large_count, cause_of_no_zeros
from x7device import KEPT, MOST_READS, Device
from x7files import cause_of_family, cause_of_file, cause_of_header
from x7frames import FRAME_FAULTS
from x7layout import begins_with_slots
from x7notes import has_check, named
from x7parts import DEVICE_BITS, idcode_of_name
from x7subject import LOCKED, MATCHED, Source, Subject
from x7watch import cause_of_watchdog, is_reported

# ---- whether report and streams belong together

# faults at a byte that the streams and the IDCODE of the device settle
SETTLED = ("Id", "Crc", "Packet", "Encrypted")


def ends_otherwise(report: x7.Report, device: Device) -> bool:
    """Whether a report ends elsewhere or as something else than a device does that takes these streams."""
    is_alike = report.end[:2] == device.end[:2]
    if report.end[0] == "fault" and report.end[1] in SETTLED and not (is_alike and report.taken == device.taken):
        return True
    if not device.has_stopped or report.end[:2] == ["fault", "Watchdog"]:
        return False
    return device.taken < report.taken or is_alike and report.end[1:2] != ["Id"] and report.end != device.end


def cause_of_others(what: str) -> Cause:
    """The cause where a report is of other streams."""
    again = "x7 play PART STREAM.. > REPORT, and give all of its streams in their order"
    return Cause(Kind.OTHER_REPORT, f"the report is of other streams than these: it {what}", again, None)


def cause_of_belonging(subject: Subject) -> Cause | None:
    """The cause where the report of a play isn't one of these streams, or none."""
    report, total = subject.report, len(subject.data)
    if report is None or not subject.is_play:
        return None
    took = f"took {report.taken} bytes of data"
    if report.taken > total:
        return cause_of_others(f"{took}, and these have {total}")
    if report.end[0] in ("searching", "synced") and report.taken != total:
        return cause_of_others(f"{took}, all that there were, and these have {total}")
    stopped = subject.device
    if ends_otherwise(report, stopped):
        ends = f"these end at byte {stopped.taken} as '{' '.join(stopped.end)}'"
        return cause_of_others(f"{took} and ends as '{' '.join(report.end)}', and {ends}")
    is_there = report.taken == stopped.taken
    played = stopped if is_there else Device(report.registers.get("IDCODE")).play(subject.data[: report.taken])
    for name in KEPT:
        if name in report.registers and report.registers[name] != played.registers[name]:
            return cause_of_others(f"has {name} {report.registers[name]:08X}, and these make it "
                                   f"{played.registers[name]:08X}")
    return None


# ---- faults


class Told(NamedTuple):
    """What is said of a fault that its own words tell."""

    kind: Kind
    text: str  # with the fault's words
    remedy: str
    section: Section


MEND_CHECKS = (
    "take the file again from where it was made, and compare the listings with diff; in a listing that was edited on "
    "purpose, put a line 'crc' in place of each 'write CRC 1' and its data"
)
TOLD = {
    "Crc": Told(
        Kind.CHECK,
        "a check fails (INIT_B goes low): the words before it have {0}, the stream says {1}; one of them, or the "
        "check, is damaged or lost", MEND_CHECKS, Section.CHECK,
    ),
    "Encrypted": Told(
        Kind.ENCRYPTED, "the stream is encrypted, which x7 doesn't read", "write it without encryption",
        Section.FURTHER,
    ),
    "Address": Told(
        Kind.FRAMES, FRAME_FAULTS["Address"].format(far="{0}", part="the part file"),
        "the part file lacks a column or a row, or is another device's; or the address is damaged: compare with a good "
        "copy",
        Section.FURTHER,
    ),
    "Overrun": Told(
        Kind.FRAMES, FRAME_FAULTS["Overrun"].format(after="", part="the part file"),
        "the part file lacks columns or rows, or is another device's", Section.FURTHER,
    ),
}  # fmt: skip
# the word that stands for a check that is off in streams of older families
NO_CHECK_WORD = "0000DEFC"
# how many damaged frames are told by their places
FEW_FRAMES = 3


def cause_of_fault(subject: Subject) -> Cause | None:
    """The cause of a fault; none of a watchdog, which is judged by seconds."""
    kind, words, after = subject.fate.end[1], subject.fate.end[2:], subject.fate.taken
    source = subject.source_at(after) or subject.sources[-1]
    if kind == "Watchdog":
        return cause_of_watchdog(subject)
    if kind == "Id":
        return cause_of_idcode(source, words, after)
    if kind == "Packet":
        return cause_of_packet(source, words[0], after)
    if kind == "Multi":
        return cause_of_copy(subject, source, after)
    if kind == "Crc" and words[1] == NO_CHECK_WORD:
        text = (
            f"a check fails: the stream says {NO_CHECK_WORD}, a constant that streams of older families have where the "
            f"check is off; x7 takes it for a check, and the words before it have {words[0]}"
        )
        return Cause(
            Kind.CHECK, text, "write the stream with BITSTREAM.GENERAL.CRC ENABLE", Section.CHECK, after, source,
        )
    told = TOLD[kind]
    text = told.text.format(*words)
    if kind == "Crc":
        unknown = "" if source.header else "; which of them is unknown"
        text += damage_of_frames(source, after - source.first) or unknown
    return Cause(told.kind, text, told.remedy, told.section, after, source)


def cause_of_idcode(source: Source, words: Sequence[str], after: int) -> Cause:
    """The cause of a fault Id."""
    if words[1] == "00000000":
        text = "frames, or START, come before any IDCODE"
        remedy = "the beginning of the stream is missing: take the file again"
        return Cause(Kind.NO_BEGINNING, text, remedy, Section.OTHER_DEVICE, after, source)
    want, got = int(words[0], 16), int(words[1], 16)
    text = f"the stream is for a device with IDCODE {words[1]}{named(got)}, this one has {words[0]}{named(want)}"
    by_header = idcode_of_name(source.part)
    if by_header is not None and not (by_header ^ want) & DEVICE_BITS:
        text += f"; or the word is damaged: its header is for {source.part}, which is this one"
        remedy = "take the file again; compare it with a good copy"
        return Cause(Kind.OTHER_DEVICE, text, remedy, Section.OTHER_DEVICE, after, source)
    remedy = "choose the device that is on the board, or the part file of the device that the stream is for"
    return Cause(Kind.OTHER_DEVICE, text, remedy, Section.OTHER_DEVICE, after, source)


def cause_of_packet(source: Source, word: str, after: int) -> Cause:
    """The cause of a fault Packet."""
    text = f"{word} stands where a packet's header should: "
    if source.header and not source.lost:
        text += "the header's length is right, so none was lost or added, and it, or words before it, are damaged"
    else:
        text += "words were lost or added before it, or the word itself is damaged"
        text += "" if source.header else ", alone or with others; which of these is unknown"
    text += damage_of_frames(source, after - source.first)
    return Cause(Kind.PACKET, text, COUNT_BYTES, Section.LOST_WORDS, after, source)


def damage_of_frames(source: Source, before: int) -> str:
    """What the error correction codes tell of the frames that a stream writes up to a place: which are damaged, or that
    none is; nothing where the frames have none."""
    found = codes_of(source.data, before)
    if found is None:
        return ""
    if len(found.wrong) == found.held:
        return (
            f"; frames before it that hold something: {found.held}, none with the right error correction code: "
            "they were made without, or all are damaged, which is unknown"
        )
    if not found.wrong:
        return f"; frames before it that hold something: {found.held}, each with the right error correction code"
    first, last = found.wrong[0], found.wrong[-1] + FRAME_BYTES - 1
    if len(found.wrong) <= FEW_FRAMES:
        places = ", ".join(f"{it} to {it + FRAME_BYTES - 1}" for it in found.wrong)
        count = f"{len(found.wrong)} of {found.held} frames"
        return f"; damaged by the error correction codes: {count}, at offsets {places}"
    return (
        f"; damaged by their error correction codes: {len(found.wrong)} of {found.held} frames that hold something, "
        f"between offsets {first} and {last}: what did it is unknown, such as a flash written where it wasn't erased"
    )


def cause_of_copy(subject: Subject, source: Source, after: int) -> Cause:
    """The cause of a fault Multi. A copy needs MFW after WCFG; the command that stands there tells what was damaged."""
    commands = [it for it in subject.device.commands if it.after <= after]
    if commands and commands[-1].word != "MFW":
        text = (
            f"a frame is to be copied under the command {commands[-1].word}, and copies want MFW: that word is "
            "damaged, or MFW was lost"
        )
        return Cause(Kind.DAMAGED_WORD, text, TAKE_AGAIN, Section.FURTHER, commands[-1].after, source)
    remedy = "words were lost before it, or it isn't a stream of this family"
    return Cause(Kind.FRAMES, FRAME_FAULTS["Multi"], remedy, Section.FURTHER, after, source)


# ---- ends without a fault


def cause_of_phase(subject: Subject) -> Cause:
    """The cause where there is no fault, and startup hasn't ended."""
    fate, device, last = subject.fate, subject.device, subject.sources[-1]
    if device.end[0] == "synced":
        return cause_of_open_session(subject)
    if not subject.has("START"):
        return cause_of_no_start(subject)
    if fate.phase == 0 and device.begun is None:
        text = "no DESYNC after START, and startup begins with DESYNC"
        return Cause(Kind.CUT, text, "the stream lacks its end", Section.EARLY_END, None, last)
    waits = waiting(fate.phase, fate.registers["COR0"], fate.registers["STAT"])
    if waits:
        text = f"startup waits in phase {fate.phase} for {waits}"
        remedy = (
            "see that these clocks run and come to the device; or let the tool not wait (NoWait). In x7 the part file "
            "says how long they take: lock and match"
        )
        return Cause(Kind.WAITS, text, remedy, Section.WAITS)
    text = f"the bytes end in phase {fate.phase} of startup: after DESYNC each phase takes four bytes, or a clock"
    return Cause(Kind.NOT_ENDED, text, "send the no-ops after DESYNC too, or go on clocking", Section.WAITS)


def waiting(phase: int, cor0: int, stat: int) -> str:
    """What startup waits for in its phase, or nothing."""
    waits = []
    if cor0 >> 6 & 7 == phase and not stat & LOCKED:
        waits.append("the clocks to lock (LOCK_CYCLE)")
    if cor0 >> 9 & 7 == phase and not stat & MATCHED:
        waits.append("the impedance to match (MATCH_CYCLE)")
    return " and ".join(waits)


def cause_of_open_session(subject: Subject) -> Cause:
    """The cause where the bytes end inside a session."""
    last, after = subject.sources[-1], subject.fate.taken
    if last.lost > 0:
        return cause_of_cut(last, after)
    commands = subject.device.commands
    at = next((at for at, it in enumerate(commands) if it.word == "START"), None)
    if at is not None and len(commands) > at + 1:
        text = (
            f"the session doesn't end: after START stands the command {commands[-1].word}, and no DESYNC: that word is "
            "damaged, or DESYNC was lost"
        )
        return Cause(Kind.DAMAGED_WORD, text, TAKE_AGAIN, Section.EARLY_END, commands[-1].after, last)
    text = f"the session doesn't end: no DESYNC{at_a_limit(last)}"
    return Cause(Kind.CUT, text, "the stream is cut off, or lacks its end", Section.EARLY_END, after, last)


def at_a_limit(source: Source) -> str:
    """What a number of bytes tells at which flashes and programs end, or nothing."""
    if len(source.data) == ADDRESS_LIMIT:
        return "; it ends at 16 MiB exactly: past that a flash wants addresses of 32 bits"
    return ""


def cause_of_cut(source: Source, after: int) -> Cause:
    """The cause where a stream ends inside a session before its header says."""
    text = f"the stream is cut off: its header tells of {source.header_count} bytes, and it has {len(source.data)}"
    return Cause(Kind.CUT, text + at_a_limit(source), TAKE_AGAIN, Section.EARLY_END, after, source)


def cause_of_no_start(subject: Subject) -> Cause:
    """The cause where a stream has no START: it is a partial one, or START is damaged or lost."""
    device, last = subject.device, subject.sources[-1]
    if not device.frames and device.reads:
        text, remedy = "the streams read a device, and start nothing", "x7 play PART full.bit read.bin"
        return nothing_started(text, f"play them after the full stream of the device: {remedy}")
    lfrm = max((it.after for it in device.commands if it.word == "LFRM"), default=0)
    if device.last("COR0") and lfrm and not subject.has("START"):
        following = next(
            (it for it in device.commands if it.after > lfrm and it.word in ("NULL", "SWITCH", "CRCC")), None,
        )
        text = (
            "the stream has no START, though it sets COR0 and ends with LFRM as a full one does: START is damaged or "
            "lost"
        )
        return Cause(Kind.NO_START, text, TAKE_AGAIN, Section.EARLY_END, following.after if following else lfrm, last)
    text = "the stream has no START: a partial one changes frames and starts nothing"
    return nothing_started(text, "play it after the full stream of the device: x7 play PART full.bit partial.bit")


def nothing_started(text: str, remedy: str) -> Cause:
    """The cause of streams that start nothing, and may be right so."""
    return Cause(Kind.NOTHING_STARTED, text, remedy, Section.NOT_CONFIGURED)


# ---- devices that start


def cause_of_started(subject: Subject) -> Cause | None:
    """The cause where phase 7 has come, and the device doesn't run as it should all the same, or none."""
    return cause_of_kept_off(subject) or cause_of_dropped(subject) or cause_of_unchecked_loss(subject)


def cause_of_kept_off(subject: Subject) -> Cause | None:
    """The cause where outputs, writes or the interconnect are off for ever, or none."""
    fate = subject.fate
    for name, on, what in (("GTS", fate.gts, "the outputs stay off"), ("GWE", fate.gwe, "flip-flops and memories "
                                                                                        "can't be written")):
        if not on:
            text = f"phase 7 comes, and {what} for ever: {name}_CYCLE of COR0 {fate.registers['COR0']:08X} is 7 (KEEP)"
            remedy = f"write the stream with BITSTREAM.STARTUP.{name}_CYCLE 1 to 6, or DONE"
            return Cause(Kind.KEPT_OFF, text, remedy, Section.STARTED)
    off = outputs_off_at(subject.device)
    if off:
        text = f"phase 7 comes, and all outputs stay off: bit 0 of CTL0 {fate.registers['CTL0']:08X}, GTS_USER_B, is 0"
        remedy = "write CTL0 with bit 0 set, as the vendor's tool does; a word of it was damaged, or edited"
        return Cause(Kind.KEPT_OFF, text, remedy, Section.STARTED, off, subject.source_at(off))
    if not fate.ghigh:
        text = "phase 7 comes, and all interconnect is off (High-Z: GHIGH_B is 0): AGHIGH without LFRM after it"
        return Cause(Kind.KEPT_OFF, text, "the last stream lacks its LFRM: take it again", Section.STARTED)
    return None


def outputs_off_at(device: Device) -> int:
    """The place after the last word of CTL0 that MASK lets set GTS_USER_B, where that is 0; 0 where it is 1, or no word
    sets it."""
    mask, found = 0, 0
    for it in device.written:
        if it.register == "MASK":
            mask = int(it.word)
        elif it.register == "CTL0" and mask & 1:
            found = 0 if int(it.word) & 1 else it.after
    return found


def cause_of_dropped(subject: Subject) -> Cause | None:
    """The cause where frames are dropped by SBITS, or none."""
    if not subject.device.dropped:
        return None
    step = subject.device.dropped[0]
    by = next(it for it in reversed(subject.device.written) if it.register == "CTL0" and it.after <= step.place)
    source = subject.source_at(step.end)
    text = (
        f"the frames of {source.name if source else 'a stream'} are dropped: CTL0 has SBITS 1x, which forbids writing "
        f"frames, since {subject.place(by.after)}"
    )
    remedy = "write the stream before it with BITSTREAM.READBACK.SECURITY NONE (or LEVEL1)"
    return Cause(Kind.DROPPED, text, remedy, Section.PARTIAL, step.first + 4, source)


def cause_of_unchecked_loss(subject: Subject) -> Cause | None:
    """The cause where a stream without a check has fewer bytes than its header tells of, or none."""
    for source in subject.sources:
        if source.lost > 0 and not has_check(source):
            text = (
                f"{source.lost} bytes of the stream were lost, and nothing on the device notices, since the stream has "
                "no check: all frames after them stand at wrong addresses"
            )
            remedy = "take the file again; write it with BITSTREAM.GENERAL.CRC ENABLE"
            return Cause(Kind.LOST, text, remedy, Section.CHECK, None, source)
    return None


# ---- plays


def cause_of_play(subject: Subject) -> Cause | None:
    """The cause of how a play ended, or none where the device runs."""
    fate = subject.fate
    if fate.end[0] == "fault":
        found = cause_of_fault(subject)
        if found and fate.phase == 7:
            text = f"it runs (phase 7), but after startup a fault came: {found.text}"
            return found._replace(text=text, section=Section.PARTIAL)
        return found
    if fate.end[0] == "iprog":
        return cause_of_iprog(subject)
    if fate.phase != 7:
        return cause_of_phase(subject)
    if fate.end[0] == "synced":
        text = "it runs (phase 7), but a session after startup doesn't end: no DESYNC"
        last = subject.sources[-1]
        return Cause(Kind.CUT, text, "the last stream is cut off, or lacks its end", Section.PARTIAL, fate.taken, last)
    return cause_of_started(subject)


def cause_of_iprog(subject: Subject) -> Cause:
    """The cause where a stream leads on."""
    fate = subject.fate
    if begins_with_slots(subject.data):
        text = f"this is a flash image: its first sector leads on to flash address {fate.end[1]} (IPROG)"
        remedy = f"x7 boot PART FLASH > REPORT, and then {x7.CALLED}why STREAM REPORT"
        return Cause(Kind.LEADS_ON, text, remedy, Section.FALLBACK)
    running = "it starts (phase 7), and then " if fate.phase == 7 else ""
    commands = [str(it.word) for it in subject.device.commands]
    more = ""
    if "START" in commands and "DESYNC" not in commands[commands.index("START") :]:
        more = "; it stands where DESYNC should, so a word may be damaged"
    text = f"{running}the stream leads on to flash address {fate.end[1]} (IPROG){more}"
    return Cause(Kind.LEADS_ON, text, "x7 boot PART FLASH", Section.FALLBACK, fate.taken)


# ---- devices


def idcodes_of(source: Source) -> list[tuple[int, int]]:
    """The IDCODEs that a stream writes before anything ends it, each with the place after it in the data of all."""
    return [(source.first + it.after, int(it.word)) for it in source.alone.written if it.register == "IDCODE"]


def cause_of_several_devices(subject: Subject) -> Cause | None:
    """The cause where streams, or one file's, write IDCODEs of different devices, or none."""
    known = [(source, *it) for source in subject.sources for it in idcodes_of(source) if named(it[1])]
    for source, after, idcode in known:
        first, _, wanted = known[0]
        if not (idcode ^ wanted) & DEVICE_BITS:
            continue
        if source is first:
            at, header = after - source.first, source.data.rfind(x7.FIXED, 0, after - source.first)
            where = f"a second stream, before offset {at}"
            where = f"the header of a second .bit file stands at offset {header}" if header >= 0 else where
            text = (
                f"the file has streams of two devices: {wanted:08X}{named(wanted)}, and {idcode:08X}{named(idcode)} "
                f"({where}); no device takes both"
            )
            return Cause(Kind.SEVERAL_DEVICES, text, "give one of them alone", Section.OTHER_DEVICE, after, source)
        said = [f"{it.name} for {code:08X}{named(code)}" for it, code in ((first, wanted), (source, idcode))]
        text = f"the streams are for different devices: {', '.join(said)}"
        return Cause(Kind.SEVERAL_DEVICES, text, "give the streams of one device", Section.OTHER_DEVICE, after)
    return None


def cause_of_header_part(subject: Subject) -> Cause | None:
    """The cause where the part that a header names has another IDCODE than its stream writes, or none."""
    for source in subject.sources:
        by_header, idcode = idcode_of_name(source.part), source.idcode
        if by_header is not None and idcode and (by_header ^ idcode.word) & DEVICE_BITS:
            text = (
                f"the stream writes the IDCODE {idcode.word:08X}{named(idcode.word)}, and its header names "
                f"{source.part}, which has {by_header:08X}: the word is damaged, or the header is another stream's"
            )
            return Cause(Kind.OTHER_DEVICE, text, TAKE_AGAIN, Section.OTHER_DEVICE, idcode.after, source)
    return None


# ---- all of it


def cause_of_sources(subject: Subject) -> Cause | None:
    """The cause where a file isn't a stream of the family, or none."""
    for source in subject.sources:
        found = cause_of_header(source) or cause_of_file(source) or cause_of_no_zeros(source) or cause_of_family(source)
        if found:
            return found
    return None


def cause_of_unfinished(subject: Subject) -> Cause | None:
    """The cause where a stream before the last one is cut off, or none: what comes after it is taken for its rest."""
    for source in subject.sources[:-1]:
        if source.alone.end[0] == "synced":
            found = cause_of_damage(source)
            if found is None and source.lost > 0:
                found = cause_of_cut(source, source.first + len(source.data))
            if found is None:
                text = "the session doesn't end: no DESYNC, so the stream after it is taken for its rest"
                after = source.first + len(source.data)
                found = Cause(
                    Kind.CUT, text, "the stream is cut off, or lacks its end", Section.EARLY_END, after, source,
                )
            return found
    return None


def cause_of_words(subject: Subject) -> Cause | None:
    """The cause where what is damaged in a stream explains more than how the play ended, or none."""
    for source in subject.sources:
        found = cause_of_damage(source) or cause_of_large_count(source, MOST_READS) or cause_of_early_end(source)
        if found:
            return found
    return None


def runs(subject: Subject) -> bool:
    """Whether the device has started and waits for a further stream, by a report, or by streams that read no more than
    x7 gives."""
    is_readable = subject.report is not None or subject.device.reads <= MOST_READS
    return subject.fate.phase == 7 and subject.fate.end[0] == "searching" and is_readable


def cause_of(subject: Subject) -> Cause | None:
    """The first cause that is found, or none."""
    found = cause_of_sources(subject)
    if found:
        return found
    report = subject.report
    if report and report.attempts:
        return cause_of_boot(subject, report, cause_of_started)
    if report and report.svf:
        return cause_of_svf(subject, report, cause_of_started, cause_of_fault, cause_of_phase)
    found = cause_of_belonging(subject) or cause_of_unfinished(subject) or cause_of_several_devices(subject)
    if not found and not runs(subject) and not is_reported(subject):
        found = cause_of_words(subject)
    if not found and (not report or subject.is_of_shelf):
        found = cause_of_header_part(subject) or cause_of_watchdog(subject)
    return found or cause_of_play(subject)


def length_of(subject: Subject, found: Cause | None) -> str:
    """Says where a header tells of more or fewer bytes than there are: of the stream at fault, or of the first such
    one."""
    if found and found.kind in (Kind.CUT, Kind.EMPTY):
        return ""
    wanted = [found.source] if found and found.source else subject.sources
    for source in wanted:
        if source.lost:
            kind = "lost" if source.lost > 0 else "added"
            of = f" of {source.name}" if len(subject.sources) > 1 else ""
            where = "listing" if source.is_listing else "file"
            return (
                f"the header{of} tells of {source.header_count} bytes of data, and the {where} has {len(source.data)}: "
                f"bytes were {kind}"
            )
    return ""
