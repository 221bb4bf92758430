"""The lines of `check_update`, and what a stream by itself is judged by, be it the update or the golden stream.
python3 (3.8) and its library alone."""
from __future__ import annotations

from x7asked import CONFIG_FALLBACK, SSCLKSRC, Asked
from x7partfile import Part
from x7parts import DEVICE_BITS
from x7run import CALLED, write_out
from x7times import Verdict, Watch, has_long_address

# What is said of a watchdog that doesn't surely last for a load.
TOO_SHORT = {
    Verdict.SHORT: "the watchdog ends the load before startup does, at whatever clock",
    Verdict.DOUBTFUL: "too short at this clock; an external one, or the bounds of the device's own, may make it enough",
    Verdict.CLOSE: "enough at these clocks, each of which may be off by a half: it should be three times as long",
}


class Checks:
    """The lines so far, and how many checks failed."""

    def __init__(self) -> None:
        self.count, self.failed = 0, 0

    def tell(self, is_well: bool, name: str, text: str, wrong: str | None = None) -> None:
        """Writes the line of a check: the text, or `wrong` where the check fails and that says more."""
        self.count += 1
        self.failed += not is_well
        write_out(f"ok: {name}: {text}\n" if is_well else f"fails: {name}: {wrong or text}\n")

    def note(self, name: str, text: str) -> None:
        """Writes a line on what the checks can't decide, or what one rests on."""
        write_out(f"note: {name}: {text}\n")


def look_at_stream(checks: Checks, asked: Asked, part: Part, role: str = "") -> bool:
    """Says whether the stream is whole, is for the part, and starts by a flash's clock; answers whether it is a stream.
    `role` stands before the names of the checks."""
    why = asked.why_no_stream()
    if why:
        checks.tell(False, f"{role}stream", why)
        return False
    counts = f"{len(asked.stream.data)} bytes, {asked.checks} checks"
    unseen = f"{counts}: without one, damage isn't seen and nothing falls back"
    checks.tell(asked.checks > 0, f"{role}stream", counts, unseen)
    idcode = asked.idcode()
    is_ours = (idcode ^ part.idcode) & DEVICE_BITS == 0
    checks.tell(is_ours, f"{role}idcode", f"the stream is for {idcode:08X}, the part {part.name} is {part.idcode:08X}")
    wrong = f"COR0 {asked.cor0:08X}: startup waits for a clock of the design or of JTAG, which a flash doesn't give"
    checks.tell(not asked.cor0 & SSCLKSRC, f"{role}clock", "startup runs on CCLK", wrong)
    return True


def look_at_fallback(checks: Checks, asked: Asked) -> None:
    """Says whether the update lets a failure fall back."""
    forbids = [f"CTL0 {word:08X}" for word in asked.ctl0s if word & CONFIG_FALLBACK][:1]
    remedy = f"{''.join(forbids)} has bit 10, which forbids it: {CALLED}allow_fallback STREAM > NEW"
    checks.tell(not forbids, "fallback", "CTL0 allows a fallback", remedy)


def look_at_time(checks: Checks, watches: list[Watch], role: str = "", before: str = "") -> None:
    """Says how long the load of a stream takes, and whether a watchdog lasts for it. Where that isn't sure, a note
    stands in the place of the check. `before` is said first."""
    text = before + "; ".join(it.text for it in watches)
    found = [it.verdict for it in watches]
    for verdict in (Verdict.SHORT, Verdict.DOUBTFUL, Verdict.CLOSE):
        if verdict not in found:
            continue
        if verdict is Verdict.SHORT:
            checks.tell(False, f"{role}time", f"{text}: {TOO_SHORT[verdict]}")
        else:
            checks.note(f"{role}time", f"{text}: {TOO_SHORT[verdict]}")
        return
    checks.tell(True, f"{role}time", text if found != [Verdict.OFF] else f"no watchdog runs; {text}")


def look_at_opcode(checks: Checks, asked: Asked, unit: int, role: str) -> None:
    """Notes where a stream has its flash read with addresses of another size than the part's start address has."""
    if not asked.bspi:
        return
    is_long = has_long_address(asked.bspi)
    begin = f"BSPI {asked.bspi:08X} of the {role} reads with {32 if is_long else 24} address bits"
    if is_long and unit == 1:
        checks.note("address", f"{begin}: a flash of up to 16 MiB may not know that, and WBSTAR then counts 256 bytes")
    if not is_long and unit != 1:
        checks.note("address", f"{begin}, and the start address of the part counts {unit} bytes (start_unit)")
