"""The fields of the words that a board gives (UG470, status, boot history status, configuration options and control
registers)."""
from __future__ import annotations

from typing import NamedTuple


class Field(NamedTuple):
    """A field of a word."""

    name: str
    low: int  # its lowest bit
    width: int  # in bits
    meaning: list[str] | None  # of each of its values, or none where a value is a number


MODES = [
    "000 master serial", "001 master SPI", "010 master BPI", "011", "100 master SelectMAP", "101 JTAG only",
    "110 slave SelectMAP", "111 slave serial",
]  # fmt: skip
BUS_WIDTHS = ["x1", "x8", "x16", "x32"]
CLOCKS = [
    "startup runs on CCLK", "startup runs on a clock of the design (UserClk)", "startup runs on TCK (JtagClk)",
    "startup runs on TCK (JtagClk)",
]  # fmt: skip
SECURITY = [
    "frames may be read and written", "frames may not be read", "frames may be neither read nor written",
    "frames may be neither read nor written",
]  # fmt: skip
# the codes of STARTUP_STATE in the phases 0 to 7
STARTUP_STATES = [0b000, 0b001, 0b011, 0b010, 0b110, 0b111, 0b101, 0b100]
PHASE_OF_STATE = {state: phase for phase, state in enumerate(STARTUP_STATES)}


def field_of(low: int, width: int, word: int) -> int:
    """The number in `width` bits of a word, from bit `low` up."""
    return word >> low & (1 << width) - 1


def cycle(name: str) -> list[str]:
    """The meaning of the codes of a _CYCLE field of COR0."""
    if name in ("LOCK_CYCLE", "MATCH_CYCLE"):
        return [*(f"waits in phase {code}" for code in range(7)), "no wait"]
    if name == "DONE_CYCLE":
        return [*(f"phase {code + 1}" for code in range(6)), "phase 6", "phase 6 (KEEP)"]
    return [*(f"phase {code + 1}" for code in range(6)), "with DONE", "never (KEEP)"]


FIELDS: dict[str, list[Field]] = {
    "STAT": [
        Field("CRC_ERROR", 0, 1, ["no check failed", "a check failed"]),
        Field("PART_SECURED", 1, 1, ["no decryption is set", "decryption is set"]),
        Field("MMCM_LOCK", 2, 1, ["the clocks aren't locked", "the clocks are locked"]),
        Field("DCI_MATCH", 3, 1, ["the impedance isn't matched", "the impedance is matched"]),
        Field("EOS", 4, 1, ["startup hasn't ended", "startup has ended"]),
        Field("GTS_CFG_B", 5, 1, ["all outputs are off", "the outputs are enabled"]),
        Field("GWE", 6, 1, ["the design's memories and flip-flops can't be written", "they can be written"]),
        Field("GHIGH_B", 7, 1, ["all interconnect is off (High-Z)", "the interconnect is as configured"]),
        Field("MODE", 8, 3, MODES),
        Field("INIT_COMPLETE", 11, 1, ["the memory isn't cleared yet", "the memory was cleared"]),
        Field("INIT_B", 12, 1, ["the pin INIT_B is low", "the pin INIT_B is high"]),
        Field("RELEASE_DONE", 13, 1, ["the device holds DONE low", "the device has released DONE"]),
        Field("DONE", 14, 1, ["the pin DONE is low", "the pin DONE is high"]),
        Field("ID_ERROR", 15, 1, ["no wrong IDCODE was written", "a wrong IDCODE was written, or none"]),
        Field("DEC_ERROR", 16, 1, ["no error of decryption", "an error of decryption"]),
        Field("XADC_OVER_TEMP", 17, 1, ["not too hot", "too hot"]),
        Field("STARTUP_STATE", 18, 3, [f"phase {PHASE_OF_STATE[state]}" for state in range(8)]),
        Field("BUS_WIDTH", 25, 2, BUS_WIDTHS),
    ],
    "COR0": [
        Field("GWE_CYCLE", 0, 3, cycle("GWE_CYCLE")),
        Field("GTS_CYCLE", 3, 3, cycle("GTS_CYCLE")),
        Field("LOCK_CYCLE", 6, 3, cycle("LOCK_CYCLE")),
        Field("MATCH_CYCLE", 9, 3, cycle("MATCH_CYCLE")),
        Field("DONE_CYCLE", 12, 3, cycle("DONE_CYCLE")),
        Field("SSCLKSRC", 15, 2, CLOCKS),
        Field("OSCFSEL", 17, 6, None),
        Field("SINGLE", 23, 1, ["readback may be repeated", "readback is a single shot"]),
        Field("DRIVE_DONE", 24, 1, ["DONE is open drain", "DONE is driven high"]),
        Field("DONE_PIPE", 25, 1, ["startup looks at DONE at once", "startup looks at DONE a clock later"]),
    ],
    "CTL0": [
        Field("GTS_USER_B", 0, 1, ["all outputs are off", "the outputs are as startup says"]),
        Field("PERSIST", 3, 1, ["the configuration pins become the design's", "the configuration pins stay so"]),
        Field("SBITS", 4, 2, SECURITY),
        Field("DEC", 6, 1, ["not encrypted", "encrypted"]),
        Field("FARSRC", 7, 1, ["FAR shows its own address", "FAR shows the address of an error (EFAR)"]),
        Field("GLUTMASK_B", 8, 1, ["readback masks memories in logic", "readback shows memories in logic"]),
        Field("CONFIG_FALLBACK", 10, 1, ["a failed attempt falls back", "a failed attempt stops: no fallback"]),
        Field("OVERTEMP_POWERDOWN", 12, 1, ["no power down when too hot", "powers down when too hot"]),
        Field("ICAP_SELECT", 30, 1, ["the top ICAP", "the bottom ICAP"]),
        Field("EFUSE_KEY", 31, 1, ["the key is in memory", "the key is in fuses"]),
    ],
}

BOOT_FLAGS = [
    ("VALID", "this byte tells of no attempt", "this byte tells of an attempt"),
    ("FALLBACK", "it is no fallback", "it is a fallback"),
    ("IPROG", "no IPROG led to it", "an IPROG came"),
    ("WTO_ERROR", "the watchdog didn't fire", "the watchdog fired"),
    ("ID_ERROR", "no wrong IDCODE", "a wrong IDCODE, or none"),
    ("CRC_ERROR", "no check failed", "a check failed"),
    ("WRAP_ERROR", "the flash's end wasn't reached", "the flash's end was reached (BPI wraps around)"),
    ("HMAC_ERROR", "no error of authentication", "an error of authentication"),
]
FIELDS["BOOTSTS"] = [
    Field(f"{name}_{number}", 8 * number + bit, 1, [unset, set_])
    for number in (0, 1) for bit, (name, unset, set_) in enumerate(BOOT_FLAGS)
]  # fmt: skip


def fields_of(register: str, word: int) -> list[tuple[str, str, int, str]]:
    """The fields of a word of STAT, BOOTSTS, COR0 or CTL0: each with its bits, its value, and what it means."""
    found = []
    for field in FIELDS[register]:
        value = field_of(field.low, field.width, word)
        bits = str(field.low) if field.width == 1 else f"{field.low + field.width - 1}:{field.low}"
        found.append((field.name, bits, value, field.meaning[value] if field.meaning else ""))
    return found
