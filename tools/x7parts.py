"""The 7-series devices by IDCODE, without the version in bits 31:28 (UG470, device identification register; those of
the Zynq-7000 from UG585, PSS_IDCODE), and other families by name."""
from __future__ import annotations

# the bits of an IDCODE without the version, by which devices are compared
DEVICE_BITS = 0xFFFFFFF
# bits 27:21 of an IDCODE are the family's code, and this one is that of the 7 series
FAMILY_SHIFT, FAMILY_BITS, SERIES_7 = 21, 0x7F, 0x1B

IDCODES = {
    "7s6": 0x3622093, "7s15": 0x3620093, "7s25": 0x37C4093, "7s50": 0x362F093, "7s75": 0x37C8093, "7s100": 0x37C7093,
    "7a12t": 0x37C3093, "7a15t": 0x362E093, "7a25t": 0x37C2093, "7a35t": 0x362D093, "7a50t": 0x362C093,
    "7a75t": 0x3632093, "7a100t": 0x3631093, "7a200t": 0x3636093,
    "7k70t": 0x3647093, "7k160t": 0x364C093, "7k325t": 0x3651093, "7k355t": 0x3747093, "7k410t": 0x3656093,
    "7k420t": 0x3752093, "7k480t": 0x3751093,
    "7v585t": 0x3671093, "7v2000t": 0x36B3093, "7vx330t": 0x3667093, "7vx415t": 0x3682093, "7vx485t": 0x3687093,
    "7vx550t": 0x3692093, "7vx690t": 0x3691093, "7vx980t": 0x3696093, "7vx1140t": 0x36D5093, "7vh580t": 0x36D9093,
    "7vh870t": 0x36DB093,
    "7z007s": 0x3723093, "7z010": 0x3722093, "7z012s": 0x373C093, "7z014s": 0x3728093, "7z015": 0x373B093,
    "7z020": 0x3727093, "7z030": 0x372C093, "7z035": 0x3732093, "7z045": 0x3731093, "7z100": 0x3736093,
}

# devices of several dies
SSI = {IDCODES[name] for name in ("7v2000t", "7vx1140t", "7vh580t", "7vh870t")}

# other families by how the part in a header begins
FAMILIES = [
    ("6s", "Spartan-6"),
    ("3s", "Spartan-3 Generation"),
    ("2s", "Spartan-II"),
    ("4v", "Virtex-4"),
    ("5v", "Virtex-5"),
    ("6v", "Virtex-6"),
    ("v", "Virtex"),
    ("2v", "Virtex-II"),
    ("ku", "Kintex UltraScale or UltraScale+"),
    ("vu", "Virtex UltraScale or UltraScale+"),
    ("zu", "Zynq UltraScale+"),
    ("au", "Artix UltraScale+"),
    ("su", "Spartan UltraScale+"),
    ("k2", "Kria"),
    ("vc", "Versal"),
    ("vm", "Versal"),
    ("ve", "Versal"),
    ("vp", "Versal"),
]


def bare(part: str) -> str:
    """The name of a part as a header has it, without the maker's letters."""
    part = part.lower()
    return part[2:] if part[:2] in ("xc", "xa", "xq") else part


def family_of(part: str) -> str | None:
    """The family that a part in a header is of, where it is no 7-series device, or none."""
    found = sorted((name for name in FAMILIES if bare(part).startswith(name[0])), key=lambda it: -len(it[0]))
    return found[0][1] if found else None


def idcode_of_name(part: str) -> int | None:
    """The IDCODE of the part that a header names, or none."""
    found = [name for name in IDCODES if bare(part).startswith(name)]
    return IDCODES[max(found, key=len)] if found else None


def name_of_idcode(idcode: int) -> str | None:
    """The device of an IDCODE, or none."""
    return next((f"xc{name}" for name, code in IDCODES.items() if code == idcode & DEVICE_BITS), None)


def is_7_series(idcode: int) -> bool:
    """Whether an IDCODE is one of the family."""
    return idcode >> FAMILY_SHIFT & FAMILY_BITS == SERIES_7
