"""The shelf: part files of real devices, found by a device's name, by an IDCODE, or by the IDCODE that a stream writes.
docs/PARTS.md says where they come from and which there are. Nothing is read before it is asked for."""
from __future__ import annotations

import os
import re

from x7formats import IDCODE, is_listing, read_listing, steps, stream_named, word_at
from x7parts import IDCODES, bare, name_of_idcode
from x7run import CALLED, IS_INSTALLED, TOP, Refused, read_file

# The folder of the part files: in the repository its `parts`; where the tools were installed, what `./install` makes
# beside their folder lib/x7.
FOLDER = os.path.join(os.path.dirname(TOP), "share", "x7", "parts") if IS_INSTALLED else os.path.join(TOP, "parts")
ENDING = ".part"
# a device as a user names it, or one in a package and of a speed grade: `xc7a35t`, `7a35tcpg236-1`; no file's name
DEVICE_NAME = re.compile(r"(x[caq])?7[a-z0-9]+(-[0-9a-z]+)?", re.I)


def devices() -> list[str]:
    """The devices of the shelf, as `xc7a35t`, in the order of their names."""
    try:
        names = os.listdir(FOLDER)
    except OSError:
        return []
    return sorted(it[: -len(ENDING)] for it in names if it.endswith(ENDING))


def device_named(name: str) -> str | None:
    """The device that a name begins with, as `xc7a35t` of `7a35tcpg236-1`, or none; on the shelf or not."""
    found = [it for it in IDCODES if bare(name).startswith(it)] if DEVICE_NAME.fullmatch(name) else []
    return f"xc{max(found, key=len)}" if found else None


def part_of_device(name: str) -> str | None:
    """The path of the part file of a device, by its name or that of one in a package; none where the shelf lacks it."""
    device = device_named(name)
    return path_of(device) if device else None


def part_of_idcode(idcode: int) -> str | None:
    """The path of the part file of the device with an IDCODE, whatever its version; none where the shelf lacks it."""
    device = name_of_idcode(idcode)
    return path_of(device) if device else None


def idcode_of(data: bytes) -> int | None:
    """The IDCODE that the data of a stream write first, or none."""
    writes = (it for it in steps(data) if it.kind == "write" and it.register == IDCODE and it.present)
    return next((word_at(data, it.first) for it in writes), None)


def part_of_data(data: bytes) -> str | None:
    """The path of the part file of the device whose IDCODE the data of a stream write first; none where they write
    none, or the shelf lacks it."""
    idcode = idcode_of(data)
    return None if idcode is None else part_of_idcode(idcode)


def part_of_stream(path: str) -> str | None:
    """The path of the part file for the stream in a file, or in its listing, by the IDCODE that it writes first; none
    as of its data. A file that can't be read, or whose header is cut, is refused."""
    raw = read_file(path)
    return part_of_data((read_listing(path) if is_listing(raw) else stream_named(path, raw)).data)


def part_for_stream(path: str) -> str:
    """The path of the part file for the stream in a file, where a tool can do nothing without one: else a refusal that
    says what to do."""
    part = part_of_stream(path)
    if not part:
        raise Refused(f"{path}: the shelf has no part file for its device: give one before it ({CALLED}part makes it)")
    return part


def part_file(word: str) -> str:
    """The path of a part file that a user names: a file, or a device of the shelf. Another name is refused."""
    if os.path.exists(word):
        return word
    path = part_of_device(word)
    if path:
        return path
    why = "there is no such file, and no device of the shelf has that name"
    raise Refused(f"{word}: {why} ({CALLED}part --shelf names all)")


def path_of(device: str) -> str | None:
    """The path of the part file of a device of the shelf, or none."""
    path = os.path.join(FOLDER, device + ENDING)
    return path if os.path.isfile(path) else None
