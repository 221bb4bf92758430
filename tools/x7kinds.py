"""What a file is that isn't a stream as it stands: packed, a text, of another tool, or a stream whose bytes were
turned."""
from __future__ import annotations

import gzip
import re
import zlib
from typing import Callable, NamedTuple, Sequence

import x7formats as x7
from x7dumps import is_dump

# ---- files of other kinds, by their first bytes


class Other(NamedTuple):
    """A file of another kind."""

    what: str  # it is, as a sentence
    remedy: str  # what to do


class Magic(NamedTuple):
    """How a kind of file is known."""

    place: int  # of the bytes by which it is known
    begins: bytes  # these bytes
    what: str  # the file is, as a sentence
    remedy: str  # what to do


class Recoded(NamedTuple):
    """How a stream is known whose bytes were recoded: by bytes anywhere among the first `SEARCHED` ones."""

    begins: bytes  # what became of its sync word
    what: str  # was done to it, as a sentence
    remedy: str  # what to do


# A byte order mark of UTF-8, which some editors write.
MARK = b"\xef\xbb\xbf"
TAKE_BIT = "give the .bit or .bin file"
TURN = f"{x7.CALLED}turn FILE > NEW"
TAKE_AGAIN = "take the file again: look at what was downloaded"
OTHER_DEVICES = "x7 reads streams of 7-series devices"
A_PAGE = "it is a page of HTML, as a server sends in place of a file"
# What a program packs that unpacks it too, with -dc: its first bytes, what it is, and the program with its options.
PACKED = [
    (b"\x1f\x8b", "a gzip file", "gzip -dc"),
    (b"\xfd7zXZ\0", "an xz file", "xz -dc"),
    (b"\x5d\0\0\x80\0\xff\xff\xff\xff", "an lzma file", "xz -dc --format=lzma"),
    (b"BZh", "a bzip2 file", "bzip2 -dc"),
    (b"\x28\xb5\x2f\xfd", "a zstd file", "zstd -dc"),
    (b"\x04\x22\x4d\x18", "an lz4 file", "lz4 -dc"),
    (b"LZIP", "an lzip file", "lzip -dc"),
]
# A boot image of a Zynq-7000, by the name of its maker in either order of bytes.
ZYNQ = (b"XNLX", b"XLNX")
A_BOOT_IMAGE = "it is a boot image of a Zynq-7000 (BOOT.BIN), in which a stream is one of several partitions"
MAGIC = [
    *(Magic(0, begins, f"it is {what}", f"{program} FILE > NEW") for begins, what, program in PACKED),
    *(Magic(0x24, begins, A_BOOT_IMAGE, "give the .bit file that the image was made from") for begins in ZYNQ),
    Magic(0, b"PK\x03\x04", "it is a zip file", "unzip it"),
    Magic(0, b"7z\xbc\xaf\x27\x1c", "it is a 7z file", "7z x FILE"),
    Magic(0, b"Rar!\x1a\x07", "it is a rar file", "unrar x FILE"),
    Magic(257, b"ustar", "it is a tar file, in which a stream may be one of several files", "tar -xf FILE"),
    Magic(0, b"070701", "it is a cpio file", "cpio -i < FILE"),
    Magic(0, b"!<arch>\n", "it is an archive of ar", "ar x FILE"),
    Magic(0, b"\x7fELF", "it is a program (ELF)", TAKE_BIT),
    Magic(
        0,
        b"\xd0\x0d\xfe\xed",
        "it is a device tree (dtb), or a FIT image, in which a stream may be one of several files",
        "dumpimage -T flat_dt -p N -o NEW FILE, or " + TAKE_BIT,
    ),
    Magic(
        0,
        b"\x27\x05\x19\x56",
        "it is an image of U-Boot (mkimage), whose header of 64 bytes stands before the file",
        "tail -c +65 FILE > NEW",
    ),
    *(Magic(0, name + b"\0", f"it is a .{name.decode().lower()} file of Intel's (Altera's) devices", OTHER_DEVICES)
      for name in (b"SOF", b"POF")),
    Magic(0, b"\x89PNG\r\n\x1a\n", "it is a picture (PNG)", TAKE_BIT),
    Magic(0, b"\xff\xd8\xff\xe0", "it is a picture (JPEG)", TAKE_BIT),
    Magic(0, b"%PDF-", "it is a PDF", TAKE_BIT),
    Magic(0, b"Xilinx ASCII Bitstream", "it is a .rbt file, digits 0 and 1 as text", TURN),
    Magic(0, b"version https://git-lfs", "it is a pointer of git-lfs, and not the file", "git lfs pull"),
]


class Text(NamedTuple):
    """How a kind of text is known."""

    pattern: bytes  # what its first bytes match
    what: str  # it is
    remedy: str  # what to do


TEXTS = [
    Text(rb"x7: ", "it is the line with which x7 refused something", "mend what it says: x7 --help has the statuses"),
    Text(rb"(?i)\s*<(!doctype html|html|head|body)", A_PAGE, TAKE_AGAIN),
    Text(rb"(?i)\s*<\?xml[^>]*>\s*<(!doctype )?html", A_PAGE, TAKE_AGAIN),
    Text(rb"\s*<\?xml", "it is XML, such as a server's answer or a tool's settings", TAKE_AGAIN),
    Text(rb"\s*[{\[]\s*[\"{\[\]}]", "it is JSON, such as a server's answer or a tool's settings", TAKE_AGAIN),
    Text(rb":[0-9A-F]{10}", "it seems to be Intel HEX", "x7 unmcs FILE > NEW"),
    Text(rb"S[0-9][0-9A-F]{6}", "it is a file of S-records", "srec_cat FILE -o NEW -binary"),
    Text(
        rb"(?:[!/][^\n]*\n|[ \t\r]*\n)*[ \t]*(?:STATE|SIR|HIR|TRST|ENDIR|FREQUENCY)\s",
        "it is an SVF text",
        "x7 svf PART FILE",
    ),
    Text(rb"(?:#[^\n]*\n|\s*\n)*(?:frame [0-9A-F]{8} )", "it is a frames text", "x7 plan full PART FILE > STREAM"),
    Text(
        rb"(?:#[^\n]*\n|\s*\n)*name\s*=\s*\"[^\n]*\n(?:#[^\n]*\n|\s*\n)*idcode\s*=",
        "it is a part file",
        "give the stream, and this file after --part",
    ),
    Text(rb"begin [0-7]{3} ", "it is a file of uuencode", "uudecode -o NEW FILE"),
    Text(
        rb"(?s)(?:/\*.*?\*/|//[^\n]*\n|#[^\n]*\n|\s)*"
        rb"(?:(?:static|const|unsigned|signed|char|int|uint8_t|uint32_t)\s+)+\w+\s*\[",
        "it is C source, an array of bytes",
        "compile it, or " + TAKE_BIT,
    ),
    Text(rb"([01]{32}\r?\n){2}", "it is digits 0 and 1 as text", TURN),
]
# Texts of digits, after dumps.
DIGITS = [
    Text(rb"(?i)[0-9A-F\s]{64}", "it is hexadecimal digits as text", "xxd -r -p FILE NEW"),
    Text(rb"[A-Za-z0-9+/\r\n]{64}", "it is base64", "base64 -d FILE > NEW"),
]
# what `xxd` writes where nothing is asked of it: a place, a colon, halfwords, and characters
OF_XXD = re.compile(rb"[0-9a-f]{8}: (?:[0-9A-Fa-f]{4} ){1,7}[0-9A-Fa-f]{2,4} +.{1,16}\r?\n")
RECODED = [
    Recoded(
        b"\xc2\xaa\xc2\x99\x55\x66",
        "its bytes were recoded as a text, from Latin-1 to UTF-8",
        "iconv -f UTF-8 -t LATIN1 FILE > NEW; or take it again, as binary",
    ),
    Recoded(
        b"\xaa\0\x99\0\x55\0\x66\0",
        "its bytes were recoded as a text, to UTF-16",
        "iconv -f UTF-16LE -t LATIN1 FILE > NEW; or take it again, as binary",
    ),
    Recoded(
        b"\xef\xbf\xbd\xef\xbf\xbdUf",
        "its bytes were recoded as a text, and those that no text has are lost",
        "take the file again, as binary",
    ),
    Recoded(
        b"\x2a\x19\x55\x66",
        "the highest bit of each byte is lost, as on a line of seven bits",
        "take the file again, over a line of eight bits",
    ),
]  # fmt: skip
# how many of its first bytes a file is searched in for these
SEARCHED = 65536


def is_text(data: bytes) -> bool:
    """Whether data begin as a text of ASCII."""
    return bool(data) and all(32 <= byte < 127 or byte in b"\t\r\n" for byte in data[:4096])


def packed_kind_of(raw: bytes) -> Other | None:
    """What a file is by the bytes that its kind has at a place, or none."""
    return next((Other(it.what, it.remedy) for it in MAGIC if raw.startswith(it.begins, it.place)), None)


def kind_of(raw: bytes) -> Other | None:
    """What a file is by its first bytes, where it is no stream: what, and the remedy; or none."""
    packed = packed_kind_of(raw)
    if packed:
        return packed
    for it in RECODED:
        if it.begins in raw[:SEARCHED] and x7.SYNC not in raw[:SEARCHED]:
            return Other(it.what, it.remedy)
    if raw.startswith(MARK) and is_text(raw[len(MARK) :]):
        inner = text_kind_of(raw[len(MARK) :])
        return Other(f"{inner.what}, after a byte order mark", f"tail -c +4 FILE > NEW, and then: {inner.remedy}")
    return text_kind_of(raw) if is_text(raw) else None


def text_kind_of(raw: bytes) -> Other:
    """What a text is."""
    for it in TEXTS:
        if re.match(it.pattern, raw[:4096]):
            return Other(it.what, it.remedy)
    if OF_XXD.match(raw):
        return Other("it is a hex dump of xxd", f"xxd -r FILE NEW, or {TURN}")
    if is_dump(raw) and not re.match(rb"(?i)(?:[0-9a-f]{2})+(?:\r?\n|\Z)", raw):
        return Other("it is a dump as text, digits of bytes or of words", TURN)
    for it in DIGITS:
        if re.match(it.pattern, raw[:4096]):
            return Other(it.what, it.remedy)
    line = raw.split(b"\n")[0][:60].decode("ascii", "replace").strip()
    return Other(f"it is a text, which begins '{line}'", TAKE_BIT)


# ---- bytes that were turned

# each byte with its bits in the other order
MIRRORED = bytes(int(f"{byte:08b}"[::-1], 2) for byte in range(256))
NIBBLES = bytes(byte >> 4 | (byte & 15) << 4 for byte in range(256))
INVERTED = bytes(255 - byte for byte in range(256))
# how many of its first bytes a file is judged by
JUDGED = 1 << 18


def exchanged(data: bytes, size: int, order: Sequence[int]) -> bytes:
    """The data with the bytes of each group of `size` in another order; bytes of no whole group stay."""
    whole = len(data) // size * size
    turned = bytearray(data)
    for place, source in enumerate(order):
        turned[place:whole:size] = data[source:whole:size]
    return bytes(turned)


class Way(NamedTuple):
    """How bits, bytes or words were turned."""

    what: str  # what was turned
    how: str  # how it was turned: swapped, inverted
    size: int  # of the groups of bytes in which it was; 0 of the file as a whole
    back: Callable[[bytes], bytes]  # the way back


WAYS = [
    Way("the bits of each byte", "swapped", 1, lambda data: data.translate(MIRRORED)),
    Way("the bytes of each word", "swapped", 4, lambda data: exchanged(data, 4, (3, 2, 1, 0))),
    Way("the bytes of each halfword", "swapped", 2, lambda data: exchanged(data, 2, (1, 0))),
    Way(
        "the bits of each byte and the bytes of each word",
        "swapped",
        4,
        lambda data: exchanged(data.translate(MIRRORED), 4, (3, 2, 1, 0)),
    ),
    Way(
        "the bits of each byte and the bytes of each halfword",
        "swapped",
        2,
        lambda data: exchanged(data.translate(MIRRORED), 2, (1, 0)),
    ),
    Way("the halfwords of each word", "swapped", 4, lambda data: exchanged(data, 4, (2, 3, 0, 1))),
    Way("the bytes of each 64 bits", "swapped", 8, lambda data: exchanged(data, 8, (7, 6, 5, 4, 3, 2, 1, 0))),
    Way("the words of each 64 bits", "swapped", 8, lambda data: exchanged(data, 8, (4, 5, 6, 7, 0, 1, 2, 3))),
    Way("the halves of each byte", "swapped", 1, lambda data: data.translate(NIBBLES)),
    Way("all bits", "inverted", 1, lambda data: data.translate(INVERTED)),
]
# The file as a whole, its last byte first: the order in which texts for a test access port have it.
WHOLE_WAYS = [
    Way("the bytes of the whole file", "reversed", 0, lambda data: data[::-1]),
    Way("the bits of the whole file", "reversed", 0, lambda data: data[::-1].translate(MIRRORED)),
]


def is_stream(data: bytes) -> bool:
    """Whether the data have a sync word, and after it begins what a stream begins with: packets, one of which is of CMD
    or IDCODE."""
    at = data.find(x7.SYNC)
    if at < 0:
        return False
    known = seen = 0
    for step in x7.session(data[: at + 1024], at + 4):
        if step.kind in ("bad", "filler") and step.word not in (x7.DUMMY_WORD, x7.SYNC_WORD):
            return False
        if step.kind == "write" and step.register not in (x7.FDRI, x7.MFWR) and step.word_count > 64:
            return False
        known += step.kind == "write" and step.register in (x7.CMD, x7.IDCODE, x7.WBSTAR)
        seen += step.kind in ("write", "read", "nop")
    return known > 0 or seen > 0 and len(data) < at + 64 or len(data) < at + 8


class Turned(NamedTuple):
    """How data were turned."""

    way: Way
    offset: int  # from which byte on


def turning_of(data: bytes) -> Turned | None:
    """The way back, and from which byte on, that makes a stream of data, or none."""
    beginning = data[:JUDGED]
    for way in WAYS:
        for offset in range(way.size):
            if is_stream(beginning[:offset] + way.back(beginning[offset:])):
                return Turned(way, offset)
    return next((Turned(way, 0) for way in WHOLE_WAYS if is_stream(way.back(data[-JUDGED:]))), None)


def late_by(data: bytes) -> int | None:
    """By how many bits the data are late, or none."""
    beginning = data[:4096]
    for bits in range(1, 8):
        if x7.SYNC in (int.from_bytes(beginning, "big") << bits).to_bytes(len(beginning) + 1, "big"):
            return bits
    return None


def of_digits(raw: bytes) -> bytes:
    """The data of a .rbt file: its lines of 32 digits, after some lines of text. A line that is damaged is refused, and
    `Bits:` compared."""
    count: int | None = None
    lines: list[int] = []
    begun = False
    for number, line in enumerate(raw.rstrip(b"\r\n").split(b"\n"), 1):
        line = line.rstrip(b"\r")
        if re.fullmatch(b"[01]{32}", line):
            begun = True
            lines.append(int(line, 2))
        elif begun:
            raise x7.Refused(
                f"line {number} of the .rbt file has {len(line)} characters, and isn't 32 digits 0 and 1: it is "
                "damaged, or cut off",
            )
        elif re.fullmatch(rb"Bits:\s*\d+\s*", line):
            count = int(line.split(b":")[1])
        elif re.fullmatch(rb"[01]+", line) or re.search(rb"[01]{24}", line):
            raise x7.Refused(f"line {number} of the .rbt file isn't 32 digits 0 and 1: it is damaged")
    if count is not None and count != 32 * len(lines):
        raise x7.Refused(
            f"the .rbt file tells of {count} bits, and has {32 * len(lines)}: lines were "
            f"{'lost' if count > 32 * len(lines) else 'added'}",
        )
    return x7.bytes_of(lines)


def unpacked(raw: bytes) -> bytes:
    """The bytes of a gzip file."""
    try:
        return gzip.decompress(raw)
    except (OSError, EOFError, zlib.error) as error:
        raise x7.Refused(f"the gzip file is damaged: {error}") from None
