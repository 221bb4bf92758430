"""A cause as `why` says it: what kind it is of, its words, where it stands, and where the page BOARD has more. python3
(3.8) and its library alone."""
from __future__ import annotations

from enum import Enum
from typing import TYPE_CHECKING, NamedTuple

if TYPE_CHECKING:
    from x7subject import Source


class Section(Enum):
    """The sections of the page BOARD that a cause, or a word of a board, leads to."""

    CHECK = "A check fails"
    OTHER_DEVICE = "A stream for another device"
    NO_SYNC = "No sync word"
    EARLY_END = "A stream that ends early"
    LOST_WORDS = "Lost words"
    WAITS = "Startup waits"
    NOT_CONFIGURED = "A partial stream on a device that isn't configured"
    PARTIAL = "A partial stream that is damaged"
    WATCHDOG = "The watchdog"
    FALLBACK = "It falls back"
    INTERRUPTED = "An update was interrupted"
    NO_FALLBACK = "It doesn't fall back"
    STARTED = "Phase 7, and the board doesn't run"
    NO_ANSWER = "A board that doesn't answer"
    FURTHER = "Further faults"


class Kind(Enum):
    """The kinds of causes."""

    EMPTY = "the file has no data"
    OTHER_FILE = "it is a file of another kind"
    OTHER_FAMILY = "it is a stream of another family"
    OTHER_DEVICE = "it is for another device"
    SEVERAL_DEVICES = "the streams are for different devices"
    OTHER_REPORT = "the report is of other streams"
    NO_REPORT = "the report is empty"
    TURNED = "bits, bytes or words stand in another order"
    PINS = "data or address lines are stuck, exchanged or joined"
    RECODED = "bytes were changed as those of a text"
    ERASED = "all is FF from a place on, or within"
    CUT = "the end is missing"
    NO_BEGINNING = "the beginning is missing"
    LOST = "bytes were lost or added"
    NO_SYNC = "there is no sync word"
    FALSE_SYNC = "a sync word that isn't the stream's own"
    DAMAGED_WORD = "a word other than those of frames is damaged"
    CHECK = "a check fails"
    PACKET = "a word stands where a packet's header should"
    NO_START = "START is damaged or lost"
    NOTHING_STARTED = "the streams start nothing, and may be right so"
    WAITS = "startup waits"
    NOT_ENDED = "the bytes end before startup does"
    KEPT_OFF = "it starts, and outputs or writes are kept off"
    DROPPED = "frames are dropped"
    WATCHDOG = "the watchdog fires"
    ENCRYPTED = "it is encrypted"
    FRAMES = "frames go where the part has none"
    LEADS_ON = "it leads on to another stream"
    BOOT = "what a boot came to"
    SVF = "what an SVF text came to"
    UNKNOWN = "nothing is known but that it is wrong"


class Cause(NamedTuple):
    """A cause."""

    kind: Kind
    text: str  # a sentence for the user, without its point
    remedy: str  # what to do
    section: Section | None  # of the page BOARD, or none where it has nothing to the matter
    after: int | None = None  # the place after its last byte in the data of all streams, or none
    source: Source | None = None  # the stream that it is one of, or none


# the remedies that more than one cause has
TAKE_AGAIN = "take the file again"
COUNT_BYTES = (
    "take the file again; where it goes through a cable or a processor, compare the number of bytes that arrive"
)
# The kinds beside which nothing is worth a note: of a damaged stream settings mean nothing.
DAMAGED = {
    Kind.EMPTY, Kind.OTHER_FILE, Kind.OTHER_FAMILY, Kind.TURNED, Kind.PINS, Kind.RECODED, Kind.ERASED, Kind.CUT,
    Kind.NO_BEGINNING, Kind.LOST, Kind.NO_SYNC, Kind.FALSE_SYNC, Kind.DAMAGED_WORD, Kind.CHECK, Kind.PACKET,
    Kind.NO_START, Kind.OTHER_REPORT, Kind.NO_REPORT, Kind.UNKNOWN,
}  # fmt: skip
