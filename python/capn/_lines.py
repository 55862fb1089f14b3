"""The lines of a message. They say what each word of the message is."""
from __future__ import annotations

from enum import IntEnum
from struct import Struct as _Layout
from typing import NamedTuple

from ._bytes import Buffer
from ._calls import _USUAL, Form, _report, _reports, _room, _taken
from ._capn import ffi, lib
from ._limits import Limits
from ._message import Message
from ._refusal import let_go, refused

_lines_type = ffi.typeof("capn_line[]")
# The layout of a line in the library's memory.
_LAID_OUT = _Layout("<Q10I")
# The number of lines for which there is room at first. This is enough for most small messages.
_FEW = 256


class LineKind(IntEnum):
    """The kind of the words of a `Line`."""

    POINTER = lib.CAPN_LINE_POINTER
    """A pointer that isn't null."""
    NULL = lib.CAPN_LINE_NULL
    """Null pointers."""
    PAD = lib.CAPN_LINE_PAD
    """A word of a landing pad, which a far pointer refers to."""
    TAG = lib.CAPN_LINE_TAG
    """The tag word of a list of structs."""
    DATA = lib.CAPN_LINE_DATA
    """Data words of a struct, or of the elements of a list of structs."""
    LIST = lib.CAPN_LINE_LIST
    """Elements of a list of bits, bytes or numbers, and the padding after them."""
    SLACK = lib.CAPN_LINE_SLACK
    """Words of a list of structs after its elements."""
    UNREACHED = lib.CAPN_LINE_UNREACHED
    """Words that belong to no object and no landing pad."""


class Line(NamedTuple):
    """A line of a message: consecutive words of one segment that are alike."""

    offset: int
    """The offset of the first word in the message. In a packed message, the offset counts the unpacked bytes."""
    place: tuple[int, int]
    """The number of the segment, and the number of the first word in the segment."""
    words: int
    """The number of words, 1 or more."""
    times: int
    """The number of times that objects and landing pads cover each of the words. It is 0 for `LineKind.UNREACHED`."""
    slot: tuple[int, int] | None
    """The place of the pointer to the object or landing pad that has the words: the pointer's segment, and its word in
    that segment. None for the root pointer, and for `LineKind.UNREACHED`."""
    cut: int
    """The number of words that canonical bytes leave out."""
    not_zero: int
    """The number of words that aren't zero."""
    kind: LineKind
    """The kind of the words."""
    overlap: bool
    """Whether different objects or landing pads overlap in the words."""
    padding: bool
    """Whether the line has the last word of a list, and the padding after the list isn't zero."""


_KINDS = tuple(LineKind)


def annotate(
    message: Message | Buffer, form: Form = "stream", limits: Limits = _USUAL, *, in_place: bool = False
) -> list[Line]:
    """Returns the lines of a message, as `capn annotate` has them, in the order of the words. Each word of each segment
    is in exactly one line. The segment table has no line. The message is a `Message`, or bytes that are read with the
    given limits. It may have a capability.

    A call takes 16 bytes for each word of a valid message, and 48 for each line."""
    if isinstance(message, Message):
        number, given, bounds = message._whole()
    else:
        number, given, bounds = _taken(message, form, limits, in_place)
    try:
        report, room = _report(), _FEW
        lines = _room(_lines_type, room)
        status = lib.capn_annotate(number, given, len(given), bounds, lines, room, report)
        if status == lib.CAPN_NO_ROOM:
            room = report.length // _LAID_OUT.size
            lines = _room(_lines_type, room)
            status = lib.capn_annotate(number, given, len(given), bounds, lines, room, report)
    except BaseException:
        let_go(given)
        raise
    if status != lib.CAPN_OK:
        raise refused(status, report, number, message, given, bounds)
    found = [_line(*numbers) for numbers in _LAID_OUT.iter_unpack(ffi.buffer(lines, report.length))]
    _reports.append(report)
    return found


def _line(
    offset: int, segment: int, word: int, words: int, times: int, slot_segment: int, slot_word: int, cut: int,
    not_zero: int, number: int, flags: int
) -> Line:
    kind, place = _KINDS[number], (segment, word)
    # The root pointer is word 0 of segment 0. It belongs to no object.
    slot = None if kind is LineKind.UNREACHED or place == (0, 0) else (slot_segment, slot_word)
    overlap, padding = bool(flags & lib.CAPN_LINE_OVERLAP), bool(flags & lib.CAPN_LINE_PADDING)
    return Line(offset, place, words, times, slot, cut, not_zero, kind, overlap, padding)
