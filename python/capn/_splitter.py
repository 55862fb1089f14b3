"""Splits streams of messages, as their bytes come."""
from __future__ import annotations

from typing import Any, Literal

from ._bytes import Buffer, copied
from ._calls import _USUAL, _laid_out, _room, _room_type
from ._capn import ffi, lib
from ._limits import Limits
from ._refusal import Refusal, failure

__all__ = ["FRAME_CUT", "Form", "HEAD", "LEAST", "MEMORY", "OK", "ONE", "PACKED_CUT", "PACKED_TOO_LONG", "PIECE",
           "Splitter", "busy", "group", "of_form"]

# The greatest number of bytes that a file is asked for at once, and the room for unpacked bytes.
PIECE = 65536
# The number of bytes with which a message may be refused, the least number of bytes of a message, and the first bytes
# of a message of one segment.
LEAST, HEAD, ONE = 4, 8, bytes(4)
_report_type, _look_type = ffi.typeof("capn_report *"), ffi.typeof("capn_look *")
_unpack_some, _look_at = lib.capn_unpack_some, lib.capn_look_at
OK, MEMORY, FRAME_CUT = lib.CAPN_OK, lib.CAPN_MEMORY, lib.CAPN_FRAME_CUT
PACKED_CUT, PACKED_TOO_LONG = lib.CAPN_PACKED_CUT, lib.CAPN_PACKED_TOO_LONG
Form = Literal["stream", "packed"]
# One `feed` of packed bytes returns messages of at most _MOST bytes together, or of at most _TIMES times the bytes that
# were fed. A single message may be longer. Besides its bytes, a message takes _BESIDE bytes.
_MOST, _TIMES, _BESIDE = 1 << 23, 16, 56


def busy(what: str) -> ValueError:
    """Returns the exception for a call that comes while another call runs: in another thread, or in the call that a
    signal handler interrupted."""
    return ValueError(f"{what} is being used by another call")


def of_form(form: str) -> bool:
    """Returns whether a form is packed."""
    if not isinstance(form, str):
        raise TypeError(f"form is a string, not {type(form).__name__}")
    if form not in ("stream", "packed"):
        raise ValueError(f"the form of a stream is 'stream' or 'packed', not {form!r}")
    return form == "packed"


def group(text: bytes) -> int:
    """Returns the least number of bytes of a packed group that begins with these bytes."""
    if not text:
        return 1
    if text[0] == 0:
        return 2
    if text[0] < 255:
        return 1 + text[0].bit_count()
    return 10 + 8 * text[9] if len(text) > 9 else 10


class Splitter:
    """Splits the bytes of a stream into messages as they come. `feed` returns the messages that some bytes complete,
    each with its segment table, and `end` says that no more bytes follow.

    No more is held than the message that has begun and what was fed last. `limits.message_words` bounds each message.
    If the stream is damaged, the messages before that are returned first. The `Refusal` is raised by the call that
    would have nothing else to return, and by each call after it.

    Packed bytes can unpack to a thousand times as many. So `feed` returns packed messages of at most about 8 MiB, or of
    16 times what was fed, and leaves the rest packed. `wanted` is 0 then, and feeding nothing returns the next ones,
    until it returns none.

    One call at a time may use a splitter: a second one raises a `ValueError`."""

    __slots__ = ("_bounds", "_packed", "_report", "_look", "_held", "_need", "_text", "_at", "_out", "_taken",
                 "_is_left", "_is_busy", "_refusal", "number", "offset")
    number: int
    """The number of messages that were returned."""
    offset: int
    """The place at which the next message begins, in the unpacked bytes."""

    def __init__(self, form: Form = "stream", limits: Limits = _USUAL) -> None:
        self._packed, self._bounds = of_form(form), _laid_out(limits)
        self._report, self._look = ffi.new(_report_type), ffi.new(_look_type)
        # The bytes of the message that has begun, and how many bytes are needed to know more about it.
        self._held, self._need = bytearray(), LEAST
        # The packed bytes that are held, the number of them that were unpacked already, and the number of packed bytes
        # before them. If messages are left, all bytes after them are held. Otherwise only the bytes of the group that
        # has begun are held.
        self._text, self._at, self._taken = b"", 0, 0
        # Whether the held bytes may have messages that were not returned.
        self._is_left = False
        # Whether a call runs now.
        self._is_busy = False
        self._out = _room(_room_type, PIECE) if self._packed else None
        self._refusal: Refusal | None = None
        self.number = self.offset = 0

    def __repr__(self) -> str:
        held = len(self._held) + len(self._text) - self._at
        return f"<capn splitter, {self.number} messages, {held} bytes held>"

    @property
    def wanted(self) -> int:
        """The greatest number of bytes to feed next so that none of them comes after the message that has begun. In a
        packed stream, none of them comes after the group in which the message ends. The number is 0 if messages are
        left, and after a `MemoryError`. Then feed nothing, to get the messages or to try again."""
        missing = max(self._need, HEAD) - len(self._held)
        if missing <= 0 or self._is_left:
            return 0
        if not self._packed:
            return missing
        begun = self._text[self._at:self._at + 10]
        return max(group(begun) - len(self._text) + self._at, 0)

    def feed(self, data: Buffer) -> list[bytes]:
        """Returns the messages that these bytes complete. The bytes are copied. While messages are left, feed nothing
        until `feed` returns no messages: other bytes raise a `ValueError`. An exception from elsewhere, such as from a
        signal handler, leaves the splitter unchanged. Then feed the same bytes again."""
        if self._is_busy:
            raise busy("this splitter")
        self._is_busy = True
        try:
            if self._refusal is not None:
                raise self._refusal
            given = data if type(data) is bytes else copied(data)
            if self._is_left and given:
                raise ValueError("messages are left: feed no bytes until none are returned")
            found, fault = self._fed(given)
            if fault is not None:
                raise fault
            return found
        finally:
            self._is_busy = False

    def _fed(
        self, given: bytes, at: int = 0, words: int = 0, most: int = 0
    ) -> tuple[list[bytes], Exception | None]:
        """Takes bytes, and returns the messages that they complete. If there are none, also returns the fault, if there
        is one. From packed bytes, returns messages of at most `most` bytes, or of as many as `feed` allows if `most` is
        0. Of the packed bytes, the first `at` were already unpacked to `words` bytes. An exception from elsewhere
        changes nothing."""
        if self._refusal is not None:
            return [], self._refusal
        held, text, taken, need, status = self._held, self._text, self._taken, self._need, OK
        begin, end, count, is_left = len(held), 0, 0, False
        found: list[bytes] = []
        fault: Exception | None = None
        refusal: Refusal | None = None
        try:
            if self._packed:
                most = most or max(_MOST, _TIMES * (len(given) + len(text)))
                if given:
                    text, taken = text[self._at:] + given, taken + self._at
                else:
                    at = at or self._at
                held += ffi.buffer(self._out, words)
                at, end, need, status, is_left = self._unpack(text, at, found, most)
                if not is_left:
                    text, taken, at = text[at:], taken + at, 0
            else:
                held += given
                if len(held) >= need:
                    end, need, status = self._whole(found, 0, need)
            count = len(found)
            if status == MEMORY:
                fault = failure(status, self._report)
            elif status not in (OK, FRAME_CUT):
                fault = refusal = self._refused(status, self.number + count + 1, self.offset + end)
        except BaseException:
            del held[begin:]
            raise
        # The lines below make no call, so no signal is handled here: all of them run, or none.
        self.number += count
        self.offset += end
        del held[:end]
        self._need, self._text, self._at, self._taken, self._refusal = need, text, at, taken, refusal
        self._is_left = is_left
        return found, None if found else fault

    def end(self) -> None:
        """Ends the stream. Raises a `Refusal` if its last message is truncated, and a `ValueError` if messages are
        left."""
        if self._is_busy:
            raise busy("this splitter")
        self._is_busy = True
        try:
            if self._is_left:
                raise ValueError("messages are left: feed no bytes until none are returned")
            self._ended()
        finally:
            self._is_busy = False

    def _ended(self) -> None:
        if self._refusal is None and self._text:
            self._report.at = self._taken
            self._refuse(PACKED_CUT)
        elif self._refusal is None and self._held:
            self._refuse(FRAME_CUT)
        if self._refusal is not None:
            raise self._refusal

    def _refuse(self, status: int) -> None:
        """Refuses the message that has begun. The refusal stays, unless the library was out of memory."""
        if status == MEMORY:
            raise failure(status, self._report)
        self._refusal = self._refused(status, self.number + 1, self.offset)

    def _refused(self, status: int, number: int, offset: int) -> Refusal:
        """Returns the refusal of a message from the last report."""
        fault = failure(status, self._report)
        if not isinstance(fault, Refusal):
            raise fault
        return fault._of_message(number, offset)

    def _unpack(self, text: bytes, at: int, found: list[bytes], most: int) -> tuple[int, int, int, int, bool]:
        """Unpacks the complete groups of a text from the place `at` on, in pieces. Finds the messages in each piece
        before the next piece is unpacked. Returns the ends of the groups and of the messages, how many bytes are needed
        to know more about the next message, the status of the bytes that come there, and whether messages may be
        left."""
        report, out, held = self._report, self._out, self._held
        end, need, status, more = 0, self._need, OK, PACKED_TOO_LONG
        given: Any = ffi.from_buffer("uint8_t[]", text)
        while True:
            if len(held) - end >= need:
                end, need, status = self._whole(found, end, need, most)
                if status not in (OK, FRAME_CUT):
                    return at, end, need, status, False
                if len(held) - end >= need or more == PACKED_TOO_LONG and self._cost(found, end) >= most:
                    return at, end, need, OK, True
            if more != PACKED_TOO_LONG:
                return at, end, need, OK, False
            more = _unpack_some(given + at, len(text) - at, out, PIECE, report)
            if more not in (OK, PACKED_CUT, PACKED_TOO_LONG):
                return at, end, need, more, False
            held += ffi.buffer(out, report.length)
            at += report.at

    @staticmethod
    def _cost(found: list[bytes], end: int) -> int:
        """Returns the memory that messages take. `end` is the number of their bytes."""
        return end + _BESIDE * len(found)

    def _whole(self, found: list[bytes], at: int, need: int, most: int | None = None) -> tuple[int, int, int]:
        """Finds the complete messages in the held bytes from the place `at` on. Returns where they end, how many bytes
        are needed to know more about the next message, and the status of the bytes that come there. Stops early if the
        messages take at least `most` bytes."""
        held, report, look = self._held, self._report, self._look
        status, have = OK, len(held)
        with ffi.from_buffer("uint8_t[]", held) as base:
            whole = ffi.buffer(base)
            while have - at >= need:
                status = _look_at(base + at, have - at, self._bounds, look, report)
                begin, need = at, LEAST
                for end in ffi.unpack(look.ends, look.count):
                    found.append(whole[at:begin + end])
                    at = begin + end
                if status == FRAME_CUT:
                    need = report.length
                elif status != OK:
                    break
                if most is not None and self._cost(found, at) >= most:
                    break
        return at, need, status
