"""The calls that take one message in segments, as a builder has it. They need no segment table and no copy."""
from __future__ import annotations

from functools import partial
from typing import Any, Callable, Iterable, Sized

from ._bytes import Buffer, no_buffer, taken
from ._calls import (
    _USUAL,
    Checked,
    Surveyed,
    _digest_room,
    _digests,
    _figures_type,
    _filled,
    _laid_out,
    _new,
    _report,
    _reports,
    _surveyed,
    _unpack,
)
from ._capn import ffi, lib
from ._limits import Limits
from ._refusal import Refusal, failure
from ._stop import kept, stop_of_segments

_segments_type = ffi.typeof("capn_segment[]")
# The greatest number of segments of a message.
_MOST = 4096


class _Laid:
    """The segments as the library takes them. The object holds their bytes until it is gone, or until the message is
    refused."""

    __slots__ = ("_data", "_given", "_held", "first", "count", "size")

    def __init__(self, segments: Iterable[Buffer], limits: Limits, in_place: bool) -> None:
        if isinstance(segments, (str, bytes, bytearray, memoryview)):
            raise TypeError(f"segments are objects with a buffer, one after the other, not {type(segments).__name__}")
        _laid_out(limits)
        self._given: list[Any] = []
        self._held: list[Any] = []
        self._data = _counted(segments, limits.message_words)
        try:
            for segment in self._data:
                one = taken(segment, in_place)
                self._given.append(one)
                self._held.append(ffi.from_buffer(one) if type(one) is bytes else one)
            self.first = _new(_segments_type, [(one, len(one) // 8) for one in self._held])
        except BaseException:
            self._let_go()
            raise
        self.count = len(self._held)
        self.size = sum(map(len, self._held))

    def refused(self, status: int, report: Any, bounds: Any) -> Exception:
        """Returns the exception for a status that isn't a result, as `refused` does for one message."""
        fault, own = failure(status, report), list(map(kept, self._data, self._given))
        try:
            if isinstance(fault, Refusal) and fault.place is not None:
                if None in own:
                    fault._stop = stop_of_segments(list(map(ffi.buffer, self._held)), bounds)
                else:
                    fault._look = partial(stop_of_segments, own, bounds)
        finally:
            self._let_go()
        return fault

    def _let_go(self) -> None:
        for one in self._held:
            ffi.release(one)


def _counted(segments: Iterable[Buffer], message_words: int) -> list[Buffer]:
    """Returns the segments without copying them. Raises a refusal if a segment isn't whole words, if there are more
    segments than a message may have, or if they have too many words. If the segments come from an iterator, stops at
    the first segment with which there are too many."""
    count = len(segments) if isinstance(segments, Sized) else 0
    found, words = [], 0
    for segment in segments if count <= _MOST else ():
        found.append(segment)
        try:
            with memoryview(segment) as view:
                size = view.nbytes
        except TypeError:
            raise no_buffer(segment) from None
        if size % 8:
            raise _refused(lib.CAPN_NOT_WHOLE, size)
        words += size // 8
        if not count and (len(found) > _MOST or words > message_words):
            break
    if max(count, len(found)) > _MOST:
        raise _refused(lib.CAPN_TOO_MANY_SEGMENTS, max(count, len(found)))
    if words > message_words:
        raise _refused(lib.CAPN_TOO_MANY_WORDS, words)
    return found


def _refused(status: int, at: int) -> Exception:
    report = _report()
    report.at = at
    return failure(status, report)


def _told(call: Callable[..., int], laid: _Laid, limits: Limits, *out: Any) -> Any:
    """Makes a call on segments, and returns its report. `out` has what the call writes into, if anything."""
    bounds, report = _laid_out(limits), _report()
    status = call(laid.first, laid.count, bounds, *out, report)
    if status != lib.CAPN_OK:
        raise laid.refused(status, report, bounds)
    return report


def check_segments(segments: Iterable[Buffer], limits: Limits = _USUAL, *, in_place: bool = False) -> Checked:
    """Checks that some segments are one valid message within limits. Returns the cost of reading the message.

    Each segment has whole words, at any address; else there is a `Refusal` with the name "NotWhole". The result, or the
    error, is otherwise that of the message with the segment table of these segments. They are counted before any of
    them is copied."""
    report = _told(lib.capn_check_segments, _Laid(segments, limits, in_place), limits)
    checked = Checked(report.paid, report.visits)
    _reports.append(report)
    return checked


def survey_segments(segments: Iterable[Buffer], limits: Limits = _USUAL, *, in_place: bool = False) -> Surveyed:
    """Checks a message in segments within limits, and returns its statistics."""
    figures = _new(_figures_type)
    _reports.append(_told(lib.capn_survey_segments, _Laid(segments, limits, in_place), limits, figures))
    return _surveyed(figures)


def canonical_segments(segments: Iterable[Buffer], limits: Limits = _USUAL, *, in_place: bool = False) -> bytes:
    """Returns the canonical bytes of a message in segments, at most 8 * (limits.budget + 1)."""
    laid, bounds = _Laid(segments, limits, in_place), _laid_out(limits)
    # The buffer is as long as the words of the message, which is enough in most cases. Otherwise the call reports the
    # length.
    room = min(laid.size, 8 * (limits.budget + 1))
    return _filled(
        lambda *out: lib.capn_canonical_segments(laid.first, laid.count, bounds, *out), room, laid._held,
        lambda status, report: laid.refused(status, report, bounds))


def digest_segments(segments: Iterable[Buffer], limits: Limits = _USUAL, *, in_place: bool = False) -> bytes:
    """Returns the SHA-256 of the canonical bytes of a message in segments, 32 bytes."""
    room = _digest_room()
    characters, out = room
    _reports.append(_told(lib.capn_hash_segments, _Laid(segments, limits, in_place), limits, out))
    answer: bytes = _unpack(characters, 32)
    _digests.append(room)
    return answer
