"""The calls that take one message or words."""
from __future__ import annotations

import warnings
from operator import index
from typing import Any, Callable, Literal, NamedTuple, Sequence

from ._bytes import Buffer, taken
from ._capn import ffi, lib
from ._limits import Limits
from ._refusal import Refusal, failure, failure_of_words, let_go, refused

# The forms in which the bytes of a message can be written. The words are those of `capn --form`.
Form = Literal["stream", "packed", "bare"]
_FORMS: dict[str, int] = {"stream": lib.CAPN_STREAM, "packed": lib.CAPN_PACKED, "bare": lib.CAPN_BARE}
_USUAL = Limits()
# The greatest number of words that `capn unpack` writes: the words of a message by the default limits, and the words of
# the longest segment table.
_TABLE_WORDS = 2049
_USUAL_WORDS = 8388608 + _TABLE_WORDS
_new, _report_type = ffi.new, ffi.typeof("capn_report *")
_figures_type = ffi.typeof("capn_figures *")
_room = ffi.new_allocator(should_clear_after_alloc=False)
_room_type, _which_type = ffi.typeof("uint8_t[]"), ffi.typeof("uint32_t *")
# These names are looked up once, because a look-up is a large part of a short call.
_capn_check, _capn_hash, _new_tuple, _unpack = lib.capn_check, lib.capn_hash, tuple.__new__, ffi.unpack
# The longest buffer that is allocated for a message that wasn't read yet. A longer result takes a second call.
_MOST_ROOM = 1 << 28
# Reports that no call uses. Each call takes a report for itself. So threads and signal handlers don't disturb it.
_reports: list[Any] = []
# Buffers for a digest that no call uses: 32 characters, with their address as the library takes it.
_digests: list[tuple[Any, Any]] = []


class Checked(NamedTuple):
    """The cost of reading a valid message."""

    paid: int
    """The cost in words."""
    visits: int
    """The number of pointers that are followed. A pointer counts each time that it is met. The root pointer and null
    pointers count, too."""


class Surveyed(NamedTuple):
    """The statistics of a valid message."""

    words: int
    """The number of words of all segments."""
    segments: int
    """The number of segments."""
    paid: int
    """The cost in words of reading the message."""
    visits: int
    """The number of pointers that are followed. A pointer counts each time that it is met. The root pointer and null
    pointers count, too."""
    depth: int
    """The lowest nesting limit that accepts the message. It is 0 for a null root."""
    capability: int | None
    """The index of the first capability of the message, or None."""
    canonical: bool
    """Whether the message has one segment, which has the canonical bytes of its value."""


def _report() -> Any:
    try:
        return _reports.pop()
    except IndexError:
        return _new(_report_type)


def _digest_room() -> tuple[Any, Any]:
    try:
        return _digests.pop()
    except IndexError:
        characters = _new("char[32]")
        return characters, ffi.cast("uint8_t *", characters)


def _form(form: str) -> int:
    """Returns the library's number of a form."""
    if not isinstance(form, str):
        raise TypeError(f"form is a string, not {type(form).__name__}")
    if form not in _FORMS:
        raise ValueError(f"form is 'stream', 'packed' or 'bare', not {form!r}")
    return _FORMS[form]


def _laid_out(limits: Limits) -> Any:
    """Returns limits as the library takes them."""
    if not isinstance(limits, Limits):
        raise TypeError(f"limits are capn.Limits, not {type(limits).__name__}")
    return limits._laid_out  # type: ignore[attr-defined]


def _taken(data: Buffer, form: str, limits: Limits, in_place: bool) -> tuple[int, Any, Any]:
    """Returns the arguments as the library takes them: the number of the form, the bytes, and the limits."""
    # The bytes come last, so that a wrong argument locks no buffer.
    try:
        number, bounds = _FORMS[form], limits._laid_out  # type: ignore[attr-defined]
    except (KeyError, TypeError, AttributeError):
        number, bounds = _form(form), _laid_out(limits)
    return number, data if type(data) is bytes else taken(data, in_place), bounds


def _filled(
    call: Callable[[Any, int, Any], int], room: int, given: Sequence[Any], fault: Callable[[int, Any], Exception]
) -> bytes:
    """Makes a call that writes into a buffer, and returns the written bytes. The buffer has `room` bytes at first. If
    the result is longer, it is written into a buffer of the length that the call reports. If the call fails, raises
    what `fault` returns. After an exception, nothing holds the bytes that were given to the call."""
    try:
        report, room = _report(), min(room, _MOST_ROOM)
        out = _room(_room_type, room)
        status = call(out, room, report)
        while status == lib.CAPN_NO_ROOM:
            room = report.length
            out = _room(_room_type, room)
            status = call(out, room, report)
        if status != lib.CAPN_OK:
            raise fault(status, report)
        answer = bytes(ffi.buffer(out, report.length))
    except BaseException:
        for one in given:
            let_go(one)
        raise
    _reports.append(report)
    return answer


def _most_bytes(size: int, number: int, limits: Limits) -> int:
    """Returns the greatest number of bytes that a message can have after unpacking. The message has `size` bytes in the
    form `number`, and is within the limits."""
    unpacked = 1024 * size if number == lib.CAPN_PACKED else size
    return min(unpacked, 8 * (limits.message_words + _TABLE_WORDS))


def _surveyed(figures: Any) -> Surveyed:
    """Converts the library's statistics to those of Python."""
    capability = figures.capability if figures.has_capability else None
    return Surveyed(
        figures.words, figures.segments, figures.paid, figures.visits, figures.depth, capability,
        bool(figures.canonical))


def check(data: Buffer, form: Form = "stream", limits: Limits = _USUAL, *, in_place: bool = False) -> Checked:
    """Checks that the bytes are one valid message within limits. Returns the cost of reading the message."""
    number, given, bounds = _taken(data, form, limits, in_place)
    report = _report()
    status = _capn_check(number, given, len(given), bounds, report)
    if status:
        raise refused(status, report, number, data, given, bounds)
    checked = _new_tuple(Checked, (report.paid, report.visits))
    _reports.append(report)
    return checked


def survey(data: Buffer, form: Form = "stream", limits: Limits = _USUAL, *, in_place: bool = False) -> Surveyed:
    """Checks one message within limits, and returns its statistics."""
    number, given, bounds = _taken(data, form, limits, in_place)
    return _survey(data, number, given, bounds)


def _survey(data: Buffer, number: int, given: Any, bounds: Any) -> Surveyed:
    """Returns the statistics of a message. The form, the bytes and the limits are as `_taken` returns them."""
    figures, report = _new(_figures_type), _report()
    status = lib.capn_survey(number, given, len(given), bounds, figures, report)
    if status != lib.CAPN_OK:
        raise refused(status, report, number, data, given, bounds)
    _reports.append(report)
    return _surveyed(figures)


def canonical(data: Buffer, form: Form = "stream", limits: Limits = _USUAL, *, in_place: bool = False) -> bytes:
    """Returns the canonical bytes of one message, at most 8 * (limits.budget + 1). Two messages have the same canonical
    bytes if and only if they have the same value, whatever program wrote them, and whatever their form is. A message
    with a capability has no canonical bytes."""
    number, given, bounds = _taken(data, form, limits, in_place)
    size = len(given)
    # The buffer is as long as the words of the message, which is enough in most cases. Otherwise the call reports the
    # length.
    room = 4 * size if form == "packed" else size
    return _filled(
        lambda *out: lib.capn_canonical(number, given, size, bounds, *out),
        min(room, _most_bytes(size, number, limits), 8 * (limits.budget + 1)), (given,),
        lambda status, report: refused(status, report, number, data, given, bounds))


def same(
    first: Buffer, second: Buffer, form: Form = "stream", limits: Limits = _USUAL, *, in_place: bool = False
) -> bool:
    """Compares the values of two messages of the same form, without writing their canonical bytes. Zero words and null
    pointers at the ends of structs make no difference. A `Refusal` is about the first message if that message is
    rejected, and otherwise about the second. Its `which` is 0 or 1."""
    number, given, bounds = _taken(first, form, limits, in_place)
    try:
        other = taken(second, in_place)
    except BaseException:
        let_go(given)
        raise
    report, which = _report(), _new(_which_type)
    status = lib.capn_same(number, given, len(given), other, len(other), bounds, which, report)
    if status not in (lib.CAPN_OK, lib.CAPN_DIFFERENT):
        pair = (first, given), (second, other)
        (data, one), (_, left) = pair[::-1] if which[0] else pair
        let_go(left)
        fault = refused(status, report, number, data, one, bounds)
        if isinstance(fault, Refusal):
            fault.which = which[0]
        raise fault
    _reports.append(report)
    return bool(status == lib.CAPN_OK)


def is_canonical_message(
    message: Buffer, form: Form = "stream", limits: Limits = _USUAL, *, in_place: bool = False
) -> bool:
    """Returns whether a message has one segment, which has the canonical bytes of its value. Raises a `Refusal` if the
    message is invalid or has a capability.

    The form is a message with its segment table unless it says otherwise, as for every call. For a packed message the
    bytes count that it unpacks to."""
    number, given, bounds = _taken(message, form, limits, in_place)
    if number == lib.CAPN_BARE:
        return _is_canonical(message, given, bounds)
    surveyed = _survey(message, number, given, bounds)
    if surveyed.capability is not None:
        let_go(given)
        report = _report()
        report.at = surveyed.capability
        raise failure(lib.CAPN_CAPABILITY, report)
    return surveyed.canonical


def is_canonical_words(words: Buffer, limits: Limits = _USUAL, *, in_place: bool = False) -> bool:
    """Returns whether the words of a single segment, without a segment table, are the canonical bytes of their value.
    Raises a `Refusal` if the words aren't a valid message or have a capability.

    Don't pass a message with its segment table: nearly every message of one segment passes here with its table,
    canonical or not. Call `is_canonical_message` for that."""
    bounds = _laid_out(limits)
    return _is_canonical(words, taken(words, in_place), bounds)


def is_canonical(
    data: Buffer, limits: Limits = _USUAL, *, form: Form | None = None, in_place: bool = False
) -> bool:
    """Does the same as `is_canonical_message`, but with the form "bare" unless one is passed. Calling it without a form
    is deprecated: call `is_canonical_message`, or `is_canonical_words` for the words of a single segment."""
    if form is None:
        warnings.warn(
            "is_canonical without a form reads the words of one segment without its table: call"
            " is_canonical_message for a message, or is_canonical_words for such words",
            DeprecationWarning, stacklevel=2)
        return is_canonical_words(data, limits, in_place=in_place)
    return is_canonical_message(data, form, limits, in_place=in_place)


def _is_canonical(data: Buffer, given: Any, bounds: Any) -> bool:
    """Returns whether bare words are canonical. The words and the limits are as the library takes them."""
    report = _report()
    status = lib.capn_is_canonical(given, len(given), bounds, report)
    if status not in (lib.CAPN_OK, lib.CAPN_NOT_CANONICAL):
        raise refused(status, report, lib.CAPN_BARE, data, given, bounds)
    _reports.append(report)
    return bool(status == lib.CAPN_OK)


def digest(data: Buffer, form: Form = "stream", limits: Limits = _USUAL, *, in_place: bool = False) -> bytes:
    """Returns the SHA-256 of the canonical bytes of one message, 32 bytes."""
    number, given, bounds = _taken(data, form, limits, in_place)
    room, report = _digest_room(), _report()
    characters, out = room
    status = _capn_hash(number, given, len(given), bounds, out, report)
    if status:
        raise refused(status, report, number, data, given, bounds)
    answer: bytes = _unpack(characters, 32)
    _reports.append(report)
    _digests.append(room)
    return answer


def pack(data: Buffer, *, in_place: bool = False) -> bytes:
    """Packs bytes that are whole words."""
    given = taken(data, in_place)
    size = len(given)
    return _filled(lambda *out: lib.capn_pack(given, size, *out), size // 8 * 10, (given,), failure_of_words)


def unpack(data: Buffer, max_words: int = _USUAL_WORDS, *, in_place: bool = False) -> bytes:
    """Unpacks packed bytes to at most `max_words` words. `max_words` is a number below 2^32."""
    most = index(max_words)
    if not 0 <= most < 1 << 32:
        raise ValueError(f"max_words is a number from 0 to {(1 << 32) - 1}, not {most}")
    given = taken(data, in_place)
    size = len(given)
    room = min(4 * size, 8 * most)
    return _filled(lambda *out: lib.capn_unpack(given, size, most, *out), room, (given,), failure_of_words)
