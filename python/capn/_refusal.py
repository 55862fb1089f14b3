"""The exceptions for input that the library rejects, with the texts that the program prints."""
from __future__ import annotations

from functools import cache, partial
from typing import Any, Callable

from ._capn import ffi, lib
from ._stop import FIRST, LAST, Stop, kept, stop_of

# The statuses between these two numbers say that the input is rejected.
_FIRST_REFUSAL = 16
_LAST_REFUSAL = 127


class Refusal(ValueError):
    """A message is rejected: it is invalid, exceeds a limit, or has a capability. The text is the text that the program
    prints.

    - `name` is the name of the error, such as "Range" or "FrameCut", and `meaning` says in words what that is.
    - `place` is the segment and the word of the pointer that is wrong, or None if the error isn't about a pointer.
    - `paid` is the cost in words until then, and `visits` is how many pointers were followed; else both are 0.
    - `at` is the offset, count or index of an error that has one, or 0.
    - `number` and `offset` say which message of a stream it is, from 1 on, and where it begins, in the unpacked bytes.
      The text begins with both. They are None outside of a stream.
    - `which` says which of the messages is meant that `same` compares, 0 or 1. It is None for other calls.

    An error about a pointer also has a `way` and a `byte`. They are found by checking the message again, when one of
    them is first asked for, or when the error is copied or pickled. Until then the error holds the bytes, as its
    traceback does. It never holds bytes that may change: for bytes that the call read in place, both are found at once.
    As with any call, that can raise a `MemoryError`."""

    number: int | None = None
    offset: int | None = None
    which: int | None = None
    # A function that finds the path and the byte of the error. It is None if nothing is left to find.
    _look: Callable[[], Stop] | None = None
    _stop: Stop = (None, None)

    def __init__(
        self, text: str, name: str, place: tuple[int, int] | None = None, paid: int = 0, visits: int = 0, at: int = 0
    ) -> None:
        super().__init__(text, name, place, paid, visits, at)
        self.name = name
        self.place = place
        self.paid = paid
        self.visits = visits
        self.at = at

    @property
    def way(self) -> tuple[int, ...] | None:
        """The path from the root to the pointer that is wrong, which `capn explain` prints with dots; `()` is the root.
        A number leads from a struct to a pointer, from a list of pointers to an element, and from a list of structs to
        an element, of which the next number is the pointer. None if the error isn't about a pointer."""
        return self._found()[0]

    @property
    def byte(self) -> int | None:
        """The offset of the wrong pointer's word, as `capn explain` prints it. It is counted in bytes from the start of
        the message. In a packed message, it counts the unpacked bytes. In a message in segments, it counts as if the
        segment table came first. In a stream, it counts from the start of the message at `offset`. None if the error
        isn't about a pointer, and for a message without a first word."""
        return self._found()[1]

    @property
    def meaning(self) -> str:
        """The meaning of the error, such as "an object lies outside of its segment"."""
        return _meanings().get(self.name, "")

    @property
    def text(self) -> str:
        """The text of the error as the program prints it for one message, without `number` and `offset`."""
        return str(self.args[0])

    def __str__(self) -> str:
        if self.number is None:
            return self.text
        return f"message {self.number} at {self.offset}: {self.text}"

    def __reduce__(self) -> tuple[Any, ...]:
        # A copy has the path and the byte, but doesn't keep the message.
        self._found()
        return type(self), self.args, {name: one for name, one in vars(self).items() if name != "_look"}

    def _found(self) -> Stop:
        look = self._look
        if look is not None:
            self._stop = look()
            self._look = None
        return self._stop

    def _of_message(self, number: int, offset: int) -> Refusal:
        """Returns this refusal, with the number and the offset of its message in a stream."""
        self.number, self.offset = number, offset
        return self


def failure(status: int, report: Any) -> Exception:
    """Returns the exception for a status that isn't a result."""
    if status == lib.CAPN_MEMORY:
        return MemoryError("capn: out of memory")
    name = ffi.string(lib.capn_status_name(status)).decode()
    if status < _FIRST_REFUSAL or name == "Unknown":
        return RuntimeError(f"the library answered status {status}, which its header does not have")
    text = _text(status, report)
    if FIRST <= status <= LAST:
        return Refusal(text, name, (report.segment, report.word), report.paid, report.visits)
    return Refusal(text, name, at=report.at)


def failure_of_words(status: int, report: Any) -> Exception:
    """Returns the exception for words, as `pack` takes them. Its text names no form, as in the program."""
    fault = failure(status, report)
    if isinstance(fault, Refusal):
        return Refusal(fault.text.removeprefix("bare: "), fault.name, at=fault.at)
    return fault


def refused(status: int, report: Any, form: int, data: Any, given: Any, bounds: Any) -> Exception:
    """Returns the exception for a message. `data` is the caller's object, `given` is what the library got of it, and
    `form` is the form of its bytes. Lets go of the caller's bytes, so that neither a refusal nor its traceback holds
    them."""
    fault, own = failure(status, report), kept(data, given)
    try:
        if isinstance(fault, Refusal) and fault.place is not None:
            if own is None:
                fault._stop = stop_of(form, ffi.buffer(given), bounds)
            else:
                fault._look = partial(stop_of, form, own, bounds)
    finally:
        let_go(given)
    return fault


def let_go(given: Any) -> None:
    """Releases what the library got, if it is a buffer."""
    if type(given) is not bytes:
        ffi.release(given)


@cache
def _meanings() -> dict[str, str]:
    """Returns a dictionary: a key is the name of an error, and its value is the error's meaning."""
    found = {"TooManySlots": "the message has more pointers than `most_slots`"}
    for status in range(_FIRST_REFUSAL, _LAST_REFUSAL + 1):
        name = ffi.string(lib.capn_status_name(status)).decode()
        if name != "Unknown":
            found[name] = ffi.string(lib.capn_status_text(status)).decode()
    return found


def _text(status: int, report: Any) -> str:
    """Returns the library's text for an error."""
    room = lib.capn_refusal_text(status, report, ffi.NULL, 0) + 1
    out = ffi.new("char[]", room)
    lib.capn_refusal_text(status, report, out, room)
    text: str = ffi.string(out).decode()
    return text
