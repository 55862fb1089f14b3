"""Streams of messages, read message by message."""
from __future__ import annotations

from io import BufferedReader, BytesIO
from typing import (
    Any,
    AsyncIterator,
    Awaitable,
    Callable,
    Generic,
    Iterator,
    Literal,
    Protocol,
    TypeVar,
    Union,
    overload,
)

from ._bytes import Buffer, copied
from ._calls import _USUAL, check, digest
from ._limits import Limits
from ._places import Places
from ._reader import Ahead, Messages
from ._refusal import Refusal
from ._seen import reader as _reader_of
from ._splitter import PIECE, Form, Splitter, busy, of_form

__all__ = ["AsyncMessages", "AsyncOutcomes", "Digests", "Outcomes", "amessages", "digests", "messages"]


class Readable(Protocol):
    """A binary file, with the method that `messages` needs. `read` returns at most as many bytes as it is asked for, no
    bytes at the end of the file, and None if there are no bytes now."""

    def read(self, size: int, /) -> Any: ...


class AsyncReadable(Protocol):
    """A reader whose `read` is awaited, such as an `asyncio.StreamReader`. Otherwise it is like `Readable`."""

    async def read(self, size: int, /) -> bytes: ...


class _Counted(Protocol):
    """A stream that counts its messages."""

    @property
    def number(self) -> int: ...
    @property
    def offset(self) -> int: ...


_Source = TypeVar("_Source", bound=_Counted)


def _is_packed(packed: bool | Form, form: Form | None) -> bool:
    """Returns whether a stream is packed, from the two arguments that can say so."""
    if isinstance(packed, str):
        said = of_form(packed)
        if form is not None and of_form(form) != said:
            raise ValueError(f"the form of a stream is {form!r}, and {packed!r}")
        return said
    is_packed = of_form(form) if form is not None else bool(packed)
    if packed and not is_packed:
        raise ValueError("the form of a stream is 'stream', and packed is True")
    return is_packed


@overload
def messages(
    file: Readable | Buffer, packed: bool | Form = False, limits: Limits = _USUAL, *, form: Form | None = None,
    read_ahead: bool = False, keep_going: Literal[False] = False,
) -> Messages: ...
@overload
def messages(
    file: Readable | Buffer, packed: bool | Form = False, limits: Limits = _USUAL, *, form: Form | None = None,
    read_ahead: bool = False, keep_going: Literal[True],
) -> Outcomes: ...
@overload
def messages(
    file: Readable | Buffer, packed: bool | Form = False, limits: Limits = _USUAL, *, form: Form | None = None,
    read_ahead: bool = False, keep_going: bool,
) -> Messages | Outcomes: ...
def messages(
    file: Readable | Buffer,
    packed: bool | Form = False,
    limits: Limits = _USUAL,
    *,
    form: Form | None = None,
    read_ahead: bool = False,
    keep_going: bool = False,
) -> Messages | Outcomes:
    """Returns an iterator over the messages of a binary file, or of an object with a buffer, each with its segment
    table. The stream is packed if `packed` is True or "packed", or if `form` is "packed".

    - Each message is returned as soon as it is complete. No byte after it is read, or in a packed stream none after the
      group in which it ends.
    - After an exception of the file, such as `BlockingIOError`, or of a signal's handler, `next` goes on. Nothing is
      lost or read twice.
    - `limits.message_words` bounds each message. If the stream is damaged, the messages before that are returned first.
      The `Refusal` has the `number` of its message, and the `offset` at which that begins. Each `next` after it raises
      it again.
    - The messages aren't checked: the call that a message is passed to does that.
    - No more is held than the message that has begun, and the `last` one. A file with `seek`, such as one on a disk, is
      looked at 64 KiB at a time. It stands at the end of the last message all the same.

    With `keep_going` each message is checked within all of the limits. In the place of a rejected message there is its
    `Refusal`, and the next message follows. If nothing says where the next message begins, the stream ends by a
    `Refusal` that is raised: if a segment table is damaged or announces more than `limits.message_words`, if packed
    bytes are damaged, or if the last message is truncated.

    With `read_ahead` up to 64 KiB are read at a time, as many as there are. That is faster, above all for a pipe or a
    socket, but bytes after the message may have been read from the file."""
    splitter = Splitter("packed" if _is_packed(packed, form) else "stream", limits)
    read = getattr(file, "read", None)
    if not callable(read):
        try:
            file = BytesIO(file if type(file) is bytes else copied(file))  # type: ignore[arg-type]
            if not read_ahead:
                file = BufferedReader(file, PIECE)  # type: ignore[arg-type]
        except TypeError:
            kind = type(file).__name__
            raise TypeError(f"a stream is a file with a method read, or has a buffer, not {kind}") from None
        read = file.read
    found: Messages
    if read_ahead:
        # `read` of a buffered file would wait until all bytes are there.
        found = Ahead(read, getattr(file, "read1", read), splitter)
    else:
        found = _reader_of(file, splitter)
    return Outcomes(found, limits, _checked) if keep_going else found


def _checked(message: bytes, limits: Limits) -> bytes:
    """Returns a message if it is accepted."""
    check(message, limits=limits)
    return message


def _digest(message: bytes, limits: Limits) -> bytes:
    """Returns the digest of a message."""
    return digest(message, limits=limits)


class _Answers(Generic[_Source]):
    """The results of a call on each message of a stream."""

    __slots__ = ("_messages", "_limits", "_call", "_frame", "_at", "_last", "_last_at", "_is_busy")

    def __init__(self, found: _Source, limits: Limits, call: Callable[[bytes, Limits], bytes]) -> None:
        self._messages, self._limits, self._call = found, limits, call
        # The next message, if it was read already, and the place at which it begins.
        self._frame: bytes | None = None
        self._at = 0
        # The last message for which there was a result, and the place at which it begins.
        self._last: bytes | None = None
        self._last_at: int | None = None
        # Whether a call runs now.
        self._is_busy = False

    @property
    def number(self) -> int:
        """The number of messages that were returned or rejected."""
        return self._messages.number - (self._frame is not None)

    @property
    def offset(self) -> int:
        """The place at which the next message begins, in the unpacked bytes."""
        return self._messages.offset if self._frame is None else self._at

    @property
    def last(self) -> bytes | None:
        """The message that was returned or rejected last, or None."""
        return self._last

    @property
    def last_offset(self) -> int | None:
        """The place at which the last message began, in the unpacked bytes, or None."""
        return self._last_at

    def _answer(self, frame: bytes) -> tuple[bytes, Refusal | None]:
        """Returns the result of the call on the next message, and the refusal if the message is rejected."""
        refused, answer = None, b""
        try:
            answer = self._call(frame, self._limits)
        except Refusal as refusal:
            # The refusal may be kept for a long time, and would keep the frames of its traceback.
            refused = refusal._of_message(self._messages.number, self._at).with_traceback(None)
        # A signal handler may raise an exception before this line. Until then the message is kept.
        self._last, self._last_at, self._frame = frame, self._at, None
        return answer, refused


class _Read(_Answers[Messages]):
    """The results of a call on each message of a file."""

    __slots__ = ()

    def _next(self) -> tuple[bytes, Refusal | None]:
        if self._is_busy:
            raise busy("this stream")
        self._is_busy = True
        try:
            frame = self._frame
            if frame is None:
                self._at = self._messages.offset
                self._frame = frame = self._messages.__next__()
            return self._answer(frame)
        finally:
            self._is_busy = False


class Outcomes(_Read, Iterator[Union[bytes, Refusal]]):
    """The valid messages of a stream or their digests, with a `Refusal` in the place of each other message. `messages`
    and `digests` make this iterator if `keep_going` is true."""

    __slots__ = ()

    def __repr__(self) -> str:
        return f"<capn outcomes, of {self.number} messages so far>"

    def __next__(self) -> bytes | Refusal:
        answer, refused = self._next()
        return answer if refused is None else refused


class Digests(_Read, Iterator[bytes]):
    """The digests of the messages of a stream. The function `digests` makes this iterator."""

    __slots__ = ()

    def __repr__(self) -> str:
        return f"<capn digests, of {self.number} messages so far>"

    def __next__(self) -> bytes:
        answer, refused = self._next()
        if refused is not None:
            raise refused
        return answer


@overload
def digests(
    file: Readable | Buffer, packed: bool | Form = False, limits: Limits = _USUAL, *, form: Form | None = None,
    read_ahead: bool = False, keep_going: Literal[False] = False,
) -> Digests: ...
@overload
def digests(
    file: Readable | Buffer, packed: bool | Form = False, limits: Limits = _USUAL, *, form: Form | None = None,
    read_ahead: bool = False, keep_going: Literal[True],
) -> Outcomes: ...
@overload
def digests(
    file: Readable | Buffer, packed: bool | Form = False, limits: Limits = _USUAL, *, form: Form | None = None,
    read_ahead: bool = False, keep_going: bool,
) -> Digests | Outcomes: ...
def digests(
    file: Readable | Buffer,
    packed: bool | Form = False,
    limits: Limits = _USUAL,
    *,
    form: Form | None = None,
    read_ahead: bool = False,
    keep_going: bool = False,
) -> Digests | Outcomes:
    """Returns an iterator over the digests of the messages of a stream: the SHA-256 of the canonical bytes of each. The
    arguments are those of `messages`.

    A rejected message ends a loop, but `next` goes on with the message after it, unless the stream itself is damaged.
    With `keep_going` its `Refusal` is in the place of the digest, and the loop goes on."""
    found = messages(file, packed, limits, form=form, read_ahead=read_ahead)
    return Outcomes(found, limits, _digest) if keep_going else Digests(found, limits, _digest)


class AsyncMessages(Places, AsyncIterator[bytes]):
    """The messages of a stream whose reads are awaited. The function `amessages` makes this iterator.

    One call at a time may use it: while one runs, a second one raises a `ValueError`."""

    __slots__ = ("_splitter", "_read", "_is_ahead", "_piece", "_ready", "_is_busy")

    def __init__(
        self, read: Callable[[int], Awaitable[bytes]], splitter: Splitter, is_ahead: bool = False
    ) -> None:
        self._read, self._splitter, self._is_ahead = read, splitter, is_ahead
        # The bytes that were read, until the splitter has them.
        self._piece: bytes | None = None
        # The messages that are complete, the last one first.
        self._ready: list[bytes] = []
        self._number = self._offset = 0
        self._last = None
        # Whether a call runs now.
        self._is_busy = False

    async def __anext__(self) -> bytes:
        if self._is_busy:
            raise busy("this stream")
        self._is_busy = True
        try:
            while not self._ready:
                await self._read_on()
            frame = self._ready[-1]
            size = len(frame)
            self._last = frame
            self._number += 1
            self._offset += size
            del self._ready[-1]
            return frame
        finally:
            self._is_busy = False

    async def _read_on(self) -> None:
        splitter = self._splitter
        wanted = splitter.wanted
        if wanted and self._piece is None:
            self._piece = await self._read(PIECE if self._is_ahead else min(wanted, PIECE))
        if wanted and not self._piece:
            self._piece = None
            splitter.end()
            raise StopAsyncIteration
        found = splitter.feed(self._piece or b"")
        self._ready, self._piece = found[::-1], None


class AsyncOutcomes(_Answers[AsyncMessages], AsyncIterator[Union[bytes, Refusal]]):
    """The valid messages of a stream, with a `Refusal` in the place of each other message. `amessages` makes this
    iterator if `keep_going` is true."""

    __slots__ = ()

    def __repr__(self) -> str:
        return f"<capn outcomes, of {self.number} messages so far>"

    async def __anext__(self) -> bytes | Refusal:
        if self._is_busy:
            raise busy("this stream")
        self._is_busy = True
        try:
            frame = self._frame
            if frame is None:
                self._at = self._messages.offset
                self._frame = frame = await self._messages.__anext__()
            answer, refused = self._answer(frame)
            return answer if refused is None else refused
        finally:
            self._is_busy = False


@overload
def amessages(
    reader: AsyncReadable, packed: bool | Form | Limits = False, limits: Limits = _USUAL, *, form: Form | None = None,
    read_ahead: bool = False, keep_going: Literal[False] = False,
) -> AsyncMessages: ...
@overload
def amessages(
    reader: AsyncReadable, packed: bool | Form | Limits = False, limits: Limits = _USUAL, *, form: Form | None = None,
    read_ahead: bool = False, keep_going: Literal[True],
) -> AsyncOutcomes: ...
@overload
def amessages(
    reader: AsyncReadable, packed: bool | Form | Limits = False, limits: Limits = _USUAL, *, form: Form | None = None,
    read_ahead: bool = False, keep_going: bool,
) -> AsyncMessages | AsyncOutcomes: ...
def amessages(
    reader: AsyncReadable,
    packed: bool | Form | Limits = False,
    limits: Limits = _USUAL,
    *,
    form: Form | None = None,
    read_ahead: bool = False,
    keep_going: bool = False,
) -> AsyncMessages | AsyncOutcomes:
    """Does the same as `messages` for an `asyncio.StreamReader`, or another reader whose `read` is awaited. The
    arguments are the same, but the limits may also come second. If a read is cancelled, nothing is lost.

    A packed stream is read group by group, which is slow: pass `read_ahead` if nothing else follows in the stream."""
    if isinstance(packed, Limits):
        if limits is not _USUAL:
            raise TypeError("limits were passed twice")
        limits, packed = packed, False
    splitter = Splitter("packed" if _is_packed(packed, form) else "stream", limits)
    found = AsyncMessages(reader.read, splitter, bool(read_ahead))
    return AsyncOutcomes(found, limits, _checked) if keep_going else found
