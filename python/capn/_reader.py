"""Readers of the messages of a file, as the bytes come in.

A signal's handler may raise an exception after any call that Python makes, and what that call answered is lost then. So
a file is read by a call of C that puts what it gave into a list, `_new`. From there bytes are taken, and messages are
counted and handed out, by lines that call nothing: each is done in whole or not at all, and nothing is lost or read
twice."""
from __future__ import annotations

from io import FileIO
from typing import Any, Callable, Iterator, NoReturn

from ._bytes import copied
from ._capn import ffi, lib
from ._refusal import Refusal
from ._places import Places
from ._splitter import FRAME_CUT, HEAD, LEAST, OK, ONE, PIECE, Splitter, busy

__all__ = ["Ahead", "Buffered", "Messages", "Raw"]

_raw, _raw_type = ffi.new_allocator(should_clear_after_alloc=False), ffi.typeof("capn_raw *")
_first, _read_one = lib.capn_first, lib.capn_read_one
# The greatest number of segment tables that a reader remembers. With each table, it remembers the number of bytes that
# follow the table.
_TABLES = 256
_HEADS, _PIECES, _ONES = (HEAD,), (PIECE,), (1,)
# The greatest number of bytes of the messages that are unpacked ahead. A single message may have more.
_AHEAD = 1 << 18
# If a buffered file is asked for at least this number of bytes, its buffer isn't filled first.
_LITTLE = 2048


class Messages(Places, Iterator[bytes]):
    """The messages of a stream, each with its segment table. The function `messages` makes this iterator. It goes on
    after an exception of the file, and after an exception of a signal handler.

    A loop over it loses no message then. If `next` is called, the exception may come when it is about to return: the
    message is counted, and `last` is that message.

    One call at a time may use it: while one runs, a `next` of another thread, or of a signal's handler, raises a
    `ValueError`, as that of a generator does."""

    __slots__ = ("_splitter", "_read", "_report", "_bounds", "_sizes", "_new", "_held", "_need", "_over", "_taken",
                 "_is_busy")

    def __init__(self, read: Callable[[int], Any], splitter: Splitter) -> None:
        self._read, self._splitter = read, splitter
        self._report, self._bounds = splitter._report, splitter._bounds
        # The results of `_size`, by the segment table. To look a result up is faster than to call.
        self._sizes: dict[bytes, int] = {}
        # The bytes that the file gave, and that were not taken yet.
        self._new: list[Any] = []
        # The bytes of the message that has begun, and how many bytes are needed to know more about it.
        self._held: bytes | bytearray = b""
        self._need = LEAST
        # The exception that each later call raises: the end of the stream, or the refusal.
        self._over: Exception | None = None
        # In a packed stream, the number of bytes before those that are held.
        self._taken = 0
        self._number = self._offset = 0
        self._last = None
        # Whether a call runs now.
        self._is_busy = False

    def _is_between(self) -> bool:
        """Returns whether the file is between two messages, and no message was rejected."""
        return not self._held and not self._new and self._over is None

    def __next__(self) -> bytes:
        # Between this test and the setting of the flag, no line makes a call. So no other thread and no signal handler
        # runs there.
        if self._is_busy:
            raise busy("this stream")
        self._is_busy = True
        try:
            return self._next()
        finally:
            self._is_busy = False

    def _next(self) -> bytes:
        new = self._new
        if new or self._held or self._over is not None:
            return self._any()
        # Most messages are short and have one segment. They are read by two calls of the file.
        read = self._read
        new.extend(map(read, _HEADS))
        if new and type(head := new[0]) is bytes:
            size = self._sizes.get(head) or self._size(head)
            if size:
                new.extend(map(read, (size,)))
                if len(new) == 2 and type(body := new[1]) is bytes and len(body) == size:
                    self._last = frame = head + body
                    self._number += 1
                    self._offset += HEAD + size
                    del new[:]
                    return frame  # type: ignore[no-any-return]
        return self._any()

    def _size(self, head: bytes) -> int:
        """Returns the number of bytes that follow the segment table of a short message of one segment. Returns 0 if
        `head` isn't such a table."""
        report, sizes = self._report, self._sizes
        if len(head) != HEAD or head[:4] != ONE or _first(head, HEAD, self._bounds, report) != FRAME_CUT:
            return 0
        # The length of a message of one segment follows from its segment table, which `head` has in full.
        size: int = report.length - HEAD
        if size > PIECE:
            return 0
        if len(sizes) < _TABLES:
            sizes[head] = size
        return size

    def _more(self, size: int) -> None:
        """Makes the file give at most `size` bytes."""
        self._new.extend(map(self._read, (size,)))
        if not self._new:
            # The `read` of the file has raised a StopIteration, which ends the loop over the messages.
            raise StopIteration

    def _take(self) -> None:
        """Takes the bytes that the file gave. If the file gave no bytes, raises the exception for the reason."""
        new = self._new
        while new:
            piece = new[0]
            if not piece:
                self._stop(piece)
            self._held += piece
            del new[0]

    def _any(self) -> bytes:
        """Returns the next message, whatever its shape. Some of its bytes may already be held."""
        report = self._report
        while True:
            if self._over is not None:
                raise self._over
            self._take()
            have, need = len(self._held), self._need
            if have < need:
                missing = max(need, HEAD) - have
                if missing > PIECE:
                    # The memory grows only as the bytes come.
                    missing = min(missing, max(PIECE, have))
                self._more(missing)
                continue
            frame = bytes(self._held)
            status = _first(frame, have, self._bounds, report)
            if status == OK:
                need = report.length
                # If the file gave more bytes than it was asked for, keeps the rest.
                self._held, self._need = frame[need:], LEAST
                self._last = frame = frame[:need]
                self._number += 1
                self._offset += need
                return frame
            if status != FRAME_CUT:
                self._refuse(status)
            self._need = report.length
            if self._need > PIECE and type(self._held) is bytes:
                self._held = bytearray(self._held)

    def _refuse(self, status: int) -> NoReturn:
        splitter = self._splitter
        splitter.number, splitter.offset = self._number, self._offset
        splitter._refuse(status)
        assert splitter._refusal is not None
        self._over = splitter._refusal
        raise self._over

    def _stop(self, piece: Any) -> NoReturn:
        if piece is None:
            del self._new[:]
            raise BlockingIOError("the file has no bytes now, and has not ended")
        self._end()
        self._over = StopIteration()
        raise self._over

    def _end(self) -> None:
        """Refuses a truncated message."""
        if self._held:
            self._refuse(FRAME_CUT)


class Buffered(Messages):
    """The messages of a buffered file that isn't seekable, such as that of a socket. If a signal handler raised while
    `read` waits for more bytes, `read` would lose the bytes that it has read. So `read1` reads instead. It returns the
    bytes that are there, and waits only if there are none. It doesn't fill the buffer, as `peek` does."""

    __slots__ = ("_peek", "_some", "_left")

    def __init__(self, file: Any, splitter: Splitter) -> None:
        super().__init__(file.read, splitter)
        self._peek, self._some = file.peek, file.read1
        # The number of bytes in the buffer, unless others read from it. If there are too few, the buffer is filled.
        self._left = 0

    def _next(self) -> bytes:
        new = self._new
        if new or self._held or self._over is not None:
            return self._any()
        # Most messages are short and have one segment. They are read by two calls of the file.
        some = self._some
        if self._left < HEAD:
            self._left = len(self._peek(1))
        new.extend(map(some, _HEADS))
        head = new[0]
        if not head:
            del new[0]
            return self._any()
        size = self._sizes.get(head) or self._size(head)
        if size:
            new.extend(map(some, (size,)))
            self._left -= HEAD + size
            body = new[1]
            if len(body) == size:
                self._last = frame = head + body
                self._number += 1
                self._offset += HEAD + size
                del new[:]
                return frame  # type: ignore[no-any-return]
            if not body:
                del new[1]
        return self._any()

    def _more(self, size: int) -> None:
        new = self._new
        if self._left < size < _LITTLE:
            self._left = len(self._peek(1))
        new.extend(map(self._some, (size,)))
        self._left -= size
        if not new[0]:
            # A read of one more byte tells whether the file has ended, or has no bytes now.
            del new[0]
            new.extend(map(self._read, _ONES))


class Raw(Messages):
    """The messages of a file that isn't buffered or seekable, such as a pipe. One call makes the system's reads for a
    message."""

    __slots__ = ("_number_of", "_raw", "_words")

    def __init__(self, file: FileIO, splitter: Splitter) -> None:
        super().__init__(file.read, splitter)
        # A function that returns the file descriptor. It raises an exception if the file is closed.
        self._number_of = file.fileno
        self._raw = _raw(_raw_type)
        self._raw.limits, self._raw.have, self._raw.whole = self._bounds[0], 0, 0
        self._words = ffi.buffer(self._raw.out)

    def _next(self) -> bytes:
        if self._held or self._new or self._over is not None:
            return self._any()
        raw = self._raw
        if not raw.whole:
            _read_one(self._number_of(), raw)
        count = raw.whole
        if count:
            self._last = frame = self._words[0:count]
            self._number += 1
            self._offset += count
            raw.whole = 0
            return frame  # type: ignore[no-any-return]
        # No more bytes came. The next read of the file says why.
        self._held = self._words[0:raw.have]
        raw.have = 0
        return self._any()


class Ahead(Messages):
    """The messages of any other stream. The reader takes as many bytes as there are, up to 64 KiB at once."""

    __slots__ = ("_ready", "_some")

    def __init__(self, read: Callable[[int], Any], some: Callable[[int], Any], splitter: Splitter) -> None:
        super().__init__(read, splitter)
        # A function that reads as many bytes as there are. If it returns none, the file may have ended, or may have no
        # bytes now.
        self._some = some
        # The messages that are complete, the last one first.
        self._ready: list[bytes] = []

    def _next(self) -> bytes:
        while not self._ready:
            self._read_on()
        frame = self._ready[-1]
        size = len(frame)
        self._last = frame
        self._number += 1
        self._offset += size
        del self._ready[-1]
        return frame

    def _read_on(self) -> None:
        if self._over is not None:
            raise self._over
        splitter, new, piece = self._splitter, self._new, b""
        if splitter.wanted > 0:
            if not new:
                new.extend(map(self._some, _PIECES))
            if len(new) == 1 and new[0] is not None and not new[0]:
                new.extend(map(self._read, _ONES))
            if not new:
                raise StopIteration
            piece = new[-1]
            if not piece:
                self._stop(piece)
        found, fault = splitter._fed(piece if type(piece) is bytes else copied(piece), most=_AHEAD)
        self._ready = found[::-1]
        del new[:]
        if fault is not None:
            if isinstance(fault, Refusal):
                self._over = fault
            raise fault

    def _end(self) -> None:
        try:
            self._splitter.end()
        except Refusal as refusal:
            self._over = refusal
            raise
