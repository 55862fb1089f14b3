"""Readers of the messages of a file that is seekable, and the choice of a reader for a file."""
from __future__ import annotations

from io import BufferedRandom, BufferedReader, BufferedRWPair, BytesIO, FileIO
from os import fstat, pread
from stat import S_ISFIFO
from typing import Any, Callable

from ._capn import ffi, lib
from ._packed import Packed, Piped
from ._reader import Buffered, Messages, Raw
from ._refusal import failure
from ._splitter import HEAD, MEMORY, ONE, PIECE, Splitter

__all__ = ["Seen", "reader"]

# A message is long from the first number of bytes on. The second number is how many bytes are looked at if messages are
# long.
_LONG, _FEW = 8192, 4096
# In a buffered file, a message of at least this number of bytes is passed over, and not read again. For shorter
# messages, reading takes less time than setting the position beyond the buffer.
_BEYOND, _NEVER = 2048, 1 << 64
_BUFFERED = (BufferedReader, BufferedRandom, BufferedRWPair)
# The argument `whence` of `seek` for offsets from the present position.
_HERE = (1,)
# The greatest number of messages that are found at once.
_MOST = 128
_look_at, _look_at_packed = lib.capn_look_at, lib.capn_look_at_packed


class Seen(Messages):
    """The messages of a seekable file, such as a file on a disk. The reader looks at 64 KiB at once, and one call finds
    all messages in these bytes. Then one call of the file reads each message, and has to return the bytes that were
    seen. If it returns other bytes, because somebody else has moved the position, read from the file or changed it, the
    reader sets the position back, and reads as for other files."""

    __slots__ = ("_rest", "_bytes_at", "_seek", "_look", "_out", "_some", "_text", "_ready", "_found",
                 "_ends", "_takes", "_short", "_place")

    def __init__(
        self,
        file: Any,
        bytes_at: Callable[[int, int], bytes],
        peek: Callable[[int], Any],
        short: int,
        splitter: Splitter,
    ) -> None:
        super().__init__(file.read, splitter)
        # The reader for all other messages, such as those that are longer.
        self._rest = Packed(file.read, peek, splitter) if splitter._packed else Messages(file.read, splitter)
        # A function that returns at most a given number of bytes at a place of the file, and the number of bytes to ask
        # for.
        self._bytes_at, self._some = bytes_at, PIECE
        # `seek` returns the position of a file faster than `tell`, which asks the system.
        self._seek: Callable[[int, int], int] = file.seek
        self._look, self._out = splitter._look, splitter._out
        # The bytes that were seen, and the messages in them that were not handed out yet, the last one first. A message
        # has its number of bytes in the file, and the place at which it begins in the bytes that were seen. A message
        # that is packed or passed over also has its unpacked bytes.
        self._text = b""
        self._ready: list[tuple[int, int, bytes | None]] = []
        # Messages of at least `short` bytes are not read again, but passed over. The place is then the offset in the
        # file of the bytes that were seen. Otherwise it is -1.
        self._short, self._place = short, -1
        # The number of messages that were seen, and the places at which they end, in the unpacked bytes and in the
        # bytes that were seen.
        self._found = 0
        self._ends: list[int] = []
        self._takes: list[int] = []

    @property
    def number(self) -> int:
        return self._number + self._found - len(self._ready)

    @property
    def offset(self) -> int:
        handed = self._found - len(self._ready)
        return self._offset + (self._ends[handed - 1] if handed else 0)

    def _next(self) -> bytes:
        rest, new = self._rest, self._new
        if self._ready or rest._is_between() and self._is_found():
            ready = self._ready
            taken, at, frame = ready[-1]
            # The file's answer is in `new`, also after an exception. So the position of the file is set back once for
            # each read.
            if self._place < 0:
                if not new:
                    new.extend(map(self._read, (taken,)))
                piece = new[0]
                if piece and len(piece) == taken and self._text.startswith(piece, at):
                    self._last = frame = frame or piece
                    del ready[-1], new[:]
                    return frame
                taken = len(piece or b"")
            else:
                if not new:
                    new.extend(map(self._seek, (taken,), _HERE))
                if new[0] == self._place + at + taken:
                    self._last = frame
                    del ready[-1], new[:]
                    return frame  # type: ignore[return-value]
            if len(new) < 2:
                new.extend(map(self._seek, (-taken,), _HERE))
            # The bytes that were seen don't say what comes next.
            self._report.length = 0
            del new[:]
        self._close()
        rest._number, rest._offset, rest._taken = self._number, self._offset, self._taken
        try:
            return self._long() or rest._next()
        finally:
            self._number, self._offset, self._taken, self._last = rest._number, rest._offset, rest._taken, rest._last

    def _close(self) -> None:
        """Counts the messages that were seen and handed out, and forgets the others."""
        handed = self._found - len(self._ready)
        if handed:
            self._number += handed
            self._offset += self._ends[handed - 1]
            self._taken += self._takes[handed - 1]
        self._ready, self._found = [], 0

    def _is_found(self) -> bool:
        """Looks at the bytes that come next. Returns whether they have complete messages."""
        self._close()
        look, report, out, frame = self._look, self._report, self._out, None
        place = self._seek(0, 1)
        text = self._text = self._bytes_at(place, self._some)
        report.length = 0
        if len(text) < HEAD:
            return False
        if out is None:
            status = _look_at(text, len(text), self._bounds, look, report)
        else:
            status = _look_at_packed(text, len(text), self._bounds, out, PIECE, _MOST, look, report)
        if status == MEMORY and not look.count:
            raise failure(status, report)
        ends = self._ends = ffi.unpack(look.ends, look.count)
        takes = self._takes = ends if out is None else ffi.unpack(look.takes, look.count)
        # If messages are long, it is enough to see their lengths.
        mean = look.take // len(ends) if ends else report.length
        self._some = PIECE if mean <= _LONG else _FEW
        self._place = -1 if mean < self._short else place
        words = text if out is None else ffi.buffer(out)
        is_cut = out is not None or self._place >= 0
        ready: list[tuple[int, int, bytes | None]] = []
        begin, at = 0, 0
        for end, take in zip(ends, takes):
            if is_cut:
                frame = words[begin:end]
            ready.append((take - at, at, frame))
            begin, at = end, take
        found = len(ready)
        self._ready, self._found = ready[::-1], found
        return found > 0

    def _long(self) -> bytes | None:
        """Reads a message of one segment, of which only the beginning was seen. Returns None for any other message."""
        rest, need, text = self._rest, self._report.length, self._text
        if self._out is not None or not HEAD < need <= PIECE or not text.startswith(ONE) or not rest._is_between():
            return None
        new = rest._new
        rest._more(need)
        piece = new[0]
        if piece and len(piece) == need and piece.startswith(text):
            rest._last = piece
            rest._number += 1
            rest._offset += need
            del new[:]
            return piece  # type: ignore[no-any-return]
        # The reader for all other messages takes the bytes that were read.
        return None


def reader(file: Any, splitter: Splitter) -> Messages:
    """Returns the best reader for the messages of a file."""
    read, peek, kind = file.read, getattr(file, "peek", None), type(file)
    try:
        is_wound = callable(file.seek) and bool(file.seekable())
    except (AttributeError, ValueError):
        is_wound = False

    def wound_back(place: int, size: int) -> bytes:
        try:
            return bytes(read(size))
        finally:
            file.seek(place)

    def peeked(place: int, size: int) -> bytes:
        return bytes(file.peek(1))

    def from_system(place: int, size: int) -> bytes:
        try:
            return pread(file.fileno(), size, place)
        except OSError:
            return b""

    def seen(least: int) -> Any:
        place = file.seek(0, 1)
        try:
            return read(_FEW)
        finally:
            file.seek(place)

    look = peek if callable(peek) else seen
    raw = file.raw if is_wound and kind is BufferedReader else file
    if is_wound and type(raw) is FileIO:
        # If a file can be written, its messages are read and not passed over, so that they have their present bytes.
        short = _BEYOND if raw is not file else 0 if file.mode == "rb" else _NEVER
        return Seen(file, from_system, look, short, splitter)
    # If Python itself buffers the file, a look takes no longer than a read.
    if is_wound and (type(raw) is BytesIO or callable(peek) and (splitter._packed or kind in _BUFFERED)):
        return Seen(file, wound_back if type(raw) is BytesIO else peeked, look, _NEVER, splitter)
    if splitter._packed and kind is FileIO and S_ISFIFO(fstat(file.fileno()).st_mode):
        return Piped(file, splitter)
    if splitter._packed:
        return Packed(read, look if is_wound or callable(peek) else None, splitter)
    if not is_wound and kind in _BUFFERED:
        return Buffered(file, splitter)
    return Raw(file, splitter) if kind is FileIO and not is_wound else Messages(read, splitter)
