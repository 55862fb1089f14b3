"""Readers of the messages of a packed file, as the bytes come in."""
from __future__ import annotations

from io import FileIO
from typing import Any, Callable

from ._calls import _room
from ._capn import ffi, lib
from ._reader import Messages
from ._refusal import Refusal, failure
from ._splitter import FRAME_CUT, HEAD, MEMORY, OK, PACKED_CUT, PACKED_TOO_LONG, PIECE, Splitter, group

__all__ = ["Packed", "Piped"]

_first, _unpack_some = lib.capn_first, lib.capn_unpack_some
_look_at_one, _look_on = lib.capn_look_at_one, lib.capn_look_on
_read_packed, _peek_at = lib.capn_read_packed, lib.capn_peek
_one_type, _pipe_type = ffi.typeof("capn_packed_one *"), ffi.typeof("capn_pipe *")


class Packed(Messages):
    """The messages of a packed stream. If the reader can look into a file before it reads, it takes a message at once.
    Otherwise it reads group by group. The bytes that it holds are packed."""

    __slots__ = ("_peek", "_ready", "_one", "_out", "_words", "_has_begun")

    def __init__(
        self, read: Callable[[int], Any], peek: Callable[[int], Any] | None, splitter: Splitter, one: Any = None
    ) -> None:
        super().__init__(read, splitter)
        # The buffer for unpacked words, and a view of all its bytes.
        self._peek, self._out = peek, splitter._out
        self._words = ffi.buffer(splitter._out)
        self._one = one or ffi.new(_one_type, {"limits": self._bounds[0], "out": self._out, "room": PIECE})
        # Messages that ended in the same group of packed bytes, the last one first.
        self._ready: list[bytes] = []
        # Whether a message may have begun, or the reader can't look into the file.
        self._has_begun = peek is None

    def _is_between(self) -> bool:
        splitter = self._splitter
        return not (self._held or self._new or self._ready or splitter._held or splitter._text
                    or self._over is not None)

    def _next(self) -> bytes:
        new = self._new
        if self._has_begun or new:
            return self._any()
        # Most messages are short, can be seen whole, and end where a group of packed bytes ends.
        seen = self._peek(1)  # type: ignore[misc]
        if seen.__class__ is bytes and seen:
            one, size = self._one, len(seen)
            taken = _look_at_one(seen, size, one)
            if taken:
                new.extend(map(self._read, (taken,)))
                if new and new[0] and len(new[0]) == taken:
                    need = one.length
                    self._last = frame = self._words[0:need]
                    self._number += 1
                    self._offset += need
                    self._taken += taken
                    del new[:]
                    return frame  # type: ignore[no-any-return]
            elif one.status == PACKED_CUT:
                return self._crossing(seen)
            elif one.status == MEMORY:
                raise failure(MEMORY, one.report)
        return self._any()

    def _crossing(self, seen: bytes) -> bytes:
        """Returns the next message, of which only the beginning was seen. Looks at the bytes that come next, which may
        have the rest of the message."""
        one, peek, new, taken = self._one, self._peek, self._new, 0
        self._has_begun = True
        while not taken and one.status == PACKED_CUT:
            self._more(len(seen))
            is_seen = new[0] == seen
            self._take()
            if not is_seen:
                break
            seen = peek(1)  # type: ignore[misc]
            if not seen:
                break
            text = bytes(self._held) + seen
            taken = _look_on(text, len(text), one)
        if taken:
            rest = taken - len(self._held)
            self._more(rest)
            if new[0] and len(new[0]) == rest:
                need = one.length
                self._last = frame = self._words[0:need]
                self._number += 1
                self._offset += need
                self._taken += taken
                self._held, self._has_begun = b"", False
                del new[:]
                return frame  # type: ignore[no-any-return]
        return self._any()

    def _any(self) -> bytes:
        self._has_begun = True
        splitter, frame = self._splitter, self._whole()
        if not (self._peek is None or self._held or self._new or self._ready or splitter._held or splitter._text
                or self._over is not None):
            self._has_begun = False
        return frame

    def _whole(self) -> bytes:
        """Returns the next message, whatever its shape."""
        splitter = self._splitter
        while not self._ready:
            if self._over is not None:
                raise self._over
            self._take()
            if self._peek is not None and not splitter._held and not splitter._text:
                frame = self._at_once(self._peek)
                if frame is not None:
                    return frame
            elif self._held or not splitter.wanted:
                self._gives()
            elif self._peek is not None and (seen := self._peek(1)):
                self._part(seen)
            else:
                self._more(1 if self._peek is not None else splitter.wanted)
        frame = self._ready[-1]
        need = len(frame)
        self._last = frame
        self._number += 1
        self._offset += need
        del self._ready[-1]
        return frame

    def _gives(self, at: int = 0, words: int = 0) -> None:
        """Gives the held bytes to the splitter, and keeps the splitter's refusal. The first `at` of these bytes were
        already unpacked to `words` bytes."""
        splitter, given = self._splitter, bytes(self._held)
        splitter.number, splitter.offset, splitter._taken = self._number, self._offset, self._taken
        found, fault = splitter._fed(given, at, words)
        self._held, self._taken, self._ready = b"", splitter._taken, found[::-1]
        if fault is not None:
            if isinstance(fault, Refusal):
                self._over = fault
            raise fault

    def _end(self) -> None:
        splitter = self._splitter
        splitter.number, splitter.offset = self._number, self._offset
        try:
            splitter.end()
        except Refusal as refusal:
            self._over = refusal
            raise

    def _at_once(self, peek: Callable[[int], Any]) -> bytes | None:
        """Returns the next message if the held bytes and the bytes that can be seen have all of it. Otherwise returns
        None, and gives bytes to the splitter: those that can be seen, the beginning of a long message, or all groups of
        a message that ends within a group."""
        held, seen, report, out = bytes(self._held), peek(1), self._report, self._out
        if not seen:
            # Only a read says whether the file has ended.
            if held:
                self._gives()
            else:
                self._more(1)
            return None
        text = held + seen if held else bytes(seen)
        need, status, taken = HEAD, OK, 0
        while need <= PIECE:
            status = _unpack_some(text, len(text), out, need, report)
            if status not in (OK, PACKED_CUT, PACKED_TOO_LONG):
                raise failure(status, report)
            taken = report.at
            if report.length < need:
                at, words = taken, report.length
                taken = at + group(text[at:at + 10]) if status == PACKED_TOO_LONG else len(text)
                if self._reads(taken - len(held)) and self._held == text[:taken]:
                    self._gives(at, words)
                    return None
                break
            first = _first(out, need, self._bounds, report)
            if first == OK:
                if self._reads(taken - len(held)):
                    left = bytes(self._held)[taken:]
                    self._last = frame = self._words[0:need]
                    self._number += 1
                    self._offset += need
                    self._taken += taken
                    self._held = left
                    return frame  # type: ignore[no-any-return]
                break
            if first != FRAME_CUT:
                self._refuse(first)
            need = report.length
        else:
            self._reads(taken - len(held))
        # The splitter unpacks the bytes after the group, and unpacks nothing twice.
        self._gives()
        return None

    def _reads(self, count: int) -> bool:
        """Reads and holds `count` bytes that were seen. Returns whether all of them came."""
        if count <= 0:
            return True
        self._more(count)
        new = self._new
        piece = new[0]
        if piece is None:
            self._stop(piece)
        size = len(piece)
        self._held += piece
        del new[:]
        return size == count

    def _part(self, seen: bytes) -> None:
        """The splitter has the beginning of a message. Reads the bytes of this message that can be seen, but no group
        after the group in which it ends."""
        splitter, report = self._splitter, self._report
        held, text = len(splitter._text), splitter._text + seen
        room = min(max(splitter._need, HEAD) - len(splitter._held), PIECE)
        status = _unpack_some(text, len(text), self._out, room, report)
        if status not in (OK, PACKED_CUT, PACKED_TOO_LONG):
            raise failure(status, report)
        at, words = report.at, report.length
        taken = at
        if words < room:
            taken = at + group(text[at:at + 10]) if status == PACKED_TOO_LONG else len(text)
        if self._reads(taken - held) and self._held == text[held:taken]:
            self._gives(at, words)


class Piped(Packed):
    """The packed messages of a pipe that nothing buffers. If a message is there, one call looks at it and reads it."""

    __slots__ = ("_number_of", "_pipe")

    def __init__(self, file: FileIO, splitter: Splitter) -> None:
        # `capn_pipe_end` closes the file descriptors in the structure. So `capn_pipe_begin` sets them before
        # `capn_pipe_end` can be called.
        begun = _room(_pipe_type)
        lib.capn_pipe_begin(begun, splitter._bounds, splitter._out, PIECE)
        pipe = self._pipe = ffi.gc(begun, lib.capn_pipe_end)
        seen, number_of = ffi.buffer(pipe.seen), file.fileno

        def look(least: int) -> bytes:
            return seen[0:_peek_at(number_of(), pipe)]  # type: ignore[no-any-return]

        super().__init__(file.read, look, splitter, ffi.addressof(pipe, "one"))
        # A function that returns the file descriptor. It raises an exception if the file is closed.
        self._number_of = number_of

    def _next(self) -> bytes:
        if not self._has_begun and not self._new:
            pipe = self._pipe
            if not pipe.whole and not pipe.have:
                _read_packed(self._number_of(), pipe)
            count = pipe.whole
            if count:
                self._last = frame = self._words[0:count]
                self._number += 1
                self._offset += count
                self._taken += self._one.take
                pipe.whole = 0
                return frame  # type: ignore[no-any-return]
            if pipe.have:
                # The pipe gave other bytes than those that were seen in it, since somebody else reads the pipe.
                came = ffi.buffer(pipe.came)
                self._held, self._has_begun = came[0:pipe.have], True
                pipe.have = 0
        return self._any()
