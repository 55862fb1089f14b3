"""The properties of a stream that are about the messages it has returned."""
from __future__ import annotations

__all__ = ["Places"]


class Places:
    """The number of messages that were returned, and the places at which the last and the next message begin."""

    __slots__ = ("_number", "_offset", "_last")

    _number: int
    _offset: int
    _last: bytes | None

    def __repr__(self) -> str:
        return f"<capn messages, {self.number} so far>"

    @property
    def number(self) -> int:
        """The number of messages that were returned."""
        return self._number

    @property
    def offset(self) -> int:
        """The place at which the next message begins, in the unpacked bytes."""
        return self._offset

    @property
    def last(self) -> bytes | None:
        """The message that was returned last, or None."""
        return self._last

    @property
    def last_offset(self) -> int | None:
        """The place at which the last message began, in the unpacked bytes, or None."""
        return None if self._last is None else self.offset - len(self._last)
