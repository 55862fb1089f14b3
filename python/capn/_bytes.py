"""Bytes as a call takes them. They are read in place if nothing can change them, and copied otherwise."""
from __future__ import annotations

import sys
from typing import TYPE_CHECKING, Any

from ._capn import ffi

if TYPE_CHECKING:
    from _typeshed import ReadableBuffer as Buffer
elif sys.version_info >= (3, 12):
    from collections.abc import Buffer
else:
    # Before version 3.12, Python has no name for the type of objects that have a buffer.
    Buffer = Any

__all__ = ["Buffer", "copied", "no_buffer", "taken"]

_from_buffer = ffi.from_buffer
# A view of `bytes` is read in place if it has at least this number of bytes. Copying fewer bytes is faster.
_SHORT = 4096


def taken(data: Buffer, in_place: bool) -> Any:
    """Returns the bytes of an object for a call. The bytes of a `bytes`, or of a view of a `bytes`, can't change, so
    the call reads them in place. The bytes of any other object are copied, unless the caller says that nothing changes
    them."""
    if type(data) is bytes:
        return data
    if not in_place:
        if type(data) is bytearray:
            return bytes(data)
        if type(data) is not memoryview:
            return copied(data)
        if data.nbytes < _SHORT or type(data.obj) is not bytes:
            return data.tobytes()
    try:
        return _from_buffer(data)
    except (BufferError, ValueError):
        # The bytes have gaps, or their elements have another order. numpy reports this by a `ValueError`.
        return copied(data)
    except TypeError:
        raise no_buffer(data) from None


def copied(data: Buffer) -> bytes:
    """Returns a copy of the bytes of an object. The parts of a view with gaps are put together."""
    try:
        return memoryview(data).tobytes()
    except TypeError:
        raise no_buffer(data) from None


def no_buffer(data: object) -> TypeError:
    return TypeError(f"a message is an object with a buffer, as bytes are, not {type(data).__name__}")
