"""Finds where the traversal of a message stopped."""
from __future__ import annotations

from struct import unpack_from
from typing import Any, Sequence

from ._capn import ffi, lib

__all__ = ["FIRST", "LAST", "Stop", "kept", "stop_of", "stop_of_segments"]

# The statuses between these two say that the traversal rejects a message.
FIRST, LAST = lib.CAPN_NO_ROOT, lib.CAPN_OVER_BUDGET
Stop = tuple[tuple[int, ...] | None, int | None]
_report_type, _way_type = ffi.typeof("capn_report *"), ffi.typeof("uint32_t[]")
_room, _room_type = ffi.new_allocator(should_clear_after_alloc=False), ffi.typeof("uint8_t[]")
# The bytes of the longest segment table, and of as many words as a group may have. So there is room for each group that
# has a part of the table.
_LONGEST = 8 * (2049 + 256)


def kept(data: Any, given: Any) -> Any:
    """Returns the bytes of a message for later use. `data` is the caller's object, and `given` is what the library got
    of it. Returns None if the bytes are the caller's and may change. For a view of a `bytes`, returns another view, so
    that the caller can release the first."""
    if type(given) is bytes:
        return given
    return memoryview(data) if type(data) is memoryview and type(data.obj) is bytes else None


def stop_of(form: int, data: Any, bounds: Any) -> Stop:
    """Returns the path to the slot at which the traversal of a message stopped, and the offset in bytes of the slot."""
    report, room = ffi.new(_report_type), 2 * bounds.depth
    way = _room(_way_type, room)
    with ffi.from_buffer(data) as given:
        size = len(given)
        status = lib.capn_refusal_way(form, given, size, bounds, way, room, report)
        begin = None
        if FIRST < status <= LAST:
            begin = _begin(form, given, size, report.segment)
    if status == lib.CAPN_MEMORY:
        raise MemoryError("capn: out of memory")
    if not FIRST <= status <= LAST:
        # The caller's bytes changed during a call.
        return None, None
    numbers = tuple(ffi.unpack(way, report.length // 4))
    return numbers, None if begin is None else begin + 8 * report.word


def stop_of_segments(segments: Sequence[Any], bounds: Any) -> Stop:
    """Does the same as `stop_of` for a message in segments, with a segment table before them."""
    sizes = [len(segments) - 1, *(memoryview(one).nbytes // 8 for one in segments)]
    table = b"".join(size.to_bytes(4, "little") for size in sizes)
    return stop_of(lib.CAPN_STREAM, table + bytes(len(table) % 8) + b"".join(segments), bounds)


def _begin(form: int, given: Any, size: int, segment: int) -> int:
    """Returns the offset in bytes at which a segment of a message begins. In a packed message, it counts the unpacked
    bytes."""
    if form == lib.CAPN_BARE:
        return 0
    words = ffi.buffer(given, size)
    if form == lib.CAPN_PACKED:
        out, report = _room(_room_type, _LONGEST), ffi.new(_report_type)
        if lib.capn_unpack_some(given, size, out, _LONGEST, report) == lib.CAPN_MEMORY:
            raise MemoryError("capn: out of memory")
        words = ffi.buffer(out)
    table: int = 1 + (unpack_from("<I", words)[0] + 1) // 2
    before: int = sum(unpack_from(f"<{segment}I", words, 4))
    return 8 * (table + before)
