"""The first difference of a message from its canonical bytes."""
from __future__ import annotations

from dataclasses import dataclass
from typing import Any, Literal

from ._bytes import Buffer
from ._calls import _USUAL, Form, _report, _reports, _taken
from ._capn import ffi, lib
from ._limits import Limits
from ._message import Message
from ._refusal import refused

_departed_type, _way_type = ffi.typeof("capn_departed *"), ffi.typeof("uint32_t[]")
_KINDS: Any = {
    lib.CAPN_DEPARTS_SEGMENTS: "segments",
    lib.CAPN_DEPARTS_CAPABILITY: "capability",
    lib.CAPN_DEPARTS_WORD: "word",
    lib.CAPN_DEPARTS_AFTER: "after",
}
_OWNERS: Any = {
    lib.CAPN_OWNER_POINTER: "pointer",
    lib.CAPN_OWNER_TAG: "tag",
    lib.CAPN_OWNER_LAST_WORD: "last word",
}
_LISTS = ("voids", "bits", "bytes", "u16", "u32", "u64", "pointers")


@dataclass(frozen=True)
class Departure:
    """The first difference of a message from its canonical form; `departure` finds it. Its text is what `capn explain`
    prints after `canonical: no: `. It is made in Python, and tested.

    Fields that the kind doesn't speak of are None."""

    kind: Literal["segments", "capability", "word", "after"]
    """Why the message isn't canonical: it has several segments, it has a capability, a word differs from the canonical
    bytes, or a word comes after their end."""
    way: tuple[int, ...] | None = None
    """The path from the root to the first capability, or to the pointer that the word is part of, as in
    `Refusal.way`."""
    count: int | None = None
    """The number of segments."""
    index: int | None = None
    """The index of the capability."""
    byte: int | None = None
    """The offset of the word in the message, as in `Refusal.byte`."""
    word: int | None = None
    """The word of the message, as a number below 2^64."""
    canonical_word: int | None = None
    """The word at the same place of the canonical bytes."""
    owner: Literal["pointer", "tag", "last word"] | None = None
    """The part of the canonical bytes that has the word: the pointer at that path, or the tag or the last word of the
    list that the pointer refers to. Not all bits of such a last word are elements."""

    def __str__(self) -> str:
        if self.kind == "segments":
            return f"{self.count} segments"
        where = ".".join(map(str, self.way)) if self.way else "root"
        if self.kind == "capability":
            return f"capability {self.index} at {where}"
        of_pointer = self.owner == "pointer"
        head = f"at byte {self.byte}: {_written(self.word, of_pointer)}, canonical"
        if self.kind == "after":
            return f"{head} nothing, after the value"
        end = f"the {self.owner} {'at' if of_pointer else 'of'} {where}"
        return f"{head} {_written(self.canonical_word, of_pointer)}, {end}"


def departure(
    message: Message | Buffer, form: Form = "stream", limits: Limits = _USUAL, *, in_place: bool = False
) -> Departure | None:
    """Returns the first difference of a message from its canonical form, or None if the message is canonical. A
    canonical message has one segment, which has the canonical bytes of its value. The message is a `Message`, or bytes
    that are read with the given limits.

    The message is checked several times, and its canonical bytes are allocated. `is_canonical_message` and `survey` are
    faster if only yes or no is wanted."""
    if isinstance(message, Message):
        number, given, bounds = message._whole()
    else:
        number, given, bounds = _taken(message, form, limits, in_place)
    departed, report, room = ffi.new(_departed_type), _report(), 2 * bounds.depth
    way = ffi.new(_way_type, room)
    status = lib.capn_departure(number, given, len(given), bounds, departed, way, room, report)
    if status != lib.CAPN_OK:
        raise refused(status, report, number, message, given, bounds)
    _reports.append(report)
    kind = _KINDS.get(departed.kind)
    if kind is None:
        return None
    numbers = tuple(ffi.unpack(way, departed.numbers))
    if kind == "segments":
        return Departure(kind, count=departed.count)
    if kind == "capability":
        return Departure(kind, numbers, index=departed.count)
    # The message has one segment, after a segment table of one word.
    byte, word = 8 * departed.word + (0 if number == lib.CAPN_BARE else 8), getattr(departed, "is")
    if kind == "after":
        return Departure(kind, byte=byte, word=word)
    owner = _OWNERS[departed.owner]
    return Departure(kind, numbers, byte=byte, word=word, canonical_word=departed.canonical, owner=owner)


def _written(word: Any, is_pointer: bool) -> str:
    """Returns the bytes of a word as text, in their order. For a pointer, the text also describes the pointer."""
    digits: str = word.to_bytes(8, "little").hex()
    return f"{digits} ({_decoded(word)})" if is_pointer else digits


def _decoded(word: int) -> str:
    """Returns a text that describes a word as a pointer."""
    low, high = word & 0xFFFFFFFF, word >> 32
    offset = (low >> 2) - (low >> 31 << 30)
    if word == 0:
        return "null"
    if low & 3 == 0:
        return f"struct of {high & 0xFFFF} words and {high >> 16} slots, offset {offset}"
    if low & 3 == 1:
        count, code = high >> 3, high & 7
        what = f"structs in {count} words" if code == 7 else f"{count} {_LISTS[code]}"
        return f"list of {what}, offset {offset}"
    if low & 3 == 2:
        return f"{'double far' if low & 4 else 'far'} to segment {high} word {low >> 3}"
    return "reserved" if low >> 2 else f"capability {high}"
