"""Messages that are read in place, with the help of an index."""
from __future__ import annotations

import builtins
from array import array
from operator import index
from struct import pack, unpack
from types import TracebackType
from typing import TYPE_CHECKING, Any, Callable, Iterator, Literal, NoReturn, Sequence, TypeVar, Union, overload
from weakref import WeakValueDictionary

from ._bytes import Buffer, no_buffer
from ._calls import _USUAL, Form, _form, _laid_out, _report, _reports, _room
from ._calls import unpack as _unpacked
from ._capn import ffi, lib
from ._limits import Limits
from ._refusal import Refusal, let_go, refused

_T = TypeVar("_T")
_entries_type = ffi.typeof("capn_entry[]")
# The number of index entries for which there is room at first. If a message needs more, the library says how many.
_FEW = 64
_WIDTHS = (8, 16, 32, 64)
# For each number of bits, the kind of a list of numbers of this size.
_SIZES = {1: "bits", 8: "bytes", 16: "u16", 32: "u32", 64: "u64"}
# The attributes that objects of some kinds have, and objects of other kinds don't have.
_OF_KINDS = ("words", "slots", "word", "slot", "uint", "int", "float", "bool", "text", "view", "index")


class Mismatch(ValueError):
    """A message doesn't have what you ask for: it has an object of another kind, fewer elements, or bytes that aren't a
    text. The sender decides this, so the exception is a `ValueError`, as a `Refusal` is. It may also be an
    `IndexError`, an `AttributeError` or a `UnicodeDecodeError`."""


class _Missing(Mismatch, IndexError):
    """The object has no element with this number."""


class _Other(Mismatch, AttributeError):
    """An object of this kind has no such attribute."""


class _Undecodable(Mismatch, UnicodeDecodeError):
    """The bytes of a text aren't UTF-8."""


class Object:
    """The object that a pointer refers to. Its `kind` is the word that `capn show` prints for it.

    Two objects are equal if they have the same value, as their canonical bytes would: zero words and null pointers at
    the end of a struct make no difference. A comparison may read everything below an object. No object has a hash."""

    __slots__ = ("_message", "_entry", "_at")

    def __init__(self, message: Message, at: int) -> None:
        self._message, self._at = message, at
        self._entry = message._entries[at]

    @property
    def kind(self) -> str:
        """The word that `capn show` prints for the object."""
        raise NotImplementedError

    def struct(self) -> Body:
        """Returns the object as a struct. For a null pointer, returns a struct without words and pointers. Raises a
        `Mismatch` for anything else."""
        raise Mismatch(f"there is no struct, but {self!r}")

    def list(self) -> Sequence[Any]:
        """Returns the object as a list, whose `kind` says what its elements are. For a null pointer, returns a list
        without elements. Raises a `Mismatch` for anything else."""
        raise Mismatch(f"there is no list, but {self!r}")

    def rows(self) -> Sequence[Body]:
        """Returns the elements as structs, or no elements for a null pointer. If an older schema has numbers or
        pointers, each number or pointer becomes a struct with this one field. Raises a `Mismatch` for anything else,
        and for bits, which no schema turns into structs."""
        raise Mismatch(f"there is no list of structs, but {self!r}")

    def numbers(self, bits: int) -> Sequence[int]:
        """Returns the elements as unsigned numbers of 8, 16, 32 or 64 bits, or of 1 bit, which are booleans. Returns no
        elements for a null pointer. If a newer schema has structs, returns the first field of each struct, or 0 if the
        structs have no data words. Raises a `Mismatch` for anything else, and for numbers of another size."""
        if bits not in _SIZES:
            raise ValueError(f"a number has 1, 8, 16, 32 or 64 bits, not {bits!r}")
        if self.kind != _SIZES[bits]:
            raise Mismatch(f"there is no list of numbers of {bits} bits, but {self!r}")
        found: Any = self
        return found  # type: ignore[no-any-return]

    def pointers(self) -> Sequence[Value]:
        """Returns the object that each element refers to, or no elements for a null pointer. If a newer schema has
        structs, returns the object that the first pointer of each struct refers to, or null if the structs have no
        pointers. Raises a `Mismatch` for anything else."""
        raise Mismatch(f"there is no list of pointers, but {self!r}")

    def __eq__(self, other: object) -> bool:
        if not isinstance(other, (Object, Row)):
            return NotImplemented
        return _same(self, other)

    def __repr__(self) -> str:
        return f"<capn {self.kind}>"

    if not TYPE_CHECKING:

        def __getattr__(self, name: str) -> NoReturn:
            # If objects of other kinds have the attribute, it is the message that decides that this object lacks it. So
            # the exception is a `Mismatch`.
            wrong = _Other if name in _OF_KINDS else AttributeError
            raise wrong(f"an object of class {type(self).__name__} has no {name}")


class Capability(Object):
    """A capability, which has only an index."""

    __slots__ = ()
    kind: Literal["capability"] = "capability"

    @property
    def index(self) -> int:
        """The index of the capability among those that came with the message."""
        return int(self._entry.count)

    def __repr__(self) -> str:
        return f"<capn capability {self.index}>"


class _Items(Sequence[_T]):
    """A list of known length. Each element is made when it is asked for."""

    __slots__ = ()

    def _item(self, i: int) -> _T:
        raise NotImplementedError

    @overload
    def __getitem__(self, i: int) -> _T: ...
    @overload
    def __getitem__(self, i: slice) -> list[_T]: ...
    def __getitem__(self, i: int | slice) -> _T | list[_T]:
        if isinstance(i, slice):
            return [self._item(k) for k in range(*i.indices(len(self)))]
        try:
            return self._item(range(len(self))[i])
        except IndexError:
            raise _Missing(f"there is no element {i}: they are {len(self)}") from None

    def __iter__(self) -> Iterator[_T]:
        return map(self._item, range(len(self)))

    def _is_list(self, other: object) -> bool:
        """Returns whether another list, tuple or range has the same elements. For any other object, returns
        NotImplemented."""
        if not isinstance(other, (list, tuple, range)):
            return NotImplemented
        return len(self) == len(other) and all(one == two for one, two in zip(self, other))


class _Made(_Items[_T]):
    """A list of `count` elements. A function makes each element from its index."""

    __slots__ = ("_count", "_make")

    def __init__(self, count: int, make: Callable[[int], _T]) -> None:
        self._count, self._make = count, make

    def __len__(self) -> int:
        return self._count

    def _item(self, i: int) -> _T:
        return self._make(i)

    def __repr__(self) -> str:
        return f"<capn elements, {len(self)}>"


class _Nothing(_Items[Any]):
    """The elements of a null pointer: there are none."""

    __slots__ = ()
    kind: Literal["null"] = "null"

    def __len__(self) -> int:
        return 0

    def __repr__(self) -> str:
        return "<capn elements, 0>"


class Slots(_Items["Value"]):
    """The objects that consecutive pointers refer to."""

    __slots__ = ("_message", "_places")

    def __init__(self, message: Message, places: Sequence[int]) -> None:
        self._message, self._places = message, places

    def __len__(self) -> int:
        return len(self._places)

    def _item(self, i: int) -> Value:
        return self._message._object(self._places[i])

    def __eq__(self, other: object) -> bool:
        return self._is_list(list(other) if isinstance(other, Slots) else other)

    def __repr__(self) -> str:
        return f"<capn slots, {len(self)}>"


class Body:
    """The data words and the pointers of a struct, or of an element of a list of structs.

    A field of data is stored XOR its default. So the calls that read one take the default, and return it if the struct
    is too short for the field. `offset` counts fields of that size from the start of the data, as `slot.offset` of a
    compiled schema does: `bits[32, 64)` of `capnp compile -ocapnp` is `uint(32, 1)`."""

    __slots__ = ()
    kind: Literal["struct"] = "struct"
    words: memoryview
    """The data words as they are stored, each a number below 2^64. `words.cast("B")` has their bytes. An index past the
    end raises an `IndexError`, as with every memoryview, but `word` returns 0 there."""
    slots: Slots
    """The objects that the struct's pointers refer to."""
    _bits: builtins.int | None = None
    # The number of bits of the data section, if the section is smaller than `words`.

    def __init__(self) -> None:
        raise TypeError("bodies are of messages that are read")

    def uint(self, bits: builtins.int, offset: builtins.int, default: builtins.int = 0) -> builtins.int:
        """Returns an unsigned field of 8, 16, 32 or 64 bits. An enumerant has 16 bits."""
        if bits not in _WIDTHS:
            raise ValueError(f"a number has 8, 16, 32 or 64 bits, not {bits!r}")
        if not 0 <= default < 1 << bits:
            raise ValueError(f"default is a number of {bits} bits, not {default}")
        return self._field(bits, offset) ^ default

    def int(self, bits: builtins.int, offset: builtins.int, default: builtins.int = 0) -> builtins.int:
        """Returns a signed field of 8, 16, 32 or 64 bits."""
        if bits not in _WIDTHS:
            raise ValueError(f"a number has 8, 16, 32 or 64 bits, not {bits!r}")
        half = 1 << bits - 1
        if not -half <= default < half:
            raise ValueError(f"default is a number of {bits} bits and a sign, not {default}")
        found = self._field(bits, offset) ^ default & 2 * half - 1
        return found - 2 * half if found & half else found

    def float(self, bits: builtins.int, offset: builtins.int, default: builtins.float = 0.0) -> builtins.float:
        """Returns a floating-point field of 32 or 64 bits."""
        if bits not in (32, 64):
            raise ValueError(f"a number with a floating point has 32 or 64 bits, not {bits!r}")
        number, same = ("<f", "<I") if bits == 32 else ("<d", "<Q")
        stored = self._field(bits, offset) ^ unpack(same, pack(number, default))[0]
        answer: float = unpack(number, pack(same, stored))[0]
        return answer

    def bool(self, offset: builtins.int, default: builtins.bool = False) -> builtins.bool:
        """Returns a field of one bit. The default is a boolean, a boolean of numpy, 0 or 1."""
        if default not in (0, 1):
            raise ValueError(f"default is True or False, not {default!r}")
        return bool(self._field(1, offset)) != bool(default)

    def word(self, i: builtins.int) -> builtins.int:
        """Returns a data word as it is stored, which is a number below 2^64. Returns 0 if the struct is too short for
        the word."""
        if i < 0:
            raise ValueError(f"a word has a number from 0 on, not {i}")
        words = self.words
        return words[i] if i < len(words) else 0

    def slot(self, i: builtins.int) -> Value:
        """Returns the object that pointer `i` refers to, or null if the struct doesn't have that pointer."""
        if i < 0:
            raise ValueError(f"a slot has a number from 0 on, not {i}")
        return self.slots[i] if i < len(self.slots) else Null(self.slots._message, -1)

    def struct(self) -> Body:
        """Returns this struct."""
        return self

    def text(self, i: builtins.int | None = None, default: str = "") -> str:
        """Returns the text that pointer `i` refers to, or the default if the pointer is null or missing. Raises a
        `Mismatch` if the pointer refers to another object, or to bytes that aren't a text in UTF-8. Also raises a
        `Mismatch` without `i`, since a struct isn't a text."""
        if i is None:
            raise Mismatch(f"there is no text, but {self!r}")
        found = self.slot(i)
        if found.kind == "null":
            return default
        if found.kind != "bytes":
            raise Mismatch(f"slot {i} has no text, but {found!r}")
        return found.text()

    def data(self, i: builtins.int, default: bytes = b"") -> bytes:
        """Returns the bytes of the Data that pointer `i` refers to, or the default if the pointer is null or missing.
        Raises a `Mismatch` if the pointer refers to another object."""
        found = self.slot(i)
        if found.kind == "null":
            return default
        if found.kind != "bytes":
            raise Mismatch(f"slot {i} has no data, but {found!r}")
        return bytes(found)

    def _field(self, bits: builtins.int, offset: builtins.int) -> builtins.int:
        """Returns the bits of a field as they are stored, or 0 if the struct is too short for the field."""
        if offset < 0:
            raise ValueError(f"an offset is a number from 0 on, not {offset}")
        words = self.words
        has = 64 * len(words) if self._bits is None else self._bits
        if bits * offset + bits > has:
            return 0
        word, bit = divmod(bits * offset, 64)
        return words[word] >> bit & (1 << bits) - 1


class Row(Body):
    """An element of a list of structs. If an element of a list of numbers is read as a struct, the number is its data
    section. It then has one word in `words`, in which zeros follow the number."""

    __slots__ = ("words", "slots", "_bits")

    def __init__(self, words: memoryview, slots: Slots, bits: int | None = None) -> None:
        self.words, self.slots, self._bits = words, slots, bits

    def __eq__(self, other: object) -> bool:
        if not isinstance(other, (Object, Row)):
            return NotImplemented
        return _same(self, other)

    def __repr__(self) -> str:
        return f"<capn row, {len(self.words)} words, {len(self.slots)} slots>"


def _no_words() -> memoryview:
    """Returns a view without words."""
    return memoryview(b"").cast("Q")


class Null(Object, Body):
    """A null pointer. It is read as a struct without words and pointers, as a list without elements, and as a text that
    has its default."""

    __slots__ = ()
    kind: Literal["null"] = "null"  # type: ignore[assignment]

    def __init__(self, message: Message, at: int) -> None:
        # If a struct doesn't have the slot, there is no entry for it.
        self._message, self._at, self._entry = message, at, message._entries[max(at, 0)]

    @property
    def words(self) -> memoryview:  # type: ignore[override]
        """A view without words. The view belongs to the caller, who may release it."""
        return _no_words()

    @property
    def slots(self) -> Slots:  # type: ignore[override]
        """A list without objects."""
        return Slots(self._message, ())

    def text(self, i: builtins.int | None = None, default: str = "") -> str:
        """Returns the default, since a null pointer stands for an absent text."""
        if i is not None and i < 0:
            raise ValueError(f"a slot has a number from 0 on, not {i}")
        return default

    def struct(self) -> Body:
        """Returns this object, which has no words and no slots."""
        return self

    def list(self) -> Sequence[Any]:
        """Returns a list without elements, whose `kind` is "null"."""
        return _Nothing()

    def rows(self) -> Sequence[Body]:
        """Returns a list without elements."""
        return _Nothing()

    def numbers(self, bits: builtins.int) -> Sequence[builtins.int]:
        """Returns a list without elements."""
        return _Nothing() if bits in _SIZES else super().numbers(bits)

    def pointers(self) -> Sequence[Value]:
        """Returns a list without elements."""
        return _Nothing()

    def __bool__(self) -> bool:
        return False

    def __repr__(self) -> str:
        return "<capn null>"


class Struct(Object, Body):
    """The object of a pointer to a struct."""

    __slots__ = ("words", "slots")
    kind: Literal["struct"] = "struct"

    def struct(self) -> Body:
        """Returns this struct."""
        return self

    def __init__(self, message: Message, at: int) -> None:
        Object.__init__(self, message, at)
        entry = self._entry
        self.words = message._numbers(entry.offset, entry.words, "Q", 8)
        self.slots = Slots(message, message._below(at, entry.slots))

    def __repr__(self) -> str:
        return f"<capn struct, {len(self.words)} words, {len(self.slots)} slots>"


class List(Object, _Items[_T]):
    """A list: a sequence of its elements. It also equals a `list`, `tuple` or `range` with equal elements."""

    __slots__ = ()

    def __len__(self) -> int:
        return int(self._entry.count)

    def list(self) -> Sequence[Any]:
        """Returns this list."""
        return self

    def __eq__(self, other: object) -> bool:
        return _same(self, other) if isinstance(other, (Object, Row)) else self._is_list(other)

    def __repr__(self) -> str:
        return f"<capn {self.kind}, {len(self)}>"


class Voids(List[None]):
    """A list of elements without size."""

    __slots__ = ()
    kind: Literal["void"] = "void"

    def _item(self, i: int) -> None:
        return None

    def rows(self) -> Sequence[Body]:
        """Returns a struct without fields for each element."""
        return _Made(len(self), lambda i: Row(_no_words(), Slots(self._message, ())))


class Bits(List[bool]):
    """A list of bits, which are booleans."""

    __slots__ = ()
    kind: Literal["bits"] = "bits"

    def _item(self, i: int) -> bool:
        return bool(self._message._data[self._entry.offset + i // 8] >> i % 8 & 1)

    def _stored(self) -> tuple[bytes, int]:
        """Returns the complete bytes, and the bits after them as a number."""
        offset, count = self._entry.offset, len(self)
        whole = offset + count // 8
        rest = self._message._data[whole] & (1 << count % 8) - 1 if count % 8 else 0
        return self._message._data[offset:whole].tobytes(), rest


class _Numbers(List[int]):
    """A list of numbers of one size, read from the bytes of the message. It also equals an object whose buffer has the
    same numbers."""

    __slots__ = ("view",)
    view: memoryview
    """A memoryview of the numbers."""

    def __init__(self, message: Message, at: int) -> None:
        super().__init__(message, at)
        form, size = _FORMATS[self._entry.kind]
        self.view = message._numbers(self._entry.offset, self._entry.count, form, size)

    def _item(self, i: int) -> int:
        return self.view[i]

    def rows(self) -> Sequence[Body]:
        """Returns a struct for each number. If a field is wider than the number, the field has its default."""
        bits = 8 * self.view.itemsize

        def row(i: int) -> Row:
            return Row(memoryview(pack("<Q", self.view[i])).cast("Q"), Slots(self._message, ()), bits)

        return _Made(len(self), row)

    def __bytes__(self) -> bytes:
        return self.view.tobytes()

    def __eq__(self, other: object) -> bool:
        if isinstance(other, (bytes, bytearray, memoryview, array)):
            return self.view == other
        return super().__eq__(other)


class Bytes(_Numbers):
    """A list of bytes, which is data or a text. It also equals `bytes`, and a slice of the list is `bytes`."""

    __slots__ = ()
    kind: Literal["bytes"] = "bytes"

    @overload  # type: ignore[override]
    def __getitem__(self, i: int) -> int: ...
    @overload
    def __getitem__(self, i: slice) -> bytes: ...
    def __getitem__(self, i: int | slice) -> int | bytes:
        return self.view[i].tobytes() if isinstance(i, slice) else super().__getitem__(i)

    def text(self, i: int | None = None, default: str = "") -> str:
        """Returns the text, without the zero byte at its end. Raises a `Mismatch` if there is no such byte. If the
        other bytes aren't UTF-8, the `Mismatch` is also a `UnicodeDecodeError`. Also raises a `Mismatch` with `i`,
        since a list of bytes has no pointers."""
        if i is not None:
            raise Mismatch(f"there is no struct, but {self!r}")
        if not self.view or self.view[-1]:
            raise Mismatch("the last byte of a text is zero, and of this list of bytes it is not")
        try:
            return self.view[:-1].tobytes().decode()
        except UnicodeDecodeError as wrong:
            raise _Undecodable(*wrong.args) from None


class Numbers(_Numbers):
    """A list of unsigned numbers of 16, 32 or 64 bits. It also equals an `array` with the same numbers. `view` is a
    memoryview of the numbers. `view.cast("B").cast("h")` has signed numbers of 16 bits, and `"i"`, `"q"`, `"f"` and
    `"d"` stand for the other types."""

    __slots__ = ()

    @property
    def kind(self) -> Literal["u16", "u32", "u64"]:
        """The word for the size of the numbers."""
        return _KINDS[self._entry.kind]  # type: ignore[no-any-return]


class Pointers(List["Value"]):
    """A list of pointers. An element is the object that a pointer refers to."""

    __slots__ = ("_slots",)
    kind: Literal["pointers"] = "pointers"

    def __init__(self, message: Message, at: int) -> None:
        super().__init__(message, at)
        self._slots = Slots(message, message._below(at, self._entry.count))

    def _item(self, i: int) -> Value:
        return self._slots._item(i)

    def rows(self) -> Sequence[Body]:
        """Returns a struct for each pointer."""
        places = self._slots._places
        return _Made(len(self), lambda i: Row(_no_words(), Slots(self._message, places[i:i + 1])))

    def pointers(self) -> Sequence[Value]:
        """Returns this list."""
        return self


class Rows(List[Row]):
    """A list of structs, each with its words and its pointers."""

    __slots__ = ("_places",)
    kind: Literal["rows"] = "rows"

    def __init__(self, message: Message, at: int) -> None:
        super().__init__(message, at)
        self._places = message._below(at, self._entry.count * self._entry.slots)

    def _item(self, i: int) -> Row:
        words, slots = self._entry.words, self._entry.slots
        # The structs come after the tag.
        begin = self._entry.offset + 8 + 8 * i * (words + slots)
        places = self._places[i * slots:(i + 1) * slots]
        return Row(self._message._numbers(begin, words, "Q", 8), Slots(self._message, places))

    def rows(self) -> Sequence[Body]:
        """Returns this list."""
        return self

    def numbers(self, bits: int) -> Sequence[int]:
        """Returns the first field of each struct, or 0 if the structs have no data words. No list of structs is read as
        bits."""
        if bits not in _WIDTHS:
            return super().numbers(bits)
        if not self._entry.words:
            return _Made(len(self), lambda i: 0)
        return _Made(len(self), lambda i: self._item(i).uint(bits, 0))

    def pointers(self) -> Sequence[Value]:
        """Returns the first pointer of each struct, or null if the structs have no pointers."""
        if not self._entry.slots:
            return _Made(len(self), lambda i: Null(self._message, -1))
        return Slots(self._message, self._places[::self._entry.slots])

    def __repr__(self) -> str:
        return f"<capn rows, {len(self)} of {self._entry.words} words, {self._entry.slots} slots>"


Value = Union[Null, Struct, Voids, Bits, Bytes, Numbers, Pointers, Rows, Capability]
"""An object that a pointer may refer to. Its `kind` or its class says which one it is."""

_KINDS: Any = {lib.CAPN_KIND_U16: "u16", lib.CAPN_KIND_U32: "u32", lib.CAPN_KIND_U64: "u64"}
# The format of a number, and its size in bytes.
_FORMATS = {
    lib.CAPN_KIND_BYTES: ("B", 1),
    lib.CAPN_KIND_U16: ("H", 2),
    lib.CAPN_KIND_U32: ("I", 4),
    lib.CAPN_KIND_U64: ("Q", 8),
}
_CLASSES: Any = {
    lib.CAPN_KIND_NULL: Null,
    lib.CAPN_KIND_STRUCT: Struct,
    lib.CAPN_KIND_VOID: Voids,
    lib.CAPN_KIND_BITS: Bits,
    lib.CAPN_KIND_BYTES: Bytes,
    lib.CAPN_KIND_U16: Numbers,
    lib.CAPN_KIND_U32: Numbers,
    lib.CAPN_KIND_U64: Numbers,
    lib.CAPN_KIND_POINTERS: Pointers,
    lib.CAPN_KIND_ROWS: Rows,
    lib.CAPN_KIND_CAPABILITY: Capability,
}


def _same(one: Any, other: Any) -> bool:
    """Returns whether two objects or elements of a list of structs have the same value."""
    left = [(one, other)]
    while left:
        one, other = left.pop()
        kind = one.kind
        if kind != other.kind:
            return False
        if kind == "struct":
            # The stored bytes of a word begin with the least significant one. Zero words at the end of a struct make no
            # difference.
            if one.words.tobytes().rstrip(b"\0") != other.words.tobytes().rstrip(b"\0"):
                return False
            few, many = sorted((one.slots, other.slots), key=len)
            left += zip(few, many)
            if any(many[i].kind != "null" for i in range(len(few), len(many))):
                return False
        elif kind == "capability":
            if one.index != other.index:
                return False
        elif kind == "bits":
            if len(one) != len(other) or one._stored() != other._stored():
                return False
        elif kind != "null":
            if len(one) != len(other):
                return False
            if kind in ("pointers", "rows"):
                left += zip(one, other)
            elif kind != "void" and one.view != other.view:
                return False
    return True


class _Closed:
    """Stands for the entries of a message that was closed, and has none. It keeps the entries that objects still
    use."""

    __slots__ = ("_kept",)

    def __init__(self, kept: Any) -> None:
        self._kept = kept

    def __getitem__(self, at: int) -> Any:
        raise ValueError("the message is closed")


class Message:
    """A message that is valid within limits, and is read in place. The message holds the bytes that were passed, or a
    copy of them, until it is closed or none of its objects is left.

    Two messages are equal if their roots are. A message has no hash."""

    __slots__ = ("_data", "_entries", "_form", "_bounds", "_places", "_views", "paid", "visits")
    paid: int
    """The cost in words of reading the message."""
    visits: int
    """The number of pointers that are followed. A pointer counts each time that it is met. The root pointer and null
    pointers count, too."""

    def __init__(
        self, data: memoryview, entries: Any, paid: int, visits: int, form: int, bounds: Any, in_place: bool
    ) -> None:
        self._data, self._entries, self.paid, self.visits = data, entries, paid, visits
        # The form of the bytes, and the limits within which they were accepted.
        self._form, self._bounds = form, bounds
        # For an entry with objects below its slots, the indexes of the entries of these slots.
        self._places: dict[int, Sequence[int]] = {}
        # The views of the caller's bytes. They are released when the message is closed.
        self._views: WeakValueDictionary[int, memoryview] | None = WeakValueDictionary() if in_place else None

    @property
    def words(self) -> int:
        """The number of words of all segments."""
        words = len(self._data) // 8
        if self._form == lib.CAPN_BARE:
            return words
        # The segment table has four bytes for the number of segments, and four bytes for the size of each segment.
        segments = 1 + int.from_bytes(self._data[:4], "little")
        return words - (segments + 2) // 2

    @property
    def root(self) -> Value:
        """The object that the root pointer refers to."""
        return self._object(0)

    def at(self, *way: int) -> Value | Row | None:
        """Returns the object at a path of numbers from the root, as `capn show --at` prints it, or None if there is no
        such object. In a struct, a number selects a pointer. In a list of pointers or of structs, it selects an
        element."""
        found: Value | Row = self.root
        for step in way:
            number = index(step)
            if number < 0:
                raise ValueError(f"a way has numbers from 0 on, not {number}")
            below: Sequence[Value | Row] = ()
            if found.kind == "struct":
                below = found.slots
            elif found.kind == "pointers" or found.kind == "rows":
                below = found
            if number >= len(below):
                return None
            found = below[number]
        return found

    def close(self) -> None:
        """Releases the bytes. From then on, `root` and `at` raise a `ValueError`. So does an object of the message if
        it is asked for the object that a pointer refers to, or for an element. `paid` and `visits` stay readable.

        With `in_place=True` each `words` and `view` that the package made is released, so that it raises a
        `ValueError` too, and the bytes may be changed again. A slice or a cast that the caller made of such a view is
        the caller's: it keeps the bytes locked until it is released. If another object uses a view, as
        `numpy.frombuffer` does, this raises a `BufferError`, and may be called again later.

        Without it, a struct, a `words` or a `view` that was read before stays readable, since it holds bytes that
        nothing changes."""
        for view in list(self._views.values()) if self._views is not None else []:
            view.release()
        self._data.release()
        self._entries = _Closed(self._entries)
        self._places = {}

    def __enter__(self) -> Message:
        self._entries[0]
        return self

    def __exit__(
        self, kind: type[BaseException] | None, value: BaseException | None, traceback: TracebackType | None
    ) -> None:
        self.close()

    def __eq__(self, other: object) -> bool:
        if not isinstance(other, Message):
            return NotImplemented
        return _same(self.root, other.root)

    def __repr__(self) -> str:
        return f"<capn message, {self.paid} words paid, {self.visits} slots>"

    def _whole(self) -> tuple[int, Any, Any]:
        """Returns the message as the library takes it: the number of its form, its bytes, and its limits."""
        self._entries[0]
        return self._form, ffi.from_buffer(self._data), self._bounds

    def _object(self, at: int) -> Value:
        found: Value = _CLASSES[self._entries[at].kind](self, at)
        return found

    def _numbers(self, offset: int, count: int, form: Any, size: int) -> memoryview:
        view = self._data[offset:offset + size * count].cast(form)
        if self._views is not None:
            self._views[id(view)] = view
        return view

    def _below(self, at: int, count: int) -> Sequence[int]:
        """Returns the indexes of the entries of `count` slots, which come after the entry `at`. Most slots have nothing
        below them, and then a range is enough."""
        if self._entries[at].span == count + 1:
            return range(at + 1, at + 1 + count)
        places = self._places.get(at)
        if places is None:
            entries, next_one, places = self._entries, at + 1, array("I")
            for _ in range(count):
                places.append(next_one)
                next_one += entries[next_one].span
            self._places[at] = places
        return places


def read(
    data: Buffer,
    form: Form = "stream",
    limits: Limits = _USUAL,
    *,
    most_slots: int | None = None,
    in_place: bool = False,
) -> Message:
    """Checks one message within limits, and lists its pointers in an index. Then the message can be read in place,
    without following a pointer again. A packed message is unpacked first.

    An index takes 24 bytes for each pointer. A message has at most one pointer more than it costs words. With
    `most_slots` a message with more pointers raises a `Refusal` with the name "TooManySlots" and their number as `at`,
    before its index is made. With `in_place` nothing may change the bytes as long as the message or an object of it is
    used."""
    bounds, number = _laid_out(limits), _form(form)
    most = -1 if most_slots is None else index(most_slots)
    if most < 0 and most_slots is not None:
        raise ValueError(f"most_slots is a number from 0 on, or None, not {most}")
    if number == lib.CAPN_PACKED:
        data, number, in_place = _unpacked(data, limits.message_words + 2049, in_place=in_place), lib.CAPN_STREAM, False
    view, in_place = _viewed(data, in_place)
    given: Any = None
    try:
        given = data if type(data) is bytes else ffi.from_buffer(view)
        report, room = _report(), _FEW if most < 0 else min(most, _FEW)
        entries = _room(_entries_type, room)
        status = lib.capn_index(number, given, len(given), bounds, entries, room, report)
        if status == lib.CAPN_NO_ROOM:
            room = report.visits
            if 0 <= most < room:
                raise Refusal(f"too many slots: {room}", "TooManySlots", at=room)
            entries = _room(_entries_type, room)
            status = lib.capn_index(number, given, len(given), bounds, entries, room, report)
        if status != lib.CAPN_OK:
            raise refused(status, report, number, view, given, bounds)
    except BaseException:
        # A traceback holds neither the caller's bytes nor a view of them.
        if given is not None:
            let_go(given)
        view.release()
        raise
    message = Message(view, entries, report.paid, report.visits, number, bounds, in_place)
    _reports.append(report)
    return message


def _viewed(data: Buffer, in_place: bool) -> tuple[memoryview, bool]:
    """Returns a view, and whether it is of the caller's bytes. Otherwise the view is of bytes that nothing can
    change."""
    if type(data) is bytearray and not in_place:
        data = bytes(data)
    try:
        view = memoryview(data)
    except TypeError:
        raise no_buffer(data) from None
    if type(data) is bytes:
        return view, False
    is_fixed = type(view.obj) is bytes
    if not view.c_contiguous or not is_fixed and not in_place:
        return memoryview(view.tobytes()), False
    if not view.nbytes:
        # A view with a zero in its shape can't be cast.
        return memoryview(b""), False
    if view.format != "B" or view.ndim != 1:
        view = view.cast("B")
    return view.toreadonly(), not is_fixed
