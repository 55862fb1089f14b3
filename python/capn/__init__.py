"""Checks Cap'n Proto messages, writes their canonical bytes, hashes and packs them, without a schema, by proved code.

A call takes any object that has a buffer, with one message in it. It raises `Refusal` if the message is invalid or goes
over a limit, with the text that the program `capn` prints, and `MemoryError` if an allocation fails. It raises
`TypeError` or `ValueError` for an argument that is wrong in itself, before any byte is read.

What is read of a message raises `Mismatch` if the message has something else there. `Refusal` and `Mismatch` are both a
`ValueError`: whatever a message contains, the calls of this package raise nothing else because of it. Only `words` and
`view` are plain memoryviews, of which an index past the end raises an `IndexError`.

Other threads run during a call, and the library relies on bytes that don't change. So the package first copies the
bytes of an object that may change, such as a `bytearray`, a mapped file or an array. It doesn't copy `bytes`, nor a
view of `bytes`. With `in_place=True` nothing is copied, and the caller guarantees that nothing changes the bytes until
the call returns. A change can make the library read outside the bytes, which ends the process or shows in a result.

- `check`, `survey`, `canonical`, `digest`, `is_canonical_message`, `is_canonical_words`, `pack` and `unpack` take
  bytes.
- `same` takes those of two messages.
- `read` makes a `Message`, whose root is a `Value`.
- `show` returns its text, `departure` its first difference from the canonical form, and `annotate` what each of its
  words is.
- `messages`, `digests`, `amessages` and `Splitter` are for streams.
- `check_segments`, `survey_segments`, `canonical_segments` and `digest_segments` take a message in segments."""
from ._calls import (
    Checked,
    Surveyed,
    canonical,
    check,
    digest,
    is_canonical,
    is_canonical_message,
    is_canonical_words,
    pack,
    same,
    survey,
    unpack,
)
from ._capn import ffi as _ffi
from ._capn import lib as _lib
from ._departure import Departure, departure
from ._limits import Limits
from ._lines import Line, LineKind, annotate
from ._message import (
    Bits,
    Body,
    Bytes,
    Capability,
    List,
    Message,
    Mismatch,
    Null,
    Numbers,
    Object,
    Pointers,
    Row,
    Rows,
    Slots,
    Struct,
    Value,
    Voids,
    read,
)
from ._reader import Messages
from ._refusal import Refusal
from ._segments import canonical_segments, check_segments, digest_segments, survey_segments
from ._show import show
from ._splitter import Splitter
from ._stream import AsyncMessages, AsyncOutcomes, Digests, Outcomes, amessages, digests, messages

__version__: str = _ffi.string(_lib.capn_version()).decode()

__all__ = [
    "AsyncMessages",
    "AsyncOutcomes",
    "Bits",
    "Body",
    "Bytes",
    "Capability",
    "Checked",
    "Departure",
    "Digests",
    "Limits",
    "Line",
    "LineKind",
    "List",
    "Message",
    "Messages",
    "Mismatch",
    "Null",
    "Numbers",
    "Object",
    "Outcomes",
    "Pointers",
    "Refusal",
    "Row",
    "Rows",
    "Slots",
    "Splitter",
    "Struct",
    "Surveyed",
    "Value",
    "Voids",
    "__version__",
    "amessages",
    "annotate",
    "canonical",
    "canonical_segments",
    "check",
    "check_segments",
    "departure",
    "digest",
    "digest_segments",
    "digests",
    "is_canonical",
    "is_canonical_message",
    "is_canonical_words",
    "messages",
    "pack",
    "read",
    "same",
    "show",
    "survey",
    "survey_segments",
    "unpack",
]
