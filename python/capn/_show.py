"""The text of a message, as `capn show` writes it. The library makes the text of a whole message, and this package
makes the text of a part."""
from __future__ import annotations

from typing import Any, Iterable, Iterator

from ._bytes import Buffer
from ._calls import _USUAL, Form, _filled, _most_bytes, _taken
from ._capn import ffi, lib
from ._limits import Limits
from ._message import Message, Object, Row, read
from ._refusal import refused

_JSON_ESCAPED = {ord('"'): '\\"', ord("\\"): "\\\\", 9: "\\t", 10: "\\n", 13: "\\r"}
# Code points that are invisible, or that change the direction of the text. Between quotes they are written as numbers.
_HIDDEN = (0xAD, 0x61C, 0x180E, *range(0x200B, 0x2010), *range(0x2028, 0x202F), *range(0x2060, 0x2070), 0xFEFF,
           *range(0xFFF9, 0xFFFC), *range(0xE0000, 0xE0080))
_ESCAPED = {**_JSON_ESCAPED, 0: "\\0", **{code: f"\\u{{{code:x}}}" for code in _HIDDEN}}
# A text in UTF-8 has none of these control characters. They are all control characters except tab, newline and carriage
# return.
_CONTROLS = frozenset(map(chr, (*range(0x20), *range(0x7F, 0xA0)))) - {*"\t\n\r"}
_STYLES = {
    (False, False): lib.CAPN_STYLE_LINES,
    (True, False): lib.CAPN_STYLE_TEXT,
    (False, True): lib.CAPN_STYLE_JSON,
    (True, True): lib.CAPN_STYLE_JSON_TEXT,
}


def show(
    message: Message | Object | Row | Buffer,
    form: Form = "stream",
    limits: Limits = _USUAL,
    *,
    text: bool = False,
    json: bool = False,
    at: Iterable[int] = (),
) -> str:
    """Returns what `capn show` prints for a `Message`, for an object of a message, or for bytes that are read with the
    given limits.

    - With `text` a list of bytes that is a text is shown as one, as with `--text`.
    - With `json` the result is a line of JSON, as with `--json`; with both it is a line with texts.
    - `at` is the path to the part that is shown, as with `--at`.

    The text of a whole message comes from the library. The text of a part, or of an object, is made in Python, and
    tested."""
    way = tuple(at)
    found: Any = message
    if isinstance(message, (Object, Row)):
        if way:
            raise ValueError("at is a way from the root of a message")
    elif way:
        found = (message if isinstance(message, Message) else read(message, form, limits)).at(*way)
    else:
        return _whole(message, form, limits, _STYLES[bool(text), bool(json)])
    if json:
        return "".join(_json(found, text)) + "\n"
    return "".join(_lines(found, text)) + "end\n"


def _whole(message: Message | Buffer, form: Form, limits: Limits, style: int) -> str:
    """Returns the text that the library makes of a message."""
    if isinstance(message, Message):
        number, given, bounds = message._whole()
        limits = Limits(bounds.message_words, bounds.budget, bounds.depth)
    else:
        number, given, bounds = _taken(message, form, limits, False)
    size = len(given)

    def call(out: Any, room: int, report: Any) -> int:
        status: int = lib.capn_show(number, given, size, bounds, style, ffi.cast("char *", out), room, report)
        return status

    # This room is enough for most messages. Otherwise the call makes the text in vain, and reports the length.
    room = min((16 if number == lib.CAPN_PACKED else 4) * size, 4 * _most_bytes(size, number, limits),
               64 * (limits.budget + 1)) + 256
    text = _filled(call, room, (given,), lambda status, report: refused(status, report, number, message, given, bounds))
    return text.decode("utf-8")


def _lines(found: Any, is_text: bool) -> Iterator[str]:
    if found is None:
        yield "none\n"
        return
    # For each level, an iterator over the objects that are left to show.
    left: list[Iterator[Any]] = [iter((found,))]
    while left:
        one = next(left[-1], None)
        if one is None:
            left.pop()
            continue
        pad, kind = "  " * (len(left) - 1), one.kind
        if kind == "null":
            yield f"{pad}null\n"
        elif kind == "struct":
            yield f"{pad}struct {len(one.words)} {len(one.slots)}\n"
            for word in one.words:
                yield f"{pad}  word {word:016x}\n"
            left.append(iter(one.slots))
        elif kind == "capability":
            yield f"{pad}capability {one.index}\n"
        elif kind == "bytes" and is_text and (quoted := _quoted(one.view)) is not None:
            yield f'{pad}bytes {len(one)} "{quoted}"\n'
        else:
            yield f"{pad}{kind} {len(one)}\n"
            if kind == "pointers" or kind == "rows":
                left.append(iter(one))
            elif kind == "bits" and one:
                yield f"{pad}  {_digits(one)}\n"
            elif kind == "bytes" and one:
                yield f"{pad}  {one.view.hex()}\n"
            elif kind in ("u16", "u32", "u64"):
                for number in one.view:
                    yield f"{pad}  {number}\n"


def _digits(bits: Any) -> str:
    return "".join("1" if bit else "0" for bit in bits)


def _quoted(view: memoryview) -> str | None:
    """Returns the text to write between quotes for a list of bytes. The bytes are UTF-8 without control characters and
    then a zero, or printable ASCII. Returns None for other bytes."""
    if view and all(0x20 <= byte <= 0x7E for byte in view):
        return str(view, "ascii").translate(_ESCAPED)
    text = _clear(view)
    return None if text is None else f"{text}\0".translate(_ESCAPED)


def _clear(view: memoryview) -> str | None:
    """Returns the text of a list of bytes without its last zero. The text is UTF-8 without control characters. Returns
    None for other bytes."""
    if not view or view[-1]:
        return None
    try:
        text = str(view[:-1], "utf-8")
    except UnicodeDecodeError:
        return None
    return None if _CONTROLS.intersection(text) else text


def _text_of(view: memoryview) -> str | None:
    """Returns the text of a list of bytes as JSON has it. The bytes are UTF-8 without control characters, and then a
    zero. Returns None for other bytes."""
    text = _clear(view)
    return None if text is None else text.translate(_JSON_ESCAPED)


def _json(found: Any, is_text: bool) -> Iterator[str]:
    if found is None:
        return
    # For each level, an iterator over the objects that are left to write, and the text that ends the level.
    left: list[tuple[Iterator[Any], str]] = [(iter((found,)), "")]
    between = ""
    while left:
        inside, end = left[-1]
        one = next(inside, None)
        if one is None:
            yield end
            left.pop()
            between = ","
            continue
        yield between
        between, kind = ",", one.kind
        if kind == "null":
            yield "null"
        elif kind == "struct":
            words = ",".join(f'"{word:016x}"' for word in one.words)
            yield f'{{"words":[{words}],"slots":['
            left.append((iter(one.slots), "]}"))
            between = ""
        elif kind == "pointers" or kind == "rows":
            yield f'{{"{kind}":['
            left.append((iter(one), "]}"))
            between = ""
        elif kind == "bytes" and is_text and (text := _text_of(one.view)) is not None:
            yield f'{{"text":"{text}"}}'
        else:
            yield f'{{"{kind}":{_inside(one, kind)}}}'


def _inside(one: Any, kind: str) -> str:
    """Returns the JSON text for a list without pointers, or for a capability."""
    if kind == "bits":
        return f'"{_digits(one)}"'
    if kind == "bytes":
        return f'"{one.view.hex()}"'
    if kind == "u64":
        return "[" + ",".join(f'"{number}"' for number in one.view) + "]"
    if kind == "void":
        return str(len(one))
    return str(one.index) if kind == "capability" else "[" + ",".join(map(str, one.view)) + "]"
