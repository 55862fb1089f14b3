"""A second implementation of docs/FORMAT.md and docs/LIMITS.md, in Python. Tests compare the program with this model.

It shares nothing with the program: a value is a tuple, a traversal is a recursion, and canonical bytes are one list. It
is slow, and it isn't proved. `run_COMMAND` does the work of a command, and has the options of the command as
parameters. `answered` calls it for the words of a command line. `archives` and `statuses` compare its result with that
of the program.
"""

import hashlib
import json
import unicodedata
import sys

sys.setrecursionlimit(10_000)

MOST_SEGMENTS, LONGEST_TABLE = 4096, 2049
WIDTH_BITS = [0, 1, 8, 16, 32, 64]


class Refused(Exception):
    """An error in the input. Its text is the text that the program prints."""


def number(data, at, size):
    return int.from_bytes(data[at:at + size], "little")


# The functions below read and write segment tables and packed bytes.


def first_frame(data, at, most):
    """Returns the segments of the message at an offset of a stream, and the offset after the message. Returns None if
    the stream ends at the given offset."""
    if at == len(data):
        return None
    if len(data) - at < 4:
        raise Refused("frame: Cut")
    count = number(data, at, 4) + 1
    if count > MOST_SEGMENTS:
        raise Refused(f"frame: TooManySegments({count})")
    table = 4 + 4 * count + (4 if count % 2 == 0 else 0)
    if len(data) - at < table:
        raise Refused("frame: Cut")
    sizes = [number(data, at + 4 + 4 * i, 4) for i in range(count)]
    if sum(sizes) > most:
        raise Refused(f"frame: TooManyWords({sum(sizes)})")
    end = at + table + 8 * sum(sizes)
    if len(data) < end:
        raise Refused("frame: Cut")
    segments, start = [], at + table
    for size in sizes:
        segments.append(data[start:start + 8 * size])
        start += 8 * size
    return segments, end


def unpacked(data, most=None):
    """Unpacks the complete groups of packed bytes, and returns the words. Also returns the offset of a truncated group,
    or None. Raises an error if the groups have more than `most` words."""
    out, at = bytearray(), 0
    while at < len(data):
        tag, begun = data[at], at
        at += 1
        named = bin(tag).count("1")
        if at + named > len(data):
            return bytes(out), begun
        word = bytearray(8)
        for bit in range(8):
            if tag >> bit & 1:
                word[bit] = data[at]
                at += 1
        count = 0
        if tag in (0, 255):
            if at == len(data):
                return bytes(out), begun
            count = data[at]
            at += 1
        if most is not None and len(out) // 8 + 1 + count > most:
            raise Refused(f"packed: TooLong at {begun}")
        more = bytes(8 * count)
        if tag == 255:
            if at + 8 * count > len(data):
                return bytes(out), begun
            more = data[at:at + 8 * count]
            at += 8 * count
        out += word + more
    return bytes(out), None


def packed(data):
    """Packs whole words, and returns the packed bytes. Each run of zero words is as long as possible, and so is each
    run of words that packing copies unchanged."""
    words, text, at = [data[begin:begin + 8] for begin in range(0, len(data), 8)], bytearray(), 0
    while at < len(words):
        word = words[at]
        tag = sum(1 << bit for bit, byte in enumerate(word) if byte)
        text += bytes([tag]) + word.replace(b"\0", b"")
        at += 1
        if tag in (0, 255):
            zeros = range(8, 9) if tag == 0 else range(2)
            begin = at
            while at < len(words) and at - begin < 255 and words[at].count(0) in zeros:
                at += 1
            text.append(at - begin)
            if tag == 255:
                text += b"".join(words[begin:at])
    return bytes(text)


# Traversals.


# The limits that are numbers. For each limit, the tuple has the share of random test runs that set the limit, its least
# value, and its greatest value.
LOW_LIMITS = {"budget": (0.3, 0, 30), "depth": (0.2, 1, 5), "message_words": (0.2, 1, 12)}


class Walk:
    """One traversal of a message. It finds the value of the message, its cost, the number of pointers followed, and the
    nesting depth."""

    def __init__(self, segments, budget=8388608, depth=64, tariff="strict"):
        self.segments, self.budget, self.most_depth = segments, budget, depth
        self.base = 1 if tariff == "strict" else 0
        self.paid = self.visits = self.height = 0
        self.capability = None
        if not segments[0]:
            raise Refused("NoRoot at 0:0, paid 0, visits 0")
        self.value = self.slot(0, 0, 1, True)

    def word(self, segment, at):
        return number(self.segments[segment], 8 * at, 8)

    def words(self, segment):
        return len(self.segments[segment]) // 8

    def refuse(self, fault, place):
        raise Refused(f"{fault} at {place[0]}:{place[1]}, paid {self.paid}, visits {self.visits}")

    def slot(self, segment, at, depth, is_root=False):
        place = (segment, at)
        self.visits += 1
        word = self.word(segment, at)
        if word == 0:
            return ("null",)
        kind = word & 3
        if kind == 3:
            if word & 0xFFFFFFFC:
                self.refuse("Reserved", place)
            if is_root:
                self.refuse("RootKind", place)
            if self.capability is None:
                self.capability = word >> 32
            return ("capability", word >> 32)
        if kind != 2:
            return self.content(place, segment, start(word, at), word, 0, depth)
        pad, there = word >> 3 & 0x1FFFFFFF, word >> 32
        if there >= len(self.segments):
            self.refuse("NoSegment", place)
        double = word >> 2 & 1
        if pad + 1 + double > self.words(there):
            self.refuse("PadRange", place)
        first = self.word(there, pad)
        if not double:
            if first == 0 or first & 3 > 1:
                self.refuse("BadPad", place)
            return self.content(place, there, start(first, pad), first, 1, depth)
        tag = self.word(there, pad + 1)
        if first & 7 != 2 or tag & 3 > 1:
            self.refuse("BadPad", place)
        if first >> 32 >= len(self.segments):
            self.refuse("NoSegment", place)
        return self.content(place, first >> 32, first >> 3 & 0x1FFFFFFF, tag, 2, depth)

    def content(self, place, segment, begin, word, pads, depth):
        is_list, code, count = word & 1, word >> 32 & 7, word >> 35
        data, slots = word >> 32 & 0xFFFF, word >> 48
        if not is_list:
            size = data + slots
        elif code == 7:
            size = 1 + count
        elif code == 6:
            size = count
        else:
            size = -(-count * WIDTH_BITS[code] // 64)
        if begin < 0 or begin + size > self.words(segment):
            self.refuse("Range", place)
        price = self.base + size + pads
        if is_list and code == 0:
            price += count
        if is_list and code == 7:
            tag = self.word(segment, begin)
            if tag & 3:
                self.refuse("BadTag", place)
            rows, data, slots = (tag & 0xFFFFFFFF) >> 2, tag >> 32 & 0xFFFF, tag >> 48
            if rows * (data + slots) > count:
                self.refuse("TagOverrun", place)
            if data + slots == 0:
                price += rows
        if depth > self.most_depth:
            self.refuse("TooDeep", place)
        if self.paid + price > self.budget:
            self.refuse("OverBudget", place)
        self.paid += price
        self.height = max(self.height, depth)
        if not is_list:
            return self.body(segment, begin, data, slots, depth)
        if code == 7:
            row = data + slots
            return ("rows", [self.body(segment, begin + 1 + i * row, data, slots, depth) for i in range(rows)])
        if code == 6:
            return ("pointers", [self.slot(segment, begin + i, depth + 1) for i in range(count)])
        raw = self.segments[segment][8 * begin:8 * (begin + size)]
        if code == 0:
            return ("void", count)
        if code == 1:
            return ("bits", [raw[i // 8] >> i % 8 & 1 for i in range(count)])
        if code == 2:
            return ("bytes", raw[:count])
        wide = WIDTH_BITS[code] // 8
        return (f"u{8 * wide}", [number(raw, wide * i, wide) for i in range(count)])

    def body(self, segment, begin, data, slots, depth):
        words = [self.word(segment, begin + i) for i in range(data)]
        return ("struct", words, [self.slot(segment, begin + data + i, depth + 1) for i in range(slots)])


def start(word, at):
    offset = (word & 0xFFFFFFFF) >> 2
    return at + 1 + (offset - (1 << 30) if offset >> 29 else offset)


# Canonical bytes.


def cut(items, zero):
    kept = len(items)
    while kept and items[kept - 1] == zero:
        kept -= 1
    return kept


def canonical(value):
    """Returns the canonical bytes of a value without capabilities."""
    out = [0]

    def pointer(at, to, low, high):
        offset = (to - at - 1) & 0x3FFFFFFF
        out[at] = low | offset << 2 | high << 32

    def lay(at, value):
        kind, to = value[0], len(out)
        if kind == "null":
            return
        if kind == "struct":
            words, slots = value[1][:cut(value[1], 0)], value[2][:cut(value[2], ("null",))]
            pointer(at, to if words or slots else at, 0, len(words) | len(slots) << 16)
            out.extend(words)
            places = range(len(out), len(out) + len(slots))
            out.extend([0] * len(slots))
            for place, slot in zip(places, slots):
                lay(place, slot)
            return
        if kind == "rows":
            rows = value[1]
            data = max((cut(row[1], 0) for row in rows), default=0)
            slots = max((cut(row[2], ("null",)) for row in rows), default=0)
            pointer(at, to, 1, 7 | len(rows) * (data + slots) << 3)
            out.append(len(rows) << 2 | data << 32 | slots << 48)
            begin = len(out)
            out.extend([0] * (len(rows) * (data + slots)))
            for i, row in enumerate(rows):
                out[begin + i * (data + slots):begin + i * (data + slots) + data] = row[1][:data]
            for i, row in enumerate(rows):
                for j in range(slots):
                    lay(begin + i * (data + slots) + data + j, row[2][j])
            return
        if kind == "pointers":
            pointer(at, to, 1, 6 | len(value[1]) << 3)
            places = range(to, to + len(value[1]))
            out.extend([0] * len(value[1]))
            for place, slot in zip(places, value[1]):
                lay(place, slot)
            return
        if kind == "void":
            pointer(at, to, 1, 0 | value[1] << 3)
            return
        code = {"bits": 1, "bytes": 2, "u16": 3, "u32": 4, "u64": 5}[kind]
        pointer(at, to, 1, code | len(value[1]) << 3)
        if kind == "bits":
            raw = bytes(sum(bit << i for i, bit in enumerate(value[1][first:first + 8]))
                        for first in range(0, len(value[1]), 8))
        else:
            raw = b"".join(item.to_bytes(WIDTH_BITS[code] // 8, "little") for item in value[1])
        raw += bytes(-len(raw) % 8)
        out.extend(number(raw, i, 8) for i in range(0, len(raw), 8))

    lay(0, value)
    return b"".join(word.to_bytes(8, "little") for word in out)


# Dumps.


# `show --text` prints these code points as numbers. They are invisible, or they change the direction of the text.
HIDDEN = [
    *[(it, it) for it in (0xAD, 0x61C, 0x180E, 0xFEFF)],
    (0x200B, 0x200F), (0x2028, 0x202E), (0x2060, 0x206F), (0xFFF9, 0xFFFB), (0xE0000, 0xE007F),
]
ESCAPES = {'"': '\\"', "\\": "\\\\", "\t": "\\t", "\n": "\\n", "\r": "\\r", "\0": "\\0"}


def quoted(items):
    """Returns what `show --text` prints between quotes for a list of bytes. Returns None if `show --text` prints the
    list in hexadecimal."""
    ascii_front = all(0x20 <= byte <= 0x7E for byte in items[:-1])
    if items and ascii_front and (items[-1] == 0 or 0x20 <= items[-1] <= 0x7E):
        text = bytes(items).decode("ascii")
    else:
        front = text_of(items)
        if front is None:
            return None
        text = front + "\0"
    hidden = lambda it: any(low <= ord(it) <= high for low, high in HIDDEN)
    return "".join(f"\\u{{{ord(it):x}}}" if hidden(it) else ESCAPES.get(it, it) for it in text)


def shown(value, level=0, with_texts=False):
    """Returns the dump of a value, as `show` prints it. If `with_texts` is true, returns the dump that `show --text`
    prints."""
    kind, pad = value[0], "  " * level
    if kind == "null":
        return f"{pad}null\n"
    if kind == "capability":
        return f"{pad}capability {value[1]}\n"
    if kind == "struct":
        lines = "".join(f"{pad}  word {word:016x}\n" for word in value[1])
        slots = "".join(shown(slot, level + 1, with_texts) for slot in value[2])
        return f"{pad}struct {len(value[1])} {len(value[2])}\n{lines}{slots}"
    if kind == "void":
        return f"{pad}void {value[1]}\n"
    head, items = f"{pad}{kind} {len(value[1])}\n", value[1]
    if kind == "bits":
        return head + (f"{pad}  {''.join(map(str, items))}\n" if items else "")
    if kind == "bytes":
        text = quoted(items) if with_texts else None
        if text is not None:
            return f'{pad}bytes {len(items)} "{text}"\n'
        return head + (f"{pad}  {bytes(items).hex()}\n" if items else "")
    if kind in ("pointers", "rows"):
        return head + "".join(shown(item, level + 1, with_texts) for item in items)
    return head + "".join(f"{pad}  {item}\n" for item in items)


class Marked:
    """The lines that `show` prints with offsets, paths, or both, for an accepted message. `begin` is the offset of the
    first segment. The class reads the message again, pointer by pointer."""

    def __init__(self, segments, begin, offsets, ways, with_texts=False):
        self.walk = Walk(segments, 1 << 60, 1 << 30, "plain")
        self.begins = [begin + sum(map(len, segments[:i])) for i in range(len(segments))]
        self.offsets, self.ways, self.with_texts = offsets, ways, with_texts

    def line(self, byte, way, level, text):
        offset = f"{'' if byte is None else byte}\t" if self.offsets else ""
        name = "" if way is None else ".".join(map(str, way)) or "root"
        return offset + (f"{name}\t" if self.ways else "") + "  " * level + text + "\n"

    def leads(self, segment, at):
        """Returns the place at which a pointer's object begins, and the word that describes the object."""
        word = self.walk.word(segment, at)
        if word & 3 != 2:
            return segment, start(word, at), word
        there, pad = word >> 32, word >> 3 & 0x1FFFFFFF
        first = self.walk.word(there, pad)
        if not word & 4:
            return there, start(first, pad), first
        return first >> 32, first >> 3 & 0x1FFFFFFF, self.walk.word(there, pad + 1)

    def slot(self, segment, at, way, level):
        word, byte = self.walk.word(segment, at), self.begins[segment] + 8 * at
        if word == 0 or word & 3 == 3:
            return self.line(byte, way, level, f"capability {word >> 32}" if word else "null")
        there, begin, word = self.leads(segment, at)
        first, code, count = self.begins[there] + 8 * begin, word >> 32 & 7, word >> 35
        if not word & 1:
            return self.body(byte, there, begin, word >> 32 & 0xFFFF, word >> 48, way, level)
        if code == 7:
            tag = self.walk.word(there, begin)
            rows, words, slots = (tag & 0xFFFFFFFF) >> 2, tag >> 32 & 0xFFFF, tag >> 48
            text = self.line(byte, way, level, f"rows {rows}")
            for i in range(rows):
                at = begin + 1 + i * (words + slots)
                text += self.body(self.begins[there] + 8 * at, there, at, words, slots, way + (i,), level + 1)
            return text
        if code == 6:
            head = self.line(byte, way, level, f"pointers {count}")
            return head + "".join(self.slot(there, begin + i, way + (i,), level + 1) for i in range(count))
        if code == 0:
            return self.line(byte, way, level, f"void {count}")
        raw = self.walk.segments[there][8 * begin:]
        if code == 1:
            text = self.line(byte, way, level, f"bits {count}")
            bits = "".join(str(raw[i // 8] >> i % 8 & 1) for i in range(count))
            return text + (self.line(first, way, level + 1, bits) if count else "")
        if code == 2:
            items = raw[:count]
            inside = quoted(items) if self.with_texts else None
            if inside is not None:
                return self.line(byte, way, level, f'bytes {count} "{inside}"')
            text = self.line(byte, way, level, f"bytes {count}")
            return text + (self.line(first, way, level + 1, items.hex()) if count else "")
        wide = WIDTH_BITS[code] // 8
        text = self.line(byte, way, level, f"u{8 * wide} {count}")
        for i in range(count):
            text += self.line(first + wide * i, way, level + 1, str(number(raw, wide * i, wide)))
        return text

    def below(self, there, step):
        """Looks at the parts directly below an object, or directly below a struct in a list. Returns the part with the
        number `step`, or None if there is no such part."""
        segment, at, row = there
        if row is None:
            word = self.walk.word(segment, at)
            if word == 0 or word & 3 == 3:
                return None
            segment, at, word = self.leads(segment, at)
            if word & 1 and word >> 32 & 7 == 6:
                return (segment, at + step, None) if step < word >> 35 else None
            if word & 1 and word >> 32 & 7 == 7:
                tag = self.walk.word(segment, at)
                row = tag >> 32 & 0xFFFF, tag >> 48
                return (segment, at + 1 + step * sum(row), row) if step < (tag & 0xFFFFFFFF) >> 2 else None
            row = (0, 0) if word & 1 else (word >> 32 & 0xFFFF, word >> 48)
        return (segment, at + row[0] + step, None) if step < row[1] else None

    def part(self, way):
        """Returns the lines of the part at a path from the root. Returns the line `none` if the message has no such
        part."""
        there = (0, 0, None)
        for step in way:
            there = there and self.below(there, step)
        if there is None:
            return self.line(None, None, 0, "none")
        segment, at, row = there
        if row is None:
            return self.slot(segment, at, way, 0)
        return self.body(self.begins[segment] + 8 * at, segment, at, *row, way, 0)

    def body(self, byte, segment, begin, words, slots, way, level):
        text = self.line(byte, way, level, f"struct {words} {slots}")
        for i in range(words):
            word = self.walk.word(segment, begin + i)
            text += self.line(self.begins[segment] + 8 * (begin + i), way, level + 1, f"word {word:016x}")
        return text + "".join(self.slot(segment, begin + words + i, way + (i,), level + 1) for i in range(slots))


def text_of(items):
    """Returns a list of bytes as a JSON text. Returns None unless the bytes are UTF-8 without control characters,
    followed by a zero byte."""
    if not items or items[-1] != 0:
        return None
    try:
        text = bytes(items[:-1]).decode("utf-8")
    except UnicodeDecodeError:
        return None
    return None if any(unicodedata.category(it) == "Cc" and it not in "\t\n\r" for it in text) else text


def plain_of(value, with_texts):
    """Returns a value as an object that the module `json` can write. If `with_texts` is true, lists of bytes that are
    texts become strings."""
    kind = value[0]
    if kind == "null":
        return None
    if kind == "struct":
        slots = [plain_of(slot, with_texts) for slot in value[2]]
        return {"words": [f"{word:016x}" for word in value[1]], "slots": slots}
    if kind in ("pointers", "rows"):
        return {kind: [plain_of(item, with_texts) for item in value[1]]}
    if kind == "bits":
        return {kind: "".join(map(str, value[1]))}
    if kind == "bytes":
        text = text_of(value[1]) if with_texts else None
        return {kind: bytes(value[1]).hex()} if text is None else {"text": text}
    if kind == "u64":
        return {kind: [str(item) for item in value[1]]}
    return {kind: value[1]}


def stands(value, way):
    """Returns the part of a value at a path of numbers. Returns None if the value has no such part."""
    for step in way:
        if value[0] not in ("struct", "pointers", "rows"):
            return None
        below = value[2] if value[0] == "struct" else value[1]
        if step >= len(below):
            return None
        value = below[step]
    return value


def styled(value, style):
    """Returns the output of `show` for a part of a message, in the style `plain`, `text`, `json` or `both`. `value` is
    None if the message doesn't have the part. In the styles `plain` and `text`, the output ends with the line `end`."""
    if style in ("json", "both"):
        if value is None:
            return "\n"
        return json.dumps(plain_of(value, style == "both"), separators=(",", ":"), ensure_ascii=False) + "\n"
    return ("none\n" if value is None else shown(value, 0, style == "text")) + "end\n"


# The functions below are the commands that write a result for each message of a stream.


def each(data, text_of, form="stream", message_words=8388608, one=False, **limits):
    """Returns three results for the messages of a stream: the output, the line on standard error, and the exit status.
    The output stops before the first rejected message. If `one` is true, the input has to be exactly one message. The
    function `text_of` makes the output for one message. `limits` are the limits of the traversal."""
    if one:
        try:
            segments = only_message(data, form, message_words)
            frame = unpacked(data)[0] if form == "packed" else data
            return text_of(Walk(segments, **limits), segments, 0, frame).encode(), "", 0
        except Refused as refused:
            return b"", f"capn: {refused}\n", 1
    found, fault = messages(data, form, message_words)
    out = []
    for offset, frame, segments in found:
        try:
            out.append(text_of(Walk(segments, **limits), segments, offset, frame))
        except Refused as refused:
            return "".join(out).encode(), f"capn: {refused}\n", 1
    return "".join(out).encode(), f"capn: {fault[0]}\n" if fault else "", 1 if fault else 0


def run_show(data, at=None, text=False, json=False, offsets=False, ways=False, **options):
    way = () if at is None else tuple(map(int, at.split(".")))
    style = {(False, False): "plain", (True, False): "text", (False, True): "json", (True, True): "both"}[text, json]

    def text_of(walk, segments, offset, frame):
        if not offsets and not ways:
            return styled(stands(walk.value, way), style)
        end = offset + len(frame)
        lines = Marked(segments, end - sum(map(len, segments)), offsets, ways, text).part(way)
        return lines + (f"{end}\t" if offsets else "") + ("\t" if ways else "") + "end\n"

    return each(data, text_of, **options)


def run_check(data, form="stream", **options):
    def text_of(walk, segments, _offset, _frame):
        own = "" if form != "bare" else " canonical" if is_own(walk, segments) else " not-canonical"
        return f"ok paid {walk.paid} visits {walk.visits}{own}\n"

    return each(data, text_of, form, **options)


def run_hash(data, **options):
    return each(data, lambda walk, *_: f"{digest(without_capability(walk).value)}\n", **options)


def without_capability(walk):
    """Takes the traversal of a message, and returns this traversal. Raises an error if the message has a capability."""
    if walk.capability is not None:
        raise Refused(f"capability {walk.capability}")
    return walk


def is_own(walk, segments):
    """Returns whether a valid message is a single segment that equals its canonical bytes."""
    return walk.capability is None and len(segments) == 1 and canonical(walk.value) == segments[0]


# The functions below are the commands that take a stream of any length.


def messages(data, form, most):
    """Returns the messages of an input. For each message, returns its offset, its bytes with the segment table, and its
    segments. Also returns the error that ends the stream, or None."""
    if form == "bare":
        if len(data) % 8:
            return [], (f"bare: NotWhole({len(data)})", 1, 0)
        return [(0, data, [data])], None
    cut_at = None
    if form == "packed":
        data, cut_at = unpacked(data)
    found, at = [], 0
    while True:
        try:
            frame = first_frame(data, at, most)
        except Refused as refused:
            text = str(refused)
            if text == "frame: Cut" and cut_at is not None:
                text = f"packed: Cut at {cut_at}"
            return found, (text, len(found) + 1, at)
        if frame is None:
            if cut_at is not None:
                return found, (f"packed: Cut at {cut_at}", len(found) + 1, at)
            return found, None
        segments, end = frame
        found.append((at, data[at:end], segments))
        at = end


def line_of(fault):
    """Returns the line that the program prints on standard error for an error. The line has the number and the offset
    of the message."""
    text, index, offset = fault
    return f"capn: message {index} at {offset}: {text}\n"


def passed_line(passed, count):
    """Returns the line on standard error about rejected messages that were skipped. Returns an empty text if no message
    was skipped."""
    if not passed:
        return ""
    index, offset = passed[0]
    return f"capn: {len(passed)} of {count} messages refused, the first is {index} at {offset}\n"


def digest(value):
    return hashlib.sha256(canonical(value)).hexdigest()


def listed(head, walk, segments, with_digest):
    """Returns the line of `list` for a valid message. `head` has the first columns of the line."""
    is_free = walk.capability is None
    end = f" sha256 {digest(walk.value) if is_free else '-'}" if with_digest else ""
    own = "yes" if is_own(walk, segments) else "no"
    return (f"{head} paid {walk.paid} visits {walk.visits} depth {walk.height}"
            f" capability {'no' if is_free else walk.capability} canonical {own}{end}\n").encode()


def needed(greatest, found, tariff):
    """Returns the lines of `limits`. The lines have the count of messages, and the greatest value of each statistic.
    Each of these values comes with the message that has it."""
    most = 2**28
    words, paid, deep = (greatest[name][0] for name in greatest)
    lines = [f"messages {found}"]
    lines += [f"{name} {figure} message {index}" for name, (figure, index) in greatest.items()]
    end = " --tariff plain" if tariff == "plain" else ""
    lines.append(f"use --message-words {min(most, max(1, 4 * words))} --budget {min(most, 4 * paid)}"
                 f" --depth {min(256, max(1, 2 * deep))}{end}")
    return "".join(f"{line}\n" for line in lines).encode()


def run(task, data, form="stream", message_words=8388608, keep_going=False, with_digest=False, count=False,
        only_canonical=False, **limits):
    """Returns the output, the standard error and the exit status of a command that takes a stream of any length. `task`
    is the command: `list`, `limits`, `canonical`, `uniq` or `filter`. `with_digest` is an option of `list`, `count` of
    `uniq`, and `only_canonical` of `filter`. `limits` are the limits of the traversal."""
    found, fault = messages(data, form, message_words)
    out, passed, greatest = [], [], {"message-words": (0, 0), "budget": (0, 0), "depth": (0, 0)}
    kept = set()
    for index, (offset, frame, segments) in enumerate(found, 1):
        words = sum(map(len, segments)) // 8
        head = f"{index} at {offset} bytes {len(frame)} segments {len(segments)} words {words}"
        try:
            walk = Walk(segments, **limits)
            if task in ("canonical", "uniq"):
                without_capability(walk)
            if only_canonical and not is_own(walk, segments):
                raise Refused("not canonical")
        except Refused as refused:
            if not keep_going:
                fault = (str(refused), index, offset)
                break
            passed.append((index, offset))
            if task == "list":
                out.append(f"{head} refused {refused}\n".encode())
            continue
        if task == "list":
            out.append(listed(head, walk, segments, with_digest))
        if task == "canonical":
            laid = canonical(walk.value)
            out.append(bytes(4) + (len(laid) // 8).to_bytes(4, "little") + laid)
        if task == "uniq" and digest(walk.value) not in kept:
            kept.add(digest(walk.value))
            out.append(b"" if count else frame)
        if task == "filter":
            out.append(frame)
        for name, figure in [("message-words", words), ("budget", walk.paid), ("depth", walk.height)]:
            if not greatest[name][1] or figure > greatest[name][0]:
                greatest[name] = (figure, index)
    line = passed_line(passed, len(found))
    if fault is not None:
        return b"".join(out), line + line_of(fault), 1
    if task == "limits":
        out.append(needed(greatest, len(found), limits.get("tariff")))
    if count:
        out.append(f"{len(kept)} of {len(found) - len(passed)}\n".encode())
    return b"".join(out), line, 1 if passed else 0


def run_list(data, digest=False, **options):
    return run("list", data, with_digest=digest, **options)


def run_limits(data, **options):
    return run("limits", data, **options)


def run_uniq(data, **options):
    return run("uniq", data, **options)


def run_filter(data, canonical=False, **options):
    return run("filter", data, only_canonical=canonical, **options)


def apart(first, other):
    """Compares the dumps of two canonical messages line by line. At the first difference, returns the line of each
    dump. Each line begins with its path."""
    texts = [Marked([it], 0, False, True).part(()).splitlines() + ["\tend"] for it in (first, other)]
    return next(both for both in zip(*texts) if both[0] != both[1])


def run_cmp(data, form="stream", message_words=8388608, **limits):
    found, fault = messages(data, form, message_words)
    first = None
    for index, (offset, _, segments) in enumerate(found, 1):
        try:
            walk = Walk(segments, **limits)
            without_capability(walk)
        except Refused as refused:
            return b"", line_of((str(refused), index, offset)), 1
        own = canonical(walk.value)
        first = first or own
        if own != first:
            line, other = apart(first, own)
            return f"message {index} at {offset} differs from message 1\n< {line}\n> {other}\n".encode(), "", 1
    if fault is not None:
        return b"", line_of(fault), 1
    if len(found) < 2:
        return b"", "capn: fewer than two messages\n", 1
    return b"", "", 0


def run_canonical(data, framed=False, keep_going=False, **options):
    return run("canonical", data, keep_going=keep_going, **options) if framed else canonical_of_one(data, **options)


def pick(data, form="stream", message_words=8388608, first=1, last=2**64 - 1):
    """Computes `pick` for the messages with the numbers `first` to `last`. Returns the output, the line on standard
    error, and the exit status."""
    if last < first:
        return b"", "", 0
    found, fault = messages(data, form, message_words)
    out = b"".join(frame for _, frame, _ in found[first - 1:last])
    if fault is None or len(found) >= last:
        return out, "", 0
    return out, line_of(fault), 1


def pick_only(data, ranges, form="stream", message_words=8388608):
    """Returns the output of `pick --only`, the line on standard error, and the exit status. The ranges are in ascending
    order."""
    found, fault = messages(data, form, message_words)
    out = b"".join(frame for _, frame, _ in (one for first, last in ranges for one in found[first - 1:last]))
    if fault is None or len(found) >= ranges[-1][1]:
        return out, "", 0
    return out, line_of(fault), 1


def run_pick(data, to=2**64 - 1, only=None, **options):
    first = options.pop("from", 1)
    if only is None:
        return pick(data, first=first, last=to, **options)
    ranges = [one.partition("-") for one in only.split(",")]
    return pick_only(data, [(int(low), int(high or low)) for low, _, high in ranges], **options)


# The functions below are the commands that read their whole input before they write.


def only_message(data, form, message_words):
    """Returns the segments of the only message of an input. Raises an error unless the input is exactly one message."""
    if form == "bare":
        if len(data) % 8:
            raise Refused(f"bare: NotWhole({len(data)})")
        return [data]
    if form == "packed":
        data, cut_at = unpacked(data, message_words + LONGEST_TABLE)
        if cut_at is not None:
            raise Refused(f"packed: Cut at {cut_at}")
    frame = first_frame(data, 0, message_words)
    if frame is None:
        raise Refused("frame: Empty")
    segments, end = frame
    if end < len(data):
        raise Refused(f"trailing bytes at {end}")
    return segments


def canonical_of_one(data, form="stream", message_words=8388608, **limits):
    """Computes `canonical` for one message. Returns the output, the line on standard error, and the exit status.
    `limits` are the limits of the traversal."""
    try:
        walk = Walk(only_message(data, form, message_words), **limits)
        return canonical(without_capability(walk).value), "", 0
    except Refused as refused:
        return b"", f"capn: {refused}\n", 1


def run_pack(data, streaming=False):
    text, line, status = pack_streaming(data)
    return (b"" if status and not streaming else text), line, status


def run_unpack(data, message_words=8388608, streaming=False):
    if streaming:
        return unpack_streaming(data)
    try:
        words, cut_at = unpacked(data, message_words + LONGEST_TABLE)
    except Refused as refused:
        return b"", f"capn: {refused}\n", 1
    return (words, "", 0) if cut_at is None else (b"", f"capn: packed: Cut at {cut_at}\n", 1)


# The functions below pack and unpack in chunks.


def pack_streaming(data):
    """Returns the output of `pack --streaming`, the line on standard error, and the exit status."""
    text = packed(data[:len(data) // 8 * 8])
    return (text, f"capn: NotWhole({len(data)})\n", 1) if len(data) % 8 else (text, "", 0)


def unpack_streaming(data):
    """Returns the output of `unpack --streaming`, the line on standard error, and the exit status."""
    words, cut_at = unpacked(data)
    return (words, "", 0) if cut_at is None else (words, f"capn: packed: Cut at {cut_at}\n", 1)
