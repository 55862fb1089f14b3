"""A second implementation of the command `explain`, in Python. It was written from docs/DIAGNOSTICS.md. The module
`model` has the other commands."""

import model

KINDS = ["voids", "bits", "bytes", "u16", "u32", "u64", "pointers"]


def decoded(word):
    """Returns a text that describes a word as a pointer."""
    if word == 0:
        return "null"
    kind, offset = word & 3, (word & 0xFFFFFFFF) >> 2
    offset -= offset >> 29 << 30
    if kind == 0:
        return f"struct of {word >> 32 & 0xFFFF} words and {word >> 48} slots, offset {offset}"
    if kind == 1:
        code, count = word >> 32 & 7, word >> 35
        what = f"structs in {count} words" if code == 7 else f"{count} {KINDS[code]}"
        return f"list of {what}, offset {offset}"
    if kind == 2:
        name = "double far" if word & 4 else "far"
        return f"{name} to segment {word >> 32} word {word >> 3 & 0x1FFFFFFF}"
    return "reserved" if word & 0xFFFFFFFC else f"capability {word >> 32}"


def tag_of(word):
    """Returns a text that describes a word as the tag word of a list of structs."""
    if word & 3:
        return decoded(word)
    return f"tag of {(word & 0xFFFFFFFF) >> 2} structs of {word >> 32 & 0xFFFF} words and {word >> 48} slots"


def dotted(way):
    return ".".join(map(str, way)) if way else "root"


class Explanation(model.Walk):
    """A traversal of a message. It remembers the path to the current pointer, and the object that contains this
    pointer."""

    def __init__(self, segments, limits, begin, table):
        self.begin, self.table, self.limits = begin, table, limits
        self.way, self.holder, self.refused, self.asked = [], None, None, None
        self.capability_way = None
        # `within` describes the object whose pointers are read next: the path to this object, the place of its first
        # pointer, and a text about the object. `shape` has the path to the current object. For a list of structs,
        # `shape` also has the place of its first struct.
        self.within = self.shape = None
        try:
            super().__init__(segments, **limits)
        except model.Refused as refused:
            self.refused = str(refused)

    def byte(self, segment, at):
        """Returns the byte offset of a word."""
        return self.begin + 8 * (self.table + sum(map(self.words, range(segment))) + at)

    def slot(self, segment, at, depth, is_root=False):
        within = self.within
        if not is_root:
            way, first, self.holder = within
            self.way = way + [at - first]
        self.visited = (segment, at)
        way, before = self.way, self.capability
        value = super().slot(segment, at, depth, is_root)
        if value[0] == "capability" and before is None:
            self.capability_way = way
        self.within = within
        return value

    def content(self, place, segment, begin, word, pads, depth):
        self.found = (segment, begin, word, pads)
        if word & 1 and word >> 32 & 7 == 6:
            text = f"list of {word >> 35} pointers at byte {self.byte(segment, begin)}"
            self.within = (self.way, begin, text)
        self.shape = (self.way, begin + 1 if word & 1 else None)
        return super().content(place, segment, begin, word, pads, depth)

    def body(self, segment, begin, data, slots, depth):
        shape, byte = self.shape, self.byte(segment, begin)
        way, first = shape
        text = f"struct of {data} words and {slots} slots at byte {byte}"
        if first is not None and data + slots:
            row = (begin - first) // (data + slots)
            way = way + [row]
            rows = (self.word(segment, first - 1) & 0xFFFFFFFF) >> 2
            text = f"row {row} of {rows} at byte {byte}"
        self.within = (way, begin + data, text)
        value = super().body(segment, begin, data, slots, depth)
        self.shape = shape
        return value

    def word_line(self, key, segment, at, text_of=decoded):
        word = self.word(segment, at)
        text = self.segments[segment][8 * at:8 * at + 8].hex()
        return f"{key}: byte {self.byte(segment, at)}, segment {segment} word {at}: {text}: {text_of(word)}\n"

    def reach(self, segment, begin, end):
        return f"content: words {begin} to {end} of segment {segment}, which has {self.words(segment)}\n"

    def slot_lines(self):
        """Returns the lines of `explain` about the pointer at which the traversal failed."""
        fault = self.refused.split(" ")[0]
        segment, at = self.visited
        word = self.word(segment, at)
        out = [f"way: {dotted(self.way)}\n", self.word_line("slot", segment, at)]
        if self.holder:
            out.append(f"in: {self.holder}\n")
        if word & 3 == 2 and word >> 32 < len(self.segments):
            pad, there = word >> 3 & 0x1FFFFFFF, word >> 32
            size = 2 if word & 4 else 1
            if pad + size <= self.words(there):
                out += [self.word_line("pad", there, pad + i) for i in range(size)]
            else:
                out.append(self.reach(there, pad, pad + size))
        if fault in ("Range", "BadTag", "TagOverrun", "TooDeep", "OverBudget"):
            out += self.content_lines(fault)
        if fault == "NoSegment":
            out.append(f"limit: {len(self.segments)} segments\n")
        return out

    def content_lines(self, fault):
        segment, begin, word, pads = self.found
        is_rows, count = word & 1 and word >> 32 & 7 == 7, word >> 35
        size = (word >> 32 & 0xFFFF) + (word >> 48)
        if word & 1:
            code = word >> 32 & 7
            size = count + 1 if code == 7 else count if code == 6 else -(-count * model.WIDTH_BITS[code] // 64)
        price = self.base + size + pads + (count if word & 1 and word >> 32 & 7 == 0 else 0)
        out = []
        if is_rows and fault != "Range":
            tag = self.word(segment, begin)
            rows, row = (tag & 0xFFFFFFFF) >> 2, (tag >> 32 & 0xFFFF) + (tag >> 48)
            price += 0 if row else rows
            out.append(self.word_line("tag", segment, begin, tag_of))
        if fault in ("Range", "TagOverrun"):
            out.append(self.reach(segment, begin, begin + size))
        if fault == "TagOverrun":
            out.append(f"rows: {rows} of {row} words each: {rows * row} of the list's {count}\n")
        if fault == "TooDeep":
            out.append(f"limit: --depth {self.most_depth}\n")
        if fault == "OverBudget":
            out.append(f"limit: asks for {price} of {self.budget - self.paid} left, --budget {self.budget}\n")
        return out


def segments_line(segments):
    """Returns the line of `explain` about the segments of a message."""
    return sizes_line([len(segment) // 8 for segment in segments])


def sizes_line(sizes):
    """Returns the line of `explain` about segments with the given sizes. If there are several segments, the line lists
    at most eight sizes."""
    first = ", ".join(map(str, sizes[:8])) + (", .." if len(sizes) > 8 else "")
    return f"segments: {len(sizes)} of {sum(sizes)} words{': ' + first if len(sizes) > 1 else ''}\n"


class Owner(Explanation):
    """Traverses canonical bytes, and finds the object to which a word belongs. Names this object by the path to its
    pointer."""

    def __init__(self, segment, word, walk):
        self.sought, self.owner = word, None
        super().__init__([segment], {**walk.limits, "budget": 1 << 64}, 0, 0)

    def is_found(self, what):
        self.owner = self.owner or f"{what} {dotted(self.way)}"

    def slot(self, segment, at, depth, is_root=False):
        self.way = [] if is_root else self.within[0] + [at - self.within[1]]
        if at == self.sought:
            self.is_found("the pointer at")
        return super().slot(segment, at, depth, is_root)

    def content(self, place, segment, begin, word, pads, depth):
        code, count = word >> 32 & 7, word >> 35
        if word & 1 and code == 7 and begin == self.sought:
            self.is_found("the tag of")
        if word & 1 and 1 <= code <= 4 and begin + -(-count * model.WIDTH_BITS[code] // 64) - 1 == self.sought:
            self.is_found("the last word of")
        return super().content(place, segment, begin, word, pads, depth)


def difference(walk, segment, canonical):
    """Returns a text about the first word that differs between a segment and the canonical bytes. The text says which
    object the word is part of."""
    at = next(i for i in range(0, len(segment), 8) if segment[i:i + 8] != canonical[i:i + 8])
    word, other = segment[at:at + 8], canonical[at:at + 8]
    line = f"at byte {walk.byte(0, at // 8)}: {word.hex()}"
    if not other:
        return f"{line}, canonical nothing, after the value"
    owner = Owner(canonical, at // 8, walk).owner
    if owner.startswith("the pointer"):
        says = [f" ({decoded(int.from_bytes(it, 'little'))})" for it in (word, other)]
    else:
        says = ["", ""]
    return f"{line}{says[0]}, canonical {other.hex()}{says[1]}, {owner}"


def accepted_lines(walk, segments):
    """Returns the lines of `explain` for a valid message, without the lines about its number, offset and segments."""
    out = [f"accepted: paid {walk.paid} visits {walk.visits} depth {walk.height}\n"]
    canonical = model.canonical(walk.value) if walk.capability is None else None
    if len(segments) == 1 and canonical == segments[0]:
        return out + ["canonical: yes\n"]
    if len(segments) > 1:
        out.append(f"canonical: no: {len(segments)} segments\n")
    elif canonical is None:
        out.append(f"canonical: no: capability {walk.capability} at {dotted(walk.capability_way)}\n")
    else:
        out.append(f"canonical: no: {difference(walk, segments[0], canonical)}\n")
    size = sum(map(len, segments))
    if canonical is not None and len(canonical) != size:
        out.append(f"lengths: {size} bytes, canonical {len(canonical)}\n")
    return out


def came(data, form, offset):
    """Takes an input with a message that was rejected before its traversal. Returns the unpacked bytes from the
    beginning of this message on. Also returns the bytes of a truncated group."""
    if form != "packed":
        return data[offset:], b""
    words, group = model.unpacked(data)
    return words[offset:], b"" if group is None else data[group:]


def table_lines(rest):
    """Returns the line about the segments, if the segment table is complete and doesn't announce too many segments.
    Otherwise returns no line."""
    count = model.number(rest, 0, 4) + 1
    if count > model.MOST_SEGMENTS or len(rest) < 4 + 4 * count:
        return []
    return [sizes_line([model.number(rest, 4 + 4 * at, 4) for at in range(count)])]


def least(rest):
    """Returns the size in bytes that a message has according to its segment table. If the table is truncated, its
    missing bytes count as zeros."""
    count = model.number(rest, 0, 4) + 1
    sizes = [model.number(rest[:4 + 4 * count], at, 4) for at in range(4, len(rest), 4)]
    return 8 * (1 + count // 2) + 8 * sum(sizes)


def needed(group):
    """Returns how many bytes a group of packed bytes must have. The first byte, the tag, announces more bytes. After
    the tags 0 and 255, the group also has a count. After the tag 255, the count says how many words follow."""
    size = 1 + bin(group[0]).count("1")
    if group[0] not in (0, 255):
        return size
    return size + 1 + (8 * group[9] if group[0] == 255 and len(group) > 9 else 0)


def fault_lines(fault, message_words, rest, group):
    """Returns the lines of `explain` for a message that was rejected before its traversal. `rest` has the bytes of the
    message, and `group` has the bytes of a truncated group."""
    text, index, offset = fault
    out = [f"message: {index} at {offset}\n"]
    if not text.startswith("bare: "):
        out += table_lines(rest)
    out.append(f"refused: {text}\n")
    for name, size in [("bare: NotWhole(", 1), ("bare: TooLong(", 8)]:
        if text.startswith(name):
            out.append(f"there: {size * int(text[len(name):-1])} bytes\n")
    for name, most in [("frame: TooManySegments(", model.MOST_SEGMENTS), ("frame: TooManyWords(", message_words)]:
        if text.startswith(name):
            out.append(f"announced: {text[len(name):-1]}, at most {most}\n")
    if text == "frame: Cut":
        out.append(f"there: {len(rest)} bytes of at least {least(rest)}\n")
    if text.startswith("packed: Cut at "):
        at = text.removeprefix("packed: Cut at ")
        out.append(f"group: byte {at} of the packed input, tag {group[0]:02x}: needs {needed(group)} bytes, "
                   f"{len(group)} came\n")
    return out


def walked(message, form, limits):
    """Returns the traversal of a message, and the lines that describe the segments and the error. A valid message has
    no lines about an error."""
    offset, _frame, segments = message
    walk = Explanation(segments, limits, offset, 0 if form == "bare" else len(segments) // 2 + 1)
    lines = [segments_line(segments)]
    if walk.refused:
        lines.append(f"refused: {walk.refused}\n")
        lines += walk.slot_lines() if segments[0] else []
    return walk, lines


def explain(data, form="stream", message_words=8388608, wanted=None, **limits):
    """Returns the output of `explain`, the line on standard error, and the exit status. The output is about the message
    with the number `wanted`. If `wanted` is None, the output is about the first rejected message. `limits` are the
    limits of the traversal."""
    found, fault = model.messages(data, form, message_words)
    for index, message in enumerate(found, 1):
        if wanted not in (None, index):
            continue
        offset, _frame, segments = message
        walk, lines = walked(message, form, limits)
        head = [f"message: {index} at {offset}\n", *lines]
        if walk.refused:
            return written(head), model.line_of((walk.refused, index, offset)), 1
        if wanted or fault is None and len(found) == 1:
            return written(head + accepted_lines(walk, segments)), "", 0
    if fault is not None:
        lines = fault_lines(fault, message_words, *came(data, form, fault[2]))
        return written(lines), model.line_of(fault), 1
    return written([f"{len(found)} messages{'' if wanted else ', none refused'}\n"]), "", 0


def explain_refused(data, form="stream", message_words=8388608, **limits):
    """Returns the output of `explain --keep-going`, the line on standard error, and the exit status. The output
    explains every rejected message, and has an empty line after each explanation."""
    found, fault = model.messages(data, form, message_words)
    out, passed = [], []
    for index, message in enumerate(found, 1):
        walk, lines = walked(message, form, limits)
        if walk.refused:
            out += [f"message: {index} at {message[0]}\n", *lines, "\n"]
            passed.append((index, message[0]))
    line = model.passed_line(passed, len(found))
    if fault is not None:
        out += [*fault_lines(fault, message_words, *came(data, form, fault[2])), "\n"]
        return written(out), line + model.line_of(fault), 1
    if passed:
        return written(out), line, 1
    return explain(data, form, message_words, **limits)


def run_explain(data, number=None, keep_going=False, **options):
    return explain_refused(data, **options) if keep_going else explain(data, wanted=number, **options)


def written(lines):
    return "".join(lines).encode()
