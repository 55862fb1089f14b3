#!/usr/bin/env python3
"""A second implementation of the command `annotate`, in Python. It was written from the definition of the lines that
`annotate` prints. The module `model` has the other commands.

    tests/program/annotated.py [OPTION..] < INPUT

This writes the output to standard output and standard error, and ends with the status. The options are those of the
command: `--form`, `--message-words`, `--budget`, `--depth`, `--tariff` and `--summary`. The script `annotations` tests
this module, and compares the program with it.
"""

import argparse
import collections
import struct
import sys

import explained
import model

KINDS = ["pointer", "null", "pad", "tag", "data", "list", "slack", "unreached"]
# A line quotes at most this many bytes of a list.
QUOTED = 32
# A line has one word if its kind is in ALONE. Any other line goes on as long as its words have the same kind, belong to
# the same visit and are covered equally often.
ALONE = ("pointer", "pad", "tag")

# A part of a message: an object or a landing pad. `way` is the path to its pointer. `segment` and `begin` say where its
# first word is. `shape` is ("struct", words, slots), ("list", code, count), ("pad", words) for a landing pad, or
# ("rows", words of the list, structs, words, slots) for a list of structs. Two parts count as the same if they differ
# only in `way`.
Part = collections.namedtuple("Part", "way segment begin shape")
MESSAGE = Part((), None, None, ("message",))

# The columns of a line of `annotate`.
Line = collections.namedtuple("Line", "offset place bytes times kind way text")


class Cover:
    """Finds which objects and landing pads cover the words of an accepted message. For each word, `times` says how
    often it is covered. `parts` has the object or landing pad that covers the word first, and `roles` has the role of
    the word in this object or landing pad. `overlaps` says whether another object or landing pad covers the word,
    too."""

    def __init__(self, segments):
        self.segments = [struct.unpack(f"<{len(one) // 8}Q", one) for one in segments]
        self.starts = [sum(map(len, self.segments[:i])) for i in range(len(segments))]
        total = sum(map(len, self.segments))
        self.times, self.parts, self.roles = [0] * total, [None] * total, [None] * total
        self.overlaps, self.visits = [False] * total, 0
        # For each word, the number of the visit that covered the word first. A visit follows one pointer. The word of
        # the root pointer has the number 0.
        self.belongs = [None] * total
        self.cover(MESSAGE, 0, 0, 0, 1, "slot")
        self.visit(0, 0, ())

    def cover(self, part, visit, segment, begin, size, role):
        first = self.starts[segment] + begin
        for at in range(first, first + size):
            if self.times[at] == 0:
                self.parts[at], self.roles[at], self.belongs[at] = part, role, visit
            elif self.parts[at][1:] != part[1:]:
                self.overlaps[at] = True
            self.times[at] += 1

    def visit(self, segment, at, way):
        self.visits += 1
        visit, word = self.visits, self.segments[segment][at]
        if word == 0 or word & 3 == 3:
            return
        if word & 3 == 2:
            segment, at = word >> 32, word >> 3 & 0x1FFFFFFF
            is_double = word >> 2 & 1
            pad = self.segments[segment][at]
            self.cover(Part(way, segment, at, ("pad", 1 + is_double)), visit, segment, at, 1 + is_double, "pad")
            word = self.segments[segment][at + is_double]
            segment, begin = (pad >> 32, pad >> 3 & 0x1FFFFFFF) if is_double else (segment, model.start(pad, at))
        else:
            begin = model.start(word, at)
        self.content(visit, segment, begin, word, way)

    def content(self, visit, segment, begin, word, way):
        code, count = word >> 32 & 7, word >> 35
        if not word & 1:
            data, slots = word >> 32 & 0xFFFF, word >> 48
            self.body(Part(way, segment, begin, ("struct", data, slots)), visit, begin, data, slots, way)
        elif code == 7:
            tag = self.segments[segment][begin]
            rows, data, slots = (tag & 0xFFFFFFFF) >> 2, tag >> 32 & 0xFFFF, tag >> 48
            size = data + slots
            part = Part(way, segment, begin, ("rows", count, rows, data, slots))
            self.cover(part, visit, segment, begin, 1, "tag")
            # The words of all structs of the list are covered before any pointer in these structs is followed. Pointers
            # are followed in preorder.
            for i in range(rows if size else 0):
                self.cells(part, visit, begin + 1 + i * size, data, slots)
            self.cover(part, visit, segment, begin + 1 + rows * size, count - rows * size, "slack")
            for i in range(rows if slots else 0):
                for j in range(slots):
                    self.visit(segment, begin + 1 + i * size + data + j, way + (i, j))
        elif code == 6:
            part = Part(way, segment, begin, ("list", code, count))
            self.cover(part, visit, segment, begin, count, "slot")
            for i in range(count):
                self.visit(segment, begin + i, way + (i,))
        else:
            size = -(-count * model.WIDTH_BITS[code] // 64)
            self.cover(Part(way, segment, begin, ("list", code, count)), visit, segment, begin, size, "list")

    def cells(self, part, visit, begin, data, slots):
        self.cover(part, visit, part.segment, begin, data, "data")
        self.cover(part, visit, part.segment, begin + data, slots, "slot")

    def body(self, part, visit, begin, data, slots, way):
        self.cells(part, visit, begin, data, slots)
        for i in range(slots):
            self.visit(part.segment, begin + data + i, way + (i,))

    def word(self, part, at):
        return self.segments[part.segment][part.begin + at]

    def kept(self, part):
        """Canonical bytes leave out zeros at the end of a struct. Returns how many data words and how many slots
        remain. These two numbers are the same for all structs of a list."""
        if part.shape[0] == "struct":
            rows, data, slots, first = 1, *part.shape[1:], 0
        else:
            rows, data, slots, first = *part.shape[2:], 1
        size = data + slots
        rows = rows if size else 0
        words = next((n for n in range(data, 0, -1)
                      if any(self.word(part, first + i * size + n - 1) for i in range(rows))), 0)
        links = next((n for n in range(slots, 0, -1)
                      if any(self.word(part, first + i * size + data + n - 1) for i in range(rows))), 0)
        return words, links

    def place_in(self, part, segment, at):
        """Returns two numbers for a word of a struct: the number of the struct in its list, and the index of the word
        in the struct. A struct outside of a list has the number 0."""
        if part.shape[0] == "struct":
            return 0, at - part.begin
        size = sum(part.shape[3:])
        return divmod(at - part.begin - 1, size)


class Notes:
    """The lines of `annotate` for an accepted message. `begin` is the offset of the first segment."""

    def __init__(self, segments, begin):
        self.cover, self.begin = Cover(segments), begin
        self.raw = b"".join(segments)
        self.counts = dict.fromkeys([*KINDS, "shared", "overlap", "hidden", "cut"], 0)
        self.keeps = {}
        self.lines = []
        for segment, words in enumerate(self.cover.segments):
            at = 0
            while at < len(words):
                end = self.end(segment, at)
                self.lines.append(self.line(segment, at, end))
                at = end

    def kind(self, number):
        role = self.cover.roles[number]
        if role == "slot":
            return "pointer" if self.value(number) else "null"
        return role or "unreached"

    def value(self, number):
        return model.number(self.raw, 8 * number, 8)

    def same(self, number):
        """Returns the properties of a word. All words of a line have the same properties."""
        return self.kind(number), self.cover.belongs[number], self.cover.times[number]

    def end(self, segment, at):
        first, size = self.cover.starts[segment], len(self.cover.segments[segment])
        same, end = self.same(first + at), at + 1
        while same[0] not in ALONE and end < size and self.same(first + end) == same:
            end += 1
        return end

    def is_cut(self, segment, at):
        number = self.cover.starts[segment] + at
        part = self.cover.parts[number]
        if part is None or part.shape[0] not in ("struct", "rows") or self.cover.roles[number] not in ("data", "slot"):
            return False
        key = part[1:]
        if key not in self.keeps:
            self.keeps[key] = self.cover.kept(part)
        words, links = self.keeps[key]
        data = part.shape[-2]
        inside = self.cover.place_in(part, segment, at)[1]
        return inside >= words if inside < data else inside - data >= links

    def way(self, segment, at):
        """Returns the path of a word. A slot has its own path. Any other word has the path of its struct or list."""
        number = self.cover.starts[segment] + at
        part, role = self.cover.parts[number], self.cover.roles[number]
        if part is None:
            return None
        if part.shape[0] == "list" and role == "slot":
            return part.way + (at - part.begin,)
        if part.shape[0] in ("struct", "rows") and role in ("data", "slot"):
            row, inside = self.cover.place_in(part, segment, at)
            way = part.way if part.shape[0] == "struct" else part.way + (row,)
            return way if role == "data" else way + (inside - part.shape[-2],)
        return part.way

    def line(self, segment, at, end):
        number, size = self.cover.starts[segment] + at, end - at
        kind, times = self.kind(number), self.cover.times[number]
        cut = sum(self.is_cut(segment, word) for word in range(at, end))
        is_overlap = self.cover.overlaps[number]
        text, hidden = self.text(segment, at, end, kind)
        if cut:
            text += f", {cut} cut"
        if is_overlap:
            text += ", overlap"
        self.counts[kind] += size
        self.counts["cut"] += cut
        self.counts["shared"] += size if times > 1 else 0
        self.counts["overlap"] += sum(self.cover.overlaps[number:number + size])
        self.counts["hidden"] += hidden
        place = f"{segment}:{at}" if size == 1 else f"{segment}:{at}-{end - 1}"
        first = self.raw[8 * number:8 * number + 8].hex() + (".." if size > 1 else "")
        way = self.way(segment, at)
        return Line(self.begin + 8 * number, place, first, times, kind,
                    "" if way is None else explained.dotted(way), text)

    def text(self, segment, at, end, kind):
        """Returns the text of a line, and the number to add to the count `hidden`. The text lacks the ending about
        overlaps, and the ending about words that canonical bytes leave out."""
        number, size = self.cover.starts[segment] + at, end - at
        word, part = self.value(number), self.cover.parts[number]
        if kind == "null":
            return f"{size} slots", 0
        if kind == "data":
            return f"{size} words", 0
        if kind == "tag":
            return explained.tag_of(word), 0
        if kind == "pointer" or kind == "pad" and part.shape[1] == 1:
            to = f", to {segment}:{model.start(word, at)}" if word & 3 < 2 else ""
            return explained.decoded(word) + to, 0
        if kind == "pad":
            return explained.decoded(word), 0
        if kind == "list":
            return self.listed(part, at, end)
        not_zero = sum(1 for one in range(number, number + size) if self.value(one))
        return f"{size} words, {f'{not_zero} not zero' if not_zero else 'zero'}", not_zero

    def listed(self, part, at, end):
        """Returns the text of a line about a list without pointers, and whether this list has padding that isn't
        zero."""
        code, count = part.shape[1:]
        width = model.WIDTH_BITS[code]
        text = f"{count} {explained.KINDS[code]}"
        begin = 8 * (self.cover.starts[part.segment] + part.begin)
        if code == 2:
            first, after = 8 * (at - part.begin), min(8 * (end - part.begin), count)
            items = self.raw[begin + first:begin + min(after, first + QUOTED)]
            has_last = first + len(items) == count
            if all(0x20 <= item <= 0x7E or has_last and i == len(items) - 1 and item == 0
                   for i, item in enumerate(items)):
                escapes = {ord('"'): '\\"', ord("\\"): "\\\\", 0: "\\0"}
                text += ' "' + "".join(escapes.get(item, chr(item)) for item in items) + '"'
                text += ".." if after - first > len(items) else ""
        size = -(-count * width // 64)
        padding = 64 * size - count * width
        if not padding or end != part.begin + size:
            return text, 0
        last = model.number(self.raw, begin + 8 * (size - 1), 8)
        text += f", padding {padding} bits" if code == 1 else f", padding {padding // 8} bytes"
        is_hidden = last >> 64 - padding != 0
        return text + (" not zero" if is_hidden else ""), int(is_hidden)


def table_line(frame, offset, segments):
    """Returns the line of a message's segment table."""
    size = 8 * (len(segments) // 2 + 1)
    text = explained.segments_line(segments).removeprefix("segments: ").removesuffix("\n")
    if any(frame[4 + 4 * len(segments):size]):
        text += ", padding not zero"
    return Line(offset, "-", frame[:8].hex() + (".." if size > 8 else ""), 1, "table", "", text)


def annotation(walk, segments, index, offset, frame):
    """Returns the lines of an accepted message, and the three columns of the last line."""
    end = offset + len(frame)
    notes = Notes(segments, end - sum(map(len, segments)))
    head = [table_line(frame, offset, segments)] if len(frame) > sum(map(len, segments)) else []
    counts = " ".join(f"{key} {count}" for key, count in notes.counts.items())
    own = "-" if walk.capability is not None else len(model.canonical(walk.value)) // 8
    words = sum(map(len, segments)) // 8
    last = (end, "end", f"{index} at {offset} words {words} {counts} canonical {own}")
    return head + notes.lines, last


def written(line):
    return "\t".join(map(str, line)) + "\n"


def run_annotate(data, summary=False, **options):
    index = 0

    def text_of(walk, segments, offset, frame):
        nonlocal index
        index += 1
        lines, last = annotation(walk, segments, index, offset, frame)
        return last[2] + "\n" if summary else "".join(map(written, [*lines, last]))

    return model.each(data, text_of, **options)


def main():
    parser = argparse.ArgumentParser()
    parser.add_argument("--form", choices=["stream", "packed", "bare"], default="stream")
    parser.add_argument("--tariff", choices=["strict", "plain"], default="strict")
    parser.add_argument("--summary", action="store_true")
    for name in ("--message-words", "--budget", "--depth"):
        parser.add_argument(name, type=int)
    options = {name: value for name, value in vars(parser.parse_args()).items() if value is not None}
    wrote, told, ended = run_annotate(sys.stdin.buffer.read(), **options)
    sys.stdout.buffer.write(wrote)
    sys.stderr.write(told)
    return ended


if __name__ == "__main__":
    sys.exit(main())
