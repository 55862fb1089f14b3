"""Tests the lines of messages. The lines of hand-written messages are compared with known lines. The lines of generated
messages are compared with those that the Python model of `capn annotate` makes."""
import copy
import pickle
import random
import re
import unittest
from importlib.machinery import SourceFileLoader
from importlib.util import module_from_spec, spec_from_loader

import capn
from capn import LineKind
from test_reading import PROGRAM, model

spec = spec_from_loader("annotations", SourceFileLoader("annotations", str(PROGRAM / "annotations")))
annotations = module_from_spec(spec)
spec.loader.exec_module(annotations)
annotated = annotations.annotated
TRIED = 1_000
ROOT = (0, 0)


def line(offset, place, kind, slot, words=1, times=1, cut=0, not_zero=None, overlap=False, padding=False):
    """Returns a line. Unless the arguments say otherwise, it has one word, which isn't zero."""
    not_zero = words if not_zero is None else not_zero
    return capn.Line(offset, place, words, times, slot, cut, not_zero, LineKind[kind], overlap, padding)


# For each hand-written message: its bytes in hexadecimal, its form, and its lines.
MESSAGES = [
    # A message with a text.
    ("0000000004000000" "0000000001000100" "0500000000000000" "010000001a000000" "6162000000000000", "stream",
     [line(8, ROOT, "POINTER", None), line(16, (0, 1), "DATA", ROOT), line(24, (0, 2), "POINTER", ROOT),
      line(32, (0, 3), "LIST", (0, 2))]),
    # The writer of this message has set a text twice. The message still has the word of the first text, but no pointer
    # leads to it.
    ("0000000000000100" "0500000032000000" "4164610000000000" "4772616365000000", "bare",
     [line(0, ROOT, "POINTER", None), line(8, (0, 1), "POINTER", ROOT),
      line(16, (0, 2), "UNREACHED", None, times=0), line(24, (0, 3), "LIST", (0, 1))]),
    # A landing pad, a text that two pointers share, and a word and a pointer that canonical bytes leave out.
    ("1101010106110201500103000011091a11051a0000036869", "packed",
     [line(16, ROOT, "POINTER", None), line(24, (1, 0), "PAD", ROOT),
      line(32, (1, 1), "DATA", ROOT, cut=1, not_zero=0), line(40, (1, 2), "POINTER", ROOT),
      line(48, (1, 3), "POINTER", ROOT), line(56, (1, 4), "NULL", ROOT, cut=1, not_zero=0),
      line(64, (1, 5), "LIST", (1, 2), times=2)]),
    # A list of two structs. The list has one more word behind the structs. A list of u32 overlaps the second struct.
    ("0000000000000200" "050000001f000000" "0900000014000000" "0800000001000000" "0700000000000000" "0900000000000000"
     "ffffffffffffffff", "bare",
     [line(0, ROOT, "POINTER", None), line(8, (0, 1), "POINTER", ROOT), line(16, (0, 2), "POINTER", ROOT),
      line(24, (0, 3), "TAG", (0, 1)), line(32, (0, 4), "DATA", (0, 1)),
      line(40, (0, 5), "DATA", (0, 1), times=2, overlap=True), line(48, (0, 6), "SLACK", (0, 1))]),
    # A list of 17 bytes. The padding after these bytes isn't all zero.
    ("010000008a000000" "6161616161616161" "0000000000000000" "6100000000000009", "bare",
     [line(0, ROOT, "POINTER", None), line(8, (0, 1), "LIST", ROOT, words=3, not_zero=2, padding=True)]),
    ("0000000000000000", "bare", [line(0, ROOT, "NULL", None, not_zero=0)]),
    # A message with a capability has lines, though it has no canonical bytes.
    ("0000000000000100" "0300000007000000", "bare",
     [line(0, ROOT, "POINTER", None), line(8, (0, 1), "POINTER", ROOT)]),
]


class Slots(annotated.Cover):
    """A `Cover` that also has a dictionary `slots`. For the number of each visit, `slots` has the place of the pointer
    that the visit follows."""

    def __init__(self, segments):
        self.slots = {}
        super().__init__(segments)

    def visit(self, segment, at, way):
        self.slots[self.visits + 1] = segment, at
        super().visit(segment, at, way)


def wanted(segments, begin):
    """Returns the lines that `capn.annotate` has to return for a valid message. They are computed from the lines of the
    Python model. `begin` is the offset of the first segment."""
    cover, found = Slots(segments), []
    for one in annotated.Notes(segments, begin).lines:
        place = re.fullmatch(r"(\d+):(\d+)(?:-(\d+))?", one.place)
        segment, word = int(place[1]), int(place[2])
        words = int(place[3] or word) - word + 1
        first = cover.starts[segment] + word
        cut = re.search(r", (\d+) cut(?:, overlap)?$", one.text)
        found.append(capn.Line(
            one.offset, (segment, word), words, one.times, cover.slots.get(cover.belongs[first]),
            int(cut[1]) if cut else 0, sum(number != 0 for number in cover.segments[segment][word:word + words]),
            LineKind[one.kind.upper()], one.text.endswith(", overlap"),
            one.kind == "list" and " not zero" in re.sub(r'".*"', "", one.text)))
    return found


class Annotated(unittest.TestCase):
    def test_known_lines(self):
        for digits, form, lines in MESSAGES:
            data = bytes.fromhex(digits)
            self.assertEqual(capn.annotate(data, form), lines)
            for given, in_place in (bytearray(data), False), (bytearray(data), True), (memoryview(data), False):
                self.assertEqual(capn.annotate(given, form, in_place=in_place), lines)
            self.assertEqual(capn.annotate(capn.read(data, form)), lines)

    def test_lines_are_tuples(self):
        [line] = capn.annotate(bytes(8), "bare")
        self.assertEqual(line, (0, (0, 0), 1, 1, None, 0, 0, LineKind.NULL, False, False))
        self.assertEqual((int(line.kind), line.kind.name.lower()), (1, "null"))
        for other in copy.deepcopy(line), pickle.loads(pickle.dumps(line)):
            self.assertEqual((other, type(other), type(other.kind)), (line, capn.Line, LineKind))
        self.assertEqual([kind.name.lower() for kind in LineKind], annotated.KINDS)

    def test_many_lines(self):
        # The message is a struct of many pointers. Each pointer refers to an empty struct. Each word of the message has
        # a line of its own.
        count = 5_000
        data = (count << 48).to_bytes(8, "little") + (0xFFFFFFFC).to_bytes(8, "little") * count
        lines = capn.annotate(data, "bare")
        self.assertEqual([(one.offset, one.kind) for one in lines],
                         [(8 * at, LineKind.POINTER) for at in range(count + 1)])

    def test_refused(self):
        for data, form, text in (
            (bytes(4) + b"\1" + bytes(3), "bare", "Range at 0:0, paid 0, visits 1"),
            (bytes(4), "stream", "frame: Cut"), (b"", "stream", "frame: Empty"),
            (b"\1", "packed", "packed: Cut at 0"), (bytes(9), "bare", "bare: NotWhole(9)"),
        ):
            with self.assertRaises(capn.Refusal) as caught:
                capn.annotate(data, form)
            self.assertEqual(str(caught.exception), text)
        with self.assertRaises(capn.Refusal) as caught:
            deep = bytes.fromhex("0000000000000100" "0000000001000000" "0500000000000000")
            capn.annotate(deep, "bare", capn.Limits(depth=1))
        self.assertEqual((caught.exception.name, caught.exception.way), ("TooDeep", (0,)))
        self.assertRaises(ValueError, capn.annotate, bytes(8), "other")
        self.assertRaises(TypeError, capn.annotate, "text", "bare")

    def test_generated_messages(self):
        source, accepted, kinds = random.Random(102), 0, set()
        for _ in range(TRIED):
            table, segments = annotations.message_of(source)
            form = source.choice(["stream", "packed", "bare"])
            data = table + b"".join(segments)
            if form == "bare":
                table, segments, data = b"", segments[:1], segments[0]
            limits = capn.Limits(budget=annotations.BUDGET)
            given = model.packed(data) if form == "packed" else data
            try:
                model.Walk(segments, budget=annotations.BUDGET)
            except model.Refused as refused:
                with self.assertRaises(capn.Refusal) as caught:
                    capn.annotate(given, form, limits)
                self.assertEqual(str(caught.exception), str(refused))
                continue
            lines = capn.annotate(given, form, limits)
            self.assertEqual(lines, wanted(segments, len(table)), data.hex())
            accepted += 1
            kinds.update((one.kind, one.overlap, one.padding, one.cut > 0, one.times > 1) for one in lines)
        # At least a third of the messages are accepted. Each kind of line occurs in at least one of them, and so does
        # each property of a line.
        self.assertGreater(accepted, TRIED // 3)
        self.assertEqual({kind for kind, *_ in kinds}, set(LineKind))
        for at in range(1, 5):
            self.assertIn(True, {one[at] for one in kinds})


if __name__ == "__main__":
    unittest.main()
