"""Tests the objects of a message: values, texts, fields with their defaults, paths, and a message that is closed."""
import array
import copy
import itertools
import math
import mmap
import pickle
import random
import shutil
import struct
import subprocess
import time
import unittest
from pathlib import Path

import capn
from messages import bare, far, stream, trimmed, values
from test_reading import model
from tried import given, settings, some

SCHEMA = Path(__file__).resolve().with_name("fields.capnp")
settings.register_profile("here", deadline=None, max_examples=100, derandomize=True)
settings.load_profile("here")


def of(value):
    """Encodes a value of the module `messages`, and returns the root object of the message."""
    return capn.read(bare(value), "bare").root


def text(written):
    """Returns a text as a value of the module `messages`."""
    return "list", 2, len(written) + 1, written.encode() + bytes(8 - len(written) % 8)


def capability(number):
    """Makes a message whose root struct has one pointer, a capability with the index `number`. Returns this
    capability."""
    return capn.read(struct.pack("<2Q", 1 << 48, 3 | number << 32), "bare").root.slots[0]


class Equality(unittest.TestCase):
    @given(values())
    def test_each_layout_of_a_value_is_equal(self, value):
        messages = [bare(value), bare(value, backwards=True), bare(trimmed(value))]
        roots = [capn.read(one, "bare").root for one in messages]
        roots += [capn.read(stream(one)).root for one in messages]
        if value:
            roots.append(capn.read(far(messages[0])).root)
        for one, other in itertools.product(roots, roots):
            self.assertTrue(one == other)
            self.assertFalse(one != other)

    @given(values(), values())
    def test_it_is_that_of_the_canonical_bytes(self, one, other):
        self.assertEqual(of(one) == of(other), bare(trimmed(one)) == bare(trimmed(other)))
        self.assertEqual(capn.read(stream(bare(one))) == capn.read(bare(other), "bare"), of(one) == of(other))

    def test_neighbours_differ(self):
        source = random.Random(65)
        for _ in range(300):
            words = [0, *(source.getrandbits(64) for _ in range(3))]
            words[0] = 1 | source.choice([2, 3, 4, 5]) << 32 | 2 << 35
            one = struct.pack("<4Q", *words)
            try:
                root = capn.read(one, "bare").root
            except capn.Refusal:
                continue
            for bit in range(64, 64 + 16):
                changed = bytearray(one)
                changed[bit // 8] ^= 1 << bit % 8
                other = capn.read(changed, "bare").root
                same = capn.canonical(one, "bare") == capn.canonical(changed, "bare")
                self.assertEqual(root == other, same)

    def test_bits(self):
        for count in 1, 7, 8, 9, 16, 17:
            word = 0x5555_5555_5555_5555
            one = capn.read(struct.pack("<2Q", 1 | 1 << 32 | count << 35, word), "bare").root
            for bit in range(24):
                other = capn.read(struct.pack("<2Q", 1 | 1 << 32 | count << 35, word ^ 1 << bit), "bare").root
                self.assertEqual(one == other, bit >= count)
            self.assertEqual(one, [bool(i % 2 == 0) for i in range(count)])

    def test_capabilities(self):
        one, same, other = map(capability, (0, 0, 1))
        self.assertEqual(one, same)
        self.assertNotEqual(one, other)
        self.assertNotEqual(one, of(None))

    def test_what_the_review_tried(self):
        bits, numbers = ("list", 1, 3, bytes([5]) + bytes(7)), ("list", 3, 2, bytes([1, 0, 2]) + bytes(5))
        root = of(("struct", [], [text("abc"), bits, numbers]))
        slots = root.slots
        self.assertEqual(slots[0], slots[0])
        self.assertEqual(slots.index(slots[1]), 1)
        self.assertEqual(slots[0], b"abc\0")
        self.assertNotEqual(slots[0], b"abd\0")
        self.assertEqual(slots[0], bytearray(b"abc\0"))
        self.assertEqual(slots[1], [True, False, True])
        self.assertEqual(slots[2], (1, 2))
        self.assertNotEqual(slots[2], [1, 2, 3])
        self.assertEqual(slots[2], range(1, 3))
        self.assertEqual(slots[2], array.array("H", [1, 2]))
        self.assertNotEqual(slots[2], array.array("H", [1, 3]))
        self.assertEqual(slots[0], memoryview(b"abc\0"))
        self.assertEqual(slots, [b"abc\0", [True, False, True], [1, 2]])
        self.assertEqual(slots, root.slots)
        self.assertNotEqual(slots[0], "abc")
        self.assertFalse(slots[0] is None or slots[0] == 3)

    def test_no_hash(self):
        root = of(("rows", 1, 1, [([5], [text("abc")])]))
        message = capn.read(stream(bare(None)))
        for one in root, root[0], root[0].slots, root[0].slots[0], message:
            with self.assertRaisesRegex(TypeError, "unhashable"):
                hash(one)

    def test_deep_and_wide(self):
        value = None
        for _ in range(255):
            value = "rows", 0, 1, [([], [value])]
        limits = capn.Limits(depth=256)
        one, other = (capn.read(bare(value), "bare", limits).root for _ in range(2))
        self.assertEqual(one, other)


class Objects(unittest.TestCase):
    def test_kinds_can_not_be_assigned(self):
        for value in None, ("struct", [1], []), text("abc"), ("list", 3, 0, b""), ("rows", 0, 0, []), ("pointers", []):
            root = of(value)
            with self.assertRaises(AttributeError):
                root.kind = "other"
        row = of(("rows", 1, 0, [([5], [])]))[0]
        self.assertEqual(row.kind, "struct")
        self.assertRaises(AttributeError, setattr, row, "kind", "other")

    def test_classes_and_what_they_say(self):
        for value, kind, said in [
            (None, capn.Null, "<capn null>"),
            (("struct", [1, 2], [None]), capn.Struct, "<capn struct, 2 words, 1 slots>"),
            (("list", 0, 3, b""), capn.Voids, "<capn void, 3>"),
            (("list", 1, 3, bytes(8)), capn.Bits, "<capn bits, 3>"),
            (text("abc"), capn.Bytes, "<capn bytes, 4>"),
            (("list", 3, 1, bytes(8)), capn.Numbers, "<capn u16, 1>"),
            (("list", 4, 1, bytes(8)), capn.Numbers, "<capn u32, 1>"),
            (("list", 5, 1, bytes(8)), capn.Numbers, "<capn u64, 1>"),
            (("pointers", [None, None]), capn.Pointers, "<capn pointers, 2>"),
            (("rows", 1, 2, [([5], [None, None])]), capn.Rows, "<capn rows, 1 of 1 words, 2 slots>"),
        ]:
            root = of(value)
            self.assertEqual((type(root), repr(root)), (kind, said))
            self.assertIsInstance(root, capn.Object)
            self.assertEqual(isinstance(root, capn.List), hasattr(root, "__len__"))
        found = capability(7)
        self.assertEqual((type(found), repr(found), found.index), (capn.Capability, "<capn capability 7>", 7))
        row = of(("rows", 1, 2, [([5], [None, None])]))[0]
        self.assertEqual((repr(row), repr(row.slots)), ("<capn row, 1 words, 2 slots>", "<capn slots, 2>"))
        self.assertIsInstance(row, capn.Body)
        message = capn.read(stream(bare(("struct", [1], [])), bytes(8)))
        self.assertEqual(repr(message), "<capn message, 2 words paid, 1 slots>")
        self.assertEqual((message.words, message.visits, message.paid), (3, 1, 2))
        self.assertRaises(TypeError, capn.Body)

    def test_words_and_visits_are_those_of_a_survey(self):
        source = random.Random(3)
        for _ in range(200):
            segments = [bytes(8 * source.randint(0 if i else 1, 4)) for i in range(source.randint(1, 6))]
            message = stream(*segments)
            for form, data in ("stream", message), ("packed", capn.pack(message)), ("bare", segments[0]):
                read, figures = capn.read(data, form), capn.survey(data, form)
                self.assertEqual((read.words, read.visits, read.paid), (figures.words, figures.visits, figures.paid))

    def test_matching(self):
        match of(text("abc")):
            case capn.Struct():
                self.fail("it is no struct")
            case capn.Bytes() as found:
                self.assertEqual(found.text(), "abc")

    def test_slices(self):
        root = of(text("hello"))
        self.assertEqual((root[0:5], root[:], root[-2:], root[::2]), (b"hello", b"hello\0", b"o\0", b"hlo"))
        self.assertEqual((root[0], root[-1]), (104, 0))
        self.assertIsInstance(root[0:5], bytes)
        numbers = of(("list", 3, 2, bytes([1, 0, 2]) + bytes(5)))
        self.assertEqual((numbers[0:1], numbers.view.tolist()), ([1], [1, 2]))

    def test_texts(self):
        self.assertEqual(of(text("")).text(), "")
        self.assertEqual(of(text("abc")).text(), "abc")
        written = "žlutý kůň".encode() + b"\0"
        root = of(("list", 2, len(written), written + bytes(-len(written) % 8)))
        self.assertEqual(root.text(), "žlutý kůň")
        inner = of(("list", 2, 4, b"a\0b\0" + bytes(4)))
        self.assertEqual(inner.text(), "a\0b")
        for wrong in ("list", 2, 0, b""), ("list", 2, 3, b"abc" + bytes(5)), ("list", 2, 2, b"\xff\0" + bytes(6)):
            with self.assertRaises(ValueError):
                of(wrong).text()

    def test_a_row_in_a_loop_is_not_quadratic(self):
        rows = [([i], [text("a")]) for i in range(3000)]
        root = capn.read(bare(("struct", [], [("rows", 1, 1, rows), ("pointers", [text("b")] * 3000)])), "bare").root

        def seconds(take):
            start = time.perf_counter()
            for i in range(3000):
                take(i)
            return time.perf_counter() - start

        rows_of, items = root.slots[0], root.slots[1]
        for held, again in [
            (lambda i: rows_of[i].words[0], lambda i: root.slots[0][i].words[0]),
            (lambda i: items[i][0], lambda i: root.slots[1][i][0]),
        ]:
            # The package makes the list of the 3,000 offsets only once. If each access made it again, the loop would
            # take over 100 times as long.
            self.assertLess(seconds(again), 20 * seconds(held) + 0.05)
        self.assertEqual([root.slots[0][i].words[0] for i in range(3000)], list(range(3000)))
        self.assertEqual(rows_of[2999].slots[0].text(), "a")


class Fields(unittest.TestCase):
    """Tests the fields of messages that the tool `capnp` writes with a schema. The test reads these fields by the same
    schema."""

    def encoded(self, kind, written):
        if not shutil.which("capnp"):
            self.skipTest("there is no command capnp")
        ran = subprocess.run(["capnp", "encode", SCHEMA, kind], input=written.encode(), capture_output=True, check=True)
        return capn.read(ran.stdout).root

    def fields(self, root):
        numbers = root.slots[1] if len(root.slots) > 1 else ()
        if isinstance(numbers, capn.Null):
            numbers = ()
        return {
            "u64": root.uint(64, 0, 7), "u32": root.uint(32, 2, 4000000000), "u16": root.uint(16, 6, 65535),
            "u8": root.uint(8, 14, 200), "i64": root.int(64, 2, -5), "i32": root.int(32, 6, -2000000000),
            "i16": root.int(16, 14, 1234), "i8": root.int(8, 15, -128), "f64": root.float(64, 4, 2.5),
            "f32": root.float(32, 10, -0.5), "yes": root.bool(240, True), "no": root.bool(241),
            "name": root.text(0, "default"), "colour": root.uint(16, 22, 2),
            "numbers": [row.uint(16, 0) for row in numbers] if isinstance(numbers, capn.Rows) else list(numbers),
        }

    USUAL = {"u64": 7, "u32": 4000000000, "u16": 65535, "u8": 200, "i64": -5, "i32": -2000000000, "i16": 1234,
             "i8": -128, "f64": 2.5, "f32": -0.5, "yes": True, "no": False, "name": "default", "colour": 2,
             "numbers": []}

    def test_defaults(self):
        for kind in "Old", "New":
            self.assertEqual(self.fields(self.encoded(kind, "()")), self.USUAL)
        # Reads structs that have no pointers, and fewer words than their type has. Each field then has its default.
        for words in range(7):
            root = capn.read(bare(("struct", [0] * words, [])), "bare").root
            self.assertEqual(self.fields(root), self.USUAL)

    def test_values(self):
        written = ('(u64 = 5, u32 = 3, u16 = 65535, u8 = 1, i64 = 9223372036854775807, i32 = -1, i16 = -32768,'
                   ' i8 = 127, f64 = -1e300, f32 = 0.25, yes = false, no = true, name = "Alice", colour = red,'
                   ' numbers = {})')
        wanted = {"u64": 5, "u32": 3, "u16": 65535, "u8": 1, "i64": 9223372036854775807, "i32": -1, "i16": -32768,
                  "i8": 127, "f64": -1e300, "f32": 0.25, "yes": False, "no": True, "name": "Alice", "colour": 0,
                  "numbers": [1, 2]}
        old = self.encoded("Old", written.format("[1, 2]"))
        new = self.encoded("New", written.format("[(number = 1), (number = 2, name = \"x\")]"))
        self.assertEqual((self.fields(old), self.fields(new)), (wanted, wanted))
        self.assertEqual((old.slots[1].kind, new.slots[1].kind), ("u16", "rows"))
        # Some fields exist only in the newer type. Such a field can also be read from a message of the older type.
        self.assertEqual((old.uint(64, 6, 9), new.uint(64, 6, 9), old.text(2), new.text(2, "x")), (9, 9, "", "x"))

    def test_the_number_of_the_review(self):
        for x, stored in (5, [2]), (7, [0]), (7, []), (0, [7]):
            root = capn.read(bare(("struct", stored, [])), "bare").root
            self.assertEqual(root.uint(64, 0, default=7), x)

    def test_any_number(self):
        source = random.Random(1)
        for _ in range(2000):
            words = [source.getrandbits(64) for _ in range(2)]
            root = capn.read(bare(("struct", words, [])), "bare").root
            data = struct.pack("<2Q", *words)
            bits = source.choice([8, 16, 32, 64])
            size, offset = bits // 8, source.randrange(16 // (bits // 8))
            raw = data[size * offset:size * (offset + 1)]
            default = source.getrandbits(bits)
            self.assertEqual(root.uint(bits, offset), int.from_bytes(raw, "little"))
            self.assertEqual(root.uint(bits, offset, default), int.from_bytes(raw, "little") ^ default)
            signed = int.from_bytes(default.to_bytes(size, "little"), "little", signed=True)
            stored = bytes(a ^ b for a, b in zip(raw, default.to_bytes(size, "little")))
            self.assertEqual(root.int(bits, offset, signed), int.from_bytes(stored, "little", signed=True))
            bit = source.randrange(128)
            self.assertEqual(root.bool(bit), bool(data[bit // 8] >> bit % 8 & 1))
            self.assertEqual(root.bool(bit, True), not root.bool(bit))
            if bits > 16:
                form = "<f" if bits == 32 else "<d"
                by_default = struct.unpack(form, struct.pack(form, source.uniform(-5, 5)))[0]
                stored = bytes(a ^ b for a, b in zip(raw, struct.pack(form, by_default)))
                if not math.isnan(struct.unpack(form, stored)[0]):
                    self.assertEqual(struct.pack(form, root.float(bits, offset, by_default)), stored)
            self.assertEqual(root.uint(bits, 16 // size, default), default)

    def test_arguments(self):
        root = capn.read(bare(("struct", [1], [text("abc"), None, ("struct", [], [])])), "bare").root
        for call in [
            lambda: root.uint(7, 0), lambda: root.uint(1, 0), lambda: root.uint(8, -1), lambda: root.uint(8, 0, 256),
            lambda: root.uint(8, 0, -1), lambda: root.int(8, 0, 128), lambda: root.int(8, 0, -129),
            lambda: root.int(12, 0), lambda: root.float(16, 0), lambda: root.bool(-1), lambda: root.text(-1),
            lambda: root.text(2),
        ]:
            self.assertRaises(ValueError, call)
        self.assertEqual((root.text(0), root.text(1, "x"), root.text(3), root.text(99, "y")), ("abc", "x", "", "y"))


class Ways(unittest.TestCase):
    def test_at(self):
        value = ("struct", [], [("pointers", [None, text("abc")]), ("rows", 1, 1, [([5], [text("x")])])])
        message = capn.read(bare(value), "bare")
        self.assertEqual(message.at(), message.root)
        self.assertEqual(message.at(0, 1), b"abc\0")
        self.assertEqual(message.at(1, 0, 0), b"x\0")
        self.assertEqual(message.at(1, 0).kind, "struct")
        for way in (2,), (0, 2), (0, 0, 0), (1, 1), (0, 1, 0), (2**64 - 1,):
            self.assertIsNone(message.at(*way))
        self.assertRaises(ValueError, message.at, -1)
        self.assertRaises(TypeError, message.at, "0")

    @given(values(), some.lists(some.integers(0, 3), max_size=4))
    def test_it_is_where_the_model_has_it(self, value, way):
        message = capn.read(bare(value), "bare")
        walk = model.Walk([bare(value)], 8388608, 64, "strict")
        there, found = model.stands(walk.value, way), message.at(*way)
        self.assertEqual(found is None, there is None)
        self.assertEqual(capn.show(message, at=way), model.styled(there, "plain"))


class Closed(unittest.TestCase):
    MESSAGE = stream(bare(("struct", [5], [text("abc"), ("list", 5, 1, bytes(8)), ("rows", 1, 0, [([1], [])])])))

    def test_what_was_taken_in_place_is_let_go(self):
        data = bytearray(self.MESSAGE)
        with capn.read(data, in_place=True) as message:
            root = message.root
            kept = [root.words, root.slots[0].view, root.slots[1], root.slots[2][0]]
            self.assertRaises(BufferError, data.append, 0)
        data.append(0)
        for use in (lambda: root.words[0], lambda: kept[0][0], lambda: kept[1][0], lambda: kept[2][0],
                    lambda: kept[3].words[0], lambda: root.slots[0], lambda: message.root, message.__enter__):
            self.assertRaises(ValueError, use)
        message.close()
        mapped = mmap.mmap(-1, len(self.MESSAGE))
        mapped[:] = self.MESSAGE
        with capn.read(mapped, in_place=True) as message:
            self.assertEqual(message.root.uint(64, 0), 5)
        mapped.close()

    def test_what_was_copied_is_never_held(self):
        data = bytearray(self.MESSAGE)
        message = capn.read(data)
        root, words = message.root, message.root.words
        data.append(0)
        data[:] = bytes(len(data))
        self.assertEqual((words[0], message.root.slots[0].text()), (5, "abc"))
        paid = message.paid
        message.close()
        self.assertEqual((words[0], root.words[0], root.uint(64, 0), message.paid), (5, 5, 5, paid))
        for use in lambda: message.root, lambda: message.at(0), lambda: root.slots[0], lambda: root.slot(0):
            self.assertRaises(ValueError, use)

    def test_another_object_still_uses_a_view(self):
        data = bytearray(self.MESSAGE)
        message = capn.read(data, in_place=True)
        other = pickle.PickleBuffer(message.root.words)
        self.assertRaises(BufferError, message.close)
        self.assertEqual(message.root.uint(64, 0), 5)
        other.release()
        message.close()
        data.append(0)

    def test_in_place_reads_what_is_there(self):
        data = bytearray(self.MESSAGE)
        root = capn.read(data, in_place=True).root
        at = data.index((5).to_bytes(8, "little"))
        data[at] = 6
        self.assertEqual(root.words[0], 6)
        self.assertTrue(root.words.readonly)


class HowMany(unittest.TestCase):
    def test_most_slots(self):
        for count in 0, 1, 5, 62, 63, 64, 65, 200:
            data = stream(bare(("pointers", [None] * count)))
            slots = count + 1
            self.assertEqual(capn.read(data, most_slots=slots).visits, slots)
            with self.assertRaises(capn.Refusal) as caught:
                capn.read(data, most_slots=slots - 1)
            refusal = caught.exception
            self.assertEqual((refusal.name, refusal.at), ("TooManySlots", slots))
            self.assertEqual(refusal.meaning, "the message has more pointers than `most_slots`")
            self.assertEqual(str(refusal), f"too many slots: {slots}")
        self.assertRaises(ValueError, capn.read, data, most_slots=-1)
        self.assertRaises(TypeError, capn.read, data, most_slots=1.0)

    def test_few_bytes_have_many_slots(self):
        # The message has three lists of 193 pointers each. Each pointer of the first list refers to the second list,
        # and each pointer of the second list to the third. The traversal visits a list once for each pointer to it.
        count, words = 193, [1 | 6 << 32 | 193 << 35]
        for _ in range(2):
            words += [count - 1 - i << 2 | 1 | 6 << 32 | count << 35 for i in range(count)]
        data = b"".join(word.to_bytes(8, "little") for word in [len(words) + count << 32, *words, *[0] * count])
        self.assertEqual(len(data), 4648)
        with self.assertRaisesRegex(capn.Refusal, "^too many slots: 7226500$"):
            capn.read(data, most_slots=1 << 16)
        self.assertEqual(capn.check(data).visits, 7226500)

    def test_a_refused_message_has_its_own_refusal(self):
        with self.assertRaisesRegex(capn.Refusal, "Range at 0:0"):
            capn.read(stream(bytes.fromhex("0000000001000000")), most_slots=0)


class Named(unittest.TestCase):
    def test_the_version(self):
        version = (Path(__file__).resolve().parents[2] / "VERSION").read_text().strip()
        self.assertEqual(capn.__version__, version)

    def test_all_that_is_exported_is_there(self):
        self.assertEqual(sorted(capn.__all__), capn.__all__)
        for name in capn.__all__:
            self.assertTrue(hasattr(capn, name), name)
        for kind in capn.Value.__args__:
            self.assertIs(getattr(capn, kind.__name__), kind)

    def test_limits_of_a_kind_of_their_own(self):
        class Mine(capn.Limits):
            pass

        mine = Mine(depth=3)
        self.assertIs(type(copy.copy(mine)), Mine)
        self.assertEqual(copy.deepcopy(mine), mine)
        for name in "message_words", "budget", "depth":
            self.assertRaises(TypeError, capn.Limits, **{name: True})


if __name__ == "__main__":
    unittest.main()
