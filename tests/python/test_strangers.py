"""Tests input from senders that aren't trusted. A sender may use another schema, or another version of the schema. The
reader may read a message with a segment table as a message without one. Each exception that such input causes is a
`ValueError`."""
import unittest
import warnings

import capn
from messages import bare, stream
from test_values import capability, of, text

try:
    import numpy
except ImportError:
    numpy = None

SMALL = bytes.fromhex("0000000003000000" "0000000002000000" "0500000000000000" "0000000000000000")


class Canonical(unittest.TestCase):
    """Tests `is_canonical`. Without the argument `form`, it reads the bytes as a single segment without a segment
    table."""

    def test_a_frame(self):
        # Without the argument `form`, the bytes are read as one segment without a segment table. The call then takes
        # the segment table for the root pointer, which refers to a struct. Read in this way, the bytes are canonical,
        # since the last word of this struct isn't zero. Read with their segment table, they aren't canonical, since the
        # last data word of the root struct is zero.
        loose = stream(bare(("struct", [5, 0], [text("abc")])))
        with self.assertWarnsRegex(DeprecationWarning, "^is_canonical without a form reads the words") as caught:
            self.assertTrue(capn.is_canonical(loose))
        self.assertEqual(caught.filename, __file__)
        with warnings.catch_warnings():
            warnings.simplefilter("error")
            self.assertTrue(capn.is_canonical(loose, form="bare"))
            self.assertTrue(capn.is_canonical_words(loose))
            self.assertFalse(capn.is_canonical_words(loose[8:]))
            self.assertFalse(capn.is_canonical_message(loose))
            self.assertFalse(capn.is_canonical_message(capn.pack(loose), "packed"))
            self.assertFalse(capn.is_canonical_message(loose[8:], "bare"))
            for layout in bytes, bytearray, memoryview:
                self.assertTrue(capn.is_canonical_message(layout(stream(capn.canonical(loose))), in_place=True))
                self.assertTrue(capn.is_canonical_words(layout(capn.canonical(loose)), in_place=True))
        self.assertFalse(capn.is_canonical(loose, form="stream"))
        self.assertFalse(capn.is_canonical(loose[8:], form="bare"))
        self.assertFalse(capn.is_canonical(capn.pack(loose), form="packed"))
        whole = stream(capn.canonical(SMALL))
        self.assertTrue(capn.is_canonical(whole, form="stream"))
        self.assertTrue(capn.is_canonical(capn.pack(whole), form="packed"))
        self.assertTrue(capn.is_canonical(bytearray(whole), form="stream", in_place=True))

    def test_several_segments(self):
        far = stream(bytes.fromhex("0200000001000000"), bytes.fromhex("0000000001000000" "0500000000000000"))
        self.assertFalse(capn.is_canonical(far, form="stream"))
        self.assertTrue(capn.is_canonical(stream(capn.canonical(far)), form="stream"))

    def test_a_refusal(self):
        for form in "bare", "stream":
            words = (1 << 48).to_bytes(8, "little") + (3 | 7 << 32).to_bytes(8, "little")
            with self.assertRaises(capn.Refusal) as caught:
                capn.is_canonical(words if form == "bare" else stream(words), form=form)
            self.assertEqual((caught.exception.name, caught.exception.at, str(caught.exception)),
                             ("Capability", 7, "capability 7"))
            with self.assertRaisesRegex(capn.Refusal, "OverBudget"):
                capn.is_canonical(SMALL, capn.Limits(budget=2), form=form)
        with self.assertRaisesRegex(capn.Refusal, "frame: Cut"):
            capn.is_canonical(SMALL[:-8], form="stream")
        self.assertRaises(ValueError, capn.is_canonical, SMALL, form="framed")
        self.assertRaises(TypeError, capn.is_canonical, SMALL, form=3)


class Schemas(unittest.TestCase):
    def test_an_older_layout(self):
        root = of(("struct", [5], [text("abc")]))
        self.assertEqual((root.word(0), root.word(1), root.slot(0).text()), (5, 0, "abc"))
        self.assertEqual((root.slot(1).kind, root.slot(1).struct().text(0, "none"), [*root.slot(1).list()]),
                         ("null", "none", []))
        # The property `words` is a memoryview of the words in the message. The method `word` returns 0 for a word
        # beyond the struct's end.
        self.assertIsInstance(root.words, memoryview)
        for wrong in (lambda: root.words[1], lambda: root.slots[1], lambda: root.slot(0)[4],
                      lambda: root.slot(0).view[4]):
            self.assertRaises(IndexError, wrong)
        for wrong in lambda: root.slots[1], lambda: root.slot(0)[4], lambda: root.slots[-2]:
            self.assertRaises(ValueError, wrong)
        for wrong in lambda: root.slot(-1), lambda: root.word(-1):
            self.assertRaises(ValueError, wrong)

    def test_null_is_an_empty_struct(self):
        null = of(None)
        self.assertEqual((null.uint(8, 3, 9), null.int(16, 0, -1), null.float(64, 0, 1.5), null.bool(0, True)),
                         (9, -1, 1.5, True))
        self.assertEqual((null.text(0), null.text(0, "none"), null.word(3), len(null.words), len(null.slots)),
                         ("", "none", 0, 0, 0))
        self.assertEqual((null.slot(0).kind, null.slot(7).slot(7).kind, bool(null)), ("null", "null", False))
        self.assertEqual((null, null.slot(0)), (null.slot(3), null))
        self.assertNotEqual(null, of(("struct", [], [])))
        self.assertRaises(ValueError, lambda: null.slots[0])

    def test_other_kinds(self):
        values = [None, ("struct", [1], [None]), ("list", 0, 3, b""), ("list", 1, 3, bytes(8)), text("abc"),
                  ("list", 3, 1, bytes(8)), ("pointers", [None]), ("rows", 1, 1, [([5], [None])])]
        reads = [
            lambda it: it.struct(), lambda it: it.list(), lambda it: it.words, lambda it: it.slots,
            lambda it: it.word(0), lambda it: it.slot(0), lambda it: it.uint(8, 0), lambda it: it.int(8, 0),
            lambda it: it.float(32, 0), lambda it: it.bool(0), lambda it: it.text(0), lambda it: it.text(0, "x"),
            lambda it: it.view, lambda it: it.rows(), lambda it: it.numbers(8), lambda it: it.pointers(),
        ]
        answered = raised = 0
        for root in [*map(of, values), *(of(("struct", [], [value])).slot(0) for value in values), capability(7)]:
            for number, read in enumerate(reads):
                with self.subTest(kind=root.kind, read=number):
                    try:
                        read(root)
                        answered += 1
                    except ValueError:
                        raised += 1
            if root.kind in ("null", "struct"):
                self.assertIs(root.struct(), root)
            else:
                self.assertRaisesRegex(capn.Mismatch, "^there is no struct, but <capn ", root.struct)
            if isinstance(root, capn.List):
                self.assertIs(root.list(), root)
            elif root.kind != "null":
                self.assertRaisesRegex(capn.Mismatch, "^there is no list, but <capn ", root.list)
        self.assertGreater(min(answered, raised), 50)

    def test_lists_of_other_schemas(self):
        # Reads each value as a list of structs, as a list of 16-bit numbers, and as a list of pointers. For the list of
        # structs, the expected result has the first number of each struct, and the kind of the struct's first pointer.
        # For the list of pointers, the expected result has the kind of each pointer. None stands for an error.
        two = (0x10003).to_bytes(8, "little")
        for value, rows, numbers, pointers in (
            (None, [], [], []),
            (("list", 0, 2, b""), [(0, "null")] * 2, None, None),
            (("list", 1, 2, two), None, None, None),
            # An element of 8 bits is too short for a field of 16 bits.
            (("list", 2, 3, two), [(0, "null")] * 3, None, None),
            (("list", 3, 2, two), [(3, "null"), (1, "null")], [3, 1], None),
            (("list", 4, 1, two), [(3, "null")], None, None),
            (("list", 5, 1, two), [(3, "null")], None, None),
            (("list", 3, 0, b""), [], [], None),
            (("pointers", [text("abc"), None]), [(0, "bytes"), (0, "null")], None, ["bytes", "null"]),
            (("rows", 1, 2, [([0x10003], [None, None]), ([4], [text("abc"), None])]), [(3, "null"), (4, "bytes")],
             [3, 4], ["null", "bytes"]),
            # If a struct has no words, its number is read as the default, 0. If a struct has no pointers, its pointer
            # is read as null.
            (("rows", 1, 0, [([5], [])]), [(5, "null")], [5], ["null"]),
            (("rows", 0, 1, [([], [text("abc")])]), [(0, "bytes")], [0], ["bytes"]),
            (("rows", 0, 0, [([], [])] * 2), [(0, "null")] * 2, [0, 0], ["null", "null"]),
            (("struct", [1], [None]), None, None, None),
        ):
            slot = of(("struct", [], [value])).slot(0)
            for what, wanted, read in (
                ("structs", rows, lambda: [(row.uint(16, 0), row.slot(0).kind) for row in slot.rows()]),
                ("numbers of 16 bits", numbers, lambda: list(slot.numbers(16))),
                ("pointers", pointers, lambda: [found.kind for found in slot.pointers()]),
            ):
                with self.subTest(slot, what=what):
                    if wanted is not None:
                        self.assertEqual(read(), wanted)
                    else:
                        self.assertRaisesRegex(capn.Mismatch, f"^there is no list of {what}, but <capn ", read)
        for read in (lambda it: it.rows(), lambda it: it.numbers(16), lambda it: it.pointers()):
            self.assertRaises(capn.Mismatch, read, capability(7))

    def test_numbers_of_other_sizes(self):
        stored = (0x10003).to_bytes(8, "little")
        bits = of(("list", 1, 3, stored))
        self.assertEqual([*bits.numbers(1)], [True, True, False])
        for size, code in (8, 2), (16, 3), (32, 4), (64, 5):
            found = of(("list", code, 1, stored))
            self.assertIs(found.numbers(size), found)
            for other in {1, 8, 16, 32, 64} - {size}:
                self.assertRaises(capn.Mismatch, found.numbers, other)
            self.assertRaises(capn.Mismatch, bits.numbers, size)
        rows = of(("rows", 1, 0, [([0x10003], []), ([1 << 63], [])]))
        self.assertEqual([[*rows.numbers(size)] for size in (8, 16, 32, 64)],
                         [[3, 0], [3, 0], [0x10003, 0], [0x10003, 1 << 63]])
        self.assertRaises(capn.Mismatch, rows.numbers, 1)
        for found in of(None), bits, rows, of(("struct", [], [])):
            self.assertRaisesRegex(ValueError, "^a number has 1, 8, 16, 32 or 64 bits, not 3$", found.numbers, 3)

    def test_sequences_of_other_schemas(self):
        rows = of(("list", 3, 2, (0x10003).to_bytes(8, "little"))).rows()
        self.assertEqual((len(rows), rows[-1].uint(16, 0), rows[0].uint(16, 1, 9), rows[0].text(0, "none")),
                         (2, 1, 9, "none"))
        self.assertEqual([row.word(0) for row in rows[1:]], [1])
        # The sender decides how many elements a list has. So if an element is missing, the exception is also a
        # `ValueError`.
        null, numbers = of(None), of(("rows", 1, 1, [([5], [None])]))
        for wrong in (lambda: rows[2], lambda: null.list()[0], lambda: null.rows()[0], lambda: null.numbers(16)[0],
                      lambda: null.pointers()[0], lambda: numbers.numbers(16)[1], lambda: numbers.pointers()[1]):
            self.assertRaises(ValueError, wrong)
            self.assertRaises(IndexError, wrong)
        self.assertEqual((of(None).list().kind, len(of(None).list())), ("null", 0))

    def test_a_field_that_is_wider_than_the_number_of_an_older_list(self):
        # Reads lists of numbers as lists of structs. A field that fits into the number has the number's bits. Any other
        # field has its default.
        stored = (0x8877665544332281).to_bytes(8, "little")
        for width, code in (8, 2), (16, 3), (32, 4), (64, 5):
            [row] = of(("list", code, 1, stored)).rows()
            for bits in 8, 16, 32, 64:
                for offset in range(64 // bits + 2):
                    is_there = bits * (offset + 1) <= width
                    number = int.from_bytes(stored, "little") >> bits * offset & (1 << bits) - 1 if is_there else 0
                    with self.subTest(width=width, bits=bits, offset=offset):
                        self.assertEqual(row.uint(bits, offset), number)
                        self.assertEqual(row.uint(bits, offset, default=7), number ^ 7)
                        if not is_there:
                            self.assertEqual(row.int(bits, offset, default=-7), -7)
                            if bits > 16:
                                self.assertEqual(row.float(bits, offset, default=2.5), 2.5)
            for bit in range(70):
                is_set = bit < width and bool(stored[bit // 8] >> bit % 8 & 1)
                self.assertEqual((row.bool(bit), row.bool(bit, True)), (is_set, not is_set))
        # Reads the byte 5 as a struct with a field of 16 bits, whose default is 7. The byte is too short for the field,
        # so the field has its default.
        message = b"".join(word.to_bytes(8, "little") for word in (1 << 48, 1 | (2 | 1 << 3) << 32, 5))
        self.assertEqual(capn.read(message, "bare").root.struct().slot(0).rows()[0].uint(16, 0, default=7), 7)

    def test_structs_without_words_are_zeros_and_without_pointers_nulls(self):
        # The message `long` is a list of two structs, which have one zero word each. The message `short` is the
        # canonical bytes of `long`. The structs of `short` have no words.
        long = [0x1000000000000, 0x1700000001, 0x100000008, 0, 0]
        short = [0x1000000000000, 0x700000001, 0x8]
        messages = [b"".join(word.to_bytes(8, "little") for word in words) for words in (long, short)]
        self.assertTrue(capn.same(*messages, "bare"))
        self.assertEqual(capn.canonical(messages[0], "bare"), messages[1])
        for message in messages:
            found = capn.read(message, "bare").root.struct().slot(0)
            for bits in 8, 16, 32, 64:
                self.assertEqual([*found.numbers(bits)], [0, 0])
            self.assertEqual([one.kind for one in found.pointers()], ["null", "null"])
            self.assertEqual([one.text(default="x") for one in found.pointers()], ["x", "x"])
            for wrong in lambda: found.numbers(16)[2], lambda: found.pointers()[2], lambda: found.numbers(1):
                self.assertRaises(capn.Mismatch, wrong)

    def test_texts_and_data(self):
        # An exception that the sender causes is always a `Mismatch`. Its class may also have other base classes.
        values = [None, ("struct", [1], [None]), ("list", 0, 3, b""), ("list", 1, 3, bytes(8)), text("abc"),
                  ("list", 3, 1, bytes(8)), ("pointers", [None]), ("rows", 1, 1, [([5], [None])]),
                  ("list", 2, 3, b"abc" + bytes(5)), ("list", 2, 0, b""), ("list", 2, 3, b"\xff\xfe\0" + bytes(5))]
        for value in values:
            root = of(("struct", [], [value]))
            slot = root.slot(0)
            for read in lambda: root.text(0, "x"), lambda: slot.text(default="x"):
                with self.subTest(value=value):
                    if value is None:
                        self.assertEqual(read(), "x")
                    elif value == text("abc"):
                        self.assertEqual(read(), "abc")
                    else:
                        self.assertRaises(capn.Mismatch, read)
            if value is None:
                self.assertEqual((slot.text(), slot.text(0, "y"), root.data(0), root.data(0, b"z")),
                                 ("", "y", b"", b"z"))
            elif value[:2] == ("list", 2):
                self.assertEqual(root.data(0), value[3][:value[2]])
            else:
                self.assertRaises(capn.Mismatch, root.data, 0)
        self.assertEqual((root.text(9, "x"), root.data(9, b"x")), ("x", b"x"))
        for wrong in lambda: root.text(-1), lambda: root.data(-1), lambda: of(None).text(-1):
            self.assertRaises(ValueError, wrong)
        with self.assertRaises(UnicodeDecodeError) as caught:
            root.text(0)
        wrong = caught.exception
        self.assertIsInstance(wrong, capn.Mismatch)
        self.assertEqual((wrong.encoding, wrong.object, wrong.start, wrong.end), ("utf-8", b"\xff\xfe", 0, 1))
        for call in lambda: capn.read(bare(text("abc")), "bare").root.text(0), root.text, root.struct().text:
            self.assertRaises(capn.Mismatch, call)

    def test_the_default_of_a_bit(self):
        root = of(("struct", [0b10], []))
        kinds = [(False, True), (0, 1)]
        if numpy is not None:
            kinds.append((numpy.False_, numpy.True_))
        for no, yes in kinds:
            self.assertEqual([root.bool(i, no) for i in (0, 1, 99)], [False, True, False])
            self.assertEqual([root.bool(i, yes) for i in (0, 1, 99)], [True, False, True])
            self.assertIs(type(root.bool(0, no)), bool)
        for wrong in 2, -1, "yes", None, b"":
            self.assertRaises(ValueError, root.bool, 0, wrong)

    def test_the_words_of_a_null_are_the_callers(self):
        null = of(None)
        with null.words as words:
            self.assertEqual(len(words), 0)
        words.release()
        for again in null, of(None), null.slot(3):
            self.assertEqual((len(again.words), again.uint(32, 0, default=7)), (0, 7))
        for rows in of(("list", 0, 2, b"")).rows(), of(("pointers", [None])).rows():
            rows[0].words.release()
            self.assertEqual(rows[0].uint(32, 0, default=7), 7)

    def test_names_that_are_of_no_kind(self):
        with self.assertRaises(AttributeError) as caught:
            of(None).wrods
        self.assertNotIsInstance(caught.exception, ValueError)
        self.assertFalse(hasattr(of(text("abc")), "words"))

    def test_a_closed_message(self):
        message = capn.read(bare(("struct", [5], [("pointers", [text("abc")] * 3)])), "bare")
        root = message.root
        pointers = root.slot(0)
        message.close()
        message.close()
        self.assertEqual(len(pointers), 3)
        for wrong in lambda: pointers[0], lambda: root.slot(0), lambda: root.slot(9), lambda: message.root:
            self.assertRaises(ValueError, wrong)


if __name__ == "__main__":
    unittest.main()
