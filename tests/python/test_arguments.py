"""Tests that wrong arguments are rejected before the library is called. Also tests the attributes of `capn.Refusal` and
`capn.Limits`."""
import array
import copy
import mmap
import pickle
import unittest
from dataclasses import FrozenInstanceError

import capn

MESSAGE = bytes.fromhex("0000000003000000" "0000000002000000" "0500000000000000" "0000000000000000")
OF_FORMS = [capn.check, capn.canonical, capn.digest, capn.is_canonical_message]
CALLS = [*OF_FORMS, capn.is_canonical_words, capn.pack, capn.unpack]


class Arguments(unittest.TestCase):
    def test_what_is_no_buffer_is_a_type_error(self):
        for call in CALLS:
            for data in "text", 3, None, [1, 2], object():
                with self.subTest(call=call, data=data), self.assertRaises(TypeError):
                    call(data)

    def test_a_form_that_is_none_of_the_three(self):
        for call in OF_FORMS:
            wrongs = ("framed", ValueError), ("", ValueError), (0, TypeError), (None, TypeError), ([], TypeError)
            for form, wrong in wrongs:
                with self.subTest(call=call, form=form), self.assertRaises(wrong):
                    call(MESSAGE, form)

    def test_limits_that_are_none(self):
        for call in [*OF_FORMS, capn.is_canonical_words]:
            for limits in None, 64, {"depth": 64}, (1, 2, 3, "strict"):
                with self.subTest(call=call, limits=limits), self.assertRaises(TypeError):
                    call(MESSAGE, limits=limits)

    def test_a_limit_out_of_its_range(self):
        ranges = {
            # c/limits.txt: ranges in python
            "message_words": (1, 1 << 28),
            "budget": (0, 1 << 28),
            "depth": (1, 256),
            # c/limits.txt ends
        }
        for name, (least, most) in ranges.items():
            for number in least, most:
                self.assertEqual(getattr(capn.Limits(**{name: number}), name), number)
            for number in least - 1, most + 1, 1 << 32, -(1 << 70):
                with self.subTest(name=name, number=number), self.assertRaises(ValueError):
                    capn.Limits(**{name: number})
            for number in 1.0, "1", None, True:
                with self.subTest(name=name, number=number), self.assertRaises(TypeError):
                    capn.Limits(**{name: number})
        self.assertRaises(ValueError, capn.Limits, tariff="free")
        self.assertRaises(TypeError, capn.Limits, tariff=0)

    def test_a_maximum_of_words_out_of_its_range(self):
        self.assertEqual(capn.unpack(b"", max_words=(1 << 32) - 1), b"")
        for most, wrong in (-1, ValueError), (1 << 32, ValueError), (1.0, TypeError), (None, TypeError):
            with self.subTest(most=most), self.assertRaises(wrong):
                capn.unpack(b"", max_words=most)

    def test_the_usual_maximum_of_words_is_that_of_the_program(self):
        words = 8388608 + 2049
        text = b"\0\xff" * (words // 256) + b"\0\0" * (words % 256)
        self.assertEqual(len(capn.unpack(text)), 8 * words)
        with self.assertRaises(capn.Refusal) as caught:
            capn.unpack(text + b"\0\0")
        self.assertEqual((caught.exception.name, caught.exception.at), ("PackedTooLong", len(text)))

    def test_none_of_these_is_a_refusal(self):
        for wrong in [lambda: capn.check(MESSAGE, "framed"), lambda: capn.Limits(depth=0)]:
            with self.assertRaises(ValueError) as caught:
                wrong()
            self.assertNotIsInstance(caught.exception, capn.Refusal)

    def test_buffers_of_each_kind(self):
        mapped = mmap.mmap(-1, len(MESSAGE))
        mapped[:] = MESSAGE
        gaps = bytearray(2 * len(MESSAGE))
        gaps[::2] = MESSAGE
        for data in bytearray(MESSAGE), memoryview(MESSAGE), array.array("I", MESSAGE), mapped, memoryview(gaps)[::2]:
            with self.subTest(type=type(data)):
                self.assertEqual(capn.check(data), capn.Checked(paid=3, visits=1))
                self.assertEqual(capn.digest(data), capn.digest(MESSAGE))
        grown = bytearray(MESSAGE)
        capn.check(grown)
        grown.append(0)  # No call holds the buffer after it has returned.

    def test_defaults_are_those_of_the_program(self):
        self.assertEqual(capn.Limits(), capn.Limits(8388608, 8388608, 64, "strict"))
        self.assertEqual(capn.canonical(MESSAGE), bytes.fromhex("0000000001000000" "0500000000000000"))
        self.assertEqual(capn.check(MESSAGE), capn.check(MESSAGE, "stream", capn.Limits()))
        self.assertEqual(capn.check(MESSAGE, limits=capn.Limits(tariff="plain")).paid, 2)


class Values(unittest.TestCase):
    def test_limits_are_values(self):
        limits = capn.Limits(1000, 2000, 30, "plain")
        self.assertRaises(FrozenInstanceError, setattr, limits, "depth", 3)
        for same in pickle.loads(pickle.dumps(limits)), copy.copy(limits), copy.deepcopy(limits):
            self.assertEqual(same, limits)
            self.assertEqual(hash(same), hash(limits))
            self.assertEqual(capn.check(MESSAGE, limits=same).paid, 2)

    def test_a_refusal_of_the_walk(self):
        with self.assertRaises(capn.Refusal) as caught:
            capn.check(bytes.fromhex("00000000010000000000000001000000"))
        refusal = caught.exception
        self.assertIsInstance(refusal, ValueError)
        self.assertEqual(str(refusal), "Range at 0:0, paid 0, visits 1")
        self.assertEqual((refusal.name, refusal.place), ("Range", (0, 0)))
        self.assertEqual(refusal.meaning, "an object lies outside of its segment")
        self.assertEqual((refusal.paid, refusal.visits, refusal.at), (0, 1, 0))
        again = pickle.loads(pickle.dumps(refusal))
        self.assertEqual((type(again), again.args, again.place), (capn.Refusal, refusal.args, (0, 0)))
        self.assertEqual((again.meaning, capn.Refusal("x", "Mine").meaning), (refusal.meaning, ""))

    def test_other_refusals(self):
        capability = bytes.fromhex("0000000000000100" "0300000000000000")
        for call, name, at, text in [
            (lambda: capn.check(b""), "FrameEmpty", 0, "frame: Empty"),
            (lambda: capn.check(bytes(7)), "FrameCut", 0, "frame: Cut"),
            (lambda: capn.check(b"\xff" * 8), "TooManySegments", 1 << 32, "frame: TooManySegments(4294967296)"),
            (lambda: capn.check(bytes(4) + b"\xff" * 4), "TooManyWords", 4294967295, "frame: TooManyWords(4294967295)"),
            (lambda: capn.check(MESSAGE + b"x"), "Trailing", 32, "trailing bytes at 32"),
            (lambda: capn.check(bytes(9), "bare"), "NotWhole", 9, "bare: NotWhole(9)"),
            (lambda: capn.is_canonical_words(bytes(9)), "NotWhole", 9, "bare: NotWhole(9)"),
            (lambda: capn.pack(bytes(9)), "NotWhole", 9, "NotWhole(9)"),
            (lambda: capn.check(b"\x01", "packed"), "PackedCut", 0, "packed: Cut at 0"),
            (lambda: capn.unpack(bytes(2), 0), "PackedTooLong", 0, "packed: TooLong at 0"),
            (lambda: capn.canonical(capability, "bare"), "Capability", 0, "capability 0"),
        ]:
            with self.subTest(text=text):
                with self.assertRaises(capn.Refusal) as caught:
                    call()
                refusal = caught.exception
                self.assertEqual((refusal.name, refusal.at, str(refusal)), (name, at, text))
                self.assertTrue(refusal.meaning, name)
                self.assertEqual((refusal.place, refusal.paid, refusal.visits), (None, 0, 0))

    def test_names_and_texts_are_the_library_s(self):
        from capn import _refusal
        from capn._capn import ffi, lib
        report = ffi.new("capn_report *", {"at": 5, "paid": 7, "visits": 8, "segment": 9, "word": 10})
        texts = {}
        for status in range(256):
            fault = _refusal.failure(status, report)
            if isinstance(fault, capn.Refusal):
                texts[fault.name] = str(fault)
                self.assertEqual(ffi.string(lib.capn_status_name(status)).decode(), fault.name)
                is_walk = lib.CAPN_NO_ROOT <= status <= lib.CAPN_OVER_BUDGET
                told = (fault.place, fault.paid, fault.visits, fault.at)
                self.assertEqual(told, ((9, 10), 7, 8, 0) if is_walk else (None, 0, 0, 5))
            else:
                self.assertIs(type(fault), MemoryError if status == lib.CAPN_MEMORY else RuntimeError)
        self.assertEqual(len(texts), 21)
        self.assertEqual(texts["TagOverrun"], "TagOverrun at 9:10, paid 7, visits 8")
        self.assertEqual(texts["Capability"], "capability 5")
        self.assertEqual(texts["FrameCut"], "frame: Cut")


if __name__ == "__main__":
    unittest.main()
