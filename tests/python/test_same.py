"""Tests the comparison of two messages. Some pairs have the same value in different layouts. Some have different
values. In some pairs, a message is rejected."""
import copy
import mmap
import pickle
import unittest

import capn


def words(*numbers):
    return b"".join(number.to_bytes(8, "little") for number in numbers)


def framed(*numbers):
    return words(len(numbers) << 32, *numbers)


ONE = framed(2 << 32, 5, 0)
TIGHT = framed(1 << 32, 5)
FAR = words(1 | 1 << 32, 2, 2 | 1 << 32, 1 << 32, 5)
OTHER = framed(1 << 32, 6)
HOSTILE = framed(0x10000FFFFFFFC)
CAPABILITY = framed(1 << 48, 3 | 7 << 32)


class Same(unittest.TestCase):
    def test_values(self):
        for message in ONE, TIGHT, FAR:
            self.assertIs(capn.same(ONE, message), True)
            self.assertIs(capn.same(message, ONE), True)
            self.assertIs(capn.same(message, OTHER), False)
            self.assertIs(capn.same(OTHER, message), False)

    def test_forms(self):
        self.assertTrue(capn.same(capn.pack(ONE), capn.pack(FAR), "packed"))
        self.assertTrue(capn.same(ONE[8:], TIGHT[8:], form="bare"))
        self.assertFalse(capn.same(ONE[8:], bytes(8), "bare"))

    def test_any_buffers(self):
        with mmap.mmap(-1, len(FAR)) as mapped:
            mapped[:] = FAR
            for other in bytearray(FAR), memoryview(FAR), mapped:
                for in_place in False, True:
                    self.assertTrue(capn.same(ONE, other, in_place=in_place))
                    self.assertTrue(capn.same(other, ONE, in_place=in_place))
        same = bytearray(ONE)
        self.assertTrue(capn.same(same, same, in_place=True))
        same.append(0)

    def test_which_is_refused(self):
        for first, second, name, which in (
            (ONE[:20], HOSTILE, "FrameCut", 0),
            (ONE, ONE[:20], "FrameCut", 1),
            (CAPABILITY, b"", "Capability", 0),
            (ONE, CAPABILITY, "Capability", 1),
            (HOSTILE, ONE, "TooDeep", 0),
            (ONE, HOSTILE, "TooDeep", 1),
        ):
            for kind in bytes, bytearray:
                for in_place in False, True:
                    with self.subTest(name=name, which=which, kind=kind), self.assertRaises(capn.Refusal) as told:
                        capn.same(kind(first), kind(second), in_place=in_place)
                    refusal = told.exception
                    self.assertEqual((refusal.name, refusal.which), (name, which))
                    with self.assertRaises(capn.Refusal) as alone:
                        capn.canonical(second if which else first)
                    self.assertEqual(str(refusal), str(alone.exception))
                    self.assertEqual((refusal.way, refusal.byte), (alone.exception.way, alone.exception.byte))
                    self.assertIsNone(alone.exception.which)
                    for again in copy.copy(refusal), pickle.loads(pickle.dumps(refusal)):
                        self.assertEqual((again.which, again.way), (which, refusal.way))

    def test_nothing_of_the_caller_s_is_held(self):
        first, second = bytearray(ONE), bytearray(HOSTILE)
        try:
            capn.same(first, second, in_place=True)
        except capn.Refusal:
            first.append(0)
            second.append(0)

    def test_arguments(self):
        for first, second in ("text", ONE), (ONE, "text"), (None, ONE), (ONE, 5):
            self.assertRaises(TypeError, capn.same, first, second)
        self.assertRaises(TypeError, capn.same, ONE)
        self.assertRaises(ValueError, capn.same, ONE, ONE, "other")
        self.assertRaises(TypeError, capn.same, ONE, ONE, "stream", 5)
        few = capn.Limits(budget=2)
        with self.assertRaises(capn.Refusal) as told:
            capn.same(TIGHT, ONE, limits=few)
        self.assertEqual((told.exception.name, told.exception.which), ("OverBudget", 1))


if __name__ == "__main__":
    unittest.main()
