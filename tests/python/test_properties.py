"""Tests properties that must hold for every value and for any bytes. The Python package Hypothesis draws the values and
the bytes at random."""
import hashlib
import unittest

import capn
from messages import bare, far, hostile, stream, trimmed, values
from tried import given, settings, some

FORMS = some.sampled_from(["stream", "packed", "bare"])
settings.register_profile("here", deadline=None, max_examples=100, derandomize=True)
settings.load_profile("here")


class OfValues(unittest.TestCase):
    @given(values())
    def test_each_layout_and_form_has_one_answer(self, value):
        canonical = bare(trimmed(value))
        self.assertTrue(capn.is_canonical_words(canonical))
        for segment in bare(value), bare(value, backwards=True):
            self.assertEqual(capn.is_canonical_words(segment), segment == canonical)
            self.assertEqual(capn.canonical(segment, "bare"), canonical)
            # If the value is null, no far pointer is tried: the landing pad of a far pointer must not be null.
            for message in [stream(segment), far(segment)] if value else [stream(segment)]:
                self.assertEqual(capn.canonical(message), canonical)
                self.assertEqual(capn.canonical(capn.pack(message), form="packed"), canonical)
                self.assertEqual(capn.digest(message), hashlib.sha256(canonical).digest())

    @given(values())
    def test_it_is_read_for_what_it_pays_and_for_no_less(self, value):
        message = stream(bare(value))
        checked = capn.check(message)
        self.assertEqual(capn.check(message, limits=capn.Limits(budget=checked.paid)), checked)
        if checked.paid:
            with self.assertRaises(capn.Refusal) as caught:
                capn.check(message, limits=capn.Limits(budget=checked.paid - 1))
            self.assertEqual(caught.exception.name, "OverBudget")
            self.assertLess(caught.exception.paid, checked.paid)

    @given(values(), some.integers(1, 8))
    def test_bytes_after_it_are_refused(self, value, more):
        message = stream(bare(value))
        with self.assertRaises(capn.Refusal) as caught:
            capn.check(message + bytes(more))
        self.assertEqual((caught.exception.name, caught.exception.at), ("Trailing", len(message)))

    @given(values())
    def test_any_buffer_has_the_answer_of_its_bytes(self, value):
        message = stream(bare(value))
        gaps = bytearray(2 * len(message))
        gaps[::2] = message
        checked, canonical, packed = capn.check(message), capn.canonical(message), capn.pack(message)
        for same in bytearray(message), memoryview(message), memoryview(message).cast("Q"), memoryview(gaps)[::2]:
            self.assertEqual(capn.check(same), checked)
            self.assertEqual(capn.canonical(same), canonical)
            self.assertEqual(capn.pack(same), packed)


class OfBytes(unittest.TestCase):
    @given(hostile(), FORMS, some.sampled_from(["strict", "plain"]))
    def test_a_message_is_answered_by_each_call_or_refused_by_each(self, data, form, tariff):
        limits = capn.Limits(4096, 4096, 16, tariff)
        try:
            checked = capn.check(data, form, limits)
        except capn.Refusal as refusal:
            for call in capn.canonical, capn.digest:
                with self.assertRaises(capn.Refusal) as caught:
                    call(data, form, limits)
                self.assertEqual(caught.exception.args, refusal.args)
            return
        self.assertLessEqual(checked.paid, limits.budget)
        self.assertLessEqual(checked.visits, checked.paid + 1)
        try:
            canonical = capn.canonical(data, form, limits)
        except capn.Refusal as refusal:
            self.assertEqual(str(refusal), f"capability {refusal.at}")
            return
        self.assertLessEqual(len(canonical), 8 * (checked.paid + 1))
        self.assertTrue(capn.is_canonical_words(canonical, limits))
        self.assertEqual(capn.digest(data, form, limits), hashlib.sha256(canonical).digest())

    @given(some.binary(max_size=400))
    def test_what_is_packed_is_unpacked(self, data):
        words = data[:len(data) // 8 * 8]
        packed = capn.pack(words)
        self.assertEqual(capn.unpack(packed, max_words=len(words) // 8), words)
        if words:
            with self.assertRaises(capn.Refusal) as caught:
                capn.unpack(packed, max_words=len(words) // 8 - 1)
            self.assertEqual(caught.exception.name, "PackedTooLong")
        if len(data) > len(words):
            with self.assertRaises(capn.Refusal) as caught:
                capn.pack(data)
            self.assertEqual(caught.exception.args, (f"NotWhole({len(data)})", "NotWhole", None, 0, 0, len(data)))

    @given(some.binary(max_size=60))
    def test_what_unpacks_packs_to_the_same_words(self, text):
        try:
            words = capn.unpack(text)
        except capn.Refusal as refusal:
            self.assertEqual((refusal.name, str(refusal)), ("PackedCut", f"packed: Cut at {refusal.at}"))
            return
        self.assertEqual(capn.unpack(capn.pack(words)), words)


if __name__ == "__main__":
    unittest.main()
