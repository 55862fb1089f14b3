"""Tests the place that an error reports, the parts of a message that a `Refusal` keeps, and the first difference of a
message from its canonical form."""
import copy
import dataclasses
import gc
import mmap
import pickle
import struct
import sys
import unittest

import capn
from messages import far, stream
from test_explained import CALLS, SEGMENTS, explain, refusal_of, stop, stop_of

# The root is a struct of one word and two pointers. The first pointer is null, and the second refers to a list that is
# longer than the message.
WORDS = [1 << 32 | 2 << 48, 5, 0, 1 | 2 << 32 | (1 << 28) << 35]
BARE = struct.pack("<4Q", *WORDS)
REFUSED = stream(BARE)


class Refusals(unittest.TestCase):
    def test_where_it_is(self):
        for data, form, byte in (REFUSED, "stream", 32), (BARE, "bare", 24), (capn.pack(REFUSED), "packed", 32):
            for kind, in_place in (bytes, False), (bytearray, False), (bytearray, True), (memoryview, True):
                for call in CALLS:
                    refusal = refusal_of(call, kind(data), form, in_place=in_place)
                    self.assertEqual((refusal.name, refusal.place), ("Range", (0, 3)))
                    self.assertEqual(stop_of(refusal), ((1,), byte))
                self.assertEqual(stop_of(refusal_of(capn.show, kind(data), form)), ((1,), byte))
        self.assertEqual(stop_of(refusal_of(capn.is_canonical_words, BARE)), ((1,), 24))
        # The next messages test the path and the byte of an error. The path is empty if the error is at the root
        # pointer. The byte is None if the message has no root. If the error comes after a far pointer, the path and the
        # byte are those of the far pointer, and not those of its landing pad.
        self.assertEqual(stop_of(refusal_of(capn.check, stream(bytes(4) + b"\1" + bytes(3)))), ((), 8))
        self.assertEqual(stop_of(refusal_of(capn.check, far(BARE))), ((1,), 48))
        self.assertEqual(stop_of(refusal_of(capn.check, far(b""))), ((), 16))
        for data, form in (stream(b""), "stream"), (stream(b"", BARE), "stream"), (b"", "bare"):
            refusal = refusal_of(capn.check, data, form)
            self.assertEqual((refusal.name, *stop_of(refusal)), ("NoRoot", (), None))

    def test_no_refusal_of_a_walk(self):
        capability = bytes.fromhex("0000000000000100" "0300000000000000")
        for call in (
            lambda: capn.check(b""), lambda: capn.check(REFUSED[:-1]), lambda: capn.check(REFUSED * 2),
            lambda: capn.check(b"\xff" * 8), lambda: capn.check(REFUSED, limits=capn.Limits(message_words=3)),
            lambda: capn.check(b"\1", "packed"), lambda: capn.check(bytes(9), "bare"), lambda: capn.pack(bytes(9)),
            lambda: capn.unpack(bytes(2), 0), lambda: capn.canonical(capability, "bare"),
            lambda: capn.check_segments([bytes(9)]), lambda: capn.check_segments([]),
            lambda: capn.read(stream(bytes(8)), most_slots=0), lambda: next(capn.messages(REFUSED[:-1])),
        ):
            refusal = refusal_of(call)
            self.assertEqual((refusal.place, *stop_of(refusal)), (None, None, None), refusal)
        self.assertEqual(stop_of(capn.Refusal("Range at 0:3, paid 0, visits 0", "Range", (0, 3))), (None, None))

    def test_of_a_stream(self):
        # The attribute `byte` is an offset from the start of the rejected message. The attribute `offset` is the offset
        # of this message in the stream.
        good = stream(bytes(8))
        for packed in False, True:
            data = good * 2 + REFUSED + good
            found = capn.digests(capn.pack(data) if packed else data, packed=packed)
            self.assertEqual(len([next(found), next(found)]), 2)
            refusal = refusal_of(next, found)
            self.assertEqual((refusal.number, refusal.offset, refusal.way, refusal.byte), (3, 32, (1,), 32))
            whole = explain(capn.pack(data) if packed else data, "packed" if packed else "stream")
            self.assertEqual(stop(whole), ((1,), refusal.offset + refusal.byte))
            self.assertEqual(len(list(found)), 1)

    def test_copies(self):
        for asked in False, True:
            for make in copy.copy, copy.deepcopy, lambda one: pickle.loads(pickle.dumps(one)):
                refusal = refusal_of(capn.check, REFUSED)
                refusal._of_message(7, 99)
                refusal.add_note("of the peer at the door")
                if asked:
                    self.assertEqual(refusal.way, (1,))
                other = make(refusal)
                self.assertEqual((type(other), other.args, str(other)), (capn.Refusal, refusal.args, str(refusal)))
                self.assertEqual((other.way, other.byte, other.number, other.offset), ((1,), 32, 7, 99))
                self.assertEqual((other.place, other.paid, other.visits), ((0, 3), 4, 3))
                self.assertEqual(other.__notes__, refusal.__notes__)
                self.assertNotEqual(other, refusal)
        refusal = refusal_of(capn.check, stream(BARE + bytes(1 << 20)))
        self.assertLess(len(pickle.dumps(refusal)), 1000)
        self.assertEqual(stop_of(refusal), ((1,), 32))

    def test_only_arguments_that_it_was_made_with(self):
        refusal = refusal_of(capn.check, REFUSED)
        self.assertEqual(refusal.args, ("Range at 0:3, paid 4, visits 3", "Range", (0, 3), 4, 3, 0))
        for name in "way", "byte":
            self.assertRaises(AttributeError, setattr, refusal, name, None)


class Held(unittest.TestCase):
    """Tests which parts of a message a `Refusal` keeps."""

    def test_bytes_until_it_is_asked(self):
        for given, form in (REFUSED, "stream"), (capn.pack(REFUSED), "packed"):
            before = sys.getrefcount(given)
            refusal = refusal_of(capn.check, given, form)
            refusal.__traceback__ = None
            gc.collect()
            self.assertEqual(sys.getrefcount(given), before + 1)
            self.assertEqual(refusal.byte, 32)
            self.assertEqual(sys.getrefcount(given), before)
            self.assertEqual(refusal.way, (1,))

    def let_go(self, call, given, then, wanted=((1,), 32), **options):
        """Makes a call that rejects its message. While the traceback still holds the objects of the call, calls `then`,
        which clears or closes the message's buffer. The `Refusal` must still have the wanted path and byte."""
        try:
            call(given, **options)
        except capn.Refusal as refusal:
            then()
            self.assertEqual(stop_of(refusal), wanted)
        else:
            self.fail(f"{call} has accepted it")

    def test_nothing_of_the_caller_s(self):
        for call in CALLS:
            for in_place in False, True:
                data, cut, mapped = bytearray(REFUSED), bytearray(REFUSED[:-1]), mmap.mmap(-1, len(REFUSED))
                mapped[:] = REFUSED
                self.let_go(call, data, data.clear, in_place=in_place)
                self.let_go(call, cut, cut.clear, (None, None), in_place=in_place)
                self.let_go(call, mapped, mapped.close, in_place=in_place)
                for message in REFUSED, stream(BARE + bytes(9000)):
                    view = memoryview(message)
                    self.let_go(call, view, view.release, in_place=in_place)
        data = bytearray(stream(bytes(8)))
        self.let_go(capn.read, data, data.clear, (None, None), most_slots=0, in_place=True)

    def test_nothing_of_segments(self):
        for call in SEGMENTS:
            for in_place in False, True:
                data, cut = bytearray(BARE), bytearray(9)
                self.let_go(call, [data], data.clear, in_place=in_place)
                self.let_go(call, [cut], cut.clear, (None, None), in_place=in_place)


class Departures(unittest.TestCase):
    def test_each_kind(self):
        for words, departure, text in (
            ([1 << 32, 5], None, ""),
            ([2 << 32, 5, 0],
             capn.Departure("word", (), byte=0, word=2 << 32, canonical_word=1 << 32, owner="pointer"),
             "at byte 0: 0000000002000000 (struct of 2 words and 0 slots, offset 0), canonical 0000000001000000"
             " (struct of 1 words and 0 slots, offset 0), the pointer at root"),
            ([1 << 48, 1 << 2 | 1 | 2 << 32 | 3 << 35, 7, 0x636261],
             capn.Departure("word", (0,), byte=8, word=1 << 2 | 1 | 2 << 32 | 3 << 35,
                            canonical_word=1 | 2 << 32 | 3 << 35, owner="pointer"),
             "at byte 8: 050000001a000000 (list of 3 bytes, offset 1), canonical 010000001a000000"
             " (list of 3 bytes, offset 0), the pointer at 0"),
            ([1 << 48, 1 | 2 << 32 | 3 << 35, 0x7A636261],
             capn.Departure("word", (0,), byte=16, word=0x7A636261, canonical_word=0x636261, owner="last word"),
             "at byte 16: 6162637a00000000, canonical 6162630000000000, the last word of 0"),
            ([1 << 48, 1 | 7 << 32, 1 << 32],
             capn.Departure("word", (0,), byte=16, word=1 << 32, canonical_word=0, owner="tag"),
             "at byte 16: 0000000001000000, canonical 0000000000000000, the tag of 0"),
            ([1 << 32, 5, 6], capn.Departure("after", byte=16, word=6),
             "at byte 16: 0600000000000000, canonical nothing, after the value"),
            ([2 << 48, 0, 3 | 9 << 32], capn.Departure("capability", (1,), index=9), "capability 9 at 1"),
        ):
            segment = struct.pack(f"<{len(words)}Q", *words)
            framed = departure
            if departure is not None and departure.byte is not None:
                framed = dataclasses.replace(departure, byte=departure.byte + 8)
            with self.subTest(text=text):
                self.assertEqual(capn.departure(segment, "bare"), departure)
                self.assertEqual("" if departure is None else str(departure), text)
                for message in stream(segment), bytearray(stream(segment)), capn.read(stream(segment)):
                    self.assertEqual(capn.departure(message), framed)
                self.assertEqual(capn.departure(capn.pack(stream(segment)), "packed"), framed)
                self.assertEqual(capn.departure(capn.read(capn.pack(stream(segment)), "packed")), framed)
                self.assertEqual(explain(segment, "bare")["canonical"], f"no: {text}" if text else "yes")
        departure = capn.departure(stream(bytes(8), b""))
        self.assertEqual((departure, str(departure)), (capn.Departure("segments", count=2), "2 segments"))

    def test_it_is_a_value(self):
        departure = capn.departure(stream(bytes(16)))
        self.assertEqual(departure, capn.Departure("after", byte=16, word=0))
        self.assertRaises(dataclasses.FrozenInstanceError, setattr, departure, "byte", 3)
        for same in copy.copy(departure), pickle.loads(pickle.dumps(departure)):
            self.assertEqual((same, hash(same)), (departure, hash(departure)))

    def test_arguments(self):
        for wrong in "text", 3, None, [1]:
            self.assertRaises(TypeError, capn.departure, wrong)
        self.assertRaises(ValueError, capn.departure, REFUSED, "framed")
        self.assertRaises(TypeError, capn.departure, REFUSED, limits=3)
        message = capn.read(stream(bytes(8)))
        message.close()
        self.assertRaises(ValueError, capn.departure, message)


if __name__ == "__main__":
    unittest.main()
