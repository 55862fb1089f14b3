"""Tests packed bytes that unpack to very many bytes: how many bytes a call unpacks, and when."""
import io
import random
import tracemalloc
import unittest
import unittest.mock

import capn
from messages import stream
from test_reading import archives, generated, model

EMPTY = stream(b"")
# The packed bytes of 256 zero words. In a stream, each of these zero words is a message without words.
MANY = b"\x00\xff"
MIB = 1 << 20


def peak(call):
    """Makes a call. Returns two items: the result or the exception of the call, and the most memory that it used."""
    tracemalloc.start()
    try:
        try:
            answer = call()
        except Exception as raised:
            answer = raised
        return answer, tracemalloc.get_traced_memory()[1]
    finally:
        tracemalloc.stop()


def all_of(splitter, data):
    """Feeds bytes to a splitter, and returns all messages that are then complete."""
    got, found = [], splitter.feed(data)
    while found:
        got += found
        found = splitter.feed(b"")
    return got


class Splitters(unittest.TestCase):
    LIMITS = capn.Limits(message_words=1 << 10, budget=1 << 10)

    def test_few_bytes_are_many_messages(self):
        # Copies of MANY, one MiB in all, unpack to 134,217,728 messages.
        splitter = capn.Splitter("packed", self.LIMITS)
        found, took = peak(lambda: splitter.feed(MANY * (1 << 19)))
        self.assertLess(took, 64 * MIB)
        self.assertTrue(0 < len(found) < 400_000)
        self.assertEqual(set(found), {EMPTY})
        total = len(found)
        for _ in range(3):
            self.assertEqual(splitter.wanted, 0)
            self.assertRegex(repr(splitter), f"^<capn splitter, {total} messages, ")
            for wrong in lambda: splitter.feed(EMPTY), splitter.end:
                with self.assertRaisesRegex(ValueError, "^messages are left: feed no bytes until none are returned$"):
                    wrong()
            found, took = peak(lambda: splitter.feed(b""))
            self.assertLess(took, 64 * MIB)
            self.assertTrue(0 < len(found) < 400_000)
            total += len(found)
            self.assertEqual((splitter.number, splitter.offset), (total, 8 * total))

    def test_they_all_come(self):
        splitter = capn.Splitter("packed", self.LIMITS)
        found, calls = splitter.feed(MANY * 4096), 0
        total = 0
        while found:
            total, calls = total + len(found), calls + 1
            found = splitter.feed(b"")
        self.assertEqual((total, splitter.number, splitter.offset), (1 << 20, 1 << 20, 8 << 20))
        self.assertTrue(3 < calls < 100)
        self.assertEqual((splitter.wanted, splitter.feed(capn.pack(EMPTY))), (1, [EMPTY]))
        splitter.end()

    def test_a_table_is_looked_at_before_its_message_is_unpacked(self):
        # The segment table announces 2,048 words, which is over the limit. The packed zeros after the table would
        # unpack to 128 MiB.
        splitter = capn.Splitter("packed", self.LIMITS)
        data = capn.pack((1 << 11 << 32).to_bytes(8, "little")) + MANY * (1 << 16)
        wrong, took = peak(lambda: splitter.feed(data))
        self.assertIsInstance(wrong, capn.Refusal)
        self.assertEqual(str(wrong), "message 1 at 0: frame: TooManyWords(2048)")
        self.assertLess(took, 2 * MIB)

    def test_one_long_message_is_no_more_than_it_is(self):
        words = 1 << 18
        splitter = capn.Splitter("packed")
        data = capn.pack(stream(bytes(8 * words))) + MANY * (1 << 12)
        found, took = peak(lambda: splitter.feed(data))
        self.assertEqual(len(found[0]), 8 + 8 * words)
        self.assertLess(took, 16 * MIB)

    def test_as_many_as_were_fed_come_at_once(self):
        # The packed bytes in this test don't unpack to very many bytes, so one call returns all messages in them.
        source = random.Random(5)
        parts = [stream(source.randbytes(8 * source.randint(0, 40))) for _ in range(60_000)]
        splitter = capn.Splitter("packed")
        self.assertTrue(splitter.feed(capn.pack(b"".join(parts))) == parts)
        splitter.end()
        zeros = [stream(bytes(8000))] * 600
        self.assertTrue(splitter.feed(capn.pack(b"".join(zeros))) == zeros)
        splitter.end()

    def test_any_pieces_where_each_call_returns_few(self):
        source = random.Random(66)
        for most in 1, 100, 1000:
            with unittest.mock.patch.multiple(capn._splitter, _MOST=most, _TIMES=0):
                for _ in range(150):
                    data = b"".join(generated.framed(archives.segments_of(source))
                                    for _ in range(source.randint(0, 5))) + EMPTY * source.choice([0, 0, 3, 700])
                    sent = bytearray(generated.packed(data))
                    for _ in range(source.choice([0, 0, 1, 3])):
                        if sent:
                            sent[source.randrange(len(sent))] = source.getrandbits(8)
                    sent = bytes(sent[:source.randint(0, len(sent))] if source.random() < 0.3 else sent)
                    found, fault = model.messages(sent, "packed", 8388608)
                    splitter, got, refused, at = capn.Splitter("packed"), [], None, 0
                    try:
                        while at < len(sent):
                            size = source.choice([1, 2, 7, 8, 9, 100, 5000])
                            found_now = splitter.feed(sent[at:at + size])
                            at += size
                            while found_now:
                                got += found_now
                                found_now = splitter.feed(b"")
                        splitter.end()
                    except capn.Refusal as refusal:
                        refused = (refusal.text, refusal.number, refusal.offset)
                    with self.subTest(sent=sent.hex(), most=most):
                        self.assertEqual(got, [frame for _, frame, _ in found])
                        self.assertEqual(refused, fault)


class Streams(unittest.TestCase):
    def test_read_ahead(self):
        limits = capn.Limits(message_words=16)
        for _ in range(2):
            found = capn.messages(io.BytesIO(MANY * (1 << 13)), packed=True, limits=limits, read_ahead=True)
            first, took = peak(lambda found=found: [next(found) for _ in range(1000)])
            self.assertEqual((first, found.number, found.offset), ([EMPTY] * 1000, 1000, 8000))
            self.assertLess(took, 2 * MIB)
        found = capn.messages(io.BytesIO(MANY * 100), packed=True, limits=limits, read_ahead=True)
        self.assertEqual(sum(1 for _ in found), 25_600)

    def test_every_other_way(self):
        class Plain:
            """A file without `peek`. Its first `read` returns all bytes of the file."""

            def __init__(self, data):
                self.data = [data]

            def read(self, size):
                return self.data.pop() if self.data else b""

        for make in lambda: MANY * 8192, lambda: io.BytesIO(MANY * 8192), lambda: Plain(MANY * 8192):
            found = capn.messages(make(), packed=True, limits=capn.Limits(message_words=16))
            first, took = peak(lambda found=found: [next(found) for _ in range(1000)])
            self.assertEqual(first, [EMPTY] * 1000)
            self.assertLess(took, 24 * MIB)
        found = capn.messages(Plain(MANY * 1000), packed=True)
        self.assertEqual((sum(1 for _ in found), found.number), (256_000, 256_000))


if __name__ == "__main__":
    unittest.main()
