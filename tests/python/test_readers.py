"""Tests readers over files whose `read` returns wrong results, and readers of streams that arrive in many chunks."""
import asyncio
import random
import time
import unittest

import capn
from messages import stream

SMALL = bytes.fromhex("0000000003000000" "0000000002000000" "0500000000000000" "0000000000000000")


class Answering:
    """A file whose `read` returns the given results in order, and then no bytes."""

    def __init__(self, *answers):
        self.answers = list(answers)

    def read(self, size):
        return self.answers.pop(0) if self.answers else b""


def ways(begun, wrong):
    """Yields readers over a file whose `read` returns `wrong`. If `begun` is true, an earlier `read` returns the first
    bytes of a message."""
    for packed in False, True:
        sent = capn.pack(SMALL) if packed else SMALL
        for ahead in False, True:
            for keep_going in False, True:
                file = Answering(sent[:3], wrong) if begun else Answering(wrong)
                yield capn.messages(file, packed, read_ahead=ahead, keep_going=keep_going)


class Answers(unittest.TestCase):
    def test_what_is_no_bytes(self):
        for wrong in "text", 7, -1, [0, 0, 0, 0, 0, 0, 0, 0], 2.5, object():
            for begun in False, True:
                for found in ways(begun, wrong):
                    with self.subTest(wrong=wrong, begun=begun), self.assertRaises(TypeError):
                        next(found)
                    self.assertEqual(found.number, 0)

    def test_other_objects_with_a_buffer(self):
        for layout in bytearray, memoryview:
            for packed in False, True:
                sent = capn.pack(SMALL * 2) if packed else SMALL * 2
                for ahead in False, True:
                    pieces = [layout(sent[at:at + 5]) for at in range(0, len(sent), 5)]
                    found = capn.messages(Answering(*pieces), packed, read_ahead=ahead)
                    self.assertEqual(list(found), [SMALL] * 2)

    def test_more_than_was_asked_for(self):
        for packed in False, True:
            sent = capn.pack(SMALL * 5) if packed else SMALL * 5
            for cut in 1, 9, len(sent) - 1, len(sent):
                for ahead in False, True:
                    for keep_going in False, True:
                        found = capn.messages(Answering(sent[:cut], sent[cut:]), packed, read_ahead=ahead,
                                              keep_going=keep_going)
                        self.assertEqual(list(found), [SMALL] * 5)

    def test_a_reader_that_is_awaited(self):
        class Reader:
            def __init__(self, *answers):
                self.answers = list(answers)

            async def read(self, size):
                return self.answers.pop(0) if self.answers else b""

        async def run(*answers, **options):
            return [one async for one in capn.amessages(Reader(*answers), **options)]

        for options in {}, {"read_ahead": True}, {"keep_going": True}:
            self.assertEqual(asyncio.run(run(SMALL * 3 + SMALL[:5], SMALL[5:], **options)), [SMALL] * 4)
            for wrong in "text", 7:
                with self.assertRaises(TypeError):
                    asyncio.run(run(SMALL, wrong, **options))


class Growth(unittest.TestCase):
    def test_a_long_message_in_small_pieces_takes_linear_time(self):
        def seconds(size, packed, ahead):
            message = stream(random.Random(1).randbytes(size))
            sent = capn.pack(message) if packed else message
            pieces = [sent[at:at + 4096] for at in range(0, len(sent), 4096)]
            start = time.process_time()
            [found] = capn.messages(Answering(*pieces), packed, read_ahead=ahead)
            took = time.process_time() - start
            self.assertEqual(found, message)
            splitter, got = capn.Splitter("packed" if packed else "stream"), []
            for piece in pieces:
                got += splitter.feed(piece)
            self.assertEqual(got, [message])
            return took

        for packed in False, True:
            for ahead in False, True:
                short, long = seconds(1 << 20, packed, ahead), seconds(1 << 23, packed, ahead)
                # Eight times as many bytes may take about eight times as long. Quadratic work would take sixty-four
                # times as long.
                self.assertLess(long, 24 * short + 0.5)


if __name__ == "__main__":
    unittest.main()
