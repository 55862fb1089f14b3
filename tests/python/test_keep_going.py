"""Tests the option `keep_going` on streams with rejected messages. With this option, a reader also returns the messages
after a rejected message. The reader also reports the number and the offset of each message."""
import asyncio
import io
import random
import socket
import tempfile
import unittest
import unittest.mock

import capn
from messages import stream
from test_reading import Pieces, archives, generated

SMALL = bytes.fromhex("0000000003000000" "0000000002000000" "0500000000000000" "0000000000000000")
WRONG = stream(bytes.fromhex("0000000001000000"))
CAPABILITY = stream((1 << 48).to_bytes(8, "little") + (3 | 7 << 32).to_bytes(8, "little"))
TIGHT = capn.Limits(budget=2)


def told(found):
    """Returns a message or a digest unchanged. For a `Refusal`, returns its text, name, number and offset."""
    if isinstance(found, capn.Refusal):
        return str(found), found.name, found.number, found.offset
    return found


def ways(data, packed):
    """Yields functions. Each makes a reader with `keep_going` over the given bytes. The readers use different kinds of
    files."""
    for ahead in False, True:
        for file in data, io.BytesIO(data), io.BufferedReader(io.BytesIO(data), 16), Pieces(data, 7):
            yield lambda f=file, a=ahead: capn.messages(f, packed, read_ahead=a, keep_going=True)


def awaited(data, packed, **options):
    """Returns all results of an asynchronous reader, and the exception that ends it, or None."""
    async def run():
        reader, got = asyncio.StreamReader(), []
        reader.feed_data(data)
        reader.feed_eof()
        found = capn.amessages(reader, packed, keep_going=True, **options)
        try:
            async for one in found:
                got.append((told(one), found.number, found.offset, found.last_offset, found.last))
        except capn.Refusal as refusal:
            return got, told(refusal)
        return got, None

    return asyncio.run(run())


class KeepGoing(unittest.TestCase):
    def test_after_a_refused_message_the_next_one_comes(self):
        sent = [SMALL, WRONG, SMALL, WRONG, WRONG, SMALL]
        refused = "message {} at {}: Range at 0:0, paid 0, visits 1"
        offsets = [sum(map(len, sent[:n])) for n in range(7)]
        wanted = [one if one == SMALL else (refused.format(n + 1, offsets[n]), "Range", n + 1, offsets[n])
                  for n, one in enumerate(sent)]
        for packed in False, True:
            data = capn.pack(b"".join(sent)) if packed else b"".join(sent)
            for make in ways(data, packed):
                found, got = make(), []
                self.assertEqual((found.number, found.offset, found.last, found.last_offset), (0, 0, None, None))
                for number, one in enumerate(found):
                    got.append(told(one))
                    self.assertEqual((found.number, found.offset, found.last, found.last_offset),
                                     (number + 1, offsets[number + 1], sent[number], offsets[number]))
                self.assertEqual(got, wanted)
                self.assertRaises(StopIteration, next, found)
            for ahead in False, True:
                got, end = awaited(data, packed, read_ahead=ahead)
                self.assertEqual(([one[0] for one in got], end), (wanted, None))
                self.assertEqual([one[1:] for one in got],
                                 [(n + 1, offsets[n + 1], offsets[n], sent[n]) for n in range(6)])

    def test_a_refusal_says_where(self):
        [refusal] = [one for one in capn.messages(SMALL + WRONG + SMALL, keep_going=True)
                     if isinstance(one, capn.Refusal)]
        self.assertEqual((refusal.number, refusal.offset, refusal.way, refusal.byte), (2, 32, (), 8))
        self.assertEqual((refusal.text, refusal.place), ("Range at 0:0, paid 0, visits 1", (0, 0)))
        # The `Refusal` has no traceback, so it doesn't keep the reader alive.
        self.assertIsNone(refusal.__traceback__)

    def test_digests(self):
        sent = [SMALL, WRONG, CAPABILITY, SMALL]
        found = capn.digests(b"".join(sent), keep_going=True)
        got = list(map(told, found))
        self.assertEqual((got[0], got[3]), (capn.digest(SMALL), capn.digest(SMALL)))
        self.assertEqual(got[1][:2], ("message 2 at 32: Range at 0:0, paid 0, visits 1", "Range"))
        self.assertEqual(got[2], ("message 3 at 48: capability 7", "Capability", 3, 48))
        plain = capn.digests(b"".join(sent))
        self.assertEqual((next(plain), plain.number, plain.offset, plain.last, plain.last_offset),
                         (capn.digest(SMALL), 1, 32, SMALL, 0))
        for number, offset in (2, 32), (3, 48):
            with self.assertRaises(capn.Refusal) as caught:
                next(plain)
            self.assertEqual((caught.exception.number, caught.exception.offset), (number, offset))
            self.assertEqual((plain.last, plain.last_offset), (sent[number - 1], offset))
        self.assertEqual(list(plain), [capn.digest(SMALL)])

    def test_all_limits_count(self):
        self.assertEqual([told(one)[1] for one in capn.messages(SMALL * 2, limits=TIGHT, keep_going=True)],
                         ["OverBudget"] * 2)
        # Without `keep_going`, the reader doesn't check the messages against the limits.
        self.assertEqual(list(capn.messages(WRONG + SMALL, limits=TIGHT)), [WRONG, SMALL])

    def test_a_damaged_table_ends_the_stream(self):
        long = bytes(4) + (9).to_bytes(4, "little") + bytes(72)
        for end, name, limits in (
            (b"\xff" * 8 + SMALL, "TooManySegments", capn.Limits()),
            (SMALL[:-8], "FrameCut", capn.Limits()),
            (long + SMALL, "TooManyWords", capn.Limits(message_words=8)),
        ):
            for packed in False, True:
                data = SMALL + WRONG + end
                found = capn.messages(capn.pack(data) if packed else data, packed, limits, keep_going=True)
                self.assertEqual([next(found), told(next(found))[2:]], [SMALL, (2, 32)])
                for _ in range(2):
                    with self.assertRaises(capn.Refusal) as caught:
                        next(found)
                    self.assertEqual((caught.exception.name, caught.exception.number, caught.exception.offset),
                                     (name, 3, 48))
                got, ended = awaited(capn.pack(data) if packed else data, packed, limits=limits)
                self.assertEqual((len(got), ended[1:]), (2, (name, 3, 48)))

    def test_any_streams(self):
        source, refused = random.Random(11), 0
        for _ in range(150):
            frames = [generated.framed(archives.segments_of(source)) for _ in range(source.randint(0, 6))]
            wanted, offset = [], 0
            for number, frame in enumerate(frames):
                try:
                    capn.check(frame)
                    wanted.append(frame)
                except capn.Refusal as refusal:
                    wanted.append((f"message {number + 1} at {offset}: {refusal}", refusal.name, number + 1, offset))
                    refused += 1
                offset += len(frame)
            for packed in False, True:
                data = capn.pack(b"".join(frames)) if packed else b"".join(frames)
                for make in ways(data, packed):
                    self.assertEqual(list(map(told, make())), wanted)
                self.assertEqual([one[0] for one in awaited(data, packed)[0]], wanted)
        self.assertGreater(refused, 50)

    def test_memory_that_is_there_later(self):
        found = capn.messages(SMALL + WRONG, keep_going=True)
        with unittest.mock.patch.object(capn._stream, "check", side_effect=MemoryError):
            for _ in range(2):
                self.assertRaises(MemoryError, next, found)
                self.assertEqual((found.number, found.offset), (0, 0))
        self.assertEqual([told(one)[2:] if isinstance(one, capn.Refusal) else one for one in found], [SMALL, (2, 32)])

    def test_a_socket(self):
        near, far = socket.socketpair()
        with near, far, far.makefile("rb") as file:
            found = capn.messages(file, keep_going=True)
            near.sendall(WRONG)
            self.assertEqual(told(next(found))[2:], (1, 0))
            near.sendall(SMALL)
            self.assertEqual(next(found), SMALL)


class OneSignature(unittest.TestCase):
    """Tests that the synchronous and the asynchronous readers take the same arguments. A positional argument must still
    have the meaning that it had before `keep_going` was added."""

    def awaited(self, data, *arguments, **options):
        async def run():
            reader = asyncio.StreamReader()
            reader.feed_data(data)
            reader.feed_eof()
            return [one async for one in capn.amessages(reader, *arguments, **options)]

        return asyncio.run(run())

    def test_the_same_arguments(self):
        limits, packed = capn.Limits(message_words=3), capn.pack(SMALL * 2)
        for data, arguments, options in (
            (SMALL * 2, (), {}), (SMALL * 2, (False,), {}), (SMALL * 2, (False, limits), {}),
            (packed, (True,), {}), (packed, (True, limits), {}), (packed, (True, limits), {"read_ahead": True}),
            (packed, (), {"form": "packed"}), (packed, ("packed",), {}), (packed, ("packed", limits), {}),
            (SMALL * 2, ("stream",), {}), (packed, (), {"packed": True, "limits": limits}),
            (SMALL * 2, (), {"keep_going": True, "read_ahead": True}),
        ):
            with self.subTest(arguments=arguments, options=options):
                self.assertEqual(list(capn.messages(data, *arguments, **options)), [SMALL] * 2)
                self.assertEqual(self.awaited(data, *arguments, **options), [SMALL] * 2)
                self.assertEqual(len(list(capn.digests(data, *arguments, **options))), 2)

    def test_limits_as_before(self):
        with self.assertRaisesRegex(capn.Refusal, "TooManyWords"):
            self.awaited(SMALL, capn.Limits(message_words=2))
        self.assertEqual(self.awaited(capn.pack(SMALL), capn.Limits(message_words=3), form="packed"), [SMALL])
        self.assertRaises(TypeError, capn.amessages, asyncio, capn.Limits(2), capn.Limits(3))

    def test_wrong_arguments(self):
        class Reader:
            async def read(self, size):
                return b""

        for call, source in (capn.messages, b""), (capn.digests, b""), (capn.amessages, Reader()):
            for arguments, options in (
                (("bare",), {}), ((), {"form": "bare"}), ((True,), {"form": "stream"}),
                (("packed",), {"form": "stream"}),
            ):
                self.assertRaises(ValueError, call, source, *arguments, **options)
            self.assertRaises(TypeError, call, source, form=3)
            self.assertRaises(TypeError, call, source, limits=3)

    def test_where_a_stream_stands(self):
        sent = [SMALL, WRONG, CAPABILITY]
        offsets = [0, 32, 48, 72]

        async def run(ahead):
            reader = asyncio.StreamReader()
            reader.feed_data(b"".join(sent))
            reader.feed_eof()
            found = capn.amessages(reader, read_ahead=ahead)
            self.assertEqual((found.number, found.offset, found.last, found.last_offset), (0, 0, None, None))
            number = 0
            async for message in found:
                self.assertEqual((message, found.last, found.number, found.offset, found.last_offset),
                                 (sent[number], message, number + 1, offsets[number + 1], offsets[number]))
                number += 1
            self.assertEqual(number, 3)

        for ahead in False, True:
            asyncio.run(run(ahead))
            found = capn.messages(b"".join(sent), read_ahead=ahead)
            self.assertIsNone(found.last_offset)
            for number, message in enumerate(found):
                self.assertEqual((message, found.last_offset), (sent[number], offsets[number]))
        with tempfile.TemporaryFile() as file:
            file.write(b"".join(sent))
            file.seek(0)
            found = capn.messages(file)
            self.assertEqual([(next(found), found.last_offset) for _ in sent], list(zip(sent, offsets)))


if __name__ == "__main__":
    unittest.main()
