"""Tests streams that arrive in chunks: when each message is returned, which bytes the reader leaves unread, and the
state of the reader after an exception."""
import asyncio
import bz2
import contextlib
import gzip
import io
import os
import pickle
import random
import signal
import socket
import subprocess
import sys
import tempfile
import threading
import time
import traceback
import unittest
import unittest.mock

import capn
from messages import stream
from test_reading import Pieces, archives, generated, model

SMALL = bytes.fromhex("0000000003000000" "0000000002000000" "0500000000000000" "0000000000000000")
# The messages of the tests: one with one segment, one with two segments, one without words, and one that is longer than
# a chunk.
SHAPES = [
    SMALL,
    stream(bytes(8), bytes(16)),
    stream(b""),
    stream((1 | (2 | 70_001 << 3) << 32).to_bytes(8, "little") + bytes(range(256)) * 273 + bytes(120)),
]
SECONDS = 20


def in_time(call, *arguments):
    """Makes a call in another thread. Returns the result if it comes within SECONDS."""
    answers = []
    thread = threading.Thread(target=lambda: answers.append(call(*arguments)), daemon=True)
    thread.start()
    thread.join(SECONDS)
    return answers[0] if answers else "no answer"


class Blocking:
    """A file whose `read` returns the given chunks. A chunk may be None, which means that no bytes have come yet. If a
    chunk is an exception, `read` raises it."""

    def __init__(self, pieces):
        self.pieces, self.read_at_all = list(pieces), 0

    def read(self, size):
        if not self.pieces:
            return b""
        piece = self.pieces.pop(0)
        if piece is None or isinstance(piece, Exception):
            if piece is not None:
                raise piece
            return None
        if len(piece) > size:
            self.pieces.insert(0, piece[size:])
        self.read_at_all += len(piece[:size])
        return piece[:size]


class Peeking(Blocking):
    """A `Blocking` file that also has `peek`. One call of `peek` returns at most one chunk."""

    def peek(self, size=0):
        while self.pieces and self.pieces[0] == b"":
            self.pieces.pop(0)
        first = self.pieces[0] if self.pieces else b""
        if isinstance(first, Exception):
            self.pieces.pop(0)
            raise first
        return first or b""


class AsSoonAsItIsThere(unittest.TestCase):
    """Tests readers of streams whose sender waits for a reply before it sends more. Each message has to be returned as
    soon as it is complete."""

    def test_a_socket(self):
        for buffering in -1, 0:
            for packed in False, True:
                with self.subTest(buffering=buffering, packed=packed):
                    near, far = socket.socketpair()
                    with near, far, far.makefile("rb", buffering=buffering) as file:
                        found = capn.messages(file, packed=packed)
                        for message in SHAPES + SHAPES[:2]:
                            sent = capn.pack(message) if packed else message
                            thread = threading.Thread(target=near.sendall, args=(sent,))
                            thread.start()
                            self.assertEqual(in_time(next, found), message)
                            thread.join()

    def test_two_messages_that_came_at_once(self):
        near, far = socket.socketpair()
        with near, far, far.makefile("rb") as file:
            near.sendall(SMALL)
            near.sendall(SMALL)
            found = capn.messages(file)
            self.assertEqual([in_time(next, found), in_time(next, found)], [SMALL, SMALL])
            self.assertEqual((found.number, found.offset), (2, 64))

    def test_a_pipe_of_a_process(self):
        code = "import sys; o = sys.stdout.buffer; o.write(bytes.fromhex(sys.argv[1])); o.flush(); sys.stdin.read()"
        for packed in False, True:
            sent = capn.pack(SMALL) if packed else SMALL
            with subprocess.Popen([sys.executable, "-c", code, sent.hex()], stdin=subprocess.PIPE,
                                  stdout=subprocess.PIPE) as ran:
                self.assertEqual(in_time(next, capn.messages(ran.stdout, packed=packed)), SMALL)
                self.assertIsNone(ran.poll())
                ran.stdin.close()


class NoByteAfterIt(unittest.TestCase):
    def files(self, data, folder):
        """Yields files of different kinds, each with the given bytes."""
        path = os.path.join(folder, "file")
        with open(path, "wb") as file:
            file.write(data)
        yield open(path, "rb")
        yield open(path, "rb", buffering=0)
        yield open(path, "rb", buffering=16)
        yield io.BytesIO(data)
        yield gzip.GzipFile(fileobj=io.BytesIO(gzip.compress(data)))
        yield bz2.BZ2File(io.BytesIO(bz2.compress(data)))
        for buffering in 0, -1:
            read, write = os.pipe()
            os.write(write, data)
            os.close(write)
            yield open(read, "rb", buffering=buffering)
        yield Blocking([data])
        yield Peeking([data[:9], data[9:11], data[11:]])

    def test_what_follows_is_left(self):
        after = b"HTTP/1.1 200 OK\r\n"
        with tempfile.TemporaryDirectory() as folder:
            for packed in False, True:
                for shape, message in enumerate(SHAPES[:3]):
                    sent = capn.pack(message) if packed else message
                    for file in self.files(sent * 2 + after, folder):
                        with self.subTest(packed=packed, shape=shape, file=type(file)):
                            found = capn.messages(file, packed=packed)
                            self.assertEqual(next(found), message)
                            # A new reader can read the second message, because the first reader took no byte after its
                            # own message.
                            self.assertEqual(next(capn.messages(file, packed=packed)), message)
                            rest = b""
                            while piece := file.read(100):
                                rest += piece
                            self.assertEqual(rest, after)
                        getattr(file, "close", lambda: None)()

    def test_a_long_message(self):
        for packed in False, True:
            sent = capn.pack(SHAPES[3]) if packed else SHAPES[3]
            file = io.BytesIO(sent + b"after")
            self.assertEqual(next(capn.messages(file, packed=packed)), SHAPES[3])
            self.assertEqual(file.read(), b"after")
            with tempfile.TemporaryFile() as file:
                file.write(sent + b"after")
                file.seek(0)
                self.assertEqual(next(capn.messages(file, packed=packed)), SHAPES[3])
                self.assertEqual(file.read(), b"after")

    def test_where_a_file_stands(self):
        source, seen = random.Random(68), 0
        for _ in range(150):
            frames = [generated.framed(archives.segments_of(source)) for _ in range(source.randint(1, 5))]
            if source.random() < 0.1:
                frames.insert(source.randrange(len(frames)), stream(source.randbytes(66_000), bytes(3000)))
            for packed in False, True:
                parts = [capn.pack(frame) if packed else frame for frame in frames]
                buffer = source.choice([1, 2, 5, 16, 100, 4096, 1 << 17])
                data = io.BytesIO(b"".join(parts))
                for file in io.BufferedReader(data, buffer), data:
                    file.seek(0)
                    found, stands = capn.messages(file, packed=packed), 0
                    for frame, part in zip(frames, parts):
                        stands += len(part)
                        with self.subTest(packed=packed, buffer=buffer, frame=len(frame)):
                            self.assertEqual((next(found), file.tell()), (frame, stands))
                        seen += 1
                    self.assertRaises(StopIteration, next, found)
        self.assertGreater(seen, 500)

    def test_bytes_that_come_one_by_one_are_unpacked_once(self):
        # Packs 60,000 random bytes, and reads them through a buffer of one byte. This would take seconds if the reader
        # unpacked all earlier bytes again for each new byte.
        message = stream(random.Random(70).randbytes(60_000))
        sent, start = capn.pack(message), time.process_time()
        found = capn.messages(io.BufferedReader(io.BytesIO(sent), 1), packed=True)
        self.assertEqual(list(found), [message])
        one_by_one = time.process_time() - start
        start = time.process_time()
        self.assertEqual(list(capn.messages(Pieces(sent, 1), packed=True)), [message])
        self.assertLess(one_by_one, 20 * (time.process_time() - start) + 0.5)

    def test_a_buffered_file_answers_as_the_model_says(self):
        source, refusals = random.Random(69), 0
        for _ in range(500):
            data = b"".join(
                generated.framed(archives.segments_of(source)) for _ in range(source.randint(0, 6)))
            packed = source.random() < 0.7
            sent = bytearray(generated.packed(data) if packed else data)
            for _ in range(source.choice([0, 0, 1, 3])):
                if sent:
                    sent[source.randrange(len(sent))] = source.getrandbits(8)
            sent = bytes(sent[:source.randint(0, len(sent))] if source.random() < 0.3 else sent)
            found, fault = model.messages(sent, "packed" if packed else "stream", 8388608)
            file = io.BufferedReader(io.BytesIO(sent), source.choice([1, 3, 8, 50, 4096]))
            got, refused = [], None
            try:
                got.extend(capn.messages(file, packed=packed))
            except capn.Refusal as refusal:
                refused, refusals = (refusal.text, refusal.number, refusal.offset), refusals + 1
            with self.subTest(sent=sent.hex(), packed=packed):
                self.assertEqual((got, refused), ([frame for _, frame, _ in found], fault))
        self.assertGreater(refusals, 100)

    def test_a_refused_frame(self):
        for packed in False, True:
            wrong = bytes(4) + b"\xff" * 4
            sent = capn.pack(wrong) if packed else wrong
            file = io.BytesIO(sent + b"after")
            with self.assertRaises(capn.Refusal):
                next(capn.messages(file, packed=packed))
            self.assertIn(file.read(), (b"after", sent + b"after"))

    def test_a_group_that_two_messages_share(self):
        # Packs all messages together. In the packed bytes, one group then stands for many messages without words and
        # for a part of another message.
        text = capn.pack(SMALL * 3 + stream(b"") * 10 + SMALL)
        for file in io.BytesIO(text), Blocking([text]), Peeking([text]):
            self.assertEqual(list(capn.messages(file, packed=True)), [SMALL] * 3 + [stream(b"")] * 10 + [SMALL])


class Wound(unittest.TestCase):
    """Tests files with `seek`. A reader may look ahead, and find several messages at once. It returns one of them only
    if the file's position is then still at the beginning of this message."""

    def files(self, data, folder):
        path = os.path.join(folder, "file")
        with open(path, "wb") as file:
            file.write(data)
        for mode, buffering in ("rb", -1), ("rb", 0), ("rb", 16), ("rb", 1 << 20), ("r+b", -1), ("r+b", 0):
            yield open(path, mode, buffering=buffering)
        yield io.BytesIO(data)
        yield io.BufferedReader(io.BytesIO(data), 100)
        yield gzip.GzipFile(fileobj=io.BytesIO(gzip.compress(data)))
        yield Failing(data)

    def each(self, parts, run):
        """Makes files of each kind. A file has the given parts, either packed or unpacked. Runs a test on each file.
        The test gets the file, its reader, and the bytes of each part in the file."""
        with tempfile.TemporaryDirectory() as folder:
            for packed in False, True:
                sent = [capn.pack(part) if packed else part for part in parts]
                for file in self.files(b"".join(sent), folder):
                    with self.subTest(packed=packed, file=file), file:
                        run(file, capn.messages(file, packed=packed), sent)

    def test_another_one_reads_between_two_messages(self):
        another = b"another "
        parts = [SMALL, another, SMALL, SMALL, another * 40, SHAPES[1], SMALL]

        def run(file, found, sent):
            for part, message in zip(sent, parts):
                if message.startswith(another):
                    self.assertEqual(file.read(len(part)), part)
                else:
                    self.assertEqual(next(found), message)
            self.assertEqual((found.number, found.offset), (5, 4 * len(SMALL) + len(SHAPES[1])))
            self.assertRaises(StopIteration, next, found)

        self.each(parts, run)

    def test_it_is_wound(self):
        # The long messages come last. A reader that looks ahead sees only the beginning of a long message.
        parts = [SMALL, SHAPES[1], SMALL, SMALL] + [stream(random.Random(73).randbytes(40_000))] * 2

        def run(file, found, sent):
            def reads(*numbers):
                for number in numbers:
                    self.assertEqual(next(found), parts[number])
                    self.assertEqual(file.tell(), sum(map(len, sent[:number + 1])))

            reads(0, 1)
            file.seek(0)
            reads(0, 1, 2)
            file.seek(len(sent[0]))
            reads(1, 2, 3, 4, 5)
            file.seek(sum(map(len, sent[:4])))
            reads(4)
            file.seek(0)
            reads(0)
            file.seek(0, 2)
            self.assertRaises(StopIteration, next, found)
            self.assertEqual(found.number, 12)

        self.each(parts, run)

    def test_in_any_order(self):
        source = random.Random(74)
        words = [0, 0, 3, 3, 3, 40, 40, 300, 600, 1100, 5000, 8191, 9000]
        parts = [stream(source.randbytes(8 * source.choice(words))) for _ in range(80)]

        def run(file, found, sent):
            places = [0]
            for part in sent:
                places.append(places[-1] + len(part))
            at = 0
            for _ in range(150):
                if at == len(parts) or source.random() < 0.15:
                    at = source.randrange(len(parts))
                    file.seek(places[at])
                elif source.random() < 0.1:
                    # Here the test itself reads a message from the file. The reader doesn't read this message.
                    self.assertEqual(file.read(len(sent[at])), sent[at])
                    at += 1
                    continue
                self.assertEqual((next(found), file.tell()), (parts[at], places[at + 1]))
                at += 1

        self.each(parts, run)

    def test_it_changes(self):
        other = SMALL.replace(b"\5", b"\6")
        for packed in False, True:
            one, two, end = (capn.pack(each) if packed else each for each in (SMALL, other, SHAPES[1]))
            for last, message in (one, SMALL), (two, other), (end, SHAPES[1]):
                for make in io.BytesIO, tempfile.TemporaryFile, lambda: tempfile.TemporaryFile(buffering=0):
                    with make() as file:
                        file.write(one * 3)
                        file.seek(0)
                        found = capn.messages(file, packed=packed)
                        self.assertEqual(next(found), SMALL)
                        file.write(last)
                        file.truncate()
                        file.seek(len(one))
                        self.assertEqual([next(found), file.tell()], [message, len(one + last)])
                        self.assertRaises(StopIteration, next, found)

    def test_messages_of_each_length(self):
        source = random.Random(72)
        words = [0, 3, 40, 600, 1100, 8190, 8191, 9000]
        parts = [stream(source.randbytes(8 * source.choice(words))) for _ in range(60)]

        def run(file, found, sent):
            stands = offset = 0
            for number, (part, message) in enumerate(zip(sent, parts)):
                stands += len(part)
                offset += len(message)
                self.assertEqual(next(found), message)
                self.assertEqual((file.tell(), found.number, found.offset), (stands, number + 1, offset))
            self.assertRaises(StopIteration, next, found)

        self.each(parts, run)

    def test_a_refusal_has_its_place(self):
        parts = [SMALL] * 300 + [b"\xff" * 8]

        def run(file, found, sent):
            self.assertEqual([next(found) for _ in range(300)], [SMALL] * 300)
            for _ in range(2):
                with self.assertRaises(capn.Refusal) as caught:
                    next(found)
                self.assertEqual((caught.exception.number, caught.exception.offset), (301, 300 * len(SMALL)))

        self.each(parts, run)

    def test_a_cut_group_has_its_place(self):
        text = capn.pack(SMALL)
        with tempfile.TemporaryFile() as file:
            file.write(text * 200 + text[:-1])
            file.seek(0)
            found = capn.messages(file, packed=True)
            with self.assertRaises(capn.Refusal) as caught:
                list(found)
            self.assertEqual((caught.exception.name, caught.exception.number), ("PackedCut", 201))
            self.assertGreaterEqual(caught.exception.at, len(text) * 200)
            told = []
            for data in text * 200 + text[:-1], Blocking([text * 200 + text[:-1]]):
                try:
                    list(capn.messages(data, packed=True))
                except capn.Refusal as refusal:
                    told.append((str(refusal), refusal.number, refusal.offset))
            self.assertEqual(told, [(str(caught.exception), 201, 200 * len(SMALL))] * 2)

    def test_a_failing_file(self):
        for packed in False, True:
            sent = capn.pack(SMALL) if packed else SMALL
            for fails in range(1, 12):
                file = Failing(sent * 3)
                file.fails = fails
                found, got, failed = capn.messages(file, packed=packed), [], 0
                for _ in range(20):
                    try:
                        got.append(next(found))
                    except TimeoutError:
                        failed += 1
                    except StopIteration:
                        break
                with self.subTest(packed=packed, fails=fails):
                    self.assertEqual((got, found.number), ([SMALL] * 3, 3))

    @unittest.skipUnless(os.path.exists("/dev/zero"), "there is no /dev/zero")
    def test_a_file_that_stands_nowhere(self):
        for buffering in -1, 0:
            with open("/dev/zero", "rb", buffering=buffering) as file:
                found = capn.messages(file)
                self.assertEqual([next(found) for _ in range(2000)], [stream(b"")] * 2000)


class Failing(io.BytesIO):
    """A file with `peek`. One call of `peek` raises an exception before it reads anything."""

    fails = 0

    def tried(self):
        self.fails -= 1
        if not self.fails:
            raise TimeoutError

    def peek(self, size=0):
        self.tried()
        place = self.tell()
        seen = super().read(100)
        super().seek(place)
        return seen

    def read(self, size=-1):
        self.tried()
        return super().read(size)

    def seek(self, place, whence=0):
        self.tried()
        return super().seek(place, whence)


class AfterAnException(unittest.TestCase):
    def taken(self, found, *wrong):
        got, raised = [], 0
        while True:
            try:
                got.append(next(found))
            except wrong:
                raised += 1
            except StopIteration:
                return got, raised

    def test_no_bytes_now(self):
        m = SHAPES[1]
        for packed in False, True:
            s = capn.pack(m) if packed else m
            for kind in Blocking, Peeking:
                pieces = [s[:5], None, s[5:], s, None, None, s[:1], None, s[1:], None]
                with self.subTest(packed=packed, kind=kind):
                    got, raised = self.taken(capn.messages(kind(pieces), packed=packed), BlockingIOError)
                    self.assertEqual((got, raised), ([m] * 3, 5))
                    got, _ = self.taken(capn.digests(kind(pieces), packed=packed), BlockingIOError)
                    self.assertEqual(got, [capn.digest(m)] * 3)

    def test_a_pipe_that_does_not_block(self):
        for buffering in 0, -1:
            for packed in False, True:
                read, write = os.pipe()
                os.set_blocking(read, False)
                sent = capn.pack(SMALL) if packed else SMALL
                with open(read, "rb", buffering=buffering) as file, open(write, "wb", buffering=0) as other:
                    found = capn.messages(file, packed=packed)
                    for part in sent[:3], sent[3:5], sent[5:-1]:
                        other.write(part)
                        self.assertRaises(BlockingIOError, next, found)
                    other.write(sent[-1:])
                    self.assertEqual(next(found), SMALL)
                    self.assertRaises(BlockingIOError, next, found)
                    other.close()
                    self.assertRaises(StopIteration, next, found)
                    self.assertRaises(StopIteration, next, found)

    def pipes(self):
        """Yields pipes, some of them buffered. Some pipes are for packed messages, and the others for unpacked ones.
        With each pipe comes a function that turns a message into the bytes for this pipe."""
        for buffering in 0, -1:
            for packed in False, True:
                read, write = os.pipe()
                with open(write, "wb", buffering=0) as other, open(read, "rb", buffering=buffering) as file:
                    yield file, other, packed, capn.pack if packed else bytes

    def test_a_signal_comes_while_a_pipe_is_waited_on(self):
        def handler(*_):
            raise TimeoutError

        before = signal.signal(signal.SIGALRM, handler)
        try:
            for file, other, packed, sent in self.pipes():
                if isinstance(file, io.BufferedReader):
                    # Leaves out buffered files: after an exception, a `BufferedReader` loses bytes that it has read.
                    continue
                found = capn.messages(file, packed=packed)
                for message in SHAPES[:3] * 2:
                    text, begin = sent(message), 0
                    for end in sorted({1, 8, 16, len(text) - 1}):
                        if end < len(text):
                            other.write(text[begin:end])
                            signal.setitimer(signal.ITIMER_REAL, 0.02)
                            self.assertRaises(TimeoutError, next, found)
                            begin = end
                    other.write(text[begin:])
                    self.assertEqual(next(found), message)
                self.assertEqual((found.number, found.offset), (6, 2 * sum(map(len, SHAPES[:3]))))
        finally:
            signal.setitimer(signal.ITIMER_REAL, 0)
            signal.signal(signal.SIGALRM, before)

    def test_a_pipe_is_read_by_another_one_between_two_messages(self):
        for file, other, packed, sent in self.pipes():
            found, another = capn.messages(file, packed=packed), b"5 more bytes\0\0\0\0" * 9
            for message in SHAPES[:3] * 3:
                other.write(sent(message) + another)
            for number, message in enumerate(SHAPES[:3] * 3):
                self.assertEqual((next(found), found.number), (message, number + 1))
                self.assertEqual(file.read(len(another)), another)
            other.close()
            self.assertRaises(StopIteration, next, found)

    def test_a_pipe_is_closed(self):
        for file, other, packed, sent in self.pipes():
            other.write(sent(SMALL) * 2)
            found = capn.messages(file, packed=packed)
            self.assertEqual(next(found), SMALL)
            file.close()
            self.assertRaises(ValueError, next, found)
            self.assertEqual((found.number, found.offset), (1, len(SMALL)))

    def test_no_descriptor_is_left(self):
        before = len(os.listdir("/proc/self/fd"))
        for file, other, packed, sent in self.pipes():
            other.write(sent(SMALL) * 2)
            found = capn.messages(file, packed=packed)
            self.assertEqual((next(found), found.number, found.offset), (SMALL, 1, len(SMALL)))
            del found
        self.assertEqual(len(os.listdir("/proc/self/fd")), before)

    def test_a_pipe_has_messages_of_each_length(self):
        source = random.Random(72)
        lengths = [*range(40), *(8 * source.randint(1, 1 << source.randint(1, 13)) for _ in range(300))]
        parts = [stream(source.randbytes(length // 8 * 8)) for length in lengths]
        for file, other, packed, sent in self.pipes():
            thread = threading.Thread(target=lambda: [other.write(sent(part)) for part in parts], daemon=True)
            thread.start()
            found = capn.messages(file, packed=packed)
            for number, part in enumerate(parts):
                self.assertEqual((next(found), found.number), (part, number + 1))
            thread.join(SECONDS)

    def test_a_pipe_is_read_by_a_child_too(self):
        for file, other, packed, sent in self.pipes():
            if isinstance(file, io.BufferedReader):
                continue
            found = capn.messages(file, packed=packed)
            other.write(sent(SMALL) + sent(SHAPES[1]) + sent(SMALL))
            self.assertEqual(next(found), SMALL)
            child = os.fork()
            if not child:
                os._exit(next(found) != SHAPES[1])
            self.assertEqual(os.waitpid(child, 0)[1], 0)
            self.assertEqual((next(found), found.number), (SMALL, 2))

    def test_a_pipe_has_long_messages_and_wrong_ones(self):
        long = stream(random.Random(71).randbytes(70_000))
        for file, other, packed, sent in self.pipes():
            found = capn.messages(file, packed=packed)
            parts = [SMALL, long, SHAPES[1], stream(bytes(65_528)), stream(bytes(65_536)), SMALL]
            text = b"".join(map(sent, parts)) + sent(bytes(4) + b"\xff" * 4 + bytes(8))
            thread = threading.Thread(target=other.write, args=(text,), daemon=True)
            thread.start()
            self.assertEqual([next(found) for _ in parts], parts)
            for _ in range(2):
                with self.assertRaises(capn.Refusal) as caught:
                    next(found)
                self.assertEqual(
                    (caught.exception.number, caught.exception.offset), (7, sum(map(len, parts))))
            thread.join(SECONDS)

    def test_a_pipe_that_does_not_block_and_is_read_ahead(self):
        for buffering in 0, -1:
            read, write = os.pipe()
            os.set_blocking(read, False)
            with open(read, "rb", buffering=buffering) as file, open(write, "wb", buffering=0) as other:
                found = capn.messages(file, read_ahead=True)
                self.assertRaises(BlockingIOError, next, found)
                other.write(SMALL * 2 + SMALL[:9])
                self.assertEqual([next(found), next(found)], [SMALL] * 2)
                self.assertRaises(BlockingIOError, next, found)
                other.write(SMALL[9:])
                self.assertEqual(next(found), SMALL)
                other.close()
                self.assertRaises(StopIteration, next, found)

    def test_an_exception_of_the_file(self):
        for packed in False, True:
            s = capn.pack(SMALL) if packed else SMALL
            for kind in Blocking, Peeking:
                for cut in range(1, len(s)):
                    file = kind([s[:cut], TimeoutError(), s[cut:], s])
                    got, raised = self.taken(capn.messages(file, packed=packed), TimeoutError)
                    self.assertEqual((got, raised), ([SMALL] * 2, 1))

    def test_a_refusal_stays(self):
        data = SMALL + stream(b"") + b"\xff" * 8
        for packed in False, True:
            found = capn.messages(io.BytesIO(capn.pack(data) if packed else data), packed=packed)
            self.assertEqual([next(found), next(found)], [SMALL, stream(b"")])
            for _ in range(2):
                with self.assertRaises(capn.Refusal) as caught:
                    next(found)
                refusal = caught.exception
                self.assertEqual((refusal.number, refusal.offset), (3, 40))
                self.assertEqual(str(refusal), "message 3 at 40: frame: TooManySegments(4294967296)")
                self.assertEqual(refusal.text, "frame: TooManySegments(4294967296)")
            told = "".join(traceback.format_exception(refusal))
            self.assertEqual(told.count("message 3 at 40"), 1)
            again = pickle.loads(pickle.dumps(refusal))
            self.assertEqual((again.number, again.offset, again.args), (3, 40, refusal.args))

    def test_a_cut_has_a_place(self):
        for packed in False, True:
            sent = capn.pack(SMALL * 2) if packed else SMALL * 2
            found = capn.messages(io.BytesIO(sent[:-1]), packed=packed)
            self.assertEqual(next(found), SMALL)
            for _ in range(2):
                with self.assertRaises(capn.Refusal) as caught:
                    next(found)
                self.assertEqual((caught.exception.number, caught.exception.offset), (2, 32))
                self.assertEqual(caught.exception.name, "PackedCut" if packed else "FrameCut")

    def test_a_frame_is_refused_by_as_many_bytes_as_are_needed(self):
        for written in "ffffffff0000000000", "0300000000000001ffffffff00000000", "00000000ffffffff", "0000000001":
            data = bytes.fromhex(written)
            for end in range(len(data) + 1):
                found, fault = model.messages(data[:end], "stream", 8388608)
                splitter = capn.Splitter()
                ways = [capn.messages(Pieces(data[:end], most)) for most in (1, 3, 100)]
                ways += [capn.messages(data[:end]), capn.messages(data[:end], read_ahead=True)]
                for way in ways:
                    with self.subTest(data=data[:end].hex()):
                        self.told(fault, lambda way=way: list(way))
                self.told(fault, lambda splitter=splitter, end=end: (splitter.feed(data[:end]), splitter.end()))

    def told(self, fault, call):
        if fault is None:
            call()
            return
        with self.assertRaises(capn.Refusal) as caught:
            call()
        self.assertEqual((caught.exception.text, caught.exception.number, caught.exception.offset), fault)
        text, number, offset = fault
        self.assertEqual(str(caught.exception), f"message {number} at {offset}: {text}")

    def test_four_bytes_are_enough_to_refuse(self):
        near, far = socket.socketpair()
        with near, far, far.makefile("rb", buffering=0) as file:
            near.sendall(b"\xff" * 4)
            found = capn.messages(file)

            def refused():
                try:
                    return next(found)
                except capn.Refusal as refusal:
                    return refusal.name

            self.assertEqual(in_time(refused), "TooManySegments")

    def test_a_refusal_of_one_call_has_none(self):
        with self.assertRaises(capn.Refusal) as caught:
            capn.check(b"")
        self.assertEqual((caught.exception.number, caught.exception.offset), (None, None))


class Ahead(unittest.TestCase):
    """Tests readers with `read_ahead`. They return the same results as other readers, and return each message as soon
    as its bytes have come. But they may take more bytes from the file than the returned message has."""

    def test_the_same_answers(self):
        source = random.Random(67)
        for _ in range(200):
            frames = [generated.framed(archives.segments_of(source)) for _ in range(source.randint(0, 5))]
            for packed in False, True:
                data = b"".join(frames)
                data = generated.packed(data) if packed else data
                data = data[:source.randint(0, len(data))] if source.random() < 0.3 else data
                ways = []
                for found in (capn.messages(data, packed=packed), capn.messages(data, packed=packed, read_ahead=True),
                              capn.messages(Pieces(data, source.choice([1, 9])), packed=packed, read_ahead=True)):
                    got, refused = [], None
                    try:
                        got.extend(found)
                    except capn.Refusal as refusal:
                        refused = (refusal.text, refusal.number, refusal.offset)
                        self.assertRaises(capn.Refusal, next, found)
                    ways.append((got, refused, found.number, found.offset))
                self.assertEqual(ways[0], ways[1])
                self.assertEqual(ways[0], ways[2])

    def test_it_waits_for_nothing(self):
        for buffering in -1, 0:
            near, far = socket.socketpair()
            with near, far, far.makefile("rb", buffering=buffering) as file:
                near.sendall(SMALL * 2 + SMALL[:9])
                found = capn.messages(file, read_ahead=True)
                self.assertEqual([in_time(next, found), in_time(next, found)], [SMALL] * 2)

    def test_no_bytes_now(self):
        found = capn.messages(Blocking([SMALL[:5], None, SMALL[5:] + SMALL, None]), read_ahead=True)
        self.assertRaises(BlockingIOError, next, found)
        self.assertEqual([next(found), next(found)], [SMALL] * 2)
        self.assertRaises(BlockingIOError, next, found)
        for _ in range(2):
            self.assertRaises(StopIteration, next, found)


class Digests(unittest.TestCase):
    def test_it_goes_on_behind_a_refused_message(self):
        wrong = stream(bytes.fromhex("0000000001000000"))
        found = capn.digests(SMALL + wrong + SMALL)
        self.assertEqual(next(found), capn.digest(SMALL))
        with self.assertRaises(capn.Refusal) as caught:
            next(found)
        self.assertEqual((caught.exception.number, caught.exception.offset), (2, 32))
        self.assertEqual(str(caught.exception), "message 2 at 32: Range at 0:0, paid 0, visits 1")
        self.assertEqual((list(found), found.number), ([capn.digest(SMALL)], 3))

    def test_limits(self):
        found = capn.digests(SMALL, limits=capn.Limits(budget=2))
        with self.assertRaisesRegex(capn.Refusal, "OverBudget"):
            next(found)


class Splitters(unittest.TestCase):
    def test_feed_and_end(self):
        splitter = capn.Splitter()
        self.assertEqual(splitter.wanted, 8)
        self.assertEqual(splitter.feed(SMALL[:8]), [])
        self.assertEqual(splitter.wanted, 24)
        self.assertEqual(splitter.feed(SMALL[8:] + SMALL + SMALL[:1]), [SMALL, SMALL])
        self.assertEqual((splitter.number, splitter.offset), (2, 64))
        with self.assertRaises(capn.Refusal) as caught:
            splitter.end()
        self.assertEqual((caught.exception.name, caught.exception.number, caught.exception.offset), ("FrameCut", 3, 64))
        self.assertRaises(capn.Refusal, splitter.feed, b"")
        empty = capn.Splitter("packed")
        empty.end()
        self.assertEqual(empty.feed(b""), [])
        empty.end()

    def test_what_comes_before_a_refusal_is_answered(self):
        splitter = capn.Splitter()
        self.assertEqual(splitter.feed(SMALL * 2 + b"\xff" * 8), [SMALL] * 2)
        for call in lambda: splitter.feed(SMALL), splitter.end:
            with self.assertRaises(capn.Refusal) as caught:
                call()
            self.assertEqual((caught.exception.name, caught.exception.number), ("TooManySegments", 3))

    def test_any_pieces(self):
        source = random.Random(65)
        for _ in range(400):
            frames = [generated.framed(archives.segments_of(source)) for _ in range(source.randint(0, 5))]
            for form in "stream", "packed":
                data = b"".join(frames)
                data = generated.packed(data) if form == "packed" else data
                if source.random() < 0.3:
                    data = data[:source.randint(0, len(data))]
                found, fault = model.messages(data, form, 8388608)
                splitter, got, refused, at = capn.Splitter(form), [], None, 0
                try:
                    while at < len(data):
                        size = source.choice([1, 2, 7, 8, 9, 100])
                        got += splitter.feed(bytearray(data[at:at + size]))
                        at += size
                    splitter.end()
                except capn.Refusal as refusal:
                    refused = (refusal.text, refusal.number, refusal.offset)
                self.assertEqual(got, [frame for _, frame, _ in found])
                self.assertEqual(refused, fault)

    def test_memory_that_is_there_later(self):
        # The package allocates memory in order to find the end of a message with several segments. In this test, the
        # allocation fails once.
        message, ffi = SHAPES[1], capn._packed.ffi
        look = ffi.typeof("capn_look *")
        refusals = []

        def once(call):
            """Returns a function that makes the given call and returns the call's status. When the call succeeds for
            the first time, the function returns the status for out of memory instead."""
            def little(*words):
                status = call(*words)
                if status == 0 and not refusals:
                    refusals.append(status)
                    for word in words:
                        if isinstance(word, ffi.CData) and ffi.typeof(word) == look:
                            word.count = word.end = word.take = 0
                    return 8
                return status
            return little

        def once_of_one(call):
            """Returns a function that makes the given call, which looks at one message and returns a number of bytes.
            When the call succeeds for the first time, the function returns 0 instead, and sets the status for out of
            memory."""
            def little(text, size, one):
                taken = call(text, size, one)
                if taken and not refusals:
                    refusals.append(taken)
                    one.status = 8
                    return 0
                return taken
            return little

        with contextlib.ExitStack() as patches:
            patches.enter_context(unittest.mock.patch.object(
                capn._packed, "_look_at_one", once_of_one(capn._packed._look_at_one)))
            for module in capn._reader, capn._packed, capn._seen, capn._splitter:
                for name in "_first", "_look_at", "_look_at_packed":
                    if hasattr(module, name):
                        patches.enter_context(unittest.mock.patch.object(module, name, once(getattr(module, name))))
            for packed in False, True:
                sent = capn.pack(message) if packed else message
                for make in (
                    lambda: capn.messages(Blocking([sent]), packed=packed),
                    lambda: capn.messages(Peeking([sent]), packed=packed),
                    lambda: capn.messages(io.BytesIO(sent), packed=packed),
                    lambda: capn.messages(sent, packed=packed, read_ahead=True),
                ):
                    refusals.clear()
                    found = make()
                    self.assertRaises(MemoryError, next, found)
                    self.assertEqual(next(found), message)
                    self.assertRaises(StopIteration, next, found)
                refusals.clear()
                splitter = capn.Splitter("packed" if packed else "stream")
                self.assertRaises(MemoryError, splitter.feed, sent)
                self.assertEqual((splitter.wanted, splitter.feed(b"")), (0, [message]))

                async def run(sent=sent, packed=packed):
                    reader = asyncio.StreamReader()
                    reader.feed_data(sent)
                    found = capn.amessages(reader, form="packed" if packed else "stream")
                    with self.assertRaises(MemoryError):
                        await anext(found)
                    return await anext(found)

                refusals.clear()
                self.assertEqual(asyncio.run(run()), message)

    def test_wanted_leaves_what_follows(self):
        source = random.Random(66)
        for _ in range(200):
            frame = generated.framed(archives.segments_of(source))
            for form in "stream", "packed":
                data = generated.packed(frame) if form == "packed" else frame
                splitter, at, got = capn.Splitter(form), 0, []
                while not got and at < len(data):
                    size = splitter.wanted
                    got = splitter.feed(data[at:at + size])
                    at += size
                self.assertEqual((got, at), ([frame], len(data)))

    def test_arguments(self):
        for form, wrong in ("bare", ValueError), (3, TypeError):
            self.assertRaises(wrong, capn.Splitter, form)
        self.assertRaises(TypeError, capn.Splitter, "stream", 3)
        self.assertRaises(TypeError, capn.Splitter().feed, "text")
        self.assertRegex(repr(capn.Splitter()), "^<capn splitter, 0 messages, 0 bytes held>$")


class Awaited(unittest.TestCase):
    def test_messages(self):
        async def run(form):
            reader, got = asyncio.StreamReader(), []
            data = b"".join(SHAPES)
            sent = capn.pack(data) if form == "packed" else data

            async def feed():
                for at in range(0, len(sent), 1000):
                    reader.feed_data(sent[at:at + 1000])
                    await asyncio.sleep(0)
                reader.feed_eof()

            task = asyncio.create_task(feed())
            async for message in capn.amessages(reader, form=form):
                got.append(message)
            await task
            return got

        for form in "stream", "packed":
            self.assertEqual(asyncio.run(run(form)), SHAPES)

    def test_it_takes_no_byte_after_it_and_loses_none(self):
        async def run(form):
            reader = asyncio.StreamReader()
            sent = capn.pack(SMALL) if form == "packed" else SMALL
            found = capn.amessages(reader, form=form)
            for part in sent[:3], sent[3:7]:
                reader.feed_data(part)
                with self.assertRaises(asyncio.TimeoutError):
                    await asyncio.wait_for(anext(found), 0.02)
            reader.feed_data(sent[7:] + b"after")
            self.assertEqual(await asyncio.wait_for(anext(found), SECONDS), SMALL)
            self.assertEqual(found.number, 1)
            self.assertEqual(await reader.read(100), b"after")
            reader.feed_data(sent[:-1])
            reader.feed_eof()
            with self.assertRaises(capn.Refusal) as caught:
                await anext(found)
            self.assertEqual((caught.exception.number, caught.exception.offset), (2, 32))

        for form in "stream", "packed":
            asyncio.run(run(form))


class Files(unittest.TestCase):
    def test_what_has_a_buffer_is_a_stream(self):
        for data in SMALL * 2, bytearray(SMALL * 2), memoryview(SMALL * 2), memoryview(SMALL * 2).cast("Q"):
            self.assertEqual(list(capn.messages(data)), [SMALL] * 2)
        self.assertEqual(list(capn.messages(capn.pack(SMALL * 2), packed=True)), [SMALL] * 2)
        self.assertEqual(list(capn.messages(capn.pack(SMALL * 2), form="packed")), [SMALL] * 2)

    def test_arguments(self):
        for file in "text", 3, None, [SMALL]:
            self.assertRaises(TypeError, capn.messages, file)
        self.assertRaises(ValueError, capn.messages, b"", True, form="stream")
        self.assertRaises(ValueError, capn.messages, b"", form="bare")
        self.assertRaises(TypeError, capn.messages, io.BytesIO(), limits=3)

    def test_a_file_that_gives_more_than_it_is_asked_for(self):
        class Generous:
            pieces = [SMALL * 2 + SMALL[:5], SMALL[5:]]

            def read(self, size):
                return self.pieces.pop(0) if self.pieces else b""

        for packed in False, True:
            file = Generous()
            if packed:
                file.pieces = [capn.pack(SMALL * 3)]
            self.assertEqual(list(capn.messages(file, packed=packed)), [SMALL] * 3)

    def test_it_ends_once(self):
        file = io.BytesIO()
        found = capn.messages(file)
        self.assertEqual(list(found), [])
        file.write(SMALL)
        file.seek(0)
        self.assertEqual(list(found), [])

    def test_memory_grows_as_bytes_come(self):
        # The segment table announces 64 MiB, but the file has only a few bytes.
        asked = []

        class File:
            def read(self, size):
                asked.append(size)
                return bytes(4) + (8388608).to_bytes(4, "little") if len(asked) == 1 else bytes(min(size, 100_000)) \
                    if len(asked) < 6 else b""

        with self.assertRaisesRegex(capn.Refusal, "frame: Cut"):
            next(capn.messages(File()))
        self.assertLessEqual(max(asked), 400_000)

    def test_pieces_of_any_size(self):
        for most in 1, 3, 64, 65536:
            for packed in False, True:
                data = b"".join(SHAPES)
                sent = capn.pack(data) if packed else data
                self.assertEqual(list(capn.messages(Pieces(sent, most), packed=packed)), SHAPES)


if __name__ == "__main__":
    unittest.main()
