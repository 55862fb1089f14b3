"""Tests signal handlers that raise an exception while a stream is read. No message may be lost or returned twice.

Python runs a handler after a call that it made, or when a Python function begins. So a test reads a stream many times.
In the first run, an exception is raised after the first such call in the package, in the next run after the second
call, and so on, in growing steps, until a run ends without an exception. After each exception reading goes on, and all
messages have to come. Other tests send real signals while the reader waits for a pipe."""
import gzip
import io
import os
import signal
import socket
import struct
import sys
import tempfile
import threading
import time
import unittest

import capn
from messages import stream
from test_reading import Pieces
from test_streams import SECONDS, SMALL, Blocking, Peeking

LONG = stream(struct.pack("<IHH", 0, 600, 0) + bytes(range(1, 241)) * 20)
# The messages of the stream. They have one segment, two segments, or no words, and there are two equal messages in a
# row. One message is longer than the part of a stream that a reader looks at in one call.
MESSAGES = [SMALL, SMALL, stream(bytes(8), bytes(16)), stream(b""), SMALL, LONG, SMALL]


class Interrupted(Exception):
    """The exception that the signal handler raises."""


def after(count):
    """Sets a profile function that counts the calls inside the package. At the call with the number `count`, the
    profile function raises an exception."""

    def watch(frame, event, _):
        nonlocal count
        if event in ("call", "c_return") and frame.f_globals.get("__name__", "").startswith("capn."):
            count -= 1
            if count == 0:
                raise Interrupted

    sys.setprofile(watch)


def taken(found):
    """Reads a stream to its end, and continues after each exception of a signal handler. Returns the messages and the
    number of exceptions."""
    got, raised = [], 0
    try:
        while True:
            try:
                got.append(found.__next__())
            except Interrupted:
                raised += 1
            except StopIteration:
                return got, raised
    finally:
        sys.setprofile(None)


class EachCall(unittest.TestCase):
    """Reads each stream many times. In each run, an exception interrupts one call inside the package. In the next run,
    it interrupts a later call."""

    def files(self, data, folder):
        """Yields functions that make files with the given bytes. Each function makes a different kind of file."""
        path = os.path.join(folder, "file")
        with open(path, "wb") as file:
            file.write(data)

        def pipe(buffering):
            read, write = os.pipe()
            os.write(write, data)
            os.close(write)
            return open(read, "rb", buffering=buffering)

        def of_socket(buffering):
            near, far = socket.socketpair()
            with near, far:
                near.sendall(data)
                return far.makefile("rb", buffering=buffering)

        def pair():
            return io.BufferedRWPair(pipe(0), io.BytesIO())

        yield lambda: open(path, "rb")
        yield lambda: open(path, "rb", buffering=0)
        yield lambda: open(path, "r+b", buffering=0)
        yield lambda: io.BytesIO(data)
        yield lambda: io.BufferedReader(io.BytesIO(data), 100)
        yield lambda: io.BufferedReader(io.BytesIO(data), 3)
        yield lambda: gzip.GzipFile(fileobj=io.BytesIO(gzip.compress(data)))
        yield lambda: pipe(-1)
        yield lambda: pipe(0)
        yield pair
        yield lambda: of_socket(-1)
        yield lambda: of_socket(0)
        yield lambda: Pieces(data, 7)
        yield lambda: Blocking([data])
        yield lambda: Peeking([data[:9], data[9:11], data[11:]])

    def each(self, data, make, wanted):
        """Reads each kind of file many times. Each time, the exception is raised after a different number of calls. No
        message may be missing."""
        with tempfile.TemporaryDirectory() as folder:
            for number, file_of in enumerate(self.files(data, folder)):
                with self.subTest(file=number):
                    calls, raised = 0, 1
                    while raised:
                        calls += 1 + calls // 30
                        file = file_of()
                        found = make(file)
                        after(calls)
                        got, raised = taken(found)
                        self.assertEqual((got, found.number), (wanted, len(wanted)), f"after {calls} calls")
                        getattr(file, "close", lambda: None)()
                    self.assertGreater(calls, 10)

    def test_messages(self):
        for packed in False, True:
            for ahead in False, True:
                with self.subTest(packed=packed, ahead=ahead):
                    data = b"".join(MESSAGES)
                    self.each(capn.pack(data) if packed else data,
                              lambda file: capn.messages(file, packed, read_ahead=ahead), MESSAGES)

    def test_digests(self):
        # Leaves out the message without words. This message has no digest, so it would be rejected and end the test.
        messages = [it for it in MESSAGES if it != stream(b"")]
        self.each(b"".join(messages), capn.digests, [capn.digest(message) for message in messages])

    def test_the_last_one(self):
        for packed in False, True:
            data = b"".join(MESSAGES)
            with tempfile.TemporaryDirectory() as folder:
                for file_of in self.files(capn.pack(data) if packed else data, folder):
                    file = file_of()
                    found, offset = capn.messages(file, packed), 0
                    self.assertIsNone(found.last)
                    for number, message in enumerate(MESSAGES):
                        self.assertEqual((next(found), found.last, found.number), (message, message, number + 1))
                        offset += len(message)
                        self.assertEqual(found.offset, offset)
                    self.assertRaises(StopIteration, next, found)
                    getattr(file, "close", lambda: None)()

    def test_a_splitter(self):
        for form in "stream", "packed":
            data = b"".join(MESSAGES)
            sent = capn.pack(data) if form == "packed" else data
            for size in 5, 11, 4000, len(sent):
                pieces = [sent[at:at + size] for at in range(0, len(sent), size)]
                calls, raised = 0, True
                while raised:
                    calls += 1 + calls // 30
                    splitter, got, raised = capn.Splitter(form), [], False
                    after(calls)
                    for piece in pieces:
                        try:
                            got += splitter.feed(piece)
                        except Interrupted:
                            raised = True
                            got += splitter.feed(piece)
                    sys.setprofile(None)
                    splitter.end()
                    self.assertEqual((got, splitter.number), (MESSAGES, len(MESSAGES)))


class Loops(unittest.TestCase):
    """Tests loops over a stream. The exception of a signal handler ends the loop, and a new loop continues with the
    same stream. No message may be lost or returned twice."""

    def test_loops_go_on(self):
        is_in_loop, raised = False, 0

        def handler(*_):
            nonlocal is_in_loop
            if is_in_loop:
                is_in_loop = False
                raise Interrupted

        # The timer counts the processor time of this process. So even on a busy machine, this process has time for
        # calls between two signals.
        before = signal.signal(signal.SIGVTALRM, handler)
        messages = [stream((2 << 32).to_bytes(8, "little") + number.to_bytes(16, "little")) for number in range(20000)]
        try:
            for packed in False, True:
                data = b"".join(map(capn.pack, messages)) if packed else b"".join(messages)
                for options in {}, {"read_ahead": True}, {"keep_going": True}:
                    for call in capn.messages, capn.digests:
                        found, got, is_done = call(io.BytesIO(data), packed, **options), [], False
                        signal.setitimer(signal.ITIMER_VIRTUAL, 0.004, 0.004)
                        while not is_done:
                            try:
                                is_in_loop = True
                                for one in found:
                                    got.append(one)
                                is_in_loop, is_done = False, True
                            except Interrupted:
                                raised += 1
                        signal.setitimer(signal.ITIMER_VIRTUAL, 0)
                        with self.subTest(packed=packed, options=options, call=call):
                            wanted = messages if call is capn.messages else list(map(capn.digest, messages))
                            self.assertEqual((got == wanted, len(got)), (True, len(messages)))
        finally:
            is_in_loop = False
            signal.setitimer(signal.ITIMER_VIRTUAL, 0)
            signal.signal(signal.SIGVTALRM, before)
        self.assertGreater(raised, 10)


class Signals(unittest.TestCase):
    """Tests signals that come right after a chunk of a pipe or a socket. The signal handler raises its exception while
    `next` runs."""

    def setUp(self):
        self.is_in_next = False

        def handler(*_):
            if self.is_in_next:
                raise Interrupted

        self.before = signal.signal(signal.SIGUSR1, handler)

    def tearDown(self):
        signal.signal(signal.SIGUSR1, self.before)

    def read(self, found):
        """Reads a stream to its end, and returns the messages. An exception can come after the reader has counted a
        message, and before `next` has returned it. This function then takes the message from `last`."""
        got, raised, number = [], 0, 0
        while True:
            try:
                self.is_in_next = True
                message = next(found)
                self.is_in_next = False
                got.append(message)
            except Interrupted:
                self.is_in_next = False
                raised += 1
                if found.number > number:
                    got.append(found.last)
            except StopIteration:
                self.is_in_next = False
                return got, raised
            number = found.number

    def test_pipes_and_sockets(self):
        def of_sockets():
            far, near = socket.socketpair()
            return far.detach(), near.detach()

        message = stream(bytes(range(1, 248)) * 3 + bytes(3))
        many = [message, SMALL] * 15
        for packed in False, True:
            sent = b"".join(map(capn.pack, many)) if packed else b"".join(many)
            for pair, buffering in (os.pipe, -1), (os.pipe, 0), (of_sockets, -1), (of_sockets, 0):
                for ahead in False, True:
                    if pair is of_sockets and packed and not ahead and not buffering:
                        # Leaves out packed streams from an unbuffered socket: the package reads them group by group,
                        # which is slow.
                        continue
                    with self.subTest(packed=packed, pair=pair, buffering=buffering, ahead=ahead):
                        read, write = pair()

                        def send(sent=sent, write=write):
                            for at in range(0, len(sent), 50):
                                os.write(write, sent[at:at + 50])
                                os.kill(os.getpid(), signal.SIGUSR1)
                                time.sleep(0.0002)
                            os.close(write)

                        thread = threading.Thread(target=send, daemon=True)
                        with open(read, "rb", buffering=buffering) as file:
                            found = capn.messages(file, packed, read_ahead=ahead)
                            thread.start()
                            got, raised = self.read(found)
                        thread.join(SECONDS)
                        self.assertEqual((got == many, len(got), found.number), (True, len(many), len(many)))
                        self.assertGreater(raised, 0)


if __name__ == "__main__":
    unittest.main()
