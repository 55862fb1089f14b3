"""Tests two calls that use one stream at the same time: from two threads, from a signal handler, or from two tasks. The
second call raises a `ValueError`. No message is lost, returned twice or changed."""
import asyncio
import collections
import io
import os
import random
import signal
import subprocess
import sys
import tempfile
import threading
import time
import unittest

import capn
from messages import stream

SECONDS = float(os.environ.get("CAPN_SECONDS", "0.7"))


def numbered(count):
    """Returns `count` different messages. The root of each message is a struct of words."""
    source, made = random.Random(3), []
    for number in range(1, count + 1):
        words = source.choice([2, 4, 39, 199])
        made.append(stream((words << 32).to_bytes(8, "little") + number.to_bytes(8, "little")
                           + source.randbytes(8 * words - 8)))
    return made


def each_kind(sent, folder):
    """Yields different kinds of streams with the given messages. Each kind has a name, a function that makes the
    stream, and two flags: whether the stream is packed, and whether it is read ahead."""
    packed = list(map(capn.pack, sent))

    def on_disk(parts, buffering):
        path = os.path.join(folder, "packed" if parts is packed else "plain")
        if not os.path.exists(path):
            with open(path, "wb") as file:
                file.write(b"".join(parts))
        return open(path, "rb", buffering=buffering)

    def piped(parts, buffering):
        read, write = os.pipe()

        def send():
            with open(write, "wb") as file:
                try:
                    for part in parts:
                        file.write(part)
                except BrokenPipeError:
                    pass

        threading.Thread(target=send, daemon=True).start()
        return open(read, "rb", buffering=buffering)

    for is_packed, parts in (False, sent), (True, packed):
        for buffering in -1, 0:
            yield f"disk {is_packed} {buffering}", lambda p=parts, b=buffering: on_disk(p, b), is_packed, False
            yield f"pipe {is_packed} {buffering}", lambda p=parts, b=buffering: piped(p, b), is_packed, False
        yield f"bytes {is_packed}", lambda p=parts: b"".join(p), is_packed, False
        yield f"ahead {is_packed}", lambda p=parts: io.BytesIO(b"".join(p)), is_packed, True


def close(file):
    """Closes a stream if it is a file. Does nothing if the stream is bytes."""
    if not isinstance(file, bytes):
        file.close()


class Workers:
    """Two threads that take messages from one stream until the stream ends."""

    def __init__(self, take):
        self.take, self.got, self.busy, self.wrong = take, [], 0, []
        threads = [threading.Thread(target=self.work, daemon=True) for _ in range(2)]
        for thread in threads:
            thread.start()
        for thread in threads:
            thread.join(60)

    def work(self):
        try:
            while True:
                try:
                    message = self.take()
                except capn.Refusal:
                    raise
                except ValueError:
                    self.busy += 1
                    continue
                except StopIteration:
                    return
                self.got.append(message)
        except BaseException as wrong:
            self.wrong.append(wrong)


def stress(until):
    """Runs two threads on each kind of stream, many times. Prints the errors. Also prints how many calls were rejected
    because the other thread was using the stream."""
    sys.setswitchinterval(1e-6)
    sent, busy = numbered(1500), 0
    wanted = collections.Counter(sent)
    digests = collections.Counter(map(capn.digest, sent))
    with tempfile.TemporaryDirectory() as folder:
        while busy == 0 or time.monotonic() < until:
            for name, make, packed, ahead in each_kind(sent, folder):
                for call, expected in (capn.messages, wanted), (capn.digests, digests):
                    file = make()
                    found = call(file, packed, read_ahead=ahead)
                    workers = Workers(lambda found=found: next(found))
                    close(file)
                    busy += workers.busy
                    if workers.wrong or collections.Counter(workers.got) != expected or found.number != len(sent):
                        print(f"{name}, {call.__name__}: {len(workers.got)} of {len(sent)}: {workers.wrong[:2]}")
                        return
            for form in "stream", "packed":
                left = list(map(capn.pack, sent)) if form == "packed" else list(sent)
                splitter = capn.Splitter(form)

                def feed(left=left, splitter=splitter):
                    try:
                        one = left.pop()
                    except IndexError:
                        raise StopIteration from None
                    try:
                        return b"".join(splitter.feed(one))
                    except ValueError:
                        left.append(one)
                        raise

                workers = Workers(feed)
                busy += workers.busy
                if workers.wrong or collections.Counter(workers.got) != wanted:
                    print(f"a splitter of {form}: {len(workers.got)} of {len(sent)}: {workers.wrong[:2]}")
                    return
    print(f"busy {busy}")


class TwoThreads(unittest.TestCase):
    def test_workers_that_share_a_stream(self):
        # The test runs in another process, because a memory error would end the process in which it happens.
        ran = subprocess.run([sys.executable, "-B", __file__, "stress"], capture_output=True, text=True, timeout=500)
        self.assertEqual((ran.returncode, ran.stderr), (0, ""), ran.stdout)
        self.assertRegex(ran.stdout, r"^busy [1-9]\d*\n$")

    def test_a_call_while_another_thread_waits(self):
        for packed in False, True:
            for buffering in -1, 0:
                for ahead in False, True:
                    for call in capn.messages, capn.digests:
                        read, write = os.pipe()
                        message = numbered(1)[0]
                        got = []
                        with open(read, "rb", buffering=buffering) as file:
                            found = call(file, packed, read_ahead=ahead)
                            thread = threading.Thread(target=lambda found=found, got=got: got.append(next(found)))
                            thread.start()
                            while not found._is_busy:
                                time.sleep(0.001)
                            time.sleep(0.01)
                            with self.assertRaisesRegex(ValueError, "^this stream is being used by another call$"):
                                next(found)
                            os.write(write, capn.pack(message) if packed else message)
                            os.close(write)
                            thread.join(20)
                            self.assertEqual(got, [message if call is capn.messages else capn.digest(message)])
                            self.assertEqual(list(found), [])


class Handlers(unittest.TestCase):
    """Tests a signal handler that uses the stream that the interrupted call is reading."""

    def reads_in_between(self, found, call, wanted):
        """Makes a call on a stream. While this call is running, makes the same call a second time. The second call has
        to fail, since the stream is in use."""
        wrong, got = [], []

        def watch(frame, event, _):
            if event == "c_call" and frame.f_globals.get("__name__", "").startswith("capn.") and not wrong:
                wrong.append(None)
                try:
                    got.append(call())
                except ValueError as raised:
                    wrong[0] = str(raised)

        sys.setprofile(watch)
        try:
            answer = call()
        finally:
            sys.setprofile(None)
        self.assertEqual(got, [])
        self.assertEqual((answer, wrong[0] is not None and wrong[0][-29:]), (wanted, "is being used by another call"))

    def test_in_the_midst_of_a_call(self):
        sent = numbered(3)
        with tempfile.TemporaryDirectory() as folder:
            for name, make, packed, ahead in each_kind(sent, folder):
                for call in capn.messages, capn.digests:
                    with self.subTest(kind=name, call=call):
                        file = make()
                        found = call(file, packed, read_ahead=ahead)
                        answers = sent if call is capn.messages else list(map(capn.digest, sent))
                        self.reads_in_between(found, lambda found=found: next(found), answers[0])
                        self.assertEqual(list(found), answers[1:])
                        close(file)
            for form in "stream", "packed":
                splitter = capn.Splitter(form)
                one = capn.pack(sent[0]) if form == "packed" else sent[0]
                self.reads_in_between(splitter, lambda s=splitter, one=one: s.feed(one), sent[:1])
                splitter.end()

    def test_by_real_signals(self):
        sent, got, busy = numbered(4000), [], 0
        with tempfile.TemporaryDirectory() as folder:
            for name, make, packed, ahead in each_kind(sent, folder):
                file = make()
                found = capn.messages(file, packed, read_ahead=ahead)
                got, seen = [], []

                def handler(*_, found=found, seen=seen):
                    nonlocal busy
                    try:
                        seen.append(next(found))
                    except ValueError:
                        busy += 1
                    except StopIteration:
                        pass

                before = signal.signal(signal.SIGALRM, handler)
                signal.setitimer(signal.ITIMER_REAL, 0.0002, 0.0002)
                try:
                    for message in found:
                        got.append(message)
                finally:
                    signal.setitimer(signal.ITIMER_REAL, 0)
                    signal.signal(signal.SIGALRM, before)
                close(file)
                with self.subTest(kind=name):
                    self.assertEqual(sorted(got + seen), sorted(sent))
        self.assertGreater(busy, 0)


class TwoTasks(unittest.TestCase):
    def test_two_tasks_that_share_a_stream(self):
        first, second = numbered(2)

        async def run(keep_going, packed):
            reader = asyncio.StreamReader()
            found = capn.amessages(reader, packed, keep_going=keep_going)
            waits = asyncio.ensure_future(anext(found))
            await asyncio.sleep(0.01)
            with self.assertRaisesRegex(ValueError, "^this stream is being used by another call$"):
                await anext(found)
            reader.feed_data(capn.pack(first + second) if packed else first + second)
            reader.feed_eof()
            self.assertEqual([await waits, await anext(found)], [first, second])
            # The stream ends after its last message.
            with self.assertRaises(StopAsyncIteration):
                await anext(found)

        for keep_going in False, True:
            for packed in False, True:
                asyncio.run(run(keep_going, packed))

    def test_a_task_that_is_cancelled(self):
        async def run():
            reader = asyncio.StreamReader()
            found = capn.amessages(reader)
            for _ in range(2):
                with self.assertRaises(asyncio.TimeoutError):
                    await asyncio.wait_for(anext(found), 0.01)
            reader.feed_data(numbered(1)[0])
            self.assertEqual(await anext(found), numbered(1)[0])

        asyncio.run(run())


if __name__ == "__main__":
    if sys.argv[1:] == ["stress"]:
        stress(time.monotonic() + SECONDS)
    else:
        unittest.main()
