"""Tests that other threads run during a call, and that a failed allocation raises a MemoryError."""
import re
import subprocess
import sys
import threading
import unittest
from pathlib import Path

import capn
from messages import stream
from tried import IS_SANITIZED

# A segment of 16 MiB, whose root is a list of null pointers.
COUNT = (1 << 21) - 1
SEGMENT = (1 | (6 | COUNT << 3) << 32).to_bytes(8, "little") + bytes(8 * COUNT)

# PACKED has 2^14 groups of packed bytes. Each group unpacks to 256 zero words, so the 32 KiB unpack to 32 MiB.
START = """
import capn, resource
PACKED = b"\\0\\xff" * (1 << 14)
"""
# Limits the process to 8 MiB more memory than it uses now.
LITTLE = """
with open("/proc/self/statm") as file:
    used = int(file.read().split()[0]) * resource.getpagesize()
resource.setrlimit(resource.RLIMIT_AS, (used + (8 << 20), resource.RLIM_INFINITY))
"""
# Checks a packed message that unpacks to 32 MiB and whose root is invalid. Keeps the exception.
REFUSED = """
import struct
try:
    capn.check(capn.pack(struct.pack("<IIQ", 0, 1 + (1 << 22), 7)) + PACKED, "packed")
except capn.Refusal as refused:
    refusal = refused
"""
# Reads the path that the exception reports, while no memory is left. Reads the path again after the memory limit is
# lifted.
WAY = """
try:
    refusal.way
except MemoryError as error:
    print(f"MemoryError: {error}")
resource.setrlimit(resource.RLIMIT_AS, (resource.RLIM_INFINITY, resource.RLIM_INFINITY))
print(refusal.way, refusal.byte)
"""

# Reads the text of the error `out of memory` in docs/DIAGNOSTICS.md.
PAGE = Path(__file__).resolve().parents[2] / "docs" / "DIAGNOSTICS.md"
TEXT = re.search(r"^\| `([^`]+)` \| (?:memory was refused|(?:an|the) allocation failed|out of memory)\b",
                 PAGE.read_text(encoding="utf-8"), re.M)[1]


def child(*code):
    """Runs Python code in another process, and returns its output."""
    ran = subprocess.run([sys.executable, "-B", "-c", "".join(code)], capture_output=True, check=False, text=True)
    return ran.stdout + ran.stderr.splitlines()[-1] if ran.stderr else ran.stdout


class Threads(unittest.TestCase):
    def setUp(self):
        self.addCleanup(sys.setswitchinterval, sys.getswitchinterval())

    def test_another_thread_runs_during_each_call(self):
        # This switch interval is so long that the interpreter doesn't switch threads on its own. So another thread runs
        # only if a call releases the interpreter's lock.
        sys.setswitchinterval(1000)
        message = stream(SEGMENT)
        packed, look = capn.pack(message), self.looks(message[:-8] + b"\7" + bytes(7))
        calls = [lambda: capn.pack(message), lambda: capn.unpack(packed), lambda: capn.canonical(message),
                 lambda: capn.digest(message), lambda: capn.check(message), lambda: capn.is_canonical_words(SEGMENT),
                 lambda: capn.departure(message), look]
        for number, call in enumerate(calls):
            with self.subTest(number=number):
                self.assertTrue(any(self.runs_beside(call) for _ in range(50)))

    def looks(self, message):
        """Checks a message, which has to be rejected. Returns a function that searches the message for the path of the
        error."""
        with self.assertRaises(capn.Refusal) as caught:
            capn.check(message)
        return caught.exception._look

    def runs_beside(self, call):
        """Makes a call in a new thread. Returns whether the thread of the test runs before the call ends."""
        started, ended = threading.Event(), []

        def run():
            started.set()
            call()
            ended.append(True)

        other = threading.Thread(target=run)
        other.start()
        started.wait()
        beside = not ended
        other.join()
        return beside

    def test_calls_in_many_threads_have_their_own_answers(self):
        messages = [bytes.fromhex("0000000003000000" "0000000002000000") + number.to_bytes(8, "little") + bytes(8)
                    for number in range(1, 9)]
        alone = [(capn.check(one), capn.digest(one), capn.canonical(one)) for one in messages]
        wrong = []

        def run(one, answer):
            for _ in range(500):
                if (capn.check(one), capn.digest(one), capn.canonical(one)) != answer:
                    wrong.append(one)
                try:
                    capn.check(one[:-8])
                except capn.Refusal as refusal:
                    if refusal.name != "FrameCut":
                        wrong.append(refusal)

        threads = [threading.Thread(target=run, args=each) for each in zip(messages, alone)]
        for thread in threads:
            thread.start()
        for thread in threads:
            thread.join()
        self.assertEqual(wrong, [])


@unittest.skipUnless(sys.platform == "linux", "how much memory a process has is read from /proc")
@unittest.skipIf(IS_SANITIZED, "a sanitizer needs more address space")
class Memory(unittest.TestCase):
    def test_the_library_finds_none(self):
        wrote = child(START, LITTLE, "capn.check(PACKED, 'packed')")
        self.assertEqual(wrote, f"MemoryError: capn: {TEXT}")

    def test_there_is_none_for_the_answer(self):
        for call in "capn.unpack(PACKED)", "capn.canonical(PACKED, 'packed')":
            self.assertRegex(child(START, LITTLE, call), "^MemoryError")

    def test_there_is_none_for_what_is_not_canonical(self):
        self.assertRegex(child(START, LITTLE, "capn.departure(PACKED, 'packed')"), "^MemoryError")

    def test_there_is_none_for_a_way(self):
        # The first search for the path of the error runs out of memory. A second search, with enough memory, finds the
        # path.
        self.assertEqual(child(START, REFUSED, LITTLE, WAY), f"MemoryError: capn: {TEXT}\n() 8\n")

    def test_there_is_enough(self):
        self.assertEqual(child(START, "print(len(capn.unpack(PACKED)))"), f"{1 << 25}\n")


if __name__ == "__main__":
    unittest.main()
