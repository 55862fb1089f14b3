"""Tests calls on bytes that another thread changes during the call. A call makes a copy of the bytes before it reads
them, unless the caller promises that the bytes don't change."""
import array
import mmap
import subprocess
import sys
import threading
import unittest

import capn
from messages import bare, stream

# One thread makes calls on a message, while another thread changes pointers of the message. A changed pointer leads far
# outside of the message until the thread restores it. If the calls read the bytes in place, the process crashes within
# seconds or gets wrong results. The arguments are the number of seconds, and whether the calls read in place.
RACE = """
import sys, threading, time
import capn
stop, in_place = time.monotonic() + float(sys.argv[1]), sys.argv[2] == "in place"
COUNT = 4096
FAR = (1 << 28 | 1 | 5 << 32 | (1 << 20) << 35).to_bytes(8, "little")
# A message with a list of pointers. Each pointer refers to a list of one number.
data = bytearray(((1 + 2 * COUNT) << 32).to_bytes(8, "little") + (1 | 6 << 32 | COUNT << 35).to_bytes(8, "little"))
data += ((COUNT - 1) << 2 | 1 | 5 << 32 | 1 << 35).to_bytes(8, "little") * COUNT + bytes(8 * COUNT)
kept = bytes(data)
capn.check(kept)

def flip():
    while time.monotonic() < stop:
        for at in range(16, 16 + 8 * COUNT, 56):
            data[at:at + 8] = FAR
            data[at:at + 8] = kept[at:at + 8]

other = threading.Thread(target=flip)
other.start()
sys.setswitchinterval(1e-6)
while time.monotonic() < stop:
    for call in capn.canonical, capn.digest, capn.check, capn.survey, capn.read, capn.departure:
        try:
            call(data, in_place=in_place)
        except capn.Refusal as refusal:
            refusal.way
other.join()
print("alive")
"""
MESSAGE = stream(bare(("struct", [5], [("list", 2, 4, b"abc" + bytes(5))])))


class Changing(unittest.TestCase):
    def test_a_race_ends_no_process(self):
        words = [sys.executable, "-B", "-c", RACE, "3", "copied"]
        ran = subprocess.run(words, capture_output=True, check=False, text=True)
        self.assertEqual((ran.returncode, ran.stdout), (0, "alive\n"), ran.stderr)

    def test_the_bytes_are_not_held_during_a_call(self):
        # The message has 16 MiB, and is a list of null pointers. A call on it takes so long that another thread can
        # change the size of the caller's buffer during the call.
        count = (1 << 21) - 1
        data = bytearray(stream((1 | (6 | count << 3) << 32).to_bytes(8, "little") + bytes(8 * count)))
        for call in capn.check, capn.survey, capn.canonical, capn.digest, capn.read, capn.departure:
            done = threading.Event()
            thread = threading.Thread(target=lambda call=call, done=done: (call(data), done.set()))
            with memoryview(data):
                pass
            thread.start()
            while not done.is_set():
                data += b""
                data.append(0)
                data.pop()
            thread.join()

    def test_each_buffer_has_the_answer_of_its_bytes(self):
        mapped = mmap.mmap(-1, len(MESSAGE))
        mapped[:] = MESSAGE
        gaps = bytearray(2 * len(MESSAGE))
        gaps[::2] = MESSAGE
        long = stream(bare(("pointers", [None] * 2000)))
        for one in MESSAGE, long:
            words = one[8:]
            others = [bytearray(one), memoryview(one), memoryview(bytearray(one)), array.array("I", one),
                      memoryview(one).cast("Q"), memoryview(b"x" + one)[1:], memoryview(bytearray(b"x" + one))[1:]]
            if one is MESSAGE:
                others += [mapped, memoryview(gaps)[::2]]
            for data in others:
                for in_place in False, True:
                    with self.subTest(type=type(data), in_place=in_place):
                        self.assertEqual(capn.check(data, in_place=in_place), capn.check(one))
                        self.assertEqual(capn.survey(data, in_place=in_place), capn.survey(one))
                        self.assertEqual(capn.canonical(data, in_place=in_place), capn.canonical(one))
                        self.assertEqual(capn.digest(data, in_place=in_place), capn.digest(one))
                        self.assertEqual(capn.pack(data, in_place=in_place), capn.pack(one))
                        self.assertEqual(capn.unpack(capn.pack(data), in_place=in_place), one)
                        self.assertEqual(capn.read(data, in_place=in_place), capn.read(one))
                        self.assertEqual(capn.departure(data, in_place=in_place), capn.departure(one))
            self.assertEqual(capn.is_canonical_words(bytearray(words), in_place=True), capn.is_canonical_words(words))
            packed = capn.pack(one)
            for in_place in False, True:
                self.assertEqual(capn.survey(bytearray(packed), "packed", in_place=in_place), capn.survey(one))
                self.assertEqual(capn.read(bytearray(packed), "packed", in_place=in_place), capn.read(one))
                departure = capn.departure(bytearray(packed), "packed", in_place=in_place)
                self.assertEqual(departure, capn.departure(one))

    def test_a_refusal_is_of_the_bytes_that_were_refused(self):
        wrong = stream(bare(("pointers", [None] * 2000 + [("list", 5, 1, bytes(8))])))[:-8]
        wrong = wrong[:4] + (len(wrong) // 8 - 1).to_bytes(4, "little") + wrong[8:]
        for in_place in False, True:
            data = bytearray(wrong)
            with self.assertRaisesRegex(capn.Refusal, "Range at 0:2001") as caught:
                capn.check(data, in_place=in_place)
            data[:] = MESSAGE
            self.assertEqual((caught.exception.way, caught.exception.byte), ((2000,), 8 * 2002))

    def test_none(self):
        for data in b"", bytearray(), memoryview(b""), memoryview(bytearray()), array.array("Q"):
            for call in capn.check, capn.survey, capn.canonical, capn.digest, capn.read, capn.departure:
                for in_place in False, True:
                    with self.assertRaisesRegex(capn.Refusal, "frame: Empty"):
                        call(data, in_place=in_place)
            self.assertEqual((capn.pack(data), capn.unpack(data)), (b"", b""))

    def test_what_is_no_buffer(self):
        calls = [capn.check, capn.survey, capn.canonical, capn.digest, capn.read, capn.departure]
        for call in [*calls, capn.pack, capn.unpack]:
            for data in "text", 3, None, [1, 2], object():
                for in_place in False, True:
                    with self.assertRaisesRegex(TypeError, "a message is an object with a buffer"):
                        call(data, in_place=in_place)

    def test_a_view_that_was_released(self):
        for data in memoryview(MESSAGE), memoryview(bytearray(MESSAGE)), memoryview(bytes(9000)):
            data.release()
            for in_place in False, True:
                self.assertRaises(ValueError, capn.check, data, in_place=in_place)


if __name__ == "__main__":
    unittest.main()
