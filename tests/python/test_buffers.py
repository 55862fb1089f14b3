"""Tests how calls use the caller's buffers, and that an exception keeps no reference to a buffer. Also tests how much
memory a call uses, and in which order a call examines its arguments."""
import ctypes
import gc
import mmap
import os
import struct
import subprocess
import sys
import tempfile
import unittest
import unittest.mock

import capn
from messages import stream
from tried import IS_SANITIZED

try:
    import numpy
except ImportError:
    numpy = None

SMALL = bytes.fromhex("0000000003000000" "0000000002000000" "0500000000000000" "0000000000000000")
GIB = 1 << 30


class AfterAnException(unittest.TestCase):
    """Tests that neither an exception nor its traceback keeps a reference to the caller's buffer."""

    def calls(self, data):
        """Yields calls that read the caller's bytes in place and raise an exception."""
        tight = capn.Limits(budget=1)
        yield lambda: capn.pack(data[:-1] if type(data) is memoryview else data, in_place=True)
        yield lambda: capn.unpack(data, 1, in_place=True)
        for call in capn.check, capn.survey, capn.canonical, capn.digest, capn.departure, capn.is_canonical_message:
            yield lambda call=call: call(data, limits=tight, in_place=True)
            yield lambda call=call: call(data, "packed", tight, in_place=True)
            yield lambda call=call: call(data, "bogus", in_place=True)
            yield lambda call=call: call(data, 3, in_place=True)
            yield lambda call=call: call(data, limits=5, in_place=True)
        for form in "stream", "packed", "bare", "bogus", 3:
            yield lambda form=form: capn.read(data, form, tight, in_place=True)
        yield lambda: capn.read(data, most_slots=0, in_place=True)
        yield lambda: capn.read(data, "bare", most_slots=0, in_place=True)
        yield lambda: capn.read(data, limits=5, in_place=True)
        yield lambda: capn.is_canonical_words(data, tight, in_place=True)
        yield lambda: capn.is_canonical_words(data, 5, in_place=True)
        yield lambda: capn.is_canonical(data, tight, form="stream", in_place=True)
        yield lambda: capn.same(data, 5, in_place=True)
        yield lambda: capn.same(5, data, in_place=True)
        yield lambda: capn.same(data, SMALL, limits=tight, in_place=True)
        yield lambda: capn.same(SMALL, data, limits=tight, in_place=True)
        yield lambda: capn.same(data, data, "bogus", in_place=True)
        for call in capn.check_segments, capn.survey_segments, capn.canonical_segments, capn.digest_segments:
            yield lambda call=call: call([data, 5], in_place=True)
            yield lambda call=call: call([data, b"x"], in_place=True)
            yield lambda call=call: call([data], tight, in_place=True)
            yield lambda call=call: call([data], 5, in_place=True)

    def test_a_bytearray_can_be_changed(self):
        # Each of the three messages is rejected. The first costs more than the traversal limit, which is one word. The
        # length of the second isn't a whole number of words. The root of the third leads outside of the message.
        for bytes_of in SMALL, SMALL + b"x", stream(bytes.fromhex("0000000001000000")):
            data = bytearray(bytes_of)
            raised = 0
            for number, call in enumerate(self.calls(data)):
                try:
                    call()
                except (ValueError, TypeError):
                    with self.subTest(number=number, data=bytes_of.hex()):
                        data.append(0)
                        del data[-1]
                    raised += 1
            self.assertGreater(raised, 30)

    def test_a_view_can_be_released(self):
        data = stream(bytes.fromhex("0000000001000000") + bytes(8000)) + b"x"
        for number in range(len(list(self.calls(data)))):
            view = memoryview(data)
            try:
                list(self.calls(view))[number]()
            except (ValueError, TypeError):
                with self.subTest(number=number):
                    view.release()

    def test_where_memory_runs_out(self):
        data = bytearray(SMALL)
        with unittest.mock.patch.object(capn._calls, "_room", side_effect=MemoryError):
            for call in capn.canonical, capn.pack, capn.unpack:
                try:
                    call(data, in_place=True)
                except MemoryError:
                    data.append(0)
                    del data[-1]
                else:
                    self.fail("there is room")


class Pipes(unittest.TestCase):
    def test_an_exception_before_a_pipe_is_begun_closes_nothing(self):
        # Before a pipe is opened, the memory for its two descriptors may contain any numbers. Here this memory contains
        # the descriptors of two other files, and these files must stay open.
        class Interrupted(Exception):
            pass

        packed = capn._packed
        with tempfile.TemporaryFile() as one, tempfile.TemporaryFile() as two:
            numbers = struct.pack("=2i", one.fileno(), two.fileno())

            def preset(kind, *size):
                memory = packed_room(kind, *size)
                if kind is packed._pipe_type:
                    view = packed.ffi.buffer(memory)
                    view[:] = numbers * (len(view) // 8) + numbers[:len(view) % 8]
                return memory

            packed_room = packed._room
            count, raised = 0, True
            while raised:
                count += 1
                left = count

                def watch(frame, event, _):
                    nonlocal left
                    if event == "c_return" and frame.f_globals.get("__name__", "") == "capn._packed":
                        left -= 1
                        if left == 0:
                            raise Interrupted

                read, write = os.pipe()
                os.close(write)
                with open(read, "rb", buffering=0) as file, unittest.mock.patch.object(packed, "_room", preset):
                    sys.setprofile(watch)
                    try:
                        raised = False
                        capn.messages(file, packed=True)
                    except Interrupted:
                        raised = True
                    finally:
                        sys.setprofile(None)
                gc.collect()
                for other in one, two:
                    os.fstat(other.fileno())
            self.assertGreater(count, 3)


class Memory(unittest.TestCase):
    @unittest.skipIf(IS_SANITIZED, "a sanitizer needs more address space")
    def test_a_long_input_takes_no_memory_before_it_is_looked_at(self):
        ran = subprocess.run([sys.executable, "-B", __file__, "long"], capture_output=True, text=True, timeout=300)
        self.assertEqual((ran.returncode, ran.stderr), (0, ""))
        self.assertEqual(ran.stdout, "all were refused\n")


def long():
    """Limits the address space of the process to 8 GiB, and makes calls on a file of 5 GiB."""
    import resource

    with tempfile.TemporaryFile() as file:
        file.truncate(5 * GIB)
        resource.setrlimit(resource.RLIMIT_AS, (8 * GIB, 8 * GIB))
        with mmap.mmap(file.fileno(), 5 * GIB, access=mmap.ACCESS_READ) as data:
            for limits in capn.Limits(), capn.Limits(budget=10), capn.Limits(1 << 28, 1 << 28):
                for form in "stream", "packed", "bare":
                    for call in capn.check, capn.canonical, capn.digest, capn.survey, capn.departure, capn.read:
                        refused(call, data, form, limits, in_place=True)
                    refused(shown, data, form, limits)
            for most in 0, 8388608 + 2049:
                refused(capn.unpack, data, most, in_place=True)
    print("all were refused")


def shown(data, form, limits):
    """Calls `capn.show`, but replaces one function of the package: `capn.show` then reads the bytes in place instead of
    copying them."""
    with unittest.mock.patch.object(capn._show, "_taken", lambda data, form, limits, _: capn._calls._taken(
            data, form, limits, True)):
        return capn.show(data, form, limits)


def refused(call, *arguments, **options):
    try:
        call(*arguments, **options)
    except capn.Refusal:
        return
    raise AssertionError(f"{call.__name__} accepts {arguments[1:]}")


class Shapes(unittest.TestCase):
    """Tests buffers with gaps between their bytes, buffers in Fortran order, and buffers without bytes."""

    def test_no_bytes_in_place(self):
        for empty in (ctypes.c_uint32 * 0)(), bytearray(), memoryview(b""), mmapped():
            for call in capn.check, capn.read, capn.digest:
                with self.subTest(call=call, empty=type(empty)), self.assertRaisesRegex(capn.Refusal, "frame: Empty"):
                    call(empty, in_place=True)

    def test_a_view_with_gaps_in_place(self):
        spread = bytearray(byte for byte in SMALL for _ in range(2))
        for call in capn.check, capn.read, capn.digest:
            call(memoryview(spread)[::2], in_place=True)
        spread.append(0)

    @unittest.skipIf(numpy is None, "there is no numpy")
    def test_arrays_of_numpy(self):
        spread = numpy.repeat(numpy.frombuffer(SMALL, "u1"), 2)
        turned = numpy.asfortranarray(numpy.frombuffer(SMALL, "u1").reshape(8, 4))
        for array in spread[::2], numpy.ascontiguousarray(spread[::2]), turned:
            for call in capn.check, capn.digest, capn.canonical:
                with self.subTest(call=call, array=array.strides):
                    self.assertEqual(call(array, in_place=True), call(SMALL))
            self.assertEqual(capn.read(array, in_place=True).root.uint(64, 0), 5)
        for call in capn.check, capn.read:
            for shape in (0, 8), (8, 0), (0,):
                with self.assertRaisesRegex(capn.Refusal, "frame: Empty"):
                    call(numpy.zeros(shape, "u1"), in_place=True)


def mmapped():
    """Returns an empty memoryview of a mapped file."""
    return memoryview(mmap.mmap(-1, 8))[:0]


class Segments(unittest.TestCase):
    """Tests that the number of segments is checked before any segment is copied."""

    def test_no_more_are_taken_than_say_so(self):
        taken = []

        def endless():
            while True:
                taken.append(None)
                yield bytearray(8)

        for limits, name, at in (capn.Limits(), "TooManySegments", 4097), (capn.Limits(5), "TooManyWords", 6):
            for call in capn.check_segments, capn.survey_segments, capn.canonical_segments, capn.digest_segments:
                del taken[:]
                with self.assertRaises(capn.Refusal) as caught:
                    call(endless(), limits)
                self.assertEqual((caught.exception.name, caught.exception.at, len(taken)), (name, at, at))

    def test_nothing_is_copied_before_they_are_counted(self):
        long = bytearray(1 << 20)
        with unittest.mock.patch.object(capn._segments, "taken", side_effect=AssertionError):
            for segments, limits, told in (
                ([long] * 4097, capn.Limits(), "frame: TooManySegments(4097)"),
                ([long] * 100, capn.Limits(1 << 20), "frame: TooManyWords(13107200)"),
            ):
                with self.assertRaises(capn.Refusal) as caught:
                    capn.check_segments(segments, limits)
                self.assertEqual(str(caught.exception), told)
        long.append(0)


if __name__ == "__main__":
    if sys.argv[1:] == ["long"]:
        long()
    else:
        unittest.main()
