"""Tests that each Python program in docs/PYTHON.md runs alone, and does what the page says."""
import re
import socket
import subprocess
import sys
import tempfile
import textwrap
import unittest
from pathlib import Path

import capn

TOP = Path(__file__).resolve().parents[2]
PAGE = TOP / "docs" / "PYTHON.md"
README = TOP / "python" / "README.md"
MESSAGE = bytes.fromhex("0000000003000000" "0000000002000000" "0500000000000000" "0000000000000000")
# A message whose root struct has more words than the message.
WRONG = bytes.fromhex("0000000001000000" "0000000001000000")
# A message with a struct whose only pointer is a capability with the index 2.
CAPABILITY = bytes.fromhex("0000000002000000" "0000000000000100" "0300000002000000")
# A message with a list of two structs. Pointer 1 of the root struct refers to this list. The name in the first struct
# of the list is "ab".
CHILDREN = bytes.fromhex("0000000007000000" "0000000000000200" "0000000000000000" "0100000017000000" "0800000000000100"
                         "050000001a000000" "0000000000000000" "6162000000000000")
TEXT = bytes.fromhex("0000000004000000" "0000000001000100" "0500000000000000" "0100000022000000" "6162630000000000")


def children(words):
    """Returns a message whose root struct has two pointers. `words` has the second pointer in hexadecimal, followed by
    the words that it refers to."""
    segment = bytes.fromhex("0000000000000200" "0000000000000000" + words)
    return bytes(4) + (len(segment) // 8).to_bytes(4, "little") + segment


def blocks(page, language):
    """Returns the code blocks of a page that are in a given language."""
    return re.findall(rf"^```{language}\n(.*?)^```$", page.read_text(), re.M | re.S)


def programs():
    """Returns the Python programs of docs/PYTHON.md and of python/README.md. Each program runs alone."""
    return blocks(PAGE, "python") + blocks(README, "python")


def program(named):
    """Returns the Python program of docs/PYTHON.md that contains the given text. Fails unless exactly one program
    contains the text."""
    [found] = [block for block in blocks(PAGE, "python") if named in block]
    return found


def framed(words):
    """Returns a message with a segment of `words` words. The root is a struct of one word."""
    return bytes(4) + words.to_bytes(4, "little") + (1 << 32).to_bytes(8, "little") + bytes(8 * words - 8)


def deep(levels):
    """Returns a segment with `levels` nested structs."""
    first = (levels << 32).to_bytes(8, "little")
    return first + (1 << 48).to_bytes(8, "little") * (levels - 1) + bytes(8)


class Page(unittest.TestCase):
    def run_on(self, message, code, more=""):
        with tempfile.TemporaryDirectory() as folder:
            (Path(folder) / "message").write_bytes(message)
            (Path(folder) / "messages").write_bytes(message)
            # Python runs with options that turn each deprecation warning into an error.
            ran = subprocess.run([sys.executable, "-B", "-W", "error::DeprecationWarning", "-c", f"{code}\n{more}"],
                                 cwd=folder, capture_output=True, check=False, text=True)
        return ran.returncode, ran.stdout + ran.stderr

    def test_all_programs_are_tried(self):
        tried = "print(capn.digest(message).hex())", "def has_digest", "def is_within_limits", "print(capn.survey", \
            "capn.messages(file, limits=LIMITS, keep_going", "capn.digests(file, limits=LIMITS, keep_going", \
            "def receive", "root.uint(64, 0, default=7)", "def describe", "def hidden"
        self.assertEqual(sorted(map(program, tried)), sorted(blocks(PAGE, "python")))

    def test_digest(self):
        first = program("print(capn.digest(message).hex())")
        self.assertEqual(self.run_on(MESSAGE, first), (0, f"{capn.digest(MESSAGE).hex()}\n"))
        self.assertEqual(self.run_on(MESSAGE[:-8], first), (1, "rejected: frame: Cut\n"))
        self.assertEqual(self.run_on(MESSAGE * 2, first), (1, "rejected: trailing bytes at 32\n"))
        self.assertEqual(self.run_on(b"", first), (1, "rejected: frame: Empty\n"))
        # With its segment table, this message has 1 MiB. The program of the page accepts messages up to this length,
        # and rejects longer ones.
        most = framed((1 << 17) - 1)
        self.assertEqual(self.run_on(most, first), (0, f"{capn.digest(most).hex()}\n"))
        for longer in most + b"x", framed(1 << 17), framed(1 << 18), bytes((1 << 20) + 1):
            self.assertEqual(self.run_on(longer, first), (1, "rejected: longer than 1 MiB\n"))

    def test_has_digest(self):
        digest = capn.digest(MESSAGE)
        for message, expected in (MESSAGE, True), (MESSAGE[:-8], False), (MESSAGE * 2, False), (b"", False), \
                (deep(41), False):
            asked = f"print(has_digest({message!r}, {digest!r}), has_digest({message!r}, bytes(32)))"
            self.assertEqual(self.run_on(b"", program("def has_digest"), asked), (0, f"{expected} False\n"))

    def test_is_within_limits(self):
        for message, wrote in (
            (MESSAGE, "reading it costs 3 words and follows 1 pointers\nTrue\n"),
            (MESSAGE[:-8], "rejected: frame: Cut\nFalse\n"),
            # With the default limits, this message is accepted. With the limits in docs/PYTHON.md, it is rejected.
            (deep(41), "rejected: TooDeep at 0:32, paid 64, visits 33\nFalse\n"),
        ):
            asked = f"print(is_within_limits({message!r}))"
            self.assertEqual(self.run_on(b"", program("def is_within_limits"), asked), (0, wrote))

    def test_read(self):
        read = program("root.uint(64, 0, default=7)")
        # The default of the field is 7. So the message stores the field's value XOR 7.
        self.assertEqual(self.run_on(TEXT, read), (0, "2 abc\n"))
        self.assertEqual(self.run_on(MESSAGE, read), (0, "2 nobody\n"))
        self.assertEqual(self.run_on(bytes(4) + b"\1" + bytes(11), read), (0, "7 nobody\n"))
        self.assertEqual(self.run_on(CHILDREN, read), (0, "7 nobody\nab\nnobody\n"))
        # An older writer may have written the children as texts or as numbers. Each child is then read as a struct
        # whose only field is this text or number.
        self.assertEqual(self.run_on(children("0100000016000000" "0500000012000000" "0000000000000000"
                                              "6100000000000000"), read), (0, "7 nobody\na\nnobody\n"))
        for numbers in "0100000010000000", "0100000012000000", "0100000013000000", "0100000014000000":
            self.assertEqual(self.run_on(children(numbers + "0500000000000000"), read),
                             (0, "7 nobody\nnobody\nnobody\n"))
        # Each of these inputs has one error. The errors are a text without its last zero byte, a text that isn't UTF-8,
        # an object of a kind that the program doesn't expect, bytes after the message, and too many levels of nested
        # structs.
        for message, why in (
            (TEXT.replace(b"\x22", b"\x1a"), "the last byte of a text is zero"),
            (TEXT.replace(b"abc", b"\xffbc"), "'utf-8' codec can't decode byte 0xff"),
            (bytes.fromhex("0000000002000000" "010000001a000000" "6162630000000000"), "there is no struct, but"),
            (CHILDREN.replace(b"\1\0\0\0\x17", b"\0\0\0\0\1"), "there is no list of structs, but"),
            (children("0100000011000000" "0300000000000000"), "there is no list of structs, but"),
            (MESSAGE * 2, "trailing bytes at 32"),
            (deep(41), "TooDeep"),
        ):
            status, wrote = self.run_on(message, read)
            self.assertEqual(status, 1)
            self.assertRegex(wrote, f"(?:^|\n)rejected: {why}")

    def test_describe(self):
        # The program prints that a struct with a zero word at its end isn't canonical. It rejects a list that is longer
        # than the message.
        for message, expected in (
            (TEXT, "canonical"),
            (MESSAGE, "not canonical: at byte 8: 0000000002000000 (struct of 2 words and 0 slots, offset 0), canonical"
             " 0000000001000000 (struct of 1 words and 0 slots, offset 0), the pointer at root"),
            (TEXT.replace(b"\x22", b"\x52"), "rejected: Range at 0:2, paid 3, visits 2, pointer (0,), byte 24"),
            (TEXT[:-1], "rejected: frame: Cut"),
            (bytes(8), "rejected: NoRoot at 0:0, paid 0, visits 0"),
        ):
            asked = f"print(describe({message!r}))"
            self.assertEqual(self.run_on(b"", program("def describe"), asked), (0, f"{expected}\n"))

    def test_hidden(self):
        # In one message, the writer has set a text twice. The message still has the word of the first text, but no
        # pointer leads to it. In another message, a byte after the end of a list isn't zero.
        twice = "0000000004000000" "0000000000000100" "0500000032000000" "4164610000000000" "4772616365000000"
        padded = "0000000002000000" "0100000022000000" "6162630000000009"
        for message, offsets in (bytes.fromhex(twice), [24]), (bytes.fromhex(padded), [16]), (MESSAGE, []):
            self.assertEqual(self.run_on(b"", program("def hidden"), f"print(hidden({message!r}))"),
                             (0, f"{offsets}\n"))

    def test_stream(self):
        stream = program("print(capn.survey")
        figures = capn.Surveyed(words=3, segments=1, paid=3, visits=1, depth=1, capability=None, canonical=False)
        self.assertEqual(self.run_on(MESSAGE * 2, stream), (0, f"{figures}\n" * 2))
        self.assertEqual(self.run_on(b"", stream), (0, ""))
        self.assertEqual(self.run_on(MESSAGE + MESSAGE[:-8], stream),
                         (1, f"{figures}\nrejected: message 2 at 32: frame: Cut\n"))
        # The error comes from the call `capn.survey` in the loop. So the error doesn't have the number of the message.
        self.assertEqual(self.run_on(MESSAGE + WRONG, stream),
                         (1, f"{figures}\nrejected: Range at 0:0, paid 0, visits 1\n"))

    def test_keep_going(self):
        kept = program("capn.messages(file, limits=LIMITS, keep_going")
        printed, _ = blocks(PAGE, "text")
        status, wrote = self.run_on(MESSAGE + WRONG + MESSAGE, kept)
        self.assertEqual((status, sorted(wrote.splitlines())), (1, sorted(printed.splitlines())))
        self.assertEqual(self.run_on(MESSAGE, kept), (0, "message 1 at 0: 32 bytes\n"))
        self.assertEqual(self.run_on(MESSAGE + b"\xff" * 8, kept), (
            1, "message 1 at 0: 32 bytes\nthe stream ends: message 2 at 32: frame: TooManySegments(4294967296)\n"))

    def test_digests(self):
        kept = program("capn.digests(file, limits=LIMITS, keep_going")
        _, printed = blocks(PAGE, "text")
        status, wrote = self.run_on(MESSAGE + CAPABILITY + MESSAGE, kept)
        self.assertEqual((status, sorted(wrote.splitlines())), (0, sorted(printed.splitlines())))
        first = f"message 1 at 0: {capn.digest(MESSAGE).hex()}\n"
        self.assertEqual(self.run_on(MESSAGE + MESSAGE[:-8], kept),
                         (1, f"{first}the stream ends: message 2 at 32: frame: Cut\n"))

    def test_receive(self):
        code = program("def receive")
        found = {}
        exec(code, found)
        for sent, expected in (
            (capn.pack(MESSAGE) * 3, 3), (b"", 0),
            # The packed zeros after the first message are messages without words. 64 KiB of such zeros would unpack to
            # more messages than one call returns.
            (capn.pack(MESSAGE) + b"\0\xff" * 4, "message 2 at 32: "),
            (capn.pack(MESSAGE * 2)[:-1], "message 2 at 32: packed: Cut at "),
        ):
            near, far = socket.socketpair()
            with near, far:
                near.sendall(sent)
                near.shutdown(socket.SHUT_WR)
                try:
                    self.assertEqual(found["receive"](far), expected)
                except capn.Refusal as refusal:
                    self.assertIn(str(expected)[16:], str(refusal))


class PackageReadme(unittest.TestCase):
    def test_it_runs(self):
        [block] = blocks(README, "python")
        with tempfile.TemporaryDirectory() as folder:
            (Path(folder) / "messages").write_bytes(MESSAGE + WRONG + MESSAGE)
            ran = subprocess.run([sys.executable, "-B", "-c", textwrap.dedent(block)], cwd=folder, capture_output=True,
                                 check=False, text=True)
        self.assertEqual((ran.returncode, ran.stderr), (0, ""))
        self.assertEqual(ran.stdout, f"{capn.digest(MESSAGE).hex()}\n"
                                     "message 2 at 32: Range at 0:0, paid 0, visits 1\n")


if __name__ == "__main__":
    unittest.main()
