"""Compares every index entry with the object that the reference implementation's dynamic reader finds in the same
message.

The tests need the reference implementation's library and a C++ compiler, and are skipped without them."""
import collections
import os
import random
import shutil
import struct
import subprocess
import tempfile
import unittest
from pathlib import Path

import capn
from test_reading import archives, generated

COMPILER = shutil.which(os.environ.get("CXX", "c++"))
REFERENCE = Path(__file__).resolve().parents[1] / "reference"
TRIED = 10_000


def lines_of(found):
    """Yields a line for the object of a pointer, and a line for each object below it. The lines have the format of
    `tests/reference/places.c++`."""
    kind, entry = found.kind, found._entry
    offset, first, second, below = -1, 0, 0, []
    if kind == "struct":
        offset = entry.offset if entry.words else -1
        first, second, below = entry.words, entry.slots, [found.slots]
    elif kind == "rows":
        first = entry.count
        if first:
            offset, second = entry.offset + 8, entry.words << 16 | entry.slots
        below = [row.slots for row in found]
    elif kind == "pointers":
        first, below = entry.count, [found]
    elif kind not in ("null", "capability"):
        offset, first = entry.offset if entry.count and kind != "void" else -1, entry.count
    yield f"{kind} {offset} {first} {second}"
    for slots in below:
        for slot in slots:
            yield from lines_of(slot)


def ours(message):
    try:
        return list(lines_of(capn.read(message).root))
    except capn.Refusal:
        return ["refused"]


def places(folder):
    """Compiles tests/reference/places.c++, which reads messages with the reference implementation. Returns the path of
    the program. Returns None if the reference implementation isn't installed."""
    program = os.path.join(folder, "places")
    made = [COMPILER, "-std=c++17", "-O1", "-o", program, str(REFERENCE / "places.c++"), "-lcapnp", "-lkj"]
    return program if COMPILER and subprocess.run(made, capture_output=True, check=False).returncode == 0 else None


class Entries(unittest.TestCase):
    def test_entries(self):
        source = random.Random(48)
        messages = [generated.framed(archives.segments_of(source)) for _ in range(TRIED)]
        with tempfile.TemporaryDirectory() as folder:
            program = places(folder)
            if program is None:
                self.skipTest("the reference implementation is not installed")
            given = b"".join(struct.pack("<I", len(message)) + message for message in messages)
            wrote = subprocess.run([program], input=given, capture_output=True, check=True).stdout.decode()
        theirs = [text.splitlines() for text in wrote.split("end\n")[:-1]]
        self.assertEqual(len(theirs), TRIED)
        seen = collections.Counter()
        for message, their in zip(messages, theirs):
            mine = ours(message)
            who = "both" if mine != ["refused"] != their else "neither" if mine == their else "one"
            seen[who] += 1
            if who == "both":
                with self.subTest(message=message.hex()):
                    self.assertEqual(mine, their)
        # Some messages are accepted by this library and rejected by the reference implementation, or the other way
        # round. docs/DIFFERENCES.md lists them, and the script tests/reference/generated checks them.
        self.assertGreater(seen["both"], TRIED // 2)
        self.assertGreater(seen["neither"], TRIED // 20)
        print(f"entries: {dict(seen)} of {TRIED} messages")


if __name__ == "__main__":
    unittest.main()
