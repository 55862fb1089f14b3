"""Tests the type hints of the package, at run time and with mypy. mypy also checks the programs of docs/PYTHON.md."""
import inspect
import os
import shutil
import subprocess
import sys
import tempfile
import typing
import unittest
from pathlib import Path

import capn
from test_page import programs

SITE = Path(capn.__file__).resolve().parents[1]
# A program for mypy. It uses each kind of object correctly. It also has errors that mypy must find.
KINDS = """
import capn
from typing import assert_type

def told(value: capn.Value) -> str:
    if value.kind == "null":
        assert_type(value, capn.Null)
        return "null"
    if value.kind == "struct":
        assert_type(value, capn.Struct)
        return f"{value.words[0]} {value.slots[0].kind} {value.uint(8, 0)} {value.text(0)}"
    if value.kind == "bytes":
        assert_type(value, capn.Bytes)
        assert_type(value[0:5], bytes)
        return value.text()
    if value.kind == "bits":
        assert_type(value[0], bool)
        return str(value[0])
    if value.kind == "u16" or value.kind == "u32" or value.kind == "u64":
        assert_type(value, capn.Numbers)
        assert_type(value[1:], list[int])
        return str(value[0] + 1)
    if value.kind == "void":
        return str(len(value))
    if value.kind == "pointers":
        assert_type(value[0], capn.Value)
        return told(value[0])
    if value.kind == "rows":
        assert_type(value[0], capn.Row)
        return str(value[0].int(16, 1))
    assert_type(value, capn.Capability)
    return str(value.index)

def matched(value: capn.Value) -> int:
    match value:
        case capn.Struct():
            return len(value.words)
        case capn.Bytes() | capn.Numbers():
            return value.view[0]
        case _:
            return 0

async def later(reader: "asyncio.StreamReader") -> list[bytes]:
    return [message async for message in capn.amessages(reader)]

async def all_of(reader: "asyncio.StreamReader") -> int:
    refused = 0
    async for found in capn.amessages(reader, True, capn.Limits(), keep_going=True):
        assert_type(found, bytes | capn.Refusal)
        refused += isinstance(found, capn.Refusal)
    assert_type(capn.amessages(reader, capn.Limits()), capn.AsyncMessages)
    return refused

import asyncio, io, socket, subprocess, array, mmap
with socket.socket() as one, open("x", "rb") as file, capn.read(array.array("Q"), in_place=True) as message:
    for source in (file, io.BytesIO(), one.makefile("rb")):
        assert_type(next(capn.messages(source)), bytes)
    assert_type(next(capn.messages(b"")), bytes)
    assert_type(next(capn.digests(file, form="packed")), bytes)
    assert_type(next(capn.messages(file, "packed", keep_going=True)), bytes | capn.Refusal)
    assert_type(next(capn.digests(file, keep_going=True)), bytes | capn.Refusal)
    assert_type(capn.messages(file).last_offset, int | None)
    assert_type(message.at(0, 1), capn.Value | capn.Row | None)
    assert_type(capn.Splitter("packed").feed(bytearray()), list[bytes])
    assert_type(capn.show(message, json=True, at=(0,)), str)
    for departure in capn.departure(message), capn.departure(b"", "bare"):
        assert_type(departure, capn.Departure | None)
        if departure is not None and departure.way is not None:
            assert_type(message.at(*departure.way), capn.Value | capn.Row | None)
            assert_type((departure.byte, departure.word, departure.index), tuple[int | None, int | None, int | None])
try:
    capn.check(b"")
except capn.Refusal as refusal:
    assert_type(refusal.way, tuple[int, ...] | None)
    assert_type(refusal.byte, int | None)
"""
WRONG = """
import capn
root = capn.read(b"").root
root.words
capn.check(b"", "framed")
capn.check("text")
capn.canonical(b"", in_place=3)
capn.departure(b"").kind
capn.Departure("word").byte = 3
capn.Refusal("Range", "Range").way = ()
capn.Departure("words")
"""


def classes():
    return [one for one in vars(capn).values() if inspect.isclass(one)]


def functions():
    """Yields the public functions of the package, and the functions of its public classes."""
    for name in capn.__all__:
        one = getattr(capn, name)
        if inspect.isfunction(one):
            yield one
    for one in classes():
        for inner in vars(one).values():
            inner = inner.fget if isinstance(inner, property) else inner
            # Leaves out the methods that Python itself makes for a dataclass or a tuple. They have no type hints.
            if inspect.isfunction(inner) and Path(inner.__code__.co_filename).parent == SITE / "capn":
                yield inner


class AtRunTime(unittest.TestCase):
    def test_hints_are_found(self):
        found = 0
        for one in functions():
            with self.subTest(one):
                self.assertIn("return", typing.get_type_hints(one))
                found += 1
        for one in classes():
            with self.subTest(one):
                typing.get_type_hints(one)
        self.assertGreater(found, 60)
        self.assertEqual(typing.get_type_hints(capn.check)["return"], capn.Checked)
        self.assertEqual(typing.get_type_hints(capn.Message.root.fget)["return"], capn.Value)

    def test_each_has_a_page(self):
        for one in [*functions(), *classes()]:
            if not one.__name__.startswith("_") and one.__module__.startswith("capn"):
                self.assertTrue(inspect.getdoc(one), one)


@unittest.skipUnless(shutil.which("mypy"), "there is no mypy")
class ForMypy(unittest.TestCase):
    def checked(self, *texts):
        with tempfile.TemporaryDirectory() as folder:
            paths = []
            for number, written in enumerate(texts):
                paths.append(Path(folder) / f"program_{number}.py")
                paths[-1].write_text(written)
            cache = os.path.join(tempfile.gettempdir(), f"capn-mypy-{os.getuid()}")
            ran = subprocess.run(
                ["mypy", "--strict", "--no-error-summary", "--cache-dir", cache, "--python-version",
                 f"{sys.version_info[0]}.{sys.version_info[1]}", *paths],
                env={**os.environ, "MYPYPATH": str(SITE)}, capture_output=True, check=False, text=True)
        return ran.returncode, ran.stdout + ran.stderr

    def test_the_kinds(self):
        self.assertEqual(self.checked(KINDS), (0, ""))

    def test_the_programs_of_the_page(self):
        self.assertEqual(self.checked(*programs()), (0, ""))

    def test_what_is_wrong(self):
        status, wrote = self.checked(WRONG)
        lines = [line for line in wrote.splitlines() if ": error:" in line]
        self.assertEqual((status, sorted({int(line.split(":")[1]) for line in lines})), (1, [*range(4, 12)]))


if __name__ == "__main__":
    unittest.main()
