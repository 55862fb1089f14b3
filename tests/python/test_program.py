"""Tests that the calls of the Python package return the same results and errors as the program `capn`. Some of the
messages come from the reference implementation.

The program is the one that CAPN names, or the one that `make program` builds. Without a program, all tests are skipped.
"""
import os
import random
import shutil
import subprocess
import unittest
from concurrent.futures import ThreadPoolExecutor
from pathlib import Path

import capn
from messages import hostile
from test_reading import generated
from tried import given, settings, some

TOP = Path(__file__).resolve().parents[2]
PROGRAM = shutil.which(os.environ.get("CAPN") or TOP / "crates" / "capn" / "out" / "capn")
REFERENCE = TOP / "tests" / "reference"
LIMITS = capn.Limits(message_words=4096, budget=64, depth=8)
SAME = ["--message-words", "4096", "--budget", "64", "--depth", "8"]
settings.register_profile("program", deadline=None, max_examples=200, derandomize=True)


def program(*words, data):
    """Returns the output of the program `capn`, or the text of its error."""
    ran = subprocess.run([PROGRAM, *words], input=data, capture_output=True, check=False)
    return ran.stdout if ran.returncode == 0 else ran.stderr.decode()


def called(call, *arguments):
    """Returns the result of a call, or the text of its error."""
    try:
        return call(*arguments)
    except capn.Refusal as refusal:
        return f"capn: {refusal}\n"


@unittest.skipUnless(PROGRAM, "there is no program")
class Program(unittest.TestCase):
    @settings(settings.get_profile("program"))
    @given(hostile(), some.sampled_from(["stream", "packed", "bare"]), some.sampled_from(["strict", "plain"]))
    def test_canonical(self, data, form, tariff):
        limits = capn.Limits(LIMITS.message_words, LIMITS.budget, LIMITS.depth, tariff)
        wrote = program("canonical", "--form", form, "--tariff", tariff, *SAME, data=data)
        self.assertEqual(called(capn.canonical, data, form, limits), wrote)

    @settings(settings.get_profile("program"))
    @given(hostile())
    def test_check(self, data):
        wrote = program("check", "--form", "bare", *SAME, data=data)
        checked = called(capn.check, data, "bare", LIMITS)
        if isinstance(checked, capn.Checked):
            try:
                canonical = "canonical" if capn.is_canonical_words(data, LIMITS) else "not-canonical"
            except capn.Refusal as refusal:
                self.fail(f"accepted, and refused as {refusal}")
            words = wrote.decode().split()
            self.assertEqual((words[2], words[4], words[5]), (str(checked.paid), str(checked.visits), canonical))
        else:
            self.assertEqual(checked, wrote)

    @settings(settings.get_profile("program"))
    @given(hostile())
    def test_pack_and_unpack(self, data):
        self.assertEqual(called(capn.pack, data), program("pack", data=data))
        self.assertEqual(called(capn.unpack, data), program("unpack", data=data))


@unittest.skipUnless(PROGRAM, "there is no program")
class OfTheComparisons(unittest.TestCase):
    """Tests the messages that other tests use to compare the program with the reference implementation."""

    def test_a_thousand_messages(self):
        source = random.Random(46)
        messages = [generated.framed(generated.message(source)) for _ in range(1000)]
        with ThreadPoolExecutor(4) as pool:
            wrote = list(pool.map(lambda message: program("canonical", data=message), messages))
        accepted = 0
        for message, answer in zip(messages, wrote):
            with self.subTest(message=message.hex()):
                self.assertEqual(called(capn.canonical, message), answer)
            accepted += isinstance(answer, bytes)
        self.assertGreater(accepted, 200)
        self.assertLess(accepted, 800)

    def test_hostile_inputs(self):
        for name, data, form in generated.INPUTS:
            with self.subTest(name):
                checked = called(capn.check, data, form)
                if isinstance(checked, capn.Checked):
                    checked = f"ok paid {checked.paid} visits {checked.visits}\n".encode()
                self.assertEqual(checked, program("check", "--form", form, data=data))


@unittest.skipUnless(PROGRAM and shutil.which("capnp"), "there is no program, or no command capnp")
class OfTheReferenceImplementation(unittest.TestCase):
    def test_its_messages_have_its_canonical_bytes(self):
        sample = (REFERENCE / "sample.txt").read_bytes()
        for size in 1024, 8, 3:
            message = self.capnp("encode", f"--segment-size={size}", REFERENCE / "sample.capnp", "Sample", data=sample)
            theirs = self.capnp("convert", "binary:canonical", data=message)
            packed = self.capnp("convert", "binary:packed", data=message)
            self.assertEqual(capn.canonical(message), theirs)
            self.assertEqual(capn.canonical(packed, "packed"), theirs)
            self.assertEqual(capn.canonical(capn.unpack(packed)), theirs)
            self.assertEqual(self.capnp("convert", "packed:canonical", data=capn.pack(message)), theirs)
            self.assertTrue(capn.is_canonical_words(theirs))
            self.assertEqual(f"{capn.digest(message).hex()}\n".encode(), program("hash", data=message))

    def capnp(self, *words, data):
        return subprocess.run(["capnp", *words], input=data, capture_output=True, check=True).stdout


if __name__ == "__main__":
    unittest.main()
