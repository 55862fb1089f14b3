"""Tests messages that are read in place, streams that are read in chunks, and summaries of messages. Compares the
results with the Python model in tests/program."""
import io
import random
import struct
import sys
import unittest
from importlib.machinery import SourceFileLoader
from importlib.util import module_from_spec, spec_from_loader
from pathlib import Path

import capn

PROGRAM = Path(__file__).resolve().parents[1] / "program"
sys.path.append(str(PROGRAM))
import generated  # noqa: E402: it is in the folder that was added

spec = spec_from_loader("archives", SourceFileLoader("archives", str(PROGRAM / "archives")))
archives = module_from_spec(spec)
spec.loader.exec_module(archives)
model = archives.model


def tree(found):
    """Converts the object of a pointer to the form that the Python model uses."""
    kind = found.kind
    if kind == "null":
        return ("null",)
    if kind == "capability":
        return ("capability", found.index)
    if kind == "struct":
        return ("struct", list(found.words), [tree(slot) for slot in found.slots])
    if kind == "rows":
        return ("rows", [("struct", list(row.words), [tree(slot) for slot in row.slots]) for row in found])
    if kind == "pointers":
        return ("pointers", [tree(item) for item in found])
    if kind == "void":
        return ("void", len(found))
    if kind == "bytes":
        return ("bytes", bytes(found))
    return (kind, [int(item) for item in found])


def walked(segments, **limits):
    """Returns the traversal of a message by the Python model, or the text of the model's error."""
    try:
        return model.Walk(segments, **limits)
    except model.Refused as refused:
        return str(refused)


class Pieces(io.RawIOBase):
    """A file whose `read` returns at most `most` bytes for each call."""

    def __init__(self, data, most):
        super().__init__()
        self.data, self.most = io.BytesIO(data), most

    def read(self, size=-1):
        return self.data.read(min(size, self.most))


class Reading(unittest.TestCase):
    def compare(self, data, form, segments, limits):
        walk = walked(segments, budget=limits.budget, depth=limits.depth, tariff=limits.tariff)
        try:
            message, figures = capn.read(data, form, limits), capn.survey(data, form, limits)
        except capn.Refusal as refusal:
            self.assertEqual(str(refusal), walk)
            return False
        self.assertEqual(tree(message.root), walk.value)
        self.assertEqual(message.paid, walk.paid)
        own = walk.capability is None and len(segments) == 1 and model.canonical(walk.value) == segments[0]
        self.assertEqual(
            tuple(figures),
            (sum(map(len, segments)) // 8, len(segments), walk.paid, walk.visits, walk.height, walk.capability, own))
        return True

    def test_messages(self):
        source, accepted = random.Random(46), 0
        for _ in range(3000):
            words = archives.segments_of(source)
            segments = [struct.pack(f"<{len(segment)}Q", *segment) for segment in words]
            framed = generated.framed(words)
            limits = source.choice([capn.Limits(), capn.Limits(budget=8), capn.Limits(depth=2, tariff="plain")])
            with self.subTest(message=framed.hex(), limits=limits):
                accepted += self.compare(framed, "stream", segments, limits)
                accepted += self.compare(generated.packed(framed), "packed", segments, limits)
                accepted += self.compare(segments[0], "bare", segments[:1], limits)
        self.assertGreater(accepted, 3000)

    def test_in_place(self):
        data = bytearray.fromhex("0000000002000000" "0000000001000000" "0500000000000000")
        root = capn.read(data, in_place=True).root
        self.assertEqual(list(root.words), [5])
        data[16] = 6
        self.assertEqual(list(root.words), [6])
        self.assertTrue(root.words.readonly)

    def test_sequences(self):
        numbers = ("u16", [3, 4, 5])
        root = capn.read(model.canonical(numbers), "bare").root
        self.assertEqual((len(root), root[0], root[-1], root[1:], list(root)), (3, 3, 5, [4, 5], [3, 4, 5]))
        self.assertEqual(root.view.tobytes(), bytes(root))
        with self.assertRaises(IndexError):
            root[3]


class Streams(unittest.TestCase):
    def test_streams(self):
        source = random.Random(47)
        for _ in range(500):
            stream = b"".join(
                generated.framed(archives.segments_of(source)) for _ in range(source.randint(0, 6)))
            for packed in False, True:
                data = generated.packed(stream) if packed else stream
                if source.random() < 0.3:
                    data = data[:source.randint(0, len(data))]
                found, fault = model.messages(data, "packed" if packed else "stream", 8388608)
                got, refused = [], None
                try:
                    for frame in capn.messages(Pieces(data, source.choice([1, 3, 7, 64, 65536])), packed=packed):
                        got.append(frame)
                except capn.Refusal as refusal:
                    refused = refusal.text
                    self.assertEqual(str(refusal), f"message {fault[1]} at {fault[2]}: {fault[0]}")
                with self.subTest(data=data.hex(), packed=packed):
                    self.assertEqual(got, [frame for _, frame, _ in found])
                    self.assertEqual(refused, fault and fault[0])

    def test_too_large(self):
        stream = bytes.fromhex("0000000002000000") + bytes(16)
        with self.assertRaisesRegex(capn.Refusal, r"frame: TooManyWords\(2\)"):
            next(capn.messages(io.BytesIO(stream), limits=capn.Limits(message_words=1)))

    def test_arguments(self):
        with self.assertRaises(TypeError):
            capn.messages("no file")
        with self.assertRaises(TypeError):
            capn.messages(io.BytesIO(), limits=3)
        with self.assertRaises(ValueError):
            capn.read(b"", form="text")


if __name__ == "__main__":
    unittest.main()
