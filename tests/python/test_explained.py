"""Tests the place of an error, and the first difference of a message from its canonical form. Compares both with a
second implementation in Python, with the stored results of the program, and with the program itself if it is built."""
import dataclasses
import random
import re
import struct
import subprocess
import unittest

import capn
from messages import hostile, stream
from test_program import PROGRAM
from test_reading import archives, generated
from test_show import limit_of
from test_stored import stored
from tried import given, settings, some

explained = archives.answered.explained
settings.register_profile("here", deadline=None, max_examples=100, derandomize=True)
settings.load_profile("here")
CALLS = [capn.check, capn.canonical, capn.digest, capn.survey, capn.read, capn.departure]
SEGMENTS = [capn.check_segments, capn.canonical_segments, capn.digest_segments, capn.survey_segments]
NUMBERS = re.compile(r"[0-9]+")


def numbers(way):
    """Returns the numbers of a path, which is written with dots."""
    return () if way == "root" else tuple(map(int, way.split(".")))


def said(out):
    """Returns a dictionary with the lines that `explain` prints. The key of a line is the text before its colon."""
    return dict(line.split(": ", 1) for line in out.decode().splitlines() if ": " in line)


def explain(data, form="stream", limits=capn.Limits()):
    """Returns a dictionary with the lines that the Python model prints for `explain`."""
    return said(explained.explain(data, form, **dataclasses.asdict(limits))[0])


def stop(told, before=0):
    """Returns the path and the byte offset of the error that `explain` reports. `before` is the number of bytes before
    the message."""
    if "way" in told:
        return numbers(told["way"]), int(NUMBERS.search(told["slot"])[0]) - before
    return (), None


def refusal_of(call, *arguments, **options):
    """Makes a call. If the call rejects its message, returns the exception that it raises. Otherwise returns None."""
    try:
        call(*arguments, **options)
    except capn.Refusal as refusal:
        return refusal
    return None


def stop_of(refusal):
    return refusal.way, refusal.byte


def segments_of(source):
    """Returns the words of a random message. Some of these messages are valid except for one word, and some are a
    single list of bytes."""
    kind = source.random()
    if kind < 0.3:
        return archives.segments_of(source)
    if kind < 0.5:
        return generated.message(source)
    if kind < 0.6:
        # Returns a list of bytes. In some of these lists, the padding after the last byte isn't zero.
        count = source.randint(1, 7)
        return [[1 | 2 << 32 | count << 35, source.getrandbits(8 * count + source.choice([0, 0, 8]))]]
    segments = archives.good(source)
    segment = source.choice([one for one in segments if one])
    # Takes the greatest of three random indexes of words. The word with this index is then likely to be near the end of
    # the segment, and therefore deep in the message.
    at = max(source.randrange(len(segment)) for _ in range(3))
    wrong = [3 | source.randrange(4) << 32, generated.pointer(source, len(segment), len(segments))]
    segment[at] = source.choice([*wrong, segment[at] ^ 1 << source.randrange(64)])
    return segments


def input_of(source):
    """Returns a random message in a random form, and its segments. Some of these messages are truncated."""
    segments = segments_of(source)
    form, data = source.choice(["stream", "stream", "packed", "bare"]), archives.framed(segments)
    if form == "bare":
        segments = segments[:1]
        data = struct.pack(f"<{len(segments[0])}Q", *segments[0])
    given = archives.cut(source, data) if source.random() < 0.1 else data
    return generated.packed(given) if form == "packed" else given, form, segments


class AsExplained(unittest.TestCase):
    def compare(self, data, form, limits, told, found):
        """Makes all calls on one message. Counts in the dictionary `found` how often each result occurs."""
        if told.get("accepted"):
            departure = capn.departure(data, form, limits)
            self.assertEqual(told["canonical"], "yes" if departure is None else f"no: {departure}")
            self.assertEqual(departure is None, capn.survey(data, form, limits).canonical)
            self.assertEqual(capn.departure(capn.read(data, form, limits)), departure)
            kind = departure and (departure.kind, departure.owner)
            found[kind] = found.get(kind, 0) + 1
        calls = CALLS + [lambda data, form, limits: capn.is_canonical_words(data, limits)] * (form == "bare")
        for call in calls:
            refusal = refusal_of(call, data, form, limits)
            if told.get("accepted"):
                self.assertTrue(refusal is None or refusal.name == "Capability", refusal)
                self.assertEqual(refusal and stop_of(refusal), refusal and (None, None))
            elif refusal.place is None:
                self.assertNotIn("way", told)
                self.assertEqual(stop_of(refusal), (None, None))
            else:
                self.assertEqual(str(refusal), told["refused"])
                self.assertEqual(stop_of(refusal), stop(told))
                found[refusal.name] = found.get(refusal.name, 0) + 1

    def test_generated(self):
        source, found = random.Random(81), {}
        for _ in range(5000):
            data, form, _ = input_of(source)
            limits = capn.Limits(**archives.limits_of(source))
            with self.subTest(data=data.hex(), form=form, limits=limits):
                self.compare(data, form, limits, explain(data, form, limits), found)
        for name in ("NoRoot", "RootKind", "Reserved", "NoSegment", "PadRange", "BadPad", "Range", "BadTag",
                     "TagOverrun", "TooDeep", "OverBudget"):
            self.assertGreater(found[name], 10, name)
        for kind in (None, ("segments", None), ("capability", None), ("word", "pointer"), ("word", "last word"),
                     ("after", None)):
            self.assertGreater(found[kind], 10, kind)

    @settings(max_examples=300)
    @given(hostile(), some.sampled_from(["stream", "packed", "bare"]), some.sampled_from([8388608, 20, 5]))
    def test_properties(self, data, form, budget):
        if form == "packed":
            data = capn.pack(data[:len(data) // 8 * 8])
        limits = capn.Limits(budget=budget, depth=8)
        self.compare(data, form, limits, explain(data, form, limits), {})

    def test_segments(self):
        source, ways = random.Random(82), set()
        for _ in range(1500):
            _, form, words = input_of(source)
            segments = [struct.pack(f"<{len(one)}Q", *one) for one in words]
            limits = capn.Limits(**archives.limits_of(source))
            frame = stream(*segments)
            refused = refusal_of(capn.check, frame, limits=limits)
            for call in SEGMENTS:
                for kind, in_place in (bytes, False), (bytearray, False), (bytearray, True), (memoryview, True):
                    given = list(map(kind, segments))
                    refusal = refusal_of(call, given, limits, in_place=in_place)
                    of_iterator = refusal_of(call, iter(given), limits, in_place=in_place)
                    if refused is None:
                        continue
                    self.assertEqual(refusal.args, refused.args)
                    self.assertEqual(stop_of(refusal), stop_of(refused))
                    ways.add(refusal.way)
                    if refused.name == "TooManyWords":
                        # If the segments come from an iterator, a call adds up their words, and stops as soon as the
                        # sum exceeds the limit. So the error may report fewer words than all segments have together.
                        self.assertEqual(of_iterator.name, refused.name)
                        self.assertTrue(limits.message_words < of_iterator.at <= refused.at)
                    else:
                        self.assertEqual(of_iterator.args, refused.args)
                        self.assertEqual(stop_of(of_iterator), stop_of(refused))
        self.assertGreater(len(ways), 10)

    def test_long_tables(self):
        # The root is in the first segment. The last segment has a landing pad and a struct. The only pointer of this
        # struct is invalid.
        for count in 2, 3, 64, 65, 66, 4095, 4096:
            first = (2 | (count - 1) << 32).to_bytes(8, "little")
            last = struct.pack("<3Q", 1 << 48, 7 << 2 | 3, 0)
            between = [bytes(8 * (i % 3)) for i in range(count - 2)]
            data = stream(first, *between, last)
            for form, given in ("stream", data), ("packed", capn.pack(data)):
                refusal = refusal_of(capn.check, given, form)
                self.assertEqual((refusal.name, refusal.place), ("Reserved", (count - 1, 1)))
                self.assertEqual(stop_of(refusal), ((0,), len(data) - 16))
            self.assertEqual(stop_of(refusal_of(capn.check_segments, [first, *between, last])), stop_of(refusal))

    def test_the_longest_way(self):
        # The message has 256 nested lists of structs. 256 is the highest nesting limit that a caller may set. The
        # struct in the last list has a pointer to one more struct, which is too deep.
        words = []
        for _ in range(256):
            words += [1 | 7 << 32 | 1 << 35, 1 << 2 | 1 << 48]
        data = struct.pack("<515Q", *words, 1 << 32, 5, 0)
        refusal = refusal_of(capn.check, data, "bare", capn.Limits(depth=256))
        self.assertEqual((refusal.name, refusal.way, refusal.byte), ("TooDeep", (0, 0) * 256, 8 * 512))
        refusal = refusal_of(capn.check, data, "bare", capn.Limits(depth=1))
        self.assertEqual((refusal.name, refusal.way, refusal.byte), ("TooDeep", (0, 0), 8 * 2))
        data = struct.pack("<513Q", *words, 9 << 32 | 3)
        departure = capn.departure(data, "bare", capn.Limits(depth=256))
        self.assertEqual((departure.kind, departure.index, departure.way), ("capability", 9, (0, 0) * 256))

    def test_stored(self):
        tried = 0
        for case, answer in stored():
            words = case.split()
            # Leaves out test cases with --keep-going, because such a case explains several messages.
            if words[0] != "archive" or words[2] != "explain" or "--keep-going" in words:
                continue
            form, bounds, options, data = "stream", {}, words[3:-1], bytes.fromhex(words[-1].replace("-", ""))
            for option, value in zip(options[::2], options[1::2], strict=True):
                if option == "--form":
                    form = value
                elif option != "--number":
                    name, bound = limit_of(option, value)
                    bounds[name] = bound
            told = said(bytes.fromhex(answer.split(", ")[1].replace("-", "")))
            # Leaves out test cases with an error that only the program explains: an error in a segment table, in packed
            # bytes, in a length, or in the number of messages.
            if "accepted" not in told and "way" not in told:
                continue
            with self.subTest(case=case):
                limits = capn.Limits(**bounds)
                number, before = map(int, told["message"].split(" at "))
                frames = [data] if form == "bare" else capn.messages(data, limits=limits, form=form)
                frame = next(one for count, one in enumerate(frames, 1) if count == number)
                own = "bare" if form == "bare" else "stream"
                if "accepted" in told:
                    departure = capn.departure(frame, own, limits)
                    if departure is not None and departure.byte is not None:
                        departure = dataclasses.replace(departure, byte=departure.byte + before)
                    self.assertEqual(told["canonical"], "yes" if departure is None else f"no: {departure}")
                else:
                    self.assertEqual(stop_of(refusal_of(capn.check, frame, own, limits)), stop(told, before))
                tried += 1
        self.assertGreaterEqual(tried, 30)

    @unittest.skipUnless(PROGRAM, "there is no program")
    def test_as_the_program_says(self):
        source, found = random.Random(83), {}
        for _ in range(300):
            data, form, _ = input_of(source)
            bounds = archives.limits_of(source)
            line = [PROGRAM, "explain", "--form", form, *archives.limiting(bounds)]
            wrote = subprocess.run(line, input=data, capture_output=True, check=False)
            with self.subTest(line=line, data=data.hex()):
                self.compare(data, form, capn.Limits(**bounds), said(wrote.stdout), found)
        self.assertGreater(len(found), 10)


if __name__ == "__main__":
    unittest.main()
