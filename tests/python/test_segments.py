"""Tests the calls that take a message as a list of segments. Each call has to return what the call for a stream
returns, if the stream has the same segments."""
import array
import random
import unittest

import capn
from messages import stream
from test_reading import archives, generated

CALLS = [
    (capn.check, capn.check_segments),
    (capn.survey, capn.survey_segments),
    (capn.canonical, capn.canonical_segments),
    (capn.digest, capn.digest_segments),
]
# The message has two segments. The root is a far pointer to the second segment, which has the landing pad and a struct
# of one word.
FIRST = bytes.fromhex("0200000001000000")
SECOND = bytes.fromhex("0000000001000000" "0500000000000000")


def told(call, *arguments):
    """Returns the result of a call, or the text and the attributes of its error."""
    try:
        return call(*arguments)
    except capn.Refusal as refusal:
        return str(refusal), refusal.name, refusal.place, refusal.paid, refusal.visits, refusal.at


class Segments(unittest.TestCase):
    def test_they_are_answered_as_their_frame(self):
        source, accepted, several = random.Random(71), 0, 0
        for _ in range(3000):
            table, *segments = generated.pieces(archives.segments_of(source))
            limits = capn.Limits(source.choice([8388608, 6]), source.choice([8388608, 9]), source.choice([64, 3]),
                                 source.choice(["strict", "plain"]))
            for framed, in_segments in CALLS:
                answer = told(framed, table + b"".join(segments), "stream", limits)
                with self.subTest(call=in_segments, segments=segments):
                    self.assertEqual(told(in_segments, segments, limits), answer)
                accepted += not isinstance(answer, tuple) or isinstance(answer, capn.Checked)
            several += len(segments) > 1
        self.assertGreater(accepted, 1000)
        self.assertGreater(several, 1000)

    def test_any_objects_with_a_buffer(self):
        frame = stream(FIRST, SECOND)
        digest = capn.digest(frame)
        view = memoryview(frame)[16:]
        for segments in (
            (FIRST, SECOND),
            iter([FIRST, SECOND]),
            [bytearray(FIRST), memoryview(SECOND)],
            [array.array("Q", FIRST), array.array("B", SECOND)],
            [view[:8], view[8:]],
            [memoryview(FIRST + FIRST)[:8], memoryview(bytes(b for b in SECOND for _ in range(2)))[::2]],
        ):
            self.assertEqual(capn.digest_segments(segments), digest)
        for segments in [bytearray(FIRST), bytearray(SECOND)], [bytearray(FIRST), memoryview(bytearray(SECOND))]:
            self.assertEqual(capn.digest_segments(segments, in_place=True), digest)
            # A call keeps no reference to a buffer after it has returned, so the buffer can then be resized.
            segments[0].append(0)
        self.assertEqual(capn.canonical_segments([FIRST, SECOND]), SECOND)
        self.assertEqual(capn.check_segments([FIRST, SECOND]), capn.Checked(paid=3, visits=1))
        # Two segments may overlap, or be the same buffer.
        self.assertEqual(told(capn.check_segments, [FIRST, FIRST]), told(capn.check, stream(FIRST, FIRST)))

    def test_what_is_refused(self):
        for segments, name, at in (
            ([], "FrameEmpty", 0),
            ([FIRST] * 4097, "TooManySegments", 4097),
            ([FIRST, SECOND[:-1]], "NotWhole", 15),
            ([b"x"], "NotWhole", 1),
        ):
            for _, call in CALLS:
                with self.subTest(call=call, name=name), self.assertRaises(capn.Refusal) as caught:
                    call(segments)
                self.assertEqual((caught.exception.name, caught.exception.at), (name, at))
        with self.assertRaisesRegex(capn.Refusal, r"^frame: TooManyWords\(4\)$"):
            capn.check_segments([FIRST, SECOND, FIRST], capn.Limits(message_words=3))
        self.assertEqual(capn.check_segments([SECOND] + [b""] * 4095).visits, 1)

    def test_arguments(self):
        for _, call in CALLS:
            for wrong in FIRST, bytearray(FIRST), memoryview(FIRST), "", "text", 3, None, [3], ["text"], [None]:
                with self.subTest(call=call, wrong=wrong):
                    self.assertRaises(TypeError, call, wrong)
            self.assertRaises(TypeError, call, [SECOND], 64)
            self.assertRaises(TypeError, call, [SECOND], "stream")


if __name__ == "__main__":
    unittest.main()
