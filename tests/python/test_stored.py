"""Tests the stored test cases. Each call has to return the stored result of the library or the program."""
import re
import unittest
from pathlib import Path

import capn

CRATES = Path(__file__).resolve().parents[2] / "crates"
CALLS = re.compile(
    r"(plain )?(canonicalise|is_canonical|survey|pack|unpack) .*|run \d+ hash --form (bare|stream) (?!--).*"
    # Matches a test case with a packed stream of one message. The output of such a case is one digest: a line of 65
    # bytes.
    r"|run \d+ hash --form packed (?!--)[^|]*\|status 0, [0-9a-f]{130}"
)


def stored():
    """Yields the call and the result of each stored test case. A case has three lines. The second line is the call, and
    the third line is the result."""
    for file in sorted(CRATES.glob("conformance_*/cases/*")):
        for one in file.read_text().removesuffix("\n").split("\n\n"):
            _, case, answer = one.splitlines()
            yield case, answer


def cases():
    """Returns the stored test cases that a call of the Python package can run, each with its result. Leaves out the
    cases that need the program or a crate."""
    return [both for both in stored() if CALLS.fullmatch("|".join(both))]


def digits(data):
    return data.hex() or "-"


def hashed(data, form):
    """Does with the package what `capn hash` does. Returns the exit status, the output and the error as one text. The
    output has a line for each message before the first rejected one."""
    lines = ""
    try:
        for message in (parted(data) if form == "stream" else [data]):
            lines += f"{capn.digest(message, form).hex()}\n"
    except capn.Refusal as refusal:
        return f"status 1, {digits(lines.encode())}, capn: {refusal}"
    return f"status 0, {digits(lines.encode())}"


def parted(data):
    """Splits a stream, and yields its messages. The last item is the rest of the stream, which need not be a
    message."""
    while data:
        end = len(data)
        try:
            capn.check(data)
        except capn.Refusal as refusal:
            if refusal.name == "Trailing":
                end = refusal.at
        yield data[:end]
        data = data[end:]


def answer(words):
    """Makes the call of a test case, and returns the result in the format of the stored results."""
    tariff = "strict"
    if words[0] == "plain":
        tariff, words = "plain", words[1:]
    call, data = words[0], b"" if words[-1] == "-" else bytes.fromhex(words[-1])
    if call == "pack":
        return digits(capn.pack(data))
    if call == "unpack":
        return digits(capn.unpack(data, int(words[1])))
    if call == "run":
        return hashed(data, words[4])
    limits = capn.Limits(*map(int, words[-4:-1]), tariff)
    if call == "is_canonical":
        return str(capn.is_canonical_words(data, limits)).lower()
    if call == "survey":
        paid, visits = capn.check(data, words[1], limits)
        return f"paid {paid}, visits {visits}"
    wrote = capn.canonical(data, words[1], limits)
    return f"paid {capn.check(data, words[1], limits).paid}, {digits(wrote)}"


class Stored(unittest.TestCase):
    def test_each(self):
        answered = cases()
        self.assertGreater(len(answered), 500)
        for case, wanted in answered:
            # The results of the library differ from the stored results in two points. The stored result of a check says
            # at its end whether the message has a capability. A stored error of unpacking lacks the prefix `packed: `.
            wanted = re.sub(r", (no capability|capability \d+)$", "", wanted)
            wanted = re.sub(r"^(Cut|TooLong) at", r"packed: \g<0>", wanted)
            with self.subTest(case=case):
                try:
                    got = answer(case.split())
                except capn.Refusal as refusal:
                    got = str(refusal)
                self.assertEqual(got, wanted)


if __name__ == "__main__":
    unittest.main()
