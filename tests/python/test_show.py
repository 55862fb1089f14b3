"""Tests that `capn.show` returns what the program prints. Compares its results with the stored test cases, with the
Python model, and with the program if it is built."""
import random
import re
import subprocess
import unittest

import capn
from test_program import PROGRAM
from test_reading import archives, model
from test_stored import digits, stored

RUN = re.compile(r"(?:run|archive) [0-9]+ show (.*)")


def limit_of(option, value):
    """Returns the name and the value of the limit that a command-line option sets."""
    return option[2:].replace("-", "_"), value if option == "--tariff" else int(value)


def ran(words, data):
    """Does with the package what the command `show` does. Returns the output, the line on standard error, and the exit
    status."""
    form, options, bounds, words, is_one = "stream", {}, {}, list(words), False
    while words:
        word = words.pop(0)
        if word in ("--text", "--json"):
            options[word[2:]] = True
        elif word == "--one":
            is_one = True
        elif word == "--form":
            form = words.pop(0)
        elif word == "--at":
            options["at"] = list(map(int, words.pop(0).split(".")))
        else:
            name, value = limit_of(word, words.pop(0))
            bounds[name] = value
    limits, out = capn.Limits(**bounds), ""
    try:
        if form == "bare" or is_one:
            out = capn.show(data, form, limits, **options)
        else:
            for frame in capn.messages(data, limits=limits, form=form):
                out += capn.show(frame, limits=limits, **options)
    except capn.Refusal as refusal:
        return out.encode(), f"capn: {refusal.text}\n", 1
    return out.encode(), "", 0


class Shown(unittest.TestCase):
    def test_stored(self):
        tried = 0
        for case, answer in stored():
            found = RUN.fullmatch(case)
            words = found[1].split() if found else []
            # A stored test case of `show` is a command line, followed by the message in hexadecimal. The package can't
            # print offsets and paths, so the test leaves out cases with `--offsets` or `--ways`.
            if not found or not answer.startswith("status ") or answer.startswith("status 2"):
                continue
            if {"--offsets", "--ways"} & set(words):
                continue
            with self.subTest(case=case):
                out, error, status = ran(words[:-1], b"" if words[-1] == "-" else bytes.fromhex(words[-1]))
                said = f", {error.strip()}" if error else ""
                self.assertEqual(f"status {status}, {digits(out)}{said}", answer)
                tried += 1
        self.assertGreaterEqual(tried, 100)

    def test_as_the_model_says(self):
        source, accepted = random.Random(7), 0
        for _ in range(3000):
            line, data, wanted = archives.shown(source)
            with self.subTest(line=line, data=data.hex()):
                self.assertEqual(ran(line[1:], data), wanted)
                accepted += wanted[2] == 0
        self.assertGreater(accepted, 1000)

    @unittest.skipUnless(PROGRAM, "there is no program")
    def test_as_the_program_says(self):
        source = random.Random(8)
        for _ in range(300):
            line, data, _ = archives.shown(source)
            wrote = subprocess.run([PROGRAM, *line], input=data, capture_output=True, check=False)
            with self.subTest(line=line, data=data.hex()):
                self.assertEqual(ran(line[1:], data), (wrote.stdout, wrote.stderr.decode(), wrote.returncode))

    def test_a_part_is_shown_as_the_whole_is(self):
        # The dump of a whole message comes from the C library. The dump of a part of a message, such as its root, comes
        # from the Python package itself. `capn.show` has to return the same dump for a message object, for its root and
        # for its bytes.
        source, shown = random.Random(9), 0
        for _ in range(1000):
            data = archives.framed(archives.segments_of(source))
            limits = capn.Limits(depth=source.choice([64, 4]), tariff=source.choice(["strict", "plain"]))
            try:
                message = capn.read(data, limits=limits)
            except capn.Refusal as refusal:
                with self.assertRaises(capn.Refusal) as caught:
                    capn.show(data, limits=limits)
                self.assertEqual(caught.exception.args, refusal.args)
                continue
            for options in {}, {"text": True}, {"json": True}, {"text": True, "json": True}:
                with self.subTest(data=data.hex(), **options):
                    text = capn.show(message.root, **options)
                    self.assertEqual(capn.show(data, limits=limits, **options), text)
                    self.assertEqual(capn.show(message, **options), text)
                    self.assertEqual(capn.show(capn.pack(data), "packed", limits, **options), text)
                    shown += 1
        self.assertGreater(shown, 2000)

    def test_texts(self):
        # The dumps of whole messages come from the C library, and the dumps of parts come from the Python package. Both
        # kinds of dumps are compared with the Python model.
        source, texts, quoted = random.Random(10), 0, 0
        some = ["", "a", "ä", "€", "😀", '"', "\\", "\t", "\n", "\r", "\xad", "\u200b", "\u202e", "\ufeff", "\U000e007f",
                "\0", "\x07", "\x7f", "\x80", "\x9f", "\xa0"]
        for _ in range(2000):
            data = "".join(source.choices(source.choice([some, some[:15]]), k=source.randint(0, 4))).encode()
            data += source.choice([b"\0"] * 4 + [b"", b"\0\0", b"\xc3\0", b"\xed\xa0\x80\0", b"\xc0\x80\0"])
            pointer = 1 | 2 << 32 | len(data) << 35
            words = pointer.to_bytes(8, "little") + data + bytes(-len(data) % 8)
            with self.subTest(data=data.hex()):
                wanted = model.styled(("bytes", list(data)), "both")
                self.assertEqual(capn.show(words, "bare", text=True, json=True), wanted)
                self.assertEqual(capn.show(capn.read(words, "bare").root, text=True, json=True), wanted)
                texts += "text" in wanted
                wanted = model.styled(("bytes", list(data)), "text")
                self.assertEqual(capn.show(words, "bare", text=True), wanted)
                self.assertEqual(capn.show(capn.read(words, "bare").root, text=True), wanted)
                quoted += '"' in wanted
        self.assertGreater(texts, 400)
        self.assertGreater(quoted, 400)

    def test_a_closed_message(self):
        message = capn.read(bytes(8), "bare")
        message.close()
        self.assertRaises(ValueError, capn.show, message)

    def test_deep(self):
        # The message has 256 nested lists of structs. 256 is the highest nesting limit that a caller may set.
        words = []
        for level in range(256):
            words += [1 | 7 << 32 | 1 << 35, 1 << 2 | 1 << 48]
        data = b"".join(word.to_bytes(8, "little") for word in words + [0])
        limits = capn.Limits(depth=256)
        value = model.Walk([data], 8388608, 256, "strict").value
        self.assertEqual(capn.show(data, "bare", limits), model.styled(value, "plain"))
        self.assertEqual(capn.show(data, "bare", limits, json=True).count("rows"), 256)

    def test_what_is_shown(self):
        data = bytes.fromhex("0000000001000100" "0500000000000000" "010000001a000000" "6162000000000000")
        message = capn.read(data, "bare")
        plain, with_text = "struct 1 1\n  word 0000000000000005\n", '  bytes 3 "ab\\0"\n'
        for one in message, data:
            form = ("bare",) if one is data else ()
            self.assertEqual(capn.show(one, *form, text=True), f"{plain}{with_text}end\n")
            self.assertEqual(capn.show(one, *form, at=[0]), "bytes 3\n  616200\nend\n")
        self.assertEqual(capn.show(message.root, text=True), f"{plain}{with_text}end\n")
        self.assertEqual(capn.show(message.root.slots[0], json=True), '{"bytes":"616200"}\n')
        self.assertEqual(capn.show(message.root.slots[0], text=True, json=True), '{"text":"ab"}\n')
        self.assertEqual(capn.show(message, at=[0], text=1, json=1), '{"text":"ab"}\n')
        whole = '{"words":["0000000000000005"],"slots":[{"text":"ab"}]}\n'
        self.assertEqual(capn.show(message, text=1, json=1), whole)
        self.assertRaises(ValueError, capn.show, message.root, at=[0])
        self.assertRaises(ValueError, capn.show, message, at=[-1])
        self.assertRaises(TypeError, capn.show, "text")


if __name__ == "__main__":
    unittest.main()
