"""Makes the generated messages of the tests from fixed seeds. Other scripts import this file. The tests of C, C++, Go
and Rust read the output of this script.

    generated.py calls COUNT     writes calls for tests/c/vectors.c on COUNT messages. A line has a call, a form, limits
                                 and the message. Some messages are truncated.
    generated.py inputs          writes calls on the inputs of INPUTS
    generated.py stream COUNT    writes a stream of COUNT hostile messages
    generated.py mixed COUNT     writes COUNT messages, each after its length, a number of 4 bytes. Half of them are
                                 hostile, and half are changed copies of valid ones. Every error of a message occurs.
"""
import random
import struct
import sys

from model import packed


def frame(*words):
    """Returns a message of one segment with its segment table."""
    return struct.pack(f"<{len(words) + 1}Q", len(words) << 32, *words)


def doubling(levels):
    """Returns a chain of structs with two pointers each. Both pointers of a struct refer to the next struct. The last
    struct has a word."""
    words = [1 << 49]
    for level in range(levels):
        sizes = 1 << 32 if level == levels - 1 else 1 << 49
        words += [1 << 2 | sizes, sizes]
    return frame(*words, 5)


def shared(pointers, numbers):
    """Returns a struct with a pointer to a list of pointers. All pointers of this list refer to one list of numbers."""
    links = [1 | pointers - 1 - at << 2 | 5 << 32 | numbers << 35 for at in range(pointers)]
    return frame(1 << 48, 1 | 6 << 32 | pointers << 35, *links, *range(1, numbers + 1))


# The hostile inputs. Each has a name, its bytes, and the form of the bytes (`stream` or `packed`).
INPUTS = [
    ("a struct whose only pointer refers to itself", frame(0x1_0000_FFFF_FFFC), "stream"),
    ("structs of two pointers, both to the next struct, 60 levels", doubling(60), "stream"),
    ("2^29 - 1 structs without words", frame(1 << 48, 1 | 7 << 32, (1 << 29) - 1 << 2), "stream"),
    ("2^32 - 1 words announced", struct.pack("<Q", 0xFFFF_FFFF << 32), "stream"),
    ("2^29 - 1 voids", frame(1 << 48, 1 | (1 << 29) - 1 << 35), "stream"),
    ("1,000 pointers to one list of 8,000 numbers", shared(1000, 8000), "stream"),
    ("the packed bytes `1101010001`", bytes.fromhex("1101010001"), "packed"),
]
# The greatest number of elements of a generated list, for each element size. With these numbers, most lists lie inside
# their segment.
COUNTS = [9, 70, 17, 9, 5, 3, 3, 5]
# The highest bit of the element count in the tag word of a list of structs.
HIGHEST = 1 << 31
# For each kind of list, the number of bits in one element.
BITS = [0, 1, 8, 16, 32, 64]
TEXTS = [b"\0", b"abc\0", "grün\0".encode(), b"\xff\xfe\0", b"no zero", b"a\0b\0"]
# Limits of a call: the words of a message, the budget and the depth.
USUAL = "8388608 8388608 64"
LOW = ["6 8388608 64", "6 8388608 64", "8388608 9 3", "8388608 8388608 2"]
LIMITS = [USUAL, USUAL, USUAL, "8388608 8388608 256", *LOW]


def pointer(rng, words, segments):
    """Returns a random word. Most of these words are pointers to a place nearby."""
    offset = (rng.randint(-2, words) << 2) & 0xFFFFFFFF
    kind = rng.random()
    if kind < 0.35:
        return offset | rng.randint(0, 2) << 32 | rng.randint(0, 2) << 48
    if kind < 0.75:
        size = rng.randint(0, 7)
        return offset | 1 | size << 32 | rng.randint(0, COUNTS[size]) << 35
    if kind < 0.85 and segments > 1:
        return 2 | rng.randint(0, 1) << 2 | rng.randint(0, max(words - 1, 0)) << 3 | rng.randint(0, segments - 1) << 32
    if kind < 0.88:
        return 1 | rng.randint(0, 99) << 2 | rng.randint(0, 9) << 35
    return 0 if kind < 0.93 else rng.choice([5, 0xFF, 1 << 63, 4, rng.getrandbits(64)])


def plant_pad(rng, segments):
    """Changes a message so that its root is a far pointer with a double landing pad. In most cases, the object that the
    far pointer leads to has no words. Often the object lies in a segment without words."""
    at = rng.randrange(len(segments))
    if len(segments[at]) < 3:
        return
    if rng.random() < 0.5:
        segments.append([])
    pad, to = rng.randint(1, len(segments[at]) - 2), rng.choice([len(segments) - 1, rng.randrange(len(segments))])
    segments[at][pad] = 2 | rng.randint(0, len(segments[to])) << 3 | to << 32
    segments[at][pad + 1] = rng.choice([0, 0, 1, 9 << 35 | 1, 1 << 32])
    segments[0][0] = 6 | pad << 3 | at << 32


def plant_tag(rng, segments):
    """Changes a message so that its root is a list of structs. In more than half of these messages, the highest bit of
    the element count in the list's tag is set."""
    words = len(segments[0])
    if words < 2:
        return
    size = rng.randint(0, min(2, words - 2))
    count = rng.randint(0, (words - 2) // size if size else 3)
    segments[0][0] = 1 | 7 << 32 | (words - 2) << 35
    segments[0][1] = rng.choice([HIGHEST, HIGHEST, 0]) | count << 2 | size << 32


def plant_run(rng, segments):
    """Changes the last word of a segment and the first word of the next segment. Both words become zero, or both become
    a word that packing copies unchanged. So a run of packed words can cross the border between the segments."""
    at = rng.randrange(len(segments))
    after = (at + 1) % len(segments)
    if segments[at] and segments[after]:
        segments[at][-1] = segments[after][0] = rng.choice([0, 0, 0x807060504030201])


def message(rng):
    """Returns the segments of a message: one to four lists of words."""
    number = rng.choice([1, 1, 2, 3])
    sizes = [rng.randint(0, 7) for _ in range(number)]
    segments = [[pointer(rng, size, number) for _ in range(size)] for size in sizes]
    kind = rng.random()
    if segments[0] and kind < 0.1:
        plant_tag(rng, segments)
    elif segments[0] and kind < 0.25:
        plant_pad(rng, segments)
    elif kind < 0.35:
        plant_run(rng, segments)
    elif segments[0] and kind < 0.4:
        segments[0][0] = 0
    return segments


def pieces(segments):
    """Returns the bytes of the segment table, and the bytes of each segment."""
    table = struct.pack(f"<{len(segments) + 1}I", len(segments) - 1, *map(len, segments))
    return [table + bytes(-len(table) % 8)] + [struct.pack(f"<{len(words)}Q", *words) for words in segments]


def framed(segments):
    return b"".join(pieces(segments))


def numbers(rng, count):
    """Returns random data words. Each word has random bits, or is zero, a small number or 2^63."""
    return [rng.choice([0, rng.randrange(9), 1 << 63, rng.getrandbits(64), rng.getrandbits(64)]) for _ in range(count)]


def thing(rng, depth):
    """Returns a random object: a pointer to it with the offset 0, its words, and the places of its own pointers."""
    kind = rng.random() if depth else 0.6 + 0.4 * rng.random()
    data, slots = rng.randint(0, 3), rng.randint(0, 3)
    if kind < 0.3:
        return data << 32 | slots << 48, numbers(rng, data) + [0] * slots, range(data, data + slots)
    if kind < 0.4:
        return 1 | 6 << 32 | slots << 35, [0] * slots, range(slots)
    if kind < 0.6:
        count, each, words = rng.choice([0, 1, 2, 3, 5]), data + slots, []
        for _ in range(count):
            words += numbers(rng, data) + [0] * slots
        places = [at + 1 for at in range(len(words)) if at % each >= data]
        return 1 | 7 << 32 | count * each << 35, [count << 2 | data << 32 | slots << 48, *words], places
    if kind < 0.75:
        text = rng.choice(TEXTS)
        words = struct.unpack(f"<{-(-len(text) // 8)}Q", text + bytes(-len(text) % 8))
        return 1 | 2 << 32 | len(text) << 35, words, ()
    size, count = rng.randint(0, 5), rng.choice([0, 1, 3, 9, 20, 39])
    words = numbers(rng, -(-count * BITS[size] // 64))
    # In half of the lists, the bits after the last element are zero.
    if count * BITS[size] % 64 and rng.random() < 0.5:
        words[-1] &= (1 << count * BITS[size] % 64) - 1
    return 1 | size << 32 | count << 35, words, ()


def valid(rng, number):
    """Returns the segments of a valid message. An object can be in any segment. If its pointer is in another segment,
    the object is behind a landing pad of one or two words. In some messages the root isn't a struct."""
    segments, least = [], rng.choice([1, 4, 8, 16])

    def put(home, at, depth):
        """Adds an object, and writes the pointer to it at a word of the segment `home`."""
        pointer, words, places = thing(rng, depth)
        to = rng.randrange(number)
        begin = len(segments[to])
        segments[to] += words
        if to == home:
            # With the offset 0, the pointer to a struct without words would be null.
            segments[home][at] = pointer | (begin - at - 1 if words or pointer else -1) << 2 & 0xFFFFFFFF
        elif rng.random() < 0.7:
            pad = len(segments[to])
            segments[to].append(pointer | (begin - pad - 1) << 2 & 0xFFFFFFFF)
            segments[home][at] = 2 | pad << 3 | to << 32
        else:
            other = rng.randrange(number)
            segments[home][at] = 6 | len(segments[other]) << 3 | other << 32
            segments[other] += [2 | begin << 3 | to << 32, pointer]
        for place in places:
            kind = rng.random()
            if kind < 0.05:
                segments[to][begin + place] = 3 | rng.randrange(5) << 32
            elif kind < 0.85:
                put(to, begin + place, depth - 1)

    while sum(map(len, segments)) < least:
        # Each segment gets at least one word, because the reference implementation finds no object in a segment without
        # words.
        segments = [[0] for _ in range(number)]
        put(0, 0, rng.choice([1, 3, 5]))
    return segments


def changed(rng, data):
    """Returns a message after one to three random changes. A change affects a bit, a word, or a number in the segment
    table, or makes the message shorter or longer. Many changed messages are still valid."""
    data = bytearray(data)
    for _ in range(rng.choice([1, 1, 1, 2, 3])):
        kind, places = rng.random(), len(data) // 8
        if kind < 0.4 and data:
            bit = rng.randrange(8 * len(data))
            data[bit // 8] ^= 1 << bit % 8
        elif kind < 0.8 and places > 1:
            at = 8 * rng.randrange(1, places)
            data[at:at + 8] = struct.pack("<Q", pointer(rng, places, 1))
        elif kind < 0.9 and places:
            at = 4 * rng.randrange(2)
            data[at:at + 4] = struct.pack("<I", rng.choice([0, 1, 2, 63, 511, 512, places - 1, 1 << 29, (1 << 32) - 1]))
        elif kind < 0.95:
            del data[rng.randrange(len(data) + 1):]
        else:
            data += bytes(rng.choice([1, 8, 16]))
    return bytes(data)


def calls(count):
    """Yields the lines of `generated.py calls`. Six in ten messages are hostile. The others are made as valid messages,
    and one in four of these others is then changed."""
    rng = random.Random(65)
    for _ in range(count):
        data, form = framed(message(rng)), rng.choice(["stream", "stream", "packed", "bare"])
        if rng.random() < 0.4:
            data = framed(valid(rng, rng.choice([1, 1, 1, 2, 3, 4])))
            data = changed(rng, data) if rng.random() < 0.25 else data
        if rng.random() < 0.1:
            data = data[:rng.randint(0, len(data))]
        data = packed(data) if form == "packed" else data[8:] if form == "bare" else data
        tariff, limits, written = rng.choice(["", "", "plain "]), rng.choice(LIMITS), data.hex() or "-"
        yield f"{tariff}canonicalise {form} {limits} {written}"
        yield f"{tariff}survey {form} {limits} {written}"
        if form == "bare":
            yield f"{tariff}is_canonical {limits} {written}"
        yield f"run 3 hash --form {form if form == 'bare' else 'stream'} {written}"
        yield f"pack {written}"
        yield f"unpack {rng.choice([3, 9, 8388608])} {written}"


def inputs():
    """Yields the lines of `generated.py inputs`."""
    for _, data, form in INPUTS:
        for call in "canonicalise", "survey":
            yield f"{call} {form} {USUAL} {data.hex()}"


def stream(count):
    """Returns hostile messages, one after another."""
    rng = random.Random(65)
    return b"".join(framed(message(rng)) for _ in range(count))


def mixed(count):
    """Returns hostile messages and changed copies of valid messages, in random order. The length of each message comes
    before the message."""
    rng = random.Random(20260)
    messages = [framed(message(rng)) for _ in range(count // 2)]
    messages += [changed(rng, framed(valid(rng, rng.choice([1, 1, 1, 2])))) for _ in range(count - count // 2)]
    rng.shuffle(messages)
    return b"".join(struct.pack("<I", len(data)) + data for data in messages)


if __name__ == "__main__":
    writes = {"calls": calls, "inputs": inputs, "stream": stream, "mixed": mixed}[sys.argv[1]]
    wrote = writes(*map(int, sys.argv[2:]))
    if isinstance(wrote, bytes):
        sys.stdout.buffer.write(wrote)
    else:
        print(*wrote, sep="\n")
