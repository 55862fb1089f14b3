"""Measures calls of the Python package, each many times, and prints the shortest time in nanoseconds. The first three
lines say how much slower `capn.check` is than an empty Python call, for 32 bytes in a `bytes`, a `bytearray` and a
`memoryview`."""
import fcntl
import io
import os
import sys
from time import perf_counter

import capn

MESSAGE = bytes.fromhex("0000000003000000" "0000000002000000" "0500000000000000" "0000000000000000")
CALLS, RUNS = 2000, 500
# The function `longer` writes a list of this many structs.
ROWS = 12


def longer():
    """Returns a message whose root is a struct with a number, a text of 8 bytes, and a list of ROWS structs. Each
    struct in the list has a word and a text."""
    segment = [1 << 32 | 2 << 48, 7, 1 << 2 | 1 | 2 << 32 | 8 << 35, 1 << 2 | 1 | 7 << 32 | 2 * ROWS << 35]
    segment += [int.from_bytes(b"abcdefg\0", "little"), ROWS << 2 | 1 << 32 | 1 << 48]
    for row in range(ROWS):
        # The texts of the structs come after all structs of the list.
        segment += [row, 2 * (ROWS - row) - 2 + row << 2 | 1 | 2 << 32 | 8 << 35]
    segment += [int.from_bytes(b"written\0", "little")] * ROWS
    return b"".join(word.to_bytes(8, "little") for word in [len(segment) << 32, *segment])


def empty(data, form="stream", limits=None):
    """Takes the same arguments as `capn.check`, and does nothing."""


def shortest(call, data, calls=CALLS, runs=RUNS):
    least = float("inf")
    for _ in range(runs):
        start = perf_counter()
        for _ in range(calls):
            call(data)
        least = min(least, (perf_counter() - start) / calls)
    return least * 1e9


def fields(data):
    root = capn.read(data).root
    return root.words[0], bytes(root.slots[0])


def rows(data):
    return [(row.words[0], bytes(row.slots[0])) for row in capn.read(data).root.slots[1]]


def refused(data):
    try:
        capn.check(data)
    except capn.Refusal as refusal:
        return refusal


def way(data):
    return refused(data).way


def cut(message):
    """Removes the last word of a message of one segment, and reduces the length in the segment table. Returns the
    shorter message."""
    return message[:4] + (len(message) // 8 - 2).to_bytes(4, "little") + message[8:-8]


def streamed(**options):
    """Reads a stream of 2,000 messages several times. Returns the shortest time per message."""
    message, count = longer(), 2000
    data = capn.pack(message) * count if options.get("packed") else message * count
    file = io.BufferedReader(io.BytesIO(data))

    def read(_):
        file.seek(0)
        assert sum(1 for _ in capn.messages(file, **options)) == count

    return shortest(read, None, calls=1, runs=30) / count


def of_words(count):
    """Returns a message with a segment of `count` words. Its root is a struct without pointers. The words of the struct
    are small numbers and texts of eight bytes, in turn."""
    segment = [count - 1 << 32, *((at, int.from_bytes(b"abcdefg\0", "little"))[at % 2] for at in range(count - 1))]
    return b"".join(word.to_bytes(8, "little") for word in [count << 32, *segment])


def piped(message, buffering, packed, runs=600):
    """Reads about 100 KB of messages from a pipe, many times. Returns the shortest time per message, in nanoseconds."""
    count, least = 100_000 // len(message), float("inf")
    data = (capn.pack(message) if packed else message) * count
    for _ in range(runs):
        read, write = os.pipe()
        fcntl.fcntl(write, fcntl.F_SETPIPE_SZ, 1 << 20)
        os.write(write, data)
        os.close(write)
        with open(read, "rb", buffering=buffering) as file:
            start = perf_counter()
            assert sum(1 for _ in capn.messages(file, packed)) == count
            least = min(least, (perf_counter() - start) / count)
    return least * 1e9


def main():
    nothing = shortest(empty, MESSAGE)
    for name, data in ("bytes", MESSAGE), ("bytearray", bytearray(MESSAGE)), ("memoryview", memoryview(MESSAGE)):
        print(f"check, 32 bytes, {name}: {shortest(capn.check, data) - nothing:.0f} ns above an empty call")
    message = longer()
    for call in capn.check, capn.digest, capn.canonical, capn.survey, capn.read, fields, rows:
        print(f"{call.__name__}, {len(message)} bytes: {shortest(call, message, 200, 100):.0f} ns")
    print(f"departure, {len(message)} bytes: {shortest(capn.departure, message, 200, 100):.0f} ns")
    for call, name in (refused, "refused"), (way, "refused, and its way"):
        print(f"check, {name}: {shortest(call, cut(message), 200, 100):.0f} ns")
    for options in {}, {"packed": True}, {"read_ahead": True}, {"packed": True, "read_ahead": True}:
        print(f"messages, {' '.join(options) or 'no option'}: {streamed(**options):.0f} ns a message")
    pipes()


def pipes():
    for buffering, name in (-1, "buffered"), (0, "without a buffer"):
        for packed in False, True:
            for words in 10, 100, 1000:
                kind = "packed, " if packed else ""
                took = piped(of_words(words), buffering, packed)
                print(f"messages of a pipe, {words} words, {kind}{name}: {took:.0f} ns a message")


if __name__ == "__main__":
    sys.exit(main())
