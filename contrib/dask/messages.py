"""Writes archives for trying dedupe.py. Usage: messages.py FOLDER MESSAGES FILES

A message is a number and its text in one of three layouts: canonical, with an additional zero word, or in two segments.
Most values occur several times. One of each 5,000 messages is rejected, and one message has a capability.
"""

from __future__ import annotations

import random
import struct
import sys
from pathlib import Path


def framed(*segments: list[int]) -> bytes:
    """Returns a message: a segment table, and after it the given segments."""
    table = struct.pack(f"<{len(segments) + 1}I", len(segments) - 1, *map(len, segments))
    contents = b"".join(struct.pack(f"<{len(words)}Q", *words) for words in segments)
    return table + bytes(-len(table) % 8) + contents


def text_of(number: int) -> tuple[int, list[int]]:
    """Returns a pointer to a text, and the words of the text. The words have to be put directly after the pointer,
    because the pointer refers to this place."""
    text = f"this is number {number}\0".encode()
    padded = text + bytes(-len(text) % 8)
    return 1 | 2 << 32 | len(text) << 35, list(struct.unpack(f"<{len(padded) // 8}Q", padded))


def canonical(number: int) -> bytes:
    pointer, text = text_of(number)
    return framed([1 << 32 | 1 << 48, number, pointer, *text])


def with_zeros(number: int) -> bytes:
    pointer, text = text_of(number)
    return framed([2 << 32 | 1 << 48, number, 0, pointer, *text])


def in_two_segments(number: int) -> bytes:
    pointer, text = text_of(number)
    return framed([2 | 1 << 32], [1 << 32 | 1 << 48, number, pointer, *text])


def message(source: random.Random, at: int, values: int) -> bytes:
    """Returns the message that has the given number in the archive."""
    if at % 5000 == 1000:
        return framed([1 << 32 | 9 << 2])
    if at % 5000 == 3000:
        return framed([1 << 48, 3 | at << 32])
    layout = source.choice([canonical, with_zeros, in_two_segments])
    return layout(source.randint(1, values))


def main() -> None:
    folder, messages, files = Path(sys.argv[1]), int(sys.argv[2]), int(sys.argv[3])
    source = random.Random(48)
    for name in range(files):
        places = range(messages * name // files, messages * (name + 1) // files)
        archive = b"".join(message(source, at, messages // 3) for at in places)
        (folder / f"{name:03}.messages").write_bytes(archive)


if __name__ == "__main__":
    main()
