#!/usr/bin/env python3
"""Writes the good messages of a damaged archive. Usage: recover.py --good GOOD ARCHIVE > KEPT

GOOD is an archive of the same kind without damage, such as the first messages of ARCHIVE. A message is suspect if it
has more words than `capn limits` gives for GOOD, or if it leaves more of its words unused than any message of GOOD.
After a message that is rejected or suspect, the script looks for the byte at which good messages go on. Standard error
says which bytes were skipped, and why. The status is 0 if no bytes were skipped, 1 if some were, and 3 if reading,
writing or `capn` failed.
"""

from __future__ import annotations

import argparse
import mmap
import os
import re
import struct
import subprocess
import sys
import tempfile
from collections.abc import Iterator
from contextlib import closing
from itertools import islice
from typing import NamedTuple

# `capn list` counts costs by the rule `plain`, which counts only words. The rule doesn't count the root pointer. So the
# cost of a message without unused words is one less than its number of words.
LIST = [os.environ.get("CAPN", "capn"), "list", "--keep-going", "--tariff", "plain"]
LIMITS = [LIST[0], "limits"]
LINE = re.compile(rb"\d+ at (\d+) bytes (\d+) segments \d+ words (\d+) (?:paid (\d+) |refused (.*))")
FAULT = re.compile(rb"capn: message \d+ at (\d+): (.*)")
# Matches the beginning of a possible segment table. The table announces at most 4,096 segments, and its first segment
# isn't empty. The table may begin at any byte, since some bytes may be lost.
TABLE = re.compile(rb"(?=.[\0-\x0f]\0\0(?!\0{4}))", re.DOTALL)
# The limits on what one process of `capn` checks: at most MOST_ROWS rows of messages, and not much more than MOST_BYTES
# bytes.
MOST_ROWS, MOST_BYTES = 1 << 12, 1 << 24


class Message(NamedTuple):
    """A message: where it begins and ends, its number of words, and either its cost or the error for which it is
    rejected. If the segment table is invalid, the end of the message isn't known."""

    begin: int
    end: int
    words: int
    cost: int | None
    refusal: str

    @property
    def fault(self) -> str:
        return self.refusal or f"suspect: words {self.words}, paid {self.cost}"


class Span(NamedTuple):
    """A range of bytes of an archive. A kept range has complete messages. A skipped range has an error."""

    begin: int
    end: int
    messages: int
    fault: str


def message_of(line: bytes, offset: int) -> Message:
    """Returns the message that a line of `capn list` describes. `offset` is the place in the archive at which
    `capn list` began to read."""
    found = LINE.match(line)
    if not found:
        raise RuntimeError(f"not a line of capn list: {line!r}")
    at, length, words, cost, refusal = found.groups()
    begin = offset + int(at)
    return Message(begin, begin + int(length), int(words), None if refusal else int(cost), (refusal or b"").decode())


def listed(path: str, offset: int) -> Iterator[Message]:
    """Yields the messages of a file from an offset on. If `capn list` stops at an invalid segment table, yields the
    error of this segment table last."""
    with open(path, "rb", buffering=0) as archive, tempfile.TemporaryFile() as errors:
        archive.seek(offset)
        with subprocess.Popen(LIST, stdin=archive, stdout=subprocess.PIPE, stderr=errors) as listing:
            assert listing.stdout
            try:
                for line in listing.stdout:
                    yield message_of(line, offset)
            except GeneratorExit:
                listing.kill()
                raise
        errors.seek(0)
        said = errors.read().strip()
    if listing.returncode not in (0, 1):
        raise RuntimeError(said.decode())
    if fault := FAULT.fullmatch(said.split(b"\n")[-1]):
        begin = offset + int(fault[1])
        yield Message(begin, begin, 0, None, fault[2].decode())


class Sample:
    """A sample archive without damage. It shows what good messages are like."""

    def __init__(self, path: str) -> None:
        with open(path, "rb") as file:
            needed = subprocess.run(LIMITS, stdin=file, capture_output=True, check=False)
        use = re.search(rb"^use --message-words (\d+)", needed.stdout, re.MULTILINE)
        if not use or needed.stdout.startswith(b"messages 0\n"):
            raise RuntimeError(f"{path} has a fault, or no message: {needed.stderr.decode().strip()}")
        self.words = int(use[1])
        self.unused, self.has_null = -self.words, False
        for message in listed(path, 0):
            cost = message.cost or 0
            self.unused = max(self.unused, message.words - cost)
            self.has_null = self.has_null or cost == 0

    def takes(self, message: Message) -> bool:
        """Returns whether the script accepts a message. Two words of garbage can look like a message whose root is
        null. So the script accepts a message with a null root only if the sample also has such a message."""
        return message.cost is not None and (message.cost > 0 or self.has_null)

    def is_like(self, message: Message) -> bool:
        """Returns whether the script accepts a message, and the message looks like those of the sample. Such a message
        isn't longer than the longest message of the sample. It has at most as many unused words as the message of the
        sample with the most unused words."""
        return self.takes(message) and message.words <= min(self.words, self.unused + (message.cost or 0))


class Archive:
    """A damaged archive, in which the script finds the good messages."""

    def __init__(self, path: str, sample: Sample, options: argparse.Namespace) -> None:
        self.path, self.sample, self.row, self.nested = path, sample, options.row, options.nested
        self.size = os.path.getsize(path)
        with open(path, "rb") as file:
            self.data = mmap.mmap(file.fileno(), 0, access=mmap.ACCESS_READ) if self.size else b""

    def spans(self) -> Iterator[Span]:
        """Yields the archive as ranges of bytes, in order. Each range is marked as kept or as skipped."""
        at = 0
        while at < self.size:
            begin, messages, bad = at, 0, None
            with closing(listed(self.path, at)) as found:
                for message in found:
                    if not self.sample.is_like(message):
                        bad = message
                        break
                    at, messages = message.end, messages + 1
            if messages:
                yield Span(begin, at, messages, "")
            if bad:
                at = self.next_good(bad)
                yield from self.between(bad, at)

    def next_good(self, bad: Message) -> int:
        """Finds the next row of good messages after the beginning of a bad message. Returns the byte at which this row
        begins, or the end of the archive if there is no such row."""
        rows: list[tuple[int, list[int]]] = []
        most, size = 1, 0
        if self.nested and bad.end > bad.begin and self.first_good([(bad.end, self.ends(bad.end))]):
            return bad.end
        for found in TABLE.finditer(self.data, bad.begin + 1):
            if ends := self.ends(found.start()):
                rows.append((found.start(), ends))
                size += ends[-1] - found.start()
                if len(rows) == most or size > MOST_BYTES:
                    if good := self.first_good(rows):
                        return good
                    rows, most, size = [], min(2 * most, MOST_ROWS), 0
        return self.first_good(rows) or self.size

    def ends(self, at: int) -> list[int]:
        """Returns where the messages of a row end, according to their segment tables. The row begins at byte `at`.
        Returns no ends if the method `end` returns 0 for a message. A row has `self.row` messages, or fewer if the
        archive ends first."""
        ends: list[int] = []
        while len(ends) < self.row and at < self.size:
            at = self.end(at)
            if at > self.size:
                break
            if at == 0:
                return []
            ends.append(at)
        return ends

    def end(self, at: int) -> int:
        """Returns where the message that begins at byte `at` ends, according to its segment table. Returns 0 if the
        message has more words than the sample allows."""
        if at + 8 > self.size:
            return self.size + 1
        last, first = struct.unpack_from("<II", self.data, at)
        if last >= 4096 or not 0 < first <= self.sample.words:
            return 0
        table = 8 * ((last + 1) // 2 + 1)
        if at + table > self.size:
            return self.size + 1
        words = sum(struct.unpack_from(f"<{last + 1}I", self.data, at + 4))
        return at + table + 8 * words if words <= self.sample.words else 0

    def first_good(self, rows: list[tuple[int, list[int]]]) -> int:
        """Looks for the first row whose messages are all good. Returns where this row begins, or 0 if there is no such
        row. One process of `capn` checks all rows."""
        frames = b"".join(self.data[begin:ends[-1]] for begin, ends in rows if ends)
        lines = subprocess.run(LIST, input=frames, capture_output=True, check=False).stdout.splitlines()
        messages = (message_of(line, 0) for line in lines)
        for begin, ends in rows:
            row = [self.sample.is_like(message) for message in islice(messages, len(ends))]
            if row and all(row):
                return begin
        return 0

    def between(self, bad: Message, good: int) -> Iterator[Span]:
        """Yields ranges of bytes: the bad message, and what comes before the next good message. If the segment tables
        lead from the bad message exactly to the good message, they say where each message in the middle begins. Then
        every message in the middle that the script accepts is kept, even if it isn't like those of the sample."""
        end = bad.begin
        with closing(listed(self.path, bad.begin)) as found:
            for message in found:
                end = message.end
                if end >= good:
                    break
        if end != good:
            yield Span(bad.begin, good, 0, bad.fault)
            return
        last = None
        with closing(listed(self.path, bad.begin)) as found:
            for message in found:
                if message.begin >= good:
                    break
                is_kept = self.sample.takes(message)
                span = Span(message.begin, message.end, int(is_kept), "" if is_kept else message.fault)
                if last and bool(last.messages) == is_kept:
                    span = Span(last.begin, span.end, last.messages + span.messages, last.fault)
                elif last:
                    yield last
                last = span
        if last:
            yield last


def main() -> int:
    parser = argparse.ArgumentParser(description="Writes the good messages of a damaged archive.")
    parser.add_argument("--good", required=True, help="an archive of the same kind without damage")
    parser.add_argument("--row", type=int, default=3, help="how many good messages in a row end a damage (default: 3)")
    parser.add_argument("--nested", action="store_true", help="messages may hold others: take none from a refused one")
    parser.add_argument("archive")
    options = parser.parse_args()
    kept = lost = places = 0
    try:
        archive = Archive(options.archive, Sample(options.good), options)
        for span in archive.spans():
            kept += span.messages
            if span.fault:
                lost, places = lost + span.end - span.begin, places + 1
                print(f"recover: bytes {span.begin} to {span.end} passed over: {span.fault}", file=sys.stderr)
            else:
                sys.stdout.buffer.write(memoryview(archive.data)[span.begin:span.end])
        sys.stdout.flush()
    except (OSError, RuntimeError) as fault:
        print(f"recover: {fault}", file=sys.stderr)
        return 3
    print(f"recover: messages kept: {kept}; bytes passed over: {lost}, places: {places}", file=sys.stderr)
    return 1 if lost else 0


if __name__ == "__main__":
    sys.exit(main())
