"""Removes duplicate messages from archives. The work is done by the workers of a Dask cluster, and each worker runs
`capn`.

The files are read as one archive, in the order in which they are given. Of the messages with the same value, the first
is kept, as it is or in canonical form. The output equals the output of one process of `capn uniq --keep-going` for the
same input, or that output in the form of `capn canonical --framed`.
"""

from __future__ import annotations

import argparse
import os
import subprocess
import sys
import tempfile
from dataclasses import dataclass, field
from typing import Any, BinaryIO

from distributed import Client, Future

PASSED_OVER = b" messages refused, the first is "


@dataclass(frozen=True)
class Part:
    """A part of a file: the path of the file, and a range of bytes with complete messages."""

    path: str
    offset: int
    length: int

    def read(self) -> bytes:
        with open(self.path, "rb") as file:
            file.seek(self.offset)
            return file.read(self.length)


@dataclass(frozen=True)
class Message:
    """A message: where it begins and ends, and its digest. If a message has no digest, `refusal` says why."""

    begin: int
    end: int
    digest: str
    refusal: str


@dataclass
class Report:
    """The counts for a report: the number of messages, and the number of kept messages. Also has the number, the offset
    and the error of each rejected message."""

    messages: int = 0
    kept: int = 0
    refused: list[tuple[int, int, str]] = field(default_factory=list)


def capn(*words: str, **given: Any) -> bytes:
    """Runs `capn`, and returns its output. The exit status of `capn` may say that it skipped rejected messages. If
    `capn` fails in any other way, raises an exception."""
    ran = subprocess.run([os.environ.get("CAPN", "capn"), *words], capture_output=True, check=False, **given)
    if ran.returncode and not (ran.stderr.count(b"\n") == 1 and PASSED_OVER in ran.stderr):
        raise RuntimeError(f"capn {' '.join(words)}: status {ran.returncode}: {ran.stderr.decode().strip()}")
    return ran.stdout


def message_of(line: str) -> Message:
    """Returns the message that a line of `capn list` describes."""
    head, _, refusal = line.partition(" refused ")
    words = head.split()
    named = dict(zip(words[1::2], words[2::2]))
    if named.get("capability", "no") != "no":
        refusal = f"capability {named['capability']}"
    begin = int(named["at"])
    return Message(begin, begin + int(named["bytes"]), named.get("sha256", ""), refusal)


def messages_of(listing: bytes) -> list[Message]:
    return [message_of(line) for line in listing.decode().splitlines()]


def cut(path: str, most: int) -> list[Part]:
    """Returns the parts of a file. A part has complete messages, with at most `most` bytes together. A longer message
    is a part of its own."""
    with open(path, "rb") as file:
        try:
            messages = messages_of(capn("list", "--keep-going", stdin=file))
        except RuntimeError as fault:
            raise RuntimeError(f"{path}: {fault}") from None
    parts, begin, end = [], 0, 0
    for message in messages:
        if begin < end and message.end - begin > most:
            parts.append(Part(path, begin, end - begin))
            begin = end
        end = message.end
    return [*parts, Part(path, begin, end - begin)] if begin < end else parts


def digests(part: Part) -> list[Message]:
    """Checks the messages of a part, and returns them. Each returned message has the digest of its canonical bytes."""
    return messages_of(capn("list", "--digest", "--keep-going", input=part.read()))


def frames(part: Part, kept: list[Message], is_canonical: bool) -> bytes:
    """Returns some messages of a part as bytes, with a segment table before each message. The messages are in canonical
    form if `is_canonical` is set, and otherwise unchanged."""
    data = part.read()
    found = b"".join(data[message.begin:message.end] for message in kept)
    return capn("canonical", "--framed", input=found) if is_canonical else found


class Choice:
    """Chooses the messages that are kept. If several messages have the same value, only the first of them is kept. The
    object takes the parts of all files one after the other, and counts their messages."""

    def __init__(self) -> None:
        self.seen: set[str] = set()
        self.report = Report()
        self.offset = 0

    def of(self, part: Part, messages: list[Message]) -> list[Message]:
        """Takes the messages of the next part, and returns those that are kept."""
        kept = []
        for number, message in enumerate(messages, self.report.messages + 1):
            if message.refusal:
                self.report.refused.append((number, self.offset + message.begin, message.refusal))
            elif message.digest not in self.seen:
                self.seen.add(message.digest)
                kept.append(message)
        self.report.messages += len(messages)
        self.report.kept += len(kept)
        self.offset += part.length
        return kept


def tasks(client: Client, *call: Any, **options: Any) -> list[Future]:
    """Returns Dask tasks, as `client.map` does. With pure=False, each task gets a new key. Without pure=False, Dask
    would compute the keys from the arguments, and give two equal parts the same key."""
    return client.map(*call, **options, pure=False)


def dedupe(client: Client, paths: list[str], out: BinaryIO, most: int, is_canonical: bool) -> Report:
    """Writes the messages of the given files without duplicates, in the order of the files. If several messages have
    the same value, only the first of them is written."""
    parts = [part for found in tasks(client, cut, paths, most=most) for part in found.result()]
    choice = Choice()
    kept = [choice.of(part, found.result()) for part, found in zip(parts, tasks(client, digests, parts))]
    for answer in tasks(client, frames, parts, kept, is_canonical=is_canonical):
        out.write(answer.result())
    return choice.report


def told(report: Report) -> str:
    """Returns the lines of a report. The last line equals the line that `capn` prints."""
    lines = [f"{report.kept} of {report.messages - len(report.refused)}"]
    lines += [f"message {number} at {offset}: {refusal}" for number, offset, refusal in report.refused]
    if report.refused:
        number, offset, _ = report.refused[0]
        lines.append(f"{len(report.refused)} of {report.messages} messages refused, the first is {number} at {offset}")
    return "\n".join(lines)


def write(client: Client, paths: list[str], options: argparse.Namespace) -> Report:
    """Writes the result into a temporary file in the same folder, and renames this file when it is complete. Until
    then, an old result stays as it is."""
    folder, name = os.path.split(os.path.abspath(options.out))
    with tempfile.NamedTemporaryFile(dir=folder, prefix=f".{name}.", delete=False) as out:
        try:
            report = dedupe(client, paths, out, options.most, options.canonical)
            out.close()
            mask = os.umask(0)
            os.umask(mask)
            os.chmod(out.name, 0o666 & ~mask)
            os.replace(out.name, os.path.join(folder, name))
        except BaseException:
            os.unlink(out.name)
            raise
    return report


def main() -> int:
    parser = argparse.ArgumentParser(description="Frees archives of duplicates over the workers of a Dask cluster.")
    parser.add_argument("--scheduler", help="the address of the scheduler; without it, this process does it all")
    parser.add_argument("--canonical", action="store_true", help="write the messages in canonical form")
    parser.add_argument("--most", type=int, default=1 << 26, help="the most bytes of a part (usual: 64 MiB)")
    parser.add_argument("out")
    parser.add_argument("archives", nargs="+")
    options = parser.parse_args()
    paths = [os.path.abspath(path) for path in options.archives]
    client = Client(options.scheduler) if options.scheduler else Client(processes=False, dashboard_address=":0")
    with client:
        try:
            report = write(client, paths, options)
        except (RuntimeError, OSError) as fault:
            print(f"dedupe: {fault}", file=sys.stderr)
            return 3
    print(told(report))
    return 1 if report.refused else 0


if __name__ == "__main__":
    sys.exit(main())
