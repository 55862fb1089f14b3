#!/usr/bin/env python3
"""Runs a command of `capn` on an archive, and uses several processors for it. Usage: parallel.py ARCHIVE COMMAND
[OPTION..]

COMMAND is `hash`, `check`, `list` or `canonical --framed`. The archive is split between messages, at offsets that `capn
list` writes. A process of its own reads each part. The results are put together in order, with the numbers and offsets
of the whole archive. Output, standard error and status are the same as with one process that reads the archive. There
is one exception: `hash` and `check` take more than 2^32 bytes here. What can't be split runs in one process: other
commands, a packed stream, a bare message, a mistake on the command line, and `--help`.
"""

from __future__ import annotations

import argparse
import os
import re
import subprocess
import sys
from collections import deque
from collections.abc import Iterator
from concurrent.futures import Future, ProcessPoolExecutor
from contextlib import closing
from typing import NamedTuple

CAPN = os.environ.get("CAPN", "capn")
COMMANDS = ("hash", "check", "list", "canonical")
OTHER_FORMS = {"packed", "bare", "--form=packed", "--form=bare"}
LIMITS = ("--message-words", "--budget", "--depth", "--tariff")
LINE = re.compile(rb"(\d+) at (\d+) bytes (\d+) ")
PLACES = re.compile(rb"^(\d+) at (\d+)", re.MULTILINE)
FAULT = re.compile(rb"(?<=^capn: message )(\d+) at (\d+)")
PASSED_OVER = re.compile(rb"capn: (\d+) of (\d+) messages refused, the first is (\d+) at (\d+)\n")


class Part(NamedTuple):
    """A part of an archive: the number of messages before it, where it begins, its number of messages, and where it
    ends. The last part is the rest of the archive: its end isn't given, and it may have bytes that aren't a complete
    message. Each other part has only complete messages."""

    before: int
    begin: int
    messages: int
    end: int | None

    def moved(self, found: re.Match[bytes]) -> bytes:
        """Returns the number and the offset of a message in the archive, from its number and offset in this part."""
        return b"%d at %d" % (int(found[1]) + self.before, int(found[2]) + self.begin)


class Answer(NamedTuple):
    """The output and the exit status of the process that ran the command on a part of the archive."""

    part: Part
    output: bytes
    errors: bytes
    status: int


def parts_of(path: str, limits: list[str], most: int) -> Iterator[Part]:
    """Yields the parts of an archive as soon as they are known. Each part except the last has complete messages, and
    ends as soon as it has `most` bytes or more."""
    before = begin = last = 0
    command = [CAPN, "list", "--keep-going", *limits]
    with open(path, "rb") as archive, subprocess.Popen(
            command, stdin=archive, stdout=subprocess.PIPE, stderr=subprocess.DEVNULL) as listing:
        assert listing.stdout
        try:
            while lines := listing.stdout.readlines(1 << 12):
                found = LINE.match(lines[-1])
                if not found:
                    raise RuntimeError(f"not a line of capn list: {lines[-1]!r}")
                last, at, length = map(int, found.groups())
                if at + length - begin >= most:
                    yield Part(before, begin, last - before, at + length)
                    before, begin = last, at + length
        except GeneratorExit:
            listing.kill()
            raise
    if listing.returncode not in (0, 1):
        raise RuntimeError(f"capn list: status {listing.returncode}")
    yield Part(before, begin, last - before, None)


def answer(path: str, part: Part, command: list[str]) -> Answer:
    """Runs the command on a part of the archive. In the output, replaces each message's number and offset in the part
    with those in the whole archive."""
    with open(path, "rb") as archive:
        archive.seek(part.begin)
        given = {"stdin": archive} if part.end is None else {"input": archive.read(part.end - part.begin)}
        ran = subprocess.run([CAPN, *command], capture_output=True, check=False, **given)
    output = PLACES.sub(part.moved, ran.stdout) if command[0] == "list" and part.begin else ran.stdout
    return Answer(part, output, ran.stderr, ran.returncode)


def answers(path: str, parts: Iterator[Part], command: list[str], processes: int) -> Iterator[Answer]:
    """Runs the command on each part in a process of its own, and yields the outputs in order. While all processes are
    busy, a few more parts are already waiting."""
    waiting: deque[Future[Answer]] = deque()
    with ProcessPoolExecutor(processes) as pool:
        try:
            for part in parts:
                waiting.append(pool.submit(answer, path, part, command))
                if len(waiting) > 2 * processes:
                    yield waiting.popleft().result()
            while waiting:
                yield waiting.popleft().result()
        finally:
            pool.shutdown(cancel_futures=True)


def put_together(found: Iterator[Answer]) -> tuple[bytes, int]:
    """Writes the outputs for the parts, up to the first error. Returns the exit status, and the lines for standard
    error."""
    refused, messages, first = 0, 0, b""
    for it in found:
        sys.stdout.buffer.write(it.output)
        sys.stdout.buffer.flush()
        messages, fault = it.part.before + it.part.messages, it.errors
        if passed_over := PASSED_OVER.match(it.errors):
            refused += int(passed_over[1])
            messages = it.part.before + int(passed_over[2])
            first = first or b"%d at %d" % (int(passed_over[3]) + it.part.before, int(passed_over[4]) + it.part.begin)
            fault = it.errors[passed_over.end():]
        if it.status > 1:
            return it.errors, it.status
        if fault:
            break
    line = b"capn: %d of %d messages refused, the first is %s\n" % (refused, messages, first) if refused else b""
    return line + FAULT.sub(it.part.moved, fault), it.status if fault else int(refused > 0)


def limits_of(options: list[str]) -> list[str]:
    """Returns those options of the command that set limits. The script uses the same limits when it splits the
    archive."""
    found: list[str] = []
    for at, option in enumerate(options):
        if option in LIMITS:
            found += options[at:at + 2]
        elif option.partition("=")[0] in LIMITS:
            found.append(option)
    return found


def is_for_parts(command: list[str]) -> bool:
    """Returns whether the script may split an archive for this command. The command has to succeed on an empty input,
    and must write nothing for this input."""
    if command[0] not in COMMANDS or OTHER_FORMS & set(command):
        return False
    ran = subprocess.run([CAPN, *command], stdin=subprocess.DEVNULL, capture_output=True, check=False)
    return not (ran.returncode or ran.stdout or ran.stderr)


def main() -> int:
    parser = argparse.ArgumentParser(description="Runs a command of capn over an archive on several processors.")
    parser.add_argument("--processes", type=int, default=os.cpu_count() or 1, help="how many run at a time")
    parser.add_argument("--part", type=int, default=1 << 24, help="the bytes of a part (default: 16 MiB)")
    parser.add_argument("archive")
    parser.add_argument("command", nargs=argparse.REMAINDER, help="hash, check, list or canonical --framed")
    options = parser.parse_args()
    command, path = options.command, options.archive
    if not command or options.processes < 1 or options.part < 1:
        parser.error("there is no command, no process or no byte in a part")
    try:
        if not is_for_parts(command):
            with open(path, "rb") as archive:
                os.dup2(archive.fileno(), 0)
            os.execvp(CAPN, [CAPN, *command])
        with closing(parts_of(path, limits_of(command), options.part)) as parts:
            with closing(answers(path, parts, command, options.processes)) as found:
                errors, status = put_together(found)
    except BrokenPipeError:
        os.dup2(os.open(os.devnull, os.O_WRONLY), sys.stdout.fileno())
        errors, status = b"capn: input or output failed\n", 3
    except (OSError, RuntimeError) as fault:
        errors, status = f"parallel: {fault}\n".encode(), 3
    sys.stderr.buffer.write(errors)
    return status


if __name__ == "__main__":
    sys.exit(main())
