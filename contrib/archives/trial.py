"""Tests the scripts of contrib/archives on small archives in the current folder, with the program that CAPN names.

From a damaged archive, recover.py has to keep each message whose bytes are complete, and no other bytes. parallel.py
has to write what one process writes. search.sh has to find the messages with a text, and no other messages.
differences.sh has to print the messages that differ.
"""

from __future__ import annotations

import os
import random
import resource
import struct
import subprocess
import sys
from pathlib import Path

HERE = Path(__file__).parent
sys.path.append(str(HERE.with_name("dask")))
from messages import canonical, framed, in_two_segments, with_zeros

CAPN = os.environ["CAPN"]
MEGABYTE = 1 << 20
# The messages after a damaged segment table are repeated this number of times. Together, the repeated messages have
# more words than the 5,000 that one damaged table announces.
MANY = 6
Ran = tuple[bytes, str, int]
Place = tuple[int, int, str]
REFUSED = framed([1 << 32 | 9 << 2])
faults: list[str] = []
passed = 0


def see(is_so: bool, what: str) -> None:
    global passed
    if is_so:
        passed += 1
    else:
        faults.append(what)


def seconds() -> float:
    """Returns how much processor time the child processes of this script have used so far."""
    used = resource.getrusage(resource.RUSAGE_CHILDREN)
    return used.ru_utime + used.ru_stime


def ran(*words: str, given: bytes = b"") -> Ran:
    done = subprocess.run(words, input=given, capture_output=True, check=False)
    return done.stdout, done.stderr.decode(), done.returncode


def script(name: str, *words: str) -> Ran:
    return ran(sys.executable, "-B", str(HERE / name), *words)


def fault_of(archive: bytes) -> str:
    """Returns the error of the first message of an archive, as recover.py prints it."""
    out, errors, _ = ran(CAPN, "list", "--keep-going", "--tariff", "plain", given=archive)
    if not out:
        return errors.strip().split(": ", 2)[2]
    line = out.decode().split("\n")[0]
    return line.partition(" refused ")[2] or f"suspect: words {line.split()[8]}, paid {line.split()[10]}"


def recovered(what: str, damaged: bytes, kept: list[bytes], *places: Place, options: tuple[str, ...] = ()) -> None:
    """Checks that recover.py keeps the given messages of a damaged archive, and no other bytes. Also checks that
    recover.py reports the offset, the length and the error of each range of bytes that it skips."""
    Path("damaged").write_bytes(damaged)
    whole = b"".join(kept)
    out, errors, status = script("recover.py", "--good", "good", *options, "damaged")
    told = [f"bytes {begin} to {begin + length} passed over: {fault}" for begin, length, fault in places]
    told.append(f"messages kept: {len(kept)}; bytes passed over: {len(damaged) - len(whole)}, places: {len(places)}")
    see(out == whole, f"{what}: {len(out)} bytes are kept of {len(whole)}: {errors}")
    said = "".join(f"recover: {line}\n" for line in told)
    see((errors, status) == (said, int(bool(places))), f"{what}: it says, with status {status}: {errors}")


def nested(inner: bytes) -> bytes:
    """Returns a message that has another message as its only data."""
    words = struct.unpack(f"<{len(inner) // 8}Q", inner)
    return framed([1 << 48, 1 | 2 << 32 | len(inner) << 35, *words])


def sized(message: bytes, words: int) -> bytes:
    """Changes the segment table of a message of one segment, so that it announces `words` words. Returns the changed
    message."""
    return message[:4] + struct.pack("<I", words) + message[8:]


def recover(source: random.Random, messages: list[bytes]) -> None:
    """Tries each kind of damage in the middle of an archive. Checks that recover.py prints the right line for the
    damage."""
    Path("good").write_bytes(b"".join(messages[:100]))
    before, after = messages[:150], messages[150:]
    head, tail = b"".join(before), b"".join(after)
    at, first, rest = len(head), len(after[0]), b"".join(after[1:])
    recovered("no damage", head + tail, messages)
    recovered("an empty archive", b"", [])
    for size in (MEGABYTE, MEGABYTE + 3):
        garbage = b"\xff\xff" + source.randbytes(size - 2)
        fault = f"frame: TooManySegments({1 + int.from_bytes(garbage[:4], 'little')})"
        began = seconds()
        recovered(f"{size} bytes of garbage", head + garbage + tail, messages, (at, size, fault))
        see(seconds() - began < 2, f"{size} bytes of garbage took {seconds() - began} seconds of a processor")
    # The damaged segment table announces one word too few, one word too many, as many words as the message and the next
    # message together, 5,000 words, or more words than the archive has.
    words = first // 8 - 1
    for said in (words - 1, words + 1, words + len(after[1]) // 8, 5000, 1 << 24):
        table = sized(after[0], said)
        recovered(f"a table of {said} words", head + table + rest * MANY, before + after[1:] * MANY,
                  (at, first, fault_of(table + rest * MANY)))
    # Overwrites the end of a message, the next message, and the beginning of a third message with zeros.
    zeros = tail[:16] + bytes(first + len(after[1]) - 8) + tail[first + len(after[1]) + 8:]
    recovered("zeros", head + zeros, before + after[3:], (at, sum(map(len, after[:3])), fault_of(zeros)))
    recovered("13 bytes lost", head + rest[13:], before + after[2:], (at, len(after[1]) - 13, fault_of(rest[13:])))
    # Tries more archives. The first has two rejected messages, and a good message between them. The second has long
    # messages. The third has a message with a gap, which recover.py must not lose. The last is truncated.
    refused = REFUSED + after[0] + REFUSED
    recovered("two refused", head + refused + rest, messages, (at, len(REFUSED), fault_of(REFUSED)),
              (at + len(refused) - len(REFUSED), len(REFUSED), fault_of(REFUSED)))
    long = framed([500 << 32, *range(500)])
    recovered("long messages", head + long + long + tail, before + [long, long] + after)
    gap = framed([1 << 32, 7, *range(9)])
    recovered("a message with a gap", head + gap + tail, before + [gap] + after)
    last = len(messages[-1])
    recovered("a cut", (head + tail)[:-8], messages[:-1], (len(head + tail) - last, last - 8, "frame: Cut"))
    # A rejected message contains another message. recover.py treats the inner message as a message of the archive,
    # unless it gets the option `--nested`. This option says that messages may contain other messages.
    holder = nested(after[0])
    holder = holder[:23] + b"\x7f" + holder[24:]
    fault = fault_of(holder)
    recovered("a message in a refused one", head + holder + tail, before + [after[0]] + after, (at, 24, fault))
    recovered("the same, if messages hold others", head + holder + tail, messages, (at, len(holder), fault),
              options=("--nested",))
    Path("good").write_bytes(REFUSED)
    see(script("recover.py", "--good", "good", "damaged")[2] == 3, "a bad archive as the good one")


def parallel(messages: list[bytes]) -> None:
    """Compares the output of parallel.py with the output of one process for the whole archive. Some archives are valid,
    some have rejected messages, and some are truncated."""
    some = [it if n % 70 else REFUSED for n, it in enumerate(messages)]
    capability = framed([1 << 48, 3])
    archives = {
        "whole": messages, "empty": [], "one": messages[:1], "cut": [*messages, messages[0][:-8]],
        "refused": some, "refused and cut": [*some, b"\1"], "a capability": [*messages, capability, *messages],
        "a table": [*some, b"\xff" * 8, *messages], "refused at once": [REFUSED, *messages],
    }
    commands = ["hash", "check", "list", "list --digest --keep-going", "canonical --framed",
                "canonical --framed --keep-going", "check --budget 6", "list --keep-going --message-words=6"]
    for name, parts in archives.items():
        Path("archive").write_bytes(b"".join(parts))
        for command in commands:
            one = ran(CAPN, *command.split(), given=b"".join(parts))
            see(one == script("parallel.py", "--processes", "2", "--part", "4096", "archive", *command.split()),
                f"{name}, in parts: {command}")
    Path("archive").write_bytes(b"".join(messages))
    for command in ["canonical", "hash --form packed", "show", "list --foo", "hash --help", "foo"]:
        one = ran(CAPN, *command.split(), given=b"".join(messages))
        see(one == script("parallel.py", "archive", *command.split()), f"not in parts: {command}")
    see(script("parallel.py", "--part", "4096", "--processes", "1", "archive", "list")
        == ran(CAPN, "list", given=b"".join(messages)), "one process, in parts")


def shell(name: str, *words: str) -> Ran:
    return ran("sh", str(HERE / name), *words)


def texted(text: str) -> bytes:
    """Returns a message whose root has one pointer, which refers to a text."""
    data = text.encode() + b"\0"
    words = struct.unpack(f"<{-(-len(data) // 8)}Q", data.ljust(-(-len(data) // 8) * 8, b"\0"))
    return framed([1 << 48, 1 | 2 << 32 | len(data) << 35, *words])


def search() -> None:
    """Tests search.sh. The test searches for texts that some messages have, and for a text that no message has. One
    text is in so many messages that search.sh needs more than one list for the numbers of these messages. Some archives
    have rejected messages."""
    ada, grace, without = texted("Ada"), texted('Grace "Hopper"'), canonical(5)
    Path("archive").write_bytes(ada + without + grace + ada)
    see(shell("search.sh", "archive", "0", "Ada") == (ada + ada, "", 0), "messages with Ada")
    see(shell("search.sh", "archive", "0", '\\"Hop') == (grace, "", 0), "a quote, as JSON writes it")
    see(shell("search.sh", "archive", "0", "a.a") == (b"", "", 1), "characters, and not a pattern")
    see(shell("search.sh", "archive", "1", "Ada") == (b"", "", 1), "another path")
    see(shell("search.sh", "archive", "0")[2] == 2, "no characters")
    see(shell("search.sh", "missing", "0", "Ada")[2] == 2, "no archive")
    Path("archive").write_bytes(grace + ada * 20001)
    see(shell("search.sh", "archive", "0", "Ada") == (ada * 20001, "", 0), "more messages than one list has")
    Path("archive").write_bytes(ada + REFUSED + ada)
    _, errors, status = shell("search.sh", "archive", "0", "Ada")
    see((status, errors) == (2, "capn: Range at 0:0, paid 0, visits 1\n"), f"a rejected message: {status}, {errors}")


def differences() -> None:
    """Tests differences.sh on pairs of archives. Some pairs have equal values, and others have different values. In
    some pairs, one archive has more messages. Some archives have rejected messages."""
    five, same = framed([2 << 32, 5, 0]), framed([1 << 32, 5])
    others = {n: framed([1 << 32, n]) for n in (6, 7, 8, 9)}

    def word(sign: str, number: int) -> str:
        return f"{sign} root\t  word {number:016x}"

    def compared(what: str, one: list[bytes], two: list[bytes], *told: str) -> None:
        Path("one").write_bytes(b"".join(one))
        Path("two").write_bytes(b"".join(two))
        out, errors, status = shell("differences.sh", "one", "two")
        lines = out.decode().split("\n")
        see((status, errors) == (int(bool(told)), ""), f"{what}: status {status}: {errors}")
        see([it for it in lines if it in told] == list(told), f"{what}: {lines}")
        see(sum(" word " in it for it in lines) == sum(" word " in it for it in told), f"{what}: other words: {lines}")

    compared("the same values", [five, same], [same, five])
    compared("nothing", [], [])
    compared("one message", [same], [others[6]], "1c1", word("<", 5), word(">", 6))
    compared("only in the first", [same, others[6], others[7]], [same, others[7]], "2d1", word("<", 6))
    compared("only in the second", [same, others[7]], [same, others[7], others[8]], "2a3",
             word(">", 8))
    compared("one that is changed after one that is gone", [same, others[6], others[8], others[7]],
             [same, others[8], others[9]], "2d1", word("<", 6), "4c3", word("<", 7), word(">", 9))
    for what, bad in ("a rejected message", REFUSED), ("a capability", framed([1 << 48, 3])):
        Path("one").write_bytes(same + bad)
        Path("two").write_bytes(same)
        see(shell("differences.sh", "one", "two")[2] == 2, what)
        see(shell("differences.sh", "two", "one")[2] == 2, f"{what}, in the second")
    see(shell("differences.sh", "one")[2] == 2, "one archive")
    see(shell("differences.sh", "missing", "two")[2] == 2, "no archive")


def main() -> int:
    source = random.Random(82)
    messages = [source.choice([canonical, with_zeros, in_two_segments])(source.randint(1, 9999)) for _ in range(300)]
    messages[150] = canonical(7)
    recover(source, messages)
    parallel(messages)
    search()
    differences()
    print(*(f"archives: {fault}" for fault in faults), sep="\n", end="\n" if faults else "")
    print(f"archives: {passed} passed, {len(faults)} failed")
    return 1 if faults else 0


if __name__ == "__main__":
    sys.exit(main())
