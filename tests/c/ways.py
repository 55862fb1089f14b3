"""Prints what `capn explain` reports about messages, in the format of `ways answers` (see ways.c). Each line of
standard input is a call. For each call that has limits, the script prints a path to an error, or the first difference
from the canonical form. The variable CAPN names the command line tool `capn`."""
import os
import re
import subprocess
import sys

DIFFERS = re.compile(
    r"no: at byte (\d+): ([0-9a-f]{16})(?: \(.*?\))?, canonical "
    r"(?:([0-9a-f]{16})(?: \(.*\))?, (the pointer at|the tag of|the last word of) (\S+)|(nothing), after the value)"
)


def departure(value):
    """Takes the value of the line `canonical` that `capn explain` prints. Returns it in the format of `ways
    answers`."""
    if value == "yes":
        return value
    differs = DIFFERS.fullmatch(value)
    if differs:
        byte, word, other, owner, way, nothing = differs.groups()
        return f"byte {byte} {word} {nothing or f'{other} {owner} {way}'}"
    return value.removeprefix("no: ")


def told(lines):
    """Returns the line that the C program `ways answers` has to print for a message. The line is made from the lines
    that `capn explain` printed. It is `?` if `capn explain` can't read the message."""
    values = dict(line.split(": ", 1) for line in lines if ": " in line)
    if "way" in values:
        return f"way {values['way']}"
    if "canonical" in values:
        return departure(values["canonical"])
    return "no root" if values.get("refused", "").startswith("NoRoot") else "?"


def main():
    for line in sys.stdin:
        words = line.split()
        tariff = ["--tariff", words.pop(0)] if words[0] == "plain" else []
        if words[0] not in ("canonicalise", "survey"):
            continue
        form, most, budget, depth, digits = words[1:]
        options = ["--form", form, "--message-words", most, "--budget", budget, "--depth", depth, *tariff]
        data = b"" if digits == "-" else bytes.fromhex(digits)
        ran = subprocess.run([os.environ["CAPN"], "explain", *options], input=data, capture_output=True)
        print(told(ran.stdout.decode().split("\n")))


main()
