"""The stored test cases of the crates `conformance_calls` and `conformance_runs`. The cases of each call are in a file
of their own.

The file `crates/CRATE/cases/CALL` has the cases of a call. A case has three lines: its name in words, the call, and the
answer. A blank line stands between two cases. CALL is the first word of the call, or the second after `plain`. The
cases of a file are in the order of their keys, so a new case changes four lines in one place. The key of a case is its
name with `_` for each space, and without `:`, `,`, `'` and brackets. A stored input has the first two lines of a case.
A stored output has the first and the last line.
"""

import collections
import os

TOP = os.path.abspath(os.path.join(os.path.dirname(os.path.abspath(__file__)), ".."))
CRATES = ("conformance_calls", "conformance_runs")
WITHOUT = str.maketrans(" ", "_", ":,'()")

Case = collections.namedtuple("Case", "crate path name call answer")


def word_of(call):
    """Returns the name of a call: the first word of its line, or the second word if the first is `plain`."""
    words = call.split(" ")
    return words[1] if words[0] == "plain" and len(words) > 1 else words[0]


def key_of(name):
    """Returns the key of a case, which is the case's name as one word. The cases of a file are in the order of their
    keys."""
    return name.translate(WITHOUT)


def cases_at(crate, path):
    """Yields the cases of a file. Raises ValueError if a case doesn't have three lines, is in the wrong file, or is out
    of order."""
    with open(os.path.join(TOP, path), encoding="utf-8") as file:
        text = file.read()
    last = ""
    for part in text.removesuffix("\n").split("\n\n"):
        lines = part.split("\n")
        if len(lines) != 3 or not all(lines):
            raise ValueError(f"{path}: a case has three lines, its name, the call, the answer: {lines[0]!r}")
        name, call, answer = lines
        if os.path.basename(path) != word_of(call):
            raise ValueError(f"{path}: {name!r} belongs into the file {word_of(call)}")
        if key_of(name) <= last:
            raise ValueError(f"{path}: {name!r} belongs further up: cases are in the order of their names")
        last = key_of(name)
        yield Case(crate, path, name, call, answer)
    if not text.endswith("\n"):
        raise ValueError(f"{path}: the last line has no end")


def cases_of(crate):
    """Yields the cases of a crate, in the order of their files and keys."""
    folder = os.path.join("crates", crate, "cases")
    for word in sorted(os.listdir(os.path.join(TOP, folder))):
        yield from cases_at(crate, os.path.join(folder, word))


def all_cases():
    """Returns the cases of `conformance_calls` and of `conformance_runs`. Raises ValueError if two cases have the same
    name."""
    found = [case for crate in CRATES for case in cases_of(crate)]
    for name, count in collections.Counter(case.name for case in found).items():
        if count > 1:
            raise ValueError(f"{count} cases have the name {name!r}")
    return found


def asked(cases, before=""):
    """Returns the input with which a program answers the given cases. The argument `before` is a text that is put in
    front of each call."""
    return "".join(f"{case.name}\n{before}{case.call}\n" for case in cases)


def answered(cases):
    """Returns the output that a program has to give for the given cases."""
    return "".join(f"{case.name}\n{case.answer}\n" for case in cases)
