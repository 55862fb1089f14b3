#!/usr/bin/env python3
"""Computes the output and the exit status that the program must have for a command line.

The script calls the function `run_COMMAND` of the module `model`, `explained` or `annotated`, with the options of the
command as arguments. The help texts say which options a command has, and which of them take a number.

    tests/program/answered.py COMMAND [OPTION..] < INPUT

This writes the output to standard output and standard error, and ends with the status. `make` has no model, so `texts`
compares it with `show`.
"""

import re
import sys

import annotated
import explained
import help_texts
import model

HELP = help_texts.helps()
# If an option takes a number, its help text has one of these words in place of the number.
NUMBERS = ("N", "K")


def options_of(command):
    """Returns the options of a command, except `--help`."""
    return [option for option in help_texts.options_of(HELP[command]) if option.name != "--help"]


def call_of(command):
    """Returns the Python function that computes the output of a command."""
    name = f"run_{command}"
    return next(getattr(module, name) for module in (model, explained, annotated) if hasattr(module, name))


def answer(line, data):
    """Returns three results of a command line for an input: the output, the line on standard error, and the exit
    status."""
    command, *rest = line
    takes, options = {option.name: option.takes for option in options_of(command)}, {}
    while rest:
        name, *rest = rest
        value = True
        if takes[name]:
            value, *rest = rest
        options[name[2:].replace("-", "_")] = int(value) if takes[name] in NUMBERS else value
    return call_of(command)(data, **options)


def values_of(option):
    """Returns values to try for an option. The values are the words that the option allows, or two small numbers, or
    the example in the help text. If the option takes no value, returns an empty list."""
    if not option.takes:
        return [[]]
    words = ["1", "2"] if option.takes in NUMBERS else option.words or re.findall(r", such as `([^`]+)`", option.said)
    assert words, f"help has no example of a value of {option.name}"
    return [[word] for word in words]


def lines():
    """Yields command lines for each command: one without options, and one for each of its options."""
    for command in HELP:
        if command not in ("", "make"):
            yield [command]
            for option in options_of(command):
                yield from ([command, *option.needs, option.name, *value] for value in values_of(option))


if __name__ == "__main__":
    wrote, told, ended = answer(sys.argv[1:], sys.stdin.buffer.read())
    sys.stdout.buffer.write(wrote)
    sys.stderr.write(told)
    sys.exit(ended)
