"""Reads the help texts of all commands from the file tests/program/help. Finds the commands, options and exit statuses
in these texts.

`statuses` compares that file with the output of the program. Manual pages, completions and tables take their
descriptions of commands from it.
"""

import os
import re
import typing

HERE = os.path.dirname(os.path.abspath(__file__))


def helps():
    """Returns the help text of each command, as a dictionary. The key of the program's own help text is the empty
    string."""
    with open(os.path.join(HERE, "help"), encoding="utf-8") as file:
        parts = re.split(r"^\$ capn ?(.*)$", file.read(), flags=re.M)[1:]
    asked = zip(parts[::2], parts[1::2])
    return {words.removesuffix("--help").strip(): text for words, text in asked if words.endswith("--help")}


def part_of(text, title):
    """Returns the lines below a given title in a help text."""
    found = re.search(rf"^{title}:\n(.*?)(?:\n\n|\Z)", text, re.M | re.S)
    return found[1] if found else ""


class Option(typing.NamedTuple):
    """An option in a help text: its name, its short form, the placeholder for its value, and its description."""

    name: str
    short: str
    takes: str
    said: str

    @property
    def what(self):
        """Returns the first sentence of the option's description."""
        return re.split(r"[;:.] | \[default", self.said)[0]

    @property
    def words(self):
        """Returns the words that the option allows as its value."""
        return re.findall(r"`([a-z]+)`(?=[ ,;.])", self.said) if self.takes else []

    @property
    def needs(self):
        """Returns the names of the options that this option needs."""
        return re.findall(r"^With `(--[\w-]+)`:", self.said)

    @property
    def excludes(self):
        """Returns the names of the options that can't be combined with this option."""
        return re.findall(r"`(--[\w-]+)`", self.said.partition("goes without")[2])


def options_of(text):
    """Returns the options that a help text lists."""
    items = re.split(r"\n(?=(?: {6}|  -\w, )--)", part_of(text, "Options"))
    found = [re.match(r" +(?:(-\w), )?(--[\w-]+)(?: <(\w+)>)? +(.*)", item, re.S) for item in items]
    return [Option(it[2], it[1] or "", it[3] or "", " ".join(it[4].split())) for it in found if it]


def commands_of(text):
    """Returns the commands that a help text lists, each with its description."""
    return re.findall(r"^  (\w+) +(.*)", part_of(text, "Commands"), re.M)


def exit_statuses_of(text):
    """Returns the exit statuses in a help text, each with its description."""
    found = re.findall(r"^  (\d)  (.*(?:\n     .*)*)", part_of(text, "Exit status"), re.M)
    return {status: " ".join(said.split()) for status, said in found}
