"""The table of crates/stored_scripts: rows of a script and the stream that is wanted for it, as recipes.

A row is the line `row STATUS ARGUMENTS`, the line of its name, the recipe of its script and that of its stream, and where the status is
above 1, that of what is said. A recipe is a list of steps that the line `end` closes. A step is the line `FIRST LAST LEN`, LEN bytes and a newline: the bytes once for each number
from FIRST to LAST, with its decimal digits in place of each byte 1.
"""
import re
from typing import NamedTuple

HOLE = "\x01"
HEAD = re.compile(rb"row ([0-9]+) ([a-z0-9 ]+)\n([^\n]+)\n")
STEP = re.compile(rb"([0-9]+) ([0-9]+) ([0-9]+)\n")
END = b"end\n"


class Recipe:
    """Steps, and how many bytes they make."""

    def __init__(self):
        self.steps, self.length = [], 0

    def each(self, first, last, text):
        """The text once for each number, as steps whose numbers have as many digits."""
        holes, plain = text.count(HOLE), len(text.encode()) - text.count(HOLE)
        while first <= last:
            end = min(last, 10 ** len(str(first)) - 1)
            self.steps.append(f"{first} {end} {len(text.encode())}\n{text}\n")
            self.length += (end - first + 1) * (plain + holes * len(str(first)))
            first = end + 1
        return self

    def text(self, text):
        """The text as it is."""
        return self.each(0, 0, text) if text else self

    def times(self, count, text):
        """The text so many times."""
        return self.each(1, count, text)

    def add(self, other):
        """What another recipe makes."""
        self.steps += other.steps
        self.length += other.length
        return self


class Row(NamedTuple):
    """The number of the status, the arguments, the name, and the recipes as they stand in the table. With a status above 1 something is
    said, and with the others nothing."""

    status: int
    words: str
    name: str
    script: bytes
    stream: bytes
    said: bytes = b""

    def line(self):
        """The row as the table has it."""
        head = f"row {self.status} {self.words}\n{self.name}\n"
        said = self.said + END if self.status > 1 else b""
        return head.encode() + self.script + END + self.stream + END + said


def written(recipe):
    """The steps of a recipe as the table has them."""
    return "".join(recipe.steps).encode()


def as_it_is(text):
    """The one step that makes these bytes."""
    if HOLE.encode() in text:
        raise ValueError("a text with a byte 1 in it has no step")
    return written(Recipe().text(text.decode()))


def recipe_at(data, at):
    """Where the recipe that begins there ends, before its line `end`."""
    while not data.startswith(END, at):
        step = STEP.match(data, at)
        if not step or data[step.end() + int(step[3]):][:1] != b"\n":
            raise ValueError(f"no step at {at}")
        at = step.end() + int(step[3]) + 1
    return at


def rows_of(data):
    """The rows of a table. Fails where it is none."""
    found, at = [], 0
    while at < len(data):
        head = HEAD.match(data, at)
        if not head:
            raise ValueError(f"no row at {at}")
        recipes, at = [], head.end()
        for _ in range(3 if int(head[1]) > 1 else 2):
            end = recipe_at(data, at)
            recipes.append(data[at:end])
            at = end + len(END)
        found.append(Row(int(head[1]), head[2].decode(), head[3].decode(), *recipes))
    return found


def plain(steps):
    """What a recipe of one step, or of none, makes."""
    step = STEP.match(steps)
    if not steps:
        return b""
    if step[1] != step[2] or len(steps) != step.end() + int(step[3]) + 1:
        raise ValueError("a recipe of several texts")
    return steps[step.end():-1]
