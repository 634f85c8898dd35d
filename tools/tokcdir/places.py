"""JSON texts with the place of each value, and what a JSON text may go on with.

Offsets count characters of the text. What is no JSON text has no tree: the program tells such a text, and not this reader.
"""
import json
import re
from typing import Any, NamedTuple

BLANKS = re.compile(r"[ \t\r\n]*")
SCALAR = re.compile(r'"(?:[^"\\\x00-\x1f]|\\.)*"|-?\d+(?:\.\d+)?(?:[eE][-+]?\d+)?|true|false|null')
MOST_LEVELS = 100


class Node(NamedTuple):
    """A value: where it stands, and the members of an object, the items of a list, or the Python value of anything else."""

    start: int
    end: int
    value: Any

    def members(self):
        return self.value if isinstance(self.value, Members) else Members()

    def items(self):
        return self.value if isinstance(self.value, Items) else Items()

    def get(self, name):
        """The value of the first member of this name, or None."""
        return next((it.node for it in self.members() if it.name == name), None)

    def text(self):
        """The string that this is, or None."""
        return self.value if isinstance(self.value, str) else None


class Members(list):
    """The members of an object, in the order of the text."""


class Items(list):
    """The items of a list."""


class Member(NamedTuple):
    """A member of an object: its name, where the name's string stands, and its value."""

    name: str
    start: int
    end: int
    node: Node


class NoJson(Exception):
    """The text is no JSON text."""


class Reader:
    """Reads values one after another."""

    def __init__(self, text):
        self.text, self.at = text, 0

    def skip(self):
        self.at = BLANKS.match(self.text, self.at).end()

    def takes(self, mark):
        """Whether the mark stands next, and goes past it then."""
        self.skip()
        is_next = self.text.startswith(mark, self.at)
        self.at += is_next
        return is_next

    def scalar(self):
        self.skip()
        found = SCALAR.match(self.text, self.at)
        if found is None:
            raise NoJson
        self.at = found.end()
        try:
            return Node(found.start(), found.end(), json.loads(found[0]))
        except ValueError:
            raise NoJson from None

    def several(self, end, one):
        """What stands up to a closing bracket, with a comma between each two."""
        if self.takes(end):
            return
        while True:
            one()
            if self.takes(end):
                return
            if not self.takes(","):
                raise NoJson

    def member(self, into, level):
        name = self.scalar()
        if name.text() is None or not self.takes(":"):
            raise NoJson
        into.append(Member(name.value, name.start, name.end, self.value(level)))

    def value(self, level=0):
        if level > MOST_LEVELS:
            raise NoJson
        self.skip()
        start = self.at
        if self.takes("{"):
            members = Members()
            self.several("}", lambda: self.member(members, level + 1))
            return Node(start, self.at, members)
        if self.takes("["):
            items = Items()
            self.several("]", lambda: items.append(self.value(level + 1)))
            return Node(start, self.at, items)
        return self.scalar()


def read_json(text):
    """The value that a text is, with its places, or None."""
    reader = Reader(text)
    try:
        node = reader.value()
        reader.skip()
    except NoJson:
        return None
    return node if reader.at == len(text) else None


def trail(node, start):
    """The values from the root to one that starts at this offset, the innermost last, each with its name or number in the one above."""
    steps, name = [], None
    while node is not None:
        steps.append((name, node))
        if node.start == start:
            return steps
        inner = [(it.name, it.node) for it in node.members()] + list(enumerate(node.items()))
        name, node = next(((step, it) for step, it in inner if it.start <= start < it.end), (None, None))
    return []


def earlier_member(node, start):
    """The first member of an object that has the name of a later one, whose name starts at this offset, or None."""
    while node is not None:
        found = next((it for it in node.members() if it.start == start), None)
        if found is not None:
            return next(it for it in node.members() if it.name == found.name)
        node = next((it for it in [*(it.node for it in node.members()), *node.items()] if it.start <= start < it.end), None)
    return None


# What may come next in a text that has gone well so far.
PIECE = re.compile(r'[ \t\r\n]+|"(?:[^"\\]|\\.)*"|[{}\[\],:]|[^ \t\r\n{}\[\],:"]+|"(?:[^"\\]|\\.)*\\?\Z', re.S)
VALUE, FIRST_NAME, NAME, COLON, COMMA, END, INSIDE = "a value", "a name or `}`", "a name", "a colon", "a comma or a bracket", "the end", "a string"


def after_value(open_brackets):
    return COMMA if open_brackets else END


def goes_on(text):
    """What a text that some JSON text begins with goes on with, and the brackets that are open."""
    wants, opened = VALUE, []
    for piece in PIECE.findall(text):
        if not piece.strip():
            continue
        if piece == "{":
            opened, wants = [*opened, "}"], FIRST_NAME
        elif piece == "[":
            opened, wants = [*opened, "]"], VALUE
        elif piece in "}]":
            opened = opened[:-1]
            wants = after_value(opened)
        elif piece == ",":
            wants = NAME if opened and opened[-1] == "}" else VALUE
        elif piece == ":":
            wants = VALUE
        elif piece[0] == '"' and (len(piece) == 1 or piece[-1] != '"' or re.search(r'(?<!\\)(?:\\\\)*\\"\Z', piece)):
            return INSIDE, opened
        else:
            wants = COLON if wants in (NAME, FIRST_NAME) else after_value(opened)
    return wants, opened


def one_line(text, most=60):
    """A piece of a text on one line, cut where it is long."""
    line = re.sub(r"[ \t]*\r?\n[ \t\r\n]*", " ", text)
    return line if len(line) <= most else line[:most] + "\u2026"
