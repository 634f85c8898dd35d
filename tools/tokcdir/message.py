"""Refusals as lines for people, and as JSON for editors.

Lines and columns are counted from 1, columns in characters. The program counts them in bytes, so they are taken anew from its offsets.
"""
import json
import os
import unicodedata
from typing import NamedTuple

from .advice import Place, advice
from .places import earlier_member, one_line
from .refusal import SENTENCES, UNKNOWN, plain
from .stop import shown
from .tokens import Tokens, named_by, spelled

# Rules that are about a file as a whole.
WHOLE_FILE = {"config-toml", "config-key", "extends-count", "extends-height"}
# Rules of values and references, whose place may be, or be reached by, a reference.
ALONG_REFERENCES = {
    "alias-syntax", "alias-target", "alias-cycle", "alias-depth", "alias-size", "type-missing", "value-shape", "number-wide", "dimension-unit", "duration-unit",
    "bezier-range", "weight-range", "weight-word", "color-space", "color-range", "color-alpha", "color-hex", "stroke-word", "stroke-cap",
    "legacy-text",
}
MOST_BEFORE, MOST_OF_SPAN, MOST_AFTER = 60, 60, 40
MOST_LINKS = 16
MOST_NAMED = 3


class Spot(NamedTuple):
    """A place in a file: its line and column, counted from 1, in characters."""

    line: int
    column: int


class Note(NamedTuple):
    """What belongs to a refusal, with the file and the place that it names, where it names one."""

    text: str
    file: str = None
    spot: Spot = None


class Message(NamedTuple):
    """A refusal as it is told. The file is named as whoever runs the tool names it; `source` is the line of the place with carets below."""

    rule: str
    sentence: str
    file: str
    start: Spot
    end: Spot
    source: list
    notes: list
    permutations: list
    help: str


def spot_at(text, offset):
    """The line and the column of an offset of a text."""
    return Spot(text.count("\n", 0, offset) + 1, offset - text.rfind("\n", 0, offset))


def characters(data, offset):
    """The offset in characters of an offset in bytes."""
    return len(data[:offset].decode(errors="replace"))


def width(text):
    """How many columns a printed text takes on a terminal."""
    return sum(0 if unicodedata.combining(it) else 2 if unicodedata.east_asian_width(it) in "WF" else 1 for it in text)


def source_lines(text, start, end):
    """The line of the place and, below, carets under its span. Long lines are cut around it."""
    first = text.rfind("\n", 0, start) + 1
    last = text.find("\n", start)
    last = len(text) if last < 0 else last
    end = min(end, last)
    before, span, after = (shown(text[one:other].rstrip("\r")) for one, other in ((first, start), (start, end), (end, last)))
    if len(before) > MOST_BEFORE:
        before = "\u2026" + before[-MOST_BEFORE:]
    if len(span) > MOST_OF_SPAN:
        span, after = span[:MOST_OF_SPAN] + "\u2026", ""
    if len(after) > MOST_AFTER:
        after = after[:MOST_AFTER] + "\u2026"
    number = str(spot_at(text, start).line)
    blank = "".join("\t" if it == "\t" else " " * width(it) for it in before)
    return [f"  {number} | {before}{span}{after}".rstrip(), f"  {' ' * len(number)} | {blank}{'^' * max(width(span), 1)}"]


def further_notes(refusal):
    """A note for each further word of a refusal, a cycle as one way round."""
    ring = [plain(text) for word, text in refusal.further if word == "ring"]
    notes, has_ring = [], False
    for word, text in refusal.further:
        if word != "ring":
            notes.append(Note(f"{word} {plain(text)}"))
        elif not has_ring:
            notes.append(Note(f"ring {' -> '.join([*ring, ring[0]])}"))
            has_ring = True
    return notes


class Teller:
    """Makes messages of refusals about the files of a folder, which is named as whoever runs the tool names it, or of files that are not there."""

    def __init__(self, folder, files):
        self.folder, self.has_files, self.files = folder, files is not None, files or {}
        self.tokens = Tokens(self.files, folder if self.has_files else None)

    def name(self, file):
        return os.path.normpath(os.path.join(self.folder, file))

    def spotted(self, words, file, offset, value=""):
        """A note that ends in a place, and in what stands there."""
        name, spot = self.name(file), spot_at(self.tokens.texts[file], offset)
        return Note(f"{words} {name}:{spot.line}:{spot.column}{value}", name, spot)

    def written(self, path, found):
        """The note that says where a token is written, and its value."""
        value = self.tokens.texts[found.file][found.value.start:found.value.end]
        return self.spotted(f"{shown(spelled(path))} is written at", found.file, found.value.start, f": {shown(one_line(value))}")

    def along(self, path):
        """The notes from a token on, through a chain of references while each name is written once."""
        notes, seen = [], set()
        while path not in seen and len(seen) < MOST_LINKS:
            seen.add(path)
            found = self.tokens.at(path)
            origin = None if found else self.tokens.inherited(path)
            notes += [self.written(path, it) for it in found] + ([Note(f"{spelled(path)} is inherited from {spelled(origin)}")] if origin else [])
            path = named_by_value(found[0]) if len(found) == 1 else origin
            if path is None:
                break
        return notes

    def reference_notes(self, refusal, place):
        """Where what a reference at the place names is written; or, where the place stands in another token, what leads there; or the twin of a name."""
        if refusal.rule == "name-clash":
            other = tuple((refusal.told("other") or "").split("."))
            return [self.written(other, it) for it in self.tokens.at(other)]
        if refusal.rule not in ALONG_REFERENCES or not place.steps:
            return []
        named = named_by(place.node())
        if named is not None:
            return self.along(named[0])
        pointer, token = refusal.told("place") or "", refusal.told("token")
        if token is None or pointer.startswith("#/" + token.replace("~", "~0").replace("/", "~1").replace(".", "/") + "/"):
            return []
        return [it for it in self.along(tuple(token.split("."))) if (it.file, it.spot) != (self.name(refusal.file), spot_at(place.text, place.start))]

    def duplicate_notes(self, refusal, place):
        """Where the earlier member of an object stands that has the same name."""
        tree = self.tokens.tree(refusal.file) if refusal.rule == "json-duplicate" else None
        found = earlier_member(tree, place.start) if tree else None
        return [] if found is None else [self.spotted("the earlier one is at", refusal.file, found.start)]

    def message(self, refusal, permutations, of_all):
        """The message of a refusal that stands in these permutations, of all that there are."""
        data = self.files.get(refusal.file, b"")
        start, end = (characters(data, it) for it in (refusal.start, refusal.end))
        place = Place(refusal, self.tokens, start, end)
        is_shown = refusal.file in self.files and refusal.rule not in WHOLE_FILE
        notes = [*further_notes(refusal), *self.duplicate_notes(refusal, place), *self.reference_notes(refusal, place), *permutation_notes(permutations, of_all)]
        spots = (spot_at(place.text, start), spot_at(place.text, end)) if refusal.file in self.files else (Spot(refusal.line, refusal.column),) * 2
        help_line = shown(advice(place) or "") if self.has_files else ""
        source = source_lines(place.text, start, end) if is_shown else []
        return Message(refusal.rule, SENTENCES.get(refusal.rule, UNKNOWN), self.name(refusal.file), *spots, source, notes, permutations, help_line)


def named_by_value(written):
    """The path of the token that a token's whole value refers to, without steps, or None."""
    named = named_by(written.value) or (named_by(written.node) if written.node.get("$value") is None else None)
    return named[0] if named is not None and not named[1] else None


def permutation_notes(permutations, of_all):
    """In which permutations a refusal stands, where there are several."""
    if len(of_all) < 2 or not permutations:
        return []
    if len(permutations) == len(of_all):
        return [Note(f"in all {len(of_all)} permutations")]
    if len(permutations) > MOST_NAMED:
        return [Note(f"in {', '.join(permutations[:2])} and {len(permutations) - 2} more of {len(of_all)} permutations")]
    return [Note(f"in {', '.join(permutations)}")]


def as_lines(message):
    """The lines that tell a message to people."""
    head = f"{message.file}:{message.start.line}:{message.start.column}: {message.rule}: {message.sentence}"
    return [head, *message.source, *(f"note: {it.text}" for it in message.notes), *([f"help: {message.help}"] if message.help else [])]


def as_json(message):
    """The line that tells a message to an editor."""
    notes = [{"message": it.text, **({"file": it.file, **it.spot._asdict()} if it.spot else {})} for it in message.notes]
    told = {
        "rule": message.rule, "message": message.sentence, "file": message.file, "line": message.start.line, "column": message.start.column,
        "end": message.end._asdict(), "permutations": message.permutations, "notes": notes, "help": message.help,
    }
    return json.dumps(told)
