"""What each platform got of each token of a permutation, and why it omits one.

The tokens of `tokens.json` stand in path order, and so do the lines of the three other files: one line a token, five for a typography, and
one comment where the platform can't spell the value.
"""
import json
import re
from typing import NamedTuple

from .outputs import names_of

FILES = {"css": "tokens.css", "android": "tokens.xml", "swift": "Tokens.swift"}
# The lines before and after those of the tokens.
FRAMES = {"css": (1, 1), "android": (2, 1), "swift": (3, 1)}
OMITTED = {"css": re.compile(r"  /\* omitted \S+ \*/"), "android": re.compile(r"  <!-- omitted \S+ -->"), "swift": re.compile(r"  // omitted \S+")}
PLATFORMS = tuple(FILES)
LINES_OF_TYPOGRAPHY = 5


class Row(NamedTuple):
    """A token: its path, what `tokens.json` says of it, and its lines for each platform; a platform that omits it has a comment alone."""

    path: str
    said: dict
    lines: dict
    omits: tuple


class NoRows(Exception):
    """The outputs are not those of a permutation as this reads them."""


def token_lines(platform, text):
    """The lines of a platform's file that are of tokens."""
    before, after = FRAMES[platform]
    lines = text.splitlines()
    return lines[before:len(lines) - after]


def taken(platform, lines, kind):
    """The lines of the next token, taken off the front."""
    is_omitted = bool(lines) and OMITTED[platform].fullmatch(lines[0]) is not None
    count = LINES_OF_TYPOGRAPHY if kind == "typography" and not is_omitted else 1
    if len(lines) < count:
        raise NoRows
    found = lines[:count]
    del lines[:count]
    return found, is_omitted


def rows_of(outputs, name):
    """The rows of a permutation, in path order."""
    try:
        tokens = json.loads(outputs[f"{name}/tokens.json"])
        left = {it: token_lines(it, outputs[f"{name}/{file}"].decode()) for it, file in FILES.items()}
        rows = []
        for path, said in tokens.items():
            found = {it: taken(it, left[it], said["$type"]) for it in PLATFORMS}
            rows.append(Row(path, said, {it: lines for it, (lines, _) in found.items()}, tuple(it for it in PLATFORMS if found[it][1])))
    except (KeyError, ValueError, TypeError, AttributeError):
        raise NoRows from None
    if any(left.values()):
        raise NoRows
    return rows


def all_rows(outputs):
    """The rows of each permutation that has them, by its name."""
    found = {}
    for name in names_of(outputs):
        try:
            found[name] = rows_of(outputs, name)
        except NoRows:
            continue
    return found


# Why a platform omits a value.

NAMES = {"css": "CSS", "android": "Android", "swift": "Swift"}
NO_FORM = {
    "android": ("cubicBezier", "strokeStyle", "border", "transition", "shadow", "gradient"),
    "swift": ("strokeStyle", "border", "transition", "shadow", "gradient"),
}
SPACES = {"android": ("srgb",), "swift": ("srgb", "display-p3")}
WORDS = {
    "cubicBezier": "a curve", "strokeStyle": "a stroke style", "border": "a border", "transition": "a transition", "shadow": "a shadow", "gradient": "a gradient",
    "color": "a colour", "fontFamily": "a font family", "fontWeight": "a font weight", "duration": "a duration", "typography": "a typography",
    "dimension": "a length", "number": "a number",
}


def colour_reason(platform, value):
    space = value.get("colorSpace")
    if space not in SPACES[platform]:
        return f"a colour of `{space}` needs a `hex` there"
    return "a colour with a `none` needs a `hex` there"


def reason(platform, kind, value):
    """Why a platform has no spelling of a value."""
    if platform == "css":
        family = "a font family with a character that can't be printed has no spelling there"
        return family if kind in ("fontFamily", "typography") else "a style of dashes has no spelling there"
    if kind in NO_FORM[platform]:
        return f"it has no form for {WORDS[kind]}"
    if kind == "color":
        return colour_reason(platform, value)
    if kind == "fontWeight":
        return "a weight has to be a whole number there"
    if kind == "duration":
        return "a duration has to be a whole number of milliseconds of 32 bits there"
    if kind == "fontFamily":
        return "the first family has characters that it can't spell"
    return "one of its five values has no spelling there" if kind == "typography" else f"it has no spelling for {WORDS.get(kind, kind)}"


def omissions(rows):
    """For each platform the tokens that it omits, each with a reason and the permutations in which it does."""
    found = {it: {} for it in PLATFORMS}
    for name, of_one in rows.items():
        for row in of_one:
            for platform in row.omits:
                why = reason(platform, row.said["$type"], row.said["$value"])
                found[platform].setdefault((row.path, why), []).append(name)
    return found


COMMENTS = {
    "css": re.compile(rb"^  /\* omitted (\S+) \*/$", re.M),
    "android": re.compile(rb"^  <!-- omitted (\S+) -->$", re.M),
    "swift": re.compile(rb"^  // omitted (\S+)$", re.M),
}


def counted(outputs):
    """The words that count the tokens that each platform omits in some permutation, or none. They are counted by the comments in their place."""
    found = {it: set() for it in PLATFORMS}
    for path, data in outputs.items():
        for platform, name in FILES.items():
            if path.endswith("/" + name):
                found[platform].update(COMMENTS[platform].findall(data))
    told = ", ".join(f"{it} {len(names)}" for it, names in found.items() if names)
    return f"; omitted: {told}" if told else ""


def omission_lines(found, of_all):
    """A line for each token that a platform omits, with the reason, and the permutations where they are not all."""
    lines = []
    for platform, of_one in found.items():
        for (path, why), names in of_one.items():
            where = "" if len(names) == of_all else f" (in {len(names)} of {of_all} permutations)"
            lines.append(f"{NAMES[platform]} omits {path}: {why}{where}")
    return lines
