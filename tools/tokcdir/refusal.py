"""What a REFUSED file tells, and a sentence for each rule."""
import json
import os
import re
from typing import NamedTuple

from .outputs import in_order, is_refusal, names_of
from .stop import FAILED, Stop, shown

# What each rule says, in one sentence; the place is told before it, and what belongs to it in notes.
SENTENCES = {
    "config-toml": "this is no TOML text",
    "config-key": "this key is not known, or its value is none that it may have",
    "json-syntax": "no JSON text goes on like this",
    "json-duplicate": "the object has an earlier member with this name",
    "json-depth": "more than 64 brackets are open here",
    "plan-version": "a resolver needs `version` with the text `2025.10`",
    "plan-shape": "a resolver has no such form here",
    "plan-reference": "this names no set, no modifier and no possible file",
    "plan-modifier-in-set": "a source can't be a modifier",
    "plan-contexts": "a modifier needs one context or more",
    "plan-default": "this is no context of its modifier",
    "plan-duplicate": "an earlier item has this name",
    "plan-cycle": "the set is among its own sources",
    "plan-permutations": "there are more than 64 permutations",
    "plan-sources": "a permutation has more than 1,024 sources",
    "file-missing": "there is no such file",
    "shape-root": "a token file is an object, and no token",
    "shape-name": "a name is not empty and holds none of `{`, `}` and `.`",
    "shape-member": "a member of a group is an object: a token or a group",
    "shape-property": "this property has another form, or `$ref` stands beside `$value`",
    "shape-token-child": "a token has no groups and tokens in it",
    "shape-root-token": "`$root` is a token",
    "extends-target": "`$extends` names no group of the token files",
    "extends-cycle": "groups extend one another in a cycle",
    "extends-count": "with what groups inherit there are more than 16,384 members",
    "extends-height": "with what groups inherit there are more than 64 levels",
    "alias-syntax": "this is no spelling of a reference",
    "alias-target": "the reference names no token, or no part of its value",
    "alias-cycle": "references lead back to this place",
    "alias-depth": "references and parts are nested in more than 256 places",
    "alias-size": "more than 1,024 places have to be looked at",
    "type-missing": "the token has no `$type`, and no group and no reference gives it one",
    "value-shape": "the value has no such form for its type",
    "number-wide": "a number has at most 30 digits, of which at most 30 stand after the point",
    "dimension-unit": "a dimension's unit is `px` or `rem`",
    "duration-unit": "a duration's unit is `ms` or `s`",
    "bezier-range": "the first and the third number of a curve lie within 0 to 1",
    "weight-range": "a font weight lies within 1 to 1000",
    "weight-word": "no font weight has this name",
    "color-space": "this is no colour space",
    "color-range": "the component is out of the range of its colour space",
    "color-alpha": "an alpha lies within 0 to 1",
    "color-hex": "a hex is `#` and six hexadecimal digits",
    "stroke-word": "no stroke style has this name",
    "stroke-cap": "a line cap is `round`, `butt` or `square`",
    "legacy-text": "this is no number with its unit, and no `#` with six or eight hexadecimal digits",
    "name-clash": "an earlier token declares the same name on a platform",
}
UNKNOWN = "tokc-dir has no sentence for this rule"


class Refusal(NamedTuple):
    """What a REFUSED file tells: offsets in bytes, line and column of bytes counted from 1, and further lines as words and texts."""

    rule: str
    file: str
    line: int
    column: int
    start: int
    end: int
    further: list

    def told(self, word):
        """The text of the first further line of this word, or None."""
        return next((plain(text) for it, text in self.further if it == word), None)


REFUSED_TEXT = re.compile(rb"rule ([a-z-]+)\nfile ([^\n]+)\nline ([0-9]+) column ([0-9]+)\nbytes ([0-9]+) ([0-9]+)\n((?:[a-z]+ [^\n]+\n)*)")


def read_refusal(text):
    """What the text of a REFUSED file tells."""
    found = REFUSED_TEXT.fullmatch(text)
    if found is None:
        raise Stop(FAILED, "this REFUSED file is none that tokc-dir reads:", shown(text.decode(errors="replace")))
    rule, file, *numbers, lines = found.groups()
    further = [line.decode(errors="replace").partition(" ")[::2] for line in lines.splitlines()]
    return Refusal(rule.decode(), os.fsdecode(file), *map(int, numbers), further)


BREAK_TEXT = re.compile(rb'((?:in "[^\n]*"\n)*)(.*)', re.S)


def read_breaks(text):
    """What tokc_check tells: each break with the permutations that have it."""
    found = [BREAK_TEXT.fullmatch(it + b"\n").groups() for it in text.rstrip(b"\n").split(b"\n\n")]
    return [(read_refusal(told), [json.loads(it[3:]) for it in names.splitlines()]) for names, told in found]


def plain(text):
    """A text of a further line: a JSON string as what it stands for, where that can be printed on one line."""
    try:
        value = json.loads(text) if text.startswith('"') else text
    except ValueError:
        return text
    return value if value and value.isprintable() else text


def refusals_of(outputs):
    """Each refusal once, with the permutations that it stands in; of a refused plan these are none."""
    told = {}
    for path in in_order(outputs):
        if is_refusal(path):
            told.setdefault(outputs[path], []).append(path.rpartition("/")[0])
    return [(read_refusal(text), [it for it in names if it]) for text, names in told.items()], names_of(outputs)
