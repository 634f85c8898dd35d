"""What to do about a refusal: one sentence, by the commonest causes that the text at the place shows.

`REMEDIES` has a call for each rule whose causes can be told apart, and `ALWAYS` a sentence for each of the others.
"""
import difflib
import os
import re

from . import places
from .folder import CONFIG, DEFAULT, RESOLVER, is_script_path
from .places import Node
from .tokens import named_by, pointed_at, spelled, target_of

KINDS = ["color", "dimension", "fontFamily", "fontWeight", "duration", "cubicBezier", "number", "strokeStyle", "border", "transition", "shadow", "gradient", "typography"]
SPACES = ["srgb", "srgb-linear", "display-p3", "a98-rgb", "prophoto-rgb", "rec2020", "xyz-d65", "xyz-d50", "hsl", "hwb", "lab", "lch", "oklab", "oklch"]
WEIGHTS = [
    "thin", "hairline", "extra-light", "ultra-light", "light", "normal", "regular", "book", "medium", "semi-bold", "demi-bold", "bold", "extra-bold",
    "ultra-bold", "black", "heavy", "extra-black", "ultra-black",
]
STROKES = ["solid", "dashed", "dotted", "double", "groove", "ridge", "outset", "inset"]
CAPS = ["round", "butt", "square"]
KEYS = ["prefix", "rem_base", "references", "legacy"]

# Kinds of other tools, and the kind that takes such values.
OTHER_KINDS = {
    "size": "dimension", "sizing": "dimension", "spacing": "dimension", "space": "dimension", "borderRadius": "dimension", "borderWidth": "dimension",
    "fontSizes": "dimension", "fontSize": "dimension", "letterSpacing": "dimension", "paragraphSpacing": "dimension", "lineHeights": "number",
    "lineHeight": "number", "opacity": "number", "ratio": "number", "integer": "number", "float": "number", "boxShadow": "shadow",
    "fontFamilies": "fontFamily", "font": "fontFamily", "fontWeights": "fontWeight", "colour": "color", "colors": "color", "time": "duration",
    "easing": "cubicBezier", "stroke": "strokeStyle",
}
# Types of other tools that no kind stands for.
NO_KINDS = {"asset", "boolean", "composition", "content", "link", "other", "string", "text"}
# Members that other tools name otherwise.
OTHER_PARTS = {"offsetX": "x", "offsetY": "y", "timingFunction": "easing", "blur": "radius", "colorSpace": "space", "dashArray": "dashes"}
# Curves that style sheets have as words (CSS Easing Functions).
CURVES = {
    "linear": "0, 0, 1, 1", "ease": "0.25, 0.1, 0.25, 1", "ease-in": "0.42, 0, 1, 1", "ease-out": "0, 0, 0.58, 1", "ease-in-out": "0.42, 0, 0.58, 1",
}
OTHER_SPACES = {"rgb": "srgb", "rgba": "srgb", "p3": "display-p3", "hsla": "hsl", "hsv": "hsl` or `hwb", "hsb": "hsl` or `hwb", "xyz": "xyz-d65"}

# The members that a value of a kind needs.
NEEDED = {
    "dimension": ["value", "unit"], "duration": ["value", "unit"], "color": ["colorSpace", "components"], "border": ["color", "width", "style"],
    "transition": ["duration", "delay", "timingFunction"], "shadow": ["color", "offsetX", "offsetY", "blur", "spread"],
    "strokeStyle": ["dashArray", "lineCap"], "gradient": ["color", "position"],
    "typography": ["fontFamily", "fontSize", "fontWeight", "letterSpacing", "lineHeight"],
}
# How a value of a kind is written.
FORMS = {
    "dimension": 'a length as `{ "value": 16, "unit": "px" }`', "duration": 'a time as `{ "value": 200, "unit": "ms" }`', "number": "a number, without quotation marks",
    "color": 'a colour as `{ "colorSpace": "srgb", "components": [0.2, 0.4, 0.8] }`', "cubicBezier": "a curve as a list of four numbers, as `[0.2, 0, 0, 1]`",
    "fontFamily": "a family as a text, or as a list of texts", "fontWeight": "a weight as a number, or as a word in quotation marks",
    "strokeStyle": 'a stroke style as a word, or as an object with `dashArray` and `lineCap`', "border": "a border as an object with `color`, `width` and `style`",
    "transition": "a transition as an object with `duration`, `delay` and `timingFunction`", "gradient": "a gradient as a list of stops with `color` and `position`",
    "shadow": "a shadow as an object with `color`, `offsetX`, `offsetY`, `blur` and `spread`",
    "typography": "a typography as an object with `fontFamily`, `fontSize`, `fontWeight`, `letterSpacing` and `lineHeight`",
}
# The kind of a part, by its name in a value of several parts.
PARTS = {
    "color": "color", "width": "dimension", "style": "strokeStyle", "duration": "duration", "delay": "duration", "timingFunction": "cubicBezier",
    "offsetX": "dimension", "offsetY": "dimension", "blur": "dimension", "spread": "dimension", "fontFamily": "fontFamily", "fontSize": "dimension",
    "fontWeight": "fontWeight", "letterSpacing": "dimension", "lineHeight": "number", "position": "number",
}
# Properties of older token files, which stand there without the `$`.
OLD_PROPERTIES = {
    "value": "$value", "type": "$type", "description": "$description", "comment": "$description", "extensions": "$extensions",
    "deprecated": "$deprecated", "extends": "$extends",
}

ALWAYS = {
    "json-duplicate": "rename one of the two, or take one away",
    "duration-unit": "write `ms` or `s`",
    "json-depth": "put deep parts of the file into groups of their own",
    "plan-version": 'write `"version": "2025.10"`',
    "plan-contexts": 'give it a context, as `"light": []`, or take the modifier away',
    "plan-modifier-in-set": "put the modifier into `resolutionOrder`",
    "plan-duplicate": "name each set and each modifier once",
    "plan-cycle": "put what both share into a third set",
    "plan-permutations": "join modifiers whose contexts do not go with all others",
    "plan-sources": "name a set once",
    "shape-root-token": "give it a `$value`, or another name",
    "extends-count": "extend the few groups that share something, and not groups that hold groups that extend again",
    "extends-height": "extend at a higher level, or with less depth",
    "alias-depth": "refer to the token at the end of the chain",
    "alias-size": "share parts of large values less often, or split the token",
    "number-wide": "write fewer digits",
    "bezier-range": "write times from 0 to 1; the second and the fourth number are free",
    "weight-range": "write a number from 1 to 1000, or a word",
    "name-clash": "rename one of the two",
}


class Place:
    """Where a refusal is told: its text, the piece of it, and the values around it."""

    def __init__(self, refusal, tokens, start, end, kind=None):
        self.refusal, self.tokens, self.start, self.end, self.asked = refusal, tokens, start, end, kind
        self.text = tokens.texts.get(refusal.file, "")
        self.piece = self.text[start:end]
        tree = tokens.tree(refusal.file)
        self.steps = places.trail(tree, start) if tree else []

    def node(self):
        """The value at the place, or one that is nothing."""
        return self.steps[-1][1] if self.steps else Node(self.start, self.end, None)

    def name(self, above=0):
        """The name of the value at the place, or of one above it."""
        return self.steps[-1 - above][0] if len(self.steps) > above else None

    def names(self):
        """The names from the token's value down to the place, by the place that the refusal tells."""
        found = pointed_at(self.refusal.told("place") or "")
        return list(found[1]) if found else []

    def own_steps(self):
        """The names from the token's value down to the value at the place, as they are written; the place may be further down behind a reference."""
        names = [name for name, _ in self.steps]
        return names[names.index("$value") + 1:] if "$value" in names else []

    def kind(self):
        """The kind that the value at the place is to have, where the files say it."""
        if self.asked:
            return self.asked
        steps = [it for it in self.names() if not it.isdigit()]
        if steps:
            return PARTS.get(steps[-1])
        kinds = [node.get("$type") for _, node in self.steps]
        return next((it.text() for it in reversed(kinds) if it is not None), None)


def closest(word, words):
    """The word that is most like this one, or None."""
    folded = {it.lower(): it for it in words}
    found = difflib.get_close_matches(str(word).lower(), folded, 1, 0.7)
    return folded[found[0]] if found else None


def ticked(words):
    """Words in a row, each between backticks, with `or` before the last."""
    told = [f"`{it}`" for it in words]
    return " or ".join([", ".join(told[:-1]), told[-1]] if len(told) > 1 else told)


# Texts.

def config_toml(place):
    if re.search(r'^\s*"?[a-z_]+"?\s*:', place.text, re.M):
        return "write `=` between a key and its value, as `rem_base = 16`"
    if any(line.count('"') % 2 for line in place.text.splitlines()):
        return "close the quotation marks of each text"
    return 'write a key and its value on each line, as `prefix = "acme"`, with texts in quotation marks'


def config_key(place):
    key = place.refusal.told("key")
    forms = {"prefix": "write a letter and up to 31 letters and digits", "rem_base": "write a whole number from 1 to 100", "references": "write `true` or `false`", "legacy": "write `true` or `false`"}
    if key in forms:
        return forms[key]
    near = closest(key, KEYS)
    return f"write `{near}` in place of `{key}`" if near else "take it away: the keys are `prefix`, `rem_base`, `references` and `legacy`"


# What is no JSON, by what stands at the place: a pattern, and what to do.
NO_JSON = [
    (r"<{7}|={7}|>{7}", "settle the merge, and take its marks away"),
    (r"//|/\*|#", "take the comment away: JSON has none; a token may have a `$description`"),
    (r"<", "write JSON: this looks like XML"),
    (r"'", 'write double quotation marks, `"`, in place of single ones'),
    (r"[\u201c\u201d\u201e\u00ab\u00bb]", 'write straight quotation marks, `"`, in place of typographic ones'),
    (r"\+", "write the number without `+`"),
    (r"\.\d", "write a digit before the point, as `0.5`"),
    (r"(?i)(true|false|null)\b", "write `true`, `false` and `null` in lower case"),
    (r"NaN|-?Infinity|undefined", "write a number: JSON has no such word"),
]


def json_syntax(place):
    before, rest = place.text[:place.start], place.text[place.start:]
    if rest.startswith("\ufeff"):
        return "save the file as UTF-8 without a byte-order mark"
    if not place.text.strip():
        return "write `{}` for a file without tokens: this one is empty"
    wants, opened = places.goes_on(before)
    if wants == places.INSIDE:
        return inside_string(rest)
    for pattern, what in NO_JSON:
        if re.match(pattern, rest):
            return what
    if not rest.strip():
        return f"close what is open: {' '.join(f'`{it}`' for it in reversed(opened))} {'is' if len(opened) == 1 else 'are'} missing at the end of the file"
    return between(place.text, before, rest, wants, opened)


def inside_string(rest):
    """What to do about a string that can't go on."""
    if not rest or rest[0] in "\r\n":
        return 'close the string by `"`; a line end inside one is written `\\n`'
    if rest[0] == "\t":
        return "write a tab inside a string as `\\t`"
    return "write `\\\\` for a backslash inside a string"


def looks_like_a_table(text):
    """Whether a text has the same separators in its first lines, as CSV has."""
    lines = [it for it in text.splitlines() if it.strip()][:3]
    return any(len({it.count(mark) for it in lines}) == 1 and mark in lines[0] for mark in ",;\t")


def between(text, before, rest, wants, opened):
    """What to do about a text that can't go on between two pieces."""
    last = before.rstrip()[-1:]
    if re.fullmatch(r"\s*[A-Za-z]*", before):
        return "write JSON: this looks like a table (CSV)" if looks_like_a_table(text) else "write one object, which begins with `{`"
    if rest[0] in "}]" and last == ",":
        return f"take away the comma before `{rest[0]}`"
    if rest[0] == "," and last in ",[{":
        return "take away the comma: nothing stands before it"
    if last and last in ".eE-+":
        return "write a digit here"
    if re.search(r"(?:\A|[\s\[,:])(?:tr?u?|fa?l?s?|nu?l?)\Z", before):
        return "write `true`, `false` or `null` whole"
    if wants == places.COMMA and rest[0] in "}]":
        return f"write `{opened[-1]}` here, which closes what is open, or take `{rest[0]}` away"
    if wants == places.COMMA and (last.isdigit() and rest[0].isalpha()):
        return 'write the unit by itself, as `{ "value": 16, "unit": "px" }`'
    if wants == places.COMMA and last == "0" and rest[0].isdigit():
        return "write the number without a leading zero"
    if wants == places.COMMA and rest[0] in '"{[-0123456789tfn':
        return "write a comma before this"
    if wants == places.COLON:
        return "write a colon between the name and its value"
    if wants in (places.NAME, places.FIRST_NAME):
        return 'write each name in double quotation marks, as `"size": {}`'
    if wants == places.END and rest[0] in "}]":
        return f"take `{rest[0]}` away: each bracket before it is closed"
    if wants == places.END:
        return "write one object in a file, and nothing behind it"
    return "write a value here: an object, a list, a text in quotation marks, or a number"


# Resolvers.

def plan_shape(place):
    node = place.node()
    if isinstance(node.value, places.Members) and len(place.steps) == 1 and node.get("resolutionOrder") is None:
        return 'add `"resolutionOrder"`, a list as `[{ "$ref": "#/sets/core" }]`'
    if place.steps and node.text() is not None and isinstance(place.name(), int):
        return f'write `{{ "$ref": "{node.text()}" }}` in place of the text alone'
    if re.search(r"\{[^{}]*\Z", place.text[:place.start]) and '"$ref"' in place.text[place.start - 200:place.end + 200] and not place.steps:
        return "take the other members out of the object with `$ref`"
    return "write the form that the manual has for it under 'Themes'"


def plan_default(place):
    contexts = place.steps[-2][1].get("contexts") if len(place.steps) > 1 else None
    names = [it.name for it in contexts.members()] if contexts else []
    return f"write one of its contexts: {ticked(names)}" if names else "write the name of a context"


def plan_reference(place):
    text = place.node().text() or ""
    names = [(kind, it.name) for kind in ("sets", "modifiers") for it in names_below(place, kind)]
    near = closest(text, [f"#/{kind}/{name}" for kind, name in names])
    if text.startswith("#/") and near:
        return f"write `{near}`, or add what is named"
    if text.startswith("#"):
        return "name a set as `#/sets/NAME` and a modifier as `#/modifiers/NAME`"
    if re.match(r"https?:", text):
        return "put the file into the folder, and name its path there"
    if text.startswith(("/", "../")) or "/../" in text or "\\" in text:
        return "name a file by its path below the folder, with `/` between, and without `..`"
    if text and not is_script_path(text):
        return "rename the file: a path has letters, digits, `.`, `_` and `-` of ASCII, with `/` between"
    return "name a set as `#/sets/NAME`, a modifier as `#/modifiers/NAME`, or a file by its path below the folder"


def names_below(place, kind):
    """The members of a part of the resolver."""
    found = place.steps[0][1].get(kind) if place.steps else None
    return found.members() if found is not None else []


def file_missing(place):
    paths = [it for it in place.tokens.texts if it not in (RESOLVER, CONFIG)]
    if RESOLVER not in place.tokens.texts:
        return no_resolver(paths, place.tokens)
    name = re.sub(r"\A(?:\./)+", "", place.node().text() or "")
    near = (namesakes(name, paths) or namesakes(name, place.tokens.others) or [closest(name, paths)])[0]
    if near and near.endswith(NO_JSON_FILES):
        return f"write what `{near}` says as JSON, into `{name}`"
    return f"write `{near}`, which is there" if near else "look for a slip in the name, or put the file there"


# Endings of files that say things in other languages.
NO_JSON_FILES = (".yaml", ".yml", ".toml", ".csv", ".xml", ".js", ".mjs", ".cjs", ".ts", ".css", ".scss", ".less")


def no_resolver(paths, tokens):
    """What to do where there is neither a resolver nor tokens.json."""
    named = [it for it in paths if '"resolutionOrder"' in tokens.texts[it]]
    if named:
        return f"rename `{named[0]}` to `resolver.json`"
    if not paths:
        near = (namesakes(DEFAULT, tokens.others) or [""])[0]
        told = f"write what `{near}` says as JSON, into `tokens.json`" if near.endswith(NO_JSON_FILES) else f"rename `{near}` to `tokens.json`"
        return told if near else "put a token file named `tokens.json` right into the folder"
    if len(paths) == 1:
        return f"rename `{paths[0]}` to `tokens.json`, or write a `resolver.json` that names it"
    return f"write a `resolver.json` that names the token files, {ticked(paths[:3])}{' and others' if len(paths) > 3 else ''}"


def stem(path):
    """A path without the endings of token files, or of any file."""
    return re.sub(r"(\.tokens)?\.\w+\Z|\.tokens\Z", "", path)


def namesakes(name, paths):
    """The paths that are this name but for their ending, or for the case of letters, or for their folder."""
    stems = [it for it in paths if stem(it) == stem(name)]
    return stems or [it for it in paths if it.lower() == name.lower()] or [it for it in paths if os.path.basename(it) == os.path.basename(name)]


# Token files.

def shape_root(place):
    if isinstance(place.node().value, places.Items):
        return "write an object of groups and tokens in place of the list"
    if isinstance(place.node().value, places.Members):
        return 'put the token into a group under a name, as `{ "size": { "$value": .. } }`'
    return 'write an object, as `{ "size": { "$value": .. } }`'


def shape_name(place):
    name = place.piece.strip('"')
    if "." in name and not re.search(r"[{}]", name):
        first, rest = name.split(".", 1)
        return f'nest groups in place of a point, as `"{first}": {{ "{rest}": .. }}`'
    return "take the braces out of the name" if name else "give it a name"


def shape_member(place):
    name = place.name()
    if name in OLD_PROPERTIES:
        return f"write `{OLD_PROPERTIES[name]}` in place of `{name}`"
    return f'write it as a token: `"{name}": {{ "$value": {places.one_line(place.piece, 30)} }}`'


def shape_property(place):
    name, text = place.name(), place.node().text()
    if name == "$type" and text is not None:
        return kind_of(text)
    if name == "$extends" and text is not None and tuple(text.split(".")) in place.tokens.groups():
        return f"write `{{{text}}}`"
    what = {
        "$type": f"write one of the types {ticked(KINDS)}", "$description": "write a text in quotation marks", "$extensions": "write an object",
        "$deprecated": "write `true`, `false` or a text", "$extends": "write a text, as `{a.b}` for a group",
        "$ref": "take `$ref` or `$value` away, or write `$ref` as a text, as `#/a/b`",
    }
    return what.get(name, "write the form that the manual has for it under 'Token files'")


def kind_of(text):
    """What to do about a type that is none."""
    if text in NO_KINDS:
        return "leave the token out, or put its value under `$extensions`: there is no such type"
    near = OTHER_KINDS.get(text) or closest(text, KINDS)
    return f"write `{near}`, which takes such values" if near else f"write one of the types {ticked(KINDS)}"


def shape_token_child(place):
    name = place.piece.strip('"')
    if name in OLD_PROPERTIES:
        return f"write `{OLD_PROPERTIES[name]}` in place of `{name}`"
    return "take it out of the token; where the group is to have a value of its own, name that token `$root`"


def extends_target(place):
    text = place.node().text() or ""
    path = target_of(text) or ()
    if path in place.tokens.paths():
        return f"name a group: {spelled(path)} is a token"
    near = nearest(path, place.tokens.groups())
    return f"write `{spelled(near)}`, which is a group" if near else "name a group that a token file writes, as `{a.b}`"


def extends_cycle(place):
    return "name another group: this one extends itself" if is_own_ring(place) else "put what both share into a third group that both extend"


def is_own_ring(place):
    """Whether a cycle leads from one place or group to itself."""
    return len([word for word, _ in place.refusal.further if word == "ring"]) == 1


def nearest(path, paths):
    """The path that is most like this one: one that ends alike, or is spelled alike."""
    ends = sorted(it for it in paths if path and it[-len(path):] == path)
    near = closest(".".join(path), [".".join(it) for it in paths])
    return ends[0] if ends else tuple(near.split(".")) if near else None


# References.

ARITHMETIC = re.compile(r"\s[-+*/]\s|\*|\}\s*[-+*/]")


def alias_syntax(place):
    text = place.node().text()
    if text is None:
        ref = place.node().get("$ref")
        if ref is not None and len(place.node().members()) > 1:
            return "take the other members out of the object with `$ref`"
        return 'write the pointer as a text that begins with `#/`, as `"#/a/b"`'
    if ARITHMETIC.search(text):
        return "write the value that this comes to: tokc does no arithmetic"
    if text.startswith("#") or place.name() == "$ref":
        return "write the pointer as `#/a/b`, with `/$value/..` after it where a part is meant"
    if "$value" in text or "$type" in text:
        return "name the token alone, as `{a.b}`"
    if re.search(r"\{\s*\{|\}\s*\}", text):
        return "write one brace on each side, as `{a.b}`"
    if text.count("{") > 1:
        return "write one reference alone, as `{a.b}`"
    return "name the groups and the token with one point between each two, as `{a.b}`"


def alias_target(place):
    found = named_here(place)
    if found is None:
        return "name a token that a token file writes, as `{a.b}`"
    path, steps = found
    tokens, bare = place.tokens, tuple(it.strip() for it in path)
    if bare != path and bare in tokens.paths():
        return f"write `{spelled(bare)}`, without blanks"
    if path in tokens.paths() and steps:
        return f"name a part that the value of {spelled(path)} has"
    if ARITHMETIC.search(".".join(path)):
        return "write the value that this comes to: tokc does no arithmetic"
    if path[-1:] in (("value",), ("$value",)) and path[:-1] in tokens.paths():
        return f"write `{spelled(path[:-1])}`, without `.{path[-1]}`"
    if path in tokens.groups():
        inner = sorted(it for it in tokens.paths() if it[:len(path)] == path)
        return f"name a token: {spelled(path)} is a group" + (f", with {spelled(inner[0])} in it" if inner else "")
    slashed = tuple(".".join(path).replace("/", ".").split("."))
    near = slashed if slashed in tokens.paths() else nearest(path, tokens.paths())
    return f"write `{spelled(near)}`, or add what is named" if near else f"add the token {spelled(path)}, or name one that is there"


def alias_cycle(place):
    return "name another token, or write a value: this one names itself" if is_own_ring(place) else "give one of them a value of its own"


def named_here(place):
    """What the reference at the place names."""
    text = place.node().text()
    if text is not None and text.startswith("#"):
        return pointed_at(text)
    if text is not None:
        return tuple(text[1:-1].split(".")), ()
    ref = place.node().get("$ref")
    return pointed_at(ref.text() or "") if ref is not None else None


# Values.

LENGTH, TIME, NUMBER = re.compile(r"(-?\d*\.?\d+)\s*(px|rem)"), re.compile(r"(-?\d*\.?\d+)\s*(ms|s)"), re.compile(r"-?\d+(\.\d+)?")
SHARE = re.compile(r"(-?\d+(?:\.\d+)?)\s*%")
HEX = re.compile(r"#([0-9a-fA-F]{3,4}|[0-9a-fA-F]{6}|[0-9a-fA-F]{8})")


def number(text):
    """A number as JSON writes it."""
    return text.replace("-.", "-0.") if text.startswith("-.") else "0" + text if text.startswith(".") else text


def measure(found):
    return f'write `{{ "value": {number(found[1])}, "unit": "{found[2]}" }}`'


def share(byte):
    """A byte of a colour as a part of 1, with three digits."""
    return f"{byte / 255:.3f}".rstrip("0").rstrip(".")


def colour(digits):
    """A colour of hexadecimal digits, as an object."""
    digits = "".join(2 * it for it in digits) if len(digits) < 6 else digits
    parts = [share(int(digits[at:at + 2], 16)) for at in range(0, len(digits), 2)]
    alpha = f', "alpha": {parts[3]}' if len(parts) > 3 else ""
    return f'write `{{ "colorSpace": "srgb", "components": [{", ".join(parts[:3])}]{alpha} }}`'


def type_missing(place):
    kind = guess(place.node())
    return f'give it, or its group, a type: `"$type": "{kind}"`' if kind else 'give it, or its group, a `$type`, as `"$type": "dimension"`'


def guess(node):
    """The kind that a value looks like, or None."""
    names = {it.name for it in node.members()}
    unit, text = node.get("unit"), node.text()
    if unit is not None:
        return "duration" if unit.text() in ("ms", "s") else "dimension"
    if text is not None:
        return "dimension" if LENGTH.fullmatch(text) else "color" if HEX.fullmatch(text) else "duration" if TIME.fullmatch(text) else None
    if isinstance(node.value, places.Items):
        return "cubicBezier" if len(node.value) == 4 and all(isinstance(it.value, (int, float)) for it in node.value) else None
    if isinstance(node.value, (int, float)) and not isinstance(node.value, bool):
        return "number"
    full = [kind for kind, needed in NEEDED.items() if names and names.issuperset(needed)]
    return full[0] if full else None


def value_shape(place):
    node, kind = place.node(), place.kind()
    if place.name() == "lineHeight":
        return "write a number: the height over the font's size, as `1.5`"
    if place.names()[-1:] == ["components"]:
        return 'write three components, each a number or `"none"`; an alpha stands by itself, as `"alpha": 1`'
    if place.names()[-2:-1] == ["components"]:
        share_of = SHARE.fullmatch(node.text() or "")
        return f"write `{share_of[1]}`" if share_of else 'write a number, or `"none"`'
    if node.text() is not None:
        return text_value(place, node.text(), kind)
    if isinstance(node.value, places.Members):
        lacking = [it for it in NEEDED.get(kind, []) if node.get(it) is None]
        others = [it for it in lacking if node.get(OTHER_PARTS.get(it, "")) is not None]
        if others:
            return f"write {' and '.join(f'`{it}`' for it in others)} in place of {' and '.join(f'`{OTHER_PARTS[it]}`' for it in others)}"
        if 0 < len(lacking) < len(NEEDED[kind]):
            return f"add {' and '.join(f'`{it}`' for it in lacking)}"
    if isinstance(node.value, (int, float)) and kind in ("dimension", "duration"):
        return f'write `{{ "value": {place.piece}, "unit": "{"px" if kind == "dimension" else "ms"}" }}`'
    return form_of(kind)


def form_of(kind):
    return f"write {FORMS[kind]}" if kind in FORMS else "write the form that the manual has for its type under 'Types'"


# What `legacy = true` in the configuration reads, and where that key stands.
LEGACY_TEXT = re.compile(r"-?(?:0|[1-9][0-9]*)(?:\.[0-9]+)?(?:[eE][+-]?[0-9]+)?(?:px|rem|ms|s)|#[0-9A-Fa-f]{6}(?:[0-9A-Fa-f]{2})?")
LEGACY_KEY = re.compile(r"^[ \t]*[\"']?legacy[\"']?[ \t]*=", re.M)
OR_LEGACY = ", or `legacy = true` in `tokc.toml`, which reads such texts"


def is_legacy(place, text):
    """Whether the key `legacy`, which the configuration has not, would have a text read."""
    return LEGACY_TEXT.fullmatch(text) is not None and LEGACY_KEY.search(place.tokens.texts.get(CONFIG, "")) is None


MEASURED = re.compile(r"\s*([-+]?)0*(\d*\.?\d+(?:[eE][-+]?\d+)?)\s*([A-Za-z%]*)\s*")


def legacy_text(place):
    """What to do about a text that is read by the key `legacy` and has not its form."""
    text = place.node().text() or ""
    digits, measured = re.fullmatch(r"#([0-9a-fA-F]{3,4})", text), MEASURED.fullmatch(text)
    if digits:
        return f"write all digits: `#{''.join(2 * it for it in digits[1])}`"
    if measured and measured[3].lower() in ("px", "rem", "ms", "s"):
        return f"write `{measured[1].strip('+')}{number(measured[2])}{measured[3].lower()}`"
    if measured and not measured[3]:
        return f"write its unit behind the number, as `{measured[1].strip('+')}{number(measured[2])}{'ms' if place.kind() == 'duration' else 'px'}`"
    if measured:
        return unit_advice(measured[3]) if place.kind() != "duration" else "write a time in `ms` or `s`"
    if re.fullmatch(r"\{[^{}]*|[^{}]*\}", text):
        return f"write the reference with both braces: `{{{text.strip('{}')}}}`"
    if re.match(r"calc\(|.*[\s})][-+*/]\s|.*\*", text):
        return "write the value that this comes to: tokc does no arithmetic"
    if "{" in text:
        return "write a value without a reference in a text: a reference stands alone, as `{a.b}`"
    if re.match(r"(?:rgb|hsl)a?\(", text) or place.kind() == "color":
        return "write `#` and six or eight hexadecimal digits, or a colour as the object that the manual has for it under 'Types'"
    return "write a number with its unit, as `16px`, or `#` and six or eight hexadecimal digits"


def text_value(place, text, kind):
    """What to do about a text in the place of another value; the key `legacy` may serve too."""
    return remedy_of_text(place, text, kind) + (OR_LEGACY if is_legacy(place, text) else "")


def reference_of(place, text):
    """A token that a text names without braces, as a reference, or None."""
    pointed = pointed_at(text)
    path = pointed[0] if pointed and not pointed[1] else tuple(text.lstrip("$").split("."))
    return spelled(path) if path in place.tokens.paths() else None


def curve_of(text):
    """A curve that style sheets spell so, as a list, or None."""
    call = re.fullmatch(r"cubic-bezier\(\s*([^()]*?)\s*\)", text)
    numbers = [number(it) for it in re.split(r"\s*,\s*", call[1])] if call else []
    return CURVES.get(text) or (", ".join(numbers) if len(numbers) == 4 and all(map(NUMBER.fullmatch, numbers)) else None)


def remedy_of_text(place, text, kind):
    """What to do about a text in the place of another value."""
    reference, curve = reference_of(place, text), curve_of(text) if kind == "cubicBezier" else None
    if reference or curve:
        return f"write `{reference}`" if reference else f"write `[{curve}]`"
    if kind == "number" and SHARE.fullmatch(text):
        return f"write `{float(SHARE.fullmatch(text)[1]) / 100:g}` for {text}"
    if re.fullmatch(r"\{[^{}]*|[^{}]*\}", text):
        return f"write the reference with both braces: `{{{text.strip('{}')}}}`"
    if ARITHMETIC.search(text) and "{" in text:
        return "write the value that this comes to: tokc does no arithmetic"
    if "{" in text:
        return "write a value without a reference in a text: a reference stands alone, as `{a.b}`"
    if LENGTH.fullmatch(text) and kind in ("dimension", None):
        return measure(LENGTH.fullmatch(text))
    if TIME.fullmatch(text) and kind in ("duration", None):
        return measure(TIME.fullmatch(text))
    if HEX.fullmatch(text) and kind in ("color", None):
        return colour(HEX.fullmatch(text)[1])
    if NUMBER.fullmatch(text) and (kind == "number" or place.name() == "value"):
        return f"write the number without quotation marks: `{text}`"
    if NUMBER.fullmatch(text) and kind == "dimension":
        return f'write `{{ "value": {text}, "unit": "px" }}`'
    return form_of(kind)


def dimension_unit(place):
    return unit_advice(place.node().text())


def unit_advice(unit):
    """What to do about a unit that a length can't have."""
    if unit in ("em", "ex", "ch", "vw", "vh"):
        return f"write `px` or `rem`: what `{unit}` comes to depends on where the token is used"
    if unit in ("pt", "dp", "sp"):
        return "write `px`, or `rem` where the length is to go with the text size"
    return "write a share as a `number`" if unit == "%" else "write `px` or `rem`"


def color_range(place):
    components = place.steps[-2][1] if len(place.steps) > 1 else None
    space = place.steps[-3][1].get("colorSpace") if components is not None and len(place.steps) > 2 else None
    space, value = space.text() if space else None, place.node().value
    if space in SPACES[:6] and isinstance(value, (int, float)) and 1 < value <= 255:
        return f"write `{share(value)}` for {place.piece} of 255: in `{space}` a component lies within 0 to 1"
    ranges = {
        "hsl": "0 to 360, 0 to 100 and 0 to 100", "hwb": "0 to 360, 0 to 100 and 0 to 100", "lab": "0 to 100 for the first",
        "lch": "0 to 100, 0 or more, and 0 to 360", "oklab": "0 to 1 for the first", "oklch": "0 to 1, 0 or more, and 0 to 360",
    }
    return f"write components of `{space}` within {ranges.get(space, '0 to 1')}" if space else "write a component within the range of its space"


def color_alpha(place):
    value = place.node().value
    if isinstance(value, (int, float)) and 1 < value <= 100:
        return f"write `{value / 100:g}` for {place.piece} %"
    return "write a number from 0 to 1"


def color_hex(place):
    text = (place.node().text() or "").lstrip("#")
    if re.fullmatch(r"[0-9a-fA-F]{3}", text):
        return f"write all six digits: `#{''.join(2 * it for it in text)}`"
    if re.fullmatch(r"[0-9a-fA-F]{8}", text):
        return f'write `#{text[:6]}`, and the alpha by itself: `"alpha": {share(int(text[6:], 16))}`'
    return f"write `#{text}`" if re.fullmatch(r"[0-9a-fA-F]{6}", text) else "write `#` and six hexadecimal digits"


def color_space(place):
    text = place.node().text() or ""
    near = OTHER_SPACES.get(text.lower()) or closest(text, SPACES)
    return f"write `{near}`" if near else f"write one of {ticked(SPACES)}"


def weight_word(place):
    text = place.node().text() or ""
    if text.isdigit():
        return f"write the number without quotation marks: `{text}`"
    joined = re.sub(r"(?<=[a-z])[ _]?(?=[A-Z])|[ _]", "-", text).lower()
    near = joined if joined in WEIGHTS else next((it for it in WEIGHTS if it.replace("-", "") == joined), None) or closest(joined, WEIGHTS)
    return f"write `{near}`" if near else f"write one of {ticked(WEIGHTS)}, or a number from 1 to 1000"


def one_of(words):
    """What to do where one of a few words is wanted."""
    def remedy(place):
        near = closest(place.node().text() or "", words)
        return f"write `{near}`" if near else f"write one of {ticked(words)}"
    return remedy


REMEDIES = {
    "config-toml": config_toml, "config-key": config_key, "json-syntax": json_syntax, "plan-shape": plan_shape,
    "plan-default": plan_default, "plan-reference": plan_reference, "file-missing": file_missing, "shape-root": shape_root, "shape-name": shape_name,
    "shape-member": shape_member, "shape-property": shape_property, "shape-token-child": shape_token_child, "extends-target": extends_target, "extends-cycle": extends_cycle,
    "alias-syntax": alias_syntax, "alias-target": alias_target, "alias-cycle": alias_cycle, "type-missing": type_missing, "value-shape": value_shape, "dimension-unit": dimension_unit,
    "color-range": color_range, "color-alpha": color_alpha, "color-hex": color_hex, "color-space": color_space,
    "weight-word": weight_word, "legacy-text": legacy_text, "stroke-word": one_of(STROKES), "stroke-cap": one_of(CAPS),
}


# Rules of values, which may be told at a reference to the value that breaks them.
OF_VALUES = {"value-shape", "dimension-unit", "color-range", "color-alpha", "color-hex", "color-space", "weight-word", "stroke-word", "stroke-cap", "legacy-text"}


def behind(place):
    """The place in the value that a reference leads to, where each name on the way is written once; else the place itself."""
    named, found, seen = named_by(place.node()), None, set()
    while named is not None and not named[1] and named[0] not in seen:
        seen.add(named[0])
        written = place.tokens.at(named[0])
        if len(written) != 1:
            return place
        found = written[0]
        named = named_by(found.value)
    if found is None or named is not None:
        return place
    node = found.value
    for step in place.names()[len(place.own_steps()):]:
        inner = node.get(step) or next((it for at, it in enumerate(node.items()) if str(at) == step), None)
        if inner is None:
            break
        node = inner
    return Place(place.refusal._replace(file=found.file), place.tokens, node.start, node.end, place.kind())


def other_kind(place, led):
    """What to do where a reference leads to the whole value of a token that says another type, or None."""
    steps = [it.get("$type") for _, it in led.steps]
    said = next((it.text() for it in reversed(steps) if it is not None), None)
    if led is place or place.kind() is None or said not in KINDS or said == place.kind():
        return None
    return f"name a token of type `{place.kind()}`: {spelled(named_by(place.node())[0])} leads to one of type `{said}`"


def advice(place):
    """What to do about a refusal, or None for a rule that isn't known."""
    rule = place.refusal.rule
    if rule in OF_VALUES and place.steps:
        place, told_at = behind(place), place
        said = other_kind(told_at, place)
        if said:
            return said
    return REMEDIES[rule](place) if rule in REMEDIES else ALWAYS.get(rule)
