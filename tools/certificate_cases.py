"""Cases of tokc_explain: folders of token files with the places that are explained, and how certificates are spoilt in one place.

Some folders are by hand: each form of a reference, steps before which a place has to settle, long and wide ways, names that are escaped,
themes. The others are random, the same one for the same seed.
"""
import json
import random
from typing import NamedTuple

from random_scripts import escaped, quoted

CERTIFICATE = "why.txt"
RANDOM = 14


class Folder(NamedTuple):
    """Token files, and the permutation and the pointer of each place that is explained."""

    name: str
    files: dict
    places: list


CHAIN = '{"a":{"$value":"{b}"},"b":{"$value":"{c}"},"c":{"$type":"dimension","$value":{"value":%s,"unit":"px"}}}'
PART = (
    '{"b":{"$type":"border","$value":{"color":"{c}","width":{"value":1,"unit":"px"},"style":"solid"}},'
    '"c":{"$type":"color","$value":{"colorSpace":"srgb","components":[0.2,0.4,0.6]}},"g":{"$type":"number","$value":{"$ref":"#/b/$value/color/components/1"}}}'
)
REFUSED = '{"a":{"$type":"dimension","$value":{"value":4,"unit":"em"}}}'

# Each form of a reference; one text is no reference, though the place that it stands in is one; tokens that are inherited.
FORMS = """{
  "ink": { "$type": "color", "$value": { "colorSpace": "srgb", "components": [0, 0.5, 1] } },
  "text": { "$ref": "#/ink" },
  "link": { "$value": "{text}" },
  "base": { "$type": "color", "$root": { "$value": { "$ref": "#/text/$value" } }, "soft": { "$value": "{base.$root}" } },
  "heir": { "$extends": "{base}", "own": { "$value": "{heir.soft}" } },
  "lift": { "$type": "shadow", "$value": [
    { "color": "{heir.own}", "offsetX": { "value": 0, "unit": "px" }, "offsetY": { "value": 1, "unit": "px" }, "blur": "{gap}", "spread": "{none}" },
    { "color": { "$ref": "#/lift/$value/0/color" }, "offsetX": "{none}", "offsetY": "{gap}", "blur": "{gap}", "spread": "{none}", "inset": true }
  ] },
  "none": { "$type": "dimension", "$value": { "value": 0, "unit": "rem" } },
  "gap": { "$type": "dimension", "$value": { "$ref": "#/lift/$value/0/offsetY" } },
  "green": { "$type": "number", "$value": { "$ref": "#/lift/$value/1/color/components/1" } },
  "raised": { "$value": "{lift}" },
  "blur": { "$type": "dimension", "$value": { "$ref": "#/raised/$value/1/blur" } },
  "unit": { "$type": "number", "$value": { "$ref": "#/raised/$value/0/blur/value" } },
  "face": { "$type": "fontFamily", "$value": ["{sans}", "serif"] },
  "sans": { "$type": "fontFamily", "$value": "Inter" },
  "second": { "$type": "fontFamily", "$value": { "$ref": "#/face/$value/1" } }
}"""
IN_FORMS = [
    "#/link", "#/base/$root", "#/heir/$root/$value", "#/heir/soft", "#/heir/own", "#/lift", "#/lift/$value/1/color", "#/gap", "#/green", "#/raised",
    "#/raised/$value", "#/blur", "#/unit", "#/text/$value", "#/green/$value/$ref", "#/lift/$value/0/offsetX/value", "#/second", "#/face/$value/0",
]

# Names with what pointers and strings escape.
STEMS = ["a", "b~", "c/d", "e f", "gro\u00df"]
NAMES = ["z~/", 'q"\\', "gro\u00df", "x y", "\u0001", "\U0001f600", "\u007f#", "$root"]


def odd_names():
    """A chain of tokens with these names, each in a group of a name."""
    tokens, places = {}, []
    for number, name in enumerate(NAMES):
        value = {"value": 1, "unit": "px"} if number == 0 else {"$ref": f"#/g~0{number - 1}/{escaped(NAMES[number - 1])}"}
        tokens[f"g~{number}"] = {name: {"$type": "dimension", "$value": value}}
        places.append(("default", f"#/g~0{number}/{escaped(name)}"))
    return Folder("odd names", {"tokens.json": json.dumps(tokens, ensure_ascii=False, indent=1)}, places[-4:])


def chain(length):
    """So many tokens, of which each but the last refers to the next."""
    links = "".join(f'"t{number}":{{"$value":"{{t{number + 1}}}"}},\n' for number in range(length - 1))
    return f'{{{links}"t{length - 1}":{{"$type":"number","$value":1}}}}'


def wide(mark, steps, links, value):
    """Tokens of a reference of so many steps, each but the last to a reference that so many links settle, to this value; and the reference."""
    tokens = []
    for step in range(steps):
        head = f"{mark}{step + 1}" if step + 1 == steps else f"l{mark}{step + 1}_0"
        tokens.append(f'"{mark}{step}":{{"$type":"dimension","$value":{{"value":{step},"unit":"px","n":"{{{head}}}"}}}}')
        ends = [f"l{mark}{step}_{at + 1}" for at in range(links - 1)] + [f"{mark}{step}"]
        tokens += [f'"l{mark}{step}_{at}":{{"$value":"{{{end}}}"}}' for at, end in enumerate(ends) if step]
    tokens.append(f'"{mark}{steps}":{{"$type":"dimension","$value":{{"value":{value},"unit":"rem"}}}}')
    return tokens, f'{{"$ref":"#/{mark}0/$value{"/n" * steps}/value"}}'


def wide_ways(steps, links):
    """Two such references, the first of which leads to the second."""
    later, second = wide("s", steps, links, "1")
    sooner, first = wide("t", steps, links, second)
    return "{" + ",\n".join([*sooner, *later, f'"a":{{"$type":"number","$value":{first}}}']) + "}"


THEMES = {
    "resolver.json": """{ "version": "2025.10", "sets": { "core": { "sources": [ { "$ref": "core.json" }, { "$ref": "parts/line.json" } ] } }, "modifiers": {
  "theme": { "contexts": { "light": [], "gro\u00df dark": [ { "$ref": "./dark.json" }, { "ink": { "$value": "{paper}" } } ] } },
  "gap": { "contexts": { "1": [], "2": [ { "line": { "thin": { "$value": "{line.thick}" } } } ] } } },
  "resolutionOrder": [ { "$ref": "#/sets/core" }, { "$ref": "#/modifiers/theme" }, { "$ref": "#/modifiers/gap" } ] }""",
    "core.json": """{ "ink": { "$type": "color", "$value": { "colorSpace": "srgb", "components": [0, 0, 0] } },
  "paper": { "$type": "color", "$value": { "colorSpace": "srgb", "components": [1, 1, 1] } }, "text": { "$value": "{ink}" },
  "box": { "$type": "border", "$value": { "color": "{text}", "width": "{line.thin}", "style": "solid" } },
  "red": { "$type": "number", "$value": { "$ref": "#/box/$value/color/components/0" } },
  "size": { "$type": "number", "$value": { "$ref": "#/box/$value/width/value" } } }""",
    "parts/line.json": """{ "line": { "$type": "dimension",
  "thin": { "$value": { "value": 1, "unit": "px" } }, "thick": { "$value": { "value": 2, "unit": "px" } } } }""",
    "dark.json": """{ "text": { "$type": "color", "$ref": "#/ink" }, "paper": { "$type": "color", "$value": { "colorSpace": "srgb", "components": [0.1, 0.1, 0.1] } } }""",
}
IN_THEMES = [
    (f"theme={theme}+gap={gap}", place)
    for theme, gap in (("light", 1), ("light", 2), ("gro%C3%9F%20dark", 1), ("gro%C3%9F%20dark", 2)) for place in ("#/red", "#/size", "#/box/$value/color", "#/text")
]


class Tree:
    """Makes tokens that refer to earlier ones in all forms, with the pointers of all places that are references."""

    def __init__(self, seed):
        self.chance = random.Random(seed)
        self.known, self.tokens, self.places = {}, [], []

    def blank(self):
        return self.chance.choice(["", "", "", " ", "\n  "])

    def object_of(self, members):
        inside = f",{self.blank()}".join(f'{quoted(name)}:{self.blank()}{value}' for name, value in members.items())
        return "{" + self.blank() + inside + "}"

    def literal(self, kind, place):
        if kind == "number":
            return self.chance.choice(["0", "1.50", "-2", "1e1"])
        if kind == "dimension":
            return self.object_of({"value": self.chance.choice(["0", "4", "0.5"]), "unit": self.chance.choice(['"px"', '"rem"'])})
        if kind == "color":
            parts = [self.chance.choice(["0", "1", "0.25"]) for _ in range(3)]
            return self.object_of({"colorSpace": '"srgb"', "components": f"[{', '.join(parts)}]"})
        if kind == "border":
            return self.object_of({"color": self.value("color", f"{place}/color"), "width": self.value("dimension", f"{place}/width"), "style": '"dashed"'})
        lengths = {name: self.value("dimension", f"{place}/0/{name}") for name in ("offsetX", "offsetY", "blur", "spread")}
        return f'[{self.object_of({"color": self.value("color", f"{place}/0/color"), **lengths})}]'

    def reference(self, kind):
        """A reference to a part of this kind of an earlier token, or None."""
        at = self.known.get(kind)
        if not at:
            return None
        path, steps = self.chance.choice(at[-12:])
        pointer = "#" + "".join("/" + escaped(it) for it in path)
        if steps:
            return self.object_of({"$ref": quoted(f"{pointer}/$value/{'/'.join(steps)}")})
        forms = [quoted("{" + ".".join(path) + "}"), self.object_of({"$ref": quoted(pointer)}), self.object_of({"$ref": quoted(pointer + "/$value")})]
        return self.chance.choice([forms[0], *forms])

    def value(self, kind, place):
        """A value of a kind, which may be a reference."""
        found = self.reference(kind) if self.chance.random() < 0.75 else None
        if found is None:
            return self.literal(kind, place)
        self.places.append(place)
        return found

    def parts_of(self, kind):
        if kind == "border":
            return {"color": ("color",), "dimension": ("width",)}
        if kind == "shadow":
            return {"color": ("0", "color"), "dimension": ("0", self.chance.choice(["blur", "spread", "offsetX"]))}
        return {"number": ("value",)} if kind == "dimension" else {"number": ("components", str(self.chance.randrange(3)))} if kind == "color" else {}

    def token(self, number):
        """Adds a token, with its parts and the parts of these as what later ones may refer to."""
        kind = self.chance.choice(["number", "dimension", "color", "border", "shadow"])
        path = (f"g{self.chance.randrange(3)}", f"{self.chance.choice(STEMS)}{number}")
        place = "#" + "".join("/" + escaped(it) for it in path) + "/$value"
        self.tokens.append((path, self.object_of({"$type": quoted(kind), "$value": self.value(kind, place)})))
        self.known.setdefault(kind, []).append((path, ()))
        for part, steps in self.parts_of(kind).items():
            self.known.setdefault(part, []).append((path, steps))
            for inner, further in self.parts_of(part).items():
                self.known.setdefault(inner, []).append((path, steps + further))

    def text(self, tokens):
        groups = {}
        for (group, name), value in tokens:
            groups.setdefault(group, {})[name] = value
        return self.object_of({group: self.object_of(members) for group, members in groups.items()})


def random_folder(seed):
    """Thirty tokens in one file, or in two by a resolver, and five places, most of them late."""
    tree = Tree(seed)
    for number in range(30):
        tree.token(number)
    places = tree.places[-8:]
    tree.chance.shuffle(places)
    if seed % 2 == 0:
        files = {"tokens.json": tree.text(tree.tokens)}
    else:
        sources = '{"version":"2025.10","sets":{"all":{"sources":[{"$ref":"one.json"},{"$ref":"two/three.json"}]}},"resolutionOrder":[{"$ref":"#/sets/all"}]}'
        files = {"resolver.json": sources, "one.json": tree.text(tree.tokens[::2]), "two/three.json": tree.text(tree.tokens[1::2])}
    return Folder(f"random {seed}", files, [("default", it) for it in places[:5]])


def folders():
    return [
        Folder("a chain of two references", {"tokens.json": CHAIN % 4}, [("default", "#/a"), ("default", "#/b/$value"), ("default", "#/c/$value/value")]),
        Folder("a reference before a step", {"tokens.json": PART}, [("default", "#/g"), ("default", "#/b/$value/color"), ("default", "#/b")]),
        Folder("each form of a reference", {"tokens.json": FORMS}, [("default", it) for it in IN_FORMS]),
        odd_names(),
        Folder("themes", THEMES, IN_THEMES),
        Folder("a long chain", {"tokens.json": chain(256)}, [("default", "#/t0"), ("default", "#/t255")]),
        Folder("wide ways", {"tokens.json": wide_ways(20, 8)}, [("default", "#/a"), ("default", "#/t19/$value/n")]),
        *map(random_folder, range(RANDOM)),
        Folder("a refused permutation", {"tokens.json": REFUSED}, []),
        Folder("a refused plan", {"resolver.json": "{}", "tokens.json": CHAIN % 4}, []),
        Folder("a chain that is too long", {"tokens.json": chain(257)}, []),
        Folder("no file", {}, []),
    ]


ONE_HOP = """tokc-explain 1
permutation default
from "#/b/$value"
hop "#/b/$value" "#/c/$value" tokens.json 36 41
end "#/c/$value" tokens.json 77 100
"""
BEFORE_STEP = """tokc-explain 1
permutation default
from "#/g/$value"
hop "#/b/$value/color" "#/c/$value" tokens.json 41 46
hop "#/g/$value" "#/c/$value/components/1" tokens.json 208 248
end "#/c/$value/components/1" tokens.json 166 169
"""
EXCHANGED = """tokc-explain 1
permutation default
from "#/g/$value"
hop "#/g/$value" "#/c/$value/components/1" tokens.json 208 248
hop "#/b/$value/color" "#/c/$value" tokens.json 41 46
end "#/c/$value/components/1" tokens.json 166 169
"""
FURTHER = """tokc-explain 1
permutation default
from "#/b/$value/color"
hop "#/b/$value/color" "#/c/$value" tokens.json 41 46
hop "#/g/$value" "#/c/$value/components/1" tokens.json 208 248
end "#/c/$value" tokens.json 127 175
"""
NO_HOP = """tokc-explain 1
permutation default
from "#/a/$value"
end "#/a/$value" tokens.json 33 55
"""

# Folders by their names, with the words and the certificate of a run: the words that there are, and which status comes before which.
GOOD, ABSENT = "a chain of two references", "none.txt"
WORDS = [
    *((GOOD, words, None) for words in (
        [], ["show"], ["check"], ["explain", "default", "#/a"], ["show", "default"], ["show", "default", "#/a", "x"], ["show", "default", "a"],
        ["show", "default", "{a}"], ["show", "default", "#"], ["show", "default", ""], ["show", "default", "#/a~2"], ["show", "default", "#/a/$root/b"],
        ["check", ""], ["check", "../why.txt"], ["check", "/why.txt"], ["check", "why .txt"], ["check", "a" * 201], ["check", CERTIFICATE, "x"],
        ["check", "a" * 200], ["check", ABSENT], ["check", "tokens.json"], ["show", "dark", "#/a"], ["show", "", "#/a"], ["show", "-x", "#/a"],
        ["show", "default", "#/zz"], ["show", "default", "#/a/$value/x"], ["show", "default", "#/c/$value/value/0"], ["show", "default", "#/c/$value/unit"],
        ["show", "default", "#/c"],
    )),
    *(("a reference before a step", ["check", CERTIFICATE], it) for it in (BEFORE_STEP, EXCHANGED, FURTHER)),
    (GOOD, ["check", CERTIFICATE], ONE_HOP), (GOOD, ["check", CERTIFICATE], ONE_HOP.replace("default", "dark")),
    ("a refused permutation", ["show", "default", "#/a"], None), ("a refused permutation", ["show", "default", "#/zz"], None),
    ("a refused permutation", ["show", "dark", "#/a"], None), ("a refused permutation", ["check", ABSENT], None),
    ("a refused permutation", ["check", CERTIFICATE], NO_HOP), ("a refused permutation", ["check", CERTIFICATE], "x"),
    ("a refused permutation", ["check", CERTIFICATE], NO_HOP.replace("default", "dark")),
    ("a refused plan", ["show", "default", "#/a"], None), ("a refused plan", ["show", "dark", "#/a"], None), ("a refused plan", ["check", ABSENT], None),
    ("a refused plan", ["check", CERTIFICATE], ONE_HOP), ("a refused plan", ["check", CERTIFICATE], ONE_HOP + "x"),
    ("a chain that is too long", ["show", "default", "#/t256"], None), ("no file", ["show", "default", "#/a"], None), ("no file", ["check", CERTIFICATE], ONE_HOP),
]
