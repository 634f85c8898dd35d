"""The runs in which tools/faults makes calls fail: one of each word at least, with refusals, themes, several commits and files taken away.

A run is its name, the arguments, the script, and by hand what comes of it where nothing fails: the status, and the rules that its
stream tells, one after another.
"""
import os
from typing import NamedTuple

TOP = os.path.dirname(os.path.dirname(os.path.realpath(__file__)))
HEAD = b"tokc-script 1\n"

PX = '{"value":%s,"unit":"px"}'
BLACK = '{"colorSpace":"srgb","components":[0,0,0]}'


class Run(NamedTuple):
    name: str
    words: list
    script: bytes
    status: int
    rules: list


def script_of(*commits):
    """The script of commits, each of them the files that it puts by their paths; None in place of a text takes a file away."""
    pieces = [HEAD]
    for files in commits:
        for path, text in files.items():
            data = None if text is None else text.encode()
            pieces.append(b"del %s\n" % path.encode() if data is None else b"put %s %d\n%s\n" % (path.encode(), len(data), data))
        pieces.append(b"commit\n")
    return b"".join(pieces)


def example(name):
    """A script of examples/."""
    with open(os.path.join(TOP, "examples", f"{name}.script"), "rb") as file:
        return file.read()


def folder(*parts):
    """The files of a folder, by their paths."""
    root, found = os.path.join(TOP, *parts), {}
    for at, _, names in os.walk(root):
        for name in names:
            path = os.path.join(at, name)
            with open(path, encoding="utf-8") as file:
                found[os.path.relpath(path, root).replace(os.sep, "/")] = file.read()
    return dict(sorted(found.items()))


def resolver(order, **members):
    """A resolver document with an order, and other members as texts."""
    others = "".join(f',"{name}":{text}' for name, text in members.items())
    return '{"version":"2025.10"%s,"resolutionOrder":[%s]}' % (others, order)


def set_of(*sources):
    """A set of an order, given its sources as texts."""
    return '{"type":"set","name":"all","sources":[%s]}' % ",".join(sources)


def modifier(name, **contexts):
    """A modifier of an order, given the sources of its contexts as texts."""
    return '{"type":"modifier","name":"%s","contexts":{%s}}' % (name, ",".join(f'"{it}":[{of}]' for it, of in contexts.items()))


def file(path):
    return f'{{"$ref":"{path}"}}'


# A token of each type, and references of every form to them.
ALL_TYPES = """{
  "ink": {"$type":"color","$value":{"colorSpace":"oklch","components":[0.5,0.1,"none"],"alpha":0.5,"hex":"#336699"}},
  "wide": {"$type":"dimension","$value":{"value":1.5,"unit":"rem"}},
  "family": {"$type":"fontFamily","$value":["Inter","Gr\u00f6\u00dfe","sans-serif"],"$description":"A text with \\"quotes\\"."},
  "weight": {"$type":"fontWeight","$value":"semi-bold","$deprecated":"Take the one above."},
  "fast": {"$type":"duration","$value":{"value":20,"unit":"ms"}},
  "curve": {"$type":"cubicBezier","$value":[0.1,0,0.9,1]},
  "ratio": {"$type":"number","$value":1.25,"$extensions":{"org.example":{"kept":[1,2,{"a":null}]}}},
  "dashes": {"$type":"strokeStyle","$value":{"dashArray":["{wide}",{"value":2,"unit":"px"}],"lineCap":"round"}},
  "edge": {"$type":"border","$value":{"color":"{ink}","width":{"$ref":"#/wide"},"style":"solid"}},
  "change": {"$type":"transition","$value":{"duration":"{fast}","delay":{"value":0,"unit":"s"},"timingFunction":"{curve}"}},
  "below": {"$type":"shadow","$value":[{"color":"{ink}","offsetX":"{wide}","offsetY":"{wide}","blur":"{wide}","spread":"{wide}","inset":true}]},
  "fade": {"$type":"gradient","$value":[{"color":"{ink}","position":0},{"color":{"$ref":"#/below/$value/0/color"},"position":1}]},
  "text": {"$type":"typography","$value":{"fontFamily":"{family}","fontSize":"{wide}","fontWeight":"{weight}","letterSpacing":"{wide}","lineHeight":"{ratio}"}},
  "again": {"$value":"{text}"},
  "part": {"$type":"dimension","$value":{"$ref":"#/edge/$value/width"}}
}"""
LEGACY = '{"s":{"$type":"dimension","$value":"1.5rem"},"t":{"$type":"duration","$value":"20ms"},"c":{"$type":"color","$value":"#336699"},"u":{"$value":"{s}"}}'
ONE = '{"a":{"$type":"dimension","$value":%s}}' % (PX % 4)
RING_OF_SETS = '{"a":{"sources":[{"$ref":"#/sets/b"}]},"b":{"sources":[{},{"$ref":"#/sets/a"}]}}'
THEMES = resolver(set_of(file("a.json"), '{"inline":{"$type":"number","$value":7}}') + "," + modifier("m", x="", y=file("y.json")))
GROUPS = """{
  "base": {"$type":"dimension","$deprecated":true,"$root":{"$value":{"value":1,"unit":"px"}},"in":{"x":{"$value":{"value":2,"unit":"px"}}}},
  "mid": {"$extends":"{base}","in":{"x":{"$value":{"value":3,"unit":"px"}}}},
  "top": {"$extends":"#/mid","y":{"$value":"{top.in.x}"}}%s
}"""
RING_OF_GROUPS = ',"a":{"$extends":"{b}"},"b":{"c":{"$extends":"{a}"},"$extends":"{a}"}'
SAME_NAMES = ',"n":{"$type":"dimension","a b":{"$value":{"value":1,"unit":"px"}},"a-b":{"$value":{"value":1,"unit":"px"}}}'
RING = '{"a":{"$value":"{b}"},"b":{"$value":"{c}"},"c":{"$value":{"$ref":"#/a"}},"d":{"$type":"border","$value":{"color":"{a}"}}}'
SIZED = '{"f":{"$type":"fontFamily","$value":[%s]}}' % ",".join(['"x"'] * 1_024)

RUNS = [
    Run("one file", ["build"], example("first"), 0, []),
    Run("a file that is refused for one commit", ["replay"], example("changes"), 0, ["json-duplicate"]),
    Run("two themes, one refused for one commit", ["replay"], example("themes"), 0, ["color-range"]),
    Run("statistics of two themes", ["stats"], example("themes"), 0, []),
    Run("a generated script", ["gen", "7", "1"], b"", 0, []),
    Run("a design system of four permutations", ["build"], script_of(folder("examples", "acme", "tokens")), 0, []),
    Run("tokens of all types with references", ["replay"], script_of({"tokens.json": ALL_TYPES}, {"tokens.json": ALL_TYPES.replace("1.25", "1.5")}), 0, []),
    Run(
        "configurations",
        ["replay"],
        script_of(
            {"tokens.json": LEGACY, "tokc.toml": 'legacy = true\nprefix = "ds"\nrem_base = 10\nreferences = false\n'},
            {"tokc.toml": "colour = 1\n"},
            {"tokc.toml": "= 1\n"},
            {"tokc.toml": None},
        ),
        1,
        ["config-key", "config-toml", "value-shape"],
    ),
    Run(
        "resolvers",
        ["replay"],
        script_of(
            {"a.json": ONE, "y.json": ONE.replace("4", "8"), "resolver.json": THEMES},
            {"resolver.json": resolver('{"$ref":"#/sets/a"}', sets=RING_OF_SETS)},
            {"resolver.json": "[]"},
            {"resolver.json": THEMES, "y.json": None},
            {"y.json": "{}"},
        ),
        0,
        ["plan-cycle", "plan-version", "file-missing"],
    ),
    Run(
        "groups that extend others, a ring of them, and names that clash",
        ["replay"],
        script_of({"tokens.json": GROUPS % ""}, {"tokens.json": GROUPS % RING_OF_GROUPS}, {"tokens.json": GROUPS % SAME_NAMES}),
        1,
        ["extends-cycle", "name-clash"],
    ),
    Run(
        "references that are refused",
        ["replay"],
        script_of({"tokens.json": RING}, {"tokens.json": SIZED}, {"tokens.json": "[1,]"}, {"tokens.json": None}),
        1,
        ["alias-cycle", "alias-size", "json-syntax", "file-missing"],
    ),
    Run("a folder that is refused", ["build"], script_of(folder("examples", "acme", "broken")), 1, ["extends-target"]),
    Run("a text that is no script", ["build"], HEAD + b"put tokens.json 2\n{}\nput a\n", 3, []),
    Run("arguments that are none", ["builds"], HEAD, 2, []),
]
