(
    'Small scripts by hand: for each rule files that break it,'
    ' and files that show what an output may hold.\n\nA case is its name, the word that tokc is given,'
    ' the rule that has to be told (or None),'
    ' and for each commit the files that it puts\nby their paths; None in place of a text takes a file away.\n'
)
import json
from typing import NamedTuple, Optional

PX = '{"value":%s,"unit":"px"}'
ONE = PX % 1
BLACK = '{"colorSpace":"srgb","components":[0,0,0]}'
VERSION = '"version":"2025.10"'


class Case(NamedTuple):
    name: str
    word: str
    rule: Optional[str]
    commits: list


CASES = []


def shows(name, *commits, word=None):
    """A case of files that break no rule that it is about."""
    CASES.append(Case(name, word or ("build" if len(commits) == 1 else "replay"), None, list(commits)))


def breaks(rule, *commits, word=None):
    CASES.append(Case(f"{rule} {len(CASES)}", word or ("build" if len(commits) == 1 else "replay"), rule, list(commits)))


def tokens(text):
    return {"tokens.json": text}


def of(kind, value):
    """A file with one token of a type."""
    return tokens('{"t":{"$type":"%s","$value":%s}}' % (kind, value))


def with_config(config, text='{"a":{"$type":"dimension","$value":{"value":1.5,"unit":"rem"}},"b":{"$value":"{a}"}}'):
    return {"tokens.json": text, "tokc.toml": config}


def resolver(order, **members):
    """A resolver document with an order, and other members as texts."""
    others = "".join(f',"{name}":{text}' for name, text in members.items())
    return "{%s%s,\"resolutionOrder\":[%s]}" % (VERSION, others, order)


def plan(order, **members):
    return {"resolver.json": resolver(order, **members)}


def of_set(*sources):
    """An order of one set, given its sources as texts."""
    return '{"type":"set","name":"all","sources":[%s]}' % ",".join(sources)


def file(name):
    return '{"$ref":"%s"}' % name


def number_tokens(**values):
    return "{%s}" % ",".join('"%s":{"$type":"number","$value":%s}' % it for it in values.items())


# Configurations and JSON texts.

for config in ("=", "prefix = 'a", "rem_base = 016\n", "[a\n"):
    breaks("config-toml", with_config(config))
for config in (
    "colour = 1\n",
    'prefix = "1"\n',
    "prefix = true\n",
    "rem_base = 0\n",
    "rem_base = 101\n",
    "rem_base = 16.0\n",
    "references = 1\n",
    "[prefix]\n",
):
    breaks("config-key", with_config(config))
breaks("config-key", {"resolver.json": "[]", "tokc.toml": "x = 1\n"})
for text in (
    "",
    "{} x",
    "{",
    '{"a" 1}',
    "[1,]",
    '"\\udc00"',
    '{"a":"\\ud800x"}',
    "\ufeff{}",
    "01",
    '{"a":1.}',
    "tru",
    '"\t"',
    "\u00e9",
):
    breaks("json-syntax", tokens(text))
breaks("json-syntax", {"resolver.json": '{"version":"2025.10",'})
breaks("json-syntax", {**plan(of_set(file("a.json"), file("b/c.json"))), "a.json": "{}", "b/c.json": '{\n  "x": {},\n  y\n}\n'})
breaks("json-duplicate", tokens('{"a":1,"a":2}'))
breaks("json-duplicate", tokens('{"a":{"$value":{"\\u0061":1,\n"a":2}}}'))
breaks("json-duplicate", plan("", sets='{"a":{"sources":[]},"a":1}'))
breaks("json-depth", tokens('{"a":' + "[" * 64 + "]" * 64 + "}"))
shows("sixty-four open brackets", tokens('{"a":{"$type":"number","$value":1,"$extensions":{"x":' + "[" * 61 + "]" * 61 + "}}}"))

# Resolver documents.

for text in ("[]", "null", "{}", '{"version":"2025.1","resolutionOrder":[]}', '{"resolutionOrder":[],"version":1}'):
    breaks("plan-version", {"resolver.json": text})
for order, members in (
    ("1", {}),
    ('{"type":"set","name":"s"}', {}),
    ('{"type":"group","name":"s","sources":[]}', {}),
    ('{"name":"s","sources":[]}', {}),
    ('{"$ref":1}', {}),
    ('{"$ref":"#/sets/a","name":"x"}', {"sets": '{"a":{"sources":[]}}'}),
    ("", {"sets": "[]"}),
    ("", {"sets": '{"a":{"sources":[7]}}'}),
    ("", {"name": "1"}),
    ("", {"description": "null"}),
    ("", {"modifiers": '{"m":{"contexts":{"c":{}}}}'}),
    ("", {"modifiers": '{"m":{}}'}),
):
    breaks("plan-shape", plan(order, **members))
breaks("plan-shape", {"resolver.json": '{"version":"2025.10"}'})
breaks("plan-contexts", plan("", modifiers='{"m":{"contexts":{"$x":[]}}}'))
breaks("plan-default", plan("", modifiers='{"m":{"contexts":{"a":[],"$b":[]},"default":"$b"}}'))
for order, members in (
    ('{"$ref":"#/sets/b"}', {"sets": '{"a":{"sources":[]}}'}),
    ('{"$ref":"#/modifiers/a"}', {"sets": '{"a":{"sources":[]}}'}),
    ('{"$ref":"a.json"}', {}),
    (of_set(file("../a.json")), {}),
    (of_set(file("#/sets/none")), {}),
    (of_set(file("a b.json")), {}),
    (of_set(file("http://a.json/x")), {}),
    (of_set(file("a.json#/a")), {}),
):
    breaks("plan-reference", plan(order, **members))
breaks(
    "plan-modifier-in-set",
    plan("", sets='{"s":{"sources":[{"$ref":"#/modifiers/m"}]}}', modifiers='{"m":{"contexts":{"c":[]}}}'),
)
breaks("plan-duplicate", plan(of_set() + "," + of_set()))
breaks(
    "plan-duplicate",
    plan('{"$ref":"#/sets/a"},{"type":"modifier","name":"a","contexts":{"c":[]}}', sets='{"a":{"sources":[]}}'),
)
breaks(
    "plan-cycle",
    plan(
        "",
        sets=(
            '{"a":{"sources":[{"$ref":"#/sets/b"}]},"b":{"sources":[{},{"$ref":"#/sets/c~1d"}]},'
            '"c/d":{"sources":[{"$ref":"#/sets/a"}]}}'
        ),
    ),
)
breaks("plan-cycle", plan("", sets='{"a":{"sources":[]},"~":{"sources":[{"$ref":"#/sets/a"},{"$ref":"#/sets/~0"}]}}'))


def doubling_sets(count):
    """Sets of which each names the one before twice."""
    members = ['"s0":{"sources":[{},{}]}']
    members += [f'"s{i}":{{"sources":[{{"$ref":"#/sets/s{i - 1}"}},{{"$ref":"#/sets/s{i - 1}"}}]}}' for i in range(1, count)]
    return "{" + ",".join(members) + "}"


breaks("plan-sources", plan('{"$ref":"#/sets/s10"}', sets=doubling_sets(11)))
shows("a thousand and twenty-four sources", plan('{"$ref":"#/sets/s9"}', sets=doubling_sets(10)))
breaks("plan-permutations", plan('{"type":"modifier","name":"m","contexts":{%s}}' % ",".join(f'"c{i}":[]' for i in range(65))))
breaks(
    "plan-permutations",
    plan(",".join(f'{{"type":"modifier","name":"m{i}","contexts":{{"a":[],"b":[]}}}}' for i in range(20))),
)

# Sources, and the shapes of files.

breaks("file-missing", {}, word="build")
breaks("file-missing", {}, tokens("{}"), {"tokens.json": None})
breaks("file-missing", plan(of_set(file("././a/b.json"))))
breaks(
    "file-missing",
    {
        **plan(
            (
                '{"$ref":"#/sets/s"},{"type":"modifier","name":"m","contexts":{"a":[{"$ref":"here.json"}],'
                '"b":[{"$ref":"gone.json"}]}}'
            ),
            sets='{"s":{"sources":[{}]}}',
        ),
        "here.json": "{}",
    },
)
for rule, text in (
    ("shape-root", "[]"),
    ("shape-root", ' {"$value":1,"a":1}'),
    ("shape-name", '{"a.b":{}}'),
    ("shape-name", '{"g":{"":1}}'),
    ("shape-name", '{"g":{"\\u007b\u00e9":1}}'),
    ("shape-member", '{"a":null}'),
    ("shape-member", '{\n"a":{\n"b":[]}}'),
    ("shape-property", '{"$type":"string"}'),
    ("shape-property", '{"$deprecated":1}'),
    ("shape-property", '{"$extends":"{a.$root}"}'),
    ("shape-property", '{"a":{"$ref":"#/b","$value":1}}'),
    ("shape-property", '{"a":{"$value":1,"$extensions":[]}}'),
    ("shape-property", '{"a":{"$value":1,"$description":{}}}'),
    ("shape-token-child", '{"a":{"$value":1,"b":1}}'),
    ("shape-root-token", '{"$root":{}}'),
    ("shape-root-token", '{"g":{"$root":1}}'),
):
    breaks(rule, tokens(text))
breaks("shape-name", plan(of_set('{"a":{"b{":1}}')))
breaks("shape-token-child", {**plan('{"type":"modifier","name":"m","contexts":{"a":[],"b":[{"a":{"$ref":"#/b","c":1}}]}}')})

# Groups that extend others.

breaks("extends-target", tokens('{"b":{"$extends":"{zz}"},"a":{"$extends":"{t}"},"t":{"$value":1}}'))
breaks(
    "extends-target",
    {
        **plan(of_set(file("a.json"), file("b.json"))),
        "a.json": '{"g":{"$extends":"{h}"}}',
        "b.json": '{"g":{"$extends":"#/i/j"},"h":{}}',
    },
)
breaks("extends-cycle", tokens('{"$extends":"#"}'))
breaks("extends-cycle", tokens('{"a":{"b":{"$extends":"{a}"}}}'))
breaks("extends-cycle", tokens('{"a~/":{"$extends":"#/b"},"b":{"$extends":"#/c"},"c":{"$extends":"#/a~0~1"}}'))


def extending(count, children):
    """Groups with a child for each name, that extends the group before."""
    members = ['"g0":{"t":{"$type":"number","$value":1}}']
    members += ['"g%d":{%s}' % (i, ",".join(f'"{it}":{{"$extends":"{{g{i - 1}}}"}}' for it in children)) for i in range(1, count)]
    return "{" + ",".join(members) + "}"


breaks("extends-count", tokens(extending(13, "ab")))
breaks("extends-count", {**plan(of_set("{}", file("a.json"))), "a.json": extending(25, "ab")})
breaks("extends-height", tokens(extending(64, "a")))
shows(
    "groups that extend and are deprecated",
    tokens(
        (
            '{"base":{"$type":"dimension","$deprecated":true,"$root":{"$value":%s},"in":{"x":{"$value":%s},'
            '"y":{"$deprecated":false,"$value":%s}}},"mid":{"$extends":"{base}","in":{"x":{"$value":%s,'
            '"$deprecated":"Take y."}}},"top":{"$extends":"#/mid","$deprecated":"why \\"so\\""}}'
        ) % (ONE, PX % 2, PX % 3, PX % 5),
    ),
)
shows(
    "what is local stands over what is inherited",
    tokens(
        (
            '{"base":{"$type":"number","a":{"$value":1},"g":{"x":{"$value":2}},"t":{"$value":3}},"one":{"$extends":"{base}",'
            '"a":{"x":{"$value":4}},"g":{"$value":5}}}'
        ),
    ),
)

# References.

for value in ('"{}"', '"{a..b}"', '{"$ref":"#/a/$root/b"}', '{"$ref":"#/a~2"}', '{"$ref":7}', '{"$ref":"#/a","x":1}'):
    breaks("alias-syntax", of("number", value))
breaks("alias-syntax", tokens('{"a":{"$type":"number","$ref":"{b}"}}'))
for value in (
    '"{zz}"',
    '{"$ref":"#/o/$value/l/01"}',
    '{"$ref":"#/o/$value/l/1"}',
    '{"$ref":"#/o/$value/x"}',
    '{"$ref":"#/o/$value/l/0/y"}',
):
    breaks("alias-target", tokens('{"k":{"$type":"number","$value":%s},"o":{"$type":"number","$value":{"l":[1]}}}' % value))
breaks(
    "alias-target",
    {**plan(of_set(file("a.json"), file("x.json"))), "a.json": '{"a":{"$type":"dimension","$value":"{x}"}}', "x.json": "{}"},
    {"x.json": '{"x":{"$type":"dimension","$value":%s}}' % ONE},
    {"x.json": "{}"},
)
breaks("alias-cycle", tokens('{"a":{"$value":"{b}"},"b":{"$value":"{c}"},"c":{"$value":"{a}"}}'))
breaks(
    "alias-cycle",
    of("shadow", '{"color":%s,"offsetX":%s,"offsetY":{"$ref":"#/t/$value"},"blur":%s,"spread":%s}' % (BLACK, ONE, ONE, ONE)),
)
breaks("alias-cycle", tokens('{"a":{"$value":"{b}"},"b":{"$value":"{a}"},"c":{"$value":{"$ref":"#/a/$value/x"}}}'))


def chain(count):
    members = [f'"{i}":{{"$value":"{{{i + 1}}}"}}' for i in range(count)]
    return "{" + ",".join(['"$type":"number"', *members, f'"{count}":{{"$value":1}}']) + "}"


breaks("alias-depth", tokens(chain(256)))
breaks("alias-size", of("fontFamily", "[" + ",".join(['"x"'] * 1_024) + "]"))
breaks("type-missing", tokens('{"a":{"$value":1}}'))
breaks(
    "type-missing",
    tokens('{"$description":"x","a":{"$value":{"$ref":"#/b/$value/x"}},"b":{"$type":"number","$value":{"x":1}}}'),
)

# Values.

for kind, values in {
    "number": ["1e30", "1e-31", "1234567890123456789012345678901"],
    "dimension": [PX % "1e30"],
    "gradient": ['[{"color":%s,"position":1e-31}]' % BLACK],
}.items():
    for value in values:
        breaks("number-wide", of(kind, value))
for kind, values in {
    "dimension": ["1", "[]", "{}", '{"value":"1","unit":"px"}', '{"value":1}', '{"value":1,"unit":null}'],
    "color": [
        '"#336699"',
        '{"colorSpace":"srgb","components":[0,0]}',
        '{"colorSpace":"srgb","components":[0,0,"None"]}',
        '{"colorSpace":"srgb","components":[0,0,0],"alpha":"1"}',
    ],
    "cubicBezier": ["[0,0,1]", '[0,"0",1,1]'],
    "fontFamily": ["[]", "[1]", "7"],
    "fontWeight": ["true"],
    "strokeStyle": ['{"dashArray":{},"lineCap":"round"}', "{}"],
    "border": ["{}", '{"color":%s,"width":%s}' % (BLACK, ONE)],
    "transition": ['{"duration":{"value":1,"unit":"ms"},"delay":0,"timingFunction":[0,0,1,1]}'],
    "shadow": [
        "[]",
        '[{"color":%s,"offsetX":%s,"offsetY":%s,"blur":%s,"spread":%s,"inset":"no"}]' % (BLACK, ONE, ONE, ONE, ONE),
        '{"0":1,"color":1}',
    ],
    "gradient": ["[]", '[{"color":%s}]' % BLACK, "[1]"],
    "typography": ['{"fontFamily":"x","fontSize":%s,"fontWeight":400,"letterSpacing":%s}' % (ONE, ONE)],
}.items():
    for value in values:
        breaks("value-shape", of(kind, value))
breaks("dimension-unit", of("dimension", '{"value":4,"unit":"em"}'), of("dimension", '  {"value":4,"unit":"em"}'))
breaks("dimension-unit", of("border", '{"color":%s,"width":{"value":1,"unit":"PX"},"style":"solid"}' % BLACK))
breaks("duration-unit", of("duration", '{"value":1,"unit":"min"}'))
breaks("bezier-range", of("cubicBezier", "[0,7,1.01,-7]"))
for value in ("0", "1000.5", "-400"):
    breaks("weight-range", of("fontWeight", value))
breaks("weight-word", of("fontWeight", '"Bold"'))
breaks("color-space", of("color", '{"colorSpace":"sRGB","components":[0,0,0]}'))
for space, components in (
    ("srgb", "0,0,1.1"),
    ("hsl", "361,0,0"),
    ("hwb", "0,101,0"),
    ("lab", "101,0,0"),
    ("lch", "0,-1,0"),
    ("oklab", "1.1,0,0"),
    ("oklch", "0,0,360.5"),
    ("rec2020", "-0.1,2,0"),
):
    breaks("color-range", of("color", '{"colorSpace":"%s","components":[%s]}' % (space, components)))
breaks("color-alpha", of("color", '{"colorSpace":"srgb","components":[0,0,0],"alpha":1.5}'))
for text in ("#12345", "336699", "#33669g", "#33669900"):
    breaks("color-hex", of("color", '{"colorSpace":"srgb","components":[0,0,0],"hex":"%s"}' % text))
breaks("stroke-word", of("strokeStyle", '"none"'))
breaks("stroke-cap", of("strokeStyle", '{"dashArray":[%s],"lineCap":"flat"}' % ONE))
breaks("name-clash", tokens('{"a":{"b-c":{"$type":"number","$value":1}},"a-b":{"c":{"$type":"number","$value":2}}}'))
breaks("name-clash", tokens(number_tokens(**{"a-b": "1", "a_b": "2"})))
breaks(
    "name-clash",
    tokens('{"a-b":{"$type":"cubicBezier","$value":[0,0,1,1]},"a_b":{"$type":"cubicBezier","$value":[0,0,1,1]}}'),
)
breaks(
    "name-clash",
    tokens(
        (
            '{"a":{"$type":"typography","$value":{"fontFamily":"x","fontSize":%s,"fontWeight":400,"letterSpacing":%s,'
            '"lineHeight":1}},"a-line-height":{"$type":"number","$value":1}}'
        ) % (ONE, ONE),
    ),
)
breaks(
    "name-clash",
    {
        **plan(of_set(file("a.json"), file("b.json"))),
        "a.json": number_tokens(**{"x y": "1"}),
        "b.json": number_tokens(**{"x!y": "1"}),
    },
)

# What outputs hold.

shows("the first example", tokens('{"space":{"$type":"dimension","s":{"$value":{"value":4,"unit":"px"}}}}'))
shows("an empty file", tokens("{}"))
shows("no commit at all", word="replay")
shows("no commit at all, built", word="build")
shows(
    "numbers as they are",
    tokens(number_tokens(
        a="0.300000000000000041",
        b="1e-7",
        c="-0",
        d="1e29",
        e="-123456789012345678901234567890",
        f="0.000000000000000000000000000001",
        g="1.50",
        h="12E+1",
        i="0e99",
    )),
)
LENGTHS = [("a", 1.5, "rem"), ("b", -0.25, "px"), ("c", 0, "rem"), ("d", 1e-7, "rem")]
TIMES = [("a", 1.5, "s"), ("b", 0.5, "ms"), ("c", 2147483647, "ms"), ("d", 2147483648, "ms"), ("e", -2147483.648, "s"), ("f", 0.0001, "s")]
COLORS = [
    ("srgb", [0.6823529411764706, 0.001960784, 1], {}),
    ("srgb-linear", [0, 0.5, "none"], {"alpha": 0.5}),
    ("display-p3", [0.1, 0.2, 0.3], {"alpha": 0.25}),
    ("a98-rgb", [0, 0, 0], {"hex": "#ABCDEF"}),
    ("prophoto-rgb", [1, 1, 1], {"alpha": 0, "hex": "#012345"}),
    ("rec2020", [0.5, 0.5, 0.5], {}),
    ("xyz-d65", [-1, 2.5, 100], {}),
    ("xyz-d50", ["none", "none", "none"], {"alpha": 1}),
    ("hsl", [360, 100, 50], {}),
    ("hwb", [0, "none", 0.5], {"alpha": 0.999}),
    ("lab", [29.2, -39.5, 20], {}),
    ("lch", [52.2, 72.2, 50], {"hex": "#7f7f80", "alpha": 0.002}),
    ("oklab", [0.4, 0.1, -0.2], {}),
    ("oklch", [0.7, 0.1, "none"], {"alpha": 0.5, "hex": "#3366cc"}),
]


def sizes(kind, found):
    """A group of a type, of names with a number and a unit."""
    return {"$type": kind, **{name: {"$value": {"value": value, "unit": unit}} for name, value, unit in found}}


shows("lengths and times", tokens(json.dumps({"d": sizes("dimension", LENGTHS), "t": sizes("duration", TIMES)})))
shows(
    "colours of each space",
    tokens(json.dumps({
        "$type": "color",
        **{space: {"$value": {"colorSpace": space, "components": three, **more}} for space, three, more in COLORS},
    })),
)
shows(
    "a colour with a component that is none",
    tokens(
        (
            '{"a":{"$type":"color","$value":{"colorSpace":"srgb","components":[0,"none",0]}},"b":{"$type":"color",'
            '"$value":{"colorSpace":"display-p3","components":["none",0,0],"hex":"#fedcba"}}}'
        ),
    ),
)
shows(
    "families",
    tokens(json.dumps({
        "$type": "fontFamily",
        "a": {"$value": ["Inter", "sans-serif"]},
        "b": {"$value": "serif"},
        "c": {"$value": ['q"u\\o', "A  B"]},
        "d": {"$value": "a\u0001"},
        "e": {"$value": ["ok", "bad\u007f"]},
        "f": {"$value": "Größe"},
        "g": {"$value": ""},
        "h": {"$value": "x\ufffe"},
        "i": {"$value": "A_b.c-1 D"},
    })),
)
shows(
    "weights and curves",
    tokens(json.dumps({
        "w": {
            "$type": "fontWeight",
            **{it: {"$value": it} for it in ("thin", "book", "demi-bold", "extra-black")},
            "n": {"$value": 350.5},
            "m": {"$value": 1000},
        },
        "c": {"$type": "cubicBezier", "$value": [0, -1.5, 1, 100]},
    })),
)
shows(
    "strokes and borders",
    tokens(
        (
            '{"s":{"$type":"strokeStyle","a":{"$value":"inset"},"b":{"$value":{"dashArray":[%s],"lineCap":"butt"}}},'
            '"d":{"$type":"border","$value":{"color":%s,"width":"{w}","style":"{s.b}"}},"e":{"$type":"border",'
            '"$value":{"color":%s,"width":"{w}","style":"{s.a}"}},"w":{"$type":"dimension","$value":%s}}'
        ) % (ONE, BLACK, BLACK, ONE),
    ),
)
shows(
    "shadows, one and several",
    tokens(
        (
            '{"s":{"$type":"shadow","$value":{"color":%s,"offsetX":%s,"offsetY":{"$ref":"#/s/$value/offsetX"},"blur":%s,'
            '"spread":%s}},"t":{"$type":"shadow","$value":[{"color":"{c}","offsetX":%s,"offsetY":%s,"blur":%s,"spread":%s,'
            '"inset":true},{"color":"{c}","offsetX":%s,"offsetY":%s,"blur":%s,"spread":%s,"inset":false}]},"c":{"$type":"color",'
            '"$value":%s},"u":{"$value":"{t}"}}'
        ) % (BLACK, *[PX % i for i in range(11)], BLACK),
    ),
)
shows(
    "gradients",
    tokens(
        (
            '{"g":{"$type":"gradient","$value":[{"color":"{c}","position":-1},{"color":%s,"position":0.333},{"color":"{c}",'
            '"position":1.5}]},"c":{"$type":"color","$value":%s}}'
        ) % (BLACK, BLACK),
    ),
)
shows(
    "a part of a part",
    tokens(
        (
            '{"b":{"$type":"border","$value":{"color":"{c}","width":%s,"style":"solid"}},"c":{"$type":"color",'
            '"$value":{"colorSpace":"srgb","components":[0.2,0.4,0.6]}},"g":{"$type":"number",'
            '"$value":{"$ref":"#/b/$value/color/components/1"}}}'
        ) % ONE,
    ),
)
shows(
    "typography and its links",
    tokens(
        (
            '{"fs":{"$type":"dimension","$value":{"value":1.5,"unit":"rem"}},"h":{"$type":"typography",'
            '"$value":{"fontFamily":["Inter","sans-serif"],"fontSize":"{fs}","fontWeight":"bold","letterSpacing":%s,'
            '"lineHeight":1.2}},"u":{"$value":"{h}"},"v":{"$type":"typography","$value":{"fontFamily":"\\u0007",'
            '"fontSize":"{fs}","fontWeight":450.5,"letterSpacing":"{fs}","lineHeight":2}},"w":{"$type":"typography",'
            '"$value":{"fontFamily":"ok","fontSize":"{fs}","fontWeight":450.5,"letterSpacing":"{fs}",'
            '"lineHeight":{"$ref":"#/v/$value/lineHeight"}}}}'
        ) % PX % 0,
    ),
)
shows(
    "names",
    tokens(json.dumps(
        {
            "$type": "number",
            **{name: {"$value": i} for i, name in enumerate(["größe", "2 xl", "😀", "$x"[1:], "~/", "\u0001", 'q"\\', "A", "_", "-"])},
            "color": {"accent": {"$root": {"$value": 7}, "\u00df": {"$value": "{größe}"}}},
            "$root": {"$value": 8},
        },
        ensure_ascii=False,
    )),
)
shows(
    "descriptions, extensions and marks",
    tokens(
        (
            '{"a":{"$type":"number","$value":1,"$description":"x\\u0000\\"\\n\\ud83d\\ude00","$extensions":{"k": [ 1 , {} ]\n},'
            '"$foo":2,"$deprecated":""},"b":{"$deprecated":"old","$ref":"#/a"},"g":{"$deprecated":true,"c":{"$type":"number",'
            '"$value":1},"d":{"$deprecated":false,"$type":"number","$value":1}}}'
        ),
    ),
)
shows(
    "a type from the target, the group or the token",
    tokens(
        (
            '{"$type":"dimension","a":{"$value":"{b}"},"b":{"$type":"number","$value":2},"c":{"$value":%s},"d":{"$type":"number",'
            '"$value":{"$ref":"#/c/$value/value"}}}'
        ) % ONE,
    ),
)
shows(
    "members that are passed over",
    tokens('{"$foo":{"a":1},"$description":"x","a":{"$type":"number","$value":1,"$extends":7,"$root":8,"$x":{"":1}}}'),
)
shows("a prefix, a base and no references", with_config('prefix = "ds"\nrem_base = 10\nreferences = false\n'))
shows(
    "a configuration that comes and goes",
    with_config("# nothing\n"),
    {"tokc.toml": 'prefix = "Ab9"\n'},
    {"tokc.toml": "references = false\n"},
    {"tokc.toml": "x = 1\n"},
    {"tokc.toml": None},
)
shows("a base at its bounds", with_config("rem_base = 1\n"), {"tokc.toml": "rem_base = 100\n"})

THEMES = resolver(
    '{"$ref":"#/sets/core"},{"$ref":"#/modifiers/theme"},{"$ref":"#/modifiers/density"}',
    sets='{"core":{"sources":[{"$ref":"core.json"}]}}',
    modifiers=(
        '{"theme":{"contexts":{"light":[{"$ref":"light.json"}],"dark":[{"$ref":"dark.json"}]},"default":"light"},'
        '"density":{"contexts":{"cozy":[{"$ref":"cozy.json"}],"compact":[{"$ref":"compact.json"}]}}}'
    ),
)
INK = '{"color":{"ink":{"$value":{"colorSpace":"srgb","components":[%s]}}}}'
THEME_FILES = {
    "resolver.json": THEMES,
    "core.json": (
        '{"color":{"$type":"color","ink":{"$value":%s},"text":{"$value":"{color.ink}"}},"gap":{"$type":"dimension","$value":%s}}'
    ) % (BLACK, PX % 8),
    "light.json": "{}",
    "dark.json": INK % "1,1,1",
    "cozy.json": "{}",
    "compact.json": '{"gap":{"$type":"dimension","$value":%s}}' % (PX % 4),
}
shows("two themes and two densities", THEME_FILES, {"dark.json": INK % "0.5,0.5,0.5"})
shows(
    "themes of which one is refused for a while",
    THEME_FILES,
    {"dark.json": INK % "2,1,1"},
    {"dark.json": INK % "1,1,1", "tokc.toml": 'prefix = "p"\n'},
)
shows("a resolver that goes", THEME_FILES, {"resolver.json": None}, {"tokens.json": "{}"}, {"resolver.json": THEMES})
shows(
    "a context's name that is spelled out",
    plan(
        (
            '{"type":"modifier","name":"Größe +","contexts":{"a/b":[{"x":{"$type":"number","$value":1}}],"100%":[],'
            '"\\u0000":[{"y":{"$type":"number","$value":2}}]}}'
        ),
    ),
)
shows(
    "empty names of modifiers and sets",
    plan(
        '{"type":"modifier","name":"","contexts":{"":[{"$ref":"#/sets/"}]}}',
        sets='{"":{"sources":[{"x":{"$type":"number","$value":1}}]}}',
    ),
)
shows("an order with nothing in it", plan(""))
shows(
    "later sources stand over earlier ones",
    {
        **plan(of_set(file("a.json"), '{"g":{"$type":"number","x":{"$value":3},"z":{"w":{"$value":1}}}}', file("./a.json"))),
        "a.json": '{"g":{"$type":"dimension","x":{"$value":%s},"y":{"$value":%s},"z":{"$value":%s}}}' % (ONE, ONE, ONE),
    },
)
shows(
    "a type and a mark from a later source",
    {
        **plan(of_set(file("a.json"), file("b.json"))),
        "a.json": '{"g":{"$type":"number","x":{"$value":1},"h":{"y":{"$value":2}}}}',
        "b.json": '{"g":{"$type":"fontWeight","$deprecated":"soon","h":{"$deprecated":false}}}',
    },
)
shows(
    "sets in sets, and a file that several sources name",
    {
        **plan(
            '{"$ref":"#/sets/b"},{"$ref":"#/sets/a"}',
            sets=(
                '{"a":{"sources":[{"$ref":"t.json"}]},"b":{"sources":[{"$ref":"#/sets/a"},{"t":{"$type":"number","$value":2}},'
                '{"$ref":"#/sets/a"}]}}'
            ),
        ),
        "t.json": number_tokens(t="1"),
    },
)
shows(
    "an inline source that moves",
    plan(of_set('{"a":{"$type":"number","$value":1}}')),
    {"resolver.json": "\n " + resolver(of_set('{"a":{"$type":"number","$value":1}}'))},
)
breaks(
    "dimension-unit",
    plan(of_set('{"a":{"$type":"dimension","$value":{"value":4,"unit":"em"}}}')),
    {"resolver.json": "\n " + resolver(of_set('{"a":{"$type":"dimension","$value":{"value":4,"unit":"em"}}}'))},
)
shows(
    "equal puts",
    tokens(number_tokens(a="1")),
    tokens(number_tokens(a="1")),
    {},
    tokens(number_tokens(a="1.0")),
    {"other.json": "{}"},
)
shows(
    "tokens that come and go",
    tokens(number_tokens(a="1", b="2")),
    tokens(number_tokens(b="2")),
    {"tokens.json": None},
    tokens(number_tokens(b="2", c="3")),
)
