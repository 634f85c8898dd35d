"""Files for what configurations, names and whole builds come to: tables of texts, most of which stand in a script one commit after another.

A table whose rows break one rule is a script of its own, so that it is known which rule has to be told.
"""
import json

from script_cases import ONE, PX, Case, chain, extending, file, number_tokens, of_set, plan, tokens, with_config

CASES = []


def shows(name, *commits):
    """A case of files that break no rule."""
    CASES.append(Case(name, "build" if len(commits) == 1 else "replay", None, list(commits)))


def breaks(rule, *commits):
    """A case of files some of which break the rule."""
    CASES.append(Case(f"built {rule} {len(CASES)}", "build" if len(commits) == 1 else "replay", rule, list(commits)))


def each(texts):
    """A commit for each text of the token file."""
    return [tokens(text) for text in texts]


def configured(first, *others):
    """A commit for each text of the configuration, beside tokens that show what it says."""
    return [with_config(first), *({"tokc.toml": text} for text in others)]


# Configurations. Neighbours say something else, so that each has records of its own.

LETTERS = "A1b2C3d4E5f6G7h8I9j0K1l2M3n4O5p6"
shows(
    "spellings of configurations",
    *configured(
        "prefix = 'a'",
        "",
        'prefix = "\\x64s"',
        "\n# only a remark\n",
        'prefix = """ds"""',
        'prefix = ""',
        f'prefix = "{LETTERS}"',
        "rem_base = 0x10",
        "rem_base = 1_0",
        "references = true",
        "\ufeffprefix = 'ds'",
    ),
)
breaks(
    "config-key",
    *configured(
        f'prefix = "{LETTERS}x"',
        'prefix = "a_b"',
        'prefix = "1a"',
        'prefix = "éa"',
        "prefix = 1",
        'prefix = "a-b"',
        "rem_base = -1",
        'prefix = "aé"',
        'rem_base = "16"',
        'prefix = "a b"',
        "[prefix]\na = 1\n",
        'prefix = ["a"]',
        "rem_base = 9223372036854775807",
        'prefix.a = "x"',
        "rem_base = 1979-05-27",
        'references = "true"',
        "[[rem_base]]\n",
        "references = { }",
    ),
)
# Among several keys that are refused the first by its bytes is told.
breaks(
    "config-key",
    *configured(
        'Prefix = "ds"',
        "prefix = '-'\ncolour = 1\n",
        "zoom = 1\nprefix = '-'\n",
        "rem_base = 0\nprefix = '-'\n",
        "references = 0\nrem_base = 0\n",
        "zeta = 1\nalpha = 2\n",
        '"" = 1',
        '"rem base" = 1',
        "[a.b]\nc = 1\n",
    ),
)
breaks(
    "config-toml",
    *configured(
        "rem_base = 9223372036854775808",
        "prefix = ",
        "prefix = 'a'\nprefix = 'b'\n",
        'prefix = "a',
        "é = 1",
        "a = 1 b = 2",
    ),
)
ALIASES = '{"a":{"$value":"{b}"},"b":{"$value":"{c}"},"c":{"$type":"dimension","$value":%s}}' % (PX % 4)
shows("references with and without a configuration", with_config("", ALIASES), {"tokc.toml": 'prefix = "ds"\nreferences = false\n'})
shows(
    "lengths in pixels, and a colour's bytes",
    with_config(
        "rem_base = 10",
        (
            '{"$type":"dimension","r":{"$value":{"value":1.5,"unit":"rem"}},"p":{"$value":%s},"c":{"$type":"color",'
            '"$value":{"colorSpace":"srgb","components":[0.2,0,1],"alpha":0.5}}}'
        ) % PX % 1.5,
    ),
)


# Names.


def numbers_at(paths):
    """A tree of numbers at paths whose names are joined by points."""
    tree = {"$type": "number"}
    for i, path in enumerate(paths):
        *groups, name = path.split(".")
        group = tree
        for it in groups:
            group = group.setdefault(it, {})
        group[name] = {"$value": i}
    return tokens(json.dumps(tree, ensure_ascii=False))


NAMES = [
    (
        "",
        (
            ["a", "a-b", "größe.2 xl", "2xl", "2.3", "_a", "é", "ÿ", "Ā", "€", "色.赤", "𝄞", "a😀b", "\U0010ffff", "\U000fffff", "\U00010000"]
            + ["\uffff", "\u0080", "50%", "a/b~c", '"x"', "Aa.Zz.09", "root", "roots.$root", "~", "font-size.lg", "٠", "ａ"]
        ),
    ),
    ("", ["a_b", "a.2", "a.root", "a.b.c.d.e.f", "-a", " ", "$root", "color.accent.$root", "color.accent.ß"]),
    ("", ["a b", "\u0001", 'q"\\', "A"]),
    ("", ["a\u007fb", "_", "größe", "2 xl"]),
    ("", ["a\tb", "-", "😀", "x"]),
    ("ds", ["a.$root", "$root", "2xl"]),
    ("x", ["größe"]),
    ("Ds2", ["color.text ink"]),
    ("p", ["-.-"]),
]
shows("names on each platform", *({**numbers_at(paths), "tokc.toml": f"prefix = '{prefix}'"} for prefix, paths in NAMES))
shows("a name that is referred to", tokens('{"größe":{"$root":{"$type":"number","$value":1}},"2 xl":{"$value":"{größe.$root}"}}'))

# Names in path order that are apart: some of them do not ascend. Then names that stand twice, as neighbours or not.

shows("names that are apart", *map(numbers_at, (["a", "a-b", "b"], ["x.a", "x.c", "x b", "x d"], ["a.b", "a.c", "a1.b"])))
breaks("name-clash", *map(numbers_at, (["x.a", "x.b", "x b"], ["x.a", "x.c", "x a", "x b"], ["x.b", "x a", "x c", "x-a"], ["a.b", "a1.b", "a1 b"])))
TEXT = (
    '{"$type":"typography","$value":{"fontFamily":"x","fontSize":%s,"fontWeight":%%s,"letterSpacing":%s,"lineHeight":1}}'
) % (ONE, ONE)
NUMBER = '{"$type":"number","$value":1}'
SEVERAL = '"t-b":' + TEXT % 400
shows("a typography's names and others", tokens('{"t":%s,"t-c":%s,%s}' % (TEXT % 400, NUMBER, SEVERAL)))
# Of a typography's names that stand twice the first is told, whichever token has it; then the last of them alone; then one that Swift alone has twice.
breaks(
    "name-clash",
    tokens('{"t":{"b-font-weight":%s},"t b-font-size":%s,%s}' % (NUMBER, NUMBER, SEVERAL)),
    tokens('{"t":{"b-line-height":%s,"b-line":%s},%s}' % (NUMBER, NUMBER, SEVERAL)),
    tokens('{"a":%s,"a_line_height":%s}' % (TEXT % 450.5, NUMBER)),
)

# Tokens that change, of which some stay as they are.

SPACE = '{"space":{%s"$type":"dimension",%s}}'
breaks(
    "alias-target",
    *each([
        SPACE % ('"$deprecated":"Use gap.",', '"s":{"$value":%s}' % (PX % 4)),
        SPACE % ("", '"t":{"$value":"{space.u}"}'),
        SPACE % ("", '"t":{"$value":{"value":4,"unit":"pt"}}'),
    ]),
)
shows(
    "changes of values, marks, types and names",
    *each([
        '{"a":{"$type":"number","x":{"$value":1},"y":{"$value":"{a.x}"},"z":{"$value":3}}}',
        '{"a":{"$type":"number","x":{"$value":2},"y":{"$value":"{a.x}"},"z":{"$value":3}}}',
        '{"a":{"$deprecated":true,"$type":"number","x":{"$value":2},"z":{"$value":3}}}',
        '{"a":{"$deprecated":true,"$type":"fontWeight","x":{"$value":2},"z":{"$value":3}}}',
        '{"a":{"$type":"fontWeight","w":{"$value":2},"z":{"$value":3,"$description":"e"}}}',
    ]),
)
MARKS = ("true", '"old"', '"older"', "false", '""')
shows("a group's mark that changes", *each('{"a":{"$deprecated":%s,"x":%s,"y":{"$ref":"#/a/x"}}}' % (it, NUMBER) for it in MARKS))

# Whole builds of one file.

shows(
    "dimensions, groups and extensions",
    *each([
        " { } ",
        '{"space":{"$type":"dimension","s":{"$value":{"value":1.50,"unit":"px"}}}}',
        '{"space":{"$type":"dimension"}}',
        (
            '{"b":{"s":{"$value":{"unit":"px","value":-0}},"$type":"dimension","a":{"$value":{"value":12e-1,"unit":"px"}}},'
            '"a":{"$type":"dimension","10":{"$value":{"value":-2.5,"unit":"px"}},"9":{"$value":{"value":1E3,"unit":"px"}}}}'
        ),
        (
            '\t{\r\n"\\u0061":{"$typ\\u0065" : "dim\\u0065nsion" , "b":{"$v\\u0061lue":{"\\u0075nit":"p\\u0078",'
            '"value":0.000000000000000000000000000001}} }\n}\n'
        ),
        '{"a":{"$type":"dimension","b":{"$value":%s}}}' % PX % "999999999999999999999999999999",
        '{"a":{"$type":"dimension","b":{"$value":%s},"aa":{"$value":%s}}}' % (PX % "0.5e1", PX % "100e-2"),
        '{"$type":"dimension","a":{"$value":%s},"b":{"$root":{"$value":%s},"c":{"d":{"$value":%s}}}}' % (ONE, PX % 2, PX % 3),
        (
            '{"$type":"color","a":{"$type":"dimension","$value":{"unit":"px","value":7}},"g":{"$type":"dimension",'
            '"h":{"t":{"$value":%s}},"$description":"x"}}'
        ) % (PX % 8),
        (
            '{"$type":"dimension","a":{"$extends":"{b.c}","x":{"$value":%s}},"b":{"c":{"y":{"$value":%s},"$extends":"#/z"}},'
            '"z":{"x":{"$value":%s},"w":{"v":{"$value":%s}}}}'
        ) % (ONE, PX % 2, PX % 3, PX % 4),
        '{"a":{},"b":{"$type":"gradient","$extends":"{a}"},"c":{"$extensions":{"k":[1]},"$deprecated":"old"}}',
        (
            '{"$type":"dimension","a":{"$extends":"{b}","t":{"u":{"$value":%s}}},"b":{"t":{"$value":%s},"s":{"$value":%s}}}'
        ) % (ONE, PX % 2, PX % 3),
        (
            '{"$type":"dimension","a":{"$extends":"{b}","t":{"$value":%s}},"b":{"t":{"u":{"$value":%s}},"s":{"$value":%s}}}'
        ) % (ONE, PX % 2, PX % 3),
    ]),
)
TYPOGRAPHY = (
    '{"fs":{"$type":"dimension","$value":{"value":1.5,"unit":"rem"}},"h":{"$type":"typography","$value":{"fontFamily":["Inter",'
    '"sans-serif"],"fontSize":"{fs}","fontWeight":"bold","letterSpacing":{"value":0,"unit":"px"},"lineHeight":1.2}}%s}'
)
shows(
    "values and references",
    *each([
        '{"$root":{"$type":"dimension","$value":%s}}' % ONE,
        '{"$type":"dimension","A":{"$value":%s}}' % ONE,
        '{"$type":"dimension","a-b":{"$value":%s}}' % ONE,
        '{"$type":"dimension","é":{"b":{"$value":%s}}}' % ONE,
        '{"$type":"dimension","a":{"$value":"{b}"},"b":{"$value":%s}}' % ONE,
        '{"$type":"dimension","a":{"$value":{"value":4,"unit":"rem"}}}',
        '{"$type":"dimension","a":{"$ref":"#/b"},"b":{"$value":%s}}' % ONE,
        '{"$type":"dimension","a":{"$value":{"value":4,"unit":"px","x":0}}}',
        (
            '{"s":{"$type":"shadow","$value":{"color":{"colorSpace":"srgb","components":[0,0,0],"alpha":0.5},"offsetX":%s,'
            '"offsetY":{"$ref":"#/s/$value/offsetX"},"blur":%s,"spread":%s}}}'
        ) % (PX % 2, PX % 4, PX % 0),
        '{"a":{"$type":"color","$value":{"colorSpace":"oklch","components":[0.7,0.1,"none"],"alpha":0.5}}}',
        TYPOGRAPHY % "",
        TYPOGRAPHY % ',"u":{"$value":"{h}"}',
        (
            '{"d":{"$type":"border","$value":{"color":{"colorSpace":"srgb","components":[0,0,0]},"width":%s,'
            '"style":{"dashArray":[],"lineCap":"round"}}}}'
        ) % ONE,
        (
            '{"ö":{"$type":"number","$value":1},"a b":{"$type":"duration","$value":{"value":1.5,"unit":"s"}},'
            '"1":{"$type":"fontWeight","$value":"bold"}}'
        ),
        '{"a":{"$type":"fontFamily","$value":["A\\u0001","serif"]},"b":{"$value":"{a}"}}',
        (
            '{"g":{"$type":"gradient","$value":[{"color":"{c}","position":-1},{"color":{"colorSpace":"hsl",'
            '"components":[120,50,"none"]},"position":"{p}"}]},"c":{"$type":"color","$value":{"colorSpace":"lab",'
            '"components":[50,-20,30]}},"p":{"$type":"number","$value":0.25}}'
        ),
        (
            '{"t":{"$type":"transition","$value":{"duration":{"value":100,"unit":"ms"},"delay":"{d}",'
            '"timingFunction":[0,0.5,1,2]}},"d":{"$type":"duration","$value":{"value":0,"unit":"ms"}}}'
        ),
    ]),
)
shows("a chain of the most places", tokens(chain(255)))

# Token files that break a rule, rule by rule.

REFUSED = {
    "json-syntax": ['{"é":x}', '\n\n{"a":1}\n\n,', '{"a":1\n'],
    "json-duplicate": ['{\n  "é": 1,\n  "日本": "😀", "\\u00e9": 2\n}', '{"é":{"a":{},"b":1,\r\n"a":[]}}'],
    "json-depth": ["[" * 65 + "]" * 65],
    "shape-root": ['{"$value":1}'],
    "shape-name": ['{"é":{},\n"":{"$value":1}}'],
    "shape-member": ['{"a":1}'],
    "shape-property": ['{"a":{"$type":"string"}}'],
    "shape-token-child": ['{"a":{"$value":1,"b":{}}}'],
    "extends-cycle": [
        '{"a":{"$extends":"{a}"}}',
        '{"a":{"$extends":"#"}}',
        '{"a":{"$extends":"{a.b}","b":{"$extends":"{a}"}}}',
        '{"a":{"$extends":"{b}"},\n"b":{"$extends":"#/c"},"c":{"$extends":"{a}"}}',
    ],
    "extends-target": [
        '{"b":{"$extends":"{x}"},"a":{"c":{"$extends":"#/b/y"}}}',
        '{"a":{"$extends":"{t}"},"t":{"$value":1}}',
        '{"a~/\\"b":{"$extends":"{b}"}}',
        '{"x":{"$extends":"{y}"},"y":{"$extends":"{x}"},"z":{"$extends":"{none}"}}',
    ],
    "type-missing": [
        '{"a":{"$value":%s}}' % ONE,
        '{"a":{"$value":"{c}"},"b":{"$type":"number","$value":"x"},"c":{"$value":1}}',
    ],
    "value-shape": [
        '{"a":{"$type":"color","b":{"$value":%s}}}' % ONE,
        '{"$type":"dimension","a":{"$type":"number","$value":%s}}' % ONE,
        '{"$type":"dimension","a":{"$value":{"value":"4","unit":"px"}}}',
        '{"a":{"$type":"dimension","$value":"{b"}}',
        '{"b":{"$type":"number","$value":"x"},"a":{"$type":"number","$value":"{b}"}}',
        '{"a":{"b-c":{"$type":"number","$value":1}},"a-b":{"c":{"$type":"number","$value":"x"}}}',
    ],
    "number-wide": [
        '{"$type":"dimension","a":{"$value":%s}}' % PX % "1e30",
        '{"$type":"number","a":{"$value":1e30}}',
        '{"$type":"number","a":{"$value":1e-31}}',
    ],
    "alias-syntax": ['{"a":{"$type":"number","$value":"{$x}"}}'],
    "alias-target": ['{"a":{"$type":"dimension","$value":"{x}"}}'],
    "alias-cycle": [
        '{"a":{"$value":"{a}"}}',
        # A token that has no break alone, walked from one that it names by steps.
        '{"q":{"$type":"cubicBezier","$value":[0.1,0.2,0.3,{"$ref":"#/u/$value/0"}]},"u":{"$value":"{q}"}}',
        (
            '{"s":{"$type":"shadow","$value":{"color":{"colorSpace":"srgb","components":[0,0,0],"alpha":0.5},"offsetX":%s,'
            '"offsetY":{"$ref":"#/s/$value"},"blur":%s,"spread":%s}}}'
        ) % (PX % 2, PX % 4, PX % 0),
    ],
    "color-range": ['{"a":{"$type":"color","$value":{"colorSpace":"srgb","components":[0,2,0]}}}'],
    "bezier-range": ['{"a":{"$type":"cubicBezier","$value":[2,0,0,0]}}'],
    "name-clash": ['{"a":%s}' % number_tokens(**{"x": 1, "x ": 2, "x-": 3})],
}
for rule, texts in REFUSED.items():
    breaks(rule, *each(texts))


def names(count):
    """Tokens of which the last names another so often, and with it a third."""
    return '{"a":{"$type":"fontFamily","$value":"x"},"b":{"$value":"{a}"},"c":{"$type":"fontFamily","$value":[%s]}}' % ",".join(['"{b}"'] * count)


# The list, and for each of its items three visits: 1,024 of them, and three more.
breaks("alias-size", tokens(names(341)), tokens(names(342)))

# Builds of several files.

breaks(
    "file-missing",
    {},
    {"other.json": "{"},
    tokens("{}"),
    {"resolver.json": "{"},
    {"resolver.json": None},
)
breaks(
    "file-missing",
    {**plan(of_set(file("a.json"), file("./x.json"))), "a.json": '{"a":{"$type":"dimension","$value":"{x}"}}'},
    {"x.json": "{}"},
    {"x.json": '{"x":{"$type":"dimension","$value":{"value":1,"unit":"rem"}}}'},
)
breaks("file-missing", plan(of_set(file("tokens.json"))))
breaks("file-missing", plan('{"type":"modifier","name":"m","contexts":{"x":[{"$ref":"x.json"}],"y":[]}}'))
shows(
    "the later source stands",
    {**plan(of_set(file("b.json"), file("a.json"))), "a.json": number_tokens(n=1), "b.json": number_tokens(n=2)},
    plan(of_set(file("b.json"), number_tokens(n=3))),
)
breaks("shape-name", plan(of_set('{"a.b":{}}')))
breaks("json-syntax", {**plan(of_set(file("b.json"))), "b.json": "{"}, {"b.json": '{"a":{},"a":{}}'})
breaks(
    "plan-cycle",
    {**plan("", sets='{"a":{"sources":[{"$ref":"#/sets/b"}]},"b":{"sources":[{"$ref":"#/sets/a"}]}}'), **tokens("{}")},
)
breaks("json-duplicate", {"resolver.json": '{"version":"1","version":"1"}'})
breaks(
    "extends-height",
    {**plan(of_set(file("first.json"), file("tokens.json"))), "first.json": "{}", **tokens(extending(64, "a"))},
    tokens(extending(63, "a")),
)
