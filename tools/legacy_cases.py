"""Lengths, times and colours that are written as texts, under `legacy = true`: texts of each type as a whole value and as a part,
those that are read and those that break a rule; values of the other types with such parts, each part in turn; and the key itself.
"""
import json

from script_cases import Case, resolver

LEGACY = {"tokc.toml": "legacy = true\n"}

# What is read, by type.
READ = {
    "dimension": """
16px
1.5rem
0px
-0rem
-4px
0.5rem
1e2px
1E+2rem
1.50e-1px
100000000000000000000000000000e0px
0.000000000000000000000000000001rem
999999999999999999999999999999px
12.5px
""",
    "duration": """
200ms
0.2s
0s
-1ms
1e3ms
2.5E-1s
1.0s
2147483648ms
""",
    "color": """
#3366cc
#3366CC
#AbCdEf
#000000
#ffffff
#33669980
#00000000
#FFFFFFFF
#0000007f
#01010101
#fefefe01
#80808080
""",
}

# What is not, by type and by the rule that it breaks.
REFUSED = {
    "dimension": {
        "legacy-text": ["", "px", "16", "16em", "16PX", "16Px", "16pX", "1.5REM", " 16px", "16px ", "16 px", "16px;", "+16px", ".5px", "5.px", "016px", "1e px",
                        "1epx", "--1px", "0x10px", "NaNpx", "16pxpx", "16%", "16ms", "#000000", "{", "}", "16px}", "{16px", "calc(1px)", "1,5px", "\u0661px", "16p\u0445"],
        "number-wide": ["1e30px", "-1e30px", "1e-31rem", "1e99999999999999999999px", "1.0000000000000000000000000000001rem"],
    },
    "duration": {
        "legacy-text": ["", "s", "ms", "200", "200MS", "0.2S", "2m s", "200mss", "200m", "0.2 s", "0.2sec", "2min", "0.2s ", "1px"],
        "number-wide": ["1e30ms", "1e-31s"],
    },
    "color": {
        "legacy-text": ["", "#", "#333", "#3333", "#33333", "#3366c", "#3366cc0", "#3366cc001", "#3366cg", "3366cc", "#3366cc ", " #3366cc", "##3366cc", "#-13366", "#336\u043599",
                        "#+3366cc", "red", "transparent", "rgb(0,0,0)", "rgba(0,0,0,0.5)", "hsl(0 0% 0%)", "0x3366cc", "#3366cc8", "{"],
    },
}

WIDTH, COLOR, TIME = "2px", "#33669980", "200ms"
CURVE = [0.25, 0.1, 0.25, 1]
DASHES = {"dashArray": ["4px", "0.5rem"], "lineCap": "round"}
SHADOW = {"color": COLOR, "offsetX": "1px", "offsetY": "-2px", "blur": "0.5rem", "spread": "0px"}
STOP = {"color": COLOR, "position": 0.5}

# Values of which lengths, times and colours are parts.
WHOLE = {
    "strokeStyle": DASHES,
    "border": {"color": COLOR, "width": WIDTH, "style": DASHES},
    "transition": {"duration": TIME, "delay": "0s", "timingFunction": CURVE},
    "shadow": SHADOW,
    "gradient": [STOP, {"color": "#000000", "position": 1}],
    "typography": {"fontFamily": "Inter", "fontSize": "1rem", "fontWeight": 600, "letterSpacing": "0.1px", "lineHeight": 1.2},
}

# Where such parts stand: the type of the value, the steps to the part, and the type of the part.
PARTS = [
    ("strokeStyle", ("dashArray", 0), "dimension"),
    ("strokeStyle", ("dashArray", 1), "dimension"),
    ("border", ("color",), "color"),
    ("border", ("width",), "dimension"),
    ("border", ("style", "dashArray", 1), "dimension"),
    ("transition", ("duration",), "duration"),
    ("transition", ("delay",), "duration"),
    ("shadow", ("color",), "color"),
    ("shadow", ("offsetX",), "dimension"),
    ("shadow", ("offsetY",), "dimension"),
    ("shadow", ("blur",), "dimension"),
    ("shadow", ("spread",), "dimension"),
    ("gradient", (0, "color"), "color"),
    ("gradient", (1, "color"), "color"),
    ("typography", ("fontSize",), "dimension"),
    ("typography", ("letterSpacing",), "dimension"),
]

# A text of another form, and one whose number is too wide, where the type has numbers.
OTHER_FORM = {"dimension": "2em", "duration": "2min", "color": "#333"}
WIDE = {"dimension": "1e30px", "duration": "1e30ms"}
# The forms that are no texts, which are read as ever.
OBJECTS = {
    "dimension": {"value": 3, "unit": "px"},
    "duration": {"value": 3, "unit": "s"},
    "color": {"colorSpace": "hsl", "components": [210, "none", 40], "alpha": 0.25},
}


def file_of(members):
    return {"tokens.json": json.dumps(members, ensure_ascii=False)}


def token(kind, value):
    return {"$type": kind, "$value": value}


def texts(kind):
    return READ[kind].strip("\n").split("\n")


def with_part(value, steps, part):
    """The value with another part at the steps."""
    if not steps:
        return part
    copy = list(value) if isinstance(value, list) else dict(value)
    copy[steps[0]] = with_part(value[steps[0]], steps[1:], part)
    return copy


def read_texts(kind):
    """A script with all texts of a type that are read, as whole values and, but for one, as parts."""
    members = {f"v{i}": token(kind, text) for i, text in enumerate(texts(kind))}
    parts = {f"{at}{i}": token(whole, with_part(WHOLE[whole], steps, text))
             for at, (whole, steps, part) in enumerate(PARTS) if part == kind for i, text in enumerate(texts(kind)[:3])}
    return Case(f"texts that are a {kind}", "build", None, [{**LEGACY, **file_of({**members, "parts": parts})}])


def refused_texts(kind, rule):
    """A script that puts, one after another, the texts of a type that break a rule."""
    commits = [file_of({"t": token(kind, text)}) for text in REFUSED[kind][rule]]
    return Case(f"texts that are no {kind}: {rule}", "replay", rule, [{**LEGACY, **commits[0]}, *commits[1:]])


def unread_texts(kind):
    """The same texts, and those that are read, without the key, and with the key false."""
    found = [texts(kind)[0], *REFUSED[kind]["legacy-text"][:2]]
    commits = [file_of({"t": token(kind, text)}) for text in found]
    return Case(f"a {kind} as a text without the key", "replay", "value-shape", [*commits, {"tokc.toml": "legacy = false\n"}])


def of_part(name, whole, steps, part, rule, config):
    value = with_part(WHOLE[whole], steps, part)
    at = "/".join(map(str, steps))
    return Case(f"{name} at {whole} {at}", "build", rule, [{**config, **file_of({"t": token(whole, value)})}])


def broken_parts():
    """Each part in turn: of another form, too wide, and as a text without the key."""
    for whole, steps, kind in PARTS:
        yield of_part("another form", whole, steps, OTHER_FORM[kind], "legacy-text", LEGACY)
        if kind in WIDE:
            yield of_part("a wide number", whole, steps, WIDE[kind], "number-wide", LEGACY)
        yield of_part("a text without the key", whole, steps, texts(kind)[0], "value-shape", {})


def mixed_parts():
    """Each part in turn as an object, beside parts that are texts; and each as a reference to a token that is a text."""
    for whole, steps, kind in PARTS:
        yield of_part("an object", whole, steps, OBJECTS[kind], None, LEGACY)
    members = {"size": token("dimension", "12px"), "time": token("duration", "0.3s"), "ink": token("color", "#11223344")}
    names = {"dimension": "size", "duration": "time", "color": "ink"}
    for at, (whole, steps, kind) in enumerate(PARTS):
        members[f"r{at}"] = token(whole, with_part(WHOLE[whole], steps, "{%s}" % names[kind]))
    yield Case("references to texts as parts", "build", None, [{**LEGACY, **file_of(members)}])


def in_turn(kind, *values):
    """Tokens of a type that refer to the one before, the first of which has a value."""
    return {f"t{i}": token(kind, value) for i, value in enumerate(values)}


THEMES = resolver('{"type":"modifier","name":"theme","contexts":{"light":[{"$ref":"a.json"}],"dark":[{"$ref":"a.json"},{"c":{"$type":"color","$value":"#ffffff80"}}]}}')
SIZES = '{"a":{"$type":"dimension","$value":"16px"},"c":{"$type":"color","$value":"#33669980"},"d":{"$type":"duration","$value":"200ms"}}'
ROW = {"tokens.json": SIZES}

WHOLE_SCRIPTS = [
    Case("a length, a colour and a time", "build", None, [{**LEGACY, **ROW}]),
    Case("a text of another form", "build", "legacy-text", [{**LEGACY, "tokens.json": '{"a":{"$type":"dimension","$value":"16em"}}'}]),
    Case("the key comes, changes and goes", "replay", "value-shape", [ROW, LEGACY, {"tokc.toml": "legacy = false\n"}, LEGACY, {"tokc.toml": None}]),
    Case("the key of another form", "replay", "config-key", [{**ROW, "tokc.toml": text} for text in (
        "legacy = 1\n", 'legacy = "true"\n', "legacy = [true]\n", "legacy = {}\n", "legacy = 1.0\n", "legacy = 2026-01-01\n", "Legacy = true\n", "legacy.x = true\n", "[legacy]\n")]),
    Case("all keys", "build", None, [{**ROW, "tokc.toml": 'legacy = true\nprefix = "ds"\nrem_base = 10\nreferences = false\n'}]),
    Case("keys that are refused in byte order", "replay", "config-key", [{**ROW, "tokc.toml": text} for text in ("legacy = 0\nprefix = 1\n", "legacy = 0\nkey = 1\n", "references = 0\nlegacy = 0\n")]),
    Case("texts in themes", "build", None, [{**LEGACY, "resolver.json": THEMES, "a.json": SIZES}]),
    Case("an alias is no text", "replay", "alias-syntax", [{**LEGACY, **file_of({"t": token(kind, text)})} for kind in READ for text in ("{16px}{", "{}", "{#000000}", "{a.}")][:9]),
    Case("an alias that names no token", "build", "alias-target", [{**LEGACY, **file_of({"t": token("dimension", "{16px}")})}]),
    Case("a lone brace", "replay", "legacy-text", [{**LEGACY, **file_of({"t": token(kind, "{")})} for kind in READ]),
    Case("aliases of texts", "build", None, [{**LEGACY, **file_of(in_turn("dimension", "16px", "{t0}", "{t1}"))}]),
    Case("an alias whose target is of another form", "build", "legacy-text", [{**LEGACY, **file_of(in_turn("color", "{t1}", "#12"))}]),
    Case("a pointer to a part that is a text", "build", None, [{**LEGACY, "tokens.json": '{"b":{"$type":"border","$value":{"color":"#010203","width":"2px","style":"solid"}},"w":{"$type":"dimension","$ref":"#/b/$value/width"}}'}]),
    Case("a pointer into a text", "build", "alias-target", [{**LEGACY, "tokens.json": '{"a":{"$type":"dimension","$value":"16px"},"w":{"$type":"dimension","$ref":"#/a/$value/value"}}'}]),
    Case("other types have no texts of this form", "replay", "value-shape", [{**LEGACY, **file_of({"t": token(kind, value)})} for kind, value in (
        ("number", "16px"), ("number", "16"), ("cubicBezier", "16px"), ("border", "1px solid #000000"), ("shadow", "0 1px #000000"), ("gradient", "#000000"), ("typography", "16px"), ("transition", "200ms"))]),
    Case("words are words", "build", None, [{**LEGACY, **file_of({"w": token("fontWeight", "bold"), "f": token("fontFamily", ["16px", "#000000"]), "s": token("strokeStyle", "dashed")})}]),
    Case("a weight and a style of this form", "replay", "weight-word", [{**LEGACY, **file_of({"t": token("fontWeight", "16px")})}, file_of({"t": token("strokeStyle", "16px")})]),
    Case("numbers stay numbers", "replay", "value-shape", [{**LEGACY, **file_of({"t": token(kind, value)})} for kind, value in (
        ("dimension", 16), ("duration", 200), ("color", 0), ("dimension", None), ("color", True), ("dimension", ["16px"]), ("color", ["#000000"]))]),
    Case("numbers of objects are no texts", "replay", "value-shape", [{**LEGACY, **file_of({"t": token(kind, value)})} for kind, value in (
        ("dimension", {"value": "16px", "unit": "px"}), ("dimension", {"value": "16", "unit": "px"}), ("duration", {"value": "200ms", "unit": "ms"}),
        ("color", {"colorSpace": "srgb", "components": ["#33", 0, 0]}), ("color", {"colorSpace": "srgb", "components": "#000000"}))]),
    Case("a hex beside components has six digits", "build", "color-hex", [{**LEGACY, **file_of({"t": token("color", {"colorSpace": "srgb", "components": [0, 0, 0], "hex": "#33669980"})})}]),
    Case("parts that are no texts in typography", "replay", "value-shape", [{**LEGACY, **file_of({"t": token("typography", {**WHOLE["typography"], name: "1px"})})} for name in ("lineHeight",)]),
    Case("a list of shadows", "build", None, [{**LEGACY, **file_of({"t": token("shadow", [SHADOW, {**SHADOW, "inset": True, "color": "#fff00f"}])})}]),
    Case("a shadow's second item", "build", "legacy-text", [{**LEGACY, **file_of({"t": token("shadow", [SHADOW, {**SHADOW, "blur": "1"}])})}]),
    Case("the first part that is broken", "build", "legacy-text", [{**LEGACY, **file_of({"t": token("border", {"color": "#12", "width": "1e30px", "style": 7})})}]),
    Case("a wide number before a text of another form", "build", "number-wide", [{**LEGACY, **file_of({"t": token("border", {"color": "#121212", "width": "1e30px", "style": {"dashArray": ["1"], "lineCap": "x"}})})}]),
    Case("escapes in a text", "build", None, [{**LEGACY, "tokens.json": '{"a":{"$type":"dimension","$value":"1\\u0036p\\u0078"},"c":{"$type":"color","$value":"\\u0023336699"}}'}]),
]

CASES = [
    *map(read_texts, READ),
    *(refused_texts(kind, rule) for kind, rules in REFUSED.items() for rule in rules),
    *map(unread_texts, READ),
    *broken_parts(),
    *mixed_parts(),
    *WHOLE_SCRIPTS,
]
