"""How tokc-dir tells refusals, over a program that stands in for tokc."""
import json
import os
import sys
import unittest

from helpers import TOP, Room, refused, stream_of

sys.path.insert(0, os.path.join(TOP, "tools"))

from tokcdir import advice, refusal


def of(text, part):
    """The span of the one place of a part in a text."""
    assert text.count(part) == 1, (text, part)
    start = text.index(part)
    return start, start + len(part)


RING = ('token "a"', 'place "#/a/$value"', 'ring "#/a/$value"', 'ring "#/b/$value"')
WIDE = '{"größe 日本": {"$value": {"unit": "em"}}}'.encode()
LONG = b'{"a":"' + b"x" * 200 + b'", "b": 1, "c":"' + b"y" * 200 + b'"}'
ORDER = b'{\n  "resolutionOrder": [\n    {},\n    {}\n  ]\n}'

# The rule, the file, its text, the part of it that is the place (or a pair of offsets), further lines, and what is told.
CASES = [
    ("json-syntax", "tokens.json", b"", (0, 0), (), """
tokens/tokens.json:1:1: json-syntax: no JSON text goes on like this
  1 |
    | ^
help: write `{}` for a file without tokens: this one is empty
"""),
    ("json-syntax", "tokens.json", b'{"a": {}\n', (9, 9), (), """
tokens/tokens.json:2:1: json-syntax: no JSON text goes on like this
  2 |
    | ^
help: close what is open: `}` is missing at the end of the file
"""),
    ("json-syntax", "tokens.json", b"\xef\xbb\xbf{}", (0, 0), (), """
tokens/tokens.json:1:1: json-syntax: no JSON text goes on like this
  1 | <U+FEFF>{}
    | ^
help: save the file as UTF-8 without a byte-order mark
"""),
    ("json-duplicate", "deep/er.json", b'{\r\n\t"a": 1,\r\n\t"b": 2, "a": 3\r\n}', (22, 25), (), """
tokens/deep/er.json:3:10: json-duplicate: the object has an earlier member with this name
  3 | \t"b": 2, "a": 3
    | \t        ^^^
note: the earlier one is at tokens/deep/er.json:2:2
help: rename one of the two, or take one away
"""),
    ("dimension-unit", "tokens.json", WIDE, b'"em"', ('token "gr\u00f6\u00dfe \u65e5\u672c"', 'place "#/gr\u00f6\u00dfe \u65e5\u672c/$value/unit"'), """
tokens/tokens.json:1:34: dimension-unit: a dimension's unit is `px` or `rem`
  1 | {"größe 日本": {"$value": {"unit": "em"}}}
    |                                    ^^^^
note: token größe 日本
note: place #/größe 日本/$value/unit
help: write `px` or `rem`: what `em` comes to depends on where the token is used
"""),
    ("shape-member", "tokens.json", LONG, b"1", (), """
tokens/tokens.json:1:215: shape-member: a member of a group is an object: a token or a group
  1 | …xxxxxxxxxxxxxxxxxxxxxxxxxxxxxxxxxxxxxxxxxxxxxxxxxxxx", "b": 1, "c":"yyyyyyyyyyyyyyyyyyyyyyyyyyyyyyyyy…
    |                                                              ^
help: write it as a token: `"b": { "$value": 1 }`
"""),
    ("shape-name", "tokens.json", b'{"a\x1b.b":{}}', (1, 7), (), """
tokens/tokens.json:1:2: shape-name: a name is not empty and holds none of `{`, `}` and `.`
  1 | {"a<U+001B>.b":{}}
    |  ^^^^^^^^^^^^^
help: nest groups in place of a point, as `"a<U+001B>": { "b": .. }`
"""),
    ("plan-permutations", "resolver.json", ORDER, (23, 45), ("count 65",), """
tokens/resolver.json:2:22: plan-permutations: there are more than 64 permutations
  2 |   "resolutionOrder": [
    |                      ^
note: count 65
help: join modifiers whose contexts do not go with all others
"""),
    ("plan-cycle", "resolver.json", b'{"sets":{"a":{"sources":[{"$ref":"#/sets/a"}]}}}', b'"#/sets/a"', ('ring "#/sets/a"',), """
tokens/resolver.json:1:34: plan-cycle: the set is among its own sources
  1 | {"sets":{"a":{"sources":[{"$ref":"#/sets/a"}]}}}
    |                                  ^^^^^^^^^^
note: ring #/sets/a -> #/sets/a
help: put what both share into a third set
"""),
    ("alias-cycle", "tokens.json", b'{"a":{"$value":"{b}"},"b":{"$value":"{a}"}}', b'"{b}"', RING, """
tokens/tokens.json:1:16: alias-cycle: references lead back to this place
  1 | {"a":{"$value":"{b}"},"b":{"$value":"{a}"}}
    |                ^^^^^
note: token a
note: place #/a/$value
note: ring #/a/$value -> #/b/$value -> #/a/$value
note: {b} is written at tokens/tokens.json:1:37: "{a}"
note: {a} is written at tokens/tokens.json:1:16: "{b}"
help: give one of them a value of its own
"""),
    ("alias-target", "tokens.json", b'{"a":{"$value":"{b}"}}', b'"{b}"', ('token "a"', 'place "#/a\\n/$value"'), """
tokens/tokens.json:1:16: alias-target: the reference names no token, or no part of its value
  1 | {"a":{"$value":"{b}"}}
    |                ^^^^^
note: token a
note: place "#/a\\n/$value"
help: add the token {b}, or name one that is there
"""),
    ("extends-count", "tokens.json", b'{"a":{}}', (0, 0), ("count 24560",), """
tokens/tokens.json:1:1: extends-count: with what groups inherit there are more than 16,384 members
note: count 24560
help: extend the few groups that share something, and not groups that hold groups that extend again
"""),
    ("config-key", "tokc.toml", b"colour = 1\n", (0, 11), ('key "colour"',), """
tokens/tokc.toml:1:1: config-key: this key is not known, or its value is none that it may have
note: key colour
help: take it away: the keys are `prefix`, `rem_base`, `references` and `legacy`
"""),
    ("name-clash", "tokens.json", b'{"a":{"b-c":{}},"a-b":{"c":{"$value":1}}}', b'{"$value":1}', ('token "a-b.c"', 'other "a.b-c"', "platform css"), """
tokens/tokens.json:1:28: name-clash: an earlier token declares the same name on a platform
  1 | {"a":{"b-c":{}},"a-b":{"c":{"$value":1}}}
    |                            ^^^^^^^^^^^^
note: token a-b.c
note: other a.b-c
note: platform css
help: rename one of the two
"""),
    ("file-missing", "resolver.json", b'[{"$ref":"a.json"}]', b'"a.json"', (), """
tokens/resolver.json:1:10: file-missing: there is no such file
  1 | [{"$ref":"a.json"}]
    |          ^^^^^^^^
help: look for a slip in the name, or put the file there
"""),
    ("new-rule", "tokens.json", b"{}", (0, 2), ("odd words that follow",), """
tokens/tokens.json:1:1: new-rule: tokc-dir has no sentence for this rule
  1 | {}
    | ^^
note: odd words that follow
"""),
]


class Messages(Room):
    """Refusals go to standard error, with their place in the file."""

    def test_each_case(self):
        for rule, file, text, place, further, wanted in CASES:
            with self.subTest(rule=rule, text=text):
                self.put({file: text})
                start, end = of(text, place) if isinstance(place, bytes) else place
                ran = self.build(stream_of([("default/REFUSED", refused(rule, file, text, start, end, *further))]), 1)
                self.assertEqual((ran.status, ran.err), (1, wanted[1:]))
                os.remove(self.at("tokens", file))

    def test_absent_file_has_no_source_line(self):
        ran = self.build(stream_of([("default/REFUSED", refused("file-missing", "tokens.json", b"", 0, 0))]), 1)
        self.assertEqual((ran.status, ran.err), (1, """\
tokens/tokens.json:1:1: file-missing: there is no such file
help: put a token file named `tokens.json` right into the folder
"""))

    def test_a_refusal_of_several_permutations_is_told_once(self):
        text = b'{"a":1}'
        self.put({"core.json": text, "dark.json": b"{}}"})
        one, other = refused("shape-member", "core.json", text, 5, 6), refused("json-syntax", "dark.json", b"{}}", 2, 2)
        stream = stream_of([("theme=dark/REFUSED", other), ("theme=grey/REFUSED", one), ("theme=light/REFUSED", one), ("theme=sun/tokens.css", b":root {\n}\n")])
        ran = self.build(stream, 1)
        self.assertEqual(ran.status, 1)
        self.assertEqual(ran.err, """
tokens/core.json:1:6: shape-member: a member of a group is an object: a token or a group
  1 | {"a":1}
    |      ^
note: in theme=grey, theme=light
help: write it as a token: `"a": { "$value": 1 }`
tokens/dark.json:1:3: json-syntax: no JSON text goes on like this
  1 | {}}
    |   ^
note: in theme=dark
help: take `}` away: each bracket before it is closed
2 mistakes
"""[1:])
        self.assertEqual(ran.out.splitlines()[-1].split(";")[0], "4 outputs, 3 of them REFUSED")

    def test_many_permutations_are_counted(self):
        text = refused("shape-root", "tokens.json", b"[]", 0, 2)
        self.put({"tokens.json": b"[]"})
        ran = self.build(stream_of([(f"m=c{i:02}/REFUSED", text) for i in range(64)]), 1)
        self.assertEqual(ran.err.count("shape-root"), 1)
        self.assertEqual(ran.err.splitlines()[3:], ["note: in all 64 permutations", "help: write an object of groups and tokens in place of the list"])
        files = [(f"m=c{i:02}/REFUSED", text) for i in range(63)] + [("m=c63/tokens.css", b"")]
        self.assertEqual(self.build(stream_of(files), 1).err.splitlines()[3], "note: in m=c00, m=c01 and 61 more of 64 permutations")

    def test_each_refusal_of_a_plan_stands_for_all(self):
        self.put({"resolver.json": b"[]"})
        ran = self.build(stream_of([("REFUSED", refused("plan-version", "resolver.json", b"[]", 0, 2))]), 1)
        self.assertEqual(ran.err.splitlines()[0], "tokens/resolver.json:1:1: plan-version: a resolver needs `version` with the text `2025.10`")
        self.assertNotIn("note: in", ran.err)
        self.assertEqual(self.outputs().keys(), {"REFUSED"})

    def test_a_file_outside_the_stream_of_rules(self):
        ran = self.build(stream_of([("default/REFUSED", b"no refusal\n")]), 1)
        self.assertEqual((ran.status, os.path.exists(self.out)), (3, False))


ALIAS = '''{
  "space": { "2": { "$type": "dimension",
                    "$value": {"value": 2,
                               "unit": "em"} } },
  "gap": { "$value": "{space.2}" }
}
'''


class Notes(Room):
    """Where what a reference names is written."""

    def err(self, rule, file, text, piece, *further):
        """What is told of a refusal in a permutation of its own."""
        start, end = of(text, piece)
        return self.build(stream_of([("default/REFUSED", refused(rule, file, text, start, end, *further))]), 1).err

    def test_a_chain_through_files(self):
        resolver = '{"version":"2025.10","sets":{"a":{"sources":[{"$ref":"./core/size.json"},{"$ref":"use.json"}]}},"resolutionOrder":[{"$ref":"#/sets/a"}]}'
        use = '{"pad": {"$type": "dimension", "$value": "{gap}"}}'.encode()
        self.put({"resolver.json": resolver, "core/size.json": ALIAS, "use.json": use, "unused.json": '{"gap":{"$value":1}}'})
        err = self.err("dimension-unit", "use.json", use, b'"{gap}"', 'token "pad"', 'place "#/pad/$value/unit"')
        self.assertEqual(err, """\
passed over: tokens/unused.json (nothing names it)
tokens/use.json:1:42: dimension-unit: a dimension's unit is `px` or `rem`
  1 | {"pad": {"$type": "dimension", "$value": "{gap}"}}
    |                                          ^^^^^^^
note: token pad
note: place #/pad/$value/unit
note: {gap} is written at tokens/core/size.json:5:22: "{space.2}"
note: {space.2} is written at tokens/core/size.json:3:31: {"value": 2, "unit": "em"}
help: write `px` or `rem`: what `em` comes to depends on where the token is used
""")

    def test_a_name_that_several_files_write_ends_the_chain(self):
        resolver = b'''{"version":"2025.10","modifiers":{"m":{"contexts":{"x":[{"$ref":"x.json"}],"y":[{"gap":{"$value":"{s}"}}]}}},
"resolutionOrder":[{"$ref":"#/modifiers/m"}]}'''
        text = b'{"gap":{"$type":"number","$value":"{s}"},"s":{"$value":"no"},"t":{"$ref":"#/gap"}}'
        self.put({"resolver.json": resolver, "x.json": text})
        err = self.err("value-shape", "x.json", text, b'"#/gap"', 'token "t"', 'place "#/t/$value"')
        self.assertEqual(err.splitlines()[3:-1], ["note: token t", "note: place #/t/$value"])
        text = b'{"gap":{"$type":"number","$value":"{s}"},"s":{"$value":"no"},"t":{"$value":{"$ref":"#/gap"}}}'
        self.put({"x.json": text})
        err = self.err("value-shape", "x.json", text, b'{"$ref":"#/gap"}', 'token "t"', 'place "#/t/$value"')
        self.assertEqual(err.splitlines()[5:-1], [
            'note: {gap} is written at tokens/x.json:1:35: "{s}"',
            'note: {gap} is written at tokens/resolver.json:1:98: "{s}"',
        ])

    def test_an_inherited_token(self):
        text = b'{"base":{"$type":"dimension","s":{"$value":{"value":1,"unit":"pt"}}},"card":{"$extends":"{base}"},"pad":{"$value":"{card.s}"}}'
        self.put({"tokens.json": text})
        err = self.err("dimension-unit", "tokens.json", text, b'"{card.s}"', 'token "pad"', 'place "#/pad/$value/unit"')
        self.assertEqual(err.splitlines()[5:-1], [
            "note: {card.s} is inherited from {base.s}",
            'note: {base.s} is written at tokens/tokens.json:1:44: {"value":1,"unit":"pt"}',
        ])

    def test_a_ring_ends(self):
        text = b'{"a":{"$value":"{b}"},"b":{"$value":"{a}"},"c":{"$value":"{a} "}}'.replace(b"} ", b"}")
        self.put({"tokens.json": text})
        err = self.err("type-missing", "tokens.json", text, b'"{b}"', 'token "a"', 'place "#/a/$value"')
        self.assertEqual(err.splitlines()[5:-1], ['note: {b} is written at tokens/tokens.json:1:37: "{a}"', 'note: {a} is written at tokens/tokens.json:1:16: "{b}"'])

    def test_a_place_that_another_token_leads_to(self):
        text = b'{"a":{"$type":"color","$value":"{b}"},"b":{"$value":{"colorSpace":"rgb","components":[0,0,0]}}}'
        self.put({"tokens.json": text})
        err = self.err("color-space", "tokens.json", text, b'"rgb"', 'token "a"', 'place "#/b/$value/colorSpace"')
        self.assertEqual(err.splitlines()[5:], [
            'note: {a} is written at tokens/tokens.json:1:32: "{b}"',
            'note: {b} is written at tokens/tokens.json:1:53: {"colorSpace":"rgb","components":[0,0,0]}',
            "help: write `srgb`",
        ])

    def test_the_twin_of_a_name(self):
        text = b'{"a":{"b-c":{"$value":1}},"a-b":{"c":{"$value":2}}}'
        self.put({"tokens.json": text})
        err = self.err("name-clash", "tokens.json", text, b'{"$value":2}', 'token "a-b.c"', 'other "a.b-c"', "platform css")
        self.assertEqual(err.splitlines()[6:], ["note: {a.b-c} is written at tokens/tokens.json:1:23: 1", "help: rename one of the two"])


class Editors(Room):
    """Messages as JSON lines."""

    def test_each_field(self):
        text = '{"ö":{"$value":"{b}"},\n"b":{"$value":"#ff0000"}}'.encode()
        self.put({"tokens.json": text})
        stream = stream_of([("m=x/REFUSED", refused("value-shape", "tokens.json", text, 16, 21, 'token "\u00f6"', 'place "#/\u00f6/$value"')), ("m=y/tokens.css", b"")])
        ran = self.tool("build", "tokens", "out", "--json", tokc=self.stand_in(stream, 1))
        self.assertEqual((ran.status, ran.err, ran.out.count("\n")), (1, "", 1))
        self.assertEqual(json.loads(ran.out), {
            "rule": "value-shape", "message": "the value has no such form for its type", "file": "tokens/tokens.json", "line": 1, "column": 16,
            "end": {"line": 1, "column": 21}, "permutations": ["m=x"],
            "notes": [
                {"message": "token ö"}, {"message": "place #/ö/$value"},
                {"message": '{b} is written at tokens/tokens.json:2:15: "#ff0000"', "file": "tokens/tokens.json", "line": 2, "column": 15}, {"message": "in m=x"},
            ],
            "help": 'write `{ "colorSpace": "srgb", "components": [1, 0, 0] }`, or `legacy = true` in `tokc.toml`, which reads such texts',
        })

    def test_a_file_that_is_not_there(self):
        ran = self.tool("check", "tokens", "--json", tokc=self.stand_in(stream_of([("default/REFUSED", refused("file-missing", "tokens.json", b"", 0, 0))]), 1))
        told = json.loads(ran.out)
        self.assertEqual((ran.status, told["file"], told["line"], told["end"]), (1, "tokens/tokens.json", 1, {"line": 1, "column": 1}))


class Sentences(unittest.TestCase):
    """The table of sentences."""

    def test_each_rule_has_advice(self):
        self.assertEqual(refusal.SENTENCES.keys(), advice.REMEDIES.keys() | advice.ALWAYS.keys())
        self.assertEqual(advice.REMEDIES.keys() & advice.ALWAYS.keys(), set())

    def test_each_is_one_short_sentence(self):
        for rule, sentence in refusal.SENTENCES.items():
            with self.subTest(rule=rule):
                self.assertRegex(rule, r"\A[a-z]+(-[a-z]+)+\Z")
                self.assertRegex(sentence, r"\A[^\n]{10,90}[^.]\Z")
        self.assertEqual(len(set(refusal.SENTENCES.values())), len(refusal.SENTENCES))


if __name__ == "__main__":
    unittest.main()
