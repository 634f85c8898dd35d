"""What tokc-dir says to do, by what stands at the place of a refusal."""
import os
import sys
import unittest

from helpers import TOP

sys.path.insert(0, os.path.join(TOP, "tools"))

from tokcdir.advice import Place, advice
from tokcdir.refusal import Refusal
from tokcdir.tokens import Tokens

# For each rule, texts with the place of the refusal between two `|`, and what is said; a text of a reference also says which token is refused.
CASES = {
    "config-toml": [
        ('||prefix: "acme"', "write `=` between a key and its value, as `rem_base = 16`"),
        ('||prefix = "acme', "close the quotation marks of each text"),
        ("||prefix = acme", 'write a key and its value on each line, as `prefix = "acme"`, with texts in quotation marks'),
    ],
    "json-syntax": [
        ("|| \n", "write `{}` for a file without tokens: this one is empty"),
        ("||\ufeff{}", "save the file as UTF-8 without a byte-order mark"),
        ('{"a": {}, ||// red\n}', "take the comment away: JSON has none; a token may have a `$description`"),
        ('{"a": {}, ||/* red */}', "take the comment away: JSON has none; a token may have a `$description`"),
        ('{"a": [1, 2, ||]}', "take away the comma before `]`"),
        ('{"a": {},\n ||}', "take away the comma before `}`"),
        ('{||, "a": {}}', "take away the comma: nothing stands before it"),
        ('{"a": {} ||"b": {}}', "write a comma before this"),
        ('{"a" ||{}}', "write a colon between the name and its value"),
        ("{||a: {}}", 'write each name in double quotation marks, as `"size": {}`'),
        ("{||'a': {}}", 'write double quotation marks, `"`, in place of single ones'),
        ("{||“a”: {}}", 'write straight quotation marks, `"`, in place of typographic ones'),
        ('{"a": {"b": {}||', "close what is open: `}` `}` are missing at the end of the file"),
        ('{"a": [||', "close what is open: `]` `}` are missing at the end of the file"),
        ('{"a": "x||\n"}', 'close the string by `"`; a line end inside one is written `\\n`'),
        ('{"a": "x||\ty"}', "write a tab inside a string as `\\t`"),
        ('{"a": "C:\\||q"}', "write `\\\\` for a backslash inside a string"),
        ('{"a": [1||}', "write `]` here, which closes what is open, or take `}` away"),
        ('{"a": 16||px}', 'write the unit by itself, as `{ "value": 16, "unit": "px" }`'),
        ('{"a": 1.||}', "write a digit here"),
        ('{"a": tru||}', "write `true`, `false` or `null` whole"),
        ('{"a": 0||7}', "write the number without a leading zero"),
        ('{"a": ||.5}', "write a digit before the point, as `0.5`"),
        ('{"a": ||+1}', "write the number without `+`"),
        ('{"a": ||True}', "write `true`, `false` and `null` in lower case"),
        ('{"a": ||NaN}', "write a number: JSON has no such word"),
        ('{"a": ||#fff}', "take the comment away: JSON has none; a token may have a `$description`"),
        ('{"a": ||red}', "write a value here: an object, a list, a text in quotation marks, or a number"),
        ("{}||{}", "write one object in a file, and nothing behind it"),
        ("{}||}", "take `}` away: each bracket before it is closed"),
        ('{\n||<<<<<<< HEAD\n"a": {}', "settle the merge, and take its marks away"),
        ("||name;value;unit\nsmall;4;px\n", "write JSON: this looks like a table (CSV)"),
        ("n||ame,value\nsmall,4px\n", "write JSON: this looks like a table (CSV)"),
        ("t||okens:\n  small: 4px\n", "write one object, which begins with `{`"),
        ("||<resources>", "write JSON: this looks like XML"),
        ("||size: 4\n", "write one object, which begins with `{`"),
    ],
    "shape-root": [
        ("|[]|", "write an object of groups and tokens in place of the list"),
        ('|{"$value":1}|', 'put the token into a group under a name, as `{ "size": { "$value": .. } }`'),
        ("|1|", 'write an object, as `{ "size": { "$value": .. } }`'),
    ],
    "shape-name": [
        ('{|"a.b.c"|:{}}', 'nest groups in place of a point, as `"a": { "b.c": .. }`'),
        ('{|"{a}"|:{}}', "take the braces out of the name"),
        ('{|""|:{}}', "give it a name"),
    ],
    "shape-member": [
        ('{"a":{"value":|4|}}', "write `$value` in place of `value`"),
        ('{"a":{"type":|"color"|}}', "write `$type` in place of `type`"),
        ('{"ink":|"#fff"|}', 'write it as a token: `"ink": { "$value": "#fff" }`'),
    ],
    "shape-property": [
        ('{"$type":|"spacing"|}', "write `dimension`, which takes such values"),
        ('{"$type":|"Color"|}', "write `color`, which takes such values"),
        ('{"$type":|"zebra"|}', "write one of the types `color`, `dimension`, `fontFamily`, `fontWeight`, `duration`, `cubicBezier`, `number`, `strokeStyle`, `border`, `transition`, `shadow`, `gradient` or `typography`"),
        ('{"$type":|"boolean"|}', "leave the token out, or put its value under `$extensions`: there is no such type"),
        ('{"a":{},"b":{"$extends":|"a"|}}', "write `{a}`"),
        ('{"$description":|1|}', "write a text in quotation marks"),
        ('{"$extensions":|1|}', "write an object"),
        ('{"$deprecated":|1|}', "write `true`, `false` or a text"),
        ('{"$extends":|1|}', "write a text, as `{a.b}` for a group"),
        ('{"a":{"$value":1,"$ref":|"#/b"|}}', "take `$ref` or `$value` away, or write `$ref` as a text, as `#/a/b`"),
    ],
    "shape-token-child": [
        ('{"a":{"$value":1,|"type"|:{}}}', "write `$type` in place of `type`"),
        ('{"a":{"$value":1,|"b"|:{}}}', "take it out of the token; where the group is to have a value of its own, name that token `$root`"),
    ],
    "extends-target": [
        ('{"button":{},"a":{"$extends":|"{buttons}"|}}', "write `{button}`, which is a group"),
        ('{"b":{"$value":1},"a":{"$extends":|"#/b"|}}', "name a group: {b} is a token"),
        ('{"a":{"$extends":|"{zzz}"|}}', "name a group that a token file writes, as `{a.b}`"),
    ],
    "alias-syntax": [
        ('{"a":{"$value":|"{b} * 2 {}"|}}', "write the value that this comes to: tokc does no arithmetic"),
        ('{"a":{"$value":|"{{b}}"|}}', "write one brace on each side, as `{a.b}`"),
        ('{"a":{"$value":|"{b}{c}"|}}', "write one reference alone, as `{a.b}`"),
        ('{"a":{"$value":|"{b.$value}"|}}', "name the token alone, as `{a.b}`"),
        ('{"a":{"$value":|"{b..c}"|}}', "name the groups and the token with one point between each two, as `{a.b}`"),
        ('{"a":{"$value":|{"$ref":"#/b","x":1}|}}', "take the other members out of the object with `$ref`"),
        ('{"a":{"$value":|{"$ref":1}|}}', 'write the pointer as a text that begins with `#/`, as `"#/a/b"`'),
        ('{"a":{"$ref":|"b"|}}', "write the pointer as `#/a/b`, with `/$value/..` after it where a part is meant"),
    ],
    "alias-target": [
        ('{"space":{"small":{"$value":1}},"a":{"$value":|"{space.smal}"|}}', "write `{space.small}`, or add what is named"),
        ('{"core":{"ink":{"$value":1}},"a":{"$value":|"{ink}"|}}', "write `{core.ink}`, or add what is named"),
        ('{"b":{"$value":1},"a":{"$value":|"{b.value}"|}}', "write `{b}`, without `.value`"),
        ('{"b":{"$value":1},"a":{"$value":|"{ b }"|}}', "write `{b}`, without blanks"),
        ('{"b":{"c":{"$value":1}},"a":{"$value":|"{b}"|}}', "name a token: {b} is a group, with {b.c} in it"),
        ('{"b":{"c":{"$value":1}},"a":{"$value":|"{b/c}"|}}', "write `{b.c}`, or add what is named"),
        ('{"b":{"$value":1},"a":{"$value":|"{b * 2}"|}}', "write the value that this comes to: tokc does no arithmetic"),
        ('{"b":{"$value":1},"a":{"$value":|{"$ref":"#/b/$value/x"}|}}', "name a part that the value of {b} has"),
        ('{"a":{"$value":|"{zzz}"|}}', "add the token {zzz}, or name one that is there"),
    ],
    "alias-cycle": [
        ('{"a":{"$value":|"{b}"|},"b":{"$value":"{a}"}}', "give one of them a value of its own"),
    ],
    "type-missing": [
        ('{"a":{"$value":|{"value":4,"unit":"px"}|}}', 'give it, or its group, a type: `"$type": "dimension"`'),
        ('{"a":{"$value":|{"value":4,"unit":"ms"}|}}', 'give it, or its group, a type: `"$type": "duration"`'),
        ('{"a":{"$value":|"#fff"|}}', 'give it, or its group, a type: `"$type": "color"`'),
        ('{"a":{"$value":|[0,0,1,1]|}}', 'give it, or its group, a type: `"$type": "cubicBezier"`'),
        ('{"a":{"$value":|true|}}', 'give it, or its group, a `$type`, as `"$type": "dimension"`'),
        ('{"a":{"$value":|{"color":1,"width":1,"style":1}|}}', 'give it, or its group, a type: `"$type": "border"`'),
    ],
    "value-shape": [
        ('{"a":{"$type":"dimension","$value":|"16px"|}}', 'write `{ "value": 16, "unit": "px" }`, or `legacy = true` in `tokc.toml`, which reads such texts'),
        ('{"a":{"$type":"dimension","$value":|"-.5rem"|}}', 'write `{ "value": -0.5, "unit": "rem" }`'),
        ('{"$type":"dimension","a":{"$value":|16|}}', 'write `{ "value": 16, "unit": "px" }`'),
        ('{"a":{"$type":"dimension","$value":|"16"|}}', 'write `{ "value": 16, "unit": "px" }`'),
        ('{"a":{"$type":"duration","$value":|"200ms"|}}', 'write `{ "value": 200, "unit": "ms" }`, or `legacy = true` in `tokc.toml`, which reads such texts'),
        ('{"a":{"$type":"duration","$value":|200|}}', 'write `{ "value": 200, "unit": "ms" }`'),
        ('{"a":{"$type":"color","$value":|"#fff"|}}', 'write `{ "colorSpace": "srgb", "components": [1, 1, 1] }`'),
        ('{"a":{"$type":"color","$value":|"#3366cc80"|}}', 'write `{ "colorSpace": "srgb", "components": [0.2, 0.4, 0.8], "alpha": 0.502 }`, or `legacy = true` in `tokc.toml`, which reads such texts'),
        ('{"a":{"$type":"color","$value":|"rgb(1,2,3)"|}}', 'write a colour as `{ "colorSpace": "srgb", "components": [0.2, 0.4, 0.8] }`'),
        ('{"a":{"$type":"number","$value":|"1.5"|}}', "write the number without quotation marks: `1.5`"),
        ('{"a":{"$type":"dimension","$value":|"{b"|}}', "write the reference with both braces: `{b}`"),
        ('{"a":{"$type":"dimension","$value":|"b.c}"|}}', "write the reference with both braces: `{b.c}`"),
        ('{"a":{"$type":"dimension","$value":|"{b} * 2"|}}', "write the value that this comes to: tokc does no arithmetic"),
        ('{"a":{"$type":"dimension","$value":|"1px {b}"|}}', "write a value without a reference in a text: a reference stands alone, as `{a.b}`"),
        ('{"a":{"$type":"dimension","$value":|{"value":4}|}}', "add `unit`"),
        ('{"a":{"$type":"shadow","$value":|{"color":"{c}","offsetX":1}|}}', "add `offsetY` and `blur` and `spread`"),
        ('{"a":{"$type":"shadow","$value":|{"color":"{c}","x":1,"y":2,"blur":3}|}}', "write `offsetX` and `offsetY` in place of `x` and `y`"),
        ('{"s":{"$value":2},"a":{"$type":"number","$value":|"s"|}}', "write `{s}`"),
        ('{"s":{"$value":2},"a":{"$type":"number","$value":|"#/s"|}}', "write `{s}`"),
        ('{"a":{"$type":"number","$value":|"50%"|}}', "write `0.5` for 50%"),
        ('{"a":{"$type":"cubicBezier","$value":|"ease-out"|}}', "write `[0, 0, 0.58, 1]`"),
        ('{"a":{"$type":"cubicBezier","$value":|"cubic-bezier(.2, 0, 0, 1)"|}}', "write `[0.2, 0, 0, 1]`"),
        ('{"a":{"$type":"cubicBezier","$value":|"spring"|}}', "write a curve as a list of four numbers, as `[0.2, 0, 0, 1]`"),
        ('{"a":{"$type":"gradient","$value":|{}|}}', "write a gradient as a list of stops with `color` and `position`"),
        ('{"a":{"$value":|true|}}', "write the form that the manual has for its type under 'Types'"),
    ],
    "dimension-unit": [
        ('{"a":{"$value":{"value":1,"unit":|"em"|}}}', "write `px` or `rem`: what `em` comes to depends on where the token is used"),
        ('{"a":{"$value":{"value":1,"unit":|"pt"|}}}', "write `px`, or `rem` where the length is to go with the text size"),
        ('{"a":{"$value":{"value":1,"unit":|"%"|}}}', "write a share as a `number`"),
        ('{"a":{"$value":{"value":1,"unit":|"PX"|}}}', "write `px` or `rem`"),
    ],
    "color-range": [
        ('{"a":{"$value":{"colorSpace":"srgb","components":[0,|51|,0]}}}', "write `0.2` for 51 of 255: in `srgb` a component lies within 0 to 1"),
        ('{"a":{"$value":{"colorSpace":"hsl","components":[2,80,|162|]}}}', "write components of `hsl` within 0 to 360, 0 to 100 and 0 to 100"),
        ('{"a":{"$value":{"colorSpace":"srgb","components":[|-1|,0,0]}}}', "write components of `srgb` within 0 to 1"),
    ],
    "color-alpha": [
        ('{"a":{"$value":{"alpha":|80|}}}', "write `0.8` for 80 %"),
        ('{"a":{"$value":{"alpha":|-1|}}}', "write a number from 0 to 1"),
    ],
    "color-hex": [
        ('{"a":{"$value":{"hex":|"#36c"|}}}', "write all six digits: `#3366cc`"),
        ('{"a":{"$value":{"hex":|"#3366cc33"|}}}', 'write `#3366cc`, and the alpha by itself: `"alpha": 0.2`'),
        ('{"a":{"$value":{"hex":|"3366cc"|}}}', "write `#3366cc`"),
        ('{"a":{"$value":{"hex":|"blue"|}}}', "write `#` and six hexadecimal digits"),
    ],
    "color-space": [
        ('{"a":{"$value":{"colorSpace":|"rgb"|}}}', "write `srgb`"),
        ('{"a":{"$value":{"colorSpace":|"hsv"|}}}', "write `hsl` or `hwb`"),
        ('{"a":{"$value":{"colorSpace":|"Display-P3"|}}}', "write `display-p3`"),
        ('{"a":{"$value":{"colorSpace":|"cmyk"|}}}', "write one of `srgb`, `srgb-linear`, `display-p3`, `a98-rgb`, `prophoto-rgb`, `rec2020`, `xyz-d65`, `xyz-d50`, `hsl`, `hwb`, `lab`, `lch`, `oklab` or `oklch`"),
    ],
    "weight-word": [
        ('{"a":{"$value":|"Bold"|}}', "write `bold`"),
        ('{"a":{"$value":|"SemiBold"|}}', "write `semi-bold`"),
        ('{"a":{"$value":|"semibold"|}}', "write `semi-bold`"),
        ('{"a":{"$value":|"Extra Light"|}}', "write `extra-light`"),
        ('{"a":{"$value":|"700"|}}', "write the number without quotation marks: `700`"),
    ],
    "legacy-text": [
        ('{"a":{"$value":|"16 px"|}}', "write `16px`"),
        ('{"a":{"$value":|"16PX"|}}', "write `16px`"),
        ('{"a":{"$value":|".5rem"|}}', "write `0.5rem`"),
        ('{"a":{"$value":|"+016ms"|}}', "write `16ms`"),
        ('{"a":{"$value":|"16em"|}}', "write `px` or `rem`: what `em` comes to depends on where the token is used"),
        ('{"a":{"$value":|"50%"|}}', "write a share as a `number`"),
        ('{"a":{"$type":"duration","$value":|"2min"|}}', "write a time in `ms` or `s`"),
        ('{"a":{"$type":"dimension","$value":|"16"|}}', "write its unit behind the number, as `16px`"),
        ('{"a":{"$type":"duration","$value":|"200"|}}', "write its unit behind the number, as `200ms`"),
        ('{"a":{"$value":|"{b"|}}', "write the reference with both braces: `{b}`"),
        ('{"a":{"$value":|"{b} * 2"|}}', "write the value that this comes to: tokc does no arithmetic"),
        ('{"a":{"$value":|"calc(1px + 2px)"|}}', "write the value that this comes to: tokc does no arithmetic"),
        ('{"a":{"$value":|"1px {b}"|}}', "write a value without a reference in a text: a reference stands alone, as `{a.b}`"),
        ('{"a":{"$value":|"rgb(1 2 3)"|}}', "write `#` and six or eight hexadecimal digits, or a colour as the object that the manual has for it under 'Types'"),
        ('{"a":{"$value":|"#36c"|}}', "write all digits: `#3366cc`"),
        ('{"a":{"$value":|"red"|}}', "write a number with its unit, as `16px`, or `#` and six or eight hexadecimal digits"),
    ],
    "stroke-word": [
        ('{"a":{"$value":|"Dotted"|}}', "write `dotted`"),
        ('{"a":{"$value":|"wavy"|}}', "write one of `solid`, `dashed`, `dotted`, `double`, `groove`, `ridge`, `outset` or `inset`"),
    ],
    "stroke-cap": [
        ('{"a":{"$value":{"lineCap":|"rounded"|}}}', "write `round`"),
        ('{"a":{"$value":{"lineCap":|"flat"|}}}', "write one of `round`, `butt` or `square`"),
    ],
}
# The same for resolver.json, with the other files that are there.
OF_RESOLVERS = {
    "plan-shape": [
        ('|{"version":"2025.10"}|', (), 'add `"resolutionOrder"`, a list as `[{ "$ref": "#/sets/core" }]`'),
        ('{"sets":{"a":{"sources":[|"core.json"|]}}}', (), 'write `{ "$ref": "core.json" }` in place of the text alone'),
        ('{"sets":|[]|}', (), "write the form that the manual has for it under 'Themes'"),
        ('{"resolutionOrder":[{"$ref":"#/sets/a",|"name"|:"b"}]}', (), "take the other members out of the object with `$ref`"),
    ],
    "plan-default": [
        ('{"modifiers":{"m":{"contexts":{"light":[],"dark":[]},"default":|"day"|}}}', (), "write one of its contexts: `light` or `dark`"),
    ],
    "plan-reference": [
        ('{"sets":{"core":{}},"resolutionOrder":[{"$ref":|"#/sets/cores"|}]}', (), "write `#/sets/core`, or add what is named"),
        ('{"resolutionOrder":[{"$ref":|"#core"|}]}', (), "name a set as `#/sets/NAME` and a modifier as `#/modifiers/NAME`"),
        ('[{"$ref":|"https://a.b/c.json"|}]', (), "put the file into the folder, and name its path there"),
        ('[{"$ref":|"../c.json"|}]', (), "name a file by its path below the folder, with `/` between, and without `..`"),
        ('[{"$ref":|"my core.json"|}]', (), "rename the file: a path has letters, digits, `.`, `_` and `-` of ASCII, with `/` between"),
    ],
    "file-missing": [
        ('[{"$ref":|"acme.json"|}]', ("acme.tokens",), "write `acme.tokens`, which is there"),
        ('[{"$ref":|"acme.json"|}]', ("acme.tokens.json",), "write `acme.tokens.json`, which is there"),
        ('[{"$ref":|"./core/acme.tokens"|}]', ("core/acme.json", "acme.tokens"), "write `core/acme.json`, which is there"),
        ('[{"$ref":|"Acme.json"|}]', ("acme.json",), "write `acme.json`, which is there"),
        ('[{"$ref":|"acme.json"|}]', ("core/acme.json",), "write `core/acme.json`, which is there"),
        ('[{"$ref":|"colors.json"|}]', ("colours.json",), "write `colours.json`, which is there"),
        ('[{"$ref":|"acme.json"|}]', ("zebra.json",), "look for a slip in the name, or put the file there"),
    ],
}
# Where neither a resolver nor tokens.json is there: the files that are, and what is said.
WITHOUT = [
    ((), "put a token file named `tokens.json` right into the folder"),
    (("acme.tokens",), "rename `acme.tokens` to `tokens.json`, or write a `resolver.json` that names it"),
    (("a.json", "b.json"), "write a `resolver.json` that names the token files, `a.json` or `b.json`"),
]
# The same, with files of the folder that tokc is not given, and one whose text is that of a resolver.
OTHERS = [
    ({}, ["tokens.jsonc"], "rename `tokens.jsonc` to `tokens.json`"),
    ({}, ["tokens.yaml"], "write what `tokens.yaml` says as JSON, into `tokens.json`"),
    ({}, ["notes.md"], "put a token file named `tokens.json` right into the folder"),
    ({"acme.resolver.json": b'{"resolutionOrder": []}', "core.json": b"{}"}, [], "rename `acme.resolver.json` to `resolver.json`"),
]


def told(rule, file, marked, others=(), further=()):
    """What is said of a refusal whose place stands between two marks."""
    start, _, rest = marked.partition("|")
    piece, _, end = rest.partition("|")
    text = start + piece + end
    files = {file: text.encode(), **{it: b"{}" for it in others}}
    refusal = Refusal(rule, file, 1, 1, len(start.encode()), len((start + piece).encode()), list(further))
    return advice(Place(refusal, Tokens(files), len(start), len(start) + len(piece)))


class Advice(unittest.TestCase):
    """Each table."""

    def test_each_case(self):
        for rule, cases in CASES.items():
            for marked, wanted in cases:
                with self.subTest(rule=rule, text=marked):
                    self.assertEqual(told(rule, "tokc.toml" if rule.startswith("config-") else "tokens.json", marked), wanted)

    def test_each_resolver(self):
        for rule, cases in OF_RESOLVERS.items():
            for marked, others, wanted in cases:
                with self.subTest(rule=rule, text=marked, others=others):
                    self.assertEqual(told(rule, "resolver.json", marked, others), wanted)

    def test_no_resolver(self):
        for others, wanted in WITHOUT:
            with self.subTest(others=others):
                refusal = Refusal("file-missing", "tokens.json", 1, 1, 0, 0, [])
                self.assertEqual(advice(Place(refusal, Tokens({it: b"{}" for it in others}), 0, 0)), wanted)

    def test_files_that_are_not_given(self):
        for files, others, wanted in OTHERS:
            with self.subTest(files=files, others=others):
                tokens = Tokens(files)
                tokens.others = others
                self.assertEqual(advice(Place(Refusal("file-missing", "tokens.json", 1, 1, 0, 0, []), tokens, 0, 0)), wanted)
        resolver = '[{"$ref":"core.json"}]'
        for others, wanted in ((["core.jsonc"], "write `core.jsonc`, which is there"), (["core.yaml"], "write what `core.yaml` says as JSON, into `core.json`")):
            tokens = Tokens({"resolver.json": resolver.encode()})
            tokens.others = others
            self.assertEqual(advice(Place(Refusal("file-missing", "resolver.json", 1, 1, 9, 20, []), tokens, 9, 20)), wanted)

    def test_each_key(self):
        for key, wanted in (
            ("prefix", "write a letter and up to 31 letters and digits"), ("rem_base", "write a whole number from 1 to 100"), ("references", "write `true` or `false`"),
            ("rembase", "write `rem_base` in place of `rembase`"), ("colour", "take it away: the keys are `prefix`, `rem_base`, `references` and `legacy`"), ("legacy", "write `true` or `false`"),
        ):
            with self.subTest(key=key):
                self.assertEqual(told("config-key", "tokc.toml", "||", (), [("key", f'"{key}"')]), wanted)

    def test_the_key_legacy(self):
        """It is told where it is absent and would read the text."""
        texts = [(it, True) for it in ("16px", "-1.5e3rem", "200ms", "0.2s", "#3366cc", "#3366CC80", "\\u0031px")]
        texts += [(it, False) for it in ("16em", "16 px", "16PX", "#336", "#3366c", "px", "", "{a}px")]
        for config, is_absent in (("", True), ('prefix = "legacy"\n', True), ("legacy = false\n", False), ("a = 1\n'legacy'=true", False)):
            for text, has_form in texts:
                with self.subTest(config=config, text=text):
                    files = {"tokc.toml": config.encode(), "tokens.json": b'{"a":{"$type":"dimension","$value":"%s"}}' % text.encode()}
                    refusal = Refusal("value-shape", "tokens.json", 1, 1, 35, 37 + len(text), [])
                    said = advice(Place(refusal, Tokens(files), 35, 37 + len(text)))
                    self.assertEqual(said.endswith(", or `legacy = true` in `tokc.toml`, which reads such texts"), is_absent and has_form)

    def test_parts_of_values(self):
        """The kind of a part is that of its name."""
        text = '{"a":{"$type":"border","$value":{"color":"{c}","width":|"2px"|,"style":"solid"}}}'
        self.assertEqual(told("value-shape", "tokens.json", text, (), [("place", '"#/a/$value/width"')]), 'write `{ "value": 2, "unit": "px" }`, or `legacy = true` in `tokc.toml`, which reads such texts')

    def test_further_parts(self):
        text = '{"t":{"$type":"typography","$value":{"lineHeight":|{"value":24,"unit":"px"}|}}}'
        self.assertEqual(told("value-shape", "tokens.json", text, (), [("place", '"#/t/$value/lineHeight"')]), "write a number: the height over the font's size, as `1.5`")
        for component, wanted in (('"50%"', "write `50`"), ("true", 'write a number, or `"none"`')):
            text = f'{{"c":{{"$type":"color","$value":{{"colorSpace":"hsl","components":[0,|{component}|,0]}}}}}}'
            self.assertEqual(told("value-shape", "tokens.json", text, (), [("place", '"#/c/$value/components/1"')]), wanted)

    def test_components(self):
        text = '{"c":{"$type":"color","$value":{"colorSpace":"srgb","components":|[0,0]|}}}'
        wanted = 'write three components, each a number or `"none"`; an alpha stands by itself, as `"alpha": 1`'
        self.assertEqual(told("value-shape", "tokens.json", text, (), [("place", '"#/c/$value/components"')]), wanted)

    def test_a_token_of_another_type(self):
        text = '{"s":{"$type":"number","$value":2},"b":{"$type":"border","$value":{"color":|"{s}"|}}}'
        self.assertEqual(told("value-shape", "tokens.json", text, (), [("place", '"#/b/$value/color"')]), "name a token of type `color`: {s} leads to one of type `number`")

    def test_a_group_that_extends_itself(self):
        text, one, two = '{"a":{"$extends":|"{a}"|}}', ("ring", '"#/a"'), ("ring", '"#/b"')
        self.assertEqual(told("extends-cycle", "tokens.json", text, (), [one]), "name another group: this one extends itself")
        self.assertEqual(told("extends-cycle", "tokens.json", text, (), [one, two]), "put what both share into a third group that both extend")

    def test_a_token_that_names_itself(self):
        text = '{"a":{"$value":|"{a}"|}}'
        self.assertEqual(told("alias-cycle", "tokens.json", text, (), [("ring", '"#/a/$value"')]), "name another token, or write a value: this one names itself")

    def test_behind_a_reference(self):
        """What is to be mended is the value that the reference leads to, or a part of it."""
        text = '{"b":{"$type":"border","$value":{"width":|"{w}"|}},"w":{"$value":{"value":2,"unit":"em"}}}'
        self.assertEqual(told("dimension-unit", "tokens.json", text, (), [("place", '"#/b/$value/width/unit"')]), "write `px` or `rem`: what `em` comes to depends on where the token is used")
        text = '{"a":{"$type":"dimension","$value":|"{b}"|},"b":{"$value":"{c}"},"c":{"$value":"16px"}}'
        self.assertEqual(told("value-shape", "tokens.json", text, (), [("place", '"#/a/$value"')]), 'write `{ "value": 16, "unit": "px" }`, or `legacy = true` in `tokc.toml`, which reads such texts')


if __name__ == "__main__":
    unittest.main()
