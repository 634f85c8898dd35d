"""How tokc-dir tells how a token gets its value, and checks a stored explanation, over programs that stand in for those beside it."""
import os
import unittest

from helpers import Beside, read, refused, stream_of, write

TOKENS = b"""{ "a": { "$value": "{gro\xc3\x9f}" },
  "gro\xc3\x9f": { "$ref": "#/c" },
  "c": { "$type": "dimension", "$value": {
    "value": 4, "unit": "px" } } }
"""
BODIES = [
    ("Tokens.swift", b"import UIKit\n\npublic enum Tokens {\n  public static let a: CGFloat = 4.0\n  // omitted c\n}\n"),
    ("tokens.css", b":root {\n  --a: var(--c);\n  --c: 4px;\n}\n"),
    ("tokens.json", b'{\n  "a": {"$type": "dimension", "$value": {"value": 4, "unit": "px"}},\n  "c": {"$type": "dimension", "$value": {"value": 4, "unit": "px"}}\n}\n'),
    ("tokens.xml", b'<?xml version="1.0" encoding="utf-8"?>\n<resources>\n  <dimen name="a">4dp</dimen>\n  <dimen name="c">4dp</dimen>\n</resources>\n'),
]
BUILT = stream_of([(f"default/{name}", data) for name, data in BODIES])
CERTIFICATE = """tokc-explain 1
permutation default
from "#/a/$value"
hop "#/a/$value" "#/gro\u00df/$value" tokens.json 19 28
hop "#/gro\u00df/$value" "#/c/$value" tokens.json 53 58
end "#/c/$value" tokens.json 103 135
"""
TOLD = """tokens/tokens.json:1:20: {a} leads to {gro\u00df}
  1 | { "a": { "$value": "{gro\u00df}" },
    |                    ^^^^^^^^
tokens/tokens.json:2:21: {gro\u00df} leads to {c}
  2 |   "gro\u00df": { "$ref": "#/c" },
    |                     ^^^^^
tokens/tokens.json:3:42: {c} has this value: { "value": 4, "unit": "px" }
  3 |   "c": { "$type": "dimension", "$value": {
    |                                          ^
CSS:     --a: var(--c);
Android: <dimen name="a">4dp</dimen>
Swift:   public static let a: CGFloat = 4.0
JSON:    {"$type": "dimension", "$value": {"value": 4, "unit": "px"}}
"""

# Keeps what it is asked, writes what it is to, and ends with the status that it was told.
EXPLAIN = '#!/bin/sh\ncd "${0%/*}" && cat >asked && echo "$*" >words && cat told && exit "$(cat ends)"\n'


class Explaining(Beside):
    def setUp(self):
        super().setUp()
        self.put_tokc(BUILT)
        self.put_beside("tokc_explain", EXPLAIN)
        self.put({"tokens.json": TOKENS})
        self.says(CERTIFICATE)

    def says(self, told, status=0):
        """Has tokc_explain answer so."""
        write(self.at("lib", "told"), told)
        write(self.at("lib", "ends"), str(status))

    def asked(self):
        return read(self.at("lib", "words")).decode()


class Explain(Explaining):
    def test_hops_the_value_and_what_platforms_get(self):
        self.assertEqual(self.installed("explain", "tokens", "default", "a"), (0, TOLD, ""))
        self.assertEqual(read(self.at("lib", "asked")), b"tokc-script 1\nput tokens.json %d\n%s\ncommit\n" % (len(TOKENS), TOKENS))

    def test_names_of_tokens(self):
        for token, place in (
            ("a", "#/a"), ("{a}", "#/a"), ("x~y.a/b.$root", "#/x~0y/a~1b/$root"), ("#/a", "#/a"), ("#/c/$value/unit", "#/c/$value/unit"), ("a b.gro\u00df", "#/a b/gro\u00df"),
        ):
            with self.subTest(token=token):
                self.installed("explain", "tokens", "a=b", token)
                self.assertEqual(self.asked(), f"show a=b {place}\n")

    def test_a_part_of_a_token(self):
        self.says('tokc-explain 1\npermutation default\nfrom "#/c/$value/unit"\nend "#/c/$value/unit" tokens.json 129 133\n')
        ran = self.installed("explain", "tokens", "default", "#/c/$value/unit")
        self.assertEqual(ran.out.splitlines()[0], "tokens/tokens.json:4:25: #/c/$value/unit has this value")
        self.assertIn("Swift:   omits it: ", ran.out)

    def test_the_certificate_itself(self):
        self.assertEqual(self.installed("explain", "tokens", "default", "a", "--certificate"), (0, CERTIFICATE, ""))

    def test_refusals_are_told(self):
        self.put_tokc(stream_of([("default/REFUSED", refused("shape-root", "tokens.json", TOKENS, 0, 1))]), 1)
        self.says("", 1)
        ran = self.installed("explain", "tokens", "default", "a")
        self.assertEqual((ran.status, ran.out, ran.err.splitlines()[0]), (1, "", "tokens/tokens.json:1:1: shape-root: a token file is an object, and no token"))

    def test_refusals_of_other_permutations_are_not(self):
        rules = {"one": "shape-root", "two": "shape-name"}
        self.put_tokc(stream_of([(f"{name}/REFUSED", refused(rule, "tokens.json", TOKENS, 0, 1)) for name, rule in rules.items()]), 1)
        self.says("", 1)
        for name, rule in rules.items():
            ran = self.installed("explain", "tokens", name, "a")
            self.assertEqual([it for it in rules.values() if f": {it}: " in ran.err], [rule])

    def test_wrong_names(self):
        for words, status, said in (
            (("default", "a..b"), 2, "a..b: this is no name of a token: write one as `color.ink`, or a part of one as `#/color/ink/$value/components/0`"),
            (("dark", "a"), 10, "dark: there is no such permutation; there are default"),
            (("default", "cc"), 11, "cc: default has no such token, or no such part of one"),
        ):
            with self.subTest(words=words):
                self.says("", status)
                ran = self.installed("explain", "tokens", *words)
                self.assertEqual((ran.status, ran.out, ran.err.splitlines()[0]), (2, "", said))

    def test_a_group_with_a_value_of_its_own(self):
        tokens = BODIES[2][1].replace(b'"c"', b'"c.$root"')
        self.put_tokc(stream_of([(f"default/{name}", tokens if name == "tokens.json" else data) for name, data in BODIES]))
        self.says("", 11)
        self.assertEqual(self.installed("explain", "tokens", "default", "{c}").err.splitlines()[1], "help: write `c.$root`")

    def test_a_program_that_stops(self):
        self.says("", 6)
        self.assertEqual(self.installed("explain", "tokens", "default", "a"), (3, "", "tokc_explain ran out of memory\n"))
        self.says("", 77)
        self.assertEqual(self.installed("explain", "tokens", "default", "a").err, "tokc_explain ended with status 77\n")
        ran = self.installed("explain", "tokens", "default", "a", tokc=self.stand_in(BUILT))
        self.assertEqual((ran.status, ran.err), (3, "there is no tokc_explain beside the program that TOKC names\n"))

    def test_words(self):
        usage = self.installed().err
        for words in ((), ("tokens",), ("tokens", "default"), ("tokens", "default", "a", "b"), ("tokens", "default", "a", "--json")):
            self.assertEqual(self.installed("explain", *words), (2, "", usage))
        self.assertEqual(self.installed("verify", "tokens"), (2, "", usage))
        self.assertEqual(self.installed("verify", "nowhere", "why.txt").status, 2)


class Verify(Explaining):
    def setUp(self):
        super().setUp()
        write(self.at("why.txt"), CERTIFICATE)

    def verify(self, status, *flags):
        self.says("valid\n" if status == 0 else "", status)
        return self.installed("verify", "tokens", "why.txt", *flags)

    def test_it_holds(self):
        self.assertEqual(self.verify(0), (0, "why.txt: it holds: {a} gets its value by 2 references\n", ""))
        self.assertEqual(self.verify(0, "--quiet"), (0, "", ""))
        self.assertEqual(self.asked(), "check certificate-0\n")
        self.assertIn(b"\nput certificate-0 %d\n%s\ncommit\n" % (len(CERTIFICATE.encode()), CERTIFICATE.encode()), read(self.at("lib", "asked")))

    def test_the_certificate_takes_the_place_of_no_file(self):
        self.put({"resolver.json": '{"a":{"$ref":"certificate-1"},"b":{"$ref":"certificate-0"}}', "certificate-1": "{}"})
        self.verify(0)
        self.assertEqual(self.asked(), "check certificate-2\n")

    def test_it_does_not_hold(self):
        help_line = "help: `tokc-dir explain tokens default '#/a/$value'` tells how this place gets its value\n"
        self.assertEqual(self.verify(13), (1, "", "why.txt: it does not hold of these files\n" + help_line))
        self.assertEqual(self.verify(10), (1, "", "why.txt: it does not hold: there is no permutation default\n"))

    def test_of_refused_files_nothing_holds(self):
        self.put_tokc(stream_of([("REFUSED", refused("plan-version", "tokens.json", TOKENS, 0, 1))]), 1)
        ran = self.verify(1)
        self.assertEqual((ran.status, ran.out, ran.err.splitlines()[0]), (1, "", "tokens/tokens.json:1:1: plan-version: a resolver needs `version` with the text `2025.10`"))

    def test_what_is_no_certificate(self):
        for text in ("", "x", CERTIFICATE[:-1], CERTIFICATE + "\n", CERTIFICATE.replace("hop", "hup", 1), CERTIFICATE.replace('"#/a', '"\\x', 1), b"\xff"):
            with self.subTest(text=text):
                write(self.at("why.txt"), text)
                self.assertEqual(self.verify(13), (1, "", "why.txt: this is no certificate, as `tokc-dir explain --certificate` writes one\n"))
        os.remove(self.at("why.txt"))
        self.assertEqual(self.verify(13), (2, "", "why.txt: it can't be read: No such file or directory\n"))

    def test_a_program_that_stops(self):
        self.assertEqual(self.verify(77), (3, "", "tokc_explain ended with status 77\n"))


if __name__ == "__main__":
    unittest.main()
