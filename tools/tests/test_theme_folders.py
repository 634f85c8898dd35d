"""`tokc-dir themes`, over programs that stand in for tokc and tokc_themes, as they are installed; and what a page has for a permutation."""
import os
import sys
import unittest

from helpers import TOP, Beside, read, refused, stream_of, write

sys.path.insert(0, os.path.join(TOP, "tools"))

from tokcdir.themes import attributes_of

CSS = b":root {\n  --a: 1;\n}\n"
SHEET = CSS + b':root[data-theme="dark"] {\n  --a: 2;\n}\n'
BUILT = stream_of([("theme=dark/tokens.css", CSS.replace(b"1", b"2")), ("theme=light/tokens.css", CSS)])
NAMES = "a modifier is named by a lower-case letter with lower-case letters, digits and `-` behind it, and a context by characters that can be printed"

# Keeps the script, and ends as it is told to.
THEMES = '#!/bin/sh\ncd "${0%/*}" && cat >given && cat sheet && cat said >&2 && exit "$(cat status)"\n'


class Themes(Beside):
    def setUp(self):
        super().setUp()
        self.put_tokc(BUILT)
        self.put_beside("tokc_themes", THEMES)
        self.put({"a.json": "{}"})
        self.says(SHEET)

    def says(self, sheet=b"", status=0, said=""):
        """Has tokc_themes answer so."""
        for name, data in (("sheet", sheet), ("status", str(status)), ("said", said)):
            write(self.at("lib", name), data)

    def themes(self, sheet="made/themes.css", *flags, tokc=None):
        return self.installed("themes", "tokens", sheet, *flags, tokc=tokc)

    def test_a_sheet_is_written(self):
        ran = self.themes()
        self.assertEqual((ran.status, ran.err, read(self.at("made/themes.css"))), (0, "", SHEET))
        self.assertRegex(ran.out, r"\A2 outputs; made/themes\.css is written; [0-9.]+ s\n\Z")
        self.assertEqual(read(self.at("lib/given")), b"tokc-script 1\nput a.json 2\n{}\ncommit\n")
        self.assertEqual(self.themes("made/themes.css", "--quiet"), (0, "", ""))

    def test_a_refusal_is_told_and_nothing_is_written(self):
        self.put({"tokens.json": "[]"})
        self.put_tokc(stream_of([("theme=dark/REFUSED", refused("shape-root", "tokens.json", b"[]", 0, 2)), ("theme=light/tokens.css", CSS)]), 1)
        ran = self.themes()
        self.assertEqual((ran.status, ran.err.splitlines()[0]), (1, "tokens/tokens.json:1:1: shape-root: a token file is an object, and no token"))
        self.assertRegex(ran.out, r"\A2 outputs, 1 of them REFUSED; made/themes\.css is not written; [0-9.]+ s\n\Z")
        self.assertFalse(os.path.exists(self.at("made")) or os.path.exists(self.at("lib/given")))

    def test_a_name_is_told_and_nothing_is_written(self):
        for name, told in ('"Theme"', '"Theme"'), ('"a\\u0009b"', '"a\\u0009b"'), ('"\x7f"', '"<U+007F>"'):
            with self.subTest(name=name):
                self.says(b"", 10, f"tokc_themes: name {name}\n")
                self.assertEqual(self.themes(), (1, "", f"tokens/resolver.json: no selector can hold the name {told}: {NAMES}\n"))
                self.assertFalse(os.path.exists(self.at("made")))

    def test_a_program_that_stops(self):
        for status, told in ((6, "tokc_themes ran out of memory"), (126, "there is no tokc_themes to run"), (77, "tokc_themes ended with status 77")):
            with self.subTest(status=status):
                self.says(SHEET, status)
                self.assertEqual(self.themes(), (3, "", told + "\n"))
                self.assertFalse(os.path.exists(self.at("made")))

    def test_another_tokc(self):
        ran = self.themes(tokc=self.stand_in(BUILT))
        self.assertEqual(ran, (3, "", "TOKC names another program than our tokc, and there is no tokc_themes beside it\n"))

    def test_where_it_can_be_written(self):
        os.mkdir(self.at("dir.css"))
        for sheet in ("dir.css", "tokens/a.json"):
            with self.subTest(sheet=sheet):
                told = f"{sheet}: the sheet is a file whose name ends in .css, as {sheet}/tokens.css\n"
                self.assertEqual(self.themes(sheet), (2, "", told))
        write(self.at("file"), "")
        self.assertEqual(self.themes("file/a.css"), (3, "", f"{self.at('file')}: it can't be written: File exists\n"))


class Attributes(unittest.TestCase):
    def test_of_each_name(self):
        self.assertEqual(attributes_of("default"), [])
        self.assertEqual(attributes_of("theme=dark"), [("data-theme", "dark")])
        self.assertEqual(attributes_of("a-1=%22%2B%3D%20%C3%A9+b="), [("data-a-1", '"+= é'), ("data-b", "")])


if __name__ == "__main__":
    unittest.main()
