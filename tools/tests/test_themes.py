"""The program tokc_themes over ninety folders of two to five modifiers, whose sheets another implementation of the rules gives."""
import json
import os
import re
import sys
import unittest

from helpers import TOP, make_program, program, read, run

sys.path.insert(0, os.path.join(TOP, "tools"))

from tokcdir.program import script_of

PROGRAM = None
DONE, REFUSED, USAGE, BAD_SCRIPT, READ_FAULT, WRITE_FAULT, TOO_LONG, BAD_EVENT, BAD_NAME = 0, 1, 2, 3, 4, 5, 7, 9, 10
MOST_BYTES = 67_108_864

with open(os.path.join(os.path.dirname(os.path.abspath(__file__)), "theme_cases.json"), encoding="utf-8") as FILE:
    CASES = json.load(FILE)

# Modifiers with their contexts, and the first name that no selector can hold, as a JSON string.
NAMES = [
    ([("Theme", ["x"])], '"Theme"'),
    ([("", ["x"])], '""'),
    ([("9a", ["x"])], '"9a"'),
    ([("-a", ["x"])], '"-a"'),
    ([("a_b", ["x"])], '"a_b"'),
    ([("a b", ["x"])], '"a b"'),
    ([("aé", ["x"])], '"aé"'),
    ([('a"\\b', ["x"])], '"a\\"\\\\b"'),
    ([("a", ["x", "y\tz", "\x1f"])], '"y\\u0009z"'),
    ([("a", ["\x7f"])], '"\x7f"'),
    ([("a", ["\ufffe"])], '"\ufffe"'),
    ([("a", ["\uffff"])], '"\uffff"'),
    ([("a", ["x"]), ("b", ["x", "\n"]), ("C", ["x"])], '"\\u000a"'),
    ([("a", ["x"]), ("B", ["\n"]), ("c", ["x"])], '"B"'),
    ([("a-9", ["", "\x80", "\u2028", '"\\', "\U0001f600"])], None),
]


def setUpModule():
    global PROGRAM
    make_program()
    PROGRAM = program("tokc_themes")


def themes(script, *words):
    return run([PROGRAM, *words], script)


def of_files(files):
    return themes(script_of({path: text.encode() for path, text in files.items()}))


def resolver(order, sets=()):
    """A resolver document of these sets and of modifiers with these contexts."""
    modifiers = [{"type": "modifier", "name": name, "contexts": {it: [] for it in contexts}} for name, contexts in order]
    return json.dumps({"version": "2025.10", "resolutionOrder": [*sets, *modifiers]}, ensure_ascii=False)


class Sheets(unittest.TestCase):
    def test_are_those_of_folders_of_several_modifiers(self):
        for number, case in enumerate(CASES):
            with self.subTest(case=number):
                is_sheet = case["answer"] == "ok"
                wanted = (DONE, case["matter"], "") if is_sheet else (REFUSED, "", f"tokc_themes: refused {case['matter']}\n")
                self.assertEqual(wanted, of_files(case["files"]))

    def test_have_blocks_for_what_differs(self):
        """The sheets of the table together have every form of a block: a name that goes, a context that is escaped, several attributes."""
        sheets = "".join(case["matter"] for case in CASES if case["answer"] == "ok")
        for form in (r": initial;", r'\\"', r"\\\\", r'(\[data-[a-z0-9-]+="(?:[^"\\]|\\.)*"\]){3}', r'=""\]', r"var\(", r'"A; B"'):
            with self.subTest(form=form):
                self.assertIsNotNone(re.search(form, sheets))
        self.assertNotIn("omitted", sheets)

    def test_of_two_themes_and_two_densities(self):
        stored = [read(os.path.join(TOP, "crates", "tokc_themes", it)) for it in ("stdin", "stdout")]
        self.assertEqual((DONE, stored[1].decode(), ""), themes(stored[0]))

    def test_of_one_permutation(self):
        text = '{"a":{"$type":"number","$value":1},"b":{"$type":"number","$value":"{a}"}}'
        self.assertEqual((DONE, ":root {\n  --a: 1;\n  --b: var(--a);\n}\n", ""), of_files({"tokens.json": text}))
        self.assertEqual((DONE, ":root {\n}\n", ""), of_files({"tokens.json": "{}"}))

    def test_where_a_token_goes(self):
        """A context whose group is another's token: the token has no value there."""
        files = {"dark.json": '{"a":{"b":{"$type":"number","$value":2}}}', "core.json": '{"a":{"$type":"number","$value":1}}'}
        order = [{"type": "set", "name": "core", "sources": [{"$ref": "core.json"}]}, {"type": "modifier", "name": "theme", "contexts": {"light": [], "dark": [{"$ref": "dark.json"}]}}]
        files["resolver.json"] = json.dumps({"version": "2025.10", "resolutionOrder": order})
        sheet = ':root {\n  --a: 1;\n}\n:root[data-theme="dark"] {\n  --a-b: 2;\n  --a: initial;\n}\n'
        self.assertEqual((DONE, sheet, ""), of_files(files))


class Refusals(unittest.TestCase):
    def test_are_told_by_the_first_path(self):
        self.assertEqual((REFUSED, "", "tokc_themes: refused default/REFUSED\n"), of_files({"tokens.json": ""}))
        self.assertEqual((REFUSED, "", "tokc_themes: refused REFUSED\n"), of_files({"tokens.json": "{}", "resolver.json": "[]"}))
        bad = [{"type": "set", "name": "core", "sources": [{"$ref": "none.json"}]}]
        self.assertEqual((REFUSED, "", "tokc_themes: refused T=a/REFUSED\n"), of_files({"resolver.json": resolver([("T", ["b", "a"])], bad)}))

    def test_are_told_of_names_that_no_selector_can_hold(self):
        for order, name in NAMES:
            with self.subTest(order=order):
                wanted = (DONE, ":root {\n}\n", "") if name is None else (BAD_NAME, "", f"tokc_themes: name {name}\n")
                self.assertEqual(wanted, of_files({"resolver.json": resolver(order)}))


class Runs(unittest.TestCase):
    def test_are_of_the_files_after_the_last_event(self):
        put = b"put tokens.json 2\n{}\n"
        self.assertEqual((DONE, ":root {\n}\n", ""), themes(b"tokc-script 1\ncommit\n" + put))
        self.assertEqual(REFUSED, themes(b"tokc-script 1\n" + put + b"commit\ndel tokens.json\n").status)

    def test_are_of_texts_that_were_moved_and_patched(self):
        script = b"tokc-script 2\nput a.json 2\n[]\nmove a.json tokens.json\npatch tokens.json 0 2 2\n{}\n"
        self.assertEqual((DONE, ":root {\n}\n", ""), themes(script))

    def test_have_no_arguments(self):
        self.assertEqual((USAGE, "", "usage: tokc_themes\n"), themes(b"", "x"))
        self.assertEqual((USAGE, "", "usage: tokc_themes\n"), themes(b"", ""))

    def test_need_a_script(self):
        self.assertEqual((BAD_SCRIPT, "", "tokc_themes: bad script at byte 14\n"), themes(b"tokc-script 1\nx\n"))
        self.assertEqual((TOO_LONG, "", "tokc_themes: script too long\n"), themes(b"x" * (MOST_BYTES + 1)))

    def test_need_events_that_fit(self):
        self.assertEqual((BAD_EVENT, "", "tokc_themes: event 2 does not fit\n"), themes(b"tokc-script 2\ncommit\nmove a.json b.json\n"))

    def test_need_streams_that_work(self):
        put = b"tokc-script 1\nput tokens.json 2\n{}\n"
        for words, status, said in ((["sh", "-c", '"$0" <.', PROGRAM], READ_FAULT, "tokc_themes: read failed\n"), (["sh", "-c", '"$0" >/dev/full', PROGRAM], WRITE_FAULT, "tokc_themes: write failed\n")):
            with self.subTest(status=status):
                self.assertEqual((status, "", said), run(words, put))


if __name__ == "__main__":
    unittest.main()
