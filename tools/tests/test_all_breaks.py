"""The program tokc_check over a hundred folders with up to thirty mistakes, of every rule, whose breaks another implementation of the rules lists."""
import json
import os
import re
import sys
import unittest

from helpers import TOP, make_program, program, run

sys.path.insert(0, os.path.join(TOP, "tools"))

from tokcdir.program import script_of
from tokcdir.refusal import SENTENCES

PROGRAM = None
DONE, BROKEN, USAGE, BAD_SCRIPT, READ_FAULT, WRITE_FAULT, TOO_LONG, BAD_EVENT = 0, 1, 2, 3, 4, 5, 7, 9
MOST_BYTES = 67_108_864

with open(os.path.join(os.path.dirname(os.path.abspath(__file__)), "all_breaks.json"), encoding="utf-8") as FILE:
    CASES = json.load(FILE)


def setUpModule():
    global PROGRAM
    make_program()
    PROGRAM = program("tokc_check")


def check(script, *words):
    return run([PROGRAM, *words], script)


class Cases(unittest.TestCase):
    def test_have_every_rule(self):
        told = "".join(case["told"] for case in CASES)
        self.assertEqual(set(SENTENCES), set(re.findall(r"^rule (.*)$", told, re.M)))

    def test_tell_no_break_twice(self):
        for case in CASES:
            breaks = [re.sub(r"(?m)^in .*\n", "", it) for it in case["told"].split("\n\n")]
            self.assertEqual(len(breaks), len(set(breaks)))


class Breaks(unittest.TestCase):
    def test_are_all_told_with_the_names_of_their_permutations(self):
        for number, case in enumerate(CASES):
            with self.subTest(case=number):
                files = {path: text.encode() for path, text in case["files"].items()}
                self.assertEqual((BROKEN if case["told"] else DONE, case["told"], ""), check(script_of(files)))

    def test_are_those_after_the_last_event(self):
        put = b"put tokens.json 2\n{}\n"
        self.assertEqual((DONE, "", ""), check(b"tokc-script 1\ncommit\n" + put))
        self.assertEqual(BROKEN, check(b"tokc-script 1\n" + put + b"commit\ndel tokens.json\n").status)

    def test_have_no_arguments(self):
        self.assertEqual((USAGE, "", "usage: tokc_check\n"), check(b"", "x"))

    def test_are_of_texts_that_were_moved_and_patched(self):
        script = b"tokc-script 2\nput a.json 2\n[]\nmove a.json tokens.json\npatch tokens.json 0 2 2\n{}\n"
        self.assertEqual((DONE, "", ""), check(script))

    def test_need_a_script(self):
        self.assertEqual((BAD_SCRIPT, "", "tokc_check: bad script at byte 14\n"), check(b"tokc-script 1\nx\n"))
        self.assertEqual((TOO_LONG, "", "tokc_check: script too long\n"), check(b"x" * (MOST_BYTES + 1)))

    def test_need_events_that_fit(self):
        self.assertEqual((BAD_EVENT, "", "tokc_check: event 2 does not fit\n"), check(b"tokc-script 2\ncommit\nmove a.json b.json\n"))

    def test_need_streams_that_work(self):
        for words, status, said in ((["sh", "-c", '"$0" <.', PROGRAM], READ_FAULT, "tokc_check: read failed\n"), (["sh", "-c", '"$0" >/dev/full', PROGRAM], WRITE_FAULT, "tokc_check: write failed\n")):
            with self.subTest(status=status):
                self.assertEqual((status, "", said), run(words, b"tokc-script 1\n"))


if __name__ == "__main__":
    unittest.main()
