"""The table of crates/stored_scripts has what it is to have, and `make-scripts` makes it over a program that stands in for another compiler."""
import hashlib
import json
import os
import re
import subprocess
import sys
import tempfile
import unittest
from typing import NamedTuple

from helpers import SECONDS, TOP, Room, load_tool, read, write

sys.path.insert(0, os.path.join(TOP, "tools"))
from tokcdir import refusal

TOOL = os.path.join(TOP, "tools", "make-scripts")

MAKE = load_tool("make-scripts")
LARGE = MAKE.large_cases.rows()
RULES = set(refusal.SENTENCES)


class Row(NamedTuple):
    name: str
    word: str
    script: bytes
    stream: bytes
    status: int
    said: bytes


def rows_of(data):
    """The rows of a table, and of them those of the scripts that are no large ones, as they are. Fails where it is none."""
    found = MAKE.script_table.rows_of(data)
    plain = MAKE.script_table.plain
    count = len(found) - len(LARGE)
    return found, [Row(it.name, it.words, plain(it.script), plain(it.stream), it.status, plain(it.said)) for it in found[:count]]


class Table(unittest.TestCase):
    """What stands in the crate."""

    @classmethod
    def setUpClass(cls):
        cls.all, cls.rows = rows_of(read(MAKE.TABLE))

    def test_the_scripts_are_those_that_are_made(self):
        made = MAKE.rows()
        self.assertEqual([it.name for it in self.rows], [it.name for it in made])
        by_hand = len(MAKE.CASES)
        self.assertEqual([(it.word, it.script) for it in self.rows[:by_hand]], [(it.word, it.script) for it in made[:by_hand]])

    def test_events_end_as_is_wanted_by_hand(self):
        wanted = [(it.word, it.script, it.status, it.said.encode()) for it in MAKE.event_cases.CASES]
        self.assertEqual([(it.word, it.script, it.status, it.said) for it in self.rows[-len(wanted):]], wanted)

    def test_equal_scripts_of_both_versions_have_equal_streams(self):
        rows = {it.name: it for it in self.rows}
        for names in MAKE.event_cases.PAIRS:
            with self.subTest(names=names):
                first, second = map(rows.get, names)
                self.assertEqual((first.script[:14], second.script[:14]), (b"tokc-script 1\n", b"tokc-script 2\n"))
                self.assertEqual((first.word, first.stream, first.status), (second.word, second.stream, second.status))

    def test_each_reason_of_not_fitting_stands_often(self):
        fits = [it.name for it in self.rows if it.status == 9]
        for reason in ("a move of an absent path", "a patch of an absent path", "START above END", "END behind", "START at byte", "END at byte"):
            self.assertGreaterEqual(sum(f"does not fit: {reason}" in it for it in fits), 5, reason)
        self.assertGreaterEqual(sum(it.script.startswith(b"tokc-script 2\n") for it in self.rows), 120)

    def test_the_large_scripts_and_streams_are_those_that_are_made(self):
        self.assertEqual(self.all[len(self.rows):], LARGE)

    def test_the_crate_counts_as_many(self):
        told = read(os.path.join(os.path.dirname(MAKE.TABLE), "stdout")).decode()
        self.assertEqual(told.splitlines()[0], f"{len(self.all)} scripts answered")

    def test_each_rule_stands_in_a_stream(self):
        told = {rule.decode() for row in self.rows for rule in MAKE.RULE.findall(row.stream)}
        self.assertEqual(told, RULES)

    def test_values_are_refused_where_a_rule_is_told(self):
        first = len(MAKE.script_cases.CASES)
        cases = MAKE.value_cases.CASES
        refused = [row.status == 1 for row in self.rows[first:first + len(cases)]]
        self.assertEqual(refused, [it.rule is not None for it in cases])

    def test_what_else_the_streams_have(self):
        streams = b"".join(row.stream for row in self.rows)
        outputs = [b"/Tokens.swift ", b"/tokens.css ", b"/tokens.json ", b"/tokens.xml ", b"\nfile REFUSED ", b"\ngone REFUSED\n"]
        for text in [*outputs, b"platform css\n", b"platform android\n", b"platform swift\n", b"%C3%9F"]:
            self.assertIn(text, streams)
        self.assertTrue(any(b"commit 4\n" in row.stream for row in self.rows))

    def test_the_size(self):
        self.assertLess(len(read(MAKE.TABLE)), 3_400_000)
        self.assertLess(max(len(row.stream) for row in self.rows), 100_000)

    def test_streams_and_statuses_agree(self):
        by_hand = {it.script for it in MAKE.event_cases.CASES}
        for row in self.rows:
            if row.status == 3:
                self.assertEqual(row.stream, b"")
                continue
            self.assertTrue(row.stream.startswith(b"tokc-stats 1\n" if row.word == "stats" else b"tokc-stream 1\n"))
            if row.status == 9:
                self.assertNotRegex(row.stream, rb"\ndone [0-9]+\n\Z")
            elif row.script not in by_hand:
                commits = 1 if row.word == "build" else len(re.findall(rb"^commit$", row.script, re.M))
                self.assertRegex(row.stream, rb"\ndone %d\n\Z" % commits)


# Writes the stream that stands beside it, and ends with the status and the line that are wanted of a script of events, else with 1.
BY_HAND = f"""#!{sys.executable} -IS
import hashlib, json, os, sys
here = os.path.dirname(os.path.abspath(__file__))
wanted = json.load(open(os.path.join(here, "wanted")))
status, said = wanted.get(sys.argv[1] + hashlib.sha256(sys.stdin.buffer.read()).hexdigest(), [1, ""])
print(open(os.path.join(here, "stream")).read(), end="", flush=True)
sys.stderr.write(said)
sys.exit(status)
"""


class Makes(Room):
    """What `make-scripts` does with what a program answers."""

    def program(self, stream, status):
        return self.executable(stream, f"#!/bin/sh\ncat >/dev/null\ncat {self.at('stream')}\n{status}\n")

    def executable(self, stream, text):
        write(self.at("stream"), stream)
        write(self.at("program"), text)
        os.chmod(self.at("program"), 0o755)
        return self.at("program")

    def by_hand(self, stream, change=lambda said: said):
        """A program that answers scripts of events as is wanted, but for a change of what is said."""
        wanted = {it.word + hashlib.sha256(it.script).hexdigest(): (it.status, change(it.said)) for it in MAKE.event_cases.CASES}
        write(self.at("wanted"), json.dumps(wanted))
        return self.executable(stream, BY_HAND)

    def make(self, *words):
        ran = subprocess.run([sys.executable, "-B", TOOL, *words], capture_output=True, timeout=SECONDS, check=False)
        return ran.returncode, ran.stdout, ran.stderr.decode().splitlines()

    def test_the_table(self):
        stream = "".join(f"rule {rule}\n" for rule in sorted(RULES))
        status, out, err = self.make(self.by_hand(stream))
        table, found = rows_of(out)
        self.assertEqual(status, 0)
        self.assertEqual([(it.word, it.script) for it in found], [(it.word, it.script) for it in MAKE.rows()])
        events = MAKE.event_cases.CASES
        self.assertEqual({(it.stream, it.status, it.said) for it in found[:-len(events)]}, {(stream.encode(), 1, b"")})
        self.assertEqual([(it.stream, it.status, it.said) for it in found[-len(events):]], [(stream.encode(), it.status, it.said.encode()) for it in events])
        self.assertEqual(table[len(found):], LARGE)
        self.assertEqual(err[:-1], [f"{len(found):5} {rule}" for rule in sorted(RULES)])
        refused = sum(it.status == 1 for it in found)
        self.assertEqual(err[-1], f"{len(found)} scripts, {refused} of them refused at the end; {len(RULES)} rules; {len(out) - sum(len(it.line()) for it in LARGE)} bytes")

    def test_the_large_scripts_alone(self):
        self.assertEqual(self.make("--large"), (0, read(MAKE.TABLE), []))

    def test_answers_that_can_not_stand_there(self):
        cases = [("", "exit 3", "status 3: "), ("", "echo odd >&2", "status 0: odd"), ("rule json-depth\n", "exit 1", "no refusal tells its rule")]
        for stream, status, wanted in cases:
            with self.subTest(wanted=wanted):
                ended, out, err = self.make(self.program(stream, status))
                self.assertEqual((ended, out, len(err)), (1, b"", 1))
                self.assertTrue(err[0].startswith("make-scripts: ") and err[0].endswith(wanted), err)

    def test_another_line_than_is_wanted_of_events(self):
        stream = "".join(f"rule {rule}\n" for rule in sorted(RULES))
        ended, out, err = self.make(self.by_hand(stream, lambda said: said.replace("event 3 ", "event 2 ")))
        self.assertEqual((ended, out), (1, b""))
        self.assertRegex(err[0], r"\Amake-scripts: does not fit: .*: status 9: tokc: event 2 does not fit\Z")

    def test_words(self):
        self.assertEqual(self.make()[0], 2)
        self.assertEqual(self.make("a", "b")[0], 2)


class RandomScripts(unittest.TestCase):
    """A seed says all of a script."""

    def test_the_same_for_the_same_seed(self):
        commits = MAKE.random_scripts.commits
        self.assertEqual(commits(3), commits(3))
        self.assertEqual(len({MAKE.script_of(commits(seed)) for seed in range(20)}), 20)

    def test_events_of_both_versions(self):
        events = MAKE.random_scripts.events
        self.assertEqual(events(4), events(4))
        found = [events(seed) for seed in range(60)]
        self.assertEqual({it[:14] for it in found}, {b"tokc-script 1\n", b"tokc-script 2\n"})
        for word in (b"move", b"patch", b"put", b"del"):
            self.assertRegex(b"".join(found), rb"\n%s [^ ]+" % word)

    def test_programs_that_answer_otherwise(self):
        with tempfile.TemporaryDirectory() as room:
            names = [os.path.join(room, it) for it in ("one", "other")]
            for name, status in zip(names, (0, 9)):
                write(name, f"#!/bin/sh\ncat >/dev/null\nexit {status}\n", 0o755)
            tool = os.path.join(TOP, "tools", "random_scripts.py")

            def ended(*words):
                ran = subprocess.run([sys.executable, "-B", tool, *words], capture_output=True, timeout=SECONDS, check=False)
                return ran.returncode, ran.stdout.decode().splitlines()

            self.assertEqual(ended(names[0], names[0], "0", "2"), (0, ["3 scripts (3 with 0), 0 answered otherwise"]))
            told = ["seed 2: replay: status 0 and 9", "seed 3: build: status 0 and 9", "2 scripts (2 with 0), 2 answered otherwise"]
            self.assertEqual(ended(*names, "2", "3"), (1, told))
            self.assertEqual(ended(*names, "2"), (2, []))

    def test_names_are_as_they_are_told(self):
        names = [it.name for it in [*MAKE.rows(), *LARGE]]
        self.assertEqual(len(set(names)), len(names))


if __name__ == "__main__":
    unittest.main()
