"""`bench/run` measures programs that stand in for tokc, and its scripts are scripts."""
import importlib.machinery
import importlib.util
import os
import re
import subprocess
import sys
import unittest

from helpers import SECONDS, TOP, Room, write

BENCH = os.path.join(TOP, "bench", "run")
LIMIT = 67_108_864

# Scripts that take long to make, and are of the same form as others.
SLOW = {"62 MB of small tokens", "60 MB of numbers in a list", "30 commits of 16,000 tokens of all types"}

# Programs that read their script and then hold so much, work a while, or end with another status.
PYTHON = f"#!{sys.executable} -IS\nimport sys\nsys.stdin.buffer.read()\n"
SMALL = "#!/bin/sh\ncat >/dev/null\n"


def loaded():
    """The tool as a module."""
    loader = importlib.machinery.SourceFileLoader("bench_run", BENCH)
    module = importlib.util.module_from_spec(importlib.util.spec_from_loader("bench_run", loader))
    loader.exec_module(module)
    return module


RUN = loaded()
EVENT = re.compile(r"commit\n|(?:put|patch) ([a-z0-9/.]+)(?: [0-9]+ [0-9]+)? (0|[1-9][0-9]{0,7})\n")


def events_of(script):
    """The paths that a script puts and patches, with None for a commit. Fails where it is no script."""
    found, at = [], 0
    while at < len(script):
        event = EVENT.match(script, at)
        if event is None:
            raise ValueError(f"no event at {at}")
        found.append(event[1])
        at = event.end() + (int(event[2]) + 1 if event[1] else 0)
        if script[at - 1] != "\n":
            raise ValueError(f"no end of a line before {at}")
    return found


class Measures(Room):
    """The table of stand-ins."""

    def program(self, name, text):
        write(self.at(name), text)
        os.chmod(self.at(name), 0o755)
        return self.at(name)

    def table(self, program, *words):
        """The lines of the table, as lists of cells."""
        env = dict(os.environ, TOKC=program)
        words = [sys.executable, "-B", BENCH, *words]
        ran = subprocess.run(words, capture_output=True, text=True, env=env, timeout=SECONDS, check=False, cwd=self.room)
        self.assertEqual((ran.returncode, ran.stderr), (0, ""))
        return [line[2:-2].split(" | ") for line in ran.stdout.splitlines()]

    def test_both_words_of_the_named_scripts(self):
        lines = self.table(self.program("small", SMALL), "--runs", "1", "chains of 61")
        self.assertEqual(lines[0], ["script", "word", "MB", "seconds", "MB/s", "peak, MB"])
        self.assertEqual([line[:3] for line in lines[2:]], [["250 chains of 61 groups", word, "0.10"] for word in ("build", "replay")])
        self.assertEqual(len(self.table(self.program("small", SMALL), "--runs", "1", "--word", "build", "of all types")), 2 + 5)

    def test_words_and_script(self):
        program = self.program("keeps", f'#!/bin/sh\nexec >>"{self.at("words")}"\necho "$@"\nhead -c 20\necho\n')
        lines = self.table(program, "--runs", "2", "doubling", "gen")
        self.assertEqual([line[2] for line in lines[2:]], ["0.00", "0.00", "-"])
        with open(self.at("words"), encoding="ascii") as file:
            said = file.read()
        start = "tokc-script 1\nput to\n"
        self.assertEqual(said, f"build\n{start}" * 2 + f"replay\n{start}" * 2 + "gen 7 4000\n\n" * 2)

    def test_the_peak_is_the_program_s_own(self):
        holds = self.program("holds", PYTHON + "room = bytearray(80_000_000)\n")
        both = self.table(self.program("small", SMALL), "--against", holds, "--runs", "1", "--word", "build", "doubling")[2]
        self.assertLess(float(both[5]), 6)
        self.assertGreater(float(both[8]), 80)
        self.assertLess(float(both[8]), 110)
        self.assertLess(float(both[10]), 0.1)

    def test_seconds_and_their_ratio(self):
        works = self.program("crates/tokc/out/tokc", PYTHON + "import time\nwhile time.process_time() < 0.5: pass\n")
        both = self.table(works, "--against", self.room, "--runs", "1", "--word", "replay", "doubling")
        self.assertEqual(both[0][6:], ["other seconds", "other MB/s", "other peak, MB", "ratio of seconds", "ratio of peaks"])
        self.assertTrue(0.5 <= float(both[2][3]) < 5 and 0.5 <= float(both[2][6]) < 5, both[2])
        self.assertEqual(len(both[1]), len(both[2]))

    def test_a_program_that_does_not_build(self):
        no = self.program("no", SMALL + "exit 8\n")
        both = self.table(self.program("refuses", SMALL + "exit 1\n"), "--against", no, "--runs", "2", "--word", "build", "doubling")[2]
        self.assertEqual(both[6:], ["status 8", "-", "-", "-", "-"])
        self.assertNotIn("-", both[:6])

    def test_an_absent_program(self):
        env = dict(os.environ, TOKC=self.program("small", SMALL))
        words = [sys.executable, "-B", BENCH, "--against", self.room]
        ran = subprocess.run(words, capture_output=True, text=True, env=env, timeout=SECONDS, check=False)
        self.assertEqual(ran.returncode, 1)
        self.assertIn("there is no such program", ran.stderr)


class Scripts(unittest.TestCase):
    """What is measured."""

    def test_each_is_a_script_within_the_limit(self):
        for name, make in {**RUN.SCRIPTS, **RUN.PATCHES}.items():
            if name in SLOW:
                continue
            with self.subTest(name=name):
                script = make()
                self.assertLess(len(script) + len("tokc-script 1\n"), LIMIT)
                self.assertTrue(script.isascii())
                found = events_of(script)
                self.assertEqual(found[-1], None)
                if "commits" in name:
                    self.assertEqual(found.count(None), int(name.split(" ")[0].replace(",", "")))

    def test_patches_of_one_byte(self):
        """Each changes the byte, and the file has the same length after it."""
        script = RUN.patched(2_100)
        text = script.split("\n")[1]
        self.assertAlmostEqual(len(text) / 1e3, 90, delta=1)
        found = re.findall(r"^patch tokens.json ([0-9]+) ([0-9]+) 1\n([0-9])\ncommit$", script, re.M)
        self.assertEqual(len(found), 2_099)
        text = list(text)
        for start, end, digit in found:
            self.assertEqual(int(end), int(start) + 1)
            self.assertTrue(text[int(start)].isdigit() and text[int(start)] != digit)
            text[int(start)] = digit

    def test_sizes(self):
        for megabytes in (1, 4, 10):
            self.assertAlmostEqual(len(RUN.large(megabytes)) / 1e6, megabytes, delta=0.02)

    def test_a_resolver_and_its_files(self):
        found = events_of(RUN.permutations(2, 4, 1_000))
        self.assertEqual(found, ["resolver.json", "core.json", *(f"m{i}c{j}.json" for i in range(2) for j in range(4)), None])
        self.assertEqual(len(events_of(RUN.folded())), 1_024 + 2)


if __name__ == "__main__":
    unittest.main()
