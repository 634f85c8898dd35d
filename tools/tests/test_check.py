"""`./check` adds up what `rt ci`, the edits and the tests of tools/ say, over stand-ins for `rt` and `tools/edits`."""
import os
import shutil
import subprocess
import sys
import unittest

from helpers import SECONDS, TOP, Room, write

GOOD = "import unittest\nclass A(unittest.TestCase):\n    def test_one(self): pass\n    def test_two(self): pass\n"
BAD = GOOD + "    def test_three(self): self.fail()\n"
BROKEN = "import nothing_of_this_name\n"
EDITS = "edits: all is well\n5 passed, 0 failed"


class Check(Room):
    """The closing line, and the exit status."""

    def stand_for(self, name, words, said, status):
        """Makes a program that takes these words, and says and ends so."""
        write(self.at(name), f"#!/bin/sh\n[ \"$*\" = '{words}' ] || exit 9\ncat <<'END'\n{said}\nEND\nexit {status}\n")
        os.chmod(self.at(name), 0o755)

    def check(self, gate, edits, tests):
        """The exit status and the closing line of a gate and edits, each with what it says and its status, over tests of its own."""
        shutil.copy(os.path.join(TOP, "check"), self.at("check"))
        shutil.rmtree(self.at("tools"), ignore_errors=True)
        self.stand_for("bin/rt", "ci", *gate)
        self.stand_for("tools/edits", "--stale", *edits)
        write(self.at("tools/tests/test_it.py"), tests)
        env = dict(os.environ, PATH=self.at("bin") + os.pathsep + os.environ["PATH"])
        ran = subprocess.run([sys.executable, self.at("check")], capture_output=True, text=True, env=env, timeout=SECONDS, check=False, cwd="/")
        return ran.returncode, ran.stdout.splitlines()[-1]

    def test_each_ending(self):
        gate, edits = ("a line\n30 passed, 0 failed", 0), (EDITS, 0)
        cases = [
            (gate, edits, GOOD, (0, "37 passed, 0 failed")),
            (gate, edits, BAD, (1, "37 passed, 1 failed")),
            (gate, edits, BROKEN, (1, "35 passed, 1 failed")),
            (gate, edits, "", (1, "35 passed, 1 failed")),
            (gate, ("edits: not refused: low/a.edit\n4 passed, 1 failed", 1), GOOD, (1, "36 passed, 1 failed")),
            (gate, (EDITS, 1), GOOD, (1, "37 passed, 1 failed")),
            (gate, ("killed on the way", 0), GOOD, (1, "32 passed, 1 failed")),
            (gate, ("0 passed, 0 failed", 0), BAD, (1, "32 passed, 2 failed")),
            (("28 passed, 2 failed", 1), edits, GOOD, (1, "28 passed, 2 failed")),
            (("30 passed, 0 failed", 1), edits, GOOD, (1, "30 passed, 1 failed")),
            (("killed on the way", 0), edits, GOOD, (1, "0 passed, 1 failed")),
            (("0 passed, 0 failed", 0), edits, GOOD, (1, "0 passed, 1 failed")),
        ]
        for gate, edits, tests, wanted in cases:
            with self.subTest(gate=gate, edits=edits, tests=tests):
                self.assertEqual(self.check(gate, edits, tests), wanted)

    def test_no_toolchain(self):
        shutil.copy(os.path.join(TOP, "check"), self.at("check"))
        env = dict(os.environ, PATH=self.at("bin"))
        ran = subprocess.run([sys.executable, self.at("check")], capture_output=True, text=True, env=env, timeout=SECONDS, check=False)
        self.assertEqual((ran.returncode, ran.stdout, ran.stderr), (1, "rt ci can't be run: No such file or directory\n0 passed, 1 failed\n", ""))


if __name__ == "__main__":
    unittest.main()
