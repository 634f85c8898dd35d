"""The table of stores of crates/stored_scripts is what `make-store-runs` makes, and each run that is said to leave the outputs leaves them."""
import os
import sys
import unittest

from helpers import SECONDS, TOKC, TOP, Room, load_tool, make_program, read, run, write

TOOL = os.path.join(TOP, "tools", "make-store-runs")
MAKE = load_tool("make-store-runs")


class Table(unittest.TestCase):
    @classmethod
    def setUpClass(cls):
        make_program()
        cls.rows = MAKE.rows(TOKC)

    def test_it_is_the_one_of_another_implementation_too(self):
        """It was made over an independent implementation, and is the same over tokc."""
        self.assertEqual(b"".join(map(MAKE.row_line, self.rows)), read(MAKE.DATA))

    def test_the_crate_counts_as_many(self):
        told = read(os.path.join(TOP, "crates", "stored_scripts", "stdout")).decode()
        self.assertEqual(told.splitlines()[-1], f"{len(self.rows)} stores answered")

    def test_the_rows_show_what_they_are_to_show(self):
        """Each call of a first run fails in turn, for removes that drop and that keep; and each status comes."""
        singles = {(row.fails[0], row.drops) for row in self.rows if len(row.fails) == 1 and row.name.startswith("call ")}
        self.assertEqual(singles, {(call, drops) for call in range(1, 16) for drops in (False, True)})
        found = set()
        for row in self.rows:
            store = MAKE.Store(set(row.fails), drops=row.drops)
            ends = [MAKE.status_over(store, it) for it in row.runs]
            found.update(ends)
            self.assertIn(ends[-1], (MAKE.DONE, MAKE.REFUSED), row.name)
            under = {place[4:]: data for place, data in store.held.items() if place.startswith("out/")}
            self.assertEqual(under, row.runs[-1].outputs, row.name)
        self.assertEqual(found, {MAKE.DONE, MAKE.REFUSED, MAKE.BAD_SCRIPT, MAKE.FAULT})


class Over(Room):
    def test_a_program_that_stops(self):
        write(self.at("program"), "#!/bin/sh\ncat >/dev/null; echo 'no memory' >&2; exit 6\n", 0o755)
        ran = run([sys.executable, TOOL, self.at("program")])
        self.assertEqual(ran, (1, "", "make-store-runs: status 6: no memory\n"))

    def test_words(self):
        for words in ([], ["a", "b"]):
            ran = run([sys.executable, TOOL, *words])
            self.assertEqual((ran.status, ran.out, ran.err), (2, "", "usage: make-store-runs PROGRAM > NEW\n"))
        self.assertEqual(run([sys.executable, TOOL, "--help"], seconds=SECONDS).status, 0)


if __name__ == "__main__":
    unittest.main()
