"""`tools/proof-cost` over files of given sizes."""
import os
import shutil
import sys
import unittest

from helpers import TOP, Ran, Room, run, write

MADE = {
    "one/Rattle-low-proofs.reading.read_all.Lts.oantt": 3_200_000,
    "one/Rattle-low-proofs.reading.read_all.Lts.View.oantt": 50_000,
    "one/Rattle-low-proofs.reading.read_all.Proof.oantt": 9_000_000,
    "one/records/Rattle-low-proofs.reading.read_all.Lts.oantt": 9_000_000,
    "one/Rattle-low-proofs.list.List.put.Lts.oantt": 3_000_000,
    "one/Rattle-low-proofs.list.ListDebug.fmt.Lts.oantt": 500_000,
    "one/Rattle-low-proofs.list.List.lost.Lts.oantt": 9_000_000,
    "one/Rattle-low-proofs.reading.lost.Lts.oantt": 9_000_000,
    "one/Rattle-low-proofs.list.+walk.Lts-walk.Given.oantt": 20_000,
    "one/Rattle-low-proofs.list.+walk.Lts-ListDebug-fmt.oantt": 100_000,
    "one/Rattle-low-proofs.list.+walk.Lts-lost.oantt": 9_000_000,
    "one/Rattle-low-proofs.+low-list-drop.Lts-low++list++List+Destruct-drop.oantt": 30_000,
    "one/Rattle-low-proofs.reading.fn.lost.any+FnMut.call_mut.Lts.oantt": 9_000_000,
    "one/Rattle-low-proofs.std_alloc++string++String+Destruct.+drop.Lts-drop.oantt": 250_000,
    "one/Rattle-low-proofs.list.fn.put.any+FnMut.call_mut.Lts.oantt": 10_000,
    "one/Rattle-lower-proofs.list.other.Lts.oantt": 9_000_000,
}
SOURCES = {
    "reading.rt": "pub fn read_all() {}\n// lost\n",
    "list.rt": "pub struct List {}\nimpl List {\n    pub fn put() {}\n}\nfn walk() {}\n",
}
LISTED = """\
    3.25  reading::read_all  over 3 MB
    3.00  list::List::put
    0.60  list::ListDebug::fmt
    0.25  std_alloc::string::String as Destruct::drop
    0.03  low::list::List as Destruct::drop
    0.02  list::walk
    0.01  list::fn::put::any as FnMut::call_mut
    7.16  low, 7 functions
"""


class ProofCost(Room):
    """A crate of seven functions, and one of which nothing was made."""

    def setUp(self):
        super().setUp()
        os.mkdir(self.at("tools"))
        shutil.copy(os.path.join(TOP, "tools", "proof-cost"), self.at("tools"))
        for path, text in SOURCES.items():
            write(self.at("crates/low/src", path), text)
        for path, size in MADE.items():
            self.make(path, size)

    def make(self, path, size, time=2_000_000_000):
        name = self.at("crates/low/out/incremental", path)
        write(name, bytes(size))
        os.utime(name, (time, time))

    def cost(self, *words):
        return run([sys.executable, self.at("tools/proof-cost"), *words], at=self.room)

    def test_the_largest_first(self):
        self.assertEqual(self.cost("low"), Ran(0, LISTED, ""))

    def test_bounds(self):
        for words, warned, status in (
            (["--over", "2.5"], 2, 0),
            (["--over", "4"], 0, 0),
            (["--most", "3.3"], 1, 0),
            (["--most", "3.2"], 1, 1),
            (["--over", "0.1", "--most", "2"], 4, 1),
        ):
            with self.subTest(words=words):
                ran = self.cost(*words, "low")
                self.assertEqual((ran.status, ran.out.count("  over ")), (status, warned))

    def test_the_newest_of_several_checkers(self):
        self.make("old/Rattle-low-proofs.reading.read_all.Lts.oantt", 8_000_000, 1_000_000_000)
        self.assertEqual(self.cost("low").out, LISTED)
        self.make("new/Rattle-low-proofs.list.List.put.Lts.oantt", 4_000_000, 2_100_000_000)
        self.assertEqual(self.cost("low").out.splitlines()[0], "    4.00  list::List::put  over 3 MB")

    def test_a_crate_that_was_not_checked(self):
        ran = self.cost("low", "none")
        self.assertEqual((ran.status, ran.out, ran.err), (2, LISTED, "nothing was made of none: run rt check in crates/none\n"))


if __name__ == "__main__":
    unittest.main()
