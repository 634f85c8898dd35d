"""`tools/edits` over a stand-in for `rt`, which answers of a crate's edits what stands in its file `said`; and the edits of this repository."""
import importlib.machinery
import importlib.util
import os
import shutil
import subprocess
import sys
import unittest

from helpers import SECONDS, TOP, Room, read, run, write

# Proves a crate where each crate below it has its library here, and tries edits over what is proved and kept of their crate.
RT = """#!/bin/sh
case $1 in
lib)
    name=${PWD##*/}
    [ ! -e broken ] || exit 3
    for below in $(sed -n "s/^$name://p" ../../crates.txt); do
        [ -e "../$below/out/rlib/stamp" ] || exit 4
    done
    mkdir -p out/rlib out/incremental && echo "$name" >out/rlib/stamp && echo "the work of $name" >out/incremental/kept
    ;;
must-fail)
    cd "crates/$2" || exit 5
    [ -e out/rlib/stamp ] && [ -e out/incremental/kept ] && [ ! -e must-fail/tried ] || exit 6
    echo "$2 is tried by $RT_JOBS at once: $(cd must-fail && echo *)"
    sed "s|^|rt: must-fail $2/|" said
    exit "$(cat status)"
    ;;
*) exit 9 ;;
esac
"""
WELL = "refused, as it must be"


def tool():
    """The program as a module."""
    path = os.path.join(TOP, "tools", "edits")
    loader = importlib.machinery.SourceFileLoader("edits_tool", path)
    made = importlib.util.module_from_spec(importlib.util.spec_from_file_location("edits_tool", path, loader=loader))
    loader.exec_module(made)
    return made


class Edits(Room):
    """Two crates with an edit or two, the upper one on the lower, and one without."""

    def setUp(self):
        super().setUp()
        for it in ("edits", "copies.py"):
            os.makedirs(self.at("tools"), exist_ok=True)
            shutil.copy(os.path.join(TOP, "tools", it), self.at("tools"))
        write(self.at("bin/rt"), RT)
        os.chmod(self.at("bin/rt"), 0o755)
        write(self.at("HANDLES"), "Handles allowed: none.\n")
        write(self.at("crates.txt"), "# three crates\nlow:\ntop: low\nplain:\n")
        for name, edits in (("low", ["a", "b"]), ("top", ["c"]), ("plain", [])):
            write(self.at("crates", name, "src/lib.rt"), f"//! {name}\n\nfn one() -> u8 {{\n    1\n}}\n")
            write(self.at("crates", name, "specs/Lib.antt"), f"-- {name}\none : Nat\none = 1\n")
            write(self.at("crates", name, "proofs/One.antt"), "law : one ≡ 1\n")
            for edit in edits:
                write(self.at("crates", name, "edits", f"{edit}.edit"), "file: src/lib.rt\nold:     1\nnew:     2\n")
            self.answer(name, {it: f"{WELL}: src/lib.rt:3:1: error" for it in edits})

    def answer(self, name, said, status=0):
        """Has `rt` say this of each edit, and end so."""
        write(self.at("crates", name, "said"), "".join(f"{edit}.edit: {it}\n" for edit, it in said.items()))
        write(self.at("crates", name, "status"), str(status))

    def edits(self, *words):
        """The exit status, and the lines that are said, without the times that it took."""
        env = dict(os.environ, PATH=self.at("bin") + os.pathsep + os.environ["PATH"])
        ran = subprocess.run([sys.executable, self.at("tools/edits"), *words], capture_output=True, text=True, env=env, timeout=SECONDS, check=False, cwd="/")
        return ran.returncode, [it for it in ran.stdout.splitlines() if " took " not in it]

    def stale(self):
        status, said = self.edits("--list")
        self.assertEqual(status, 0)
        return [it.removesuffix(" is stale") for it in said]

    def test_refused_edits_are_noted_and_tried_once(self):
        self.assertEqual(self.stale(), ["low", "top"])
        status, said = self.edits("--jobs", "4")
        self.assertEqual((status, said[-1], self.stale()), (0, "2 passed, 0 failed", []))
        self.assertLessEqual({"low is tried by 2 at once: a.edit b.edit", "top is tried by 2 at once: c.edit"}, set(said))
        self.assertEqual(self.edits("--stale"), (0, ["2 passed, 0 failed"]))
        self.assertIn("low is tried by 1 at once: a.edit b.edit", self.edits("--jobs", "1", "--all")[1])

    def test_what_is_proved_stands_in_the_checkout(self):
        self.assertEqual(self.edits("top")[0], 0)
        self.assertEqual(read(self.at("crates/low/out/incremental/kept")), b"the work of low\n")
        self.assertEqual(read(self.at("crates/top/out/rlib/stamp")), b"top\n")
        self.assertEqual(self.stale(), ["low"])

    def test_a_library_below_is_taken(self):
        write(self.at("crates/low/out/rlib/stamp"), "the gate's\n")
        write(self.at("crates/low/broken"), "")
        status, said = self.edits("top")
        self.assertEqual((status, said[-1]), (0, "1 passed, 0 failed"))
        self.assertIn("edits: proves top", said)
        self.assertNotIn("edits: proves low", said)

    def test_edits_that_are_not_refused_for_their_meaning(self):
        self.edits()
        kept = read(self.at("crates/low/edits/tried"))
        for said, status in (
            ("NOT REFUSED: the crate is still proved with this edit", 1),
            ("BAD EDIT: an 'old:' text is in src/lib.rt 2 times, and not once", 1),
            ("NOT TRIED: its check was killed", 1),
            (f"{WELL} (only because a proof file names what the edit took away, so this says little)", 0),
            (f"{WELL} (only by a limit of the prover, which gave no verdict)", 0),
        ):
            with self.subTest(said=said):
                write(self.at("crates/low/edits/tried"), kept)
                self.answer("low", {"a": WELL, "b": said}, status)
                ended, lines = self.edits("low")
                self.assertEqual((ended, lines[-2:]), (1, ["edits: not refused: low/b.edit", "0 passed, 1 failed"]))
                self.assertFalse(os.path.exists(self.at("crates/low/edits/tried")))
        self.assertEqual(self.stale(), ["low"])

    def test_an_edit_of_which_nothing_is_said(self):
        self.answer("low", {"a": WELL})
        status, said = self.edits()
        self.assertEqual((status, said[-2:]), (1, ["edits: not refused: low/b.edit", "1 passed, 1 failed"]))

    def test_a_crate_that_is_not_proved(self):
        self.edits()
        shutil.rmtree(self.at("crates/low/out"))
        write(self.at("crates/low/broken"), "")
        status, said = self.edits("top")
        self.assertEqual((status, said[-2:]), (1, ["edits: not refused: top/*", "0 passed, 1 failed"]))

    def test_what_makes_a_crate_stale(self):
        checksum, folder = tool().checksum, self.at("crates/low")
        source, edit = self.at("crates/low/src/lib.rt"), self.at("crates/low/edits/a.edit")
        code, changes, kept = read(source).decode(), read(edit).decode(), checksum(folder)
        for name, text, wanted in (
            (source, code.replace("//! low", "//! lowest") + "\n// no code\n", True),
            (source, code + "#[cfg(test)]\nmod tests;\n", True),
            (source, code.replace("    1", "    2"), False),
            (source, code + 'const TEXT: &str = "\n// no comment\n";\n', False),
            (self.at("crates/low/src/tests/table.rt"), "fn test() {}\n", True),
            (self.at("crates/low/src/tests.rt"), "mod table;\n", True),
            (self.at("crates/low/src/more.rt"), "fn more() {}\n", False),
            (self.at("crates/low/specs/inner/More.antt"), "more : Nat\n", False),
            (self.at("crates/low/specs/Lib.antt"), "\n-- other words\none : Nat\n\none = 1\n", True),
            (self.at("crates/low/specs/Lib.antt"), "one : Nat\none = 2\n", False),
            (self.at("crates/low/proofs/One.antt"), "", True),
            (edit, changes.replace("new:     2", "new:     3"), False),
            (edit, changes.replace("new:     2", "new:     2 "), False),
            (edit, "# turns the answer\n" + changes, True),
            (self.at("crates/low/edits/d.edit"), changes, False),
        ):
            with self.subTest(name=os.path.relpath(name, self.room), text=text):
                before = read(name) if os.path.exists(name) else None
                write(name, text)
                self.assertEqual(checksum(folder) == kept, wanted)
                os.remove(name)
                if before is not None:
                    write(name, before)
        self.assertEqual(checksum(folder), kept)

    def test_edits_that_cannot_be_applied(self):
        misfit, folder, edit = tool().misfit, self.at("crates/top"), self.at("crates/top/edits/c.edit")
        self.assertIsNone(misfit(folder, "c.edit"))
        for text, why in (
            ("file: src/lib.rt\nold: 2\nnew: 3\n", "src/lib.rt has its `old:` 0 times: 2"),
            ("file: src/lib.rt\nold: n\nnew: m\n", "src/lib.rt has its `old:` 2 times: n"),
            ("file: src/lib.rt\nold: 1\nnew: 1\n", "its `new:` is its `old:`"),
            ("file: src/gone.rt\nold: 1\nnew: 2\n", "there is no file src/gone.rt"),
            ("old: 1\nnew: 2\n", "it has a `new:` without a `file:` and an `old:` before it"),
            ("file: src/lib.rt\n", "it has no `old:` and `new:`"),
        ):
            with self.subTest(text=text):
                write(edit, text)
                self.assertEqual(misfit(folder, "c.edit"), why)
        self.assertEqual(self.edits("--list", "top"), (1, ["top is stale", f"top/c.edit can't be applied: {why}"]))

    def test_arguments_that_are_none(self):
        for words in (["plain"], ["nothing"], ["--all", "low"], ["--jobs", "0"], ["--stale", "--list"], ["--other"]):
            with self.subTest(words=words):
                self.assertEqual(self.edits(*words), (2, []))


class OfThisRepository(unittest.TestCase):
    """The edits of the crates."""

    def test_each_can_be_applied(self):
        ran = run([sys.executable, os.path.join(TOP, "tools", "edits"), "--list"])
        self.assertEqual([it for it in ran.out.splitlines() if "can't be applied" in it], [])
        self.assertEqual((ran.status, ran.err), (0, ""))


if __name__ == "__main__":
    unittest.main()
