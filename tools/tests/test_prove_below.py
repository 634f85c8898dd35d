"""`tools/prove-below` over a stand-in for `rt`, which keeps in a copy what it proved there."""
import os
import shutil
import subprocess
import sys
import unittest

from helpers import SECONDS, TOP, Room, read, tree, write

# Proves a crate where each crate below it has its library here, and tells which work of an earlier check it took.
RT = """#!/bin/sh
[ "$1 $2" = "lib --jobs" ] || exit 9
name=${PWD##*/}
[ ! -e broken ] || exit 3
for below in $(sed -n "s/^$name://p" ../../crates.txt); do
    [ -e "../$below/out/rlib/stamp" ] || exit 4
done
mkdir -p out/rlib out/incremental
[ ! -e out/rlib/stamp ] || echo "$name is built"
[ ! -e out/incremental/kept ] || echo "$name takes $(cat out/incremental/kept)"
rm -rf out/rlib && mkdir out/rlib && echo "$name" >out/rlib/stamp
echo "the work of $name" >out/incremental/kept
"""


class ProveBelow(Room):
    """Four crates, two of which stand side by side between the others."""

    def setUp(self):
        super().setUp()
        os.mkdir(self.at("tools"))
        for it in ("prove-below", "copies.py"):
            shutil.copy(os.path.join(TOP, "tools", it), self.at("tools"))
        write(self.at("bin/rt"), RT)
        os.chmod(self.at("bin/rt"), 0o755)
        write(self.at("HANDLES"), "Handles allowed: none.\n")
        write(self.at("crates.txt"), "# four crates\nlow:\nleft: low\nright: low\ntop: left right low\n")
        for name in ("low", "left", "right", "top"):
            write(self.at("crates", name, "src/lib.rt"), f"// {name}\n")

    def prove(self, *command):
        """How proving what `top` stands on ends, and the lines that are said, without the times that it took."""
        env = dict(os.environ, PATH=self.at("bin") + os.pathsep + os.environ["PATH"])
        words = [sys.executable, self.at("tools/prove-below"), "top", *command]
        ran = subprocess.run(words, capture_output=True, text=True, env=env, timeout=SECONDS, check=False, cwd="/")
        return ran.returncode, [it for it in ran.stdout.splitlines() if " took " not in it]

    def kept(self):
        """What the checkout has of the crates' out/, by crate and file."""
        return {path: data for path, data in tree(self.at("crates")).items() if "/out/" in path}

    def test_libraries_reach_every_copy_and_the_checkout(self):
        status, said = self.prove("cat", "../low/out/rlib/stamp")
        self.assertEqual((status, said[0], sorted(said[1:3]), said[3:]), (0, "prove-below: proves low", ["prove-below: proves left", "prove-below: proves right"], ["low"]))
        wanted = {}
        for name in ("low", "left", "right"):
            wanted[f"{name}/out/rlib/stamp"] = b"%s\n" % name.encode()
            wanted[f"{name}/out/incremental/kept"] = b"the work of %s\n" % name.encode()
        self.assertEqual(self.kept(), wanted)

    def test_what_the_checkout_has_is_taken(self):
        self.prove("true")
        before = self.kept()
        status, said = self.prove("true")
        self.assertEqual(status, 0)
        self.assertLessEqual({"low is built", "low takes the work of low", "left takes the work of left", "right is built"}, set(said))
        self.assertEqual(self.kept(), before)

    def test_a_failed_proof_keeps_its_work_and_gives_no_library(self):
        write(self.at("crates/right/broken"), b"")
        write(self.at("crates/right/out/incremental/kept"), b"earlier\n")
        status, said = self.prove("echo", "not said")
        self.assertEqual(status, 3)
        self.assertNotIn("not said", said)
        self.assertEqual(read(self.at("crates/right/out/incremental/kept")), b"earlier\n")
        self.assertFalse(os.path.exists(self.at("crates/right/out/rlib")))

    def test_the_status_of_the_command(self):
        self.assertEqual(self.prove("sh", "-c", "exit 7")[0], 7)


if __name__ == "__main__":
    unittest.main()
