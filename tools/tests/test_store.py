"""The program tokc_store over real folders: killed after every fifth system call, on a full disk, without permission, and past symbolic links.

Each is tried where the outputs stand in `out` of the folder, and where they stand right in it, with the lists in `.tokc`.
"""
import ctypes
import os
import signal
import subprocess
import sys
import tempfile
import unittest

from helpers import TOKC, TOP, make_program, outputs_in, program, run, tree, write

sys.path.insert(0, os.path.join(TOP, "tools"))

from tokcdir.program import outputs_of, script_of

PROGRAM = None
TRACE_ME, TO_NEXT_CALL = 0, 24
STEP = 5
DONE, REFUSED, USAGE, FAULT, BAD = 0, 1, 2, 10, 11


def setUpModule():
    global PROGRAM
    make_program()
    PROGRAM = program("tokc_store")


def themes(names, value):
    """A folder of one token in each of some themes."""
    contexts = ",".join(f'"{name}":[{{"a":{{"$type":"number","$value":{value}}}}}]' for name in names)
    order = '[{"type":"modifier","name":"theme","contexts":{%s}}]' % contexts
    return {"resolver.json": f'{{"version":"2025.10","resolutionOrder":{order}}}'.encode()}


OLD, NEW = script_of(themes(["dark", "light"], 1)), script_of(themes(["dim", "light"], 2))
# Has outputs that are written before one of the old ones is removed.
MORE = script_of(themes(["ash", "beige", "light"], 2))


def wanted(script):
    """The outputs of a script's files, as tokc tells them."""
    ran = subprocess.run([TOKC, "build"], input=script, capture_output=True, check=False)
    return outputs_of(ran.stdout)


def store(root, script):
    return run([PROGRAM, root], script).status


def killed_after(root, script, calls):
    """Runs the program, and kills it after so many system calls. Whether it ended before."""
    trace = ctypes.CDLL(None, use_errno=True).ptrace
    given, giving = os.pipe()
    child = os.fork()
    if child == 0:
        os.dup2(given, 0)
        os.close(giving)
        trace(TRACE_ME, 0, None, None)
        os.execv(PROGRAM, [PROGRAM, root])
    os.close(given)
    os.write(giving, script)
    os.close(giving)
    os.waitpid(child, 0)
    for _ in range(2 * calls):
        trace(TO_NEXT_CALL, child, None, None)
        _, status = os.waitpid(child, 0)
        if not os.WIFSTOPPED(status):
            return True
    os.kill(child, signal.SIGKILL)
    os.waitpid(child, 0)
    return False


class Folder:
    """The tests of one layout."""

    def setUp(self):
        room = tempfile.TemporaryDirectory()
        self.addCleanup(room.cleanup)
        self.room = room.name
        self.root = self.new("site")

    def test_brings_a_folder_to_the_outputs(self):
        for script in (OLD, NEW, NEW):
            self.assertEqual(DONE, store(self.root, script))
            self.assertEqual(wanted(script), self.standing(self.root))

    def test_mends_what_a_killed_run_left(self):
        outputs = {script: wanted(script) for script in (OLD, NEW)}
        end, calls = False, 1
        while not end:
            root = self.new(str(calls))
            self.assertEqual(DONE, store(root, OLD))
            end = killed_after(root, NEW, calls)
            for script in (OLD, NEW):
                self.assertEqual(DONE, store(root, script), f"{calls} calls")
                self.assertEqual(outputs[script], self.standing(root), f"{calls} calls")
            calls += STEP
        self.assertGreater(calls, 100)

    def test_words(self):
        ran = run([PROGRAM, "a", "b"], OLD)
        self.assertEqual((USAGE, "", "usage: tokc_store ROOT\n"), ran)

    def test_no_script(self):
        ran = run([PROGRAM, self.root], b"tokc-script 1\nput\n")
        self.assertEqual((3, "", "tokc_store: bad script at byte 14\n"), ran)
        self.assertEqual({}, tree(self.root))

    def test_a_refused_build(self):
        self.assertEqual(REFUSED, store(self.root, script_of({"tokens.json": b""})))
        self.assertEqual(["default/REFUSED"], list(self.standing(self.root)))

    def test_a_gate_without_a_manifest(self):
        write(os.path.join(self.root, self.LISTS, "0.ok"), b"")
        ran = run([PROGRAM, self.root], OLD)
        self.assertEqual((BAD, "", "tokc_store: bad manifest\n"), ran)

    def test_a_link_below_the_folder(self):
        outside = os.path.join(self.room, "outside")
        os.makedirs(outside)
        os.makedirs(os.path.join(self.root, self.OUT), exist_ok=True)
        os.symlink(outside, os.path.join(self.root, self.OUT, "theme=light"))
        ran = run([PROGRAM, self.root], OLD)
        self.assertEqual((FAULT, "", "tokc_store: store failed\n"), ran)
        self.assertEqual([], os.listdir(outside))

    def test_no_permission(self):
        if os.geteuid() == 0:
            self.skipTest("root may write everywhere")
        self.assertEqual(DONE, store(self.root, OLD))
        os.chmod(os.path.join(self.root, self.OUT), 0o500)
        self.assertEqual(FAULT, store(self.root, NEW))
        os.chmod(os.path.join(self.root, self.OUT), 0o700)
        self.assertEqual(DONE, store(self.root, NEW))
        self.assertEqual(wanted(NEW), self.standing(self.root))

    def test_a_full_disk(self):
        disk = os.path.join(self.room, "disk")
        os.makedirs(disk)
        made = subprocess.run(["mount", "-t", "tmpfs", "-o", "size=128k", "none", disk], capture_output=True, check=False)
        if made.returncode:
            self.skipTest("no file system can be mounted here")
        self.addCleanup(subprocess.run, ["umount", disk], check=False)
        self.new("disk")
        self.assertEqual(DONE, store(disk, OLD))
        filler = os.path.join(disk, "filler")
        with open(filler, "wb", buffering=0) as file:
            with self.assertRaises(OSError):
                while True:
                    file.write(bytes(4096))
        self.assertEqual(FAULT, store(disk, MORE))
        os.remove(filler)
        self.assertEqual(DONE, store(disk, MORE))
        self.assertEqual(wanted(MORE), self.standing(disk))


class Apart(Folder, unittest.TestCase):
    """Outputs in `out`, lists in `meta`."""

    OUT, LISTS = "out", "meta"

    def new(self, name):
        return os.path.join(self.room, name)

    def standing(self, root):
        return tree(os.path.join(root, "out"))

    def test_a_link_in_the_place_of_the_outputs(self):
        outside = os.path.join(self.room, "outside")
        os.makedirs(outside)
        os.makedirs(self.root)
        os.symlink(outside, os.path.join(self.root, "out"))
        self.assertEqual(FAULT, store(self.root, OLD))
        self.assertEqual([], os.listdir(outside))


class Within(Folder, unittest.TestCase):
    """Outputs right in the folder, lists in `.tokc`."""

    OUT, LISTS = "", ".tokc"

    def new(self, name):
        root = os.path.join(self.room, name)
        os.makedirs(os.path.join(root, ".tokc"))
        return root

    def standing(self, root):
        return outputs_in(root)

    def test_nothing_else_is_touched(self):
        for path in ("mine", "theme=light/mine", ".tokc/mine"):
            write(os.path.join(self.root, path), b"mine")
        for script in (OLD, NEW, OLD):
            self.assertEqual(DONE, store(self.root, script))
            self.assertEqual({**wanted(script), "mine": b"mine", "theme=light/mine": b"mine"}, self.standing(self.root))
        self.assertEqual({"0", "1", "1.ok", "mine"}, set(os.listdir(os.path.join(self.root, ".tokc"))))

    def test_a_file_is_replaced_by_a_rename(self):
        self.assertEqual(DONE, store(self.root, OLD))
        name = os.path.join(self.root, "theme=light", "tokens.css")
        with open(name, "rb") as old:
            self.assertEqual(DONE, store(self.root, NEW))
            self.assertEqual(wanted(OLD)["theme=light/tokens.css"], old.read())

    def test_a_link_in_the_place_of_the_lists(self):
        outside = os.path.join(self.room, "outside")
        os.makedirs(outside)
        for path in (".tokc/new", ".tokc"):
            name = os.path.join(self.root, path)
            if os.path.isdir(name):
                os.rename(name, os.path.join(self.room, "away"))
            os.symlink(outside, name)
            self.assertEqual(FAULT, store(self.root, OLD))
        self.assertEqual([], os.listdir(outside))


if __name__ == "__main__":
    unittest.main()
