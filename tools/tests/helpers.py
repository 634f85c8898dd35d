"""What the tests of tools/ share: folders of their own, and a program that stands in for tokc."""
import importlib.machinery
import importlib.util
import os
import shutil
import subprocess
import sys
import tempfile
import unittest
from typing import NamedTuple

TOP = os.path.dirname(os.path.dirname(os.path.dirname(os.path.abspath(__file__))))
TOKC = os.path.join(TOP, "tokc")
TOKC_DIR = os.path.join(TOP, "tools", "tokc-dir")
SECONDS = 300

FIRST = os.path.join(TOP, "examples", "first.script")

# Keeps the script that it is given, and answers with what stands in the folder to which `now` leads when it starts.
STAND_IN = """#!/bin/sh
cd "${0%/*}" && cd now && cat >../script && cat stream && cat said >&2 && exit "$(cat status)"
"""


def make_program():
    """Compiles the programs, which takes minutes, where no `rt ci` went before."""
    with tempfile.TemporaryDirectory() as room:
        for words in (["build"], ["store", room], ["check"], ["themes"], ["explain", "show", "default", "#/space/s"]):
            with open(FIRST, "rb") as first:
                subprocess.run([TOKC, *words], stdin=first, stdout=subprocess.DEVNULL, check=True)


def program(name="tokc"):
    """The program of this name that was made last: the one that is proved, or the one that is compiled without a check of its proof."""
    made = [os.path.join(TOP, "crates", name, "out", *parts) for parts in ((name,), ("unproved", name))]
    return max(filter(os.path.exists, made), key=os.path.getmtime)


def load_tool(name):
    """A program of tools/ as a module."""
    loader = importlib.machinery.SourceFileLoader(name.replace("-", "_"), os.path.join(TOP, "tools", name))
    module = importlib.util.module_from_spec(importlib.util.spec_from_loader(loader.name, loader))
    loader.exec_module(module)
    return module


class Ran(NamedTuple):
    """How a program ended: its exit status, and what it wrote as text."""

    status: int
    out: str
    err: str


def run(words, given=b"", tokc=None, at=TOP, seconds=SECONDS):
    """Runs a command in a folder, with another program for tokc where one is given."""
    env = dict(os.environ, PYTHONDONTWRITEBYTECODE="1")
    env.pop("TOKC", None)
    if tokc:
        env["TOKC"] = tokc
    ran = subprocess.run(words, input=given, capture_output=True, cwd=at, env=env, timeout=seconds, check=False)
    return Ran(ran.returncode, ran.stdout.decode(), ran.stderr.decode())


def write(name, data, mode=0o644):
    """Writes a file, by a rename, so that a watch never sees half of it."""
    os.makedirs(os.path.dirname(name), exist_ok=True)
    with open(name + ".part", "wb") as file:
        file.write(data if isinstance(data, bytes) else data.encode())
    os.chmod(name + ".part", mode)
    os.replace(name + ".part", name)


def read(name):
    with open(name, "rb") as file:
        return file.read()


def tree(folder):
    """The files below a folder, by their paths, with their bytes."""
    found = {}
    for at, _, names in os.walk(folder):
        for name in names:
            path = os.path.join(at, name)
            found[os.path.relpath(path, folder)] = read(path)
    return found


def outputs_in(folder):
    """The outputs in a folder, by their paths, with their bytes."""
    return {path: data for path, data in tree(folder).items() if not path.startswith(".tokc/")}


def stream_of(*commits):
    """A stream of commits, each a list of (path, bytes), or (path, None) for an output that is gone."""
    pieces = [b"tokc-stream 1\n"]
    for number, records in enumerate(commits, 1):
        pieces.append(b"commit %d\n" % number)
        for path, data in records:
            pieces.append(b"gone %s\n" % path.encode() if data is None else b"file %s %d\n%s\n" % (path.encode(), len(data), data))
    return b"".join([*pieces, b"done %d\n" % len(commits)])


def refused(rule, file, text, start, end, *further):
    """The text of a REFUSED file about bytes of a text."""
    line, column = text.count(b"\n", 0, start) + 1, start - text.rfind(b"\n", 0, start)
    lines = [f"rule {rule}", f"file {file}", f"line {line} column {column}", f"bytes {start} {end}", *further]
    return "".join(it + "\n" for it in lines).encode()


class Room(unittest.TestCase):
    """A test with a folder of its own, in which `tokens` is a folder of token files and `out` is to take the outputs."""

    def setUp(self):
        room = tempfile.TemporaryDirectory(prefix="tokc-dir-")
        self.addCleanup(room.cleanup)
        self.room = os.path.realpath(room.name)
        self.out = self.at("out")
        os.mkdir(self.at("tokens"))

    def at(self, *parts):
        return os.path.join(self.room, *parts)

    def put(self, files):
        """Writes token files, given by their paths."""
        for path, data in files.items():
            write(self.at("tokens", path), data)

    def stand_in(self, stream=b"", status=0, said=""):
        """Makes a program that answers so, and gives its name."""
        self.stand_in_parts(stream, status, said)
        name = self.at("stand-in", "tokc")
        write(name, STAND_IN, 0o755)
        return name

    def stand_in_parts(self, stream=b"", status=0, said=""):
        """Has the program that stands in answer so from here on, all at once."""
        self.answers = getattr(self, "answers", 0) + 1
        for part, data in (("stream", stream), ("status", str(status)), ("said", said)):
            write(self.at("stand-in", str(self.answers), part), data)
        os.symlink(str(self.answers), self.at("stand-in", "next-answer"))
        os.replace(self.at("stand-in", "next-answer"), self.at("stand-in", "now"))

    def tool(self, *words, given=b"", tokc=None):
        """Runs tokc-dir in the room."""
        return run([sys.executable, TOKC_DIR, *words], given, tokc, self.room)

    def build(self, stream=b"", status=0, said=""):
        """Builds `tokens` into `out` over a stand-in that answers so."""
        return self.tool("build", "tokens", "out", tokc=self.stand_in(stream, status, said))

    def outputs(self):
        """The files below `out` but for the lists of what was written."""
        return outputs_in(self.out)


class Beside(Room):
    """A test with tokc-dir as it is installed, over programs that stand in for those beside it."""

    def setUp(self):
        super().setUp()
        shutil.copytree(os.path.join(TOP, "tools", "tokcdir"), self.at("lib", "tokcdir"), ignore=shutil.ignore_patterns("__pycache__"))
        shutil.copy(TOKC_DIR, self.at("lib", "tokc-dir"))

    def put_beside(self, name, text):
        """Puts a program beside tokc-dir."""
        write(self.at("lib", name), text, 0o755)

    def put_tokc(self, stream, status=0):
        """Puts a tokc beside it that answers so."""
        self.put_beside("tokc", f'#!/bin/sh\nexec "{self.stand_in(stream, status)}" "$@"\n')

    def installed(self, *words, tokc=None):
        """Runs tokc-dir in the room."""
        return run([sys.executable, self.at("lib", "tokc-dir"), *words], tokc=tokc, at=self.room)
