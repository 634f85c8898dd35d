"""The built program where calls fail: a sample of tools/faults, which write fails, cut scripts, and arguments that find no memory."""
import contextlib
import io
import os
import shutil
import subprocess
import tempfile
import unittest

from helpers import Room, load_tool, make_program, program, run, write

FAULTS = load_tool("faults")
Answer, Fault, Run = FAULTS.Answer, FAULTS.Fault, FAULTS.fault_cases.Run
HAS_COMPILER = shutil.which(os.environ.get("CC", "cc")) is not None

# So many calls of each kind are made to fail, of those of each run.
SAMPLE = 5

setUpModule = make_program

# How many bytes a write has at most, and so many commits of the chain have more than two writes.
ROOM = 65_536
COMMITS = 300

HEAD = "tokc-script 1\n"
SPACE = '{"space":{"$type":"dimension","s":{"$value":{"value":4,"unit":"px"}}}}'
ONE_FILE = f"{HEAD}put tokens.json 70\n{SPACE}\n".encode()
CHAIN = '{"a":{"$value":"{b}"},"b":{"$value":"{c}"},"c":{"$type":"dimension","$value":{"value":%d,"unit":"px"}}}'


def pieces_of_chain(commit, pixels):
    """The pieces of a commit of the chain: its line, and for each file its line, its bytes and a newline."""
    each = [(f"  public static let {it}: CGFloat = {pixels}.0\n", f'  <dimen name="{it}">{pixels}dp</dimen>\n') for it in "abc"]
    members = ",\n".join(f'  "{it}": {{"$type": "dimension", "$value": {{"value": {pixels}, "unit": "px"}}}}' for it in "abc")
    files = {
        "Tokens.swift": "import UIKit\n\npublic enum Tokens {\n" + "".join(swift for swift, _ in each) + "}\n",
        "tokens.css": f":root {{\n  --a: var(--b);\n  --b: var(--c);\n  --c: {pixels}px;\n}}\n",
        "tokens.json": f"{{\n{members}\n}}\n",
        "tokens.xml": '<?xml version="1.0" encoding="utf-8"?>\n<resources>\n' + "".join(xml for _, xml in each) + "</resources>\n",
    }
    found = [f"commit {commit}\n"]
    for name, text in files.items():
        found += [f"file default/{name} {len(text)}\n", text, "\n"]
    return found


def writes_of(pieces):
    """The writes in which pieces are handed over, of which none is longer than the room."""
    found, held = [], b""
    for piece in pieces:
        if len(held) + len(piece) > ROOM:
            found.append(held)
            held = b""
        held += piece
    return [*found, held]


class Judged(unittest.TestCase):
    """Which ends of a run are right."""

    RIGHT = Answer(1, b"abc", b"", (9, 2, 5, 0))

    def test_each(self):
        memory, read, failed = b"tokc: out of memory\n", b"tokc: read failed\n", b"tokc: write failed\n"
        for place, kind, first, end, is_right in (
            ("growth", "fail", 3, (6, b"ab", memory, (3, 0, 0, 0)), True),
            ("growth", "fail", 3, (6, b"", memory, (3, 0, 0, 0)), True),
            ("growth", "fail", 3, self.RIGHT, True),
            ("growth", "fail", 3, (6, b"ac", memory, (3, 0, 0, 0)), False),
            ("growth", "fail", 3, (6, b"ab", b"", (3, 0, 0, 0)), False),
            ("growth", "fail", 3, (2, b"", b"usage", (3, 0, 0, 0)), False),
            ("growth", "fail", 3, (1, b"ab", b"", (3, 0, 0, 0)), False),
            ("growth", "fail", 3, (-11, b"ab", b"", (3, 0, 0, 0)), False),
            ("growth", "fail", 10, (6, b"ab", memory, (9, 0, 0, 0)), False),
            ("read", "fail", 2, (4, b"", read, (3, 2, 0, 0)), True),
            ("read", "fail", 2, (4, b"a", read, (3, 2, 0, 0)), False),
            ("read", "fail", 2, self.RIGHT, False),
            ("read", "fail", 3, self.RIGHT, True),
            ("read", "short", 1, self.RIGHT, True),
            ("read", "short", 1, (3, b"", b"", (1, 2, 0, 0)), False),
            ("read", "interrupt", 1, (4, b"", read, (1, 1, 0, 0)), True),
            ("read", "interrupt", 1, self.RIGHT, True),
            ("write", "fail", 5, (5, b"ab", failed, (9, 2, 5, 0)), True),
            ("write", "fail", 5, (1, b"ab", failed, (9, 2, 5, 0)), False),
            ("write", "short", 5, (5, b"ab", failed, (9, 2, 5, 0)), False),
            ("message", "fail", 1, self.RIGHT, True),
            ("message", "fail", 1, (0, b"abc", b"", (9, 2, 5, 1)), False),
        ):
            with self.subTest(place=place, kind=kind, first=first, end=end):
                self.assertEqual(FAULTS.wrong(Fault(place, kind, first), self.RIGHT, Answer(*end)) is None, is_right)

    def test_samples(self):
        self.assertEqual((FAULTS.sample(3, 0), FAULTS.sample(3, 9)), ([1, 2, 3, 4], [1, 2, 3, 4]))
        found = FAULTS.sample(1_000, 5)
        self.assertEqual((found[0], found[-1], len(found)), (1, 1_001, 5))


@unittest.skipUnless(HAS_COMPILER, "no C compiler")
class Tool(Room):
    """What tools/faults says."""

    # Reads its script, asks for memory, and goes on where there is none.
    CARELESS = """#include <stdlib.h>
#include <unistd.h>
int main(void) {
    char text[100];
    while (read(0, text, 100) > 0) {}
    if (malloc(1))
        write(1, "whole\\n", 6);
    return 0;
}
"""

    def said(self, *words):
        """The status and what is written."""
        out = io.StringIO()
        with contextlib.redirect_stdout(out):
            status = FAULTS.main(list(words))
        return status, out.getvalue()

    def test_a_careless_program(self):
        write(self.at("careless.c"), self.CARELESS)
        subprocess.run(["cc", "-w", "-o", self.at("careless"), self.at("careless.c")], check=True)
        status, said = self.said("--program", self.at("careless"), "one file")
        self.assertEqual(status, 1)
        for line in ("growth 1: fail: it ends with 0 and b''", "read 1: fail: a call failed, and nobody is told", "write 1: fail: it ends with 0 and b''"):
            self.assertIn(f"one file: {line}\n", said)

    def test_a_program_that_answers_otherwise(self):
        status, said = self.said("--program", self.stand_in(b"", 1), "one file")
        self.assertEqual(status, 1)
        self.assertIn("one file: no fault: it ends with 1 and tells [] where nothing fails, and not with 0 and []\n", said)


@unittest.skipUnless(HAS_COMPILER, "no C compiler")
class Faulty(unittest.TestCase):
    """The built program where calls fail."""

    @classmethod
    def setUpClass(cls):
        folder = tempfile.TemporaryDirectory(prefix="faults-")
        cls.addClassCleanup(folder.cleanup)
        cls.runner = FAULTS.Runner(program(), folder.name)

    def end(self, words, script, *faults):
        """The status and what is written."""
        return self.runner.answer(Run("", words, script, 0, []), *faults)[:3]

    def test_a_sample(self):
        """Of the calls of each run so many fail, are short or are interrupted."""
        out = io.StringIO()
        with contextlib.redirect_stdout(out):
            status = FAULTS.main(["--program", program(), "--sample", str(SAMPLE)])
        self.assertEqual(status, 0, out.getvalue())

    def test_each_write(self):
        """The pieces of a stream are gathered, and each write has as many as go into its room: where one fails, those before it are written."""
        commits = [(k, 4 + k % 2) for k in range(1, COMMITS + 1)]
        script = (HEAD + "".join(f"put tokens.json 102\n{CHAIN % pixels}\ncommit\n" for _, pixels in commits)).encode()
        pieces = ["tokc-stream 1\n", *(piece for it in commits for piece in pieces_of_chain(*it)), f"done {COMMITS}\n"]
        writes = writes_of([piece.encode() for piece in pieces])
        self.assertGreater(len(writes), 2)
        for n in range(1, len(writes) + 1):
            for on in (False, True):
                with self.subTest(n=n, on=on):
                    ended = self.end(["replay"], script, Fault("write", "fail", n, on))
                    self.assertEqual(ended, (5, b"".join(writes[:n - 1]), b"tokc: write failed\n"))
        self.assertEqual(self.end(["replay"], script, Fault("write", "fail", len(writes) + 1)), (0, b"".join(writes), b""))

    def test_a_write_that_fails_at_an_event_that_does_not_fit(self):
        """It is the write that is told of, and nothing else."""
        script = f"tokc-script 2\nput tokens.json 70\n{SPACE}\ncommit\nmove none.json tokens.json\n".encode()
        status, out, err = self.end(["replay"], script)
        self.assertEqual((status, err), (9, b"tokc: event 3 does not fit\n"))
        self.assertEqual(self.end(["replay"], script, Fault("write", "fail", 1)), (5, b"", b"tokc: write failed\n"))
        self.assertTrue(out.startswith(b"tokc-stream 1\ncommit 1\n"))

    def test_a_source_and_a_message_that_both_fail(self):
        self.assertEqual(self.end(["build"], ONE_FILE, Fault("read", "fail", 1), Fault("message", "fail", 1)), (4, b"", b""))

    def test_a_message_that_fails(self):
        """It changes neither the status nor the stream."""
        for words, script, fault, status in (
            (["builds"], ONE_FILE, None, 2),
            (["build"], b"", None, 3),
            (["build"], ONE_FILE, Fault("write", "fail", 1), 5),
            (["build"], ONE_FILE, Fault("growth", "fail", 1, True), 6),
        ):
            with self.subTest(status=status):
                self.assertEqual(self.end(words, script, Fault("message", "fail", 1, True), *filter(None, [fault])), (status, b"", b""))

    def test_arguments_that_find_no_memory(self):
        """They are not taken for arguments that are none."""
        for words in (["build"], ["replay"], ["stats"], ["gen", "7", "1"], ["builds"]):
            for n in range(1, 2 * len(words) + 8):
                for on in (False, True):
                    with self.subTest(words=words, n=n, on=on):
                        status, out, err = self.end(words, ONE_FILE, Fault("growth", "fail", n, on))
                        if words != ["builds"] or status == 6:
                            self.assertEqual((status, err), (6, b"tokc: out of memory\n"))
                        else:
                            self.assertEqual((status, out, err[:12]), (2, b"", b"usage: tokc "))


class Cut(Room):
    """Scripts that end early."""

    def test_each_front_of_a_script(self):
        self.assertEqual(len(ONE_FILE), 104)
        missing = "rule file-missing\nfile tokens.json\nline 1 column 1\nbytes 0 0\n"
        head_alone = (1, f"tokc-stream 1\ncommit 1\nfile default/REFUSED 61\n{missing}\ndone 1\n", "")
        for n in range(104):
            with self.subTest(n=n):
                at = 0 if n < 14 else 14
                self.assertEqual(run([program(), "build"], ONE_FILE[:n]), head_alone if n == 14 else (3, "", f"tokc: bad script at byte {at}\n"))


if __name__ == "__main__":
    unittest.main()
