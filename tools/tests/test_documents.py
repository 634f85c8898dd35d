"""What the documents and the heads of crates say of the repository stands in it: functions, definitions, clauses and rules."""
import glob
import os
import re
import subprocess
import sys
import unittest

from helpers import TOP, read

sys.path.insert(0, os.path.join(TOP, "tools"))

from tokcdir.refusal import SENTENCES

NAMES = ["README.md", "CONTRIBUTING.md", *(os.path.relpath(it, TOP) for it in sorted(glob.glob(os.path.join(TOP, "docs", "*.md"))))]
FENCED = re.compile(r"^```.*?^```$", re.M | re.S)


def document(*parts):
    return read(os.path.join(TOP, *parts)).decode()


def sources(crate, folder, ending):
    """The texts of a crate's files below a folder, in one."""
    paths = glob.glob(os.path.join(TOP, "crates", crate, folder, "**", "*" + ending), recursive=True)
    return "\n".join(document(it) for it in sorted(paths))


def crates():
    """The crates of crates.txt that have definitions."""
    names = re.findall(r"^(\w+)[ \w]*:", document("crates.txt"), re.M)
    return [it for it in names if os.path.exists(os.path.join(TOP, "crates", it, "specs", "Lib.antt"))]


class Cited(unittest.TestCase):
    """Files, functions and definitions that documents name."""

    def each(self, pattern):
        """Each match in a document, with the document's name."""
        for name in NAMES:
            for found in re.finditer(pattern, FENCED.sub("", document(name))):
                yield name, found

    def test_functions(self):
        """`crate::call` is an item of the crate, and a function that is told with its file stands there."""
        for name, found in self.each(r"`(\w+)::(?:\w+::)?(\w+)`"):
            if os.path.isdir(os.path.join(TOP, "crates", found[1])):
                with self.subTest(document=name, item=found[0]):
                    self.assertRegex(sources(found[1], "src", ".rt"), rf"\b(?:fn|struct|enum|trait|type|const) {found[2]}\b")
        for name, found in self.each(r"`(?:\w+::)*(\w+)` \(`(crates/[^`]+\.rt)`\)"):
            with self.subTest(document=name, function=found[0]):
                self.assertRegex(document(found[2]), rf"\bfn {found[1]}\b")

    def test_definitions(self):
        """A definition that is told with its crate and its module stands there."""
        checked = 0
        for name, found in self.each(r"((?:`\w+`, )*`\w+`) \((\w+), `(\w+)`\)"):
            module = os.path.join(TOP, "crates", found[2], "specs", found[3] + ".antt")
            for word in re.findall(r"`(\w+)`", found[1]):
                with self.subTest(document=name, definition=word, module=module):
                    self.assertRegex(document(module), rf"(?m)^[ \t]*(?:[a-z]+ )*{word}\b[^\n]*:|\b{word}\b[^\n]* : ")
                    checked += 1
        self.assertGreater(checked, 20)


class Promises(unittest.TestCase):
    """The paragraphs at the heads of `specs/Lib.antt`."""

    def test_each_crate_has_one(self):
        for crate in crates():
            with self.subTest(crate=crate):
                self.assertTrue(document("crates", crate, "specs", "Lib.antt").startswith("-- "))

    def test_calls_and_clauses(self):
        """A call that carries a promise is one of the crate, and so is each of its clauses."""
        for crate in crates():
            text = document("crates", crate, "specs", "Lib.antt")
            head = re.sub(r"\s*\n-- *", " ", text.partition("What is promised")[2].partition("\n\n")[0])
            code = sources(crate, "src", ".rt")
            for carried in re.findall(r"\((`[^()]*(?:\([^()]*\)[^()]*)*`)\)(?= \*|;|$)", head):
                for group in carried.split(";"):
                    calls, _, clauses = group.partition("`: ")
                    words = [("call", rf"\b{it}") for it in re.findall(r"`(?:\w+::)*(\w+)", calls + "`")]
                    words += [("clause", rf"ensures {it} ") for it in re.findall(r"`(\w+)`", clauses)]
                    for kind, pattern in words:
                        with self.subTest(crate=crate, **{kind: pattern}):
                            self.assertTrue(re.search(pattern, code))

    def test_what_a_reader_has_to_trust(self):
        """The table is the one that the tool prints: `tools/trusted-specs --write` puts it there."""
        ran = subprocess.run([sys.executable, os.path.join(TOP, "tools", "trusted-specs")], stdout=subprocess.PIPE, text=True, check=True)
        self.assertIn(ran.stdout, document("docs", "PROOFS.md"))


class Rules(unittest.TestCase):
    """The sections and tables of rules."""

    def test_each_rule_has_a_section_and_a_place(self):
        manual = re.findall(r"^### `([a-z-]+)`$", document("docs", "MANUAL.md"), re.M)
        self.assertEqual(sorted(manual), sorted(SENTENCES))
        table = document("docs", "FORMAT.md").partition("| rule | place | further lines |")[2].partition("\n\n")[0]
        told = [it for row in table.splitlines()[2:] for it in re.findall(r"`([a-z]+-[a-z-]+)`", row.split("|")[1])]
        self.assertEqual(sorted(told), sorted(SENTENCES))


if __name__ == "__main__":
    unittest.main()
