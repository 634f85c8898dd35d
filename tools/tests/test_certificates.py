"""The program tokc_explain over certificates of places, and such ones spoilt in one place, that another implementation shows and checks."""
import json
import os
import re
import sys
import unittest

from helpers import TOP, load_tool, make_program, program, read, run

PROGRAM = None
DONE, REFUSED, USAGE, BAD_SCRIPT, READ_FAULT, WRITE_FAULT, TOO_LONG, BAD_EVENT, BAD_CERTIFICATE = 0, 1, 2, 3, 4, 5, 7, 9, 13
MOST_BYTES = 67_108_864

MAKE = load_tool("make-certificates")
TABLE = json.loads(read(MAKE.TABLE))
SHOWN = [it for it in TABLE["runs"] if it["name"] == "shown"]
SPOILT = [it for it in TABLE["runs"] if it["name"] not in ("shown", "checked", "words")]


def setUpModule():
    global PROGRAM
    make_program()
    PROGRAM = program("tokc_explain")


def script_of(row):
    return MAKE.texts(TABLE["folders"][row["folder"]]["files"], row["certificate"])


def explain(script, *words):
    return run([PROGRAM, *words], script)


class Stored:
    """Answers as the table does."""

    def __init__(self):
        self.told = {(*it["words"], script_of(it)): {word: it[word] for word in ("status", "out", "err")} for it in TABLE["runs"]}

    def all(self, asked):
        return [self.told[*words, script] for words, script in asked]


class Table(unittest.TestCase):
    def test_it_is_the_one_that_is_made(self):
        self.assertEqual(MAKE.made(Stored()), TABLE)

    def test_it_has_what_it_is_to_have(self):
        self.assertEqual({it["name"] for it in SPOILT}, set(MAKE.certificate_spoils.SPOILS))
        self.assertEqual({it["status"] for it in TABLE["runs"]}, {DONE, REFUSED, USAGE, 10, 11, 12, BAD_CERTIFICATE})
        self.assertGreater(len(SHOWN), 100)
        self.assertGreater(sum(it["status"] == BAD_CERTIFICATE for it in SPOILT), 100)
        self.assertGreater(sum(it["status"] == DONE for it in SPOILT), 5)
        self.assertGreater(max(it["out"].count("\nhop ") for it in SHOWN), 256)

    def test_what_is_shown_holds(self):
        held = [it["certificate"] for it in TABLE["runs"] if it["name"] == "checked" and it["out"] == "valid\n"]
        self.assertEqual(held, [it["out"] for it in SHOWN])


    def test_words_of_the_tool(self):
        tool = os.path.join(TOP, "tools", "make-certificates")
        for words, status, said in (([], 2, "usage: make-certificates PROGRAM > NEW\n"), (["a", "b"], 2, "usage: make-certificates PROGRAM > NEW\n"), (["/nowhere"], 1, "make-certificates: [Errno 2] No such file or directory: '/nowhere'\n")):
            with self.subTest(words=words):
                self.assertEqual(run([sys.executable, tool, *words]), (status, "", said))
        self.assertEqual(run([sys.executable, tool, "--help"]).status, 0)


class Runs(unittest.TestCase):
    def test_each_of_the_table(self):
        for number, row in enumerate(TABLE["runs"]):
            with self.subTest(run=number, name=row["name"]):
                self.assertEqual(explain(script_of(row), *row["words"]), (row["status"], row["out"], row["err"]))

    def test_files_are_those_after_the_last_event(self):
        """Which may come after the last commit, and by moves and patches."""
        row = SHOWN[0]
        text = TABLE["folders"][row["folder"]]["files"]["tokens.json"].encode()
        moved = b"tokc-script 2\ncommit\nput a.json %d\n%s\nmove a.json tokens.json\npatch tokens.json 0 1 1\n{\n" % (len(text), b"x" + text[1:])
        self.assertEqual(explain(moved, *row["words"]), (DONE, row["out"], ""))

    def test_need_a_script(self):
        words = ("show", "default", "#/a")
        self.assertEqual(explain(b"tokc-script 1\nx\n", *words), (BAD_SCRIPT, "", "tokc_explain: bad script at byte 14\n"))
        self.assertEqual(explain(b"x" * (MOST_BYTES + 1), *words), (TOO_LONG, "", "tokc_explain: script too long\n"))
        self.assertEqual(explain(b"tokc-script 2\ncommit\nmove a.json b.json\n", *words), (BAD_EVENT, "", "tokc_explain: event 2 does not fit\n"))
        self.assertEqual(explain(b"tokc-script 1\nx\n").status, USAGE)

    def test_need_streams_that_work(self):
        shown, refused = script_of(SHOWN[0]), b"tokc-script 1\n"
        for script, words, redirected, status, said in (
            (shown, SHOWN[0]["words"], "<.", READ_FAULT, "tokc_explain: read failed\n"), (shown, SHOWN[0]["words"], ">/dev/full", WRITE_FAULT, "tokc_explain: write failed\n"),
            (refused, SHOWN[0]["words"], ">/dev/full", REFUSED, "tokc_explain: refused\n"), (refused, SHOWN[0]["words"], "2>/dev/full", REFUSED, ""),
        ):
            with self.subTest(redirected=redirected, status=status):
                self.assertEqual(run(["sh", "-c", f'"$0" "$@" {redirected}', PROGRAM, *words], script), (status, "", said))


class Large(unittest.TestCase):
    """Certificates of sixteen thousand hops. The independent implementation answered the same."""

    CHAINS, LENGTH = 64, 250

    def tokens(self):
        chains = (",".join(f'"t{at}":{{"$value":"{{g{chain}.t{at + 1}}}"}}' for at in range(self.LENGTH)) for chain in range(self.CHAINS))
        return "{" + ",".join(f'"g{number}":{{{it},"t{self.LENGTH}":{{"$type":"number","$value":1}}}}' for number, it in enumerate(chains)) + "}"

    def certificate(self, text):
        """The hops of all chains, from the ends of each to its start."""
        spans = [(it.start() + 9, it.end()) for it in re.finditer(r'"\$value":"[^"]*"', text)]
        hops = []
        for chain in range(self.CHAINS):
            for at in reversed(range(self.LENGTH)):
                start, end = spans[chain * self.LENGTH + at]
                hops.append(f'hop "#/g{chain}/t{at}/$value" "#/g{chain}/t{at + 1}/$value" tokens.json {start} {end}\n')
        last = text.index('"$value":1') + 9
        return f'tokc-explain 1\npermutation default\nfrom "#/g0/t0/$value"\n{"".join(hops)}end "#/g0/t{self.LENGTH}/$value" tokens.json {last} {last + 1}\n'

    def test_each_hop_is_looked_at(self):
        text = self.tokens()
        certificate = self.certificate(text)
        lines = certificate.splitlines(keepends=True)
        files = {"tokens.json": text}
        check = ("check", MAKE.CERTIFICATE)
        self.assertEqual(explain(MAKE.texts(files, certificate), *check), (DONE, "valid\n", ""))
        wrong = lines[-2].replace("/t1/", "/t2/")
        bad = (BAD_CERTIFICATE, "", "tokc_explain: bad certificate\n")
        self.assertEqual(explain(MAKE.texts(files, "".join([*lines[:-2], wrong, lines[-1]])), *check), bad)
        self.assertEqual(explain(MAKE.texts(files, "".join([*lines[:-1], lines[-2], lines[-1]])), *check), bad)
        self.assertEqual(explain(MAKE.texts(files, certificate[:-1]), *check), bad)

    def test_a_text_of_many_lines_that_is_none(self):
        for text in ('tokc-explain 1\npermutation default\nfrom "' + "#/a" * 3_000_000, "hop " * 3_000_000, "\n" * 10_000_000, "tokc-explain 1\npermutation " + "a" * 10_000_000):
            with self.subTest(start=text[:40]):
                self.assertEqual(explain(MAKE.texts({"tokens.json": "{}"}, text), "check", MAKE.CERTIFICATE).status, BAD_CERTIFICATE)


if __name__ == "__main__":
    unittest.main()
