"""How tokc-dir tells every mistake that tokc_check finds, over programs that stand in for both, as they are installed."""
import os
import unittest

from helpers import Beside, refused, stream_of, write

TEXT = b'{"a":1,\n"b":2,\n"c":3}'
REFUSED = stream_of([("default/REFUSED", refused("shape-root", "tokens.json", b"[]", 0, 2))])
BUILT = stream_of([("default/tokens.css", b"")])
NO_PROGRAM = 126

# Tells what it is to, and ends with the status that it was told.
CHECK = '#!/bin/sh\ncd "${0%/*}" && cat >checked && cat breaks && exit "$(cat status)"\n'


def member(file, at, *names):
    """What is told of a member that is no object, at an offset of a file."""
    return "".join(f'in "{it}"\n' for it in names).encode() + refused("shape-member", file, TEXT, at, at + 1)


class Mistakes(Beside):
    def setUp(self):
        super().setUp()
        self.put_tokc(REFUSED, 1)
        self.put_beside("tokc_check", CHECK)
        self.put({"tokens.json": TEXT, "a.json": TEXT})
        self.says(b"\n".join([member("tokens.json", 19, "default"), member("tokens.json", 5, "default"), member("a.json", 12, "default")]))

    def says(self, breaks, status=1):
        """Has tokc_check answer so."""
        write(self.at("lib", "breaks"), breaks)
        write(self.at("lib", "status"), str(status))

    def places(self, ran):
        """The places that are told, and the closing line, where it is one of mistakes."""
        return [it.split(": ")[0] for it in ran.err.splitlines() if not it.startswith((" ", "help", "note"))]

    def test_are_told_by_file_and_line(self):
        for command in ("build", "check"):
            with self.subTest(command=command):
                ran = self.installed(command, "tokens", "out")
                self.assertEqual((ran.status, self.places(ran)), (1, ["tokens/a.json:2:5", "tokens/tokens.json:1:6", "tokens/tokens.json:3:5", "3 mistakes"]))

    def test_are_those_of_the_files(self):
        self.installed("build", "tokens", "out")
        with open(self.at("lib", "checked"), "rb") as file:
            self.assertEqual(file.read(), b"tokc-script 1\nput a.json 21\n%s\nput tokens.json 21\n%s\ncommit\n" % (TEXT, TEXT))

    def test_have_the_names_of_their_permutations(self):
        self.put_tokc(stream_of([(f"{it}/REFUSED", refused("shape-root", "tokens.json", b"[]", 0, 2)) for it in ("one", "three", "two")]), 1)
        self.says(b"\n".join([member("a.json", 5, "one", "two"), member("a.json", 12, "one", "three", "two")]))
        ran = self.installed("check", "tokens")
        self.assertEqual([it for it in ran.err.splitlines() if it.startswith("note")], ["note: in one, two", "note: in all 3 permutations"])

    def test_more_than_fifty_are_cut(self):
        text = b"[]" + b" " * 60
        self.put({"tokens.json": text})
        self.says(b"\n".join(b'in "a"\nin "b"\n' + refused("json-syntax", "tokens.json", text, at, at) for at in range(2, 53)))
        for flags, count, last in (((), 50, "51 mistakes, of which these are the first 50: check --all tells all"), (("--all",), 51, "51 mistakes")):
            with self.subTest(flags=flags):
                ran = self.installed("build", "tokens", "out", *flags)
                self.assertEqual((ran.err.count("json-syntax"), ran.err.splitlines()[-1]), (count, last))
        ran = self.installed("build", "tokens", "out", "--json")
        self.assertEqual((ran.out.count("json-syntax"), ran.err), (51, ""))

    def test_one_is_not_counted(self):
        self.says(member("a.json", 5, "default"))
        self.assertEqual(self.places(self.installed("check", "tokens")), ["tokens/a.json:1:6"])

    def test_are_looked_for_only_where_outputs_are_refused(self):
        self.put_tokc(BUILT)
        self.assertEqual(self.installed("check", "tokens").status, 0)
        self.assertFalse(os.path.exists(self.at("lib", "checked")))

    def test_without_tokc_check_those_of_the_outputs_are_told(self):
        wanted = (1, ["tokens/tokens.json:1:1"])
        for status in (0, 6, NO_PROGRAM):
            with self.subTest(status=status):
                self.says(b"", status)
                ran = self.installed("check", "tokens")
                self.assertEqual((ran.status, self.places(ran)), wanted)
        os.remove(self.at("lib", "checked"))
        ran = self.installed("check", "tokens", tokc=self.stand_in(REFUSED, 1))
        self.assertEqual((ran.status, self.places(ran), os.path.exists(self.at("lib", "checked"))), (*wanted, False))
        os.remove(self.at("lib", "tokc_check"))
        ran = self.installed("check", "tokens")
        self.assertEqual((ran.status, self.places(ran)), wanted)


if __name__ == "__main__":
    unittest.main()
