"""How tokc-dir writes by tokc_store, over programs that stand in for both, as they are installed."""
import os
import unittest

from helpers import Beside, read, stream_of, write

CSS, OTHER = b":root {\n  --a: 1px;\n}\n", b":root {\n  --a: 2px;\n}\n"
ONE, TWO = stream_of([("default/tokens.css", CSS)]), stream_of([("default/tokens.css", OTHER)])
SCRIPT = b"tokc-script 1\nput tokens.json 2\n{}\ncommit\n"

# Keeps the script and the folder that it is given, writes nothing, and ends with the status that it was told.
STORE = '#!/bin/sh\ncd "${0%/*}" && cat >stored && echo "$*" >>called && exit "$(cat status)"\n'


class Storing(Beside):
    def setUp(self):
        super().setUp()
        self.put_tokc(ONE)
        self.put_beside("tokc_store", STORE)
        self.put({"tokens.json": "{}"})

    def built(self, status=0, command="build", tokc=None):
        """Builds where tokc_store ends so, and gives how that ended and the calls of tokc_store so far."""
        write(self.at("lib", "status"), str(status))
        ran = self.installed(command, "tokens", "out", tokc=tokc)
        called = self.at("lib", "called")
        return ran, read(called).decode().splitlines() if os.path.exists(called) else []

    def test_it_is_given_the_script_and_a_folder_with_lists(self):
        ran, called = self.built()
        self.assertEqual((ran.status, ran.err, called), (0, "", ["out"]))
        self.assertEqual(ran.out.splitlines()[0], "wrote default/tokens.css")
        self.assertEqual(read(self.at("lib", "stored")), SCRIPT)
        self.assertEqual((os.listdir(self.out), os.listdir(self.at("out", ".tokc"))), ([".tokc"], []))

    def test_it_is_asked_only_where_something_differs(self):
        write(self.at("out/default/tokens.css"), CSS)
        self.assertEqual(len(self.built()[1]), 1)
        write(self.at("out/.tokc/1"), "default/tokens.css\n")
        write(self.at("out/.tokc/1.ok"), "")
        self.assertEqual(len(self.built()[1]), 1)
        self.stand_in_parts(TWO)
        self.assertEqual(len(self.built(command="check")[1]), 1)
        self.assertEqual(len(self.built()[1]), 2)

    def test_folders_that_it_leaves_empty_go(self):
        write(self.at("out/.tokc/0"), "default/tokens.css\ngone/tokens.css\n")
        write(self.at("out/.tokc/0.ok"), "")
        write(self.at("out/gone/tokens.css"), CSS)
        self.put_beside("tokc_store", STORE.replace("&& exit", "&& rm ../out/gone/tokens.css && exit"))
        ran, _ = self.built()
        self.assertEqual(ran.out.splitlines()[:2], ["wrote default/tokens.css", "removed gone/tokens.css"])
        self.assertFalse(os.path.exists(self.at("out/gone")))

    def test_a_refusal_is_written_too(self):
        self.stand_in_parts(stream_of([("default/REFUSED", b"rule config-toml\nfile tokc.toml\nline 1 column 1\nbytes 0 0\n")]), 1)
        ran, called = self.built(1)
        self.assertEqual((ran.status, called), (1, ["out"]))

    def test_each_stop(self):
        cases = {
            6: "tokc_store ran out of memory", 77: "tokc_store ended with status 77",
            10: "out: it can't be written: the disk is full, writing is not permitted, or a link, or a folder in the place of a file, stands in it",
            11: "out/.tokc: its lists are not as this tool leaves them; remove it, and what stands in out and is no output",
        }
        for status, line in cases.items():
            with self.subTest(status=status):
                self.assertEqual(self.built(status)[0], (3, "", line + "\n"))

    def test_it_holds_the_folder_where_the_tool_is_killed(self):
        self.put_beside("tokc_store", STORE.replace("&& exit", '&& kill -9 $PPID && sleep 1 && touch ended && exit'))
        self.assertEqual(self.built()[0].status, -9)
        self.put_beside("tokc_store", STORE.replace("&& exit", '&& cp ended was && exit'))
        self.assertEqual(self.built()[0].status, 0)
        self.assertTrue(os.path.exists(self.at("lib", "was")))

    def test_without_it_the_tool_writes_itself(self):
        self.assertEqual(self.built(126)[0].status, 0)
        self.assertEqual(self.outputs(), {"default/tokens.css": CSS})
        ran, called = self.built(tokc=self.stand_in(TWO))
        self.assertEqual((ran.status, called), (0, ["out"]))
        self.assertEqual(self.outputs(), {"default/tokens.css": OTHER})
        os.remove(self.at("lib", "tokc_store"))
        self.stand_in_parts(ONE)
        self.assertEqual(self.built()[0].status, 0)
        self.assertEqual(self.outputs(), {"default/tokens.css": CSS})


if __name__ == "__main__":
    unittest.main()
