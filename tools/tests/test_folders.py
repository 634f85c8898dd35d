"""What tokc-dir reads from a folder and writes into one, over a program that stands in for tokc."""
import os
import re
import select
import signal
import subprocess
import sys
import time
import unittest

from helpers import SECONDS, STAND_IN, TOKC_DIR, Room, read, refused, stream_of, tree, write

CSS = b":root {\n  --a: 1px;\n}\n"
OTHER = b":root {\n  --a: 2px;\n}\n"
ONE = stream_of([("default/tokens.css", CSS)])
REFUSED = refused("shape-root", "tokens.json", b"[]", 0, 2)


class In(Room):
    """The script that a folder makes."""

    def script(self, out="out"):
        ran = self.tool("build", "tokens", out, tokc=self.stand_in(ONE))
        self.assertEqual((ran.status, ran.err), (0, ""))
        return read(self.at("stand-in", "script"))

    def test_files_stand_in_byte_order_with_their_lengths(self):
        self.put({"b.json": "{}", "a/z.json": '{"ü":1}\n', "a.json": "", "B.json": "1", "tokc.toml": 'prefix = "x"\n', "a-b/c_d.e.json": "[]"})
        self.assertEqual(self.script(), b"""tokc-script 1
put B.json 1
1
put a-b/c_d.e.json 2
[]
put a.json 0

put a/z.json 9
{"\xc3\xbc":1}

put b.json 2
{}
put tokc.toml 13
prefix = "x"

commit
""")

    def test_what_is_passed_over(self):
        self.put({"tokens.json": "{}", "read.me": "x", "sub/tokc.toml": "=", "a.JSON": "x", ".git/x y.json": "x", "earlier/.tokc/0": "", "earlier/tokens.json": "1"})
        self.put({"build/out/default/tokens.json": "1", ".hidden.json": "2", "node_modules/pkg/tokens.json": "3", "$themes.json": "[]", "$metadata.json": "{}"})
        os.symlink("..", self.at("tokens", "up"))
        self.assertEqual(self.script("tokens/build/out"), b"tokc-script 1\nput .hidden.json 1\n2\nput tokens.json 2\n{}\ncommit\n")
        self.assertEqual(read(self.at("tokens/build/out/default/tokens.css")), CSS)

    def test_each_ending(self):
        self.put({"a.tokens": "{}", "b.tokens.json": "[]", "c.json": "1", "d.tokens.txt": "x"})
        self.assertEqual(self.script(), b"tokc-script 1\nput a.tokens 2\n{}\nput b.tokens.json 2\n[]\nput c.json 1\n1\ncommit\n")

    def test_links_inside_the_folder_are_followed(self):
        self.put({"shared/a.json": "{}"})
        os.symlink("shared/a.json", self.at("tokens", "tokens.json"))
        os.symlink("shared", self.at("tokens", "also"))
        os.symlink("..", self.at("tokens", "shared", "round"))
        self.assertEqual(self.script(), b"tokc-script 1\nput also/a.json 2\n{}\nput shared/a.json 2\n{}\nput tokens.json 2\n{}\ncommit\n")

    def test_links_out_of_the_folder_are_passed_over(self):
        write(self.at("elsewhere/a.json"), "{}")
        self.put({"tokens.json": "{}"})
        os.symlink(self.at("elsewhere"), self.at("tokens", "outer"))
        os.symlink(self.at("elsewhere", "a.json"), self.at("tokens", "b.json"))
        self.assertEqual(self.script(), b"tokc-script 1\nput tokens.json 2\n{}\ncommit\n")

    def passed(self, files):
        """What is said of a folder of these files."""
        self.put(files)
        ran = self.tool("build", "tokens", "out", tokc=self.stand_in(ONE))
        self.assertEqual(ran.status, 0)
        return ran.err

    def test_what_looks_like_tokens_is_told(self):
        """In one line, each with the reason."""
        one = '{"a":{"$value":1}}'
        err = self.passed({"tokens.json": one, "my tokens.json": one, "old.json": '{"a":{"value" : 1}}', "bad.json": b'{"$value":"\xff"}', "package.json": '{"name":"x"}'})
        self.assertEqual(err, (
            "passed over: tokens/bad.json (byte 11 is no UTF-8; save the file as UTF-8), tokens/my tokens.json (tokc takes paths of at most 200 letters, "
            "digits, `.`, `_`, `-` and `/` of ASCII; rename the file or its folder), tokens/old.json (nothing names it)\n"
        ))
        err = self.passed({"z.json": one, "zz.json": one})
        self.assertRegex(err, r"\Apassed over: tokens/bad.json .*, tokens/old.json \(nothing names it\) and 2 more\n\Z")
        self.assertEqual(self.tool("build", "tokens", "out", "--quiet", tokc=self.stand_in(ONE)), (0, "", ""))

    def test_what_a_resolver_names_is_none_of_these(self):
        resolver = '{"version":"2025.10","sets":{"a":{"sources":[{"$ref":"./a.json"},{"$ref":"b/c.tokens"}]}},"resolutionOrder":[{"$ref":"#/sets/a"}]}'
        self.assertEqual(self.passed({"resolver.json": resolver, "a.json": '{"a":{"$value":1}}', "b/c.tokens": '{"b":{"$value":1}}', "tokens.json": "{}"}), "")

    def test_what_a_resolver_refers_to_is_given(self):
        """Whatever its ending is, and also in a folder that is passed over else."""
        refs = ",".join('{"$ref":"%s"}' % it for it in ("core.jsonc", "node_modules/acme/base.json", ".acme/ink.json", "absent.txt", "sub"))
        self.put({"resolver.json": f'{{"sets":{{"a":{{"sources":[{refs}],"description":"notes.txt"}}}}}}', "core.jsonc": "1", "notes.txt": "2"})
        self.put({"node_modules/acme/base.json": "3", "node_modules/acme/package.json": "4", ".acme/ink.json": "5", "sub/a.txt": "6"})
        self.assertEqual(re.findall(r"^put (\S+)", self.script().decode(), re.M), [".acme/ink.json", "core.jsonc", "node_modules/acme/base.json", "resolver.json"])

    def test_an_empty_folder_is_a_script_without_files(self):
        self.assertEqual(self.script(), b"tokc-script 1\ncommit\n")

    def test_pack_writes_the_script(self):
        self.put({"tokens.json": "{}"})
        ran = self.tool("pack", "tokens")
        self.assertEqual(ran, (0, "tokc-script 1\nput tokens.json 2\n{}\ncommit\n", ""))


class WrongUse(Room):
    """Folders and files that tokc can't be given: all are told, and nothing is run or written."""

    def wrong(self, words, *lines):
        ran = self.tool(*words, tokc=self.stand_in(ONE))
        self.assertEqual((ran.status, ran.out), (2, ""))
        self.assertEqual(ran.err.splitlines(), list(lines))
        self.assertFalse(os.path.exists(self.out) or os.path.exists(self.at("stand-in", "script")))

    def test_bytes_that_are_no_text(self):
        resolver = '{"version":"2025.10","sets":{"a":{"sources":[{"$ref":"a.json"},{"$ref":"b.json"}]}},"resolutionOrder":[{"$ref":"#/sets/a"}]}'
        self.put({"a.json": b"{}\xff", "b.json": b'{"a":"\xed\xa0\x80"}', "c.json": b"\xff", "resolver.json": resolver})
        self.wrong(
            ["pack", "tokens"],
            "tokens/a.json: byte 2 is no UTF-8; save the file as UTF-8",
            "tokens/b.json: byte 6 is no UTF-8; save the file as UTF-8",
        )

    def test_what_is_no_file(self):
        os.symlink("nowhere", self.at("tokens", "tokens.json"))
        os.mkfifo(self.at("tokens", "b.json"))
        os.mkdir(self.at("tokens", "tokc.toml"))
        self.wrong(["build", "tokens", "out"], "tokens/tokc.toml: this is no file", "tokens/tokens.json: it can't be read: No such file or directory")

    def test_a_link_that_leads_out_of_the_folder(self):
        write(self.at("elsewhere"), "{}")
        os.symlink(self.at("elsewhere"), self.at("tokens", "tokens.json"))
        self.wrong(["build", "tokens", "out"], "tokens/tokens.json: its link leads out of the folder; put the file itself there")

    def test_folders(self):
        write(self.at("file"), "")
        self.wrong(["build", "absent", "out"], "absent: there is no such folder")
        self.wrong(["watch", "absent", "out"], "absent: there is no such folder")
        self.wrong(["pack", "file"], "file: there is no such folder")
        self.wrong(["build", "tokens", "file"], "file: this is no folder")
        self.wrong(["unpack", "file"], "file: this is no folder")
        self.wrong(["build", "tokens", "tokens/"], "tokens/: the outputs need a folder of their own, and tokens is this one or stands in it")
        self.wrong(["build", "tokens", "."], ".: the outputs need a folder of their own, and tokens is this one or stands in it")

    def test_words(self):
        usage = self.tool().err.splitlines()
        self.assertEqual(usage[0].split()[:3], ["usage:", "tokc-dir", "build"])
        for words in ([], ["bild", "tokens", "out"], ["build", "tokens"], ["build", "tokens", "out", "x"], ["pack"], ["unpack"], ["watch", "tokens"], ["check"], ["preview", "tokens"], ["build", "tokens", "out", "--loud"], ["watch", "tokens", "out", "--json"]):
            self.wrong(words, *usage)
        self.wrong(["watch", "tokens", "out", "soon"], "soon: a number of seconds is wanted, as 0.5")
        self.assertEqual(self.tool("--help").status, 0)


class Out(Room):
    """The folder of outputs after a run."""

    def test_exactly_the_outputs(self):
        ran = self.build(stream_of([("a/b.css", CSS), ("a/c.css", b""), ("d=%20+e/x", b"\0\xff\n")]))
        self.assertEqual((ran.status, ran.err), (0, ""))
        self.assertEqual(self.outputs(), {"a/b.css": CSS, "a/c.css": b"", "d=%20+e/x": b"\0\xff\n"})
        self.assertEqual(read(self.at("out/.tokc/1")), b"a/b.css\na/c.css\nd=%20+e/x\n")
        self.assertEqual(sorted(os.listdir(self.at("out/.tokc"))), ["0", "1", "1.ok"])
        self.assertEqual(ran.out.splitlines()[:3], ["wrote a/b.css", "wrote a/c.css", "wrote d=%20+e/x"])
        self.assertRegex(ran.out.splitlines()[3], r"\A3 outputs; 3 changed; [0-9.]+ s\Z")

    def test_earlier_outputs_go_and_nothing_else(self):
        self.build(stream_of([("a/x.css", CSS), ("a/y.css", CSS), ("b/c.css", CSS), ("d/e.css", CSS)]))
        write(self.at("out/d/mine"), "1")
        write(self.at("out/mine"), "2")
        ran = self.build(stream_of([("a/x.css", OTHER), ("a/z.css", CSS)]))
        self.assertEqual(ran.out.splitlines()[:-1], ["wrote a/x.css", "wrote a/z.css", "removed a/y.css", "removed b/c.css", "removed d/e.css"])
        self.assertEqual(self.outputs(), {"a/x.css": OTHER, "a/z.css": CSS, "d/mine": b"1", "mine": b"2"})
        self.assertFalse(os.path.exists(self.at("out/b")))

    def test_a_refusal_is_an_output(self):
        self.put({"tokens.json": "[]"})
        self.build(ONE)
        ran = self.build(stream_of([("default/REFUSED", REFUSED)]), 1)
        self.assertEqual((ran.status, self.outputs()), (1, {"default/REFUSED": REFUSED}))
        ran = self.build(ONE)
        self.assertEqual((ran.status, self.outputs()), (0, {"default/tokens.css": CSS}))

    def test_what_did_not_change_is_not_written(self):
        two = [("a/x.css", CSS), ("a/y.css", CSS)]
        self.build(stream_of(two))
        names = [self.at("out", it) for it in ("a/x.css", "a/y.css", ".tokc/1")]
        before = [os.stat(it).st_ino for it in names]
        self.build(stream_of(two))
        self.assertEqual([os.stat(it).st_ino for it in names], before)
        ran = self.build(stream_of([two[0], ("a/y.css", OTHER)]))
        self.assertEqual([os.stat(it).st_ino == was for it, was in zip(names, before)], [True, False, False])
        self.assertEqual(ran.out.splitlines()[0], "wrote a/y.css")

    def test_a_file_is_replaced_by_a_rename(self):
        """What reads the old file goes on reading the old bytes, whole."""
        self.build(ONE)
        with open(self.at("out/default/tokens.css"), "rb") as old:
            self.build(stream_of([("default/tokens.css", OTHER)]))
            self.assertEqual(old.read(), CSS)
        self.assertEqual(self.outputs(), {"default/tokens.css": OTHER})

    def test_what_a_run_that_was_cut_off_leaves_is_put_right(self):
        self.build(stream_of([("a/x.css", CSS)]))
        write(self.at("out/.tokc/0"), "a/x.css\nb/y.css\nb/z.css\n")
        write(self.at("out/.tokc/0.ok"), "")
        write(self.at("out/b/y.css"), CSS)
        write(self.at("out/.tokc/new"), CSS[:4])
        self.build(stream_of([("a/x.css", OTHER)]))
        self.assertEqual(self.outputs(), {"a/x.css": OTHER})
        self.assertEqual((read(self.at("out/.tokc/0")), sorted(os.listdir(self.at("out/.tokc")))), (b"a/x.css\n", ["0", "0.ok", "1"]))

    def test_a_list_that_leads_outside_removes_nothing_there(self):
        write(self.at("mine"), "1")
        write(self.at("out/.tokc/0.ok"), "")
        write(self.at("out/.tokc/0"), "../mine\n/etc/../mine\na//b\n.\n" + self.at("mine") + "\n")
        self.build(ONE)
        self.assertEqual(read(self.at("mine")), b"1")

    def test_what_stands_in_the_way(self):
        os.makedirs(self.at("out/default/tokens.css"))
        ran = self.build(ONE)
        self.assertEqual(ran.status, 3)
        self.assertRegex(ran.err, r"\Aout/default/tokens.css: it can't be written: ")
        write(self.at("other/default"), "mine")
        ran = self.tool("build", "tokens", "other", tokc=self.stand_in(ONE))
        self.assertEqual((ran.status, read(self.at("other/default"))), (3, b"mine"))

    def test_deep_folders_are_made(self):
        ran = self.tool("build", "tokens", "x/y/z", tokc=self.stand_in(ONE))
        self.assertEqual((ran.status, read(self.at("x/y/z/default/tokens.css"))), (0, CSS))


class Streams(Room):
    """Streams from a program, or from standard input."""

    def test_the_last_commit_counts(self):
        stream = stream_of([("a", CSS), ("b", CSS)], [("a", None), ("b", OTHER)], [], [("c", b"tokc-stream 1\ncommit 9\n")])
        ran = self.tool("unpack", "out", given=stream)
        self.assertEqual((ran.status, ran.err), (0, ""))
        self.assertEqual(self.outputs(), {"b": OTHER, "c": b"tokc-stream 1\ncommit 9\n"})

    def test_no_commit(self):
        self.build(ONE)
        self.assertEqual(self.tool("unpack", "out", given=stream_of()).status, 0)
        self.assertEqual(self.outputs(), {})

    def test_a_refusal_in_a_stream_alone(self):
        ran = self.tool("unpack", "out", given=stream_of([("default/REFUSED", REFUSED)]))
        self.assertEqual((ran.status, ran.err), (1, "tokens.json:1:1: shape-root: a token file is an object, and no token\n"))

    def test_other_bytes_are_no_stream(self):
        cases = [
            b"", b"tokc-stream 2\ndone 0\n", b"tokc-stream 1\n", b"tokc-stream 1\ndone 1\n", b"tokc-stream 1\ncommit 2\ndone 1\n", b"tokc-stream 1\ndone 0\nx",
            ONE[:-1], ONE[:-9], ONE.replace(b"css 22", b"css 21"), ONE.replace(b"css 22", b"css 99"), ONE.replace(b"css 22", b"css"), ONE.replace(b"css 22", b"css 022"),
            ONE.replace(b"file default", b"file ../default"), ONE.replace(b"file default", b"file /default"), ONE.replace(b"file default", b"file a//b"),
            ONE.replace(b"default/tokens.css", b".tokc/0"), ONE.replace(b"commit 1\n", b""), ONE.replace(b"commit 1", b"commit 1 2"),
            stream_of([("a", None)]), ONE.replace(b"file ", b"put "), ONE.replace(b"tokens.css", b"to\0kens.css"), ONE.replace(b"done 1", b"done 01"),
        ]
        for stream in cases:
            with self.subTest(stream=stream):
                ran = self.tool("unpack", "out", given=stream)
                self.assertEqual((ran.status, ran.out), (3, ""))
                self.assertRegex(ran.err, r"\Athis is no stream of tokc: it is not as wanted from byte \d+ on\n\Z")
                self.assertFalse(os.path.exists(self.out))

    def test_a_program_that_stops(self):
        cases = {
            4: "tokc could not read the script", 5: "tokc could not write its stream", 6: "tokc ran out of memory",
            7: "the token files are too large: a script has at most 67,108,864 bytes",
            126: "there is no program to run, as said above", 77: "tokc ended with status 77",
        }
        for status, line in cases.items():
            with self.subTest(status=status):
                ran = self.build(ONE[:20], status, "tokc: its own line\n")
                self.assertEqual(ran, (3, "", f"tokc: its own line\n{line}\n"))
                self.assertFalse(os.path.exists(self.out))

    def test_a_program_that_is_not_there(self):
        ran = self.tool("build", "tokens", "out", tokc=self.at("nowhere"))
        self.assertEqual((ran.status, ran.err), (3, f"{self.at('nowhere')}: it can't be run: No such file or directory\n"))


class Checking(Room):
    """`check` writes nothing, and tells how a folder of outputs differs."""

    def check(self, *words, stream=ONE, status=0):
        return self.tool("check", *words, tokc=self.stand_in(stream, status))

    def test_outputs_that_are_as_they_would_be(self):
        self.build(ONE)
        ran = self.check("tokens", "out")
        self.assertEqual((ran.status, ran.err), (0, ""))
        self.assertRegex(ran.out, r"\A1 output; 0 differ; [0-9.]+ s\n\Z")

    def test_each_difference(self):
        self.build(stream_of([("a/gone.css", CSS), ("a/x.css", CSS)]))
        before = tree(self.out)
        ran = self.check("tokens", "out", stream=stream_of([("a/new.css", CSS), ("a/x.css", OTHER)]))
        self.assertEqual((ran.status, ran.err, tree(self.out)), (1, "", before))
        self.assertEqual(ran.out.splitlines()[:-1], ["absent a/new.css", "differs a/x.css", "no output a/gone.css"])
        self.assertRegex(ran.out.splitlines()[-1], r"\A2 outputs; 3 differ; [0-9.]+ s\Z")
        ran = self.check("tokens", "out", "--json", stream=stream_of([("a/gone.css", CSS), ("a/x.css", OTHER)]))
        self.assertEqual(ran, (1, '{"output": "a/x.css", "state": "differs"}\n', ""))
        self.assertEqual(self.check("tokens", "out", "--quiet", stream=ONE), (1, "", ""))

    def test_without_a_folder_of_outputs(self):
        ran = self.check("tokens")
        self.assertEqual((ran.status, ran.err, os.path.exists(self.out)), (0, "", False))
        self.assertRegex(ran.out, r"\A1 output; [0-9.]+ s\n\Z")

    def test_a_refusal(self):
        self.put({"tokens.json": "[]"})
        ran = self.check("tokens", stream=stream_of([("default/REFUSED", REFUSED)]), status=1)
        self.assertEqual((ran.status, ran.err.splitlines()[0]), (1, "tokens/tokens.json:1:1: shape-root: a token file is an object, and no token"))

    def test_a_folder_that_is_not_there_lacks_all(self):
        ran = self.check("tokens", "absent")
        self.assertEqual((ran.status, ran.out.splitlines()[0]), (1, "absent default/tokens.css"))


JSON = b"""{
  "a": {"$type": "shadow", "$value": [{}]},
  "b": {"$type": "color", "$value": {"colorSpace": "oklch", "components": [0, 0, 0], "alpha": 1}},
  "c": {"$type": "typography", "$value": {}},
  "d": {"$type": "cubicBezier", "$value": [0, 0, 0, 1]}
}
"""
FONTS = b"".join(b"  --c-%s: 1;\n" % it for it in (b"font-family", b"font-size", b"font-weight", b"letter-spacing", b"line-height"))
XML = b'<?xml version="1.0" encoding="utf-8"?>\n<resources>\n  <!-- omitted a -->\n  <!-- omitted b -->\n  <!-- omitted c -->\n  <!-- omitted d -->\n</resources>\n'
SWIFT = b"import UIKit\n\npublic enum Tokens {\n  // omitted a\n  // omitted b\n" + 5 * b"  public static let c: Double = 1.0\n" + b"  public static let d = 1\n}\n"
ALL_FOUR = [("x/Tokens.swift", SWIFT), ("x/tokens.css", b":root {\n  --a: 1;\n  --b: 1;\n" + FONTS + b"  --d: 1;\n}\n"), ("x/tokens.json", JSON), ("x/tokens.xml", XML)]


class Omitted(Room):
    """What platforms omit is counted by token, and listed with its reason."""

    def test_it_is_counted(self):
        told = self.build(stream_of(ALL_FOUR)).out.splitlines()
        self.assertRegex(told[-1], r"\A4 outputs; 4 changed; omitted: android 4, swift 2; [0-9.]+ s\Z")

    def test_it_is_listed(self):
        other = [(path.replace("x/", "y/"), data.replace(b"// omitted b", b"public static let b = 1")) for path, data in ALL_FOUR]
        ran = self.tool("build", "tokens", "out", "--omitted", tokc=self.stand_in(stream_of([*ALL_FOUR, *other])))
        self.assertEqual(ran.out.splitlines()[8:-1], [
            "Android omits a: it has no form for a shadow",
            "Android omits b: a colour of `oklch` needs a `hex` there",
            "Android omits c: one of its five values has no spelling there",
            "Android omits d: it has no form for a curve",
            "Swift omits a: it has no form for a shadow",
            "Swift omits b: a colour of `oklch` needs a `hex` there (in 1 of 2 permutations)",
        ])

    def test_outputs_of_another_shape_are_not_listed(self):
        stream = stream_of([*ALL_FOUR[:3], ("x/tokens.xml", XML.replace(b"  <!-- omitted a -->\n", b""))])
        told = self.tool("build", "tokens", "out", "--omitted", tokc=self.stand_in(stream)).out.splitlines()
        self.assertEqual(len(told), 5)
        self.assertRegex(told[-1], r"\A4 outputs; 4 changed; omitted: android 3, swift 2; [0-9.]+ s\Z")


BROKEN = stream_of([("default/REFUSED", refused("json-syntax", "tokens.json", b"{", 1, 1))])
MESSAGE = ["tokens/tokens.json:1:2: json-syntax: no JSON text goes on like this", "  1 | {", "    |  ^", "help: close what is open: `}` is missing at the end of the file"]


class Watching(Room):
    """`watch` builds again at each change, and goes on after a file that it can't use."""

    def setUp(self):
        super().setUp()
        self.program = self.stand_in(ONE)
        self.put({"tokens.json": "{}"})
        env = dict(os.environ, TOKC=self.program, PYTHONDONTWRITEBYTECODE="1", PYTHONUNBUFFERED="1")
        words = [sys.executable, TOKC_DIR, "watch", "tokens", "out", "0.02"]
        self.watch = subprocess.Popen(words, cwd=self.room, env=env, stdout=subprocess.PIPE, stderr=subprocess.STDOUT, text=True)
        self.addCleanup(self.end)
        self.told("watches tokens, and builds into out at each change; Ctrl-C ends it", "built: 1 output; 1 changed")

    def end(self):
        self.watch.kill()
        self.watch.communicate()

    def told(self, *lines):
        """Holds the next lines, without the time that a run took, to these."""
        for line in lines:
            ready, _, _ = select.select([self.watch.stdout], [], [], SECONDS)
            self.assertTrue(ready, f"nothing is told where this is wanted: {line}")
            self.assertEqual(re.sub(r"; [0-9.]+ s\Z", "", self.line()), line)

    def line(self):
        """The next line, byte by byte, so that none waits unseen in a buffer."""
        found = b""
        while not found.endswith(b"\n"):
            piece = os.read(self.watch.stdout.fileno(), 1)
            if not piece:
                break
            found += piece
        return found.decode().rstrip("\n")

    def test_a_refusal_and_its_end(self):
        self.stand_in(BROKEN, 1)
        self.put({"tokens.json": "{"})
        self.told("tokens.json is changed: 1 output, 1 of them REFUSED; 2 changed", *MESSAGE)
        self.stand_in(ONE)
        self.put({"tokens.json": "{}"})
        self.told("tokens.json is changed: mended; 1 output; 2 changed")
        self.assertEqual(self.outputs(), {"default/tokens.css": CSS})

    def test_a_file_that_it_cannot_use_and_its_end(self):
        self.put({"tokens.json": b"\xff"})
        self.told("tokens/tokens.json: byte 0 is no UTF-8; save the file as UTF-8")
        self.put({"tokens.json": "{}"})
        self.told("mended: the files are as they were when they were built last")
        self.put({"tokens.json": b"\xff"})
        self.told("tokens/tokens.json: byte 0 is no UTF-8; save the file as UTF-8")
        self.put({"tokens.json": "{ }"})
        self.told("tokens.json is changed: mended; 1 output; 0 changed")

    def test_a_half_written_file_replaces_no_good_outputs(self):
        """The refusal is looked at again after a moment, and what stands there then counts. The program itself writes the rest of the file here."""
        rest = "cat stream; cp ../after stream; echo 0 >status; printf '{  }' >../../tokens/tokens.json"
        program = STAND_IN.replace("cat >../script", "was=$(cat status) && cat >../script").replace("cat stream", rest).replace('exit "$(cat status)"', "exit $was")
        write(self.at("stand-in", "after"), stream_of([("default/tokens.css", OTHER)]))
        write(self.at("stand-in", "tokc"), program, 0o755)
        self.stand_in_parts(BROKEN, 1)
        self.put({"tokens.json": "{"})
        self.told("tokens.json is changed: 1 output; 1 changed")
        self.assertEqual(self.outputs(), {"default/tokens.css": OTHER})

    def test_a_program_that_stops_is_tried_again(self):
        self.stand_in(b"", 6, "tokc: its own line\n")
        self.put({"tokens.json": "{ }"})
        self.told("tokc: its own line", "tokc ran out of memory")
        time.sleep(0.5)
        self.stand_in(stream_of([("default/tokens.css", OTHER)]))
        self.told("tokens.json is changed: mended; 1 output; 1 changed")

    def test_a_folder_that_is_gone_for_a_while(self):
        os.rename(self.at("tokens"), self.at("away"))
        self.told("tokens: it can't be read: No such file or directory")
        os.rename(self.at("away"), self.at("tokens"))
        self.told("mended: the files are as they were when they were built last")

    def test_outputs_that_are_deleted_come_back(self):
        os.rename(self.out, self.at("away"))
        self.told("default/tokens.css was gone or changed, and is written again")
        self.assertEqual(self.outputs(), {"default/tokens.css": CSS})

    def test_several_files_are_one_line(self):
        for name in ("a.json", "b.json", "c.json", "d.json"):
            write(self.at("made", name), "{}")
        os.rename(self.at("made"), self.at("tokens", "made"))
        self.told("made/a.json, made/b.json, made/c.json and 1 more are new: 1 output; 0 changed")

    def test_what_changed_is_sent(self):
        """By a patch, by a move and by a put; after the program stopped, all files are put."""
        first = '{"space":{"$type":"dimension","s":{"$value":{"value":4,"unit":"px"}}}}'
        self.put({"tokens.json": first})
        self.told("tokens.json is changed: 1 output; 0 changed")
        script = f"tokc-script 2\nput tokens.json 2\n{{}}\nput tokens.json 70\n{first}\n"
        self.assertEqual(read(self.at("stand-in", "script")).decode(), script + "commit\n")
        self.put({"tokens.json": first.replace("4", "16")})
        self.told("tokens.json is changed: 1 output; 0 changed")
        script += "patch tokens.json 53 54 2\n16\n"
        self.assertEqual(read(self.at("stand-in", "script")).decode(), script + "commit\n")
        os.rename(self.at("tokens", "tokens.json"), self.at("tokens", "core.json"))
        self.told("core.json is new; tokens.json is gone: 1 output; 0 changed")
        self.assertEqual(read(self.at("stand-in", "script")).decode(), script + "move tokens.json core.json\ncommit\n")
        self.stand_in(b"", 6, "tokc: its own line\n")
        self.put({"core.json": "{}"})
        self.told("tokc: its own line", "tokc ran out of memory")
        self.stand_in(ONE)
        self.told("core.json is changed: mended; 1 output; 0 changed")
        self.assertEqual(read(self.at("stand-in", "script")), b"tokc-script 2\nput core.json 2\n{}\ncommit\n")

    def test_an_interrupt_ends_it_well(self):
        self.watch.send_signal(signal.SIGINT)
        self.assertEqual((self.watch.wait(timeout=60), self.watch.stdout.read()), (0, ""))

    def test_the_same_bytes_anew_build_nothing(self):
        self.put({"tokens.json": "{}"})
        time.sleep(0.2)
        self.put({"tokens.json": "{ }"})
        self.told("tokens.json is changed: 1 output; 0 changed")


if __name__ == "__main__":
    unittest.main()
