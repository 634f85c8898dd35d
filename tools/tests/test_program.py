"""The built program, its examples, and what the documents show of it. The program is built first where it is not."""
import os
import pty
import re
import resource
import shutil
import subprocess
import sys
import time
import unittest

from helpers import FIRST, TOKC, TOKC_DIR, TOP, Room, make_program, outputs_in, program, read, run, tree, write

setUpModule = make_program


class Words(Room):
    """Arguments that are none of the forms are answered at once, by `tokc` itself, as the program answers them."""

    def test_no_form(self):
        shutil.copy(TOKC, self.at("tokc"))
        for words in ([], ["--help"], ["-h"], ["--version"], ["bild"], ["build", "x"], ["replay", ""], ["stats", "x"], ["gen"], ["gen", "07", "1"], ["gen", "7", "0"], ["gen", "7", "4001"], ["gen", "4294967296", "1"], ["gen", "7"], [""], ["prove", "x"], ["install"], ["install", ""]):
            with self.subTest(words=words):
                start = time.monotonic()
                ran = run([self.at("tokc"), *words], b"never read", at=self.room)
                self.assertLess(time.monotonic() - start, 5)
                self.assertEqual((ran.status, ran.out), (run([program(), *words]).status, ""))
                self.assertRegex(ran.err, r"\Ausage: tokc [^\n]+\n {7}tokc check \| explain show PERM PLACE \| explain check CERT \| store ROOT \| themes\n {7}tokc prove \| install PREFIX\n[^\n]*docs/MANUAL.md[^\n]*\n\Z")
        self.assertEqual(sorted(os.listdir(self.room)), ["tokc", "tokens"])

    def test_the_program_without_what_stands_before_it(self):
        """What it writes on each of its streams, and the number that it ends with."""
        script = b'tokc-script 1\nput tokens.json 13\n{"a":1,"a":2}\ncommit\ncommit\n'
        refused = "tokc-stream 1\ncommit 1\nfile default/REFUSED 64\nrule json-duplicate\nfile tokens.json\nline 1 column 8\nbytes 7 10\n\ncommit 2\ndone 2\n"
        usage = "usage: tokc build | replay | stats | gen SEED SIZE\n"
        for words, status, out, err in ((["replay"], 1, refused, ""), (["builds"], 2, "", usage)):
            with self.subTest(words=words):
                ran = run([program(), *words], script)
                self.assertEqual((ran.status, ran.out, ran.err), (status, out, err))

    def test_a_terminal_as_input(self):
        leader, follower = pty.openpty()
        started = subprocess.Popen([TOKC, "build"], stdin=follower, stdout=subprocess.PIPE, stderr=subprocess.PIPE, text=True)
        os.close(follower)
        os.write(leader, b"\x04")
        out, err = started.communicate(timeout=60)
        os.close(leader)
        lines = err.splitlines()
        self.assertEqual((started.returncode, out, lines[-1]), (3, "", "tokc: bad script at byte 0"))
        self.assertRegex(lines[-2], r"\Atokc: waits for a script on standard input")

    def test_pipes_say_nothing_of_their_own(self):
        self.assertEqual(run([TOKC, "build"], read(FIRST)).err, "")


class Numbers(Room):
    """Each number that the program ends with, by a run of it over streams of the system, and what it says then."""

    SCRIPT = b"tokc-script 1\nput tokens.json 2\n{}\ncommit\n"
    # The longest script, in bytes.
    LIMIT = 67108864

    def ended(self, words, given=b"", source=None, out=None, err=None, memory=None):
        """The number, and what was said, where files may stand for the streams, and memory may be bounded, in bytes."""
        bound = None if memory is None else lambda: resource.setrlimit(resource.RLIMIT_AS, (memory, memory))
        if source is None:
            source = self.at("source")
            write(source, given)
        opened = os.open(source, os.O_RDONLY)
        try:
            with open(out or os.devnull, "wb") as told, open(err or self.at("said"), "wb") as said:
                ran = subprocess.run([program(), *words], stdin=opened, stdout=told, stderr=said, preexec_fn=bound, timeout=60, check=False)
        finally:
            os.close(opened)
        return ran.returncode, "" if err else read(self.at("said")).decode()

    def test_done_and_refused(self):
        self.assertEqual(self.ended(["replay"], self.SCRIPT), (0, ""))
        self.assertEqual(self.ended(["stats"], self.SCRIPT + b"del tokens.json\ncommit\n"), (1, ""))

    def test_every_word_after_the_name_counts(self):
        usage = "usage: tokc build | replay | stats | gen SEED SIZE\n"
        self.assertEqual(self.ended(["gen", "7", "1"]), (0, ""))
        for words in ([], ["gen"], ["gen", "7"], ["gen", "7", "1", "1"], ["7", "1"], ["replay", "replay"]):
            with self.subTest(words=words):
                self.assertEqual(self.ended(words, self.SCRIPT), (2, usage))

    def test_a_script_that_is_none(self):
        self.assertEqual(self.ended(["stats"], self.SCRIPT + b"\n"), (3, f"tokc: bad script at byte {len(self.SCRIPT)}\n"))

    def test_a_read_that_fails(self):
        """A folder can't be read as a file."""
        self.assertEqual(self.ended(["build"], source=self.room), (4, "tokc: read failed\n"))

    def test_a_write_that_fails(self):
        self.assertEqual(self.ended(["replay"], self.SCRIPT, out="/dev/full"), (5, "tokc: write failed\n"))

    def test_want_of_memory(self):
        """The script alone is larger than the memory that there is."""
        given = b"tokc-script 1\nput tokens.json 60000000\n" + b" " * 60000000 + b"\n"
        self.assertEqual(self.ended(["build"], given, memory=50000000), (6, "tokc: out of memory\n"))

    def test_a_script_that_is_too_long(self):
        with open(self.at("long"), "wb") as long:
            long.truncate(self.LIMIT + 1)
        self.assertEqual(self.ended(["build"], source=self.at("long")), (7, "tokc: script too long\n"))
        os.truncate(self.at("long"), self.LIMIT)
        self.assertEqual(self.ended(["build"], source=self.at("long")), (3, "tokc: bad script at byte 0\n"))

    def test_an_event_that_does_not_fit(self):
        """What stands before it is written, by `build` the first line alone; all events are counted."""
        given = b"tokc-script 2\nput tokens.json 2\n{}\ncommit\nmove a.json b.json\ncommit\n"
        said = "tokc: event 3 does not fit\n"
        for word, front in (("replay", b"tokc-stream 1\ncommit 1\n"), ("stats", b"tokc-stats 1\ncommit 1 "), ("build", b"tokc-stream 1\n")):
            with self.subTest(word=word):
                self.assertEqual(self.ended([word], given, out=self.at("told")), (9, said))
                told = read(self.at("told"))
                self.assertTrue(told.startswith(front), told[:80])
                self.assertNotIn(b"done", told)
        self.assertEqual(self.ended(["build"], given, out=self.at("told")), (9, said))
        self.assertEqual(read(self.at("told")), b"tokc-stream 1\n")

    def test_events_of_the_second_version_under_the_first(self):
        self.assertEqual(self.ended(["replay"], b"tokc-script 1\nmove a.json b.json\n"), (3, "tokc: bad script at byte 14\n"))

    def test_an_error_stream_that_fails_changes_no_number(self):
        for number, words, given, out in ((0, ["replay"], self.SCRIPT, None), (2, ["replays"], self.SCRIPT, None), (3, ["replay"], b"", None), (5, ["replay"], self.SCRIPT, "/dev/full")):
            with self.subTest(number=number):
                self.assertEqual(self.ended(words, given, out=out, err="/dev/full"), (number, ""))


class Examples(Room):
    """What stands in examples/ is what the program gives."""

    def test_scripts(self):
        for name, word, status in (("first", "build", 0), ("changes", "replay", 0), ("themes", "replay", 0)):
            with self.subTest(name=name):
                ran = run([TOKC, word], read(os.path.join(TOP, "examples", f"{name}.script")))
                self.assertEqual((ran.status, ran.out, ran.err), (status, read(os.path.join(TOP, "examples", f"{name}.stream")).decode(), ""))

    def test_folders(self):
        """A folder of one file, and one of two themes and two densities."""
        for name, permutations in (("plain", 1), ("acme", 4)):
            with self.subTest(name=name):
                tokens, out = os.path.join(TOP, "examples", name, "tokens"), f"out-{name}"
                ran = self.tool("build", tokens, out)
                self.assertEqual((ran.status, ran.err), (0, ""))
                self.assertEqual(outputs_in(self.at(out)), tree(os.path.join(TOP, "examples", name, "expected")))
                self.assertRegex(self.tool("build", tokens, out).out, rf"\A{4 * permutations} outputs; 0 changed(; omitted: [a-z0-9 ,]+)?; [0-9.]+ s\n\Z")

    def test_acme_broken(self):
        ran = run([os.path.join("tools", "tokc-dir"), "build", os.path.join("examples", "acme", "broken"), self.out])
        self.assertEqual((ran.status, ran.err), (1, read(os.path.join(TOP, "examples", "acme", "broken", "message")).decode()))
        self.assertEqual(self.outputs().keys(), {"default/REFUSED"})

    def test_pack_and_unpack_go_with_the_program(self):
        packed = self.tool("pack", os.path.join(TOP, "examples", "acme", "tokens"))
        for word in ("build", "replay"):
            stream = run([TOKC, word], packed.out.encode())
            self.assertEqual(self.tool("unpack", "out", given=stream.out.encode()).status, 0)
            self.assertEqual(self.outputs(), tree(os.path.join(TOP, "examples", "acme", "expected")))

    def test_a_resolver_that_is_refused(self):
        """No permutation is built then, and the one output is the refusal."""
        self.put({"tokens.json": "{}", "resolver.json": "{}"})
        ran = self.tool("build", "tokens", "out")
        self.assertEqual((ran.status, ran.err.splitlines()[0]), (1, "tokens/resolver.json:1:1: plan-version: a resolver needs `version` with the text `2025.10`"))
        self.assertEqual(self.outputs().keys(), {"REFUSED"})

    def test_a_theme_that_is_refused(self):
        """The others are built, and the refusal is told with the permutations that it is of."""
        shutil.copytree(os.path.join(TOP, "examples", "acme", "tokens"), self.at("tokens"), dirs_exist_ok=True)
        self.put({"theme/dark.json": '{"color":{\n"danger":{"$value":{"colorSpace":"hsl","components":[2,80,162]}}}}\n'})
        ran = self.tool("build", "tokens", "out")
        self.assertEqual((ran.status, ran.err), (1, """\
tokens/theme/dark.json:2:59: color-range: the component is out of the range of its colour space
  2 | "danger":{"$value":{"colorSpace":"hsl","components":[2,80,162]}}}}
    |                                                           ^^^
note: token color.danger
note: place #/color/danger/$value/components/2
note: in theme=dark+density=cozy, theme=dark+density=compact
help: write components of `hsl` within 0 to 360, 0 to 100 and 0 to 100
"""))
        dark, light = ({path for path in self.outputs() if it in path} for it in ("theme=dark", "theme=light"))
        self.assertEqual((len(light), dark), (8, {"theme=dark+density=compact/REFUSED", "theme=dark+density=cozy/REFUSED"}))

    def test_a_folder_with_no_files(self):
        ran = self.tool("build", "tokens", "out")
        self.assertEqual((ran.status, ran.err), (1, """\
tokens/tokens.json:1:1: file-missing: there is no such file
help: put a token file named `tokens.json` right into the folder
"""))


BLOCK = re.compile(r"^```(\w*) ?([^\n]*)\n(.*?)^```$", re.M | re.S)

# The file that a block shows, and the output, by its kind, where it does not name one.
FILES = {"json": "tokens.json", "toml": "tokc.toml"}
SHOWN = {"css": "default/tokens.css", "xml": "default/tokens.xml", "swift": "default/Tokens.swift", "jsonc": "default/tokens.json", "text": "message"}


class Documents(Room):
    """What the documents show is what the program gives."""

    def document(self, *parts):
        return read(os.path.join(TOP, *parts)).decode()

    def built(self, files):
        """The outputs that these files alone give, and the message under its name."""
        shutil.rmtree(self.at("tokens"))
        os.mkdir(self.at("tokens"))
        self.put(files)
        ran = self.tool("build", "tokens", "out")
        self.assertEqual(ran.status, 1 if ran.err else 0)
        return {path: body.decode() for path, body in self.outputs().items()} | {"message": ran.err}

    def files_of(self, rule, kind, text):
        """The files of a rule's section: the smallest that break it."""
        if kind == "toml":
            return {"tokens.json": "{}", "tokc.toml": text}
        if kind == "json":
            return {"resolver.json" if rule.startswith("plan-") else "tokens.json": text.rstrip("\n")}
        return {}

    def test_each_rule_of_the_manual(self):
        """A rule's section has the smallest file that breaks it, with the configuration that it needs, and its message, which stands among all that are told."""
        sections = re.findall(r"^### `([a-z-]+)`\n(.*?)(?=^##|\Z)", self.document("docs", "MANUAL.md"), re.M | re.S)
        self.assertGreater(len(sections), 40)
        for rule, section in sections:
            with self.subTest(rule=rule):
                blocks = BLOCK.findall(section)
                files = {}
                for kind, _, text in blocks[:-1]:
                    files |= self.files_of(rule, kind, text)
                message = self.built(files)["message"]
                self.assertIn(blocks[-1][2], message)
                self.assertIn(f": {rule}: ", blocks[-1][2])

    def test_what_blocks_give(self):
        """Elsewhere blocks of JSON and TOML, one for each file, stand before blocks of what they give, or of lines of that."""
        for name in (("README.md",), ("docs", "MANUAL.md")):
            text = re.sub(r"^### `[a-z-]+`\n.*?(?=^##|\Z)", "", self.document(*name), flags=re.M | re.S)
            files, given, tried = {}, None, 0
            for kind, path, block in BLOCK.findall(text):
                if kind in FILES:
                    files = files if given is None else {}
                    files[path or FILES[kind]], given = block, None
                elif kind == "lines" and files:
                    with self.subTest(name=name, files=files):
                        given = self.built(files)
                        self.assertLessEqual(set(block.splitlines()), {line for text in given.values() for line in text.splitlines()})
                        tried += 1
                elif kind in SHOWN and files:
                    with self.subTest(name=name, files=files):
                        given = self.built(files) if given is None else given
                        self.assertEqual(given.get(path or SHOWN[kind]), block)
                        tried += 1
            self.assertGreater(tried, 0)

    def test_the_examples_in_the_format(self):
        text = self.document("docs", "FORMAT.md")
        for name in ("changes.script", "changes.stream"):
            self.assertIn(read(os.path.join(TOP, "examples", name)).decode(), text)

    def test_the_refusal_that_is_shown(self):
        message = self.document("examples", "acme", "broken", "message")
        indented = "".join(f"    {line}\n" for line in message.splitlines())
        for name in (("README.md",), ("docs", "MANUAL.md")):
            self.assertIn(indented, self.document(*name))

    def test_the_quick_start(self):
        """The lines that it shows are the first and the last ones that are told."""
        first, last = re.search(r"^((?:    wrote .*\n)+)    \.\.\n    (.*); [0-9.]+ s$", self.document("docs", "MANUAL.md"), re.M).groups()
        told = self.tool("build", os.path.join(TOP, "examples", "acme", "tokens"), "out").out.splitlines()
        shown = [line.strip() for line in first.splitlines()]
        self.assertEqual((told[:len(shown)], told[-1].rpartition("; ")[0]), (shown, last))

    def test_the_explanation_that_is_shown(self):
        command, shown = re.search(r"`tools/tokc-dir (explain [^`]+)` tells:\n\n((?:    .*\n)+)", self.document("docs", "MANUAL.md")).groups()
        ran = run([sys.executable, TOKC_DIR, *command.split()])
        self.assertEqual((ran.status, "".join(f"    {line}\n" for line in ran.out.splitlines())), (0, shown))

    def test_links_lead_to_files(self):
        names = ["README.md", "CONTRIBUTING.md", *(os.path.join("docs", it) for it in os.listdir(os.path.join(TOP, "docs")) if it.endswith(".md"))]
        for name in names:
            for link in re.findall(r"\]\(([^)#]+)[^)]*\)", self.document(name)):
                if "://" not in link:
                    with self.subTest(name=name, link=link):
                        self.assertTrue(os.path.exists(os.path.join(TOP, os.path.dirname(name), link)))

    def test_what_crates_use(self):
        """The table of crates says of each whose crates its code uses, tests and definitions aside."""
        layers = [line.split(":") for line in self.document("crates.txt").splitlines() if ":" in line and not line.startswith("#")]
        rows = dict(re.findall(r"^\| (\w+) \|[^|]*\|([^|]*)\|", self.document("docs", "ARCHITECTURE.md").partition("## Code and its plain data")[0], re.M))
        self.assertIn("build_plain", rows)
        for name, below in ((name.strip(), below.split()) for name, below in layers):
            if name in rows:
                with self.subTest(name=name):
                    self.assertEqual(set(re.findall(r"\w+", rows[name].replace("the kit's", ""))) - {"std"}, self.used_by(name, below))

    def test_the_headings_of_crates(self):
        """The crates stand under the same headings in both lists, in the same order."""
        part = self.document("docs", "ARCHITECTURE.md").partition("## The crates\n")[2].partition("\n## ")[0]
        shown = self.headed(part, r"### (.*)", r"\| ([a-z_]+(?:, [a-z_]+)*) \|")
        shown = {heading: [name for name in names if name != "crate"] for heading, names in shown.items()}
        self.assertEqual(len(shown), 8)
        self.assertEqual(list(self.headed(self.document("crates.txt"), r"# ([A-Z][a-z ]*)\. ", r"([a-z_]+):").items()), list(shown.items()))

    def headed(self, text, heading, row):
        """Each heading with the names in the rows below it."""
        found, names = {}, []
        for line in text.splitlines():
            is_heading, is_row = re.match(heading, line), re.match(row, line)
            if is_heading:
                names = found.setdefault(is_heading[1], [])
            elif is_row:
                names += is_row[1].split(", ")
        return found

    def used_by(self, name, below):
        """The crates below that the code of a crate names."""
        folder = os.path.join(TOP, "crates", name, "src")
        paths = (os.path.join(at, file) for at, _, files in os.walk(folder) for file in files if file.endswith(".rt"))
        texts = [read(path).decode() for path in paths if "tests" not in os.path.relpath(path, folder)]
        code = re.sub(r"//[^\n]*|ghost use[^;]*;", "", "\n".join(texts))
        return {it for it in below if re.search(rf"(?<![\w:.]){it}::", code)}

    def test_names_of_files_stand(self):
        """A path in a document that leads into the repository leads somewhere."""
        names = ["README.md", "CONTRIBUTING.md", *(os.path.join("docs", it) for it in os.listdir(os.path.join(TOP, "docs")) if it.endswith(".md"))]
        for name in names:
            for path in re.findall(r"`((?:crates|docs|tools|examples|bench)/[A-Za-z0-9_./-]+)`", self.document(name)):
                with self.subTest(name=name, path=path):
                    self.assertTrue(os.path.exists(os.path.join(TOP, path)) or "/out/" in path or "NAME" in path)


if __name__ == "__main__":
    unittest.main()
