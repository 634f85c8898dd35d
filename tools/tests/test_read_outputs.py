"""`read-outputs` tells what the platforms' tools say, over programs that stand in for them and for tokc; and what it gives them to read."""
import json
import os
import shutil
import subprocess
import sys
import unittest

from helpers import SECONDS, TOP, Room, load_tool, refused, stream_of, write

sys.path.insert(0, os.path.join(TOP, "tools"))
import sample_tokens

TOOL = os.path.join(TOP, "tools", "read-outputs")

CSS = """:root {
  --a: 1px;
  --b: var(--a);
  /* omitted --c */
  --d-font-family: "A B";
  --d-font-size: 1rem;
  --d-font-weight: 700;
  --d-letter-spacing: 0px;
  --d-line-height: 1.5;
}
"""
TOKENS = {"a": "dimension", "b": "dimension", "c": "strokeStyle", "d": "typography"}
JSON = json.dumps({name: {"$type": kind, "$value": 0} for name, kind in TOKENS.items()})
XML = '<?xml version="1.0" encoding="utf-8"?>\n<resources>\n' + 2 * "  <dimen/>\n" + "  <!-- omitted c -->\n" + 5 * "  <item/>\n" + "</resources>\n"
SWIFT = "import UIKit\n\npublic enum Tokens {\n" + 2 * "  public static let a = 1\n" + "  // omitted c\n" + 5 * "  public static let d = 1\n" + "}\n"
NAMES = ["--a", "--b", "--d-font-family", "--d-font-size", "--d-font-weight", "--d-letter-spacing", "--d-line-height"]
VALUES = ["1px", "1px", '"A B"', "1rem", "700", "0px", "1.5"]

# A browser that keeps the page and prints what stands beside it, and a tool that keeps its arguments and refuses a text that is named.
BROWSER = '#!/bin/sh\nfor last; do :; done\ncase $last in *"#"*) ;; *) cp "${last#file://}" "${0%/*}" ;; esac; exec cat "${0%/*}/dom"\n'
ODD = "#!/bin/sh\nfor last; do :; done\nif grep -q BAD \"$last\"; then echo \"$last: no such thing\" >&2; exit 1; fi\n"

BUILDS = 2


def answer_of(**other):
    """What a browser says that reads the sheet as it is meant, but for what is told."""
    return {"rules": 1, "names": NAMES, "values": VALUES, "taken": [True] * len(NAMES), **other}


def stream(css=CSS, tokens=JSON, xml=XML, swift=SWIFT):
    texts = {"Tokens.swift": swift, "tokens.css": css, "tokens.json": tokens, "tokens.xml": xml}
    return stream_of([(f"default/{name}", text.encode()) for name, text in texts.items()])


class ReadOutputs(Room):
    """A line for each tool, and the exit status."""

    def setUp(self):
        super().setUp()
        os.mkdir(self.at("bin"))
        for name in ("cat", "cp", "grep"):
            os.symlink(shutil.which(name), self.at("bin", name))

    def install(self, name, text):
        write(self.at("bin", name), text)
        os.chmod(self.at("bin", name), 0o755)

    def browser(self, answer):
        """A browser that says so of the sheet of each build."""
        self.install("chromium", BROWSER)
        dom = json.dumps([answer] * BUILDS).replace("&", "&amp;").replace("<", "&lt;")
        write(self.at("bin", "dom"), f'<html><body data-shown="{len(TOKENS)}"><pre id="answer">{dom}</pre></body></html>\n')

    def read(self, given=None, words=(), status=0):
        """The lines that the tool writes, where only the programs in `bin` are installed."""
        env = dict(os.environ, PATH=self.at("bin"), TOKC=self.stand_in(given or stream(), status))
        ran = subprocess.run([sys.executable, TOOL, *words], capture_output=True, text=True, env=env, timeout=SECONDS, check=False, cwd=self.room)
        return ran.returncode, ran.stdout.splitlines(), ran.stderr.splitlines()

    def line(self, title, lines):
        """The line of a tool, without its title, and those below it."""
        first = next(i for i, line in enumerate(lines) if line.startswith(title + ": "))
        below = [line for line in lines[first + 1:first + 9] if line.startswith("  ")]
        return lines[first].partition(": ")[2], below

    def test_nothing_is_installed(self):
        status, lines, err = self.read()
        self.assertEqual((status, err), (0, []))
        self.assertEqual(lines, [
            "tokens.css by chromium: not installed; apt-get install chromium",
            "the themes by chromium: not installed; apt-get install chromium",
            "tokens.xml by aapt2: not installed; apt-get install aapt",
            "tokens.xml by xmllint: not installed; apt-get install libxml2-utils",
            f"tokens.json by Python: {BUILDS} files with {BUILDS * len(TOKENS)} tokens, all accepted",
            "tokens.json by jq: not installed; apt-get install jq",
            "Tokens.swift by swiftc: not installed; apt-get install swiftlang (Debian 13 or later)",
            "the page by chromium: not installed; apt-get install chromium",
        ])

    def test_all_accept(self):
        self.browser(answer_of())
        for name in ("aapt2", "xmllint", "jq", "swiftc"):
            self.install(name, ODD)
        status, lines, err = self.read(words=["kept"])
        self.assertEqual((status, err, len(lines)), (0, [], 8))
        self.assertTrue(all(line.endswith(", all accepted") for line in lines), lines)
        self.assertEqual(self.line("tokens.css by chromium", lines)[0], f"{BUILDS} files with {BUILDS * len(NAMES)} declarations, all accepted")
        with open(self.at("kept", "made-up", "default", "tokens.css"), encoding="utf-8") as file:
            self.assertEqual(file.read(), CSS)

    def test_what_the_page_asks(self):
        self.browser(answer_of())
        self.read(stream(css=CSS.replace('"A B"', '"</script>"')))
        with open(self.at("bin", "page.html"), encoding="utf-8") as file:
            page = file.read()
        self.assertEqual(page.count("</script>"), 1)
        for asked in ('["--b", "margin-left", "", ""]', '["--d-line-height", "line-height", "", ""]'):
            self.assertIn(asked, page)

    def test_each_tool_refuses(self):
        cases = [
            ("aapt2", "tokens.xml", {"xml": XML + "BAD"}),
            ("xmllint", "tokens.xml", {"xml": XML + "BAD"}),
            ("jq", "tokens.json", {"tokens": JSON.replace("dimension", "BAD")}),
            ("swiftc", "Tokens.swift", {"swift": SWIFT + "BAD"}),
        ]
        for program, path, texts in cases:
            with self.subTest(program=program):
                self.install(program, ODD)
                status, lines, _ = self.read(stream(**texts))
                said, below = self.line(f"{path} by {program}", lines)
                self.assertEqual((status, said), (1, f"{BUILDS} files, {BUILDS} refused"))
                self.assertEqual(below[0], f"  acme/default/{path}: {path}: no such thing")
                os.remove(self.at("bin", program))

    def test_json_with_a_name_twice(self):
        status, lines, _ = self.read(stream(tokens='{"a":{"$type":"number","$value":0},"a":{}}'))
        self.assertEqual((status, self.line("tokens.json by Python", lines)[1][0]), (1, "  acme/default/tokens.json: a name stands twice"))

    def css_refused(self, answer, given=None):
        """The first reason for which the sheet is refused."""
        self.browser(answer)
        status, lines, _ = self.read(given)
        said, below = self.line("tokens.css by chromium", lines)
        self.assertEqual(status, 1)
        self.assertRegex(said, r", [0-9]+ refused\Z")
        return below[0].partition(": ")[2]

    def test_css(self):
        values, taken = VALUES.copy(), [True] * len(NAMES)
        values[1], taken[3] = "", False
        self.assertEqual(self.css_refused(answer_of(values=values)), "--b is '' in place of '1px'")
        self.assertEqual(self.css_refused(answer_of(taken=taken)), "--d-font-size: `font-size: 1rem` is no declaration")
        self.assertEqual(self.css_refused(answer_of(rules=2)), "2 rules with 7 properties in place of one with 7")
        self.assertEqual(self.css_refused(answer_of(names=NAMES[1:])), "1 rules with 6 properties in place of one with 7")
        self.assertEqual(self.css_refused(answer_of(), stream(css=CSS.replace("1px;", "1px"))), "a line is no declaration: '  --a: 1px'")
        more = CSS.replace("}", "  --e: 1;\n}")
        self.assertEqual(self.css_refused(answer_of(), stream(css=more)), "it has 9 lines in place of 8, as its tokens want")

    def test_a_ring_of_references_ends(self):
        ring = CSS.replace("--a: 1px", "--a: var(--b)")
        self.assertRegex(self.css_refused(answer_of(), stream(css=ring)), r"--a is '1px' in place of 'var\(--[ab]\)'")

    def test_a_browser_that_gives_no_answer(self):
        self.install("chromium", "#!/bin/sh\necho it broke >&2\nexit 1\n")
        status, lines, _ = self.read()
        below = self.line("tokens.css by chromium", lines)[1]
        self.assertEqual((status, below[:1]), (1, ["  they can't be given to it: the browser gave no answer: it broke"]))

    def test_a_page_that_shows_other_tokens(self):
        self.browser(answer_of())
        for shown, said in (('data-shown="3"', "it shows 3 tokens in place of 4"), ("", "the browser shows no tokens: ")):
            with self.subTest(shown=shown):
                dom = self.at("bin", "dom")
                with open(dom, encoding="utf-8") as file:
                    text = file.read()
                write(dom, text.replace('data-shown="4"', shown))
                status, lines, _ = self.read()
                below = self.line("the page by chromium", lines)[1]
                self.assertEqual((status, len(below)), (1, 2))
                self.assertTrue(below[0].startswith(f"  acme: {said}"), below)
                write(dom, text)

    def test_no_outputs(self):
        text = refused("file-missing", "tokens.json", b"", 0, 0)
        status, lines, err = self.read(stream_of([("default/REFUSED", text)]), status=1)
        self.assertEqual((status, lines), (3, []))
        self.assertTrue(err[0].startswith("acme: default/REFUSED: rule file-missing; "), err)

    def test_words(self):
        status, lines, err = self.read(words=["a", "b"])
        self.assertEqual((status, lines, err), (2, [], ["usage: read-outputs [OUT_DIR]"]))


def tokens_of(tree, path=(), kind=None):
    """The tokens of a file, each with its path and the nearest type."""
    kind = tree.get("$type", kind)
    if "$value" in tree or "$ref" in tree:
        yield path, kind, tree
        return
    for name, member in tree.items():
        if not name.startswith("$") or name == "$root":
            yield from tokens_of(member, (*path, name), kind)


class SampleTokens(unittest.TestCase):
    """The made-up design system has what its readers are to see."""

    def setUp(self):
        self.files = sample_tokens.system(7)
        self.trees = {path: json.loads(text) for path, text in self.files.items() if path.endswith(".json")}

    def test_the_same_for_the_same_seed(self):
        self.assertEqual(self.files, sample_tokens.system(7))
        self.assertNotEqual(self.files, sample_tokens.system(8))

    def test_types_spaces_and_names(self):
        tokens = list(tokens_of(self.trees["core.json"]))
        values = [token["$value"] for _, _, token in tokens if isinstance(token.get("$value"), dict)]
        self.assertEqual({kind for _, kind, _ in tokens if kind}, set(sample_tokens.KINDS))
        self.assertEqual(len(sample_tokens.KINDS), 13)
        self.assertEqual(len({value["colorSpace"] for value in values if "colorSpace" in value}), 14)
        names = {name for path, _, _ in tokens for name in path}
        self.assertTrue({"on brand", "größe", "🎨", "2 xl", "$root"} <= names)

    def test_permutations(self):
        contexts = [it["contexts"] for it in self.trees["resolver.json"]["modifiers"].values()]
        self.assertEqual([len(it) for it in contexts], [3, 2, 2])
        named = {source["$ref"] for it in contexts for sources in it.values() for source in sources}
        self.assertEqual(named | {"core.json", "resolver.json", "tokc.toml"}, set(self.files))


class Themes(Room):
    """The one sheet of a system, over a browser that says so of each permutation: what its properties come to by that sheet, and by its own."""

    OWN = {"theme=dark": ":root {\n  --a: 1;\n  --b: 2;\n}\n", "theme=light": ":root {\n  --a: 1;\n}\n"}
    SHEET = ':root {\n  --a: 1;\n}\n:root[data-theme="dark"] {\n  --b: 2;\n}\n'

    def read(self, *answers):
        """What is said of the sheet, and the page that asked."""
        tool = load_tool("read-outputs")
        for name, css in self.OWN.items():
            write(self.at("made", name, "tokens.css"), css)
        write(self.at("made.css"), self.SHEET)
        write(self.at("browser"), BROWSER.replace("dom", "said"), 0o755)
        write(self.at("said"), f'<pre id="answer">{json.dumps(answers)}</pre>')
        os.mkdir(self.at("asks"))
        answer = tool.read_themes(self.at("browser"), [tool.Build(f"made/{it}", self.at("made", it)) for it in self.OWN], self.at("asks"))
        with open(self.at("page.html"), encoding="utf-8") as file:
            return answer, file.read()

    def test_each_permutation_has_what_its_own_sheet_gives(self):
        answer, page = self.read([["1", "2"], ["1", "2"]], [["1", ""], ["1", ""]])
        self.assertEqual(answer, ("1 sheets under the attributes of 2 permutations with 4 properties", []))
        asked = [{"sheet": self.SHEET, "names": ["--a", "--b"], "permutations": [[css, [["data-theme", name[6:]]]] for name, css in self.OWN.items()]}]
        self.assertIn(json.dumps(asked), page)

    def test_what_differs_is_told(self):
        answer, _ = self.read([["1", "2"], ["1", "2"]], [["1", "2"], ["1", ""]])
        self.assertEqual(answer.refused, ["made/theme=light: --b is '2' in place of ''"])


if __name__ == "__main__":
    unittest.main()
