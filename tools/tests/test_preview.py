"""The page of `tokc-dir preview`, over a program that stands in for tokc."""
import json
import os
import re
import unittest

from helpers import Room, read, refused, stream_of, write

CSS = b":root {\n  --a: 1px;\n  /* omitted --b */\n}\n"
JSON = b"""{
  "a": {"$type": "dimension", "$value": {"value": 1, "unit": "px"}, "$description": "Small </script><b>&", "$deprecated": "Take b."},
  "b": {"$type": "strokeStyle", "$value": {"dashArray": [], "lineCap": "round"}}
}
"""
XML = b'<?xml version="1.0" encoding="utf-8"?>\n<resources>\n  <dimen name="a">1dp</dimen>\n  <!-- omitted b -->\n</resources>\n'
SWIFT = b"import UIKit\n\npublic enum Tokens {\n  public static let a: CGFloat = 1.0\n  // omitted b\n}\n"
FOUR = {"Tokens.swift": SWIFT, "tokens.css": CSS, "tokens.json": JSON, "tokens.xml": XML}
DARK, LIGHT = ([(f"theme={it}/{name}", data) for name, data in FOUR.items()] for it in ("dark", "light"))


class Preview(Room):
    """What is put into the page."""

    def page(self, stream, status=0, name="page.html"):
        ran = self.tool("preview", "tokens", name, tokc=self.stand_in(stream, status))
        return ran, read(self.at(name)).decode()

    def data(self, page):
        """What the page's script is given."""
        return json.loads(re.search(r"^const data = (.*);$", page, re.M)[1])

    def test_each_token_with_what_platforms_get(self):
        ran, page = self.page(stream_of([*DARK, *LIGHT]))
        self.assertEqual((ran.status, ran.err), (0, ""))
        self.assertRegex(ran.out, r"\A8 outputs; page.html is written; omitted: css 1, android 1, swift 1; [0-9.]+ s\n\Z")
        data = self.data(page)
        self.assertEqual(([it["name"] for it in data["permutations"]], data["refused"]), (["theme=dark", "theme=light"], []))
        self.assertEqual(data["permutations"][0]["css"], CSS.decode())
        self.assertEqual(data["permutations"][1]["tokens"], [
            {
                "path": "a", "type": "dimension", "value": {"value": 1, "unit": "px"}, "description": "Small </script><b>&", "deprecated": "Take b.",
                "lines": {"css": ["--a: 1px;"], "android": ['<dimen name="a">1dp</dimen>'], "swift": ["public static let a: CGFloat = 1.0"]}, "omits": {},
            },
            {
                "path": "b", "type": "strokeStyle", "value": {"dashArray": [], "lineCap": "round"}, "description": None, "deprecated": None,
                "lines": {"css": ["/* omitted --b */"], "android": ["<!-- omitted b -->"], "swift": ["// omitted b"]},
                "omits": {"css": "a style of dashes has no spelling there", "android": "it has no form for a stroke style", "swift": "it has no form for a stroke style"},
            },
        ])

    def test_nothing_is_loaded_and_no_text_ends_the_script(self):
        _, page = self.page(stream_of(DARK))
        self.assertEqual(page.count("</script>"), 1)
        self.assertEqual(re.findall(r"""(?:src|href)=|url\(|@import|https?://(?!www\.w3\.org/2000/svg)""", page), [])
        self.assertIn("default-src 'none'", page)

    def test_the_title_is_a_text(self):
        os.rename(self.at("tokens"), self.at("a<b>"))
        ran = self.tool("preview", "a<b>", "page.html", tokc=self.stand_in(stream_of(DARK)))
        self.assertEqual((ran.status, read(self.at("page.html")).decode().count("Tokens of a&lt;b&gt;")), (0, 2))

    def test_a_refused_permutation_is_told(self):
        self.put({"tokens.json": "[]"})
        text = refused("shape-root", "tokens.json", b"[]", 0, 2)
        ran, page = self.page(stream_of([*DARK, ("theme=light/REFUSED", text)]), 1)
        self.assertEqual((ran.status, ran.err.splitlines()[0]), (1, "tokens/tokens.json:1:1: shape-root: a token file is an object, and no token"))
        data = self.data(page)
        self.assertEqual([it["name"] for it in data["permutations"]], ["theme=dark"])
        self.assertEqual(data["refused"], [{"names": ["theme=light"], "lines": ran.err.splitlines()}])

    def test_a_refusal_of_all(self):
        """The page tells it, and no permutation is shown."""
        self.put({"resolver.json": "[]"})
        ran, page = self.page(stream_of([("REFUSED", refused("plan-version", "resolver.json", b"[]", 0, 2))]), 1)
        data = self.data(page)
        self.assertEqual((data["permutations"], data["refused"]), ([], [{"names": [], "lines": ran.err.splitlines()}]))
        self.assertIn("plan-version: a resolver needs", data["refused"][0]["lines"][0])

    def test_where_it_can_be_written(self):
        _, page = self.page(stream_of(DARK), name="made/deep/page.html")
        self.assertTrue(page.startswith("<!doctype html>"))
        ran = self.tool("preview", "tokens", "made", tokc=self.stand_in(stream_of(DARK)))
        self.assertEqual((ran.status, ran.err), (2, "made: this is a folder, and the page is a file, as made/tokens.html\n"))
        write(self.at("file"), "")
        ran = self.tool("preview", "tokens", "file/page.html", tokc=self.stand_in(stream_of(DARK)))
        self.assertEqual((ran.status, ran.err), (3, f"{self.at('file')}: it can't be written: File exists\n"))


if __name__ == "__main__":
    unittest.main()
