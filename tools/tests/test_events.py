"""The events by which `tokc-dir watch` says what changed of files: what they are, and that they leave the files."""
import os
import random
import sys
import unittest

from helpers import TOP

sys.path.insert(0, os.path.join(TOP, "tools"))
from tokcdir import events

LONG = b'{"a":{"$type":"number","$value":1}}'


def after(files, text):
    """The files after a list of events, each of which has to fit; by the rules of docs/FORMAT.md."""
    files, at = dict(files), 0
    while at < len(text):
        end = text.index(b"\n", at)
        word, *rest = text[at:end].decode().split(" ")
        at = end + 1
        if word in ("put", "patch"):
            body, at = text[at:at + int(rest[-1])], at + int(rest[-1]) + 1
            assert text[at - 1:at] == b"\n"
        if word == "put":
            files[rest[0]] = body
        elif word == "del":
            files.pop(rest[0])
        elif word == "move":
            files[rest[1]] = files.pop(rest[0])
        elif word == "patch":
            old, start, to = files[rest[0]], int(rest[1]), int(rest[2])
            assert start <= to <= len(old)
            for piece in (old[:start], old[to:], body):
                piece.decode()
            files[rest[0]] = old[:start] + body + old[to:]
        else:
            assert word == "commit" and at == len(text), word
    return files


class Changes(unittest.TestCase):
    """What is said of two states of a folder."""

    def said(self, earlier, files, *wanted):
        found, patched = events.changes_between(earlier, files)
        self.assertEqual(found, list(wanted))
        self.assertEqual(patched, sum(len(files[it.split(b" ")[1].decode()]) for it in wanted if it.startswith(b"patch ")))
        self.assertEqual(after(earlier, b"".join(found)), files)

    def test_nothing(self):
        self.said({}, {})
        self.said({"a": LONG}, {"a": LONG})

    def test_new_and_gone_files(self):
        self.said({"b": LONG}, {"a": b"{}"}, b"del b\n", b"put a 2\n{}\n")

    def test_a_changed_middle(self):
        self.said({"a": LONG}, {"a": LONG.replace(b"1", b"25")}, b"patch a 32 33 2\n25\n")
        self.said({"a": LONG}, {"a": LONG.replace(b"1}", b"}")}, b"patch a 32 33 0\n\n")
        self.said({"a": LONG}, {"a": LONG + b"\n"}, b"patch a 35 35 1\n\n\n")
        self.said({"a": LONG}, {"a": b" " + LONG}, b"patch a 0 0 1\n \n")

    def test_a_repeated_byte_is_counted_once(self):
        self.said({"a": b"x" * 60}, {"a": b"x" * 61}, b"patch a 60 60 1\nx\n")
        self.said({"a": b"x" * 61}, {"a": b"x" * 60}, b"patch a 60 61 0\n\n")

    def test_a_patch_that_is_not_shorter_is_a_put(self):
        self.said({"a": b"{}"}, {"a": b"[]"}, b"put a 2\n[]\n")
        self.said({"a": LONG}, {"a": b"[" + b"1," * 15 + b"1]"}, b"put a 33\n[" + b"1," * 15 + b"1]\n")

    def test_a_put_of_equal_length_is_taken(self):
        old, new = b"0123456", b"0123x56"
        self.assertEqual(len(events.patch("a", old, new)), len(events.put("a", new)))
        self.said({"a": old}, {"a": new}, b"put a 7\n0123x56\n")

    def test_whole_characters(self):
        texts = ["<é>", "<è>", "<漢>", "<字>", "<😀>", "<🎨>", "<>", "", "éé", "é", "漢é", "é漢"]
        for first in texts:
            for second in texts:
                with self.subTest(first=first, second=second):
                    old, new = ((LONG.decode() + it + LONG.decode()).encode() for it in (first, second))
                    self.assertEqual(after({"a": old}, events.patch("a", old, new)), {"a": new})
        self.said({"a": LONG + "é".encode() + LONG}, {"a": LONG + "è".encode() + LONG}, "patch a 35 37 2\nè\n".encode())
        self.said({"a": LONG + "é".encode() + LONG}, {"a": LONG + "ũ".encode() + LONG}, "patch a 35 37 2\nũ\n".encode())

    def test_a_renamed_file(self):
        self.said({"a": LONG, "b": b"{}"}, {"c/d": LONG, "b": b"{}"}, b"move a c/d\n")
        self.said({"a": b""}, {"b": b""}, b"move a b\n")

    def test_a_file_renamed_onto_another(self):
        self.said({"a": LONG, "b": b"{}"}, {"b": LONG}, b"move a b\n")

    def test_a_copy_is_put(self):
        self.said({"a": LONG}, {"a": LONG, "b": LONG}, b"put b 35\n" + LONG + b"\n")

    def test_two_of_three_alike_renamed(self):
        self.said({"a": LONG, "b": LONG, "c": LONG}, {"x": LONG, "y": LONG}, b"move a x\n", b"move b y\n", b"del c\n")
        self.said({"a": LONG}, {"x": LONG, "y": LONG}, b"move a x\n", b"put y 35\n" + LONG + b"\n")

    def test_a_renamed_and_changed_file_is_put(self):
        self.said({"a": LONG}, {"b": LONG + b" "}, b"del a\n", b"put b 36\n" + LONG + b" \n")

    def test_files_that_change_places(self):
        self.said({"a": LONG, "b": b"{}"}, {"a": b"{}", "b": LONG}, b"put a 2\n{}\n", b"put b 35\n" + LONG + b"\n")

    def test_random_states(self):
        chance = random.Random(1)

        def state():
            return {path: "".join(chance.choice("aé漢😀{") for _ in range(chance.randrange(30))).encode() for path in chance.sample("abcde", 3)}

        for _ in range(300):
            earlier, files = state(), state()
            self.assertEqual(after(earlier, b"".join(events.changes_between(earlier, files)[0])), files)


class Grows(unittest.TestCase):
    """The script of a watch."""

    def test_puts_and_then_what_changes(self):
        sent = events.Growing()
        first = b"tokc-script 2\nput a 35\n" + LONG + b"\n"
        self.assertEqual(sent.script({"a": LONG}), first + b"commit\n")
        self.assertEqual(sent.script({"a": LONG}), first + b"commit\n")
        self.assertEqual(sent.script({"b": LONG}), first + b"move a b\ncommit\n")
        self.assertEqual(sent.script({"b": LONG + b" "}), first + b"move a b\npatch b 35 35 1\n \ncommit\n")

    def test_it_begins_anew_where_it_grows_too_long(self):
        sent, lengths = events.Growing(), []
        for number in range(40):
            files = {"a": LONG.replace(b"1", b"%d" % number)}
            text = sent.script(files)
            self.assertEqual(after({}, text[len(events.HEADER):]), files)
            lengths.append(len(text))
        self.assertLess(max(lengths), 2 * min(lengths))
        self.assertGreater(lengths.count(min(lengths[-10:])), 1)

    def test_it_begins_anew_where_patches_make_too_much(self):
        sent, text = events.Growing(), b"x" * 20_000_000
        found = [sent.script({"a": text + b"%d" % number})[len(text):] for number in range(5)]
        self.assertEqual([b"\npatch a" in it for it in found], [False, True, True, True, False])

    def test_no_longer_than_a_script_may_be(self):
        sent, text = events.Growing(), b"x" * (events.MOST_SCRIPT - 50)
        sent.script({"a": text})
        self.assertLessEqual(len(sent.script({"a": text[:-1]})), events.MOST_SCRIPT)


if __name__ == "__main__":
    unittest.main()
