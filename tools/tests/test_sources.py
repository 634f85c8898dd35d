"""The sources of tools/ are ones that Python 3.9 reads, and import nothing but its standard library and each other."""
import ast
import os
import sys
import unittest

from helpers import TOP

OWN = {"tokcdir", "helpers", "sample_tokens", "random_scripts", "copies"}


def sources():
    """The paths of all Python files of tools/ and of ./check."""
    found = [os.path.join(at, name) for at, _, names in os.walk(os.path.join(TOP, "tools")) for name in names]
    for path in [os.path.join(TOP, "check"), *found]:
        with open(path, "rb") as file:
            is_python = path.endswith(".py") or file.readline().startswith(b"#!/usr/bin/env python3")
        if is_python:
            yield path


def imported(tree):
    """The modules that a source imports from outside its package."""
    for node in ast.walk(tree):
        if isinstance(node, ast.Import):
            yield from (it.name.split(".")[0] for it in node.names)
        elif isinstance(node, ast.ImportFrom) and node.level == 0:
            yield node.module.split(".")[0]


class Sources(unittest.TestCase):
    """Each file."""

    def test_each(self):
        paths = list(sources())
        self.assertIn(os.path.join(TOP, "tools", "tokc-dir"), paths)
        own = OWN | {os.path.splitext(os.path.basename(it))[0] for it in paths if os.path.dirname(it).endswith("tools")}
        for path in paths:
            with self.subTest(path=path), open(path, encoding="utf-8") as file:
                tree = ast.parse(file.read(), feature_version=(3, 9))
                known = getattr(sys, "stdlib_module_names", None)
                if known:
                    self.assertEqual({it for it in imported(tree) if it not in known} - own, set())


if __name__ == "__main__":
    unittest.main()
