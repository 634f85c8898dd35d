"""Where the token files write which token, and what references name.

A path of a token is the list of its names, joined by points. What stands in the resolver itself counts as what a file writes.
"""
import re
from functools import cached_property
from typing import NamedTuple

from .folder import CONFIG, DEFAULT, RESOLVER, all_paths
from .places import Node, read_json

CURLY = re.compile(r"\{([^{}]+)\}")
POINTER = re.compile(r"#/(.+)", re.S)


class Written(NamedTuple):
    """A token or a group that a file writes: the file, its path, its node, and that of its value, which is None for a group."""

    file: str
    path: tuple
    node: Node
    value: Node


def unescaped(step):
    return step.replace("~1", "/").replace("~0", "~")


def named_by(node):
    """The path that a value refers to as a whole, and the steps into its value, or None."""
    text = node.text()
    found = text is not None and CURLY.fullmatch(text)
    if found:
        return tuple(found[1].split(".")), ()
    ref = node.get("$ref")
    return pointed_at(ref.text()) if ref is not None and ref.text() else None


def pointed_at(text):
    """The path and the steps of a pointer, or None."""
    found = POINTER.fullmatch(text)
    if found is None:
        return None
    steps = [unescaped(it) for it in found[1].split("/")]
    at = steps.index("$value") if "$value" in steps else len(steps)
    return tuple(steps[:at]), tuple(steps[at + 1:])


def value_of(node):
    """The value of a token: that of `$value`, else that of `$ref`, else None."""
    return node.get("$value") or node.get("$ref")


# How many characters of all files are read for places. What stands in others has no notes.
MOST_READ = 4_000_000


class Tokens:
    """The tokens and groups that the files of a folder write. Files are read as they are asked for, and the folder is looked through."""

    def __init__(self, files, folder=None):
        self.texts = {path: data.decode() for path, data in files.items()}
        self.trees, self.left, self.folder = {}, MOST_READ, folder

    @cached_property
    def others(self):
        """The paths of the files of the folder that tokc is not given."""
        return [it for it in all_paths(self.folder) if it not in self.texts] if self.folder else []

    def tree(self, path):
        """The value of a file with its places, or None where it has none, or too much was read."""
        if path not in self.trees:
            text = self.texts.get(path, "")
            is_read = path != CONFIG and len(text) <= self.left
            self.left -= len(text) if is_read else 0
            self.trees[path] = read_json(text) if is_read else None
        return self.trees[path]

    def sources(self):
        """The roots of token files: what the resolver names or has in place, else tokens.json."""
        if RESOLVER not in self.texts:
            return [(DEFAULT, self.tree(DEFAULT))]
        resolver, found, inline = self.tree(RESOLVER), {}, []
        for source in [] if resolver is None else lists_of_sources(resolver):
            ref = source.get("$ref")
            if ref is None:
                inline.append((RESOLVER, source))
            elif ref.text() is not None:
                path = re.sub(r"\A(?:\./)+", "", ref.text())
                found[path] = self.tree(path)
        return [*found.items(), *inline]

    @cached_property
    def written(self):
        """All tokens and groups, file by file."""
        return [it for file, root in self.sources() if root is not None for it in below(file, (), root)]

    def at(self, path):
        """Where a token of this path is written."""
        return [it for it in self.written if it.path == path and it.value is not None]

    def inherited(self, path):
        """The path from which a token that no file writes comes by the `$extends` of the nearest group above it that has one, or None."""
        for end in range(len(path) - 1, 0, -1):
            for group in self.written:
                extends = group.node.get("$extends") if group.path == path[:end] else None
                target = target_of(extends.text() or "") if extends is not None else None
                if target is not None and target != path[:end]:
                    return target + path[end:]
        return None

    def groups(self):
        return {it.path for it in self.written if it.value is None and isinstance(it.node.value, list)}

    def paths(self):
        """The paths of the tokens that are written."""
        return {it.path for it in self.written if it.value is not None}


def below(file, path, node):
    """What a file writes at a path and below."""
    value = value_of(node) if path else None
    if path:
        yield Written(file, path, node, value)
    for member in node.members() if value is None else ():
        if not member.name.startswith("$") or member.name == "$root":
            yield from below(file, (*path, member.name), member.node)


def target_of(text):
    """The path of the group that a `$extends` names, or None."""
    found = CURLY.fullmatch(text)
    pointed = pointed_at(text)
    return tuple(found[1].split(".")) if found else pointed[0] if pointed else None


def lists_of_sources(resolver):
    """The sources of a resolver document, wherever it lists them."""
    found = []
    items = resolver.get("resolutionOrder")
    named = [it.node for name in ("sets", "modifiers") for it in (resolver.get(name) or resolver).members() if resolver.get(name) is not None]
    for item in [*named, *(items.items() if items is not None else ())]:
        sources, contexts = item.get("sources"), item.get("contexts")
        found += sources.items() if sources is not None else []
        for context in contexts.members() if contexts is not None else ():
            found += context.node.items()
    return found


def spelled(path):
    """A path as a reference spells it."""
    return "{" + ".".join(path) + "}"
