"""Which files of a folder tokc is given.

The *.json and *.tokens files, at any depth, the tokc.toml right in the folder, and each file below it that the resolver names, whatever its
folder and ending, are given under their paths below it. What a build names (the configuration, the resolver and the files that its text
names, or tokens.json where there is no resolver) and can't have ends the run. Any other file that can't be given is passed over, and so are
files that nothing names; those that look like token files are told.
"""
import json
import os
import re
import stat
from typing import NamedTuple

from .outputs import LISTS
from .stop import WRONG_USE, Stop, shown, some

CONFIG, RESOLVER, DEFAULT = "tokc.toml", "resolver.json", "tokens.json"
ENDINGS = (".json", ".tokens")
PASSED_FOLDERS = ("node_modules",)

SEGMENT = r"(?!\.{1,2}(?:/|\Z))[A-Za-z0-9._-]+"
SCRIPT_PATH = re.compile(rf"{SEGMENT}(?:/{SEGMENT})*\Z")
PATH_RULE = "tokc takes paths of at most 200 letters, digits, `.`, `_`, `-` and `/` of ASCII; rename the file or its folder"


class Folder(NamedTuple):
    """The files that tokc is given, by their paths in byte order, and a line for those that look like token files and are passed over."""

    files: dict
    passed: list


class Unfit(Exception):
    """A file that tokc can't be given, and why."""


def is_script_path(path):
    """Whether a script can name a file so."""
    return len(os.fsencode(path)) <= 200 and SCRIPT_PATH.match(path) is not None


def is_inside(folder, other):
    """Whether a path is the other one or stands below it, links followed."""
    folder, other = os.path.realpath(folder), os.path.realpath(other)
    return os.path.commonpath([folder, other]) == other


def subfolders(tokens, folder, out, above):
    """The folders right in one that are gone into: not hidden, not those of packages or of outputs, and by a link only inside and only down."""
    for entry in os.scandir(folder):
        if entry.name.startswith(".") or entry.name in PASSED_FOLDERS or not entry.is_dir():
            continue
        real = os.path.realpath(entry.path)
        is_ours = os.path.lexists(os.path.join(entry.path, LISTS)) or real == out
        if not is_ours and real not in above and (not entry.is_symlink() or is_inside(real, tokens)):
            yield entry.path, real


def token_paths(tokens, out=None):
    """The paths below the folder of the files that may be given to tokc, in byte order."""
    found = [it for it in (CONFIG, *referred_paths(tokens)) if os.path.lexists(os.path.join(tokens, it))]
    out = out and os.path.realpath(out)
    left = [(tokens, (os.path.realpath(tokens),))]
    while left:
        folder, above = left.pop()
        names = [it.name for it in os.scandir(folder) if it.name.endswith(ENDINGS) and (it.is_symlink() or not it.is_dir())]
        found += [os.path.normpath(os.path.join(os.path.relpath(folder, tokens), it)) for it in names]
        left += [(it, (*above, real)) for it, real in subfolders(tokens, folder, out, above)]
    return sorted(set(found), key=os.fsencode)


def all_paths(tokens):
    """The paths below the folder of all its files, but for those in hidden folders and those of packages, in byte order."""
    found = []
    for at, folders, names in os.walk(tokens):
        folders[:] = [it for it in folders if not it.startswith(".") and it not in PASSED_FOLDERS]
        found += [os.path.normpath(os.path.join(os.path.relpath(at, tokens), it)) for it in names]
    return sorted(found, key=os.fsencode)


def read_file(tokens, path):
    """The bytes of one file, or why it can't be given."""
    name = os.path.join(tokens, path)
    if not is_script_path(path):
        raise Unfit(PATH_RULE)
    if not is_inside(name, tokens):
        raise Unfit("its link leads out of the folder; put the file itself there")
    try:
        if not stat.S_ISREG(os.stat(name).st_mode):
            raise Unfit("this is no file")
        with open(name, "rb") as file:
            data = file.read()
        data.decode("utf-8")
    except OSError as error:
        raise Unfit(f"it can't be read: {error.strerror}") from None
    except UnicodeDecodeError as error:
        raise Unfit(f"byte {error.start} is no UTF-8; save the file as UTF-8") from None
    return data


STRING = rb'"(?:[^"\\]|\\.)*"'
ANY_STRING, REFERRED = re.compile(STRING), re.compile(rb'"\$ref"\s*:\s*(' + STRING + rb")")


def paths_in(tokens, pattern):
    """The texts of the resolver that match, as paths below the folder."""
    name, found = os.path.join(tokens, RESOLVER), set()
    if not os.path.isfile(name):
        return found
    with open(name, "rb") as file:
        text = file.read()
    for string in pattern.findall(text):
        try:
            found.add(re.sub(r"\A(?:\./)+", "", json.loads(string)))
        except ValueError:
            continue
    return found


def named_paths(tokens):
    """The paths of the files that a build may take: of the resolver's strings each that can be one."""
    if not os.path.lexists(os.path.join(tokens, RESOLVER)):
        return {CONFIG, DEFAULT}
    return {CONFIG, RESOLVER} | paths_in(tokens, ANY_STRING)


def referred_paths(tokens):
    """The paths that the resolver refers to and a script can name."""
    return {it for it in paths_in(tokens, REFERRED) if is_script_path(it) and not os.path.isdir(os.path.join(tokens, it))}


def looks_like_tokens(tokens, path):
    """Whether a file that is passed over is one that a team may miss."""
    name = os.path.join(tokens, path)
    try:
        if not is_inside(name, tokens) or not stat.S_ISREG(os.stat(name).st_mode):
            return False
        with open(name, "rb") as file:
            return re.search(rb'"\$?value"\s*:', file.read()) is not None
    except OSError:
        return False


def passed_line(tokens, reasons):
    """The line that tells files which look like token files and are passed over, or none."""
    told = [f"{shown(os.path.normpath(os.path.join(tokens, path)))} ({why})" for path, why in reasons.items() if looks_like_tokens(tokens, path)]
    return [f"passed over: {some(told)}"] if told else []


NOT_NAMED = "nothing names it"


def read_folder(tokens, out=None):
    """The files of the folder that tokc is given. Those that a build names and that can't be given end the run, and all of them are told."""
    try:
        paths, named = token_paths(tokens, out), named_paths(tokens)
    except OSError as error:
        raise Stop(WRONG_USE, f"{error.filename}: it can't be read: {error.strerror}") from None
    files, problems, reasons = {}, [], {}
    for path in paths:
        try:
            files[path] = read_file(tokens, path)
            if path not in named and (RESOLVER in named or DEFAULT in paths):
                reasons[path] = NOT_NAMED
        except Unfit as why:
            if path in named:
                problems.append(f"{shown(os.path.join(tokens, path))}: {why}")
            else:
                reasons[path] = str(why)
    if problems:
        raise Stop(WRONG_USE, *problems)
    return Folder(files, passed_line(tokens, reasons))
