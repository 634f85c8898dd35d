"""How a token gets its value: the certificates of tokc_explain, told to people, and those that were stored, checked."""
import itertools
import json
import re
import shlex
import sys
from typing import NamedTuple

from .advice import closest
from .building import build_of, tell_messages
from .folder import named_paths
from .message import Teller, characters, source_lines, spot_at
from .outputs import names_of
from .places import one_line
from .program import run_explain, script_of
from .rows import NAMES, PLATFORMS, all_rows, reason
from .stop import FAILED, REFUSED_STATUS, WRONG_USE, Stop, shown, some
from .tokens import pointed_at, spelled

# How tokc_explain ends, beside the ends of tokc.
DONE, NO_TOKEN, NO_PERMUTATION, NO_PLACE, BAD_CERTIFICATE = 0, 2, 10, 11, 13
MOST_NAMED = 6

PLACE, SPAN = r'("(?:[^"\\]|\\.)*")', r"([A-Za-z0-9._/-]+) ([0-9]+) ([0-9]+)"
PERMUTATION = re.compile(r"permutation (.*)")
FROM, HOP, END = (re.compile(it) for it in (f"from {PLACE}", f"hop {PLACE} {PLACE} {SPAN}", f"end {PLACE} {SPAN}"))


class Spot(NamedTuple):
    """A place, a pointer, with its file and the bytes of its span there."""

    place: str
    file: str
    start: int
    end: int


class Certificate(NamedTuple):
    """The permutation, the place that is explained, its hops, each a spot and the place that it leads to, and where they end."""

    permutation: str
    origin: str
    hops: list
    last: Spot


def spot_of(place, file, start, end):
    return Spot(json.loads(place), file, int(start), int(end))


def read_certificate(text):
    """The certificate that a text spells. Of a text that spells none it may be None, or any."""
    lines = text.split("\n")
    if len(lines) < 5 or lines[0] != "tokc-explain 1" or lines[-1]:
        return None
    first = (PERMUTATION.fullmatch(lines[1]), FROM.fullmatch(lines[2]), END.fullmatch(lines[-2]))
    hops = [HOP.fullmatch(it) for it in lines[3:-2]]
    if not all((*first, *hops)):
        return None
    try:
        told = [(spot_of(place, *span), json.loads(target)) for place, target, *span in (it.groups() for it in hops)]
        return Certificate(first[0][1], json.loads(first[1][1]), told, spot_of(*first[2].groups()))
    except ValueError:
        return None


def pointer_of(token):
    """The pointer of a token that is named by its path, with or without braces, or of a place that is a pointer already."""
    if token.startswith("#/"):
        return token
    path = token[1:-1] if token.startswith("{") and token.endswith("}") else token
    return "#/" + path.replace("~", "~0").replace("/", "~1").replace(".", "/")


def told_place(pointer):
    """A place as references spell it: a token between braces, and a part of one by its pointer."""
    path, steps = pointed_at(pointer)
    return shown(pointer if steps else spelled(path))


class Telling:
    """Tells spots of the files of a folder."""

    def __init__(self, folder, files):
        self.teller, self.files = Teller(folder, files), files

    def spot(self, spot, words):
        """The lines of a spot: its place in the file, with what is said of it, and the line of the file."""
        text, data = self.teller.tokens.texts[spot.file], self.files[spot.file]
        start, end = (characters(data, it) for it in (spot.start, spot.end))
        at = spot_at(text, start)
        return [f"{self.teller.name(spot.file)}:{at.line}:{at.column}: {told_place(spot.place)} {words}", *source_lines(text, start, end)]

    def value(self, spot):
        """What a value over several lines is, on one."""
        text = self.files[spot.file][spot.start:spot.end].decode()
        return f": {shown(one_line(text))}" if "\n" in text else ""

    def lines(self, certificate):
        """The lines of all hops, and of the value at the end."""
        found = [line for spot, target in certificate.hops for line in self.spot(spot, f"leads to {told_place(target)}")]
        return found + self.spot(certificate.last, f"has this value{self.value(certificate.last)}")


def platform_lines(row):
    """A line for each line of a platform, or why the platform omits the token."""
    found = []
    for platform in PLATFORMS:
        kind, value = row.said["$type"], row.said["$value"]
        told = [f"omits it: {reason(platform, kind, value)}"] if platform in row.omits else [it.strip() for it in row.lines[platform]]
        found += [f"{NAMES[platform] + ':':9}{it}" for it in told]
    return found + [f"{'JSON:':9}{json.dumps({it: row.said[it] for it in ('$type', '$value')}, ensure_ascii=False)}"]


def rows_in(outputs, permutation):
    """The rows of a permutation, none where it has none."""
    return all_rows({path: data for path, data in outputs.items() if path.startswith(permutation + "/")}).get(permutation, [])


def no_token(token, permutation, outputs):
    path, paths = token.strip("{}"), [it.path for it in rows_in(outputs, permutation)]
    near = f"{path}.$root" if f"{path}.$root" in paths else closest(path, paths)
    return Stop(WRONG_USE, f"{shown(token)}: {permutation} has no such token, or no such part of one", *([f"help: write `{near}`"] if near else []))


def no_answer(status, permutation, token, outputs):
    """Why there is no certificate of a token."""
    if status == NO_TOKEN:
        return Stop(WRONG_USE, f"{shown(token)}: this is no name of a token: write one as `color.ink`, or a part of one as `#/color/ink/$value/components/0`")
    if status == NO_PERMUTATION:
        return Stop(WRONG_USE, f"{shown(permutation)}: there is no such permutation; there are {some(names_of(outputs), MOST_NAMED)}")
    return no_token(token, permutation, outputs) if status == NO_PLACE else Stop(FAILED, f"tokc_explain ended with status {status}")


def refused(build, permutation, options):
    """Tells the breaks of a permutation, and gives the exit status."""
    told = [it for it in build.messages if not it.permutations or permutation in it.permutations]
    tell_messages(build._replace(messages=told[:options.most()], count=len(told)), options)
    return REFUSED_STATUS


def told_lines(folder, files, outputs, certificate):
    """What is told of a certificate: its hops, the value, and what each platform got of the token."""
    path = ".".join(pointed_at(certificate.origin)[0])
    rows = [it for it in rows_in(outputs, certificate.permutation) if it.path == path]
    return Telling(folder, files).lines(certificate) + [line for it in rows for line in platform_lines(it)]


def explain(folder, files, permutation, token, options):
    """Tells how a token of a permutation gets its value, and gives the exit status."""
    build = build_of(folder, files, options.is_quiet, most=None)
    status, text = run_explain(script_of(files), "show", permutation, pointer_of(token))
    if status == REFUSED_STATUS:
        return refused(build, permutation, options)
    if status != DONE:
        raise no_answer(status, permutation, token, build.outputs)
    if options.is_certificate:
        sys.stdout.buffer.write(text)
        sys.stdout.buffer.flush()
    else:
        print("\n".join(told_lines(folder, files, build.outputs, read_certificate(text.decode()))), flush=True)
    return DONE


def free_path(files, names):
    """A path that no file has, and that nothing names."""
    return next(it for it in (f"certificate-{number}" for number in itertools.count()) if it not in files and it not in names)


def read_text(name):
    """The text of a file, or None where it is no UTF-8."""
    try:
        with open(name, "rb") as file:
            return file.read().decode()
    except OSError as error:
        raise Stop(WRONG_USE, f"{name}: it can't be read: {error.strerror}") from None
    except UnicodeDecodeError:
        return None


def no_hold(name, folder, certificate):
    told = f"help: `tokc-dir explain {folder} {certificate.permutation} {shlex.quote(certificate.origin)}` tells how this place gets its value"
    return Stop(REFUSED_STATUS, f"{name}: it does not hold of these files", told)


def verify(folder, files, name, options):
    """Tells whether the certificate in a file holds of the files of a folder, and gives the exit status."""
    text, path = read_text(name), free_path(files, named_paths(folder))
    certificate = None if text is None else read_certificate(text)
    if certificate is None:
        raise Stop(REFUSED_STATUS, f"{name}: this is no certificate, as `tokc-dir explain --certificate` writes one")
    status, _ = run_explain(script_of({**files, path: text.encode()}), "check", path)
    if status == REFUSED_STATUS:
        return refused(build_of(folder, files, options.is_quiet, most=None), certificate.permutation, options)
    if status == NO_PERMUTATION:
        raise Stop(REFUSED_STATUS, f"{name}: it does not hold: there is no permutation {certificate.permutation}")
    if status == BAD_CERTIFICATE:
        raise no_hold(name, folder, certificate)
    if status != DONE:
        raise Stop(FAILED, f"tokc_explain ended with status {status}")
    if not options.is_quiet:
        count = len(certificate.hops)
        print(f"{name}: it holds: {told_place(certificate.origin)} gets its value by {count} reference{'s' * (count != 1)}", flush=True)
    return DONE
