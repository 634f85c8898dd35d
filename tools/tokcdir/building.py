"""A build of token files: what it gives, what is said of it, and how it ends."""
import time
from typing import NamedTuple

from .message import Teller, as_json, as_lines
from .outputs import is_refusal
from .program import run_check, run_tokc, script_of
from .refusal import read_breaks, refusals_of
from .rows import all_rows, counted, omission_lines, omissions
from .stop import REFUSED_STATUS, say


# How many breaks are told to people who don't ask for all.
MOST = 50


class Options(NamedTuple):
    """How a run speaks: in JSON lines for editors, of breaks alone, also of each token that a platform omits, of all breaks, however many they
    are, and by a certificate as it stands."""

    is_json: bool = False
    is_quiet: bool = False
    lists_omitted: bool = False
    tells_all: bool = False
    is_certificate: bool = False

    def most(self):
        """How many breaks are told, or None for all."""
        return None if self.is_json or self.tells_all else MOST


class Build(NamedTuple):
    """The outputs of files, the messages of their breaks, and how many breaks they have: the last ones of many have no message."""

    outputs: dict
    messages: list
    count: int

    def is_refused(self):
        return any(map(is_refusal, self.outputs))

    def status(self):
        return REFUSED_STATUS if self.is_refused() else 0


def breaks_of(outputs, files):
    """All breaks, each with the permutations that have it, by file and line; without the program that tells all, those that refusals tell."""
    told, names = refusals_of(outputs)
    text = run_check(script_of(files)) if told and files is not None else None
    breaks = told if text is None else read_breaks(text)
    return sorted(breaks, key=lambda it: (it[0].file, it[0].line, it[0].column)), names


def build_with(outputs, folder, files, most=None):
    """The outputs with the messages of so many breaks. Without files these have no notes and no advice of the files' texts."""
    breaks, names = breaks_of(outputs, files)
    teller = Teller(folder, files) if breaks else None
    return Build(outputs, [teller.message(refusal, permutations, names) for refusal, permutations in breaks[:most]], len(breaks))


def build_of(folder, files, is_quiet=False, is_silent=False, script=None, most=MOST):
    """The build of a folder's files, by tokc, of the script that puts them or another one that leaves them."""
    return build_with(run_tokc(script_of(files) if script is None else script, is_quiet, is_silent), folder, files, most)


def closing(build, done, seconds):
    """The line that counts what a build gave, what was done with it and what is omitted."""
    refused = sum(map(is_refusal, build.outputs))
    count = len(build.outputs)
    built = f"{count} output{'s' * (count != 1)}" + (f", {refused} of them REFUSED" if refused else "")
    return f"{built}{done}{counted(build.outputs)}; {seconds:.2f} s"


def omitted_lines(build):
    """The lines of `--omitted`."""
    rows = all_rows(build.outputs)
    return omission_lines(omissions(rows), len(rows))


def count_line(build):
    """How many breaks there are, and how many of them are not told."""
    left = build.count - len(build.messages)
    return f"{build.count} mistakes" + (f", of which these are the first {len(build.messages)}: check --all tells all" if left else "")


def tell_messages(build, options):
    """Tells the breaks: to people on standard error, with their number where there are several, to editors on standard output."""
    for message in build.messages:
        if options.is_json:
            print(as_json(message), flush=True)
        else:
            say(as_lines(message))
    if build.count > 1 and not options.is_json:
        say([count_line(build)])


def tell(build, changes, done, start, options):
    """Tells what was done with each file, what a run came to, and the breaks."""
    if not (options.is_quiet or options.is_json):
        lines = [f"{it.word} {it.path}" for it in changes] + (omitted_lines(build) if options.lists_omitted else [])
        print("\n".join([*lines, closing(build, done, time.monotonic() - start)]), flush=True)
    tell_messages(build, options)
