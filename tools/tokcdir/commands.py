"""The command line of tokc-dir."""
import json
import os
import re
import sys
import time

from . import explaining, preview
from .building import Options, build_of, build_with, tell
from .folder import is_inside, read_folder
from .outputs import told_differences, write_outputs
from .program import HERE, outputs_of, script_of, writer_of
from .themes import write_themes
from .stop import FAILED, REFUSED_STATUS, WRONG_USE, Stop, say
from .watching import watch

FLAGS = {"--json": "is_json", "--quiet": "is_quiet", "--omitted": "lists_omitted", "--all": "tells_all", "--certificate": "is_certificate"}
INTERRUPTED = 130


def folder_there(folder):
    if not os.path.isdir(folder):
        raise Stop(WRONG_USE, f"{folder}: there is no such folder")


def is_folder_or_new(out):
    if os.path.lexists(out) and not os.path.isdir(out):
        raise Stop(WRONG_USE, f"{out}: this is no folder")


def folders_apart(tokens, out):
    """Refuses folders in which outputs would be written over token files."""
    folder_there(tokens)
    if is_inside(tokens, out):
        raise Stop(WRONG_USE, f"{out}: the outputs need a folder of their own, and {tokens} is this one or stands in it")
    is_folder_or_new(out)


def files_of(tokens, out, options):
    """The folder's files. What is passed over is told."""
    folder = read_folder(tokens, out)
    if not (options.is_quiet or options.is_json):
        say(folder.passed)
    return folder.files


def do_build(options, tokens, out):
    folders_apart(tokens, out)
    files, start = files_of(tokens, out, options), time.monotonic()
    build = build_of(tokens, files, options.is_quiet, most=options.most())
    changes = write_outputs(out, build.outputs, writer_of(script_of(files)))
    tell(build, changes, f"; {len(changes)} changed", start, options)
    return build.status()


def do_check(options, tokens, out=None):
    """Builds and writes nothing. With a folder of outputs it tells how that differs."""
    folder_there(tokens)
    if out is not None:
        folders_apart(tokens, out)
    files, start = files_of(tokens, out, options), time.monotonic()
    build = build_of(tokens, files, options.is_quiet, most=options.most())
    found = told_differences(out, build.outputs) if out is not None else []
    for it in found if options.is_json else ():
        print(json.dumps({"output": it.path, "state": it.word}), flush=True)
    tell(build, found, f"; {len(found)} differ" if out is not None else "", start, options)
    return REFUSED_STATUS if found else build.status()


def do_watch(options, tokens, out, seconds="0.3"):
    folders_apart(tokens, out)
    if not re.fullmatch(r"[0-9]+(\.[0-9]+)?", seconds):
        raise Stop(WRONG_USE, f"{seconds}: a number of seconds is wanted, as 0.5")
    watch(tokens, out, float(seconds), options)


def do_preview(options, tokens, page):
    folder_there(tokens)
    if os.path.isdir(page):
        raise Stop(WRONG_USE, f"{page}: this is a folder, and the page is a file, as {os.path.join(page, 'tokens.html')}")
    files, start = files_of(tokens, None, options), time.monotonic()
    build = build_of(tokens, files, options.is_quiet)
    preview.write(page, build.outputs, build.messages, f"Tokens of {os.path.normpath(tokens)}")
    tell(build, [], f"; {page} is written", start, options)
    return build.status()


def do_themes(options, tokens, sheet):
    folder_there(tokens)
    if os.path.isdir(sheet) or not sheet.endswith(".css"):
        raise Stop(WRONG_USE, f"{sheet}: the sheet is a file whose name ends in .css, as {os.path.join(sheet, 'tokens.css')}")
    files, start = files_of(tokens, None, options), time.monotonic()
    build = build_of(tokens, files, options.is_quiet, most=options.most())
    done = write_themes(sheet, build, files, tokens)
    tell(build, [], f"; {sheet} is {done}", start, options)
    return build.status()


def do_explain(options, tokens, permutation, token):
    folder_there(tokens)
    return explaining.explain(tokens, files_of(tokens, None, options), permutation, token, options)


def do_verify(options, tokens, certificate):
    folder_there(tokens)
    return explaining.verify(tokens, files_of(tokens, None, options), certificate, options)


def do_pack(options, tokens):
    folder_there(tokens)
    sys.stdout.buffer.write(script_of(files_of(tokens, None, options)))
    sys.stdout.buffer.flush()
    return 0


def do_unpack(options, out):
    is_folder_or_new(out)
    if sys.stdin.isatty():
        say(["tokc-dir: waiting for a stream on standard input"])
    start = time.monotonic()
    outputs = outputs_of(sys.stdin.buffer.read())
    build = build_with(outputs, "", None)
    changes = write_outputs(out, outputs)
    tell(build, changes, f"; {len(changes)} changed", start, options)
    return build.status()


# Each command with what it does, how many arguments may follow it, and its flags.
SPEECH, ALL, CERTIFICATE = ("--quiet",), ("--json", "--quiet", "--omitted", "--all"), ("--quiet", "--certificate")
WORDS = {
    "build": (do_build, (2,), ALL), "check": (do_check, (1, 2), ALL), "watch": (do_watch, (2, 3), ("--quiet", "--omitted")),
    "preview": (do_preview, (2,), SPEECH), "themes": (do_themes, (2,), ALL), "explain": (do_explain, (3,), CERTIFICATE), "verify": (do_verify, (2,), SPEECH),
    "pack": (do_pack, (1,), SPEECH), "unpack": (do_unpack, (1,), SPEECH),
}


def version():
    """What this is, and whether the proofs of the programs beside it were checked."""
    try:
        with open(os.path.join(HERE, "PROOF"), encoding="utf-8") as file:
            return f"tokc-dir\n{file.read().strip()}"
    except OSError:
        return "tokc-dir\ntokc and the programs beside it are those of the repository, which ./tokc compiles, and ./tokc prove proves"


def parsed(words):
    """The call that the words are, with its options and arguments, or None."""
    flags = [it for it in words[1:] if it.startswith("--")]
    call, counts, known = WORDS.get(words[0] if words else "", (None, (), ()))
    rest = [it for it in words[1:] if not it.startswith("--")]
    if len(rest) not in counts or any(it not in known for it in flags):
        return None
    return call, Options(**{FLAGS[it]: True for it in flags}), rest


def main(words, usage):
    """Runs the command, and gives the exit status."""
    if words[:1] in (["--help"], ["-h"]):
        print(usage.strip())
        return 0
    if words == ["--version"]:
        print(version())
        return 0
    found = parsed(words)
    if found is None:
        say(usage.split("\n\n")[1].split("\n"))
        return WRONG_USE
    call, options, rest = found
    try:
        return call(options, *rest)
    except Stop as stop:
        say(stop.lines)
        return stop.status
    except KeyboardInterrupt:
        return 0 if call is do_watch else INTERRUPTED
    except BrokenPipeError:
        os.dup2(os.open(os.devnull, os.O_WRONLY), 1)
        return FAILED
