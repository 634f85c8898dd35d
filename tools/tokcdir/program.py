"""Scripts, streams, and the programs that stand between them and write outputs."""
import os
import re
import subprocess

from .outputs import bring, is_output_path
from .stop import FAILED, REFUSED_STATUS, Stop

# Where this tool stands: beside the program where it is installed, and in tools/ of the repository.
HERE = os.path.dirname(os.path.dirname(os.path.realpath(__file__)))
QUIET = "TOKC_QUIET"
NO_PROGRAM = 126
# How tokc_themes ends where no selector can hold a name.
BAD_NAME = 10

# Why tokc stopped without a stream, by its exit status. Its own line stands before this one.
STOPS = {
    4: "tokc could not read the script",
    5: "tokc could not write its stream",
    6: "tokc ran out of memory",
    7: "the token files are too large: a script has at most 67,108,864 bytes",
    NO_PROGRAM: "there is no program to run, as said above",
}

# Why tokc_themes stopped without a sheet, by its exit status.
THEME_STOPS = {
    6: "tokc_themes ran out of memory",
    NO_PROGRAM: "there is no tokc_themes to run",
}

# Why tokc_store stopped before the outputs stand, by its exit status.
STORE_STOPS = {
    6: "tokc_store ran out of memory",
    10: "{out}: it can't be written: the disk is full, writing is not permitted, or a link, or a folder in the place of a file, stands in it",
    11: "{out}/.tokc: its lists are not as this tool leaves them; remove it, and what stands in {out} and is no output",
}


def program():
    """The program that is run."""
    beside = os.path.join(HERE, "tokc")
    return os.environ.get("TOKC") or (beside if os.path.exists(beside) else os.path.join(os.path.dirname(HERE), "tokc"))


def words_of(name, word, *rest):
    """The command that runs a program beside tokc: itself where it is installed, and by tokc's own word in the repository. Where another
    program is named than our tokc, there is none."""
    beside = os.path.join(HERE, name)
    if os.path.exists(beside):
        return None if os.environ.get("TOKC") else [beside, *rest]
    return None if program() != os.path.join(os.path.dirname(HERE), "tokc") else [program(), word, *rest]


def store_status(out, script, lock):
    """How tokc_store ends over a folder and a script. It holds the lock too, so that the folder stays its own where this run is
    cut off. What is said of a program that is not proved was said of tokc."""
    words = words_of("tokc_store", "store", out)
    if words is None:
        return NO_PROGRAM
    env = {**os.environ, QUIET: "1"}
    return subprocess.run(words, input=script, stdout=subprocess.DEVNULL, env=env, pass_fds=(lock,), check=False).returncode


def writer_of(script):
    """What brings a folder to the outputs of a script: tokc_store, or where it can't be had, the steps of this tool."""
    def write(out, outputs, lock):
        status = store_status(out, script, lock)
        if status == NO_PROGRAM:
            bring(out, outputs)
        elif status not in (0, REFUSED_STATUS):
            raise Stop(FAILED, STORE_STOPS.get(status, "tokc_store ended with status {status}").format(out=out, status=status))
    return write


def script_of(files):
    """The script that puts the files and commits."""
    puts = [b"put %s %d\n%s\n" % (path.encode(), len(data), data) for path, data in files.items()]
    return b"".join([b"tokc-script 1\n", *puts, b"commit\n"])


class Lines:
    """What is left of a stream, taken line by line and piece by piece."""

    def __init__(self, data):
        self.data, self.at = data, 0

    def stop(self):
        return Stop(FAILED, f"this is no stream of tokc: it is not as wanted from byte {self.at} on")

    def line(self, pattern):
        """The groups of the next line, which has to match."""
        end = self.data.find(b"\n", self.at)
        found = re.fullmatch(pattern, self.data[self.at:end]) if end >= 0 else None
        if found is None:
            raise self.stop()
        self.at = end + 1
        return found.groups()

    def piece(self, length):
        """The next bytes, after which a line end stands."""
        end = self.at + length
        if self.data[end:end + 1] != b"\n":
            raise self.stop()
        piece, self.at = self.data[self.at:end], end + 1
        return piece


STREAM_LINE = rb"(commit|gone|file|done) ([^ \n]+)(?: (0|[1-9][0-9]*))?"


def outputs_of(stream):
    """The outputs that are held at the end of a stream, by path."""
    lines, outputs, commits = Lines(stream), {}, 0
    lines.line(rb"tokc-stream 1")
    while True:
        start = lines.at
        word, name, length = lines.line(STREAM_LINE)
        path = os.fsdecode(name)
        if word == b"done" and length is None and name == b"%d" % commits and lines.at == len(stream):
            return outputs
        if word == b"commit" and length is None and name == b"%d" % (commits + 1):
            commits += 1
        elif word == b"gone" and length is None and outputs.pop(path, None) is not None:
            pass
        elif word == b"file" and length is not None and commits and is_output_path(path):
            outputs[path] = lines.piece(int(length))
        else:
            lines.at = start
            raise lines.stop()


def run_tokc(script, is_quiet=False, is_silent=False):
    """The outputs of a script's files, as tokc builds them: quiet where it is to say nothing but what is wrong, silent where not even that."""
    name = program()
    env = {**os.environ, QUIET: "1"} if is_quiet else None
    try:
        ran = subprocess.run([name, "build"], input=script, stdout=subprocess.PIPE, stderr=subprocess.DEVNULL if is_silent else None, env=env, check=False)
    except OSError as error:
        raise Stop(FAILED, f"{name}: it can't be run: {error.strerror}") from None
    if ran.returncode not in (0, REFUSED_STATUS):
        raise Stop(FAILED, STOPS.get(ran.returncode, f"tokc ended with status {ran.returncode}"))
    return outputs_of(ran.stdout)


def run_explain(script, *words):
    """How tokc_explain ends over a script, and what it writes. What is said of a program that is not proved was said of tokc."""
    command = words_of("tokc_explain", "explain", *words)
    if command is None:
        raise Stop(FAILED, "there is no tokc_explain beside the program that TOKC names")
    ran = subprocess.run(command, input=script, stdout=subprocess.PIPE, stderr=subprocess.DEVNULL, env={**os.environ, QUIET: "1"}, check=False)
    if ran.returncode in STOPS or ran.returncode < 0:
        raise Stop(FAILED, STOPS.get(ran.returncode, f"tokc_explain ended with status {ran.returncode}").replace("tokc ", "tokc_explain "))
    return ran.returncode, ran.stdout


def run_check(script):
    """What tokc_check tells of a script, or None where it can't be had or tells nothing. What is said of a program that is not proved
    was said of tokc."""
    words = words_of("tokc_check", "check")
    if words is None:
        return None
    ran = subprocess.run(words, input=script, stdout=subprocess.PIPE, stderr=subprocess.DEVNULL, env={**os.environ, QUIET: "1"}, check=False)
    return ran.stdout if ran.returncode == REFUSED_STATUS else None


class NoSelector(Stop):
    """No selector of a style sheet can hold this name of a modifier or of a context."""

    def __init__(self, name):
        super().__init__(REFUSED_STATUS, f"no selector can hold the name {name}")
        self.name = name


def run_themes(script):
    """The style sheet that tokc_themes writes for all permutations of a script's files, of which none is refused, or None where the program
    can't be had. What is said of a program that is not proved was said of tokc."""
    words = words_of("tokc_themes", "themes")
    if words is None:
        return None
    ran = subprocess.run(words, input=script, capture_output=True, env={**os.environ, QUIET: "1"}, check=False)
    if ran.returncode == BAD_NAME:
        raise NoSelector(ran.stderr.decode().rstrip("\n").removeprefix("tokc_themes: name "))
    if ran.returncode != 0:
        raise Stop(FAILED, THEME_STOPS.get(ran.returncode, f"tokc_themes ended with status {ran.returncode}"))
    return ran.stdout
