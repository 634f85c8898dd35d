"""Builds at each change of a folder, until it is interrupted."""
import os
import time

from .building import build_of, closing, omitted_lines, tell_messages
from .events import Growing
from .folder import read_folder, token_paths
from .outputs import listed, write_outputs
from .program import writer_of
from .stop import Stop, say, some

# How long is waited before a refusal replaces good outputs: the file that it is told of may be half written.
SETTLING = 0.2


def stamps(tokens, out):
    """What tells whether a token file changed: its path, time and size."""
    found = []
    for path in token_paths(tokens, out):
        try:
            it = os.stat(os.path.join(tokens, path))
            found.append((path, it.st_mtime_ns, it.st_size, it.st_ino))
        except OSError:
            found.append((path, None, None, None))
    return found


def change_line(earlier, files):
    """How token files changed, in one line."""
    words = {
        "changed": [path for path in files if path in earlier and files[path] != earlier[path]],
        "new": [path for path in files if path not in earlier],
        "gone": [path for path in earlier if path not in files],
    }
    return "; ".join(f"{some(paths)} {'is' if len(paths) == 1 else 'are'} {word}" for word, paths in words.items() if paths)


class Watch:
    """What a watch has seen of the folder, the files that it tried last, those that it built last and what they gave, what went wrong, and
    the script that it sends."""

    def __init__(self, tokens, out, options):
        self.tokens, self.out, self.options = tokens, out, options
        self.seen, self.tried, self.files, self.build, self.problem = None, None, None, None, None
        self.sent = Growing()

    def tell(self, line):
        if not self.options.is_quiet:
            print(line, flush=True)

    def built(self, files, is_quiet, is_silent=False):
        """The build of files, of a script that says what changed."""
        return build_of(self.tokens, files, is_quiet, is_silent, self.sent.script(files))

    def settled(self, files, build):
        """A build of what the folder holds, after a moment where a refusal would replace good outputs."""
        while build.is_refused() and self.build is not None and not self.build.is_refused():
            time.sleep(SETTLING)
            again = read_folder(self.tokens, self.out).files
            if again == files:
                break
            files, build = again, self.built(again, True)
        return files, build

    def bring(self, files):
        """Builds files, writes what they give, and tells it in one line."""
        start = time.monotonic()
        is_quiet = self.options.is_quiet or self.build is not None
        is_told, self.tried = files == self.tried, files
        files, build = self.settled(files, self.built(files, is_quiet, is_told))
        written = write_outputs(self.out, build.outputs, writer_of(self.sent.script(files)))
        was_wrong = self.problem is not None or (self.build is not None and self.build.is_refused())
        what = "built" if self.files is None else change_line(self.files, files) or "tried again"
        mended = "mended; " if was_wrong and not build.is_refused() else ""
        for line in omitted_lines(build) if self.options.lists_omitted else ():
            self.tell(line)
        self.tell(f"{what}: {mended}{closing(build, f'; {len(written)} changed', time.monotonic() - start)}")
        self.files, self.build, self.problem = files, build, None
        tell_messages(build, self.options)

    def restore(self):
        """Writes outputs that somebody deleted again."""
        if self.build is None or listed(self.out) >= self.build.outputs.keys() and all(os.path.lexists(os.path.join(self.out, it)) for it in self.build.outputs):
            return
        written = [it.path for it in write_outputs(self.out, self.build.outputs, writer_of(self.sent.script(self.files)))]
        if written:
            self.tell(f"{some(written)} {'was' if len(written) == 1 else 'were'} gone or changed, and {'is' if len(written) == 1 else 'are'} written again")

    def update(self):
        """Builds the folder's files where they are not those that were built last."""
        folder = read_folder(self.tokens, self.out)
        if folder.files != self.files:
            if not self.options.is_quiet and self.files is None:
                say(folder.passed)
            self.bring(folder.files)
        elif self.problem is not None:
            self.problem = None
            self.tell("mended: the files are as they were when they were built last")

    def look(self):
        """Looks whether something changed since it last looked, or went wrong then."""
        try:
            now = stamps(self.tokens, self.out)
            if now != self.seen or self.problem is not None:
                self.update()
                self.seen = now
            self.restore()
        except OSError as error:
            self.fail([f"{error.filename}: it can't be read: {error.strerror}"])
        except Stop as stop:
            self.fail(stop.lines)

    def fail(self, lines):
        """Tells what went wrong, once, and has it tried again at the next look, with a script that puts all files."""
        if self.problem != list(lines):
            say(lines)
        self.problem = list(lines)
        self.sent = Growing()


def watch(tokens, out, seconds, options):
    """Looks at the folder again and again."""
    state = Watch(tokens, out, options)
    state.tell(f"watches {tokens}, and builds into {out} at each change; Ctrl-C ends it")
    while True:
        state.look()
        time.sleep(seconds)
