"""How a run ends, and what is said on the way."""
import sys

REFUSED_STATUS, WRONG_USE, FAILED = 1, 2, 3


class Stop(Exception):
    """The run ends with these lines and this exit status."""

    def __init__(self, status, *lines):
        super().__init__("\n".join(lines))
        self.status, self.lines = status, lines


def say(lines):
    """Writes lines to standard error."""
    for line in lines:
        print(line.encode(errors="backslashreplace").decode(), file=sys.stderr, flush=True)


def shown(text):
    """A text as it may be printed: what can't be seen is spelled out."""
    return "".join(it if it.isprintable() or it == "\t" else f"<U+{ord(it):04X}>" for it in text)


def some(names, most=3):
    """Names in a row, of many the first ones and how many more there are."""
    if len(names) <= most:
        return ", ".join(names)
    return f"{', '.join(names[:most])} and {len(names) - most} more"
