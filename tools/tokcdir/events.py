"""The script of a watch: it puts the files once, and then says what changed of them, by moves and patches where that is shorter.

The events fit by how they are made: a move takes a path that has a text, and a patch stands within the text at the starts of characters.
"""
HEADER, COMMIT = b"tokc-script 2\n", b"commit\n"

# A script begins anew where it would be longer than a script may be, or where so many bytes of texts are made by patches: a build makes
# all of them again.
MOST_SCRIPT = MOST_PATCHED = 67_108_864

# It also does where it would be so many times as long as the puts of the files alone.
MOST_TIMES = 2


def put(path, data):
    return b"put %s %d\n%s\n" % (path.encode(), len(data), data)


def alike(first, second):
    """How many bytes two texts have in common from their starts on."""
    low, high = 0, min(len(first), len(second))
    while low < high:
        middle = (low + high + 1) // 2
        if first[low:middle] == second[low:middle]:
            low = middle
        else:
            high = middle - 1
    return low


def is_inside(text, at):
    """Whether a byte goes on with a character that begins before it."""
    return at < len(text) and text[at] & 0xC0 == 0x80


def patch(path, old, new):
    """The patch that puts what is new in the place of what changed, whole characters."""
    start = alike(old, new)
    while is_inside(old, start):
        start -= 1
    same = alike(old[start:][::-1], new[start:][::-1])
    while is_inside(old, len(old) - same):
        same -= 1
    middle = new[start:len(new) - same]
    return b"patch %s %d %d %d\n%s\n" % (path.encode(), start, len(old) - same, len(middle), middle)


def moves_between(earlier, files):
    """For files that are gone and whose text now stands at a path where it did not: their paths, and that path."""
    gone = {}
    for path in earlier:
        if path not in files:
            gone.setdefault(earlier[path], []).append(path)
    found = {}
    for path, data in files.items():
        if earlier.get(path) != data and gone.get(data):
            found[gone[data].pop(0)] = path
    return found


def changes_between(earlier, files):
    """The events that make later files of earlier ones, and how many bytes of texts their patches make."""
    moves = moves_between(earlier, files)
    moved = set(moves.values())
    events = [b"move %s %s\n" % (first.encode(), second.encode()) for first, second in moves.items()]
    events += [b"del %s\n" % path.encode() for path in earlier if path not in files and path not in moves]
    patched = 0
    for path, data in files.items():
        if path in moved or earlier.get(path) == data:
            continue
        events.append(put(path, data))
        if path in earlier:
            shorter = patch(path, earlier[path], data)
            if len(shorter) < len(events[-1]):
                events[-1], patched = shorter, patched + len(data)
    return events, patched


class Growing:
    """A script that grows by what changes of files."""

    def __init__(self):
        self.begin({})

    def begin(self, files):
        """Begins anew, with puts alone."""
        self.files, self.patched = files, 0
        self.text = b"".join([HEADER, *(put(path, data) for path, data in files.items())])

    def script(self, files):
        """The script after whose last event these are the files."""
        events, patched = changes_between(self.files, files)
        text, patched = b"".join([self.text, *events]), self.patched + patched
        self.begin(files)
        if len(text) <= min(MOST_TIMES * len(self.text), MOST_SCRIPT - len(COMMIT)) and patched <= MOST_PATCHED:
            self.text, self.patched = text, patched
        return self.text + COMMIT
