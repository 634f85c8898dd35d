"""The folder of outputs: what is written there, and how it differs from what a build gives.

Under it stand exactly the outputs: a file that an earlier run wrote and that is no output any more is removed, and nothing else there is
touched. Lists of the outputs stand in LISTS, as docs/FORMAT.md says of a store of outputs: a slot names one output a line, and counts
where its gate stands, an empty file beside it. Before a file is touched, the list that counts names all that may stand, so a run that is
cut off anywhere is put right by the next. Each file is written under a new name and then renamed.

tokc_store does all this where there is a script. Here the same steps stand for outputs that come without one, as `unpack` has them.
"""
import contextlib
import fcntl
import os
from typing import NamedTuple

from .stop import FAILED, Stop

LISTS = ".tokc"
SLOTS, GATES = (f"{LISTS}/0", f"{LISTS}/1"), (f"{LISTS}/0.ok", f"{LISTS}/1.ok")
NEW = f"{LISTS}/new"


class Change(NamedTuple):
    """What was done to an output, or how it differs."""

    word: str
    path: str


def is_output_path(path):
    """Whether a file below a folder can have this path."""
    parts = path.split("/")
    return all(part not in ("", ".", "..") and "\0" not in part for part in parts) and parts[0] != LISTS


def is_refusal(path):
    return path.split("/")[-1] == "REFUSED"


def names_of(outputs):
    """The permutations that the outputs are of."""
    return sorted({path.rpartition("/")[0] for path in outputs} - {""})


def in_order(paths):
    return sorted(paths, key=os.fsencode)


def content(name):
    """The bytes of a file, or None where there is none."""
    try:
        with open(name, "rb") as file:
            return file.read()
    except (FileNotFoundError, NotADirectoryError):
        return None


def gated(out):
    """The slots that count."""
    return [slot for slot in (0, 1) if os.path.lexists(os.path.join(out, GATES[slot]))]


def listed(out):
    """The paths of the outputs that earlier runs wrote into the folder: what the first slot that counts names."""
    names = [it for slot in gated(out)[:1] for it in (content(os.path.join(out, SLOTS[slot])) or b"").split(b"\n")]
    return {it for it in map(os.fsdecode, names) if it and is_output_path(it)}


def write_file(out, path, data):
    """Writes a file below the folder under a new name, and renames it."""
    new, name = os.path.join(out, NEW), os.path.join(out, path)
    os.makedirs(os.path.dirname(name), exist_ok=True)
    with open(new, "wb") as file:
        file.write(data)
    os.replace(new, name)


def write_alone(name, data):
    """Writes a file, whole or not at all."""
    new = name + ".new"
    try:
        os.makedirs(os.path.dirname(os.path.abspath(name)), exist_ok=True)
        with open(new, "wb") as file:
            file.write(data)
        os.replace(new, name)
    except OSError as error:
        raise Stop(FAILED, f"{error.filename or name}: it can't be written: {error.strerror}") from None


def write_list(out, slot, paths):
    write_file(out, SLOTS[slot], b"".join(os.fsencode(it) + b"\n" for it in in_order(paths)))
    write_file(out, GATES[slot], b"")


def remove(out, path):
    with contextlib.suppress(FileNotFoundError, NotADirectoryError):
        os.remove(os.path.join(out, path))


def bring(out, outputs, _lock=None):
    """Makes the outputs stand in the folder, and those of earlier runs no more, by the steps of a store."""
    earlier, current = listed(out), (gated(out) or [1])[0]
    other = 1 - current
    remove(out, GATES[other])
    write_list(out, other, earlier | outputs.keys())
    remove(out, GATES[current])
    for path in in_order(earlier | outputs.keys()):
        if path not in outputs:
            remove(out, path)
        elif content(os.path.join(out, path)) != outputs[path]:
            write_file(out, path, outputs[path])
    write_list(out, current, outputs)
    remove(out, GATES[other])


def remove_empty(out, path):
    """Removes the folders above a file that it leaves empty."""
    above = os.path.dirname(path)
    with contextlib.suppress(OSError):
        while above:
            os.rmdir(os.path.join(out, above))
            above = os.path.dirname(above)


def bring_by(writer, out, outputs, lock):
    """Brings the folder to the outputs where it differs, and gives what changed."""
    found = differences(out, outputs)
    if found or listed(out) != outputs.keys():
        writer(out, outputs, lock)
    for it in found:
        if it.path not in outputs:
            remove_empty(out, it.path)
    return [Change("wrote" if it.path in outputs else "removed", it.path) for it in found]


def write_outputs(out, outputs, writer=bring):
    """Brings the folder to the outputs, while no other run of this tool writes there. A writer is given the folder, the outputs and the lock."""
    try:
        os.makedirs(os.path.join(out, LISTS), exist_ok=True)
        lock = os.open(out, os.O_RDONLY)
        try:
            fcntl.flock(lock, fcntl.LOCK_EX)
            return bring_by(writer, out, outputs, lock)
        finally:
            os.close(lock)
    except OSError as error:
        raise Stop(FAILED, f"{error.filename2 or error.filename or out}: it can't be written: {error.strerror}") from None


def differences(out, outputs):
    """How the folder differs from the outputs: what is absent there, what has other bytes, and what an earlier run wrote and is none of them."""
    found = []
    for path in in_order(outputs):
        data = content(os.path.join(out, path))
        if data != outputs[path]:
            found.append(Change("absent" if data is None else "differs", path))
    left = [it for it in in_order(listed(out) - outputs.keys()) if os.path.lexists(os.path.join(out, it))]
    return found + [Change("no output", path) for path in left]


def told_differences(out, outputs):
    """The same, with what can't be read told."""
    try:
        return differences(out, outputs)
    except OSError as error:
        raise Stop(FAILED, f"{error.filename or out}: it can't be read: {error.strerror}") from None
