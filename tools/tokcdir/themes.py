"""The one style sheet of all permutations: attributes of a page choose which of its blocks hold."""
import os
from urllib.parse import unquote

from .outputs import write_alone
from .program import NoSelector, run_themes, script_of
from .stop import FAILED, REFUSED_STATUS, Stop, shown

# What a selector can hold.
NAMES = (
    "a modifier is named by a lower-case letter with lower-case letters, digits and `-` behind it, and a context by characters that can be printed"
)


def attributes_of(name):
    """The attributes that a page has for a permutation of this name: `data-theme` is `dark` for `theme=dark`."""
    pairs = (it.partition("=") for it in name.split("+") if "=" in it)
    return [(f"data-{unquote(modifier)}", unquote(context)) for modifier, _, context in pairs]


def sheet_of(files, tokens):
    """The style sheet of a folder's files, of whose permutations none is refused."""
    try:
        sheet = run_themes(script_of(files))
    except NoSelector as stop:
        raise Stop(REFUSED_STATUS, f"{os.path.join(tokens, 'resolver.json')}: no selector can hold the name {shown(stop.name)}: {NAMES}") from None
    if sheet is None:
        raise Stop(FAILED, "TOKC names another program than our tokc, and there is no tokc_themes beside it")
    return sheet


def write_themes(name, build, files, tokens):
    """Writes the style sheet of a folder's files, whole or not at all, and says whether it is written: where an output is refused, it is not."""
    if build.is_refused():
        return "not written"
    write_alone(name, sheet_of(files, tokens))
    return "written"
