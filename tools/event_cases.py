"""Scripts by hand of both versions, event by event: moves and patches that fit and that do not, events that are spelled wrong, and
equal scripts of both versions.

A case is its name, the arguments, the script, the status that is wanted and what is said on standard error. Both are by hand.
"""
from typing import NamedTuple

from script_cases import doubling_sets, file, number_tokens, of_set, resolver


class Case(NamedTuple):
    name: str
    word: str
    script: bytes
    status: int = 0
    said: str = ""


CASES = []

# The names of two cases whose streams are equal.
PAIRS = []

COMMIT = "commit\n"
FIRST, SECOND = "tokc-script 1\n", "tokc-script 2\n"


def put(path, text):
    return f"put {path} {len(text.encode())}\n{text}\n"


def gone(path):
    return f"del {path}\n"


def move(first, second):
    return f"move {first} {second}\n"


def patch(path, start, end, text=""):
    return f"patch {path} {start} {end} {len(text.encode())}\n{text}\n"


def changed(path, text, old, new):
    """The patch of a text that puts something in the place of what stands there once."""
    before, _, after = text.encode().partition(old.encode())
    return patch(path, len(before), len(text.encode()) - len(after), new)


def case(name, events, word="replay", status=0, said="", version=SECOND):
    CASES.append(Case(name, word, (version + "".join(events)).encode(), status, said and f"tokc: {said}\n"))


def unfit(name, number, *events, word="replay"):
    """A script whose event of this number does not fit."""
    case(f"does not fit: {name}", events, word, 9, f"event {number} does not fit")


def stops(name, wrong, *events, version=SECOND, word="replay"):
    """A script that is refused at the first byte of what stands behind the events."""
    case(f"no event: {name}", [*events, wrong], word, 3, f"bad script at byte {len((version + ''.join(events)).encode())}", version)


def both(name, puts, events, word="replay", status=0):
    """The same commits by events of version 1, and by those of version 2."""
    PAIRS.append((f"{name}, by puts", f"{name}, by moves and patches"))
    for one, of_one, version in zip(PAIRS[-1], (puts, events), (FIRST, SECOND)):
        case(one, of_one, word, status, version=version)


SPACE = '{"space":{"$type":"dimension","s":{"$value":{"value":4,"unit":"px"}}}}'
ONE = number_tokens(a="1")
TWO = number_tokens(a="2")
FAMILY = '{"f":{"$type":"fontFamily","$value":"é漢😀"}}'
MAIN = "tokens.json"

# Moves that fit.

case("a moved file, patched", [put("a.json", SPACE), move("a.json", MAIN), patch(MAIN, 53, 54, "16"), COMMIT])
case("a newline behind the last byte", [put("a.json", SPACE), move("a.json", MAIN), patch(MAIN, 53, 54, "16"), COMMIT, patch(MAIN, 71, 71, "\n"), COMMIT])
case("a move onto itself", [put(MAIN, ONE), COMMIT, move(MAIN, MAIN), COMMIT])
case("a move onto itself, built", [put(MAIN, ONE), move(MAIN, MAIN)], "build")
case("a move onto itself before a patch", [put(MAIN, ONE), move(MAIN, MAIN), changed(MAIN, ONE, "1}", "5}"), COMMIT])
case("a move onto a present path", [put(MAIN, ONE), put("a.json", TWO), COMMIT, move("a.json", MAIN), COMMIT])
case("a move onto a present path, built", [put(MAIN, ONE), put("a.json", TWO), COMMIT, move("a.json", MAIN)], "build")
case("a move onto a present path with the same text", [put(MAIN, ONE), put("a.json", ONE), COMMIT, move("a.json", MAIN), COMMIT])
case("a move away", [put(MAIN, ONE), COMMIT, move(MAIN, "a.json"), COMMIT], status=1)
case("a move away, built", [put(MAIN, ONE), move(MAIN, "a.json")], "build", 1)
case("a move away and back", [put(MAIN, ONE), COMMIT, move(MAIN, "a.json"), move("a.json", MAIN), COMMIT])
case("a move away and back in two commits", [put(MAIN, ONE), COMMIT, move(MAIN, "a.json"), COMMIT, move("a.json", MAIN), COMMIT])
case("moves in a chain", [put("a.json", ONE), move("a.json", "b.json"), move("b.json", "c/d.json"), move("c/d.json", MAIN), COMMIT])
case("two files that change places", [put(MAIN, ONE), put("a.json", TWO), COMMIT, move(MAIN, "t"), move("a.json", MAIN), move("t", "a.json"), COMMIT])
case("a moved path that is put anew", [put("a.json", ONE), move("a.json", MAIN), put("a.json", TWO), COMMIT, move("a.json", MAIN), COMMIT])
case("a moved path that is taken away", [put("a.json", ONE), move("a.json", MAIN), gone("a.json"), COMMIT, gone(MAIN), COMMIT], status=1)
case("a move of an empty text", [put("a.json", ""), move("a.json", MAIN), COMMIT], status=1)
case("a configuration that is moved to its place and away", [put(MAIN, ONE), put("x", 'prefix = "p"\n'), COMMIT, move("x", "tokc.toml"), COMMIT, move("tokc.toml", "y"), COMMIT])
case("the shortest and the longest path", [put("p" * 200, ONE), move("p" * 200, "q"), move("q", MAIN), COMMIT])

PLAN = resolver(of_set(file("a.json"), file("b.json")))
case("a resolver that is moved away", [put(MAIN, ONE), put("resolver.json", PLAN), put("a.json", TWO), put("b.json", "{}"), COMMIT, move("resolver.json", "r"), COMMIT])
case("a source that is moved away", [put("resolver.json", PLAN), put("a.json", ONE), put("b.json", "{}"), COMMIT, move("b.json", "c.json"), COMMIT], status=1)
case("a resolver that is moved to its place", [put("r", PLAN), put("a.json", ONE), put("b.json", TWO), COMMIT, move("r", "resolver.json"), COMMIT])

# Patches that fit.

END = len(ONE.encode())
case("a patch that changes nothing", [put(MAIN, ONE), COMMIT, changed(MAIN, ONE, "number", "number"), COMMIT])
case("patches of no bytes", [put(MAIN, ONE), COMMIT, patch(MAIN, 0, 0), patch(MAIN, 7, 7), patch(MAIN, END, END), COMMIT])
case("patches of no bytes, built", [put(MAIN, ONE), patch(MAIN, 0, 0), patch(MAIN, END, END)], "build")
case("a patch and its undoing", [put(MAIN, ONE), COMMIT, changed(MAIN, ONE, "1}", "2}"), changed(MAIN, TWO, "2}", "1}"), COMMIT])
case("a patch and its undoing in two commits", [put(MAIN, ONE), COMMIT, changed(MAIN, ONE, "1}", "2}"), COMMIT, changed(MAIN, TWO, "2}", "1}"), COMMIT])
case("a patch before all", [put(MAIN, ONE), COMMIT, patch(MAIN, 0, 0, " \n"), COMMIT])
case("a patch behind all", [put(MAIN, ONE), COMMIT, patch(MAIN, END, END, " \n"), COMMIT])
case("a patch of all", [put(MAIN, ONE), COMMIT, patch(MAIN, 0, END, SPACE), COMMIT])
case("a patch that leaves nothing", [put(MAIN, ONE), COMMIT, patch(MAIN, 0, END), COMMIT], status=1)
case("a patch of an empty text", [put(MAIN, ""), COMMIT, patch(MAIN, 0, 0, ONE), COMMIT])
case("a patch of an empty text by nothing", [put(MAIN, ""), patch(MAIN, 0, 0), COMMIT], status=1)
case("a patch that grows", [put(MAIN, ONE), COMMIT, changed(MAIN, ONE, "}}", '},"b":{"$type":"number","$value":7}}'), COMMIT])
case("a patch that takes a token away", [put(MAIN, number_tokens(a="1", b="2")), COMMIT, patch(MAIN, 1, 35), COMMIT])
case("a patch with lines like events", [put(MAIN, ONE), patch(MAIN, 0, 0, "\ncommit\n\nmove a b\n"), COMMIT], status=1)
case("a patch that breaks a text, and one that mends it", [put(MAIN, ONE), COMMIT, patch(MAIN, 0, 1), COMMIT, patch(MAIN, 0, 0, "{"), COMMIT])
case("a patch that breaks a value", [put(MAIN, ONE), COMMIT, changed(MAIN, ONE, "1}", '"x"}'), COMMIT], status=1)
case("a patch that changes a type", [put(MAIN, ONE), COMMIT, changed(MAIN, ONE, "number", "fontWeight"), COMMIT])
case("a patch of the text as it is, not of that of the last commit", [put(MAIN, "{}"), COMMIT, put(MAIN, ONE), changed(MAIN, ONE, "1}", "12}"), COMMIT])
case("patches of what earlier ones made", [put(MAIN, ONE), COMMIT, patch(MAIN, 0, 0, "  "), patch(MAIN, 1, 2, "\n"), patch(MAIN, 2 + END, 2 + END, "\n"), COMMIT])
case("patches of what earlier ones made, built", [put(MAIN, ONE), patch(MAIN, 0, 0, "  "), COMMIT, patch(MAIN, 1, 2, "\n"), patch(MAIN, 2 + END, 2 + END, "\n")], "build")
case("a patch behind what a patch has added", [put("a", "x"), patch("a", 1, 1, "yz"), patch("a", 3, 3, "!"), put(MAIN, ONE), COMMIT])
case("a patch of a file that nothing names", [put(MAIN, ONE), put("a", "x"), COMMIT, patch("a", 0, 1, "y"), COMMIT])
case("a patched file that is put again", [put(MAIN, ONE), COMMIT, changed(MAIN, ONE, "1}", "2}"), put(MAIN, ONE), COMMIT])
case("a patched file that is taken away and put again", [put(MAIN, ONE), changed(MAIN, ONE, "1}", "2}"), gone(MAIN), put(MAIN, SPACE), COMMIT])
case("patches of a file that moves", [put("a", ONE), changed("a", ONE, "1}", "2}"), move("a", "b"), changed("b", TWO, "2}", "3}"), move("b", MAIN), COMMIT])
case("a patch of a configuration", [put(MAIN, ONE), put("tokc.toml", 'prefix = "p"\n'), COMMIT, patch("tokc.toml", 10, 11, "q-r"), COMMIT, patch("tokc.toml", 0, 1, "P"), COMMIT], status=1)
case("a patch of a resolver", [put("resolver.json", PLAN), put("a.json", ONE), put("b.json", TWO), COMMIT, changed("resolver.json", PLAN, '"b.json"', '"a.json"'), COMMIT])
case("a resolver whose sources double by a patch", [put("resolver.json", resolver('{"$ref":"#/sets/s2"}', sets=doubling_sets(3))), COMMIT, patch("resolver.json", 0, 0, " "), COMMIT])
case(
    "one of two sources patched",
    [put("resolver.json", PLAN), put("a.json", ONE), put("b.json", number_tokens(b="2")), COMMIT, changed("a.json", ONE, "1}", "3}"), COMMIT],
)
case("no event at all", [])
case("no event at all, built", [], "build", 1)
case("no event at all: statistics", [], "stats")
case("puts, deletions and commits alone", [gone("a"), put(MAIN, ONE), COMMIT, gone("a"), gone(MAIN), COMMIT, COMMIT, put(MAIN, TWO), COMMIT])

EMOJI = FAMILY.encode().index("é".encode())
for name, start, end, text in (
    ("a character of two bytes", EMOJI, EMOJI + 2, "ü"),
    ("a character of three bytes", EMOJI + 2, EMOJI + 5, "字"),
    ("a character of four bytes", EMOJI + 5, EMOJI + 9, "🎨"),
    ("characters of two, three and four bytes", EMOJI, EMOJI + 9, "x"),
):
    case(f"a patch of {name}", [put(MAIN, FAMILY), COMMIT, patch(MAIN, start, end, text), COMMIT])
case("a patch between characters", [put(MAIN, FAMILY), COMMIT, patch(MAIN, EMOJI + 2, EMOJI + 2, "ü"), patch(MAIN, EMOJI + 7, EMOJI + 7, "😀"), COMMIT])
case("a byte order mark that a patch puts", [put(MAIN, ONE), COMMIT, patch(MAIN, 0, 0, "\ufeff"), COMMIT, patch(MAIN, 0, 3), COMMIT])

# Moves and patches of absent paths. Numbers count all events, also commits.

HERE = put(MAIN, ONE)
for name, number, events in (
    ("the first event", 1, [move("a", "b")]),
    ("behind a commit", 3, [HERE, COMMIT, move("a", "b"), COMMIT]),
    ("behind three commits", 5, [HERE, COMMIT, COMMIT, COMMIT, move("a", MAIN), COMMIT]),
    ("onto itself", 2, [HERE, move("a", "a"), COMMIT]),
    ("taken away", 3, [HERE, gone(MAIN), move(MAIN, "b"), COMMIT]),
    ("moved away", 3, [HERE, move(MAIN, "b"), move(MAIN, "b"), COMMIT]),
    ("spelled otherwise", 3, [HERE, COMMIT, move("Tokens.json", "b")]),
    ("from the second path back", 3, [HERE, COMMIT, move("b", MAIN)]),
    ("put later", 2, [COMMIT, move("a", MAIN), put("a", ONE), COMMIT]),
):
    unfit(f"a move of an absent path, {name}", number, *events)
    if len(events) > 3 or number == 1:
        unfit(f"a move of an absent path, {name}, built", number, *events, word="build")
unfit("a move of an absent path: statistics", 2, HERE, move("a", "b"), word="stats")
for name, number, events in (
    ("the first event", 1, [patch("a", 0, 0, "x")]),
    ("behind a commit", 3, [HERE, COMMIT, patch("a", 0, 0, "x"), COMMIT]),
    ("of no bytes", 2, [HERE, patch("a", 0, 0), COMMIT]),
    ("taken away", 4, [HERE, COMMIT, gone(MAIN), patch(MAIN, 0, 0, " "), COMMIT]),
    ("moved away", 3, [HERE, move(MAIN, "b"), patch(MAIN, 0, 0, " "), COMMIT]),
    ("where another was moved to", 4, [HERE, move(MAIN, "b"), patch("b", 0, 0, " "), patch(MAIN, 0, 0, " "), COMMIT]),
    ("put later", 2, [COMMIT, patch("a", 0, 0, "x"), put("a", ONE), COMMIT]),
):
    unfit(f"a patch of an absent path, {name}", number, *events)
    if number == 4 or number == 1:
        unfit(f"a patch of an absent path, {name}, built", number, *events, word="build")
unfit("a patch of an absent path: statistics", 2, HERE, patch("a", 0, 0), COMMIT, word="stats")

# Patches whose places are none.

for name, start, end, text in (
    ("by one", 1, 0, "x"),
    ("in the middle", 17, 5, "x"),
    ("with no bytes", 2, 1, ""),
    ("from the end to the start", END, 0, ONE),
    ("behind the text", END + 9, END + 2, "x"),
    ("with the end in the text", END + 1, END, "x"),
):
    unfit(f"START above END, {name}", 3, HERE, COMMIT, patch(MAIN, start, end, text), COMMIT)
unfit("START above END, built", 2, HERE, patch(MAIN, 5, 4, "x"), COMMIT, word="build")
unfit("START above END: statistics", 2, HERE, patch(MAIN, 5, 4), COMMIT, word="stats")
for name, start, end, text in (
    ("by one", 0, END + 1, ONE),
    ("at the end", END, END + 1, " "),
    ("both", END + 1, END + 1, " "),
    ("both, of no bytes", END + 1, END + 1, ""),
    ("by far", 0, 99_999_999, ""),
):
    unfit(f"END behind the text, {name}", 3, HERE, COMMIT, patch(MAIN, start, end, text), COMMIT)
unfit("END behind an empty text", 2, put("a", ""), patch("a", 0, 1, "x"))
unfit("END behind a text that a patch has shortened", 3, HERE, patch(MAIN, 0, 1), patch(MAIN, 0, END), COMMIT)
unfit("END behind a text that was put anew", 4, HERE, COMMIT, put(MAIN, "{}"), patch(MAIN, 0, 3, " "), COMMIT)
unfit("END behind the text of bytes, not of characters", 2, put("a", "éé"), patch("a", 4, 5))
unfit("END behind the text: statistics", 2, put(MAIN, SPACE), patch(MAIN, 71, 71), COMMIT, word="stats")
unfit("END behind the text, built", 3, put(MAIN, SPACE), COMMIT, patch(MAIN, 71, 71), word="build")

for character in "é漢😀":
    text, length = f"<{character}>", len(character.encode())
    for place in range(2, length + 1):
        unfit(f"START at byte {place - 1} of {length} of a character", 2, put("a", text), patch("a", place, length + 1, "x"))
        unfit(f"END at byte {place - 1} of {length} of a character", 2, put("a", text), patch("a", 1, place, "x"))
unfit("START and END in a character", 3, put(MAIN, FAMILY), COMMIT, patch(MAIN, EMOJI + 1, EMOJI + 1), COMMIT)
unfit("START in a character, END in another", 3, put(MAIN, FAMILY), COMMIT, patch(MAIN, EMOJI + 1, EMOJI + 3, "x"), COMMIT)
unfit("START in a character, built", 2, put(MAIN, FAMILY), patch(MAIN, EMOJI + 3, EMOJI + 5, "x"), COMMIT, word="build")
unfit("END in a character, built", 2, put(MAIN, FAMILY), patch(MAIN, EMOJI + 2, EMOJI + 4, "x"), COMMIT, word="build")
unfit("START in a character that a patch has put", 3, put("a", "abc"), patch("a", 1, 2, "é"), patch("a", 2, 3))
unfit("END in a character that was moved", 4, put("a", "é"), move("a", "b"), COMMIT, patch("b", 0, 1))
unfit("the first of two events that do not fit", 2, HERE, move("a", "b"), patch(MAIN, 9, 8), COMMIT)
unfit("an event behind others that fit", 7, HERE, COMMIT, changed(MAIN, ONE, "1}", "2}"), COMMIT, move(MAIN, "b"), COMMIT, move(MAIN, "c"), COMMIT)

# What is no event. A script of version 1 has neither moves nor patches.

stops("a move under version 1", move("a.json", "b.json"), version=FIRST)
stops("a move under version 1, built", move("a.json", "b.json"), version=FIRST, word="build")
stops("a move under version 1 behind a put", move(MAIN, "b.json") + COMMIT, HERE, version=FIRST)
stops("a move onto itself under version 1 behind a commit", move(MAIN, MAIN), HERE, COMMIT, version=FIRST)
stops("a patch under version 1", patch(MAIN, 0, 0), HERE, version=FIRST)
stops("a patch under version 1: statistics", patch(MAIN, 53, 54, "16"), put(MAIN, SPACE), COMMIT, version=FIRST, word="stats")
for wrong in ("00", "01", "+1", "-0", "", "1.0", "0x1", "1e1", "100000000", "000000001", "１", "1,0", "x"):
    stops(f"START {wrong!a}", f"patch {MAIN} {wrong} 1 1\n \n", HERE)
    stops(f"END {wrong!a}", f"patch {MAIN} 0 {wrong} 1\n \n", HERE)
    stops(f"LEN {wrong!a} of a patch", f"patch {MAIN} 0 1 {wrong}\n \n", HERE)
    stops(f"LEN {wrong!a} of a put", f"put a {wrong}\n \n", HERE)
for name, wrong in (
    ("LEN one too small", f"patch {MAIN} 0 0 1\nab\n"),
    ("LEN one too large", f"patch {MAIN} 0 0 3\nab\n"),
    ("LEN far too large", f"patch {MAIN} 0 0 99999999\nab\n"),
    ("LEN in a character", f"patch {MAIN} 0 0 1\né\n"),
    ("LEN 0 before a byte", f"patch {MAIN} 0 0 0\nx\n"),
    ("no newline behind the bytes", f"patch {MAIN} 0 0 2\nab"),
    ("no bytes", f"patch {MAIN} 0 0 2\n"),
    ("no newline behind no bytes", f"patch {MAIN} 0 0 0\n"),
    ("a patch without LEN", f"patch {MAIN} 0 0\n\n"),
    ("a patch with a word more", f"patch {MAIN} 0 0 0 0\n\n"),
    ("a patch without a path", "patch 0 0 0\n\n"),
    ("a patch with two blanks", f"patch {MAIN} 0  0 0\n\n"),
    ("a patch with a blank at the end", f"patch {MAIN} 0 0 0 \n\n"),
    ("a patch with a return", f"patch {MAIN} 0 0 0\r\n\n"),
    ("a patch of a path above", "patch ../a 0 0 0\n\n"),
    ("a patch with a capital", f"Patch {MAIN} 0 0 0\n\n"),
    ("a move of one path", f"move {MAIN}\n"),
    ("a move of three paths", f"move {MAIN} a b\n"),
    ("a move of no path", "move\n"),
    ("a move of an empty path", f"move  {MAIN}\n"),
    ("a move onto an empty path", f"move {MAIN} \n"),
    ("a move of a path above", f"move ../a {MAIN}\n"),
    ("a move onto a path from the root", f"move {MAIN} /a\n"),
    ("a move onto a path with two slashes", f"move {MAIN} a//b\n"),
    ("a move onto a path with a slash at its end", f"move {MAIN} a/\n"),
    ("a move onto a path with a dot alone", f"move {MAIN} ./a\n"),
    ("a move onto a path of another letter", f"move {MAIN} é\n"),
    ("a move onto a path that is too long", f"move {MAIN} {'p' * 201}\n"),
    ("a move with a tab", f"move\t{MAIN} a\n"),
    ("a move with a blank at the end", f"move {MAIN} a \n"),
    ("a move without a newline", f"move {MAIN} a"),
    ("a move with capitals", f"MOVE {MAIN} a\n"),
    ("another word", f"copy {MAIN} a\n"),
    ("an empty line", "\n"),
    ("a commit with a blank", "commit \n"),
    ("a first line", FIRST),
):
    stops(name, wrong, HERE, COMMIT)
stops("LEN in a character, built", f"patch {MAIN} 0 0 1\né\n", HERE, word="build")
stops("an event that is none behind one that does not fit", "move a\n", HERE, move("a", "b"))
for wrong in ("tokc-script 3\n", "tokc-script 02\n", "tokc-script 2 \n", "tokc-script 2\r\n", "tokc-script 2", "tokc-script 12\n", "", "\ntokc-script 2\n", "tokc-stream 1\n"):
    case(f"no first line: {wrong!a}", [COMMIT], status=3, said="bad script at byte 0", version=wrong)

# Equal scripts of both versions.

both("a renamed file", [HERE, COMMIT, gone(MAIN), put("a.json", ONE), COMMIT], [HERE, COMMIT, move(MAIN, "a.json"), COMMIT], status=1)
both("a changed number", [HERE, COMMIT, put(MAIN, TWO), COMMIT], [HERE, COMMIT, changed(MAIN, ONE, "1}", "2}"), COMMIT])
both("a changed number, built", [HERE, COMMIT, put(MAIN, TWO), COMMIT], [HERE, COMMIT, changed(MAIN, ONE, "1}", "2}"), COMMIT], "build")
both("a text as it was", [HERE, COMMIT, put(MAIN, ONE), COMMIT], [HERE, COMMIT, changed(MAIN, ONE, "number", "number"), COMMIT])
both("a text that is broken and mended", [HERE, COMMIT, put(MAIN, ""), COMMIT, put(MAIN, ONE), COMMIT], [HERE, COMMIT, patch(MAIN, 0, END), COMMIT, patch(MAIN, 0, 0, ONE), COMMIT])
both("the same events", [HERE, COMMIT, gone(MAIN), COMMIT, put(MAIN, SPACE), COMMIT], [HERE, COMMIT, gone(MAIN), COMMIT, put(MAIN, SPACE), COMMIT])
both(
    "sources that change places",
    [put("resolver.json", PLAN), put("a.json", ONE), put("b.json", TWO), COMMIT, put("a.json", TWO), put("b.json", ONE), COMMIT],
    [put("resolver.json", PLAN), put("a.json", ONE), put("b.json", TWO), COMMIT, move("a.json", "t"), move("b.json", "a.json"), move("t", "b.json"), COMMIT],
)
both("other characters", [put(MAIN, FAMILY), COMMIT, put(MAIN, FAMILY.replace("漢", "字")), COMMIT], [put(MAIN, FAMILY), COMMIT, changed(MAIN, FAMILY, "漢", "字"), COMMIT])
both("a resolver that comes late", [HERE, put("r", PLAN), COMMIT, put("resolver.json", PLAN), gone("r"), COMMIT], [HERE, put("r", PLAN), COMMIT, move("r", "resolver.json"), COMMIT], status=1)
