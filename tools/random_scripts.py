"""Random scripts, the same one for the same seed: resolvers with sets, contexts and inline sources, token files of all types with
references across files, configurations, and edits of all of these. Most are as they should be; some break a rule. Run, it
compares the answers of two programs to scripts of both versions, whose moves and patches at times do not fit.

usage: random_scripts.py PROGRAM OTHER FIRST LAST    tells each seed from FIRST to LAST whose script they answer otherwise

Exit status: 0 all are answered alike; 1 some are not; 2 wrong arguments.
"""
import json
import random
import subprocess
import sys

from sample_tokens import CAPS, FAMILIES, GENERIC, KINDS, RANGES, STROKES, WEIGHTS

NAMES = ["a", "b", "c", "d-e", "\u00e9", "x y", "1", "$root", "z~/", "long", "\u0001", "\U0001f600", 'q"\\', "\u007f#"]
NUMBERS = ["0", "1", "0.5", "-1", "2.50", "1e2", "12.345", "0.1", "100", "1E-3", "0.30", "1e29", "-0", "7"]
WITHIN_ONE = ["0", "1", "0.5", "0.123456", "1.0", "5e-1", "1e-3"]
WRONG = ["null", "[]", "{}", '"x"', "7", "true", '{"$ref":1}', '"{}"', '{"$ref":"#/a","b":1}', "1e30", '{"value":1,"unit":"em"}']
MARKS = ["true", "false", '"old"']
TYPOGRAPHY = {"fontFamily": "fontFamily", "fontSize": "dimension", "fontWeight": "fontWeight", "letterSpacing": "dimension", "lineHeight": "number"}
CONFIGS = ['prefix = "ds"\n', "rem_base = 10\n", "references = false\n", "references = true\n", 'prefix = ""\n', "rem_base = 0\n", "x = 1\n", "= \n"]
CONTEXTS = ["light", "dark", "c.x", '"q', "gro\u00df"]
MODIFIERS = ["theme", "den sity", "Gr\u00f6\u00dfe"]
SETS = ["core", "a~b", "x/y"]


def quoted(text):
    return json.dumps(text, ensure_ascii=False)


def escaped(name):
    return name.replace("~", "~0").replace("/", "~1")


class Values:
    """Makes values and tokens as texts, with references to the tokens made before."""

    def __init__(self, chance):
        self.chance, self.known, self.present = chance, {}, None

    def one_of(self, things):
        return self.chance.choice(things)

    def maybe(self, share, text):
        return [text] if self.chance.random() < share else []

    def members(self, *members):
        """An object of these members in some order."""
        members = list(members)
        self.chance.shuffle(members)
        return "{" + ",".join(members) + "}"

    def listed(self, most, make):
        return "[" + ",".join(make() for _ in range(self.chance.randint(1, most))) + "]"

    def color(self):
        space = "srgb" if self.chance.random() < 0.5 else self.one_of(sorted(RANGES))
        parts = ",".join('"none"' if self.chance.random() < 0.1 else self.one_of(WITHIN_ONE) for _ in range(3))
        alpha, digits = self.maybe(0.3, f'"alpha":{self.one_of(WITHIN_ONE)}'), self.maybe(0.3, '"hex":"#3366Cc"')
        return self.members(f'"colorSpace":"{space}"', f'"components":[{parts}]', *alpha, *digits)

    def size(self, units):
        return self.members(f'"value":{self.one_of(NUMBERS)}', f'"unit":"{self.one_of(units)}"')

    def font_family(self):
        families = [*FAMILIES, *GENERIC, "A  B", "a\u0001", ""]
        return quoted(self.one_of(families)) if self.chance.random() < 0.4 else self.listed(3, lambda: quoted(self.one_of(families)))

    def stroke_style(self):
        if self.chance.random() < 0.7:
            return quoted(self.one_of(STROKES))
        return self.members(f'"dashArray":{self.listed(2, lambda: self.part("dimension"))}', f'"lineCap":"{self.one_of(CAPS)}"')

    def shadow(self):
        lengths = [f'"{name}":{self.part("dimension")}' for name in ("offsetX", "offsetY", "blur", "spread")]
        return self.members(f'"color":{self.part("color")}', *lengths, *self.maybe(0.4, f'"inset":{self.one_of(["true", "false"])}'))

    def composite(self, **kinds):
        return self.members(*(f'"{name}":{self.part(kind)}' for name, kind in kinds.items()))

    def value(self, kind):
        if self.chance.random() < 0.003:
            return self.one_of(WRONG)
        return {
            "color": self.color,
            "dimension": lambda: self.size(["px", "rem"]),
            "fontFamily": self.font_family,
            "fontWeight": lambda: json.dumps(self.one_of(WEIGHTS)),
            "duration": lambda: self.size(["ms", "s"]),
            "cubicBezier": lambda: "[" + ",".join(map(self.one_of, [WITHIN_ONE, NUMBERS] * 2)) + "]",
            "number": lambda: self.one_of(NUMBERS),
            "strokeStyle": self.stroke_style,
            "border": lambda: self.composite(color="color", width="dimension", style="strokeStyle"),
            "transition": lambda: self.composite(duration="duration", delay="duration", timingFunction="cubicBezier"),
            "shadow": lambda: self.shadow() if self.chance.random() < 0.5 else self.listed(2, self.shadow),
            "gradient": lambda: self.listed(3, lambda: self.composite(color="color", position="number")),
            "typography": lambda: self.composite(**TYPOGRAPHY),
        }[kind]()

    def target(self, kind):
        """The path of a token of the type that was made before the present one, at times of any token, or None."""
        paths = list(self.known)
        if self.present in self.known and self.chance.random() < 0.99:
            paths = paths[:paths.index(self.present)]
        fitting = [path for path in paths if self.known[path] == kind or self.chance.random() < 0.003]
        return self.one_of(fitting) if fitting else None

    def part(self, kind):
        """A value of the type, or a reference to one."""
        path = self.target(kind) if self.chance.random() < 0.35 else None
        if path is None:
            return self.value(kind)
        if self.chance.random() < 0.6:
            return quoted("{" + ".".join(path) + "}")
        return '{"$ref":' + quoted("#/" + "/".join(map(escaped, path)) + self.one_of(["", "/$value"])) + "}"

    def token(self, path):
        self.present, kind = path, self.known.get(path, self.one_of(KINDS))
        target = self.target(kind) if self.chance.random() < 0.3 else None
        if target is None:
            main = [f'"$value":{self.value(kind)}', f'"$type":"{kind}"']
        elif self.chance.random() < 0.7:
            main = ['"$value":' + quoted("{" + ".".join(target) + "}")]
        else:
            main = ['"$ref":' + quoted("#/" + "/".join(map(escaped, target)))]
        self.known[path] = kind
        more = ['"$description":"d\\n"', '"$extensions":{"k": [1, {}]}', f'"$deprecated":{self.one_of(MARKS)}', '"$unknown":1']
        return self.members(*main, *(it for it in more if self.chance.random() < 0.1))

    def is_token(self, path):
        """Whether a token is to stand there: as in the files before, but for a few."""
        if self.chance.random() < 0.97:
            if path in self.known:
                return True
            if any(it[:len(path)] == path for it in self.known):
                return False
        return path[-1] == "$root" or len(path) > 2 or self.chance.random() < 0.7

    def group(self, path=(), most=4):
        """A group with so many members at most, of which some are groups."""
        found = []
        for name in self.chance.sample(NAMES, self.chance.randint(1, most)):
            below = (*path, name)
            is_token = self.is_token(below)
            found.append(f"{quoted(name)}:{self.token(below) if is_token else self.group(below, 3)}")
        if path and self.chance.random() < 0.1:
            found.append(f'"$deprecated":{self.one_of(MARKS)}')
        return "{" + ",".join(found) + "}"

    def file(self):
        """A token file: groups, at times one that extends another, and seldom damage."""
        text = self.group()
        if self.chance.random() < 0.15:
            base = "base" if self.chance.random() < 0.9 else self.one_of(NAMES[:3])
            text = text[:-1] + ',"base":{"in":{"$type":"number","$value":1}},"ext":{"$extends":"%s"}}' % self.one_of(["{%s}", "#/%s"]) % base
        return damaged(self.chance, text) if self.chance.random() < 0.03 else text


def damaged(chance, text):
    """A text with a small change."""
    at = chance.randrange(len(text) + 1)
    if chance.random() < 0.4:
        return text[:at] + text[at + 1:]
    return text[:at] + chance.choice('{}[]:,"\\ud0123e. \n$~/#a\u00e9') + text[at:]


def edited(chance, text):
    """A small edit: a blank before all, another digit, or damage."""
    digits = [i for i, it in enumerate(text) if it in "123456789"]
    share = chance.random()
    if share < 0.3:
        return " " + text
    if share < 0.85 and digits:
        at = chance.choice(digits)
        return text[:at] + chance.choice("123456789") + text[at + 1:]
    return damaged(chance, text)


class Resolvers:
    """Makes a resolver document and the files that it names."""

    def __init__(self, chance, values):
        self.chance, self.values, self.files = chance, values, {}

    def source(self, sets):
        share = self.chance.random()
        if share < 0.6:
            path = f"t{self.chance.randrange(4)}.json" if self.files and self.chance.random() < 0.2 else f"t{len(self.files)}.json"
            if path not in self.files and self.chance.random() < 0.985:
                self.files[path] = self.values.file()
            return '{"$ref":"%s%s"}' % (self.chance.choice(["", "", "./"]), path)
        if share < 0.8 and sets:
            return '{"$ref":%s}' % quoted("#/sets/" + escaped(self.chance.choice(sets)))
        if share < 0.98:
            return self.values.group(most=2)
        return self.chance.choice(['{"$ref":"#/sets/none"}', '{"$ref":"../x"}', "7", '{"$ref":"a.json","x":1}', '{"$value":1}'])

    def sources(self, sets, most=2):
        return "[" + ",".join(self.source(sets) for _ in range(self.chance.randint(0, most))) + "]"

    def modifier(self, sets, most):
        names = self.chance.sample(CONTEXTS, self.chance.randint(min(2, most), most))
        members = ['"contexts":{' + ",".join(f"{quoted(name)}:{self.sources(sets)}" for name in names) + "}"]
        if self.chance.random() < 0.4:
            members.append('"default":' + quoted(self.chance.choice(names) if self.chance.random() < 0.95 else "none"))
        return ",".join(members)

    def document(self):
        sets = self.chance.sample(SETS, self.chance.randint(1, 2))
        modifiers = self.chance.sample(MODIFIERS, self.chance.randint(1, 2))
        earlier = [sets[:i] if self.chance.random() < 0.95 else sets for i in range(len(sets))]
        made_sets = [f'{quoted(name)}:{{"sources":{self.sources(known)}}}' for name, known in zip(sets, earlier)]
        made_modifiers = [f"{quoted(name)}:{{{self.modifier(sets, 3 - i)}}}" for i, name in enumerate(modifiers)]
        named = [f"#/sets/{escaped(name)}" for name in sets] + [f"#/modifiers/{escaped(name)}" for name in modifiers]
        order = ['{"$ref":%s}' % quoted(it) for it in named]
        if self.chance.random() < 0.3:
            order.append('{"type":"set","name":"inline","sources":%s}' % self.sources(sets))
        if self.chance.random() < 0.2:
            self.chance.shuffle(order)
        members = ['"version":"2025.10"', '"resolutionOrder":[' + ",".join(order) + "]"]
        members += ['"sets":{' + ",".join(made_sets) + "}", '"modifiers":{' + ",".join(made_modifiers) + "}"]
        self.chance.shuffle(members)
        return "{" + ",".join(members) + "}"


def first_files(chance):
    """The files of the first commit."""
    values = Values(chance)
    if chance.random() < 0.2:
        files = {"tokens.json": values.group(most=6)}
    else:
        maker = Resolvers(chance, values)
        files = {"resolver.json": maker.document()}
        files.update(maker.files)
    if chance.random() < 0.3:
        files["tokc.toml"] = "".join(chance.sample(CONFIGS[:3] if chance.random() < 0.9 else CONFIGS, chance.randint(1, 2)))
    return files


def edit(chance, files):
    """What one later commit puts and takes away."""
    path = chance.choice(sorted(files))
    share = chance.random()
    if share < 0.7:
        return {path: edited(chance, files[path])}
    if share < 0.8:
        return {path: None}
    if share < 0.9 and path.startswith("t"):
        return {path: Values(chance).file()}
    return {"tokc.toml": "".join(chance.sample(CONFIGS, chance.randint(0, 2)))}


def commits(seed, most=4):
    """What each commit of the script of a seed puts, or takes away where None stands for the text."""
    chance = random.Random(seed)
    found = [first_files(chance)]
    files = dict(found[0])
    for _ in range(chance.randint(0, most - 1)):
        if files:
            found.append(edit(chance, files))
            files.update(found[-1])
            files = {path: text for path, text in files.items() if text is not None}
    return found


# How often an event is one of version 2, and how often such a one has places or a path of any kind.
SECOND, ANY = 0.7, 0.1
WORDS = ("replay", "build", "stats")
SECONDS = 300


def put(path, data):
    return b"put %s %d\n%s\n" % (path.encode(), len(data), data)


def place(chance, data):
    """A place in a text: seldom any, else one where a character starts or the text ends."""
    if chance.random() < ANY:
        return chance.randrange(len(data) + 3)
    return len(data.decode()[:chance.randrange(len(data.decode()) + 1)].encode())


def patch(chance, path, old, new):
    """A patch that makes one text of another: its middle from the first to the last character that differ, or more; seldom any."""
    start, end = sorted((place(chance, old), place(chance, old)))
    if chance.random() < ANY:
        return b"patch %s %d %d 1\n \n" % (path.encode(), start, end)
    first, second = old.decode(), new.decode()
    most = min(len(first), len(second))
    before = next((i for i in range(most) if first[i] != second[i]), most)
    behind = next((i for i in range(most - before) if first[-1 - i] != second[-1 - i]), most - before)
    before, behind = chance.randint(0, before) if chance.random() < 0.3 else before, chance.randint(0, behind)
    start, end, middle = len(first[:before].encode()), len(old) - len(first[len(first) - behind:].encode()), second[before:len(second) - behind].encode()
    return b"patch %s %d %d %d\n%s\n" % (path.encode(), start, end, len(middle), middle)


def other_event(chance, files):
    """A move there and back, a move onto itself, one of a path that may be absent, or a patch of any bytes."""
    paths = [*files, "absent.json"] if chance.random() < ANY or not files else [*files]
    path = chance.choice(sorted(paths)).encode()
    share = chance.random()
    if share < 0.4:
        return b"move %s x\nmove x %s\n" % (path, path)
    if share < 0.7:
        return b"move %s %s\n" % (path, path)
    data = files.get(path.decode(), b"")
    at = place(chance, data)
    return b"patch %s %d %d 0\n\n" % (path, at, at)


def events(seed, most=4):
    """The script of a seed with the commits of `commits`, of version 1 or 2; under 2 by moves and patches where there may be some."""
    chance, version = random.Random(f"events {seed}"), seed % 3
    files, pieces = {}, [b"tokc-script %d\n" % (1 if version == 0 else 2)]
    for of_one in commits(seed, most):
        for path, text in of_one.items():
            data = None if text is None else text.encode()
            if data is None:
                pieces.append(b"del %s\n" % path.encode())
                files.pop(path, None)
                continue
            is_patch = version and path in files and chance.random() < SECOND
            pieces.append(patch(chance, path, files[path], data) if is_patch else put(path, data))
            files[path] = data
        if version and chance.random() < SECOND:
            pieces.append(other_event(chance, files))
        pieces.append(b"commit\n")
    return b"".join(pieces)


def answer(program, word, script):
    ran = subprocess.run([program, word], input=script, capture_output=True, timeout=SECONDS, check=False)
    return ran.returncode, ran.stdout, ran.stderr


def main(words):
    if len(words) != 4 or not all(it.isdigit() for it in words[2:]):
        print(__doc__.split("\n\n")[1], file=sys.stderr)
        return 2
    found, counts = [], {}
    for seed in range(int(words[2]), int(words[3]) + 1):
        script, word = events(seed), WORDS[seed // 3 % len(WORDS)]
        first, second = (answer(program, word, script) for program in words[:2])
        counts[first[0]] = counts.get(first[0], 0) + 1
        if first != second:
            found.append(seed)
            print(f"seed {seed}: {word}: status {first[0]} and {second[0]}")
    told = ", ".join(f"{counts[it]} with {it}" for it in sorted(counts))
    print(f"{sum(counts.values())} scripts ({told}), {len(found)} answered otherwise")
    return int(bool(found))


if __name__ == "__main__":
    sys.exit(main(sys.argv[1:]))
