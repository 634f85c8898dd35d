"""Large scripts with the streams that are wanted for them, from lengths and counts alone."""
from script_table import HOLE, Recipe, Row, written

SWIFT = ("import UIKit\n\npublic enum Tokens {\n", "}\n")
CSS = (":root {\n", "}\n")
JSON = ("{\n", "}\n")
XML = ('<?xml version="1.0" encoding="utf-8"?>\n<resources>\n', "</resources>\n")


def put(path, body):
    """The event that puts what a recipe makes at a path."""
    return Recipe().text(f"put {path} {body.length}\n").add(body).text("\n")


def file(path, body):
    """The record of a file."""
    return Recipe().text(f"file {path} {body.length}\n").add(body).text("\n")


def text(body):
    return Recipe().text(body)


class Sheets:
    """The four files of a permutation: tokens `g.NAME` of pixels, in byte order of their names."""

    def __init__(self):
        self.swift, self.css, self.json, self.xml = Recipe(), Recipe(), Recipe(), Recipe()
        self.is_first = True

    def add(self, first, last, group, name, pixels):
        """A token for each number; the name and the pixels can hold it."""
        member = f'  "{group}.{name}": {{"$type": "dimension", "$value": {{"value": {pixels}, "unit": "px"}}}}'
        self.swift.each(first, last, f"  public static let {group}_{name}: CGFloat = {pixels}.0\n")
        self.css.each(first, last, f"  --{group}-{name}: {pixels}px;\n")
        self.xml.each(first, last, f'  <dimen name="{group}_{name}">{pixels}dp</dimen>\n')
        if self.is_first:
            self.json.text(member.replace(HOLE, str(first)))
            first += 1
        self.json.each(first, last, ",\n" + member)
        self.is_first = False

    def records(self, folder):
        """Their records, in byte order of paths."""
        out = Recipe()
        for name, (head, foot), body in (("Tokens.swift", SWIFT, self.swift), ("tokens.css", CSS, self.css),
                                         ("tokens.json", JSON, self.json), ("tokens.xml", XML, self.xml)):
            last = "\n" if name == "tokens.json" and body.length else ""
            out.add(file(f"{folder}/{name}", text(head).add(body).text(last + foot)))
        return out


def commit(number, records):
    """A commit of a stream."""
    return text(f"commit {number}\n").add(records)


def built(files, records):
    """The script of some files, and the stream of what is built of them."""
    script = text("tokc-script 1\n")
    for path, body in files:
        script.add(put(path, body))
    return script, text("tokc-stream 1\n").add(commit(1, records)).text("done 1\n")


def token(pixels):
    return f'{{"$value":{{"value":{pixels},"unit":"px"}}}}'


def space(pixels):
    """One token of so many pixels, and its files."""
    sheets = Sheets()
    sheets.add(0, 0, "space", "s", pixels)
    return f'"space":{{"$type":"dimension","s":{token(pixels)}}}', sheets.records("default")


def lengths(first, last):
    """The steps of numbers of as many digits."""
    while first <= last:
        end = min(last, 10 ** len(str(first)) - 1)
        yield first, end
        first = end + 1


def many_commits(count):
    """So many commits, each of which changes one token."""
    script, stream = text("tokc-script 1\n"), text("tokc-stream 1\n")
    for first, last in lengths(1, count):
        tokens, records = space("9" * len(str(first)))
        body = "{" + tokens + "}"
        event = f"put tokens.json {len(body)}\n{body}\ncommit\n"
        record = "commit 9\n" + "".join(step.split("\n", 1)[1][:-1] for step in records.steps)
        nines = "9" * len(str(first))
        script.each(first, last, event.replace(f'"value":{nines},', f'"value":{HOLE},'))
        record = record.replace("commit 9\n", f"commit {HOLE}\n")
        for before, behind in (("CGFloat = ", ".0"), ("s: ", "px;"), ('"value": ', ","), ('">', "dp<")):
            assert record.count(before + nines + behind) == 1
            record = record.replace(before + nines + behind, before + HOLE + behind)
        stream.each(first, last, record)
    return script, stream.text(f"done {count}\n")


def many_tokens(first, last):
    """A token for each number, of as many pixels."""
    sheets = Sheets()
    sheets.add(first, last, "g", f"t{HOLE}", HOLE)
    body = text('{"g":{"$type":"dimension"').each(first, last, f',"t{HOLE}":' + token(HOLE)).text("}}")
    return built([("tokens.json", body)], sheets.records("default"))


def many_members(size, count):
    """A description of so many bytes and an object of so many members beside one token."""
    tokens, records = space(4)
    body = text('{"$description":"').times(size // 1000, "abcdefghij" * 100).text('","$extensions":{"first":0')
    body.each(1, count, f',"member {HOLE}":[true]').text("}," + tokens + "}")
    return built([("tokens.json", body)], records)


def long_texts(size):
    """A token of a family and a description of so many bytes each."""
    family = Recipe().times(size // 1000, "abcdefghij" * 100)
    described = Recipe().times(size // 1000, 'abcdefgh\\"' * 100)
    body = text('{"family":{"$type":"fontFamily","$description":"').add(described).text('","$value":"').add(family).text('"}}')
    records = file("default/Tokens.swift", text(SWIFT[0] + '  public static let family: String = "').add(family).text('"\n' + SWIFT[1]))
    records.add(file("default/tokens.css", text(CSS[0] + '  --family: "').add(family).text('";\n' + CSS[1])))
    member = text(JSON[0] + '  "family": {"$type": "fontFamily", "$value": ["').add(family).text('"], "$description": "').add(described)
    records.add(file("default/tokens.json", member.text('"}\n' + JSON[1])))
    records.add(file("default/tokens.xml", text(XML[0] + '  <string name="family">').add(family).text("</string>\n" + XML[1])))
    return built([("tokens.json", body)], records)


def many_files(count):
    """So many files, of which one counts."""
    script, stream = built([("tokens.json", text("{}"))], Sheets().records("default"))
    return script.each(1, count, f"put files/f{HOLE} 2\n{{}}\n"), stream


def many_sets(count):
    """So many sets, each of which names the next one. The last has one token."""
    tokens, records = space(4)
    body = text('{"version":"2025.10","resolutionOrder":[{"$ref":"#/sets/s1"}],"sets":{"s1":{"sources":[{"$ref":"#/sets/s')
    body.each(2, count, f'{HOLE}"}}]}},"s{HOLE}":{{"sources":[{{"$ref":"#/sets/s').text('end"}]},"send":{"sources":[{' + tokens + "}]}}}")
    return built([("resolver.json", body)], records)


def doubling_sets(count):
    """So many sets, each of which names the next one twice. The last has no sources."""
    reference = f'{{"$ref":"#/sets/s{HOLE}"}}'
    body = text('{"version":"2025.10","resolutionOrder":[{"$ref":"#/sets/s1"}],"sets":{"s1":{"sources":[')
    body.each(2, count, f'{reference},{reference}]}},"s{HOLE}":{{"sources":[').text("]}}}")
    return built([("resolver.json", body)], Sheets().records("default"))


def many_permutations(count):
    """Six modifiers of two contexts each over a set of so many files. Each file has a token of its number of pixels, and
    each modifier sets one of them to 1000 or 1001."""
    def tokens(number, pixels):
        return f'{{"g":{{"$type":"dimension","t{number}":{token(pixels)}}}}}'
    last = 99 + count
    script = text("tokc-script 1\n")
    body = tokens(HOLE, HOLE)
    script.each(100, last, f"put set/{HOLE}.json {len(body) + 4}\n{body}\n")
    for modifier in range(100, 106):
        for number, context in enumerate("ab"):
            script.add(put(f"m{modifier}/{context}.json", text(tokens(modifier, 1000 + number))))
    document = text('{"version":"2025.10","sets":{"all":{"sources":[{"$ref":"set/100.json"}')
    document.each(101, last, f',{{"$ref":"set/{HOLE}.json"}}').text(']}},"modifiers":{')
    contexts = f'"m{HOLE}":{{"contexts":{{"a":[{{"$ref":"m{HOLE}/a.json"}}],"b":[{{"$ref":"m{HOLE}/b.json"}}]}}}}'
    document.each(100, 104, contexts + ",").each(105, 105, contexts).text('},"resolutionOrder":[{"$ref":"#/sets/all"}')
    document.each(100, 105, f',{{"$ref":"#/modifiers/m{HOLE}"}}').text("]}")
    script.add(put("resolver.json", document))
    records = Recipe()
    for choice in range(64):
        chosen = [choice >> (5 - place) & 1 for place in range(6)]
        sheets = Sheets()
        for place, number in enumerate(chosen):
            sheets.add(0, 0, "g", f"t{100 + place}", 1000 + number)
        sheets.add(106, last, "g", f"t{HOLE}", HOLE)
        records.add(sheets.records("+".join(f"m{100 + place}={'ab'[number]}" for place, number in enumerate(chosen))))
    return script, text("tokc-stream 1\n").add(commit(1, records)).text("done 1\n")


def long_configuration(size):
    """A configuration with comments, a prefix and a number of so many bytes each, and a token with a reference to it."""
    body = Recipe().times(size // 900, "# a line\n" * 100)
    # Behind a backslash at its line's end all blanks and newlines give nothing.
    body.text('prefix = """\\\n').times(size // 1000, ("         \n") * 100).text('ds"""\nrem_base = 0x')
    body.times(size // 1000, "0" * 1000).text("a\nreferences = false\n")
    tokens = '{"s":{"$type":"dimension","$value":{"value":4,"unit":"rem"}},"t":{"$value":"{s}"}}'
    lines = [(SWIFT, "  public static let ds_{}: CGFloat = 40.0\n", "Tokens.swift"), (CSS, "  --ds-{}: 4rem;\n", "tokens.css"),
             (JSON, None, "tokens.json"), (XML, '  <dimen name="ds_{}">40dp</dimen>\n', "tokens.xml")]
    records = Recipe()
    for (head, foot), line, name in lines:
        member = '  "{}": {{"$type": "dimension", "$value": {{"value": 4, "unit": "rem"}}}}'
        inside = line.format("s") + line.format("t") if line else member.format("s") + ",\n" + member.format("t") + "\n"
        records.add(file(f"default/{name}", text(head + inside + foot)))
    return built([("tokc.toml", body), ("tokens.json", text(tokens))], records)


def long_key(size):
    """A configuration whose only key has so many bytes. It is refused, and the key is told."""
    key = Recipe().times(size // 1000, "k" * 1000)
    body = Recipe().add(key).text(" = 1\n")
    told = text(f"rule config-key\nfile tokc.toml\nline 1 column 1\nbytes 0 {body.length}\nkey \"").add(key).text('"\n')
    return built([("tokc.toml", body)], file("REFUSED", told))


def generated():
    """The script that is generated of 7 and 4000: an independent compiler writes 16 files at each of its 21 commits. At the first it
    reads 6 files and evaluates 4,002 tokens in each of 4 permutations, and at each other one file and 10 tokens."""
    first, other = "commit 1 parsed 6 merged 4 evaluated 16008", f"commit {HOLE} parsed 1 merged 4 evaluated 40"
    written = " written 16 gone 0\n"
    return Recipe(), text("tokc-stats 1\n" + first + written).each(2, 21, other + written).text("done 21\n")


def cases():
    """The names, the status, the arguments, and the script with its stream."""
    yield "5,000 commits", 0, "replay", many_commits(5_000)
    yield "16,000 tokens", 0, "build", many_tokens(10_000, 25_999)
    yield "a text of 17,000,000 bytes and an object of 300,000 members", 0, "build", many_members(17_000_000, 300_000)
    yield "a family and a description of 17,000,000 bytes", 0, "build", long_texts(17_000_000)
    yield "20,000 files", 0, "build", many_files(20_000)
    yield "100,000 sets", 0, "build", many_sets(100_000)
    yield "60 sets that double", 0, "build", doubling_sets(60)
    yield "64 permutations of 200 files", 0, "build", many_permutations(188)
    yield "a configuration with parts of 3,000,000 bytes", 0, "build", long_configuration(3_000_000)
    yield "a configuration with a key of 3,000,000 bytes", 1, "build", long_key(3_000_000)
    yield "a generated script", 0, "gen 7 4000", generated()


def rows():
    """The rows of the table."""
    return [Row(status, words, name, written(script), written(stream)) for name, status, words, (script, stream) in cases()]
