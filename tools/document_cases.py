"""Small scripts by hand of resolver documents: where they break a rule, which sources a permutation has and in which order, how
permutations are named, how many there may be, and what comes of the files that sources name.

A case is what tools/script_cases.py says it is. Most have many documents: each stands for one commit, and the next one takes its place.
"""
import re

from script_cases import Case, file, number_tokens, of_set, plan, resolver

CASES = []


def shows(name, *commits):
    """A case of files that break no rule at the end."""
    CASES.append(Case(name, "build" if len(commits) == 1 else "replay", None, list(commits)))


def breaks(rule, name, *commits):
    """A case of files that break a rule."""
    CASES.append(Case(f"{rule}: {name}", "build" if len(commits) == 1 else "replay", rule, list(commits)))


def one_by_one(documents):
    """Commits of one document after another."""
    return [{"resolver.json": it} for it in documents]


def modifier(name, contexts, more=""):
    """An item that is a modifier, given its contexts, and its further members, as texts."""
    return '{"type":"modifier","name":"%s","contexts":{%s}%s}' % (name, contexts, more)


def one_set(*sources):
    """The sets of a document that has the one set a."""
    return '{"a":{"sources":[%s]}}' % ",".join(sources)


def one_modifier(members):
    """The modifiers of a document that has the one modifier m."""
    return '{"m":{%s}}' % members


def links(**sets):
    """Sets by the sources or the names of sets that they name, which have one letter each."""
    return "{%s}" % ",".join(
        '"%s":{"sources":[%s]}' % (name, ",".join(file("#/sets/" + it if it in sets else it) for it in named)) for name, named in sets.items()
    )


# Forms that are not met. Equal places do not follow one another: then there would be nothing to write.

EMPTY_A = one_set()

breaks("json-syntax", "documents", *one_by_one(("", "[1,]")))
breaks("json-duplicate", "a document", {"resolver.json": '{"a":1,"a":2}'})
breaks("json-depth", "a document", {"resolver.json": "[" * 65 + "]" * 65})
breaks("plan-version", "documents", *one_by_one((
    '{"version":"1","resolutionOrder":[]}',
    '"x"',
    '{"version":2025.10,"resolutionOrder":[]}',
    '{"resolutionOrder":[],"x":1}',
    '{"version":"1","name":1,"resolutionOrder":[]}',
)))
breaks("plan-shape", "the document and its members", *one_by_one((
    '{"version":"1"}',
    '{"version":"2025.10","resolutionOrder":{}}',
    '{"version":"2025.10","resolutionOrder":null}',
    '{"name":1,"version":"1","resolutionOrder":[]}',
    resolver("", description="[]"),
    resolver("", name="1", sets=one_set(file("?"))),
)))
breaks("plan-shape", "sets", *one_by_one(resolver("", sets=it) for it in (
    '{"a":1}',
    '{"a":{}}',
    '{"a":{"sources":{}}}',
    one_set("1"),
    one_set('{"$ref":1}'),
    one_set('{"$ref":"x.json","y":1}'),
    one_set('{"y":1,"$ref":2}'),
    '{"a":{"sources":[]},"b":{"sources":[[]]},"c":7}',
)))
breaks("plan-shape", "modifiers", *one_by_one(resolver("", modifiers=it) for it in (
    "[]",
    '{"m":[]}',
    '{"m":{"contexts":[]}}',
    '{"m":{"contexts":{"a":{}}}}',
    '{"m":{"contexts":{"a":[],"b":[3]}}}',
    '{"m":{"contexts":{"a":[]},"default":1}}',
    '{"m":{"contexts":[],"default":"x"}}',
    '{"m":{"default":"x"}}',
)))
breaks("plan-shape", "items", *one_by_one(map(resolver, (
    "{}",
    '{"$ref":"#/sets/a","type":"set"}',
    '{"$ref":[]}',
    '{"type":1,"name":2}',
    '{"name":1,"type":"x"}',
    '{"type":"set"}',
    '{"type":"set","name":1,"sources":[]}',
    '{"type":"set","name":"a","sources":[false]}',
    '{"type":"modifier","name":"a"}',
    '{"sources":7,"type":"set","name":null}',
    '{"type":"Set","name":"a","sources":[]}',
))))
breaks("plan-contexts", "modifiers", *one_by_one((
    resolver("", modifiers='{"m":{"contexts":{}}}'),
    resolver("", modifiers='{"m":{"contexts":{"$a":[]}}}'),
    resolver(modifier("a", "")),
)))
breaks("plan-default", "modifiers", *one_by_one((
    resolver("", modifiers='{"m":{"contexts":{"a":[]},"default":"b"}}'),
    resolver("", modifiers='{"m":{"default":"x","contexts":[]}}'),
    resolver(modifier("a", '"x":[]', ',"default":"y"')),
)))

# Forms that are met. Most of these documents have no sources, and then nothing is written after the first.

shows("documents that break no rule", *one_by_one((
    r'{"version":"2025\u002e10","resolutionOrder":[]}',
    resolver("", name='"n"', description='"d"'),
    resolver("", sets="{}"),
    resolver("", sets=EMPTY_A),
    resolver("", sets='{"$a":1,"b":{"sources":[]}}'),
    resolver(file("#/sets/a"), sets='{"a":{"sources":[]},"$b":{"sources":1}}'),
    resolver("", sets=one_set("{}")),
    resolver("", sets=one_set(file("x.json"))),
    resolver("", sets=one_set('{"$y":1,"$ref":"x.json"}')),
    resolver("", sets=one_set('{"y":{"$ref":1,"z":2}}')),
    resolver("", sets='{"a":{"sources":[],"$ref":1}}'),
    resolver("", modifiers=one_modifier('"contexts":{"a":[]}')),
    resolver("", modifiers=one_modifier('"contexts":{"a":[]},"default":"a"')),
    resolver("", modifiers=one_modifier(r'"default":"\u0061","contexts":{"a":[]}')),
    resolver("", modifiers='{"$m":1}'),
    resolver("", modifiers=one_modifier('"contexts":{"x":[{"$ref":"x.json"},{"t":{"$value":1}}]}')),
    resolver('{"type":"set","name":"a","sources":[]}'),
    resolver('{"type":"set","name":"a","sources":[],"contexts":3}'),
    resolver(modifier("a", '"x":[]', ',"default":"x"')),
    resolver(file("#/modifiers/n") + "," + file("#/sets/m"), sets='{"m":{"sources":[]}}', modifiers='{"n":{"contexts":{"c":[]}}}'),
)))

# What references name.

breaks("plan-reference", "sources that are no files", *one_by_one(resolver("", sets=one_set(file(it))) for it in (
    "#/sets/b",
    "#/modifiers",
    "",
    "#",
    "..",
    ".",
    "./",
    "././",
    "../a.json",
    "/a.json",
    "a//b",
    "a/./b",
    "a b",
    "a/",
    ".//a",
    "a" * 201,
    "http://x/y",
    "a.json#/b",
)))


def named_by(first, second, spelled, sources=""):
    """Two sets, of which the second one names a set."""
    return '{"%s":{"sources":[%s]},"%s":{"sources":[%s]}}' % (first, sources, second, file("#/sets/" + spelled))


breaks("plan-reference", "names of sets that are spelled in another way", *one_by_one(resolver("", sets=named_by(*it)) for it in (
    ("a~b", "c", "a~b"),
    ("a/b", "c", "a%2fb"),
    ("a/b", "c", "a/b"),
    ("a~1b", "c", "a~1b"),
    ("$a", "b", "$a"),
)))
breaks("plan-reference", "items", *one_by_one((
    resolver(file("#/sets/a")),
    resolver(file("a.json"), sets=EMPTY_A),
    resolver(file("#/sets/b") + "," + file("#/sets/b"), sets=EMPTY_A),
    resolver('{"type":"set","name":"a","sources":[%s]}' % file("?")),
    resolver(file("#/sets/b") + ',{"type":"set","name":"b","sources":[]}', sets=EMPTY_A),
    resolver("", modifiers=one_modifier('"contexts":{"x":[%s]}' % file("#/sets/q"))),
    resolver(modifier("m", '"x":[%s]' % file("?"))),
    '{"version":"2025.10","resolutionOrder":[{"type":"set","name":"a","sources":[{"$ref":"?"}]},{"$ref":"#/sets/a"}],"sets":%s}' % (
        one_set(file("!"))
    ),
    resolver('{"type":"set","name":"a","sources":[%s]}' % file("#/sets/b")),
)))
breaks("plan-reference", "before a ring", *one_by_one((
    resolver("", sets=one_set(file("#/sets/a"), file("?"))),
    resolver(file("#/sets/b"), sets=one_set(file("#/sets/a"))),
)))
breaks("plan-modifier-in-set", "sources", *one_by_one((
    resolver("", sets=one_set(file("#/modifiers/b"))),
    resolver("", sets=one_set(file("#/modifiers/"))),
    resolver("", sets=one_set(file("#/modifiers/m")), modifiers='{"m":{"contexts":{"x":[]}}}'),
    resolver("", modifiers=one_modifier('"contexts":{"x":[%s]}' % file("#/modifiers/q"))),
)))
SET_A = '{"type":"set","name":"a","sources":[]}'
breaks("plan-duplicate", "items", *one_by_one((
    resolver(file("#/sets/a") + "," + file("#/sets/a"), sets=EMPTY_A),
    resolver(file("#/sets/a") + "," + SET_A, sets=EMPTY_A),
    resolver(file("#/sets/a") + "," + file("#/modifiers/a"), sets=EMPTY_A, modifiers='{"a":{"contexts":{"x":[]}}}'),
    resolver(SET_A + ',{"type":"set","name":"b","sources":[]},' + SET_A),
    resolver(modifier("m", '"x":[]') + "," + modifier("m", '"y":[]')),
    resolver(SET_A + "," + file("#/sets/a"), sets=EMPTY_A),
)))
breaks("plan-cycle", "sets", *one_by_one((
    resolver("", sets=links(a="a")),
    resolver("", sets=links(a="b", b="a")),
    resolver("", sets=links(a="xbb", b="c", c="yba")),
    resolver(file("#/sets/a"), sets=links(a="", b="c", c="b")),
    resolver("", sets=links(c="b", b="c")),
    resolver("", sets=links(a="bc", b="d", c="a", d="")),
    resolver("", sets=links(a="bc", b="d", c="a", d="b")),
    resolver("", sets=links(a="b", b="bb")),
    resolver("", sets='{"a/b":{"sources":[{"$ref":"#/sets/a~1b"}]}}'),
)))


def long_ring(count):
    """Sets of which each names the next one, and the last the first."""
    return "{%s}" % ",".join('"s%d":{"sources":[{"$ref":"#/sets/s%d"}]}' % (i, (i + 1) % count) for i in range(count))


breaks("plan-cycle", "a cycle of six hundred sets", plan("", sets=long_ring(600)))

# The sources of permutations. `<1>`, `<2>` .. stand in a document for tokens in place.

HELD = '{"$value":0}'


def placed(document, given):
    """The document with the tokens that are given, and at the other places a root that can't be one."""
    return re.sub("<([0-9])>", lambda found: given.get(int(found[1]), HELD), document)


def tokens_of(number, count):
    """The tokens of a source: one of its own, and one for it and each other source, whose value tells which of the two stands later."""
    pairs = [f"s{min(number, other)}s{max(number, other)}" for other in range(1, count + 1) if other != number]
    return number_tokens(**{name: str(number) for name in [f"s{number}", *pairs]})


def walk(document, *sources):
    """The commits that give the sources of a document one after another: files by their names, and tokens in place by their numbers.
    Until then each permutation tells the place of its first source that is not given; at the end the tokens tell what stands where."""
    commits, given = [{"resolver.json": placed(document, {})}], {}
    for number, source in enumerate(sources, 1):
        text = tokens_of(number, len(sources))
        if isinstance(source, int):
            given[source] = text
        commits.append({"resolver.json": placed(document, given)} if isinstance(source, int) else {source: text})
    return commits


def walks(name, *rows):
    """A case of documents with their sources. The files of one are taken away as the next one comes."""
    commits, old = [], {}
    for document, *sources in rows:
        first, *others = walk(document, *sources)
        commits += [{**old, **first}, *others]
        old = {it: None for it in sources if not isinstance(it, int)}
    shows(name, *commits)


def escaped(name, spelled):
    """A document of a set that names another one, with a modifier that has a context for the sources of each."""
    contexts = '"c1":[%s],"c2":[%s]' % (file("#/sets/" + spelled), file("#/sets/c"))
    return resolver(modifier("m", contexts), sets=named_by(name, "c", spelled, file("x")))


LIGHT_OR_DARK = '{"contexts":{"light":[{"$ref":"light.json"}],"dark":[{"$ref":"dark.json"}]},"default":"light"}'
COZY_OR_COMPACT = '{"contexts":{"cozy":[{"$ref":"cozy.json"}],"compact":[{"$ref":"compact.json"}]}}'

walks(
    "themes and densities, file by file",
    (
        resolver(
            '{"$ref":"#/sets/core"},{"$ref":"#/modifiers/theme"},{"$ref":"#/modifiers/density"}',
            sets='{"core":{"sources":[{"$ref":"core.json"}]}}',
            modifiers='{"theme":%s,"density":%s}' % (LIGHT_OR_DARK, COZY_OR_COMPACT),
        ),
        "core.json",
        "light.json",
        "dark.json",
        "cozy.json",
        "compact.json",
    ),
)
walks(
    "files and tokens in place",
    (resolver(file("#/sets/a"), sets=one_set(file("a.json"), "<1>", file("b/c.json"))), "a.json", 1, "b/c.json"),
    (resolver(of_set(file("a.json"), file("./x.json"))), "a.json", "x.json"),
    (
        resolver('{"type":"set","name":"a","sources":[<1>,<2>,{"$ref":"b.json"}]},{"type":"set","name":"b","sources":[{"$ref":"a.json"}]}'),
        1,
        2,
        "b.json",
        "a.json",
    ),
    (resolver('{"type":"set","name":"a","sources":[{"$ref":"a.json"},<1>]}'), "a.json", 1),
    (resolver(of_set(file("a.json"), "<1>")), "a.json", 1),
)
walks(
    "names of files with dots",
    (resolver(file("#/sets/a"), sets=one_set(file("./a.json"))), "a.json"),
    (resolver(file("#/sets/a"), sets=one_set(file("././a.json"))), "a.json"),
    (resolver(file("#/sets/a"), sets=one_set(file("./././x/y.json"))), "x/y.json"),
    (resolver(file("#/sets/a"), sets=one_set(file(".a.json"), file("..a"), file("a..b"))), ".a.json", "..a", "a..b"),
    (resolver(file("#/sets/a"), sets=one_set(file("a" * 200))), "a" * 200),
)
walks(
    "sets that name sets",
    (resolver(file("#/sets/a"), sets='{"a":{"sources":[{"$ref":"#/sets/b"}]},"b":{"sources":[{"$ref":"b.json"}]}}'), "b.json"),
    (resolver(file("#/sets/b") + "," + file("#/sets/a"), sets=links(a="bbx", b="")), "x"),
    (
        resolver('{"type":"set","name":"b","sources":[{"$ref":"#/sets/a"}]},{"$ref":"#/sets/a"}', sets=one_set(file("a.json"))),
        "a.json",
    ),
    (
        resolver(
            file("#/sets/a"),
            sets='{"a":{"sources":[{"$ref":"#/sets/b"},{"$ref":"a"}]},"b":{"sources":[{"$ref":"b"}]}}',
        ),
        "b",
        "a",
    ),
    (
        resolver(
            file("#/sets/b") + "," + file("#/sets/a"),
            sets='{"a":{"sources":[{"$ref":"a"},{"$ref":"#/sets/b"},<1>,{"$ref":"#/sets/b"}]},"b":{"sources":[{"$ref":"b"},<2>]}}',
        ),
        "b",
        2,
        "a",
        1,
    ),
    (
        resolver(
            file("#/sets/a") + ',{"type":"set","name":"z","sources":[{"$ref":"#/sets/c"},{"$ref":"z"},{"$ref":"#/sets/a"}]}',
            sets=links(a="bb", b="cc", c=""),
        ),
        "z",
    ),
    (
        resolver(
            file("#/sets/a"),
            sets='{"a":{"sources":[%s]},"b":{"sources":[%s]},"c":{"sources":[{"$ref":"c"}]}}' % (
                ",".join([file("#/sets/b")] * 2),
                ",".join([file("#/sets/c")] * 2),
            ),
        ),
        "c",
    ),
    (resolver(file("#/sets/e") + "," + file("#/sets/a"), sets=links(e="", a="ebe", b="xey")), "x", "y"),
)
walks(
    "names of sets with escapes",
    (escaped("a/b", "a~1b"), "x"),
    (escaped("a~b", "a~0b"), "x"),
    (escaped("a~1b", "a~01b"), "x"),
    (escaped("%2f", "%2f"), "x"),
    (escaped("", ""), "x"),
    (resolver(file(r"#/sets/\u0061"), sets=one_set(file(r"\u0061.json"))), "a.json"),
    (resolver(file("#/sets/größe"), sets='{"größe":{"sources":[{"$ref":"x"}]}}'), "x"),
)
walks(
    "contexts of modifiers",
    (resolver(file("#/modifiers/m"), modifiers='{"m":{"contexts":{"x":[{"$ref":"x.json"}],"y":[]},"default":"y"}}'), "x.json"),
    (resolver(file("#/modifiers/m"), modifiers='{"m":{"contexts":{"x":[{"$ref":"x.json"}],"$y":1}}}'), "x.json"),
    (resolver(modifier("m", '"p":[{"$ref":"p.json"}],"q":[{"$ref":"./q.json"}]', ',"default":"p"')), "p.json", "q.json"),
    (resolver(modifier("m", '"a":[],"b":[{"$ref":"b"}]')), "b"),
    (resolver(modifier("m", '"a":[],"b":[<1>]')), 1),
    (
        resolver(
            modifier("n", '"c":[{"$ref":"3"}],"d":[{"$ref":"4"}]', ',"default":"d"') + "," + file("#/modifiers/m"),
            modifiers='{"m":{"contexts":{"a":[{"$ref":"1"}],"b":[{"$ref":"2"}]},"default":"b"}}',
        ),
        "3",
        "4",
        "1",
        "2",
    ),
)
CHAIN = links(a="b", b="c", c="x")
walks(
    "contexts and sets",
    (resolver(modifier("m", '"p":[{"$ref":"#/sets/a"}]'), sets=CHAIN), "x"),
    (resolver(modifier("m", '"k":[{"$ref":"#/sets/a"},{"$ref":"#/sets/a"}],"l":[{"$ref":"#/sets/b"}]'), sets=CHAIN), "x"),
    (resolver(modifier("one", '"a":[<1>]') + ',{"type":"set","name":"s","sources":[{"$ref":"s"}]},' + modifier("two", '"b":[<2>]')), 1, "s", 2),
    (
        resolver(
            file("#/modifiers/m") + "," + file("#/sets/s"),
            sets='{"s":{"sources":[{"$ref":"s"}]}}',
            modifiers='{"m":{"contexts":{"$no":1,"a":[{"$ref":"#/sets/s"},<1>],"b":[<2>,{"$ref":"#/sets/s"}]}}}',
        ),
        "s",
        1,
        2,
    ),
)
walks(
    "members of documents that are passed over",
    (resolver('{"$ref":"#/sets/a","$y":{}}', sets=one_set('{"$ref":"a.json","$x":1}')), "a.json"),
    (resolver(file("#/sets/x"), sets='{"x":{"sources":[{"$ref":"x"}]}}', modifiers="{}"), "x"),
    (
        resolver('{"type":"set","name":"s","sources":[{"$ref":"s"}]}', modifiers='{"unused":{"contexts":{"a":[],"b":[]}}}'),
        "s",
    ),
)
shows("names of permutations", *one_by_one(map(resolver, (
    '{"type":"set","name":"a","sources":[]}',
    modifier("m", '"b":[],"a":[],"c":[]') + "," + modifier("n", '"y":[],"x":[]'),
    modifier("", '"":[]'),
    modifier("Az_9-", '"a b":[],"a+b":[],"a=b":[]'),
    modifier("100%", r'"/~.":[],"\u0000\u007f":[],"{}":[]'),
    modifier("größe", r'"é":[],"\ud83d\ude00":[],"@`[^":[]'),
    modifier("m", '"a%2Bb":[],"a+b":[],"%":[]'),
))))

# How many permutations and sources there may be.


def many_modifiers(count, contexts):
    """An order of so many modifiers of so many contexts each."""
    return ",".join(modifier(f"m{i}", ",".join(f'"c{context}":[]' for context in range(contexts))) for i in range(count))


def many_sets(count, times, last):
    """Sets of which each names the next one so many times, and the last has so many sources."""
    named = [",".join([file(f"#/sets/s{i + 1}")] * times) for i in range(count - 1)]
    return "{%s}" % ",".join('"s%d":{"sources":[%s]}' % it for it in enumerate([*named, ",".join(["{}"] * last)]))


shows("sixty-four permutations of six modifiers", plan(many_modifiers(6, 2)))
shows("sixty-four permutations of one modifier", plan(many_modifiers(1, 64)))
shows("sixty modifiers of one context", plan(many_modifiers(60, 1)))
shows("one set of a thousand and twenty-four sources", plan(of_set(*["{}"] * 1_024)))
shows("sixty-one sets that double nothing", plan(file("#/sets/s0"), sets=many_sets(61, 2, 0)))
breaks("plan-permutations", "twice as many, and more", *one_by_one((
    resolver(many_modifiers(7, 2)),
    resolver(",".join(modifier(i, '"a":[],"b":[]') for i in range(7))),
    resolver(many_modifiers(19, 2)),
)))
breaks("plan-sources", "one too many, and more", *one_by_one((
    resolver(of_set(*["{}"] * 1_025)),
    resolver(file("#/sets/s0"), sets=many_sets(20, 2, 1)),
    resolver(file("#/sets/s0"), sets=many_sets(61, 2, 1)),
)))

# What comes of the files that sources name.

SMALL = {
    "a.json": number_tokens(x="1", y="2"),
    "b.json": number_tokens(y="3", z="4"),
    "c.json": '{"x":}',
    "d.json": '{"x":3}',
    "e.json": '{"g":{"$extends":"{h}"}}',
}


def laid(first, second):
    """A document of two sources."""
    return plan(of_set(file(first), file(second)))


shows("two files, and one file twice", {**SMALL, **laid("a.json", "b.json")}, laid("a.json", "a.json"), laid("b.json", "a.json"))
for rule, second_of in (
    ("extends-target", ("a.json", "e.json")),
    ("file-missing", ("a.json", "q.json")),
    ("json-syntax", ("c.json", "q.json")),
    ("shape-member", ("d.json", "c.json")),
):
    breaks(rule, "the first of two files that breaks a rule", {**SMALL, **laid(*second_of)})
shows(
    "files that are put and taken away",
    {"b.json": "{}", "a.json": "[]", "tokens.json": number_tokens(x="1")},
    {"a.json": None},
    laid("b.json", "tokens.json"),
    {"a.json": number_tokens(x="2"), **laid("tokens.json", "a.json")},
    {"a.json": None, "b.json": number_tokens(x="3"), **laid("tokens.json", "b.json")},
)
