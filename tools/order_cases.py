"""Files that break two rules at once, or come to the edge of two limits: which of them is told, and which is none.

Each file has a commit of its own.
"""
from script_cases import ONE, Case, file, of, plan, resolver, tokens

CASES = []

MOST_ON_BRANCH = 256
MOST_VISITS = 1024


def told(name, rule, *commits):
    """A case of files some of which break the rule, each with a commit."""
    CASES.append(Case(name, "replay", rule, list(commits)))


def members(**values):
    """The members of a group, in their order."""
    return ",".join(f'"{name}":{value}' for name, value in values.items())


def texts(*items):
    """A token that is a list of texts; where it names others, these have to be texts too."""
    return '{"$type":"fontFamily","$value":[%s]}' % ",".join(f'"{item}"' for item in items)


def named(letter, number):
    return f"{letter}{number:03}"


def chain(letter, count, last):
    """So many tokens of which each refers to the next, and the last one has a value of its own. Walking the first visits as many places."""
    links = {named(letter, number): '{"$value":"{%s}"}' % named(letter, number + 1) for number in range(count - 1)}
    return members(**links, **{named(letter, count - 1): '{"$type":"fontFamily","$value":%s}' % last})


def list_over(count, each, *others):
    """A list of so many references to a chain, each of which visits `each` places, its own place among them; and the chain."""
    return "{%s,%s}" % (members(a=texts(*["{d000}"] * count, *others)), chain("d", each - 1, '"x"'))


# A visit that breaks several limits tells the ring first, then the depth, then the number of visits, then the spelling. The list itself
# is a visit; the chains are as long as brings the last reference to the edge.

ROUND = MOST_ON_BRANCH
told("a ring behind 256 places", "alias-cycle", tokens("{%s}" % chain("n", ROUND, '"{n000}"')))
told("a wrong spelling behind 256 places", "alias-depth", tokens("{%s}" % chain("n", ROUND + 1, '"{.}"')))
told("a wrong spelling behind 255 places", "alias-syntax", tokens("{%s}" % chain("n", ROUND, '"{.}"')))
told(
    "256 places behind 1024 visits",
    "alias-depth",
    # 1 for the list, 4 * 192 for its first items, 1 for the last item and 254 in its chain make both limits.
    tokens("{%s,%s,%s}" % (members(a=texts(*["{d000}"] * 4, "{n000}")), chain("d", 191, '"x"'), chain("n", 300, '"x"'))),
)
# 1 + 7 * 146 = 1023 visits, the last item is one more, and the list itself would be the next.
told("a ring behind 1024 visits", "alias-cycle", tokens(list_over(7, 146, "{a}")))
# 1 + 11 * 93 = 1024 visits.
told("a wrong spelling behind 1024 visits", "alias-size", tokens(list_over(11, 93, "{.}")))
told("a wrong spelling behind 1023 visits", "alias-syntax", tokens(list_over(7, 146, "{.}")))
told("1024 visits", None, tokens(list_over(7, 146, "y")))
told("1025 visits", "alias-size", tokens(list_over(7, 146, "y", "z")))

# Members are walked as they are written, not by their names.
told(
    "members as written",
    "alias-target",
    of("border", '{"width":"{later}","style":"solid","color":"{sooner}"}'),
    of("border", '{"color":"{sooner}","width":"{later}","style":"solid"}'),
)

# A token may stand in its own value by steps; where the token that is named is an alias of it, its whole value is a ring.
told(
    "a part of an alias of the token itself",
    "alias-cycle",
    tokens('{"q":{"$type":"cubicBezier","$value":[0.1,0.2,0.3,{"$ref":"#/u/$value/0"}]},"u":{"$value":"{q}"}}'),
    tokens('{"q":{"$type":"cubicBezier","$value":[0.1,0.2,0.3,{"$ref":"#/q/$value/0"}]},"u":{"$value":"{q}"}}'),
    tokens('{"u":{"$type":"cubicBezier","$value":[0.1,0.2,0.3,{"$ref":"#/z/$value/0"}]},"z":{"$value":"{u}"}}'),
)

# The needs of a group are its child groups, then its target; a ring is told at the first of its groups whose target is the next one.
told(
    "a ring by a child before one by the target",
    "extends-cycle",
    tokens('{"g":{"$extends":"#/k","h":{"$extends":"#/g"}},"k":{"$extends":"#/g"}}'),
    tokens('{"g":{"$extends":"#/k"},"k":{"$extends":"#/g"}}'),
    tokens('{"g":{"$extends":"#/x","h":{"$extends":"#/g"}},"x":{}}'),
    tokens('{"g":{"$extends":"#/x","h":{"$extends":"#/x","i":{"$extends":"#/g"}}},"x":{}}'),
)

# Members that are replaced are counted too: each group has eight tokens and takes over those of the one before, under the same names.


def replacing(count):
    """So many groups, which count 1 + 8, 1 + 16, 1 + 24, .. members."""
    own = members(**{letter: '{"$type":"number","$value":1}' for letter in "abcdefgh"})
    first = '"g00":{%s}' % own
    return ",".join([first, *('"g%02d":{"$extends":"#/g%02d",%s}' % (number, number - 1, own) for number in range(1, count))])


def rising(count):
    """So many groups, each higher than the one before."""
    first = '"h00":{"t":{"$type":"number","$value":1}}'
    return ",".join([first, *('"h%02d":{"a":{"$extends":"#/h%02d"}}' % (number, number - 1) for number in range(1, count))])


told("replaced members", "extends-count", tokens("{%s}" % replacing(63)), tokens("{%s}" % replacing(64)))
told("the count before the height", "extends-count", tokens("{%s,%s}" % (replacing(64), rising(65))))
told("the height beside a count within its bound", "extends-height", tokens("{%s,%s}" % (replacing(30), rising(65))))

# The parts of a value in the order of the tables, whatever stands first in the text.

COLOR = '{"colorSpace":"%s","components":[%s],"alpha":%s}'
told(
    "components before alpha",
    "color-range",
    of("color", COLOR % ("srgb", "2,0,0", "2")),
    of("color", '{"alpha":2,"components":[0,0,2],"colorSpace":"srgb"}'),
)
told("alpha behind good components", "color-alpha", of("color", COLOR % ("srgb", "0,0,1", "2")))
told(
    "a broken part before a missing one",
    "color-space",
    of("border", '{"color":%s,"style":"solid"}' % COLOR % ("hsb", "0,0,0", "1")),
    of("shadow", '{"color":%s,"offsetX":%s}' % (COLOR % ("hsb", "0,0,0", "1"), ONE)),
)
told(
    "a missing part before a broken one",
    "value-shape",
    of("border", '{"color":%s,"style":"wavy"}' % COLOR % ("srgb", "0,0,0", "1")),
    of("typography", '{"fontFamily":"x","fontSize":%s,"fontWeight":400,"lineHeight":"x"}' % ONE),
)


def beyond(space):
    """A commit for each component of a space whose components are 0 to 1: one below, and one above."""
    ends = [["0"] * 3 for _ in range(6)]
    for place, components in enumerate(ends):
        components[place // 2] = ("-0.0001", "1.0001")[place % 2]
    return [of("color", COLOR % (space, ",".join(components), "1")) for components in ends]


for space in ("srgb", "srgb-linear", "display-p3", "a98-rgb", "prophoto-rgb", "rec2020"):
    told(f"components of {space}", "color-range", *beyond(space))

# Plans: the break that starts first, and the greatest number of sources whatever the context.

UNKNOWN = '{"$ref":"#/sets/none"}'
NAMED = '{"type":"set","name":"%s","sources":[]}'
told(
    "a name told before a reference behind it",
    "plan-duplicate",
    plan(",".join([NAMED % "a", NAMED % "a", UNKNOWN])),
    plan(",".join([NAMED % "a", NAMED % "a", '{"type":"set","name":"b","sources":[{"$ref":"/x"}]}'])),
)
told("a reference told before a name behind it", "plan-reference", plan(",".join([NAMED % "a", UNKNOWN, NAMED % "a"])))

DOUBLED = ",".join(['"s00":{"sources":[%s]}' % file("x.json"), *(
    '"s%02d":{"sources":[{"$ref":"#/sets/s%02d"},{"$ref":"#/sets/s%02d"}]}' % (number, number - 1, number - 1) for number in range(1, 12)
)])


def last_context(level):
    """A modifier whose last context has 2^level sources and one more, and whose first has one."""
    contexts = '{"a":[%s],"b":[{"$ref":"#/sets/s%02d"},%s]}' % (file("x.json"), level, file("x.json"))
    order = '{"type":"modifier","name":"m","contexts":%s}' % contexts
    return {"resolver.json": resolver(order, sets="{%s}" % DOUBLED), "x.json": '{"t":{"$type":"number","$value":1}}'}


told("too many sources in the last context", "plan-sources", last_context(10), last_context(9))

# Characters from U+0080 to U+009F are none that CSS or Android would lose.
told("control characters behind U+007F", None, of("fontFamily", '["\\u0080","a\\u0085b","\\u009f","\\u00a0"]'), of("fontFamily", '"\\u007f"'))
