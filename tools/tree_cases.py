"""Scripts by hand for trees: sources over one another, groups that extend others, and references between tokens.

A tree is the texts of its sources, of which a later one lies over an earlier one. Many trees stand in one script, each as a permutation
of its own or with a commit of its own. Of a tree that is refused only the first break is told; so that the others are told too, it stands
there once more for each, with the token's name in capitals, which come first in path order.
"""
from script_cases import BLACK, ONE, PX, Case, file, of_set, plan, tokens

CASES = []


def permutations(trees):
    """Files of which each tree is a permutation, named by its number."""
    files, contexts = {}, []
    for number, sources in enumerate(trees):
        names = [f"{number}-{place}.json" for place in range(len(sources))]
        files.update(zip(names, sources))
        contexts.append(f'"{number}":[{",".join(map(file, names))}]')
    return {**plan('{"type":"modifier","name":"tree","contexts":{%s}}' % ",".join(contexts)), **files}


def side_by_side(name, rule, trees):
    """A case in which each tree is a permutation."""
    CASES.append(Case(name, "build", rule, [permutations(trees)]))


def one_by_one(name, rule, commits):
    """A case in which each set of files has a commit."""
    CASES.append(Case(name, "replay", rule, list(commits)))


# Sources over one another: the later one, and the earlier one. Where neither has a type, a source before them gives one.

NUMBERS = '{"$type":"number"}'
TYPELESS = [
    ('{}', '{"a":{"$value":1}}'),
    ('{"a":{"$value":1}}', '{}'),
    ('{"a":{"$value":1}}', '{"a":{"$value":2},"b":{"$value":3}}'),
    ('{"a":{"$value":1}}', '{"a":{"b":{"$value":2}}}'),
    ('{"a":{"b":{"$value":2}}}', '{"a":{"$value":1}}'),
    (
        '{"a":{"b":{"c":{"$value":1}},"d":{"$value":2}}}',
        '{"a":{"b":{"c":{"$value":3},"e":{"$value":4}},"$root":{"$value":5}},"z":{"$value":6}}',
    ),
    ('{"m":{"$value":1},"k":{"$value":2}}', '{"l":{"$value":3},"n":{"$value":4},"k":{"g":{"$value":5}}}'),
    # A name at which members meet in each way. The last group stands only where the empty one that it extends is there.
    (
        '{"a":{"$value":1},"b":{"x":{"$value":2},"y":{"$value":3}},"c":{"$value":4},"d":{"y":{"$value":5}},'
        '"g":{"z":{"$value":6}},"h":{"$extends":"{b}"},"i":{},"k":{"$extends":"{i.s}"}}',
        '{"a":{"$value":7},"b":{"w":{"$value":8},"x":{"$value":9}},"c":{"v":{"$value":10}},"d":{"$value":11},"e":{"$value":12},'
        '"f":{"u":{"$value":13}},"h":{"$extends":"{f}","t":{"$value":14}},"i":{"$extends":"{f}","s":{}}}',
    ),
]
TYPED = [
    (
        '{"a":{"$type":"fontWeight","$deprecated":false,"b":{"$value":1}},"$type":"number"}',
        '{"a":{"$type":"border","$deprecated":true,"c":{"$value":2}},"$deprecated":"x","d":{"$value":3}}',
    ),
    (
        '{"a":{"b":{"$value":1}}}',
        '{"a":{"$type":"fontWeight","c":{"d":{"$value":2}}},"$type":"number","$deprecated":"old"}',
    ),
]

side_by_side(
    "one source over another",
    None,
    [(NUMBERS, earlier, later) for later, earlier in TYPELESS] + [(earlier, later) for later, earlier in TYPED],
)

# Groups that extend others.

side_by_side(
    "groups with what they inherit",
    None,
    [
        (
            '{"base":{"$type":"number","$deprecated":true,"$root":{"$value":1},"in":{"x":{"$value":2},'
            '"y":{"$deprecated":false,"$value":3}}},"mid":{"$extends":"{base}","in":{"x":{"$value":5}}},"top":{"$extends":"#/mid"}}',
        ),
        (
            '{"a":{"g":{"x":{"$value":1},"y":{"$value":2}},"$type":"number"},'
            '"b":{"$extends":"{a}","g":{"y":{"$value":3}},"$deprecated":true}}',
        ),
        (NUMBERS, '{"a":{"$extends":"{b}","t":{"u":{"$value":1}}},"b":{"t":{"$value":2},"s":{"$value":3}}}'),
        (NUMBERS, '{"a":{"$extends":"{b}"},"b":{"t":{"$value":1}}}'),
    ],
)
one_by_one(
    "targets that are no groups",
    "extends-target",
    map(
        tokens,
        (
            '{"a":{"$extends":"{b}"}}',
            '{"b":{"$extends":"{x}"},"a":{"c":{"$extends":"{y.z}"}}}',
            '{"a":{"$extends":"{t}"},"t":{"$value":1}}',
            '{"a":{"b":{"$extends":"{a}"}},"c":{"$extends":"{x}"}}',
        ),
    ),
)
one_by_one(
    "groups in rings",
    "extends-cycle",
    map(
        tokens,
        (
            '{"a":{"$extends":"#"}}',
            '{"a":{"$extends":"{a.b}","b":{"$extends":"{a}"}}}',
            '{"a":{"$extends":"{b}"},"b":{"$extends":"{c}"},"c":{"$extends":"{b}"}}',
            '{"a":{"$extends":"{c.d}"},"c":{"d":{"$extends":"{c.e}"},"e":{"$extends":"{a}"}}}',
        ),
    ),
)


def levels(many, names):
    """Groups of which each has child groups of these names that extend the group before."""
    members = ['"g":{}']
    for level in range(1, many + 1):
        target = "g" * level
        members.append('"%sg":{%s}' % (target, ",".join('"%s":{"$extends":"{%s}"}' % (name, target) for name in names)))
    return "{%s}" % ",".join(members)


one_by_one("as many members as there may be, and more", "extends-count", (tokens(levels(many, "ab")) for many in (12, 13, 19)))
one_by_one("as many levels as there may be, and one more", "extends-height", (tokens(levels(many, "a")) for many in (63, 64)))


def equals(groups, members):
    """A group with so many empty ones, and groups that extend it, as many as are told."""
    empty = ",".join(f'"{i}":{{}}' for i in range(members))
    return '{"g":{%s},%s}' % (empty, ",".join(f'"g{i}":{{"$extends":"{{g}}"}}' for i in range(groups)))


one_by_one(
    "16,384 members, and one more",
    "extends-count",
    (tokens(equals(127, 127)), tokens(equals(127, 127)[:-1] + ',"h":{}}')),
)

DIGITS = "0123456789abcdefghijklmnopqrstuvwxyz"
CHAIN = 1_500


def digits(number):
    """Three characters for a number below 46,656, in the order of the numbers."""
    return DIGITS[number // 1_296] + DIGITS[number // 36 % 36] + DIGITS[number % 36]


def links(first, last):
    """Groups each of which extends the next, and the last of which extends none."""
    members = ['"%s":{"$extends":"{%s}"}' % (digits(i), digits(i + 1)) for i in range(first, last)]
    return "{%s}" % ",".join([*members, '"%s":{}' % digits(last)])


one_by_one("a long chain of groups", None, ({**plan(of_set(file("chain.json"))), "chain.json": links(0, CHAIN)},))

# References that break no rule. A dimension passes over the members that its form doesn't name, so it may hold what others refer to.


def holder(members):
    return '{"$type":"dimension","$value":{"value":1,"unit":"px",%s}}' % members


BORDER = '"color":%s,"width":%s,"style":"solid"' % (BLACK, ONE)
MEANINGS = [
    '{"a":{"$value":"{b}"},"b":{"$value":"{c}"},"c":{"$type":"dimension","$value":%s}}' % (PX % 4),
    '{"s":{"$type":"shadow","$value":{"offsetX":%s,"offsetY":{"$ref":"#/s/$value/offsetX"},"blur":{"$ref":"#/s/$value/offsetY"},'
    '"spread":%s,"color":%s}}}' % (PX % 2, ONE, BLACK),
    '{"$type":"fontFamily","a":{"$value":"{b"},"b":{"$value":"b}"},"c":{"$value":"{"},"d":{"$value":"}"}}',
    '{"g":{"$root":{"$type":"number","$value":1},"a":{"$value":"{g.$root}"},"b":{"$value":{"$ref":"#/g/$root"}},'
    '"c":{"$ref":"#/g/$root/$value"}}}',
    '{"$root":{"$type":"number","$value":1},"a":{"$value":"{$root}"},"b":{"$ref":"#/$root"}}',
    '{"a":{"$type":"number","$value":{"$ref":"#/b/$value/y"}},"b":%s}' % holder('"y":5'),
    '{"a":{"$type":"number","$value":{"$ref":"#/b/$value/0"}},"b":{"$type":"cubicBezier","$value":[0.25,8,0.75,9]},'
    '"c":{"$type":"number","$value":{"$ref":"#/b/$value/2"}}}',
    '{"a":{"$ref":"#/b"},"b":{"$ref":"#/c"},"c":{"$type":"number","$value":1}}',
    '{"a":{"$type":"number","$value":{"$ref":"#/b/$value/y"}},"b":{"$type":"dimension","$ref":"#/c/$value/x"},"c":%s,'
    '"d":{"$type":"number","$ref":"#/b/$value/y"}}' % holder('"x":{"value":2,"unit":"rem","y":5}'),
    '{"x/y":{"$type":"number","$value":1},"~":{"$type":"number","$value":2},"a":{"$ref":"#/x~1y"},"b":{"$ref":"#/~0"},'
    '"e":{"$value":"{x/y}"}}',
    '{"a":%s,"b":{"$type":"number","$ref":"#/a/$value/m~1n"},"c":{"$type":"number","$ref":"#/a/$value/o~0p"}}'
    % holder('"m/n":7,"o~p":8'),
    '{"g":{"$type":"color","a":{"$value":"{h.c}"},"b":{"$type":"fontWeight","$value":"{h.c}"}},'
    '"h":{"c":{"$type":"number","$value":3}}}',
    '{"g":{"$type":"color","a":{"$value":"{h.c}"}},"h":{"$type":"number","c":{"$value":3}}}',
    '{"g":{"$type":"fontWeight","a":{"$value":{"$ref":"#/h/c/$value/x"}}},"h":{"c":%s}}' % holder('"x":3'),
    '{"a":{"$type":"fontFamily","$value":["{b}","{c}","x"]},"b":{"$type":"fontFamily","$value":"y"},'
    '"c":{"$type":"fontFamily","$value":"{b}"},"d":{"$type":"strokeStyle","$value":{"dashArray":["{e}",{"value":"{n}","unit":"px"},'
    '"{e}"],"lineCap":"butt"}},"e":{"$type":"dimension","$value":%s},"n":{"$type":"number","$value":3}}' % (PX % 2),
    '{"a":{"$type":"border","$value":{"style":"{s}","width":"{w}","color":"{k}"}},"k":{"$type":"color","$value":{"colorSpace":"srgb",'
    '"components":["{n}",0,"{n}"]}},"n":{"$type":"number","$value":0.5},"s":{"$type":"strokeStyle","$value":"solid"},'
    '"w":{"$type":"dimension","$value":%s}}' % (PX % 2),
    '{"a":{"$type":"shadow","$value":{"color":{"$ref":"#/k/$value"},"offsetX":{"$ref":"#/l/$value/part"},"offsetY":{"$ref":"#/l"},'
    '"blur":"{l}","spread":{"$ref":"#/l/$value"}}},"k":{"$type":"color","$value":%s},"l":%s}'
    % (BLACK, holder('"part":%s' % (PX % 7))),
    '{"a":{"$type":"number","$value":{"$ref":"#/b/$value/x"}},"b":%s,"c":%s}'
    % (holder('"x":{"$ref":"#/c/$value/y"}'), holder('"y":9')),
    '{"a":{"$type":"number","$value":{"$ref":"#/b/$value/x/y"}},"b":%s,"c":%s,"d":{"$type":"number","$value":6}}'
    % (holder('"x":"{c}"'), holder('"y":"{d}"')),
    '{"a":{"$type":"border","$value":{%s,"x":{"$ref":"#/a/$value/y"},"y":{"z":{"$ref":"#/a/$value/w"}},'
    '"w":[null,true,false,-0.50e+3,"t"]}},"f":{"$type":"fontFamily","$value":{"$ref":"#/a/$value/x/z/4"}},'
    '"n":{"$type":"number","$value":{"$ref":"#/a/$value/x/z/3"}},"s":{"$type":"shadow","$value":[{"color":%s,"offsetX":%s,"offsetY":%s,'
    '"blur":%s,"spread":%s,"inset":{"$ref":"#/a/$value/y/z/1"}},{"color":%s,"offsetX":%s,"offsetY":%s,"blur":%s,"spread":%s,'
    '"inset":{"$ref":"#/a/$value/w/2"}}]}}' % (BORDER, *([BLACK, ONE, ONE, ONE, ONE] * 2)),
    '{"a":%s,"b":{"$type":"number","$value":{"$ref":"#/a/$value/$value"}},"c":{"$type":"number","$value":{"$ref":"#/a/$value/$root"}},'
    '"d":{"$type":"number","$value":{"$ref":"#/a/$value/"}}}' % holder('"$value":4,"$root":"{b}","":"{b}"'),
    '{"a":{"$type":"fontFamily","$value":"x\\u007b\\u007d"},"b":{"$type":"fontFamily","$value":"\\u007ba\\u007d"},"c":{"$ref":"#\\u002fb"}}',
    '{"\\u00e9":{"$type":"number","$value":1},"a":{"$value":"{é}"},"b":{"$ref":"#/é"},"c":%s,'
    '"d":{"$type":"number","$ref":"#/c/$value/é~1x"}}' % holder('"é/x":"{a}"'),
    '{"g":{"x":{"$extends":"{g.y}"},"y":{"t":{"$type":"number","$value":"{g.x.u}"},"u":{"$type":"number","$value":2}}}}',
    '{"a":%s,"b":{"$type":"strokeStyle","$value":{"dashArray":{"$ref":"#/a/$value/list"},"lineCap":"round"}},"c":{"$value":"{b}"}}'
    % holder('"list":[],"object":{},"x":{"$ref":"#/a/$value/object"}'),
]

side_by_side("what references mean", None, [(text,) for text in MEANINGS])

# References that break a rule: a tree, and the rules with the tokens of which they are told. The first of these tokens stands as it is
# in its tree, and so what comes before it in path order breaks no rule; each other one is put first.

BREAKS = [
    ('{"a":{"$value":"{b}"},"b":{"$value":"{c}"},"c":{"$value":"{a}"}}', "alias-cycle a b c"),
    ('{"a":{"$value":"{a}"}}', "alias-cycle a"),
    ('{"a":{"$value":"{b}"},"b":{"$value":"{a}"},"c":{"$value":{"$ref":"#/a/$value/x"}}}', "alias-cycle a b c"),
    (
        '{"s":{"$type":"shadow","$value":{"offsetX":{"value":2,"unit":"px"},"offsetY":{"$ref":"#/s/$value/offsetX"},'
        '"blur":{"$ref":"#/s/$value/offsetY"}}}}',
        "value-shape s",
    ),
    ('{"s":{"$type":"shadow","$value":{"offsetX":{"value":2,"unit":"px"},"offsetY":{"$ref":"#/s/$value"}}}}', "alias-cycle s"),
    ('{"a":{"$value":"{}"}}', "alias-syntax a"),
    (
        '{"a":{"$value":"{b"},"b":{"$type":"number","$value":"b}"},"c":{"$value":"{"},"d":{"$value":"}"}}',
        "type-missing a c d",
        "value-shape b",
    ),
    (
        '{"a":{"$type":"number","$value":"{x..y}"},"b":{"$type":"number","$value":"{.x}"},"c":{"$type":"number","$value":"{$x}"},'
        '"d":{"$type":"number","$value":"{x.$root}"}}',
        "alias-syntax a b c",
        "alias-target d",
    ),
    ('{"a":{"$type":"number","$value":"{missing}"}}', "alias-target a"),
    ('{"a":{"$type":"number","$value":{"$ref":"#/b/$value/x"}},"b":{"$value":{"y":1}}}', "alias-target a", "type-missing b"),
    ('{"a":{"$type":"number","$value":{"$ref":"#/b/$value/y"}},"b":{"$value":{"y":1}}}', "type-missing b"),
    (
        '{"a":{"$type":"number","$value":{"$ref":"#/b/$value/0"}},"b":{"$type":"cubicBezier","$value":[7,8,9]},'
        '"c":{"$type":"number","$value":{"$ref":"#/b/$value/2"}},"d":{"$type":"number","$value":{"$ref":"#/b/$value/3"}},'
        '"e":{"$type":"number","$value":{"$ref":"#/b/$value/01"}},"f":{"$type":"number","$value":{"$ref":"#/b/$value/+1"}},'
        '"h":{"$type":"number","$value":{"$ref":"#/b/$value/"}},'
        '"i":{"$type":"number","$value":{"$ref":"#/b/$value/99999999999999999999999"}}}',
        "value-shape b",
        "alias-target d e f h i",
    ),
    ('{"a":{"$type":"number","$value":{"$ref":"#/b/$value/x/y"}},"b":{"$value":{"x":3}}}', "alias-target a", "type-missing b"),
    ('{"a":{"$type":"number","$value":{"$ref":"#/b","x":1}},"b":{"$type":"number","$value":1}}', "alias-syntax a"),
    ('{"a":{"$type":"number","$value":{"$ref":1,"x":"{b}"}},"b":{"$type":"number","$value":1}}', "alias-syntax a"),
    ('{"a":{"$type":"number","$value":{"$ref":["{b}",{"c":"{b}"}]}},"b":{"$type":"number","$value":1}}', "alias-syntax a"),
    ('{"a":{"$type":"number","$value":{"$ref":"{b}"}},"b":{"$type":"number","$value":1}}', "alias-syntax a"),
    ('{"a":{"$type":"number","$ref":"b"},"b":{"$type":"number","$value":1}}', "alias-syntax a"),
    ('{"a":{"$type":"number","$ref":"{b}"},"b":{"$type":"number","$value":1}}', "alias-syntax a"),
    (
        '{"a":{"$ref":"#/b/$value/y"},"b":{"$ref":"#/c/$value/x"},"c":{"$type":"number","$value":{"x":{"y":5}}}}',
        "type-missing a b",
        "value-shape c",
    ),
    (
        '{"a":{"$type":"number","$value":{"$ref":"#/b/$value/y"}},"b":{"$ref":"#/c/$value/x"},"c":{"$value":{"x":{"y":5}}}}',
        "type-missing b c",
    ),
    (
        '{"x/y":{"$type":"number","$value":1},"~":{"$type":"number","$value":1},"a":{"$ref":"#/x~1y"},"b":{"$ref":"#/~0"},'
        '"c":{"$type":"number","$ref":"#/x~2y"},"d":{"$type":"number","$ref":"#/~"},"e":{"$value":"{x/y}"}}',
        "alias-syntax c d",
    ),
    (
        '{"a":{"$type":"typography","$value":{"m/n":1,"o~p":2}},"b":{"$type":"number","$ref":"#/a/$value/m~1n"},'
        '"c":{"$type":"number","$ref":"#/a/$value/o~0p"}}',
        "value-shape a",
    ),
    (
        '{"a":{"$type":"number","$ref":"#/"},"b":{"$type":"number","$ref":"#"},"c":{"$type":"number","$ref":"/a"},'
        '"d":{"$type":"number","$ref":""},"e":{"$type":"number","$ref":"#/a/$value/"}}',
        "alias-syntax a b c d e",
    ),
    (
        '{"g":{"$type":"color","a":{"$value":1},"b":{"$value":"{h.c}"},"h":{"c":{"$value":2}}},"h":{"c":{"$value":3}}}',
        "value-shape g",
        "type-missing h",
    ),
    (
        '{"g":{"$type":"color","a":{"$value":"{h.c}"},"b":{"$type":"number","$value":"{h.c}"}},'
        '"h":{"c":{"$type":"duration","$value":3}}}',
        "value-shape g",
    ),
    ('{"g":{"$type":"color","a":{"$value":"{h.c}"}},"h":{"$type":"duration","c":{"$value":3}}}', "value-shape g"),
    (
        '{"g":{"$type":"color","a":{"$value":{"$ref":"#/h/c/$value/x"}}},"h":{"c":{"$type":"duration","$value":{"x":3}}}}',
        "value-shape g",
    ),
    ('{"a":{"$value":{"$ref":"#/h/$value/x"}},"h":{"$type":"duration","$value":{"x":3}}}', "type-missing a", "value-shape h"),
    ('{"a":{"$value":"{b}"},"b":{"$value":"{c}"},"c":{"$value":3}}', "type-missing a b c"),
    ('{"a":{"$value":{"x":"{missing}"}},"b":{"$value":"x"}}', "alias-target a", "type-missing b"),
    (
        '{"a":{"$type":"shadow","$value":["{b}",{"x":"{c}","y":["{b}"]},"{c}"]},"b":{"$type":"number","$value":1},"c":{"$value":2}}',
        "value-shape a",
        "type-missing c",
    ),
    (
        '{"a":{"$type":"shadow","$value":{"z":"{b}","y":"{c}","x":"{b}"}},"b":{"$type":"color","$value":["{c}"]},'
        '"c":{"$type":"number","$value":2}}',
        "value-shape a b",
    ),
    (
        '{"a":{"$type":"border","$value":{"x":{"$ref":"#/b/$value/0"},"y":{"$ref":"#/b"},"z":"{b}"}},"b":{"$type":"number","$value":[1]}}',
        "value-shape a b",
    ),
    ('{"a":{"$type":"border","$value":{"x":{"$ref":"#/b/$value"}}},"b":{"$type":"number","$value":[1]}}', "value-shape a"),
    (
        '{"a":{"$type":"number","$value":{"$ref":"#/b/$value/x"}},"b":{"$value":{"x":{"$ref":"#/c/$value/y"},"z":"{missing}"}},'
        '"c":{"$value":{"y":9}}}',
        "alias-target b",
        "type-missing c",
    ),
    (
        '{"a":{"$type":"number","$value":{"$ref":"#/b/$value/x/y"}},"b":{"$value":{"x":"{c}"}},"c":{"$value":{"y":"{d}"}},"d":{"$value":6}}',
        "type-missing b c d",
    ),
    (
        '{"a":{"$type":"number","$value":{"$ref":"#/b/$value/x/y"}},"b":{"$value":{"x":"{c}"}},"c":{"$value":{"z":1}}}',
        "alias-target a",
        "type-missing b c",
    ),
    (
        '{"a":{"$type":"number","$value":{"$ref":"#/b/$value/x/y"}},"b":{"$value":{"x":"{c}"}},"c":{"$value":"{b}"}}',
        "alias-target a",
        "alias-cycle b c",
    ),
    (
        '{"a":{"$type":"number","$value":{"$ref":"#/b/$value/x/y"}},"b":{"$value":{"x":"{c}"}},"c":{"$value":"{d}"},"d":{"$value":"{c}"}}',
        "alias-cycle a b c d",
    ),
    ('{"a":{"$type":"number","$value":{"$ref":"#/b/$value/x/y"}},"b":{"$value":{"x":"{c..}"}}}', "alias-syntax a b"),
    ('{"a":{"$type":"number","$value":{"$ref":"#/b/$value/x/y"}},"b":{"$value":{"x":"{e}"}}}', "alias-target a b"),
    ('{"p":{"$value":"{r}"},"r":{"$type":"border","$value":{"x":{"$ref":"#/p/$value/y"},"y":1}}}', "alias-cycle p", "value-shape r"),
    ('{"p":{"$value":"{b}"},"b":{"$type":"border","$value":{%s,"x":{"$ref":"#/p/$value/y"},"y":1}}}' % BORDER, "alias-cycle p"),
    ('{"a":{"$type":"border","$value":{"x":"{a}"}}}', "alias-cycle a"),
    ('{"a":{"$type":"border","$value":{"x":{"$ref":"#/a/$value/y"},"y":{"$ref":"#/a/$value/x"}}}}', "alias-cycle a"),
    ('{"a":{"$type":"border","$value":{"x":{"$ref":"#/a/$value/y/z"},"y":{"$ref":"#/a/$value/x"}}}}', "alias-cycle a"),
    (
        '{"a":{"$type":"border","$value":{"x":{"$ref":"#/a/$value/y"},"y":{"z":{"$ref":"#/a/$value/w"}},'
        '"w":[null,true,false,-0.50e+3,"t"]}}}',
        "value-shape a",
    ),
    (
        '{"a":{"$type":"border","$value":{"$value":1,"$root":"{b}","":"{b}"}},"b":{"$type":"number","$value":{"$ref":"#/a/$value/$value"}},'
        '"c":{"$type":"number","$value":{"$ref":"#/a/$value/$root/x"}},"d":{"$type":"number","$value":{"$ref":"#/a/$value/"}}}',
        "value-shape a",
        "alias-target c",
    ),
    (
        '{"a":{"$type":"number","$value":{"$ref":"#/b/$value/$ref"}},"b":{"$value":{"$ref":"#/c"}},"c":{"$value":{"x":1}}}',
        "alias-target a",
        "type-missing b c",
    ),
    (
        '{"a":{"$type":"number","$value":{"$ref":"#/b/$value/$ref/x"}},"b":{"$value":{"x":{"y":1}}}}',
        "alias-target a",
        "type-missing b",
    ),
    ('{"a":{"$type":"number","$value":["{b}","{c..}","{d}"]},"b":{"$type":"number","$value":1}}', "alias-syntax a"),
    ('{"a":{"$type":"number","$value":["{d}","{c..}"]},"b":{"$type":"number","$value":1}}', "alias-target a"),
    ('{"a":{"$type":"number","$value":["{b}",["{a}"]]},"b":{"$type":"number","$value":1}}', "alias-cycle a"),
    ('{"a":{"$type":"number","$value":[{"x":{"$ref":"#/a/$value/0"}}]}}', "alias-cycle a"),
    ('{"g":{"x":{"$type":"color","$extends":"{g.y}"},"y":{"t":{"$value":1},"u":{"$value":"{g.y.t}"}}}}', "value-shape g"),
    ('{"g":{"x":{"$type":"fontWeight","$extends":"{g.y}"},"y":{"t":{"$value":1},"u":{"$value":"{g.y.t}"}}}}', "type-missing g"),
    ('{"g":{"x":{"$type":"color","$extends":"{g.Y}"},"Y":{"t":{"$value":1},"u":{"$value":"{g.Y.t}"}}}}', "type-missing g"),
    ('{"g":{"x":{"$type":"color","$extends":"{g.Y}"},"Y":{"t":{"$value":1},"U":{"$value":"{g.Y.t}"}}}}', "type-missing g"),
    (
        '{"a":{"$type":"number","$value":[]},"b":{"$type":"number","$value":{}},"c":{"$value":"{a}"},'
        '"d":{"$type":"border","$value":{"x":"{b}","y":"{a}"}}}',
        "value-shape a b c d",
    ),
    (
        '{"a":{"$type":"number","$value":{"x":{"y":{"z":{"$ref":"#/b/$value/q"}}}}},"b":{"$value":{"q":"{c}"}},'
        '"c":{"$value":{"$ref":"#/a/$value/x/y/z"}}}',
        "alias-cycle a b c",
    ),
    ('{"a":{"$type":"number","$value":{"x":{"y":"{b}"}}},"b":{"$value":{"$ref":"#/a/$value/x"}}}', "alias-cycle a b"),
    ('{"a":{"$type":"number","$value":{"$ref":"#/a"}}}', "alias-cycle a"),
    ('{"a":{"$type":"number","$ref":"#/a"}}', "alias-cycle a"),
    ('{"a":{"$type":"number","$ref":"#/a/$value/x"}}', "alias-cycle a"),
    ('{"a":{"$type":"number","$value":{"$ref":"#/c/$value/x"}},"b":{"$ref":"#/b"},"c":{"$value":"{b}"}}', "alias-cycle a b c"),
    ('{"a":{"$type":"number","$value":{"x":"{b.c}","y":"{b}"}},"b":{"c":{"$type":"number","$value":1}}}', "alias-target a"),
    # A value that is out of the range of one type tells that the token has this type.
    ('{"g":{"$type":"fontWeight","b":{"$value":"{h.c}"}},"h":{"c":{"$value":0}}}', "weight-range g"),
    ('{"g":{"x":{"$type":"fontWeight","$extends":"{g.y}"},"y":{"t":{"$value":0},"u":{"$value":"{g.y.t}"}}}}', "weight-range g"),
    ('{"g":{"x":{"$type":"fontWeight","$extends":"{g.y}"},"y":{"t":{"$value":0},"U":{"$value":"{g.y.t}"}}}}', "weight-range g"),
]


def put_first(text, name):
    """The tree with the name of a token in capitals."""
    for form in ('"%s":', "{%s}", "{%s.", "#/%s"):
        text = text.replace(form % name, form % name.upper())
    return text


def trees_of(text, rules):
    """Each rule that is told with its tree: at first the tree as it is, then with the token put first of which the rule is told."""
    found = [(rule, name) for rule, *names in map(str.split, rules) for name in names]
    return [(rule, put_first(text, name) if place else text) for place, (rule, name) in enumerate(found)]


def by_rule(rows):
    """The trees of each rule."""
    trees = {}
    for text, *rules in rows:
        for rule, tree in trees_of(text, rules):
            trees.setdefault(rule, []).append((tree,))
    return trees


for broken, refused in by_rule(BREAKS).items():
    side_by_side(f"references that are refused by {broken}", broken, refused)

# The largest walks.


def aliases(last):
    """Tokens each but the last of which is an alias of the next."""
    members = ['"n%d":{"$value":"{n%d}"}' % (i, i + 1) for i in range(last)]
    return '{"$type":"number",%s}' % ",".join([*members, '"n%d":{"$value":1}' % last])


def doubling(power):
    """A token that would need more than two to the power of so many visits."""
    members = ['"x%d":{"$ref":"#/z/$value/x%d/x%d"}' % (i + 1, i, i) for i in range(power)]
    first = '"c":{"$type":"number","$value":{"$ref":"#/z/$value/x%d/n"}}' % power
    return '{%s,"z":{"$value":{"n":1,"x0":{"$ref":"#/z/$value"},%s}}}' % (first, ",".join(members))


one_by_one("a chain of 255 references, and one more", "alias-depth", (tokens(aliases(255)), tokens(aliases(256))))
one_by_one("1,024 places", None, [tokens('{"f":{"$type":"fontFamily","$value":[%s]}}' % ",".join(['"x"'] * 1_023))])
one_by_one("a part that doubles forty times", "alias-size", [tokens(doubling(40))])

# What a token comes to follows from all that it names, in whatever form.

FORMS = (
    '{"$type":"dimension","a1":{"$value":"{leaf}"},"a2":{"$ref":"#/leaf"},"a3":{"$value":{"$ref":"#/leaf"}},"a4":{"$ref":"#/leaf/$value"},'
    '"a5":{"$value":{"value":{"$ref":"#/leaf/$value/value"},"unit":"px"}},"a6":{"$value":{"value":1,"unit":{"$ref":"#/leaf/$value/unit"}}},'
    '"b":{"$type":"strokeStyle","$value":{"dashArray":["{a1}",{"$ref":"#/leaf"}],"lineCap":"round"}},'
    '"c":{"$type":"border","$value":{"color":"{ink}","width":"{a2}","style":"{b}"}},"d":{"$value":{"$ref":"#/c/$value/width"}},'
    '"e":{"f":{"$value":"{g.h}"}},"g":{"$extends":"{i}"},"i":{"h":{"$value":"{leaf}"}},"alone":{"$value":%s},'
    '"wide":{"$type":"number","$value":{"$ref":"#/c/$value/color/components/0"}},"z":{"$value":"{a5}"}}'
) % ONE
INK = '{"$type":"color","$value":{"colorSpace":"srgb","components":[%s,0,0]}}'


def leaves(size, ink):
    """A file with the two tokens that the others name."""
    return {"leaves.json": '{"leaf":{"$type":"dimension","$value":%s},"ink":%s}' % (size, INK % ink)}


one_by_one(
    "what tokens refer to, changed",
    "alias-target",
    (
        {**plan(of_set(file("forms.json"), file("leaves.json"))), "forms.json": FORMS, **leaves(PX % 2, "0")},
        leaves(PX % 3, "0"),
        leaves('{"value":3,"unit":"rem"}', "0"),
        leaves('{"value":3,"unit":"rem"}', "1"),
        {"leaves.json": '{"ink":%s}' % (INK % "1")},
        {"leaves.json": '{"ink":%s,"leaf":{"$value":"{alone}"}}' % (INK % "1")},
        {"leaves.json": '{"ink":%s,"leaf":{"$value":"{e.f}"}}' % (INK % "1")},
        leaves(PX % 2, "0"),
    ),
)
