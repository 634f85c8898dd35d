"""Scripts whose statistics show how much a commit does: what each kind of edit has read, merged and evaluated again.

Each is told by `stats`, so its lines have the numbers of its commits, beside how many outputs each writes and gives up.
"""
import json

from script_cases import BLACK, PX, Case, file, number_tokens, of_set, resolver, tokens

CASES = []


def counts(name, *commits):
    """A case of what each commit puts and takes away."""
    CASES.append(Case(f"work: {name}", "stats", None, list(commits)))


def chain(last):
    """Two aliases in a row that lead to a length."""
    return '{"a":{"$value":"{b}"},"b":{"$value":"{c}"},"c":{"$type":"dimension","$value":%s}}' % (PX % last)


def grey(part):
    return '{"color":{"ink":{"$value":{"colorSpace":"srgb","components":[%s,%s,%s]}}}}' % (part, part, part)


def contexts(**files):
    """A modifier with a context for each name, which lays a file over those before."""
    return '{"theme":{"contexts":{%s}}}' % ",".join('"%s":[%s]' % (name, file(path)) for name, path in files.items())


def themed(*sources, **files):
    """A resolver document of a set of files and a modifier."""
    return {"resolver.json": resolver(of_set(*map(file, sources)) + ',{"$ref":"#/modifiers/theme"}', modifiers=contexts(**files))}


CORE = (
    '{"color":{"$type":"color","ink":{"$value":%s},"text":{"$value":"{color.ink}"}},"gap":{"$type":"dimension","$value":%s}}'
) % (BLACK, PX % 8)
TWO = themed("core.json", light="light.json", dark="dark.json")
THEMES = {**TWO, "core.json": CORE, "light.json": "{}", "dark.json": grey("1")}
BROKEN = '{"a":{"$type":"dimension","$value":{"value":4,"unit":"em"}}}'
INLINE = '{"a":{"$type":"dimension","$value":%s}}' % (PX % 1)
WITH_INLINE = resolver(of_set(INLINE))
RING = '{"a":{"b":{"$extends":"{a}"}}}'


def prefixed(config, text=None):
    return {"tokc.toml": config} if text is None else {"tokc.toml": config, "tokens.json": text}


# Edits of one file without themes.

counts("an edit reaches what refers to it", tokens(chain(4)), tokens(chain(5)))
counts("an edit of an alias", tokens(chain(4)), tokens(chain(4).replace('"{b}"', '"{c}"')), tokens(chain(4)))
counts("the same text put again", tokens(chain(4)), tokens(chain(4)), {})
counts("commits without an event", tokens(chain(4)), {}, {}, {}, {})
counts("only spans move", tokens(chain(4)), tokens(" " + chain(4)), tokens("\n\n" + chain(4)))
counts("a refused token moves", tokens(BROKEN), tokens(" " + BROKEN))
counts("a token is refused and mended", tokens(chain(4)), tokens(chain(4).replace("px", "em")), tokens(chain(4)))
counts("a file goes and comes back", tokens(chain(4)), {"tokens.json": None}, tokens(chain(4)))
counts("a flaw and its mending", tokens(chain(4)), tokens(chain(4)[:-1]), tokens(chain(4)))
counts("a broken group and its mending", tokens(chain(4)), tokens('{"a":1}'), tokens(chain(4)))
counts("groups that extend one another for a while", tokens(INLINE), tokens(RING), tokens(RING + " "), tokens(INLINE))
counts("a token comes and goes", tokens("{}"), tokens(INLINE), tokens("{}"))
counts("an alias of what is not there", tokens('{"a":{"$type":"number","$value":"{x}"}}'), tokens('{"a":{"$type":"number","$value":"{x}"},"x":{"$type":"number","$value":1}}'), tokens('{"a":{"$type":"number","$value":"{x}"}}'))
counts("a type that a group gives", *(tokens('{"g":{%s"a":{"$value":1},"b":{"$value":"{g.a}"}},"h":{"$type":"number","$value":2}}' % it) for it in ('"$type":"number",', '"$type":"fontWeight",', "")))
counts("a group is deprecated", *(tokens('{"g":{%s"$type":"number","a":{"$value":1}},"b":{"$value":"{g.a}"}}' % it) for it in ("", '"$deprecated":true,', '"$deprecated":false,')))
counts("only a description differs", *(tokens('{"a":{"$type":"number","$value":1%s}}' % it) for it in ("", ',"$description":"x"', ',"$description":"x","$foo":2')))
counts("a group that is extended", *(tokens('{"base":{"$type":"number","x":{"$value":%d},"y":{"$value":2}},"top":{"$extends":"{base}"},"z":{"$value":"{top.x}"}}' % it) for it in (1, 3, 3)))
counts("a reference to a part", *(tokens('{"a":{"$type":"dimension","$value":{"value":{"$ref":"#/n/$value"},"unit":"px"}},"n":{"$type":"number","$value":%d},"m":{"$type":"number","$value":1}}' % it) for it in (1, 2)))
counts("a ring of references for a while", tokens(number_tokens(a=1, b='"{a}"')), tokens(number_tokens(a='"{b}"', b='"{a}"')), tokens(number_tokens(a=1, b='"{a}"')))
counts("tokens with one name on a platform", tokens(number_tokens(**{"a-b": 1})), tokens('{"a":{"b":{"$type":"number","$value":1}},"a-b":{"$type":"number","$value":2}}'), tokens(number_tokens(**{"a-b": 1})))

# Configurations.

counts("another configuration and back", prefixed('prefix = "ds"\n', chain(4)), prefixed('prefix = "x"\n'), prefixed('prefix = "ds"\n'))
counts("a configuration that says the same", prefixed('prefix = "ds"\n', chain(4)), prefixed("# remark\nprefix = 'ds'\nrem_base = 16\n"), {"tokc.toml": 'prefix = "ds"\n'})
counts("a configuration that is refused for a while", prefixed("rem_base = 10\n", chain(4)), prefixed("rem_base = 0\n"), prefixed("rem_base = 0\n", chain(5)), prefixed("rem_base = 10\n"))
counts("a configuration that goes", prefixed("rem_base = 10\n", chain(4)), {"tokc.toml": None})
counts("the configuration as a file of tokens", {"resolver.json": resolver(of_set(file("tokc.toml"))), "tokc.toml": "rem_base = 10\n"}, {"tokc.toml": "rem_base = 11\n"})

# Themes.

counts("an edit of one theme's file", THEMES, {"dark.json": grey("0.5")}, {"light.json": grey("0.5")})
counts("an edit of a file of all themes", THEMES, {"core.json": CORE.replace("8", "9")})
counts("a value that one theme hides", THEMES, {"core.json": CORE.replace("[0,0,0]", "[0,0,1]")})
counts("a theme's file breaks a rule for a while", THEMES, {"dark.json": '{"color":1}'}, {"core.json": CORE.replace("8", "9")}, {"dark.json": grey("1")})
counts("a theme's file is missing for a while", THEMES, {"dark.json": None}, {"dark.json": grey("1")})
counts("a theme with another name", THEMES, themed("core.json", light="light.json", night="dark.json"), TWO)
counts("a theme more and one less", THEMES, {**themed("core.json", light="light.json", dark="dark.json", dim="dim.json"), "dim.json": grey("0.2")}, TWO)
counts("themes that exchange their files", THEMES, themed("core.json", light="dark.json", dark="light.json"))
counts("sources in another order", {**themed("a.json", "b.json", one="c.json"), "a.json": number_tokens(x=1, y=1), "b.json": number_tokens(x=2), "c.json": "{}"}, themed("b.json", "a.json", one="c.json"))
counts("a file under another name", THEMES, {**themed("core.json", light="light.json", dark="night.json"), "night.json": grey("1")})
counts("a file that is no longer named", THEMES, {"resolver.json": resolver(of_set(file("core.json")))}, {"light.json": grey("0.1")}, TWO)
counts("a resolver that is written otherwise", THEMES, {"resolver.json": json.dumps(json.loads(TWO["resolver.json"]), indent=1)}, TWO)
counts("a resolver that is refused for a while", THEMES, {"resolver.json": TWO["resolver.json"].replace("2025.10", "2024.10")}, {"dark.json": grey("0.5")}, TWO)
counts("a resolver that goes", {**THEMES, "tokens.json": chain(4)}, {"resolver.json": None}, TWO)
counts("a refused resolver that is written otherwise", {"resolver.json": "{"}, {"resolver.json": " {"}, {"resolver.json": " {"}, {"resolver.json": None})

# Tokens in place.

counts("tokens in place that move", {"resolver.json": WITH_INLINE}, {"resolver.json": " " + WITH_INLINE}, {"resolver.json": WITH_INLINE})
counts("refused tokens in place that move", {"resolver.json": resolver(of_set(BROKEN))}, {"resolver.json": " " + resolver(of_set(BROKEN))})
counts("tokens in place behind others that grow", *({"resolver.json": resolver(of_set(number_tokens(n=it), INLINE))} for it in (1, 22, 22, 3)))
counts("tokens in place that stay", *({"resolver.json": resolver(of_set(INLINE)) + it} for it in ("", " ", "\n")))

# Many commits.

counts("a chain of 256 aliases and 40 commits", tokens(number_tokens(**{f"n{i}": f'"{{n{i + 1}}}"' for i in range(255)}, n255=1)), *({} for _ in range(40)))
counts("edits one after another", THEMES, *(it for i in range(10) for it in ({"dark.json": grey(f"0.{i}")}, {"core.json": CORE.replace("8", str(i + 10))}, {"light.json": number_tokens(**{f"k{i}": i})})))
