"""The built program over the largest inputs: where a text stops to be JSON, what each limit lets through, and how much stack it takes."""
import re
import resource
import subprocess
import unittest

from helpers import make_program, program, run

setUpModule = make_program

# How long a build may take on a machine that has other work.
MOST_SECONDS = 600

MILLION = 1_000_000
NUMBER = '"$type":"number","$value":1'
EMPTY_SHEET = "file default/tokens.css 10\n:root {\n}\n\n"

# How much stack tokc may take, in KB, as docs/FORMAT.md says.
MOST_STACK = 2_048


def script_of(files):
    """A script that puts files, given by their paths."""
    return ("tokc-script 1\n" + "".join(f"put {path} {len(text.encode())}\n{text}\n" for path, text in files.items())).encode()


def build(files):
    return run([program(), "build"], script_of(files), seconds=MOST_SECONDS)


def tokens(members):
    return "{" + ",".join(members) + "}"


def resolver(order, sets=""):
    return {"resolver.json": f'{{"version":"2025.10"{sets and f",{sets}"},"resolutionOrder":[{",".join(order)}]}}'}


class Largest(unittest.TestCase):
    """A test of whole builds."""

    def refuses(self, files, rule, *lines):
        """The build has one output, that tells the rule and then these lines, the first ones of the place or those at the end."""
        ran = build(files)
        self.assertEqual((ran.status, ran.err), (1, ""))
        told = re.fullmatch(r"tokc-stream 1\ncommit 1\nfile (?:default/)?REFUSED [0-9]+\nrule ([a-z-]+)\n(.*)\n\ndone 1\n", ran.out, re.S)
        self.assertIsNotNone(told, ran.out[:1_000])
        self.assertEqual(told[1], rule)
        for line in lines:
            self.assertIn(line, told[2].split("\n"))

    def accepts(self, files):
        """The stream of a build that refuses nothing."""
        ran = build(files)
        self.assertEqual((ran.status, ran.err, "\nrule " in ran.out), (0, "", False))
        return ran.out


class Stops(Largest):
    """A text that is no JSON is refused where its longest prefix of a JSON text ends."""

    def test_each(self):
        for text, at in (
            ("", 0),
            (" ", 1),
            ("-", 1),
            ("01", 1),
            ("1e", 2),
            ("tru", 3),
            ("trux", 3),
            ("[1,]", 3),
            ("[1]]", 3),
            ('{"a" 1}', 5),
            ('{"a":1.}', 7),
            ('"\\u12', 5),
            ('"\\udc00"', 4),
            ('"\\ud800\\u0041"', 9),
            ('{"a":"' + "x" * MILLION + "\x1f", 1_000_006),
            ('{"a":"' + "x" * MILLION + "\\q", 1_000_007),
            ("[" * 100_000, 100_000),
        ):
            with self.subTest(text=text[:20], at=at):
                self.refuses({"tokens.json": text}, "json-syntax", f"line 1 column {at + 1}", f"bytes {at} {at}")

    def test_places_behind_much(self):
        unit = '{"a":{"$type":"dimension","$value":{"value":4,"unit":"em"}}}'
        for before, line in ((" " * 200_000 + unit, "line 1 column 200054"), ("\n" * 200_000 + unit, "line 200001 column 54")):
            self.refuses({"tokens.json": before}, "dimension-unit", line, "bytes 200053 200057", 'token "a"', 'place "#/a/$value/unit"')

    def test_many_brackets(self):
        self.refuses({"tokens.json": "[" * 100_000 + "]" * 100_000}, "json-depth", "line 1 column 65", "bytes 64 65")


class Counts(Largest):
    """Each limit: what lies at it is built, what lies above it is refused with the count, and no count ends in an overflow."""

    def doubling(self, last):
        """Groups of which each has two children that extend the one before."""
        groups = [f'"g{i}":{{"a":{{"$extends":"{{g{i - 1}}}"}},"b":{{"$extends":"{{g{i - 1}}}"}}}}' for i in range(1, last + 1)]
        return {"tokens.json": tokens([f'"g0":{{"t":{{{NUMBER}}}}}', *groups])}

    def test_groups_that_double(self):
        for last, count in ((17, 786_411), (18, MILLION), (60, MILLION)):
            self.refuses(self.doubling(last), "extends-count", "file tokens.json", "line 1 column 1", "bytes 0 0", f"count {count}")

    def family(self, texts):
        return {"tokens.json": '{"f":{"$type":"fontFamily","$value":[%s]}}' % ",".join(['"x"'] * texts)}

    def test_places_of_a_token(self):
        self.assertIn("\n  --f: x", self.accepts(self.family(1_023)).replace('"', ""))
        self.refuses(self.family(1_024), "alias-size", 'token "f"', 'place "#/f/$value/1023"')

    def test_references_that_double(self):
        """To follow the last would take 2^40 visits."""
        parts = ['"n":1', '"x0":{"$ref":"#/z/$value"}']
        parts += [f'"x{k}":{{"$ref":"#/z/$value/x{k - 1}/x{k - 1}"}}' for k in range(1, 41)]
        text = '{"c":{"$type":"number","$value":{"$ref":"#/z/$value/x40/n"}},"z":{"$type":"number","$value":{%s}}}' % ",".join(parts)
        self.refuses({"tokens.json": text}, "alias-size", 'token "c"', 'place "#/z/$value/x4"')

    def test_permutations(self):
        for modifiers, count in ((7, 128), (19, 524_288), (20, MILLION), (1_000, MILLION)):
            order = [f'{{"type":"modifier","name":"m{i}","contexts":{{"a":[],"b":[]}}}}' for i in range(modifiers)]
            self.refuses(resolver(order), "plan-permutations", "file resolver.json", f"count {count}")

    def sources(self, count):
        return resolver(['{"type":"set","name":"s","sources":[%s]}' % ",".join(["{}"] * count)])

    def test_sources(self):
        self.refuses(self.sources(1_025), "plan-sources", "file resolver.json", "count 1025")
        self.assertIn(EMPTY_SHEET, self.accepts(self.sources(1_024)))

    def extending(self, count):
        """Groups of which each extends the next one, and the last has a token."""
        groups = [f'"g{i}":{{"$extends":"{{g{i + 1}}}"}}' for i in range(count - 1)]
        return {"tokens.json": tokens([*groups, f'"g{count - 1}":{{"t":{{{NUMBER}}}}}'])}

    def test_a_long_chain_of_groups(self):
        self.refuses(self.extending(100_000), "extends-count", "bytes 0 0", "count 200000")
        sheet = re.search(r"^file default/tokens.css [0-9]+\n:root \{\n(.*?)^\}\n", self.accepts(self.extending(8_000)), re.M | re.S)[1]
        self.assertEqual(sorted(sheet.splitlines()), sorted(f"  --g{i}-t: 1;" for i in range(8_000)))

    def test_a_long_chain_of_sets(self):
        sets = [f'"s{i}":{{"sources":[{{"$ref":"#/sets/s{i + 1}"}}]}}' for i in range(99_999)]
        files = resolver(['{"$ref":"#/sets/s0"}'], '"sets":' + tokens([*sets, '"s99999":{"sources":[{}]}']))
        self.assertIn(EMPTY_SHEET, self.accepts(files))

    def test_a_long_ring_of_sets(self):
        sets = [f'"s{i}":{{"sources":[{{"$ref":"#/sets/s{(i + 1) % 20_000}"}}]}}' for i in range(20_000)]
        ran = build(resolver([], '"sets":' + tokens(sets)))
        self.assertEqual((ran.status, re.findall(r"^ring (.*)$", ran.out, re.M)), (1, [f'"#/sets/s{i}"' for i in range(20_000)]))

    def test_a_configuration_of_many_keys(self):
        config = "".join(f"k{i} = 1\n" for i in range(250_000))
        self.refuses({"tokens.json": "{}", "tokc.toml": config}, "config-key", "file tokc.toml", f"bytes 0 {len(config)}", 'key "k0"')


class Rings(Largest):
    """Tokens of which each is a reference to the next one, and the last to the first."""

    def ring(self, count, before=()):
        return tokens([*before, *(f'"t{i:05}":{{"$value":"{{t{(i + 1) % count:05}}}"}}' for i in range(count))])

    def told(self):
        """What is told of a ring that is longer than a walk may be, so that its end is not reached."""
        return "alias-depth", 'token "t00000"', 'place "#/t00256/$value"'

    def test_alone(self):
        self.refuses({"tokens.json": self.ring(1_000)}, *self.told())

    def test_one_broken_token_before_a_ring(self):
        self.refuses({"tokens.json": self.ring(1_000, ['"a":{"$type":"number","$value":"{none}"}'])}, "alias-target", 'token "a"', 'place "#/a/$value"')

    def test_in_each_of_eight_permutations(self):
        order = ['{"type":"set","name":"all","sources":[{"$ref":"ring.json"}]}']
        order += [f'{{"type":"modifier","name":"m{i}","contexts":{{"a":[],"b":[]}}}}' for i in range(3)]
        ran = build({"ring.json": self.ring(300), **resolver(order)})
        rule, *lines = self.told()
        self.assertEqual((ran.status, ran.out.count("/REFUSED ")), (1, 8))
        for line in (f"rule {rule}", *lines):
            self.assertEqual(ran.out.count(line + "\n"), 8)

    def test_a_ring_of_256(self):
        """A shorter ring is told whole."""
        ran = build({"tokens.json": self.ring(256)})
        self.assertEqual(re.findall(r"^ring (.*)$", ran.out, re.M), [f'"#/t{i:05}/$value"' for i in range(256)])


class Stack(unittest.TestCase):
    """The shapes that take most stack are built within what is said of it."""

    def ends(self, text):
        """The status and the stream within so much stack and within much."""
        script, ends = script_of({"tokens.json": text}), []
        for most in (MOST_STACK, 8 * MOST_STACK):
            def limit(most=most):
                resource.setrlimit(resource.RLIMIT_STACK, (most * 1024, most * 1024))
            ran = subprocess.run([program(), "build"], input=script, capture_output=True, timeout=MOST_SECONDS, check=False, preexec_fn=limit)
            ends.append((ran.returncode, ran.stdout))
        self.assertEqual(ends[0], ends[1])
        return ends[0][0], re.findall(rb"^rule (.*)$", ends[0][1], re.M)

    def passed(self, count):
        """References that lead through one another, each through the one before."""
        parts = ['"n":1', '"x0":{"$ref":"#/z/$value"}']
        parts += [f'"x{k}":{{"$ref":"#/z/$value/x{k - 1}/x0"}}' for k in range(1, count)]
        return '{"c":{"$type":"number","$value":{"$ref":"#/z/$value/x%d/n"}},"z":{"$type":"number","$value":{%s}}}' % (count - 1, ",".join(parts))

    def nested(self, levels, count, opening, closing):
        """Values of so many levels, each with a reference to the next one at its inside."""
        insides = [f'{{"$ref":"#/t{k}/$value"}}' for k in range(1, count)] + ["1"]
        return tokens(f'"t{k}":{{"$type":"number","$value":{opening * levels}{inside}{closing * levels}}}' for k, inside in enumerate(insides))

    def chain(self, count):
        return tokens([f'"a":{{"$type":"number","$value":"{{t{count - 2}}}"}}', f'"t0":{{{NUMBER}}}', *(f'"t{i}":{{"$value":"{{t{i - 1}}}"}}' for i in range(1, count - 1))])

    def test_each(self):
        groups = '"g":{' * 62 + f'"t":{{{NUMBER}}}' + "}" * 62
        brackets = "[" * 61 + "]" * 61
        for text, end in (
            (self.passed(255), (1, [b"alias-cycle"])),
            (self.passed(300), (1, [b"alias-depth"])),
            (self.nested(60, 5, "[", "]"), (1, [b"alias-depth"])),
            (self.nested(60, 5, '{"a":', "}"), (1, [b"alias-depth"])),
            (self.chain(256), (0, [])),
            (self.chain(257), (1, [b"alias-depth"])),
            ("{" + groups + "}", (0, [])),
            ('{"t":{%s,"$extensions":{"x":%s}}}' % (NUMBER, brackets), (0, [])),
            ("[" * MILLION, (1, [b"json-syntax"])),
        ):
            with self.subTest(text=text[:60]):
                self.assertEqual(self.ends(text), end)


if __name__ == "__main__":
    unittest.main()
