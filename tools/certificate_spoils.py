"""How a certificate is spoilt in one place. Some of these still hold: hops whose order does not matter, and further true ones.

A call takes the lines of a certificate, those of another one of the same folder and permutation, and a source of chance. It gives the
lines, or None where the certificate has no such place.
"""
import re

FIRST, PERMUTATION, FROM, HOPS = 0, 1, 2, 3


def hops(lines):
    """The numbers of the lines of hops."""
    return range(HOPS, len(lines) - 1)


def one_hop(change):
    """A hop's line changed."""
    def spoil(lines, _other, chance):
        if not hops(lines):
            return None
        at = chance.choice(hops(lines))
        line = change(lines[at])
        return None if line == lines[at] else [*lines[:at], line, *lines[at + 1:]]
    return spoil


def one_line(number, change):
    """A line changed that each certificate has."""
    def spoil(lines, _other, _chance):
        line = change(lines[number])
        found = list(lines)
        found[number] = line
        return None if line == lines[number] else found
    return spoil


def last_number(change):
    return lambda line: re.sub(r"[0-9]+$", lambda it: change(it[0]), line)


def first_number(change):
    return lambda line: re.sub(r"(?<= )[0-9]+(?= [0-9]+$)", lambda it: change(it[0]), line)


def rests_on(first, second):
    """Whether two hops that follow one another may do so in this order alone: the first one does not lead to where the second starts."""
    return re.match(r'hop "(?:[^"\\]|\\.)*" ("(?:[^"\\]|\\.)*") ', first)[1] != re.match(r'hop ("(?:[^"\\]|\\.)*") ', second)[1]


def exchanged(lines, _other, chance):
    pairs = [at for at in hops(lines)[:-1] if rests_on(lines[at], lines[at + 1])]
    at = chance.choice(pairs) if pairs else None
    return None if at is None else [*lines[:at], lines[at + 1], lines[at], *lines[at + 2:]]


def reversed_hops(lines, _other, _chance):
    return [*lines[:HOPS], *lines[-2:HOPS - 1:-1], lines[-1]] if len(hops(lines)) > 1 else None


def left_out(lines, _other, chance):
    at = chance.choice(hops(lines)) if hops(lines) else None
    return None if at is None else [*lines[:at], *lines[at + 1:]]


def twice(lines, _other, chance):
    at = chance.choice(hops(lines)) if hops(lines) else None
    return None if at is None else [*lines[:at + 1], *lines[at:]]


def all_but(lines, _other, _chance):
    """No hops."""
    return [*lines[:HOPS], lines[-1]] if hops(lines) else None


def further(lines, other, _chance):
    """The hops of the other certificate too, each once."""
    more = [it for it in other[HOPS:-1] if it not in lines]
    return [*lines[:-1], *more, lines[-1]] if more else None


def further_first(lines, other, _chance):
    more = [it for it in lines[HOPS:-1] if it not in other]
    return [*lines[:HOPS], *other[HOPS:-1], *more, lines[-1]] if more and hops(other) else None


def another_origin(lines, other, _chance):
    return [*lines[:FROM], other[FROM], *lines[HOPS:]] if other[FROM] != lines[FROM] else None


def another_end(lines, other, _chance):
    return [*lines[:-1], other[-1]] if other[-1] != lines[-1] else None


def end_at_a_hop(lines, _other, chance):
    """The end is where a hop starts: a reference."""
    if not hops(lines):
        return None
    words = re.fullmatch(r'hop ("(?:[^"\\]|\\.)*") ("(?:[^"\\]|\\.)*") (.*)', lines[chance.choice(hops(lines))])
    return [*lines[:-1], f"end {words[1]} {words[3]}"]


def target_of_another(lines, _other, _chance):
    """The target of the first hop in place of the last one's."""
    if len(hops(lines)) < 2:
        return None
    first = re.match(r'hop "(?:[^"\\]|\\.)*" ("(?:[^"\\]|\\.)*") ', lines[HOPS])[1]
    line = re.sub(r'^(hop "(?:[^"\\]|\\.)*") "(?:[^"\\]|\\.)*" ', lambda it: f"{it[1]} {first} ", lines[-2])
    return None if line == lines[-2] else [*lines[:-2], line, lines[-1]]


def span_of_the_target(lines, _other, _chance):
    """The span of the last hop is that of the end, where it leads there."""
    found = re.fullmatch(r'(hop "(?:[^"\\]|\\.)*" ("(?:[^"\\]|\\.)*")) .*', lines[-2])
    if found is None or not lines[-1].startswith(f"end {found[2]} "):
        return None
    return [*lines[:-2], found[1] + lines[-1][len(f"end {found[2]}"):], lines[-1]]


def swapped_lines(one, other):
    def spoil(lines, _other, _chance):
        found = list(lines)
        found[one], found[other] = found[other], found[one]
        return found
    return spoil


def text(change):
    """The text as a whole changed."""
    def spoil(lines, _other, _chance):
        whole = "".join(it + "\n" for it in lines)
        found = change(whole)
        return None if found == whole else found
    return spoil


SPOILS = {
    "two hops exchanged": exchanged, "hops in reverse": reversed_hops, "a hop left out": left_out, "a hop twice": twice, "no hops": all_but,
    "hops of another place behind": further, "hops of another place before": further_first, "another place explained": another_origin,
    "another end": another_end, "the end a reference": end_at_a_hop, "the target of another hop": target_of_another,
    "the span of the target": span_of_the_target,
    "a span that begins one byte later": one_hop(first_number(lambda it: str(int(it) + 1))),
    "a span that ends one byte later": one_hop(last_number(lambda it: str(int(it) + 1))),
    "an end that begins one byte later": one_line(-1, first_number(lambda it: str(int(it) + 1))),
    "an end that ends one byte earlier": one_line(-1, last_number(lambda it: str(int(it) - 1))),
    "a leading zero": one_hop(first_number(lambda it: "0" + it)), "a leading zero at the end": one_line(-1, last_number(lambda it: "0" + it)),
    "a plus": one_hop(last_number(lambda it: "+" + it)), "no number": one_hop(last_number(lambda it: "")),
    "a number of more than 32 bits": one_hop(last_number(lambda it: "4294967296")), "the greatest number": one_hop(last_number(lambda it: "4294967295")),
    "a long number": one_hop(last_number(lambda it: "9" * 30)), "a wide digit": one_line(-1, last_number(lambda it: it[:-1] + "\uff11")),
    "another file": one_hop(lambda it: re.sub(r" ([^ ]+)( [0-9]+ [0-9]+)$", r" x\1\2", it)),
    "a file that is no path": one_hop(lambda it: re.sub(r" ([^ ]+)( [0-9]+ [0-9]+)$", r" ../\1\2", it)),
    "another token": one_hop(lambda it: it.replace('"#/', '"#/x', 1)), "another token at the end": one_line(-1, lambda it: it.replace('"#/', '"#/x', 1)),
    "a place of a part that is none": one_hop(lambda it: it.replace('/$value"', '/$value/x"', 1)),
    "a place without its last word": one_line(FROM, lambda it: it.replace('/$value"', '"')),
    "a place that is no pointer": one_line(FROM, lambda it: it.replace('"#/', '"/')), "a wrong escape in a pointer": one_line(FROM, lambda it: it.replace('"#/', '"#/~2')),
    "a letter that is escaped": one_hop(lambda it: it.replace("$value", "$valu\\u0065", 1)), "a slash that is escaped": one_hop(lambda it: it.replace("#/", "#\\/", 1)),
    "an escape of another spelling": one_hop(lambda it: it.replace("\\u0001", "\\u0001".upper().replace("U", "u")) if "\\u0001" in it else it.replace("\u007f", "\\u007F")),
    "a string that does not end": one_line(FROM, lambda it: it[:-1]), "two blanks": one_hop(lambda it: it.replace('" "', '"  "')),
    "a tab": one_hop(lambda it: it.replace('" "', '"\t"')), "a blank at the end of a line": one_line(-1, lambda it: it + " "),
    "a further word": one_line(-1, lambda it: it + " 1"), "another word": one_hop(lambda it: it.replace("hop ", "hops ", 1)),
    "a capital letter": one_line(FROM, lambda it: it.replace("from", "From")), "another version": one_line(FIRST, lambda it: it.replace("1", "2")),
    "no version": one_line(FIRST, lambda it: "tokc-explain"), "another permutation": one_line(PERMUTATION, lambda it: it + "x"),
    "a name that is none": one_line(PERMUTATION, lambda it: it + "."), "no name": one_line(PERMUTATION, lambda it: "permutation "),
    "the first lines exchanged": swapped_lines(PERMUTATION, FROM), "the last lines exchanged": swapped_lines(-2, -1),
    "no last line end": text(lambda it: it[:-1]), "an empty line": text(lambda it: it + "\n"), "line ends of two bytes": text(lambda it: it.replace("\n", "\r\n")),
    "a line behind the end": text(lambda it: it + it.splitlines(keepends=True)[-1]), "a mark before the text": text(lambda it: "\ufeff" + it),
    "the half": text(lambda it: it[:len(it) // 2]), "nothing": text(lambda it: ""),
}


def spoilt(name, certificate, other, chance):
    """The certificate with one place spoilt, or None."""
    found = SPOILS[name](certificate.split("\n")[:-1], other.split("\n")[:-1], chance)
    return found if found is None or isinstance(found, str) else "".join(it + "\n" for it in found)
