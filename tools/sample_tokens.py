"""Token files of a made-up design system, the same ones for the same seed: tokens of all thirteen types and colours of all fourteen
spaces, names with blanks, umlauts and emoji, references of every form, groups that extend others, and twelve permutations.

Every value is one that the platforms' own tools are to take: a length that can't be negative isn't.
"""
import json
import random

UNIT = ("srgb", "srgb-linear", "display-p3", "a98-rgb", "prophoto-rgb", "rec2020")
RANGES = {
    **{space: ((0, 1), (0, 1), (0, 1)) for space in UNIT},
    "xyz-d65": ((0, 1), (0, 1), (0, 1.1)),
    "xyz-d50": ((0, 1), (0, 1), (0, 0.9)),
    "hsl": ((0, 360), (0, 100), (0, 100)),
    "hwb": ((0, 360), (0, 100), (0, 100)),
    "lab": ((0, 100), (-125, 125), (-125, 125)),
    "lch": ((0, 100), (0, 150), (0, 360)),
    "oklab": ((0, 1), (-0.4, 0.4), (-0.4, 0.4)),
    "oklch": ((0, 1), (0, 0.4), (0, 360)),
}
WEIGHTS = ["thin", "extra-light", "light", "normal", "book", "medium", "semi-bold", "bold", "extra-bold", "black", "ultra-black", 1, 350, 450.5, 1000]
FAMILIES = ["Inter", "Größe Sans", 'The "Quoted"', "Back\\slash", "Noto Sans 日本", "Courier New"]
GENERIC = ["serif", "sans-serif", "monospace", "cursive", "fantasy", "system-ui"]
STROKES = ["solid", "dashed", "dotted", "double", "groove", "ridge", "outset", "inset"]
CAPS = ["round", "butt", "square"]
NAMES = ["base", "on brand", "größe", "🎨", "2 xl", "half-step", "under_score", "é", "no 1", "ß", "a/b", "til~de"]
MARKS = [True, False, "Take the one above.", 'Say "no" to <this> & that.']


class Maker:
    """Makes values from a seed."""

    def __init__(self, seed):
        self.chance = random.Random(seed)

    def number(self, low, high):
        """A number with up to four places."""
        return round(self.chance.uniform(low, high), self.chance.choice([0, 1, 2, 4])) + 0

    def dimension(self, low=-20, high=200):
        return {"value": self.number(low, high), "unit": self.chance.choice(["px", "px", "rem"])}

    def duration(self, low=0, high=900):
        """Whole milliseconds, or seconds."""
        if self.chance.random() < 0.7:
            return {"value": self.chance.randint(low, high), "unit": "ms"}
        return {"value": self.number(low, high / 100), "unit": "s"}

    def component(self, low, high):
        return "none" if self.chance.random() < 0.08 else min(max(self.number(low, high), low), high)

    def color(self, space=None):
        space = space or self.chance.choice(sorted(RANGES))
        value = {"colorSpace": space, "components": [self.component(*it) for it in RANGES[space]]}
        if self.chance.random() < 0.4:
            value["alpha"] = self.chance.choice([0, 0.15, 0.5, 0.999, 1])
        if self.chance.random() < 0.4:
            value["hex"] = f"#{self.chance.randrange(1 << 24):06x}"
        return value

    def font_family(self):
        if self.chance.random() < 0.3:
            return self.chance.choice(FAMILIES)
        return self.chance.sample(FAMILIES, self.chance.randint(1, 3)) + [self.chance.choice(GENERIC)]

    def font_weight(self):
        return self.chance.choice(WEIGHTS)

    def cubic_bezier(self):
        return [self.number(0, 1), self.number(-1, 2), self.number(0, 1), self.number(-1, 2)]

    def stroke_style(self):
        if self.chance.random() < 0.75:
            return self.chance.choice(STROKES)
        return {"dashArray": [self.dimension(0) for _ in range(self.chance.randint(1, 3))], "lineCap": self.chance.choice(CAPS)}

    def border(self):
        return {"color": self.color(), "width": self.dimension(0, 8), "style": self.stroke_style()}

    def transition(self):
        return {"duration": self.duration(), "delay": self.duration(-200), "timingFunction": self.cubic_bezier()}

    def shadow_item(self):
        item = {"color": self.color(), "offsetX": self.dimension(), "offsetY": self.dimension()}
        item.update({"blur": self.dimension(0), "spread": self.dimension()})
        if self.chance.random() < 0.4:
            item["inset"] = self.chance.random() < 0.5
        return item

    def shadow(self):
        return self.shadow_item() if self.chance.random() < 0.5 else [self.shadow_item() for _ in range(self.chance.randint(1, 3))]

    def gradient(self):
        return [{"color": self.color(), "position": self.number(-0.1, 1.1)} for _ in range(self.chance.randint(2, 4))]

    def typography(self):
        return {
            "fontFamily": self.font_family(),
            "fontSize": self.dimension(8, 40),
            "fontWeight": self.font_weight(),
            "letterSpacing": self.dimension(-2, 2),
            "lineHeight": self.number(0.8, 2),
        }

    def value(self, kind):
        return {
            "color": self.color,
            "dimension": self.dimension,
            "fontFamily": self.font_family,
            "fontWeight": self.font_weight,
            "duration": self.duration,
            "cubicBezier": self.cubic_bezier,
            "number": lambda: self.number(-5, 5),
            "strokeStyle": self.stroke_style,
            "border": self.border,
            "transition": self.transition,
            "shadow": self.shadow,
            "gradient": self.gradient,
            "typography": self.typography,
        }[kind]()

    def token(self, value):
        """A token of the value, at times with what else a token has."""
        token = {"$value": value}
        if self.chance.random() < 0.2:
            token["$description"] = self.chance.choice(["Short.", 'Ends with "*/" and </style>.', "Zwei\nZeilen", "🎨"])
        if self.chance.random() < 0.1:
            token["$deprecated"] = self.chance.choice(MARKS)
        if self.chance.random() < 0.1:
            token["$extensions"] = {"org.example": {"n": [1, 2.5e3, None], "ü": "\u2028"}}
        return token


SIMPLE = ["color", "dimension", "fontFamily", "fontWeight", "duration", "cubicBezier", "number"]
KINDS = [*SIMPLE, "strokeStyle", "border", "transition", "shadow", "gradient", "typography"]

# The parts of a composite value that a reference may stand for, with their types.
PARTS = {
    "border": {"color": "color", "width": "dimension", "style": "strokeStyle"},
    "transition": {"duration": "duration", "delay": "duration", "timingFunction": "cubicBezier"},
    "shadow": {"color": "color", "blur": "dimension"},
    "gradient": {"color": "color"},
    "typography": {"fontFamily": "fontFamily", "fontSize": "dimension", "fontWeight": "fontWeight", "lineHeight": "number"},
}
# What a part's value must be for the whole to be one that the platforms take.
PART_NAMES = {"width": "width", "blur": "width", "fontSize": "width", "duration": "wait", "delay": "wait", "style": "line", "lineHeight": "leading"}


def curly(*names):
    return "{" + ".".join(names) + "}"


def pointer(*names):
    return {"$ref": "#/" + "/".join(it.replace("~", "~0").replace("/", "~1") for it in names)}


def group_of(maker, kind):
    """A group of one type: a literal of each name, then aliases of them."""
    group = {"$type": kind, "$description": f"All of {kind}."}
    for name in NAMES:
        group[name] = maker.token(maker.value(kind))
    group["alias"] = {"$value": curly(kind, "on brand")}
    group["again"] = {"$value": curly(kind, "alias")}
    group["by pointer"] = {"$ref": f"#/{kind}/größe"}
    group["inner"] = {"$root": {"$value": curly(kind, "🎨")}, "deep": {"$value": pointer(kind, "a/b")}}
    return group


def parts_of(maker):
    """What composite values refer to: one token for each use, so that no length is negative where none may be."""
    return {
        "width": {"$type": "dimension", "$value": maker.dimension(0, 30)},
        "wait": {"$type": "duration", "$value": maker.duration(0, 400)},
        "line": {"$type": "strokeStyle", "$value": "solid"},
        "leading": {"$type": "number", "$value": maker.number(1, 2)},
    }


def with_references(maker, kind):
    """Composite tokens of which some parts are references."""
    group = {"$type": kind}
    for i in range(4):
        value = maker.value(kind)
        for item in value if isinstance(value, list) else [value]:
            for part, part_kind in PARTS[kind].items():
                if maker.chance.random() < 0.6:
                    name = PART_NAMES.get(part)
                    item[part] = curly("part", name) if name else maker.chance.choice([curly, pointer])(part_kind, "half-step")
        group[f"made of others {i}"] = {"$value": value}
    return group


def core(maker):
    tree = {kind: group_of(maker, kind) for kind in KINDS}
    tree["every space"] = {"$type": "color", **{space: {"$value": maker.color(space)} for space in RANGES}}
    tree["part"] = parts_of(maker)
    tree["composed"] = {kind: with_references(maker, kind) for kind in PARTS}
    tree["first component"] = {"$type": "number", "$value": {"$ref": "#/every space/oklab/$value/components/1"}}
    tree["control"] = {
        "$type": "dimension",
        "height": {"$value": maker.dimension(20, 60)},
        "pad": {"x": {"$value": curly("part", "width")}, "y": {"$value": maker.dimension(0, 9)}},
    }
    tree["button"] = {"$extends": "{control}", "$deprecated": "Take the new one.", "pad": {"x": {"$value": maker.dimension(0, 9)}}}
    tree["chip"] = {"$extends": "#/button", "icon": {"$value": maker.dimension(0, 9)}}
    return tree


def change(maker, kinds, names):
    """A file of a context: other values for some of the tokens."""
    return {kind: {"$type": kind, **{name: maker.token(maker.value(kind)) for name in names}} for kind in kinds}


# The contexts of each modifier, with the types and names of the tokens that each one changes.
MODIFIERS = {
    "theme": {"light": ((), ()), "dark": (("color", "gradient"), NAMES[:8]), "high contrast": (("color", "border", "shadow"), NAMES[:5])},
    "density": {"cozy": ((), ()), "compact": (("dimension", "typography"), NAMES[2:9])},
    "größe": {"klein": (("fontWeight",), NAMES[:3]), "groß 🎉": (("fontFamily", "duration", "cubicBezier"), NAMES[:6])},
}


def system(seed):
    """The files of the design system, by their paths."""
    maker, files, modifiers = Maker(seed), {}, {}
    files["core.json"] = core(maker)
    for i, (modifier, contexts) in enumerate(MODIFIERS.items()):
        found = {}
        for j, (context, (kinds, names)) in enumerate(contexts.items()):
            path = f"context/{i}{j}.json"
            files[path] = change(maker, kinds, names)
            found[context] = [{"$ref": path}]
        modifiers[modifier] = {"contexts": found, "default": next(iter(found))}
    files["resolver.json"] = {
        "version": "2025.10",
        "sets": {"core": {"sources": [{"$ref": "core.json"}]}},
        "modifiers": modifiers,
        "resolutionOrder": [pointer("sets", "core"), *(pointer("modifiers", name) for name in modifiers)],
    }
    texts = {path: json.dumps(tree, ensure_ascii=False, indent=1).encode() for path, tree in files.items()}
    return {**texts, "tokc.toml": b'prefix = "ds"\nrem_base = 10\n'}
