"""Tags drawn from the registry of RFC 5646: its languages, scripts, regions, variants with a prefix and extended
languages, and some subtags that nothing lists, with keywords, fields and private use. They are always the same ones."""
import random
import string

SEED = 5646
# How many of a hundred tags have such a part.
SHARES = {"extended": 10, "variant": 30, "script": 40, "region": 50, "fault": 15, "extension": 15, "private": 5}
# The shape of a subtag that is put in the place of another of its kind.
SHAPES = {"language": (3, str.lower), "script": (4, str.title), "region": (2, str.upper), "variant": (6, str.lower)}
ORDER = ["language", "script", "region", "variant"]


def parts_of(tag, extended):
    """The kind and the code of each subtag before extensions. Of an extended language with its prefix it is that alone;
    one without is no language."""
    found = []
    for place, subtag in enumerate(tag.split("-")):
        if len(subtag) == 1:
            break
        if place == 0:
            found.append(("language", subtag))
        elif len(subtag) == 4 and subtag.isalpha():
            found.append(("script", subtag.title()))
        elif len(subtag) == 2 or len(subtag) == 3 and subtag.isdigit():
            found.append(("region", subtag.upper()))
        elif len(subtag) == 3:
            kind = "language" if f"{found[0][1]}-" == extended.get(subtag) else "extended"
            found = [(kind, subtag)]
        else:
            found.append(("variant", subtag))
    return found


class Drawing:
    """Draws tags."""

    def __init__(self, registry, types):
        self.rng = random.Random(SEED)
        self.pools = {kind: sorted(registry.codes[kind]) for kind in ORDER}
        self.short = [code for code in self.pools["language"] if len(code) == 2]
        self.registry, self.types = registry, [question.tag.removeprefix("und-") for question in types]

    def has(self, part):
        return self.rng.random() * 100 < SHARES[part]

    def language(self):
        """A language, or an extended language with its prefix."""
        if self.has("extended"):
            code = self.rng.choice(sorted(self.registry.extended))
            return f"{self.registry.extended[code]}{code}"
        return self.rng.choice(self.short if self.rng.random() < 0.5 else self.pools["language"])

    def identifier(self):
        """The subtags before extensions: a prefix and its variant, or what a language has beside it."""
        if self.has("variant"):
            variant = self.rng.choice(self.pools["variant"])
            prefix = self.rng.choice(self.registry.prefixes[variant].split(" "))
            return [*(prefix.rstrip("-") or self.language()).split("-"), variant]
        others = [self.rng.choice(self.pools[kind]) for kind in ("script", "region") if self.has(kind)]
        return [*self.language().split("-"), *others]

    def spoilt(self, subtags):
        """Subtags of which one is another, of random letters."""
        kind, code = self.rng.choice(parts_of("-".join(subtags), self.registry.extended))
        length, cased = SHAPES[kind]
        drawn = "".join(self.rng.choices(string.ascii_lowercase, k=length))
        return [cased(drawn) if subtag == code else subtag for subtag in subtags]

    def tag(self):
        subtags = self.identifier()
        if self.has("fault"):
            subtags = self.spoilt(subtags)
        extensions = [self.rng.choice(self.types)] if self.has("extension") else []
        private = ["x-mine"] if self.has("private") else []
        return "-".join([*subtags, *extensions, *private])
