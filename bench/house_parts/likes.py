"""Places that are alike: runs of tokens that are the same up to a renaming of names and literals.

Words of the language stand for themselves. Each other name or literal stands for how far back it
stood last, so that two runs are alike where one is the other with each name changed to one other.
A list of literals is one literal. Two places are alike as far as each window of so many tokens in
one is like that in the other. A window that begins again before it ends, as in a table, is like no
other.
"""
from typing import NamedTuple

from house_parts.lexing import LITERAL, MARK

LEAST = 60
BASE, MODULUS = 1_000_003, (1 << 61) - 1
# codes of words begin here, those of the ends of files at twice this
FAR = 1_000_000
WORDS = {
    ".rt": """as break const continue else enum fn for if impl in let loop match mod move mut pub ref return self Self
        static struct super trait type unsafe use where while true false Ok Err Some None Result Option Vec Rc Box
        String requires ensures decreases invariant ghost λ result old new now record AllocError Global""",
    ".antt": """abbrev as by case cc coind data else elim if in infixl infixr infix let match mod module native omega of
        open pub record rw simp then unfoldable unfolding use where with λ Type refl sym ap subst absurd Some None
        Option List true false Ok Err Result exact intro""",
    ".py": """and as assert break class continue def del elif else except finally for from global if import in is lambda
        not or pass raise return try while with yield None True False self len range print sorted str int""",
    ".js": """async await break case catch class const continue default delete do else export extends finally for from
        function if import in instanceof let new null of return static switch this throw true false try typeof
        undefined var void while yield""",
}
WORDS = {end: frozenset(words.split()) for end, words in WORDS.items()}


class Place(NamedTuple):
    path: str
    first: int
    last: int

    def __str__(self):
        return f"{self.path}:{self.first}-{self.last}"

    def meets(self, other):
        return self.path == other.path and self.first <= other.last and other.first <= self.last


class Group(NamedTuple):
    """Places that are alike, over so many tokens."""

    size: int
    places: list

    def __str__(self):
        return f"{self.size} tokens, {len(self.places)} places: " + " ".join(map(str, self.places))


class Likes:
    """The like places in files: (path, ending, tokens) of each."""

    def __init__(self, files, least=LEAST):
        self.least, self.codes, self.places = least, [], []
        names, known = [], {}
        for number, (path, end, tokens) in enumerate(files):
            for it in without_lists(tokens):
                fixed = it.kind == MARK or it.text in WORDS[end]
                names.append(None if fixed else (number, it.text))
                self.codes.append(FAR + known.setdefault(it.text, len(known)) if fixed else 0)
                self.places.append((path, it.line))
            names.append(None)
            self.codes.append(2 * FAR + number)
            self.places.append((path, 0))
        self.back = distances(names)
        self.kinds = self.windows()
        self.runs = list(self.windows_that_repeat())
        self.pairs = list(self.pairs_of_runs())

    def windows(self):
        """Of each place a number, by which like windows that begin there are known."""
        least, codes, back = self.least, self.codes, self.back
        following = [0] * len(codes)
        for at, distance in enumerate(back):
            following[at - distance] = distance if distance < least else 0
        powers = [1]
        for _ in range(least):
            powers.append(powers[-1] * BASE % MODULUS)
        value, found = 0, []
        for at, code in enumerate(codes):
            value = (value * BASE + (code or 1 + (back[at] if back[at] < least else 0))) % MODULUS
            start = at - least + 1
            if start >= 0:
                found.append(value)
                # without the first token; where its name stands next, it then stands first
                value -= (codes[start] or 1) * powers[least - 1]
                distance = following[start]
                value -= distance * powers[least - 1 - distance]
        return found

    def windows_that_repeat(self):
        """The places of each window that stands more than once."""
        by_kind = {}
        for at, kind in enumerate(self.kinds):
            by_kind.setdefault(kind, []).append(at)
        for places in by_kind.values():
            if len(places) > 1:
                bounds = [-self.least, *places, len(self.codes) + self.least]
                near = [other - one < self.least for one, other in zip(bounds, bounds[1:])]
                for it, before, behind in zip(places, near, near[1:]):
                    if before or behind:
                        self.kinds[it] = -it
                yield [it for it in places if self.kinds[it] != -it]

    def pairs_of_runs(self):
        """(one place, the other, how many tokens) of each pair of runs that go no further."""
        kinds = self.kinds
        for places in self.runs:
            for number, one in enumerate(places):
                for other in places[number + 1 :]:
                    if not one or kinds[one - 1] != kinds[other - 1]:
                        yield one, other, self.length(one, other)

    def length(self, one, other):
        kinds, found = self.kinds, 1
        while other + found < len(kinds) and one + found < other and kinds[one + found] == kinds[other + found]:
            found += 1
        return found + self.least - 1

    def place(self, at, size):
        return Place(*self.places[at], self.places[at + size - 1][1])

    def shape(self, at, size):
        """What a run has in common with each one that is like it."""
        backs = (self.back[it] if self.back[it] <= it - at else 0 for it in range(at, at + size))
        return tuple(code or back for code, back in zip(self.codes[at : at + size], backs))

    def groups(self):
        """The places of pairs together by their shape, those first that have most to share."""
        found = {}
        for one, other, size in self.pairs:
            found.setdefault(self.shape(one, size), set()).update((self.place(one, size), self.place(other, size)))
        groups = [Group(len(shape), sorted(places)) for shape, places in found.items()]
        return sorted(groups, key=lambda it: (-it.size * (len(it.places) - 1), it.places))

    def listed(self):
        """The groups, without those whose places all meet places of groups before them."""
        before = {}
        for group in self.groups():
            if not all(any(it.meets(other) for other in before.get(it.path, ())) for it in group.places):
                yield group
            for it in group.places:
                before.setdefault(it.path, []).append(it)


def without_lists(tokens):
    """Tokens without those of a list of literals behind its first."""
    found = []
    for it in tokens:
        in_list = it.kind == LITERAL and len(found) > 1 and found[-1].text == "," and found[-2].kind == LITERAL
        if in_list:
            found.pop()
        else:
            found.append(it)
    return found


def distances(names):
    """How far back each name stood last; 0 where it is none, or didn't."""
    last, found = {}, []
    for at, name in enumerate(names):
        found.append(at - last.get(name, at) if name else 0)
        last[name] = at
    return found
