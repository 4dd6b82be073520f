"""What each device should have of a pool by its rule, in exact fractions: by weights and reweights,
but no domain has more than one copy of a group."""
import collections
import fractions

from .shares import block_parts

Block = collections.namedtuple("Block", "root places levels")
# a domain that weighs more than one copy of each group asks for: what by weight it would have of
# each, and the part of its weight at which that is what it can have
Heavy = collections.namedtuple("Heavy", "domain by_weight can mended")


def blocks_of(map_, rule, size):
    """Returns what a rule takes, each with the places of a list that its steps fill and the types
    of the levels that they choose at, with how many of each."""
    types, found, left = {name: number for number, name in map_.types.items()}, [], size
    root, levels = None, []
    for step in rule.steps:
        if step[0] == "take":
            root, levels = step[1], []
        elif step[0] in ("choose", "chooseleaf"):
            count = step[2] if step[2] > 0 else size + step[2]
            levels.append((types.get(step[3], 0), max(count, 0)))
        elif step[0] == "emit" and root is not None:
            places = 1
            for _, count in levels:
                places *= count
            found.append(Block(root, min(places, left), plain(levels)))
            root, left = None, left - min(places, left)
    return found


def plain(levels):
    """Returns levels without those below the first of which each item gives one alone: they say
    nothing that the level above doesn't say."""
    return [it for place, it in enumerate(levels) if place == 0 or it[1] != 1]


def capped(weights, places):
    """Returns how many of so many places each item has by weight where none can have more than one,
    and how many a weight of 1 has of those that can have more."""
    rest, left, found = sum(weights.values()), fractions.Fraction(places), {}
    for it in sorted(weights, key=lambda it: (-weights[it], it)):
        if weights[it] * left < rest:
            break
        found[it] = fractions.Fraction(1 if left >= 1 else left)
        rest, left = rest - weights[it], left - found[it]
    each = left / rest if rest else fractions.Fraction(0)
    return {it: found[it] if it in found else weights[it] * each for it in weights}, each


def sums_by(weights, above):
    """Returns the sums of weights by what each item is in."""
    found = {}
    for it, weight in weights.items():
        found[above[it]] = found.get(above[it], 0) + weight
    return found


class Zone:
    """The devices that copies of a block may go to, by weight. `domain` is the domain of each
    device below what is taken, of which a group has one copy, and `upper`, where a rule chooses at
    two levels, what it is in there, of which a group has `width` copies; else it is None."""

    def __init__(self, map_, domains_of, block, states):
        self.block = block
        self.weights = {it: weight for it, weight in block_parts(map_, [block.root], states).items() if weight}
        levels, below, self.upper, self.width = block.levels, map_.below(block.root), None, 1
        if len(levels) == 2:
            known = domains_of(levels[0][0])
            self.upper, self.width = {it: known.get(it, it) for it in below}, levels[1][1]
        known = domains_of(levels[-1][0]) if levels[-1][0] else {}
        self.domain = {it: known.get(it, it) for it in below}

    def shares(self, copies, groups):
        """Returns the share of each device of so many copies of so many groups."""
        if not groups or not self.weights:
            return {}
        if self.upper is None:
            return self.shares_in(self.weights, fractions.Fraction(copies, groups), groups)
        uppers, _ = capped(sums_by(self.weights, self.upper), fractions.Fraction(copies, groups * self.width))
        found = {}
        for upper, part in uppers.items():
            own = {it: weight for it, weight in self.weights.items() if self.upper[it] == upper}
            found.update(self.shares_in(own, self.width, part * groups))
        return found

    def shares_in(self, weights, places, groups):
        by_domain = sums_by(weights, self.domain)
        of, _ = capped(by_domain, places)
        each = {it: groups * of[it] / by_domain[it] for it in of}
        return {it: weight * each[self.domain[it]] for it, weight in weights.items()}

    def heavy(self):
        """Returns the domains that can't have what their weight asks for, the heaviest first."""
        places = self.block.places
        if self.upper is None:
            return heavy_of(sums_by(self.weights, self.domain), places)
        found = heavy_of(sums_by(self.weights, self.upper), fractions.Fraction(places, self.width))
        for upper in sorted({self.upper[it] for it in self.weights}, reverse=True):
            own = {it: weight for it, weight in self.weights.items() if self.upper[it] == upper}
            found += heavy_of(sums_by(own, self.domain), self.width)
        return found


def heavy_of(weights, places):
    """Returns the items of which more than one place is asked for by weight, where others are
    left."""
    found, each = capped(weights, places)
    total = sum(weights.values())
    heavy = [it for it in weights if weights[it] * places > total and found[it] == 1]
    of = lambda it: fractions.Fraction(weights[it] * places, total)
    return [
        Heavy(it, of(it), found[it], 1 / (each * weights[it]) if each else None)
        for it in sorted(heavy, key=lambda it: (-weights[it], it))
    ]
