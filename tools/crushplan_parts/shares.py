"""What each device of a pool should have, by weights and reweights, in exact fractions."""
import math

from .crush_map import ONE


class Shares:
    """The share of each device that is up and in: `of(device) / whole`. Where a rule takes
    several items, each has as much as the places that its steps ask for."""

    def __init__(self, map_, rule, size, states):
        blocks = ((places, block_parts(map_, items, states)) for items, places in blocks_of(rule, size))
        self.take([(places, parts, sum(parts.values())) for places, parts in blocks if parts and places], frozenset())

    def take(self, blocks, gone):
        """Takes the parts of devices by what is taken; those that are gone have nothing."""
        self.blocks, self.gone = blocks, gone
        left = [(places, parts, total - sum(parts.get(it, 0) for it in gone)) for places, parts, total in blocks]
        left = [it for it in left if it[2]]
        product = math.prod(total for _, _, total in left)
        self.whole = product * sum(places for places, _, _ in left) or 1
        self.factors = [(places * (product // total), parts) for places, parts, total in left]

    def without(self, devices):
        """Returns the shares once some devices are down or out: the others keep what they have
        beside each other."""
        found = Shares.__new__(Shares)
        found.take(self.blocks, self.gone | set(devices))
        return found

    def devices(self):
        return {device for _, parts, _ in self.blocks for device in parts} - self.gone

    def of(self, device):
        return 0 if device in self.gone else sum([factor * parts.get(device, 0) for factor, parts in self.factors])


def blocks_of(rule, size):
    """Yields the items that a rule takes, with how many places of a list its steps then fill."""
    taken, places, left = None, 1, size
    for step in rule.steps:
        if step[0] == "take":
            taken, places = step[1], 1
        elif step[0] in ("choose", "chooseleaf"):
            count = step[2] if step[2] > 0 else size + step[2]
            places *= max(count, 0)
        elif step[0] == "emit" and taken is not None:
            filled = min(places, left)
            yield [taken], filled
            taken, left = None, left - filled


def block_parts(map_, items, states):
    """Returns the part of each device below items, as whole numbers over a common measure: by the
    weight that each bucket gives its items, and the device's reweight."""
    paths = {}

    def descend(item, over, under):
        if item is None:
            return
        bucket = map_.buckets.get(item)
        if bucket is None:
            state = states(item)
            if state.up and state.reweight:
                paths.setdefault(item, []).append((over * state.reweight, under))
            return
        total = bucket.weight()
        for inner, weight in bucket.items:
            if weight and total:
                more, below = over * weight, under * total
                common = math.gcd(more, below)
                descend(inner, more // common, below // common)

    for item in items:
        descend(item, 1, ONE)
    measure = math.lcm(*(under for own in paths.values() for _, under in own)) if paths else 1
    return {device: sum(over * (measure // under) for over, under in own) for device, own in paths.items()}


class Expected:
    """What devices should have of several pools together."""

    def __init__(self):
        self.wholes, self.under = {}, None  # how many copies are shared out by each of the shares

    def add(self, shares, copies):
        key = id(shares)
        self.wholes[key], self.under = (shares, self.wholes.get(key, (shares, 0))[1] + copies), None

    def of(self, device):
        """Returns a fraction: what is above its line, and what is below, which is the same for all
        devices."""
        if self.under is None:
            self.measure()
        return sum([times * shares.of(device) for shares, times in self.times]), self.under

    def measure(self):
        """Finds what is below all lines, and by how much the part of each of the shares counts
        above."""
        under = math.prod(shares.whole for shares, _ in self.wholes.values())
        times = [(shares, copies * (under // shares.whole)) for shares, copies in self.wholes.values()]
        common = math.gcd(under, *(it for _, it in times))
        self.times, self.under = [(shares, it // common) for shares, it in times], under // common


def rounded(over, under, decimals):
    """Returns a fraction as a decimal number, rounded half up."""
    scale = 10**decimals
    return (2 * over * scale + under) // (2 * under) / scale


def percent(copies, expected):
    """Returns how much of what is expected is there, in percent with one decimal, or None."""
    over, under = expected
    return rounded(copies * under * 100, over, 1) if over else None


def hundredths(part):
    """Returns a part of 1, with four decimals, in percent with one."""
    return rounded(round(part * 10_000), 100, 1)
