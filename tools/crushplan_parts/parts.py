"""Parts of groups by a rule of two levels: the copies of a group in one upper domain, which go
together to another one. How many parts each upper domain should have, and what moves at least by
that."""
from .evening import Ground

BIG = 1 << 24  # more than copies or parts that one upper domain has


class Parts:
    """The parts of a pool's groups that may change. `ground` has them as a search over upper
    domains takes them, `places` the places of each part by group."""

    def __init__(self, balancing):
        self.blocks, self.members = balancing.blocks, balancing.ground.members
        self.counts, self.by_device = balancing.ground.counts, balancing.by_device
        self.read(balancing.free)
        self.whole = {}  # copies of whole parts, by device
        for group, own in balancing.free.items():
            for zone, places in zip(self.ground.lists[group], self.places[group]):
                for place in places if zone in self.ground.zone else ():
                    self.whole[own[place]] = self.whole.get(own[place], 0) + 1
        self.most = len(balancing.free)
        # a part that isn't whole stays here, but a list of items might move it
        self.are_whole = all(len(it) == 2 for own in self.ground.lists.values() for it in own)

    def read(self, free):
        """Finds the parts of each group; one that isn't whole has to stay."""
        lists, self.places, zone, domain = {}, {}, {}, {}
        block_of = {device: place for place, it in enumerate(self.blocks) for device in it.domain}
        for it in self.members:
            if it[1] is not None:
                zone[it], domain[it] = it[0], it
                domain[(*it, None)] = it
        for group, own in free.items():
            found = {}
            for place, device in enumerate(own):
                block = block_of[device]
                if self.blocks[block].upper:
                    found.setdefault((block, self.blocks[block].upper[device]), []).append(place)
            devices = {it: [own[place] for place in of] for it, of in found.items()}
            lists[group] = tuple(it if self.is_whole(it, of) else (*it, None) for it, of in devices.items())
            self.places[group] = list(found.values())
        self.ground = Ground(lists, dict.fromkeys(lists, ()), {}, zone, domain)

    def is_whole(self, upper, devices):
        """Returns whether the devices of a group in an upper domain are a part that may go."""
        return len(devices) == self.blocks[upper[0]].width and all(it in self.by_device for it in devices)

    def targets(self, low, high, wider=None):
        """Returns the upper domains with how many parts each should have: as near to what its
        devices can share as can be, within wider limits first, then by moves of as few copies, then
        of as few parts. Each part more costs no less than the one before, so that at the end, where
        no exchange of one part helps, none of several does."""
        uppers = {zone: Upper(self, zone, low, high, wider) for zone in self.ground.zone}
        for block in {zone[0] for zone in uppers}:
            own = [it for zone, it in uppers.items() if zone[0] == block]
            while exchanged(own):
                pass
        return uppers

    def least(self, low, high):
        """Returns how many copies move at least, of upper domains alone."""
        return sum(it.moves(it.parts) for it in self.targets(low, high).values())

    def are_possible(self, low, high):
        """Returns whether whole parts can give each device a number within its limits."""
        return not any(it.beyond(it.parts) for it in self.targets(low, high).values())


class Upper:
    """An upper domain by limits of its devices: `parts` is how many it should have, of which it has
    `first` by now."""

    def __init__(self, parts, zone, low, high, wider=None):
        block = parts.blocks[zone[0]]
        self.width, self.first = block.width, parts.ground.counts[zone]
        self.parts, self.most = self.first, parts.most
        over, under = {}, {}  # by lower domain, what devices have too many, and what they lack
        for it in parts.members[zone]:
            count = parts.counts[it]
            domain = block.domain[it]
            over[domain] = over.get(domain, 0) + max(0, count - high[it])
            under[domain] = under.get(domain, 0) + max(0, low[it] - count)
        self.over, self.under = list(over.values()), list(under.values())
        self.limits = limits_of(parts, zone, low, high)
        self.wider = limits_of(parts, zone, *wider) if wider else self.limits
        self.reckon()

    def beyond(self, parts):
        """Returns how many copies are past what devices may have with so many parts, of which a
        lower domain has one copy each; both too many and too few."""
        return sum(self.past(parts, self.limits))

    def past(self, parts, limits):
        copies = parts * self.width
        above = copies - sum(min(most, parts) for _, most in limits)
        below = max(sum(least for least, _ in limits) - copies, sum(max(0, least - parts) for least, _ in limits))
        return max(0, above), max(0, below)

    def moves(self, parts):
        """Returns how many copies have to leave a device here at least: all that are too many, and
        all that others lack here which no part brings. With each part that comes or goes a lower
        domain gets or gives one copy: what more it lacks or has too many goes inside."""
        above, below = self.past(parts, self.limits)
        come, gone = max(0, parts - self.first), max(0, self.first - parts)
        return max(
            sum(self.over) - above, sum(self.under) - below + (self.first - parts) * self.width,
            sum(max(0, it - come) for it in self.under) - below,
            sum(max(0, it - gone) for it in self.over) - above + gone * self.width, gone * self.width,
        )  # fmt: skip

    def cost(self, parts):
        if not 0 <= parts <= self.most:
            return BIG**4
        return (self.nearness(parts) * BIG + self.moves(parts)) * BIG + abs(parts - self.first)

    def range(self):
        """Returns the least and the greatest number of parts that is as near to the limits."""
        least = most = self.parts
        near = lambda parts: 0 <= parts <= self.most and self.nearness(parts) <= self.nearness(self.parts)
        while near(least - 1):
            least -= 1
        while near(most + 1):
            most += 1
        return least, most

    def nearness(self, parts):
        return sum(self.past(parts, self.wider)) * BIG + self.beyond(parts)

    def reckon(self):
        """Reckons what one part more and one less cost."""
        now = self.cost(self.parts)
        self.more, self.less = self.cost(self.parts + 1) - now, self.cost(self.parts - 1) - now


def limits_of(parts, zone, low, high):
    """Returns the least and the greatest number of copies of whole parts that each lower domain can
    have by limits of its devices."""
    found, block = {}, parts.blocks[zone[0]]
    for it in parts.members[zone]:
        rest = parts.counts[it] - parts.whole.get(it, 0)  # copies of parts that stay
        least, most = found.get(block.domain[it], (0, 0))
        found[block.domain[it]] = least + max(0, low[it] - rest), most + max(0, high[it] - rest)
    return list(found.values())


def exchanged(uppers):
    """Has one upper domain give a part to another where that helps most, and returns whether it
    does."""
    takers, givers = sorted(uppers, key=lambda it: it.more)[:2], sorted(uppers, key=lambda it: it.less)[:2]
    pairs = [(taker.more + giver.less, taker, giver) for taker in takers for giver in givers if taker is not giver]
    gain, taker, giver = min(pairs, key=lambda it: it[0], default=(0, None, None))
    if gain >= 0:
        return False
    taker.parts, giver.parts = taker.parts + 1, giver.parts - 1
    taker.reckon()
    giver.reckon()
    return True
