"""A pool that is to be evened out: which of its copies may move and where to, by its rule, how many
each device should have, and searches for what brings it there."""
import fractions
import functools

from .evening import Ground, InnerSearch, PartSearch
from .parts import Parts
from .rule_shares import Zone, blocks_of
from .settled import excepted

MOST_LEVELS = 2
HALF = fractions.Fraction(1, 2)


def floor(value):
    return value.numerator // value.denominator


def ceiling(value):
    return -(-value.numerator // value.denominator)


def cut_off(value, decimals=3):
    """Returns a fraction as a decimal number that is cut after some decimals: what is below 1 stays
    below it."""
    return floor(value * 10**decimals) / 10**decimals


def percent_of(part):
    return round(part * 100, 1)


def rule_fault(map_, pool):
    """Returns why copies of a pool can't be evened out by its rule, in words, or None."""
    rule = map_.rules[pool.rule]
    blocks = blocks_of(map_, rule, pool.size)
    if any(it.root >= 0 or not it.levels for it in blocks):
        return f"its rule {rule.name} takes a device by name"
    if any(len(it.levels) > MOST_LEVELS for it in blocks):
        return f"its rule {rule.name} chooses at more than {MOST_LEVELS} levels"
    seen = set()
    for it in blocks:
        devices = set(map_.below(it.root))
        if seen & devices:
            return f"its rule {rule.name} takes the same devices more than once"
        seen |= devices
    return None


class Balancing:
    """A pool with where its copies lie: `placements` by group, and the pairs and whole lists that
    its groups have by now. By `class_` copies on devices of this class alone may move."""

    def __init__(self, plan, pool, placements, pairs, lists, class_=None):
        self.plan, self.pool = plan, pool
        self.placements, self.pairs, self.lists = placements, pairs, lists
        rule, keeper = plan.map.rules[pool.rule], plan.keeper
        blocks = [it for it in blocks_of(plan.map, rule, pool.size) if it.places]
        self.blocks = [Zone(plan.map, lambda type_: keeper.domains_of(rule, type_), it, plan.state) for it in blocks]
        # of each device that takes copies the place of its block and its upper domain: where its
        # copies may go
        self.by_device = {}
        for place, it in enumerate(self.blocks):
            own = class_ is None or all(plan.map.classes.get(device) == class_ for device in it.weights)
            for device in it.weights if own else ():
                self.by_device[device] = (place, it.upper and it.upper[device])
        self.read_groups()
        self.shares = self.shares_of_all()

    # ---- where copies lie

    def read_groups(self):
        """Finds where the copies of each group lie once its pairs act, and which groups may
        change."""
        may_be = lambda it: self.plan.state(it).reweight > 0
        domain = {device: of for it in self.blocks for device, of in it.domain.items()}
        self.items, free, fixed = {}, {}, {}
        for group, it in self.placements.items():
            own = self.pairs.get(group)
            items = excepted(it.raw, own, may_be) if own else it.raw
            whole = self.lists.get(group)
            self.items[group] = items = self.of_whole(whole, items, it.raw, may_be) if whole else items
            if not whole and self.may_change(items, it.raw, domain):
                free[group] = tuple(items)
                continue
            for device in items:
                if device is not None:
                    fixed[device] = fixed.get(device, 0) + 1
        raws = {group: self.placements[group].raw for group in free}
        self.fixed, self.free = fixed, free
        self.ground = Ground(free, raws, fixed, self.by_device, domain)

    def of_whole(self, whole, items, raw, may_be):
        """Returns what a whole list leaves of its group: where a device of it is out, the raw
        list."""
        return list(whole) if all(it is None or may_be(it) for it in whole) else list(raw)

    def may_change(self, items, raw, domain):
        """Returns whether a list is as its rule wants it, so that pairs of its group stay: without
        empty places, in different domains, and without a device of the raw list at another
        place."""
        if self.pool.kind == "erasure" and (None in items or len(items) < self.pool.size):
            return False
        if len({domain.get(it) for it in items}) < len(items) or any(it not in domain for it in items):
            return False
        return items is raw or all(it == raw[place] or it not in raw for place, it in enumerate(items))

    # ---- how many each device should have

    def shares_of_all(self):
        """Returns the share of each device that copies may move to: of those that lie in its block,
        on devices that are up."""
        counts, found = self.ground.counts, {}
        for place, it in enumerate(self.blocks):
            copies = sum([counts[device] for device in it.weights])
            own, here = it.shares(copies, self.pool.pg_num), self.of_block(place)
            found.update({device: own[device] for device in here})
        return found

    def limits(self, deviation=None):
        """Returns the least and the greatest number of copies of each device for a deviation; by
        None its share rounded down and up."""
        if deviation is None:
            low = {it: floor(of) for it, of in self.shares.items()}
            return low, {it: ceiling(of) for it, of in self.shares.items()}
        low = {it: max(0, ceiling(of - deviation)) for it, of in self.shares.items()}
        return low, {it: floor(of + deviation) for it, of in self.shares.items()}

    def deviation(self, counts):
        """Returns the greatest distance of a device from its share."""
        return max((abs(counts[it] - of) for it, of in self.shares.items()), default=fractions.Fraction(0))

    def turns(self):
        """Returns the deviations below 1 at which a limit of some device changes; with each whole
        number added they are all of them."""
        parts = {of - floor(of) for of in self.shares.values()}
        return parts | {1 - it for it in parts if it}

    def least(self, deviation=None):
        """Returns how many copies have to move at least for a deviation: no copy goes from what one
        take of the rule has to what another has, and whole parts alone from one upper domain to
        another."""
        low, high = self.limits(deviation)
        by_parts = self.has_parts() and self.parts.are_whole
        own = [place for place, it in enumerate(self.blocks) if not by_parts or not it.upper]
        found = sum(self.ground.least(low, high, self.of_block(place)) for place in own)
        return found + (self.parts.least(low, high) if by_parts else 0)

    def has_parts(self):
        """Returns whether a take of the rule chooses at two levels."""
        return any(it.upper for it in self.blocks)

    def of_block(self, place):
        return [it for it in self.by_device if self.by_device[it][0] == place]

    def is_possible(self, deviation):
        """Returns whether the numbers of a zone can sum up to its copies for a deviation, those of
        an upper domain to whole parts."""
        low, high = self.limits(deviation)
        if self.has_parts() and not self.parts.are_possible(low, high):
            return False
        for place, _ in enumerate(self.blocks):
            own = self.of_block(place)
            copies = sum(self.ground.counts[it] for it in own)
            if not sum(low[it] for it in own) <= copies <= sum(high[it] for it in own):
                return False
        return True

    # ---- searches

    def begun(self, deviation=None, level=None, watch=None):
        """Returns a search for what brings each device to within a deviation of its share, before
        it has moved anything."""
        low, high = self.limits(deviation)
        return InnerSearch(self.ground, low, high, level or self.own_level, watch)

    def run(self, search):
        """Has a search move what it finds."""
        is_possible = not self.has_parts() or self.even_uppers(search)
        search.even()
        if not is_possible:
            search.low, search.high = self.nearest()
            search.even()
        search.gather()

    def search(self, deviation=None):
        """Returns the search, with where copies then lie."""
        found = self.begun(deviation)
        self.run(found)
        return found

    def own_level(self, device, copies):
        """Returns how full a device is by this pool alone."""
        share = self.shares[device]
        return float(copies / share) if share else float(copies)

    def even_uppers(self, inner):
        """Moves parts of groups, until each upper domain has as many as it should have. Returns
        whether its devices can then be within the search's limits."""
        parts, limits = self.parts, (inner.low, inner.high)
        is_possible = parts.are_possible(*limits)
        uppers = parts.targets(*limits) if is_possible else parts.targets(*limits, self.nearest())
        shares = {zone: float(sum(self.shares[it] for it in own)) for zone, own in inner.ground.members.items()}
        level = lambda zone, count: count / shares[zone] if shares[zone] else 0.0
        targets = {zone: it.parts for zone, it in uppers.items()}
        search = PartSearch(parts.ground, targets, targets, level, inner, parts.places, inner.watch)
        search.even()
        search.exchange(*({zone: it.range()[place] for zone, it in uppers.items()} for place in (0, 1)))
        return is_possible

    def nearest(self):
        """Returns the limits by the least deviation that whole parts allow."""
        from .ladder import Ladder

        ladder = Ladder([self])
        return self.limits(ladder.at(ladder.first_where(self.is_possible)))

    @functools.cached_property
    def parts(self):
        return Parts(self)
