"""Several pools that are evened out together: how full devices are by all of them, and which of
them get the copy that a share leaves over."""
from .summary import total


class Fill:
    """How full devices are by some pools, as a part of what they should have. A copy of a pool
    counts by its bytes, or, where these aren't known, each as one. A pool counts by its shares
    until it is evened out."""

    def __init__(self, balancings):
        self.known = total(it.pool.bytes for it in balancings) is not None
        self.each = {it.pool.id: self.bytes_each(it) for it in balancings}
        self.wanted, self.has, self.own = {}, {}, {}
        for it in balancings:
            self.take(it, {device: float(share) for device, share in it.shares.items()})
        self.wanted = dict(self.has)

    def by(self):
        """Returns by what it counts, in a word."""
        return "bytes" if self.known else "copies"

    def bytes_each(self, balancing):
        if not self.known:
            return 1.0
        return balancing.pool.bytes / max(1, sum(balancing.ground.counts.values()))

    def take(self, balancing, counts):
        """Counts a pool by so many copies of each device."""
        pool, each = balancing.pool.id, self.each[balancing.pool.id]
        before = self.own.get(pool, {})
        for device in balancing.shares:
            self.has[device] = self.has.get(device, 0.0) + (counts[device] - before.get(device, 0)) * each
        self.own[pool] = {device: counts[device] for device in balancing.shares}

    def level_of(self, balancing):
        """Returns the function that says how full a device is with so many copies of a pool."""
        pool = balancing.pool.id
        return lambda device, copies: self.level(device, (copies - self.own[pool].get(device, 0)) * self.each[pool])

    def level(self, device, more=0.0):
        wanted = self.wanted[device]
        return (self.has[device] + more) / wanted if wanted else self.has[device] + more

    def fullest(self):
        """Returns the fullest device, or None, and how full it is."""
        device = max(self.has, key=lambda it: (self.level(it), -it), default=None)
        return device, self.level(device) if device is not None else 0.0


def in_order(balancings, fill):
    """Returns pools in the order in which they are evened out: those of large copies first, since
    the others can make up for what these leave."""
    return sorted(balancings, key=lambda it: (-fill.each[it.pool.id], it.pool.id))


def even_out(pairs, fill, most, watch):
    """Has the fullest device give a copy to an emptier one, within the limits of its pool, while
    that helps: copies that move anyhow go elsewhere, and up to `most` others move too. `pairs` are
    pools with their searches. Returns how many others do."""
    extra = 0
    while len(pairs) > 1:
        device, level = fill.fullest()
        change = best_change(pairs, fill, device, level, extra < most)
        if change is None:
            break
        balancing, search, group, target = change
        before = search.cost
        search.move(group, device, target)
        extra += search.cost - before
        fill.take(balancing, search.count)
        watch(search)
    for _, search in pairs if len(pairs) > 1 else ():
        search.gather()
    return extra


def best_change(pairs, fill, device, level, may_cost):
    """Returns a copy that a device may give, and whom to: one that moves anyhow, if there is
    one."""
    found = None
    emptiest = sorted(fill.has, key=lambda it: (fill.level(it), it))
    for balancing, search in pairs:
        if device not in search.zone or search.count[device] <= search.low[device]:
            continue
        each, zone = fill.each[balancing.pool.id], search.zone[device]
        for target in emptiest:
            if fill.level(target) >= level:
                break
            if search.zone.get(target) != zone or not search.has_room(target) or fill.level(target, each) >= level:
                continue
            group = search.group_for(device, target)
            if group is not None and group in search.moved[device]:
                return balancing, search, group, target
            if group is not None and may_cost and found is None:
                found = balancing, search, group, target
    return found
