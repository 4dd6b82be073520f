"""What Ceph makes of a rule's list: whole upmap lists, upmap items and set primaries
(OSDMap::_apply_upmap), and the primary by primary affinity (OSDMap::_apply_primary_affinity)."""
import collections

from .crush_map import ONE

Placement = collections.namedtuple("Placement", "raw up primary")
WORD = 0xFFFFFFFF


def mix(a, b, c):
    """Mixes three words as rjenkins1 does."""
    for first, second, third in ((13, 8, 13), (12, 16, 5), (3, 10, 15)):
        a = (a - b - c & WORD) ^ (c >> first)
        b = (b - c - a & WORD) ^ (a << second & WORD)
        c = (c - a - b & WORD) ^ (b >> third)
    return a, b, c


def hash2(a, b):
    """Returns the hash of two words (crush_hash32_2)."""
    x, y, found = 231232, 1232, 1315423911 ^ a ^ b
    a, b, found = mix(a, b, found)
    x, a, found = mix(x, a, found)
    return mix(b, y, found)[2]


def seed_of(pool, group):
    """Returns the number by which a group is placed."""
    place = pool.place_of(group)
    return hash2(place, pool.id & WORD) if pool.hashpspool else (place + pool.id) & WORD


def first_of(up):
    """Returns the first device of a list, or None."""
    return next((it for it in up if it is not None), None)


def led(pool, group, up, affinity):
    """Returns an up list and its primary by the affinity of devices, which in a replicated pool
    comes first."""
    if all(affinity.get(it, ONE) == ONE for it in up if it is not None):
        return up, first_of(up)
    seed, found = seed_of(pool, group), None
    for place, it in enumerate(up):
        if it is None:
            continue
        own = affinity.get(it, ONE)
        if own >= ONE or hash2(seed, it) >> 16 < own:
            found = place
            break
        found = place if found is None else found
    primary = up[found]
    if pool.kind == "replicated" and found:
        up = [primary, *up[:found], *up[found + 1 :]]
    return up, primary


def excepted(items, pairs, may_be):
    """Returns a list changed by upmap items."""
    items = list(items)
    for old, new in pairs:
        if old in items and new not in items and may_be(new):
            items[items.index(old)] = new
    return items


class Exceptions:
    """What groups have beside upmap items: whole lists, by pool and group, set primaries, and
    affinities by device."""

    def __init__(self, lists, primaries, affinity):
        self.lists, self.primaries, self.affinity = lists, primaries, affinity

    def of(self, pool):
        """Returns the groups of a pool that have a list or a set primary."""
        return {*self.lists.get(pool, ()), *self.primaries.get(pool, ())}

    def with_lists(self, lists):
        return Exceptions(lists, self.primaries, self.affinity)

    def with_primaries(self, changed):
        """Returns the same with other primaries of some groups, by pool and group; None takes one
        away."""
        found = {pool: dict(own) for pool, own in self.primaries.items()}
        for (pool, group), device in changed.items():
            found.setdefault(pool, {}).pop(group, None)
            if device is not None:
                found[pool][group] = device
        return Exceptions(self.lists, found, self.affinity)

    def items_of(self, pool, group, raw, pairs, may_be):
        """Returns a rule's list once the list, the pairs and the primary of its group have
        acted."""
        whole = self.lists.get(pool.id, {}).get(group)
        if whole is not None:
            if any(it is not None and not may_be(it) for it in whole):
                return list(raw)  # neither the list nor what else is set acts while a device of it is out
            raw = whole
        items, first = excepted(raw, pairs, may_be), self.primaries.get(pool.id, {}).get(group)
        if first in items and pool.kind == "replicated" and may_be(first):
            place = items.index(first)
            items[0], items[place] = first, items[0]
        return items

    def settled(self, pool, group, said, pairs, states):
        """Returns where a group lies, of which `said` has the rule's list, and the one that upmap
        items leave of it."""
        raw, up = said.raw, said.up
        if group in self.lists.get(pool.id, ()) or group in self.primaries.get(pool.id, ()):
            items = self.items_of(pool, group, raw, pairs, lambda it: states(it).reweight > 0)
            works = [it if it is not None and states(it).up else None for it in items]
            up = works if pool.kind == "erasure" else [it for it in works if it is not None]
        elif not self.affinity:
            return said
        return Placement(raw, *led(pool, group, up, self.affinity))
