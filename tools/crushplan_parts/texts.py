"""The texts of a map for crushcalc: one for all pools where that can be, else one for each weight
set in use, and where a map has more buckets than a text may have, one for the trees of some
rules."""
from .faults import counted
from .sets import key_of, rows_of
from .write_text import Text

MOST_BUCKETS, MOST_DEVICES = 1024, 10_000  # of a text


def reached_buckets(map_, rule):
    """Returns the buckets that a rule can come by."""
    return {it: True for item in map_.rules[rule].takes() for it in map_.buckets_below(item)}


def limit_of(map_, rule):
    """Returns why the tree of a rule is too large for a text, or None."""
    buckets = len(reached_buckets(map_, rule))
    if buckets > MOST_BUCKETS:
        return (
            f"below its rule {map_.rules[rule].name} are {counted(buckets, 'bucket')}, and crushcalc takes"
            f" {MOST_BUCKETS:,}"
        )
    devices = len(map_.reached(map_.rules[rule]))
    return (
        f"below its rule {map_.rules[rule].name} are {counted(devices, 'device')}, and crushcalc takes {MOST_DEVICES:,}"
        if devices > MOST_DEVICES
        else None
    )


class Shelf:
    """Rules whose trees stand in one text, with the weights of a set by bucket."""

    def __init__(self, rows):
        self.rows, self.rules, self.buckets = rows, [], {}

    def takes(self, rule, buckets, rows):
        both = {**self.buckets, **buckets}
        return len(both) <= MOST_BUCKETS and all(
            self.rows.get(it) == rows.get(it) for it in both if it in self.buckets and it in buckets
        )


class Texts:
    """The texts of a map. `of` has the text of each pool by id. `known` are the devices that pools
    name by exceptions, and that have states."""

    def __init__(self, map_, pools, known):
        self.map, self.of = map_, {}
        shelves = []
        for pool in sorted(pools, key=lambda it: it.rule):
            buckets = reached_buckets(map_, pool.rule)
            rows = rows_of(map_, key_of(map_, pool.id), buckets)
            shelf = next((it for it in shelves if it[0].takes(pool.rule, buckets, rows)), None)
            if shelf is None:
                shelf = (Shelf({}), [])
                shelves.append(shelf)
            shelf[0].rows.update(rows)
            shelf[0].buckets.update(buckets)
            shelf[0].rules += [] if pool.rule in shelf[0].rules else [pool.rule]
            shelf[1].append(pool)
        self.all = [self.written(shelf, own, known) for shelf, own in shelves] or [
            Text(map_, [], [], known - map_.devices.keys())
        ]

    def written(self, shelf, pools, known):
        map_ = self.map
        placed = {item for it in shelf.buckets for item, _ in map_.buckets[it].items if item is not None and item >= 0}
        placed |= {item for rule in shelf.rules for item in map_.rules[rule].takes() if item >= 0}
        devices = placed | known | map_.devices.keys()
        if len(devices) > MOST_DEVICES:
            devices = placed  # others have nothing to do with these pools
        text = Text(map_, list(shelf.buckets), sorted(shelf.rules), devices, rows=shelf.rows)
        for it in pools:
            self.of[it.id] = text
        return text

    def devices(self):
        """Returns the devices that texts declare."""
        return {it for text in self.all for it in text.devices()}
