"""A CRUSH map as its dump or its text declares it, whether crushcalc computes it or not."""
from .record import Record

COMPUTED = ("list", "straw2", "tree", "uniform")
ONE = 65536
KINDS = {1: "replicated", 3: "erasure"}
MSR_KINDS = {4: "replicated", 5: "erasure"}  # of rules of release 19 that choose several levels at once
MSR = "it is an MSR rule (choosemsr, of release 19), which isn't computed: a rule of chooseleaf steps is"
TUNABLES = (
    "choose_local_tries",
    "choose_local_fallback_tries",
    "choose_total_tries",
    "chooseleaf_descend_once",
    "chooseleaf_vary_r",
    "chooseleaf_stable",
)
MOST_DEVICES = 65536  # ids of devices are below it


class Bucket(Record):
    """A bucket: items are pairs of an id and a weight in 65536ths, in their places. A hole, which a
    removed item left in a tree bucket, is a pair of None and 0. `shadow` is the class whose devices
    alone it has, or None."""

    def __init__(self, id, name, type, alg, hash, items, shadow=None):
        self.id, self.name, self.type, self.alg, self.hash = id, name, type, alg, hash
        self.items, self.shadow = items, shadow

    def weight(self):
        return sum(weight for _, weight in self.items)

    def holes(self):
        """Returns the places of its holes."""
        return [place for place, (item, _) in enumerate(self.items) if item is None]


class Rule(Record):
    """A rule: steps are tuples of words, as they stand in a text; a take has the id of its item,
    and a class or None. `sizes` are the bounds that release 16 gives it, or None; `odd` is why it
    can't be computed, whatever it takes, or None."""

    def __init__(self, id, name, kind, steps, sizes=None, odd=None):
        self.id, self.name, self.kind, self.steps, self.sizes, self.odd = id, name, kind, steps, sizes, odd

    def takes(self):
        return [step[1] for step in self.steps if step[0] == "take"]


class WeightSet(Record):
    """Weights by which pools are placed instead of those of the map (choose_args). `rows` are by
    bucket: a list of weights for each position. `with_ids` are the buckets that also have other ids
    for their items, and `rounded` is whether weights of 256 and more may be a little others in the
    cluster."""

    def __init__(self, rows, with_ids=None, rounded=False):
        self.rows, self.with_ids, self.rounded = rows, [] if with_ids is None else with_ids, rounded


class CrushMap(Record):
    """A whole map. `devices` are names by id, `classes` classes by id; `file` is where it was read,
    `rounded` whether its weights have three decimals alone. `weight_sets` are by the id of a pool,
    or -1. `algs` are the kinds of buckets that Ceph may make, by a bit each; straw2 is 1 << 5.
    `class_names` are in the order in which they were made, and `shadow_ids` as shadows() has them,
    while it is changed; `kept` is what lies below items."""

    def __init__(
        self, file, rounded, tunables, devices, classes, types, buckets, rules, weight_sets=None,
        algs=54, class_names=None, shadow_ids=None,
    ):  # fmt: skip
        self.file, self.rounded, self.tunables, self.devices, self.classes = file, rounded, tunables, devices, classes
        self.types, self.buckets, self.rules = types, buckets, rules
        self.weight_sets, self.algs, self.kept = {} if weight_sets is None else weight_sets, algs, {}
        self.class_names = [] if class_names is None else class_names
        self.shadow_ids = {} if shadow_ids is None else shadow_ids

    def name_of(self, item):
        if item in self.buckets:
            return self.buckets[item].name
        return self.devices.get(item, f"osd.{item}")

    def holes(self):
        """Returns the holes that removed items left: pairs of a bucket and a place."""
        return [(bucket, place) for bucket in self.buckets.values() for place in bucket.holes()]

    def shadows(self):
        """Returns the ids of the buckets that have one class alone, by the id of their bucket and
        the class."""
        ids = {it.name: it.id for it in self.buckets.values() if not it.shadow}
        found = {(ids.get(it.name.rsplit("~", 1)[0]), it.shadow): it.id for it in self.buckets.values() if it.shadow}
        return {(bucket, class_): id_ for (bucket, class_), id_ in found.items() if bucket is not None}

    def below(self, item):
        """Returns the devices below an item, each once, in order; a device is below itself."""
        return self.all_below(item)[0]

    def buckets_below(self, item):
        """Returns the ids of the buckets at and below an item."""
        return self.all_below(item)[1]

    def all_below(self, item):
        """Returns both, which are found once: nothing is changed below an item that was asked for
        (wrapper.py changes copies)."""
        if item not in self.kept:
            devices, buckets = {}, {}

            def visit(id_):
                buckets[id_] = True
                for inner, _ in self.buckets[id_].items:
                    if inner in self.buckets:
                        if inner not in buckets:
                            visit(inner)
                    elif inner is not None and inner >= 0:
                        devices[inner] = True

            if item in self.buckets:
                visit(item)
            elif item is not None and item >= 0:
                devices[item] = True
            self.kept[item] = list(devices), list(buckets)
        return self.kept[item]

    def cycle(self):
        """Returns the ids of buckets of which each has the next as an item, and the last the first;
        an empty list where no bucket is below itself."""
        done = set()
        for start in self.buckets:
            path, left = [start], [self.buckets_in(start)]
            while path and start not in done:
                item = next(left[-1], None)
                if item in path:
                    return path[path.index(item) :]
                if item is None:
                    done.add(path.pop())
                    left.pop()
                elif item not in done:
                    path.append(item)
                    left.append(self.buckets_in(item))
        return []

    def buckets_in(self, bucket):
        """Returns an iterator over the ids of the buckets that are a bucket's own items."""
        return iter([item for item, _ in self.buckets[bucket].items if item in self.buckets])

    def reached(self, rule):
        """Returns the devices that a rule can answer."""
        return {device for item in rule.takes() for device in self.below(item)}


def mark_holes(buckets, devices_known):
    """Makes holes of the items that a removal left in tree buckets: a dump shows them as osd.0 with
    the weight 0. `devices_known` is whether osd.0 is a device of the cluster.

    osd.0 may itself have the weight 0. It is taken for a hole where it stands twice in the bucket,
    where it stands in another bucket with a weight, where the bucket has buckets below it, or where
    there is no osd.0. Which it is changes no placement: a tree bucket never picks a weight of 0.
    """
    for bucket in buckets.values():
        places = [place for place, it in enumerate(bucket.items) if tuple(it) == (0, 0)] if bucket.alg == "tree" else []
        if not places:
            continue
        weighed = any(item == 0 and weight > 0 for item, weight in bucket.items)
        elsewhere = any(
            item == 0 and weight > 0
            for other in buckets.values()
            if other is not bucket and not other.shadow
            for item, weight in other.items
        )
        among_buckets = any(item is not None and item < 0 for item, _ in bucket.items)
        first = 0 if weighed or elsewhere or among_buckets or not devices_known else 1
        for place in places[first:]:
            bucket.items[place] = (None, 0)
