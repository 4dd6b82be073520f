"""Weight sets (choose_args): weights by which pools are placed in the place of those of the map.
Ceph's balancer makes them in its mode crush-compat."""
import struct

from .crush_map import ONE
from .faults import some

ALL = -1  # the key of the set of all pools that have none of their own
FLOAT = 256 * ONE  # weights below it are exact as floats of 24 bits, which a dump has


def key_of(map_, pool):
    """Returns the key of the weight set that a pool is placed by, or None."""
    return next((it for it in (pool, ALL) if it in map_.weight_sets), None)


def name_of(key):
    return f"the weight set choose_args {key}" + (" of all pools" if key == ALL else "")


def own_rows(map_, key, buckets):
    """Yields the straw2 buckets among some that a set has a row for, with its positions: other
    kinds pick by the map's own weights."""
    rows = map_.weight_sets[key].rows if key is not None else {}
    for it in buckets:
        if it in rows and map_.buckets[it].alg == "straw2":
            yield map_.buckets[it], rows[it]


def fault_of(map_, key, buckets):
    """Returns why a set can't be computed on some buckets, as a kind and words, or None."""
    for bucket, positions in own_rows(map_, key, buckets):
        if any(it != positions[0] for it in positions):
            return (
                "weight set",
                (
                    f"{name_of(key)} has other weights for each of {len(positions)} places of a list, which crushcalc"
                    " doesn't compute: one made by 'weight-set create POOL flat' it does"
                ),
            )
        if any(len(it) != len(bucket.items) for it in positions):
            return (
                "weight set",
                f"{name_of(key)} has {len(positions[0])} weights for the {len(bucket.items)} items of {bucket.name}",
            )
    ids = {*map_.weight_sets[key].with_ids} & set(buckets) if key is not None else ()
    if ids:
        names = some([map_.buckets[it].name for it in ids], 3)
        return "weight set", f"{name_of(key)} has other ids for the items of {names}, which crushcalc doesn't compute"
    return None


def rows_of(map_, key, buckets):
    """Returns the weights of a set, by bucket, where they aren't the map's own."""
    found = {bucket.id: positions[0] for bucket, positions in own_rows(map_, key, buckets) if positions}
    return {id_: row for id_, row in found.items() if row != [weight for _, weight in map_.buckets[id_].items]}


def as_float(weight):
    """Returns the 65536ths that a dump has of a weight, by a float of 24 bits."""
    return int(struct.unpack("f", struct.pack("f", weight))[0])


def sharpen(map_, own):
    """Finds the weights of 256 and more, which a dump rounds: a bucket weighs what its own row has
    together."""
    rows = {id_: it[0] for id_, it in own.rows.items() if len(it) == 1}

    def total(item):
        # of a bucket without a row the map has the weight
        return sum(rows[item]) if item in rows else map_.buckets[item].weight()

    def visit(id_, seen):
        if id_ in seen or id_ not in map_.buckets:
            return
        seen.add(id_)
        items = [item for item, _ in map_.buckets[id_].items]
        for item in items:
            visit(item, seen)
        for place, item in enumerate(items if len(items) == len(rows.get(id_, ())) else ()):
            weight = rows[id_][place]
            if weight >= FLOAT and item in map_.buckets and as_float(total(item)) == weight:
                rows[id_][place] = total(item)
            elif weight >= FLOAT:
                own.rounded = True

    seen = set()
    for id_ in rows:
        visit(id_, seen)
