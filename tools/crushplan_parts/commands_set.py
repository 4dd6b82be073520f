"""Commands on weight sets, by which the balancer or an operator places pools (CrushWrapper's
choose_args)."""
from .commands import number_in
from .crush_map import ONE, WeightSet
from .sets import ALL
from .wrapper import Refused, Wrapper, positions_of


def create(maps, words):
    name, mode = words.take(2, 2, "POOL flat|positional")
    pool = pool_in(maps, name)
    if mode not in ("flat", "positional"):
        raise Refused("EINVAL", f"unrecognized weight-set mode '{mode}'")
    return made(maps, pool.id, pool.size if mode == "positional" else 1)


def create_compat(maps, words):
    words.take(0, 0, "")
    return made(maps, ALL, 1)


def made(maps, key, positions):
    """Makes a set of the weights of the map. One that is there is kept, of either mode."""
    crush = maps.crush
    if any(it.alg != "straw2" for it in crush.buckets.values()):
        raise Refused("EPERM", "crush map contains one or more bucket(s) that are not straw2")
    if key in crush.weight_sets:
        return ["there is one, which stays as it is"]
    rows = {it.id: [[weight for _, weight in it.items] for _ in range(positions)] for it in crush.buckets.values()}
    crush.weight_sets[key] = WeightSet(rows)
    return []


def remove(maps, words):
    (name,) = words.take(1, 1, "POOL")
    return removed(maps, pool_in(maps, name).id)


def remove_compat(maps, words):
    words.take(0, 0, "")
    return removed(maps, ALL)


def removed(maps, key):
    return [] if maps.crush.weight_sets.pop(key, None) else ["there is none"]


def reweight(maps, words):
    name, item, *weights = words.take(3, None, "POOL ITEM WEIGHT..")
    return reweighted(maps, pool_in(maps, name).id, item, weights)


def reweight_compat(maps, words):
    item, *weights = words.take(2, None, "ITEM WEIGHT..")
    return reweighted(maps, ALL, item, weights)


def reweighted(maps, key, name, weights):
    """Gives an item its weights in a set, and the buckets above the sums of the set."""
    wrapper, own = Wrapper(maps.crush), maps.crush.weight_sets.get(key)
    if own is None:
        words = (
            "no backward-compatible weight-set exists; create it with 'ceph osd crush weight-set create-compat'"
            if key == ALL
            else "no weight-set for the pool"
        )
        raise Refused("ENOENT", words)
    item = wrapper.id_of(name)
    if item is None:
        raise Refused("ENOENT", f"item '{name}' does not exist")
    values = [int(number_in(it, 0) * ONE) for it in weights]
    if key != ALL and len(values) != positions_of(own):
        raise Refused("EINVAL", f"must specify exact {positions_of(own)} weight values")
    if not wrapper.adjust_row(own, item, values):
        raise Refused("ENOENT", f"item {item} not found in crush map")
    return []


def pool_in(maps, name):
    found = maps.pool_named(name)
    if found is None:
        raise Refused("ENOENT", f"unrecognized pool '{name}'")
    return found


COMMANDS = {
    ("osd", "crush", "weight-set", "create"): create,
    ("osd", "crush", "weight-set", "create-compat"): create_compat,
    ("osd", "crush", "weight-set", "rm"): remove,
    ("osd", "crush", "weight-set", "rm-compat"): remove_compat,
    ("osd", "crush", "weight-set", "reweight"): reweight,
    ("osd", "crush", "weight-set", "reweight-compat"): reweight_compat,
}
