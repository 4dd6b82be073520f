"""Random clusters by a seed for the comparison of crushplan balance: straw2, classes, even and
uneven hosts, racks, devices out and reweighted, earlier upmap items; replicated and erasure pools
of one level and of two."""
import random

from make_maps import HOST, ONE, RACK, ROOT, chosen, leaves
from plan_clusters import ERASURE, REPLICATED, Cluster, pool
from today_clusters import TodayMap

OVER = ("set_chooseleaf_tries 5", "set_choose_tries 100")
HDD, SSD = "take -1 hdd", "take -1 ssd"
# of each rule whether it has two levels, and whether it needs racks
RULES = (
    ("hosts", REPLICATED, ("take -1", leaves("firstn"), "emit")),
    ("hosts-of-hdd", REPLICATED, (HDD, leaves("firstn"), "emit")),
    ("parts", ERASURE, (*OVER, "take -1", leaves("indep"), "emit")),
    ("parts-of-hdd", ERASURE, (*OVER, HDD, leaves("indep"), "emit")),
    ("devices-of-parts", ERASURE, (*OVER, "take -1", chosen("indep", 0, "osd"), "emit")),
    ("ssd-first", REPLICATED, (SSD, leaves("firstn", 1), "emit", HDD, leaves("firstn", -1), "emit")),
    ("two-of-hosts", ERASURE, (*OVER, "take -1", chosen("indep", 3, "host"), chosen("indep", 2, "osd"), "emit")),
    ("racks", REPLICATED, ("take -1", leaves("firstn", 0, "rack"), "emit")),
    ("two-of-racks", REPLICATED, ("take -1", chosen("firstn", 2, "rack"), leaves("firstn", 2), "emit")),
    ("parts-of-racks", ERASURE, (*OVER, "take -1", chosen("indep", 3, "rack"), leaves("indep", 2), "emit")),
)
NUMBER = {name: number for number, (name, _, _) in enumerate(RULES)}
TWO_LEVELS = ("two-of-hosts", "two-of-racks", "parts-of-racks")
SIZES = {
    "parts": (3, 6), "parts-of-hdd": (3, 6), "devices-of-parts": (6,), "ssd-first": (3,), "two-of-hosts": (6,),
    "two-of-racks": (4,), "parts-of-racks": (6,), "racks": (2, 3), "hosts": (2, 3, 3, 4), "hosts-of-hdd": (2, 3, 3),
}  # fmt: skip


class BalanceMap(TodayMap):
    """A map with these rules, of which devices have the class ssd with a chance of `ssd`."""

    def __init__(self, name, seed, ssd):
        super().__init__(name, seed=seed)
        self.ssd = ssd

    def rules(self):
        return [(name, number, kind, steps) for number, (name, kind, steps) in enumerate(RULES)]

    def text(self):
        for device in range(self.devices):
            first = device < 12 and device % 3 == 0  # so that each class is in several hosts
            self.class_of.setdefault(device, "ssd" if first or self.drawn.random() < self.ssd else "hdd")
        return super().text()


def drawn_weight(drawn):
    """Returns a function that draws the weight of a device: all alike, of two sizes, or of many."""
    return drawn.choice((
        lambda d: ONE, lambda d: drawn.choice((119_141, 238_419)),
        lambda d: drawn.choice((ONE, ONE * 3 // 2, 59_583, 119_141, 238_419)),
    ))  # fmt: skip


def drawn_states(drawn, devices):
    """Returns states of devices, all of which are up: some are out, some have a reweight."""
    out, less = drawn.choice((0, 0.01, 0.04)), drawn.choice((0, 0.03, 0.1))
    reweight = lambda: 0 if drawn.random() < out else drawn.randrange(ONE // 2, ONE) if drawn.random() < less else ONE
    return [(reweight(), True) for _ in range(devices)]


def drawn_pools(drawn, devices, racks, hosts):
    """Returns pools by some of the rules, with groups as many as such a cluster has."""
    names = [it for it in NUMBER if it not in ("racks", "two-of-racks", "parts-of-racks") or racks >= 4]
    found, count = [], drawn.randint(1, 6)
    for id_ in sorted(drawn.sample(range(1, 40), count)):
        name = drawn.choice(names)
        size = drawn.choice(SIZES[name])
        if name in ("parts", "parts-of-hdd", "two-of-hosts", "devices-of-parts") and hosts < 9:
            name, size = "hosts", 3
        if name == "racks" and size >= racks:
            size = racks - 1
        if name == "parts-of-racks" and racks < 4:
            name, size = "hosts", 3
        groups = devices * drawn.choice((20, 60, 120)) / count / size
        pg_num = max(16, 1 << max(1, round(groups)).bit_length() - 1)
        pg_num += drawn.choice((0, 0, 0, pg_num // 3))
        found.append(pool(id_, NUMBER[name], size, min(pg_num, 4096), kind=RULES[NUMBER[name]][1], min_size=1))
    return found


def random_balance(seed, number):
    """Draws a cluster."""
    drawn = random.Random(f"balance {seed} {number}")
    racks = drawn.randint(4, 8) if drawn.random() < 0.5 else 0
    map_ = BalanceMap(f"balance-{number}", f" {seed}", drawn.choice((0.1, 0.3)))
    weight, even, usual, tops = drawn_weight(drawn), drawn.random() < 0.4, drawn.randint(3, 12), []
    hosts = 0
    for _ in range(racks or drawn.randint(4, 25)):
        count = drawn.randint(2, 5) if racks else 1
        sizes = [usual if even else drawn.randint(2, 12) for _ in range(count)]
        below = [map_.bucket("straw2", HOST, map_.take_devices(it, weight)) for it in sizes]
        tops.append(map_.bucket("straw2", RACK, below) if racks else below[0])
        hosts += count
    map_.bucket("straw2", ROOT, tops, -1)
    pools = drawn_pools(drawn, map_.devices, racks, hosts)
    states, upmaps = drawn_states(drawn, map_.devices), drawn.choice((0, 10, 40))
    return Cluster(map_.name, map_, pools, states=states, upmaps=upmaps, seed=seed)
