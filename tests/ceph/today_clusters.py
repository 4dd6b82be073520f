"""Clusters of today for the comparison of crushplan: straw2 at every level, device classes and
rules that take one, weight sets of all pools and of one, upmap items, primary affinities. Those
with names, and random ones by a seed."""
import random

from make_maps import HOST, ONE, RACK, ROOT, chosen, hosts_of, leaves, tree_of, weight_text
from plan_clusters import ERASURE, REPLICATED, Cluster, PlanMap, mixed_states, pool, uneven

CLASSES = ("hdd", "hdd", "ssd")
FIRST = 9  # devices that have the classes in turn, so that each rule can answer
ALL_POOLS = 2**64 - 1  # the key of the weight set of all pools, as crushtool writes -1
OVER = ("set_chooseleaf_tries 5", "set_choose_tries 100")
RULES = (
    ("hosts", REPLICATED, ("take -1", leaves("firstn"), "emit")),
    ("hosts-of-hdd", REPLICATED, ("take -1 hdd", leaves("firstn"), "emit")),
    ("parts-of-hdd", ERASURE, (*OVER, "take -1 hdd", leaves("indep"), "emit")),
    (
        "ssd-first",
        REPLICATED,
        ("take -1 ssd", leaves("firstn", 1), "emit", "take -1 hdd", leaves("firstn", -1), "emit"),
    ),
    ("devices-of-ssd", REPLICATED, ("take -1 ssd", chosen("firstn", 0, "osd"), "emit")),
    ("parts", ERASURE, (*OVER, "take -1", leaves("indep"), "emit")),
    ("two-of-hdd-each", REPLICATED, ("take -1 hdd", chosen("firstn", 0, "host"), chosen("firstn", 2, "osd"), "emit")),
    ("racks-of-hdd", REPLICATED, ("take -1 hdd", leaves("firstn", 0, "rack"), "emit")),
)
NUMBER = {name: number for number, (name, _, _) in enumerate(RULES)}


class TodayMap(PlanMap):
    """A map with a class for each device, by a draw, and weight sets: `sets` are the ids of their
    pools. `whole` is whether their rows are those of all buckets."""

    def __init__(self, name, sets=(), seed="", whole=False):
        super().__init__(name)
        self.drawn, self.sets, self.whole = random.Random(f"today {name}{seed}"), sets, whole
        self.class_of = {}

    def rules(self):
        return [(name, number, kind, steps) for number, (name, kind, steps) in enumerate(RULES)]

    def text(self):
        found = super().text()
        for device in range(self.devices):
            class_ = self.class_of.setdefault(
                device, CLASSES[device % 3] if device < FIRST else self.drawn.choice(CLASSES)
            )
            found = found.replace(f"device {device} osd.{device}\n", f"device {device} osd.{device} class {class_}\n")
        return found + "".join(self.set_text(key) for key in self.sets)

    def set_text(self, key):
        """A weight set; some hosts have no row in it."""
        rows = []
        for id_, type_, _, items in self.buckets:
            if self.whole or type_ != HOST or self.drawn.random() < 0.7:
                weights = " ".join(weight_text(int(weight * self.drawn.uniform(0.8, 1.2))) for _, weight in items)
                rows += ["  {", f"    bucket_id {id_}", f"    weight_set [ [ {weights} ] ]", "  }"]
        return "\n".join([f"choose_args {key} {{", *rows, "}"]) + "\n"


def of_rule(id_, name, size, pg_num, **more):
    """A pool of a rule."""
    return pool(id_, NUMBER[name], size, pg_num, kind=RULES[NUMBER[name]][1], **more)


def today_clusters():
    """Clusters with names."""
    drawn = random.Random("crushplan today")
    pools = lambda: [
        of_rule(1, "hosts", 3, 96),
        of_rule(2, "hosts-of-hdd", 3, 64),
        of_rule(3, "ssd-first", 3, 50, pgp_num=33),
        of_rule(4, "devices-of-ssd", 2, 16),
    ]
    map_ = tree_of(TodayMap("classes"), ["straw2"] * 3, racks=3, hosts=3, devices=3, weight=uneven(drawn))
    yield Cluster(
        "classes",
        map_,
        [*pools(), of_rule(6, "parts-of-hdd", 4, 32, min_size=3)],
        states=mixed_states(drawn, map_.devices, 0.1),
        upmaps=20,
    )
    map_ = tree_of(
        TodayMap("weight-sets", (ALL_POOLS, 2)),
        ["straw2"] * 3,
        racks=3,
        hosts=3,
        devices=3,
        weight=lambda d: ONE * (1 + d % 3),
    )
    yield Cluster("weight-sets", map_, pools(), states=mixed_states(drawn, map_.devices, 0.05), upmaps=10)
    map_ = tree_of(TodayMap("affinities"), ["straw2"] * 3, racks=3, hosts=3, devices=3, weight=uneven(drawn))
    affinities = {it: drawn.choice((0, 1, ONE // 2, ONE - 1)) for it in drawn.sample(range(map_.devices), 12)}
    yield Cluster(
        "affinities", map_, [*pools(), of_rule(6, "parts-of-hdd", 4, 32, min_size=3)], upmaps=20, affinities=affinities
    )
    # Ceph finds no rule for a pool whose kind isn't its rule's, nor for one of another size than it
    # may have
    map_ = tree_of(TodayMap("no-rule"), ["straw2"] * 3, racks=3, hosts=3, devices=3, weight=uneven(drawn))
    yield Cluster(
        "no-rule",
        map_,
        [
            *pools(),
            pool(5, NUMBER["hosts"], 3, 32, kind=ERASURE),
            pool(6, NUMBER["parts-of-hdd"], 4, 16, kind=REPLICATED),
            of_rule(7, "hosts", 11, 8),
        ],
        ruleless=(5, 6, 7),
    )
    yield Cluster(
        "straw",
        tree_of(TodayMap("straw"), ["straw"] * 3, racks=3, hosts=3, devices=3, weight=uneven(drawn)),
        pools(),
        ruleless=(1, 2, 3, 4),
    )
    # a device that is removed has the rows of a set summed up anew, also in the trees without it
    map_ = hosts_of(TodayMap("other-class", (ALL_POOLS,)), ["straw2"] * 2, hosts=5, devices=3, weight=uneven(drawn))
    both = [of_rule(1, "hosts-of-hdd", 3, 64), of_rule(2, "devices-of-ssd", 2, 16)]
    yield Cluster("other-class", map_, both, upmaps=6, drains=[["osd.2"], ["host2"]])


def random_today(seed, number):
    """Draws a cluster of today: two or three levels, weights, classes, weight sets, states,
    affinities, removed devices, pools and upmap items."""
    drawn = random.Random(f"today {seed} {number}")
    racks = drawn.randint(3, 5) if drawn.random() < 0.6 else 0
    ids = sorted(drawn.sample(range(1, 40), drawn.randint(2, 4)))
    sets = drawn.choice(((), (ALL_POOLS,), (ALL_POOLS,), (drawn.choice(ids),), (ALL_POOLS, drawn.choice(ids))))
    map_ = TodayMap(f"today-{number}", sets, f" {seed}", drawn.random() < 0.5)
    weight, tops = uneven(drawn), []
    for _ in range(racks or drawn.randint(4, 9)):
        hosts = [
            map_.bucket("straw2", HOST, map_.take_devices(drawn.randint(2, 5), weight))
            for _ in range(drawn.randint(2, 3) if racks else 1)
        ]
        tops.append(map_.bucket("straw2", RACK, hosts) if racks else hosts[0])
    map_.bucket("straw2", ROOT, tops, -1)
    pools = []
    for id_ in ids:
        name, size, pg_num = (
            drawn.choice(list(NUMBER)[: len(RULES) if racks else -1]),
            drawn.randint(1, 5),
            drawn.choice((1, 7, 16, 32, 60, 128)),
        )
        pools.append(
            of_rule(
                id_,
                name,
                size,
                pg_num,
                pgp_num=drawn.randint(1, pg_num),
                hashpspool=drawn.random() < 0.8,
                min_size=drawn.randint(1, size),
            )
        )
    spare = [device for _, _, _, items in map_.buckets for device, _ in items[1:] if device >= FIRST]
    removed = drawn.sample(spare, min(drawn.randint(1, 3), len(spare))) if drawn.random() < 0.3 else ()
    states = mixed_states(drawn, map_.devices, drawn.choice((0, 0, 0.1, 0.2)))
    affinities = (
        {it: drawn.randrange(ONE) for it in drawn.sample(range(map_.devices), 6)} if drawn.random() < 0.4 else {}
    )
    return Cluster(
        map_.name,
        map_,
        pools,
        states=states,
        removed=tuple(removed),
        upmaps=drawn.choice((5, 15, 25)),
        affinities=affinities,
        seed=seed,
    )
