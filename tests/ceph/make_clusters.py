"""The clusters of the comparison of placements: each a map with several rules, pools, states of its
devices, one after the other, and names of objects.

The same clusters are made each time. README.md says what they cover, and what is kept out.
"""
import random

from make_maps import LEGACY, ONE, Map, chosen, even, hosts_of, leaves, tree_of, uneven

REPLICATED, ERASURE = "replicated", "erasure"
OF_PARTS = ("set_chooseleaf_tries 5", "set_choose_tries 100", "take -1", leaves("indep"), "emit")
ONE_LEVEL = (
    ("hosts", 0, REPLICATED, ("take -1", leaves("firstn"), "emit")),
    ("hosts-of-parts", 1, ERASURE, OF_PARTS),
    ("devices", 2, REPLICATED, ("take -1", chosen("firstn", 0, "osd"), "emit")),
    ("devices-of-parts", 3, ERASURE, ("take -1", chosen("indep", 0, "osd"), "emit")),
)
OBJECTS = (
    "a", "b", "rbd_data.1f3a6b8b4567.0000000000000a40", "10000000000.00000000", "with a blank", "a/b\\c\"d'e", "0", "-",
    "ä, 名前, 🦀", "12 bytes of..", "elevenbytes", "a" * 261, "".join(chr(33 + i % 90) for i in range(1024)),
)  # fmt: skip
POOLS_WITH_OBJECTS = (3, 8, 12, 2_147_483_647)
# (id, kind, size, rule, pg_num, pgp_num, hashpspool) of a cluster's pools
POOLS = (
    (1, REPLICATED, 1, 0, 1, 1, True),
    (2, REPLICATED, 2, 0, 12, 12, True),
    (3, REPLICATED, 3, 0, 100, 37, True),
    (4, REPLICATED, 4, 2, 33, 32, False),
    (5, REPLICATED, 5, 4, 255, 129, True),
    (6, REPLICATED, 6, 6, 64, 7, True),
    (7, ERASURE, 1, 1, 3, 2, True),
    (8, ERASURE, 2, 3, 31, 31, False),
    (9, ERASURE, 3, 1, 48, 1, True),
    (10, ERASURE, 4, 5, 127, 100, True),
    (11, ERASURE, 5, 3, 65, 64, True),
    (12, ERASURE, 6, 1, 300, 257, True),
    (4_000, REPLICATED, 3, 200, 7, 5, False),
    (65_536, REPLICATED, 10, 2, 6, 6, True),
    (2_147_483_647, ERASURE, 10, 5, 20, 11, True),
    (2_147_483_000, REPLICATED, 3, 0, 1_000, 999, False),
)


class Cluster(Map):
    """A map with the rules that the pools name, under the root -1; MIDDLE is the type of its
    buckets below the root."""

    def __init__(self, name, middle, tunables=None):
        super().__init__(name, *([tunables] if tunables else []))
        self.middle = middle

    def rules(self):
        middle = self.middle
        return (
            *ONE_LEVEL,
            ("two-levels", 4, REPLICATED, ("take -1", chosen("firstn", 3, middle), chosen("firstn", 2, "osd"), "emit")),
            (
                "two-levels-of-parts",
                5,
                ERASURE,
                ("take -1", chosen("indep", 4, middle), chosen("indep", 2, "osd"), "emit"),
            ),
            (
                "two-takes",
                6,
                REPLICATED,
                ("take -1", leaves("firstn", 1), "emit", "take -1", leaves("firstn", -1), "emit"),
            ),
            ("one-device-first", 200, REPLICATED, ("take 0", "emit", "take -1", leaves("firstn", -1), "emit")),
        )

    def rule_lines(self):
        return [line for it in self.rules() for line in self.lines_of_rule(*it)]

    def pools(self):
        keys = ("id", "kind", "size", "rule", "pg_num", "pgp_num", "hashpspool")
        return [{**dict(zip(keys, it)), "name": f"pool-{it[0]}"} for it in POOLS]

    def states(self):
        """Lists of a reweight and up or down for each device."""
        choice, devices = random.Random(self.name), range(self.devices)
        yield [(ONE, True) for _ in devices]
        yield [(ONE, d % 3 != 1) for d in devices]
        yield [((0, ONE, ONE // 2, 1, ONE - 1, ONE, 4096)[d % 7], True) for d in devices]
        yield [(choice.choice((0, ONE, ONE, choice.randrange(ONE))), choice.random() < 0.7) for _ in devices]
        yield [(ONE, d == 5) for d in devices]
        yield [(choice.choice((ONE, ONE // 2)), False) for d in devices]


def all_clusters():
    yield tree_of(Cluster("lists", "rack"), ["list"] * 3, weight=uneven)
    yield tree_of(Cluster("uniforms", "rack"), ["uniform"] * 3, racks=5, hosts=3, devices=4, weight=even)
    yield tree_of(Cluster("trees", "rack"), ["tree"] * 3, weight=uneven)
    yield tree_of(Cluster("mixed", "rack"), ("tree", "list", "uniform"), racks=6, weight=uneven)
    yield hosts_of(Cluster("hosts-alone", "host", LEGACY), ("tree", "list"), hosts=11, devices=5, weight=uneven)
    yield tree_of(Cluster("straw2", "rack"), ["straw2"] * 3, weight=uneven)
    yield tree_of(
        Cluster("straw2-and-others", "rack"),
        ("straw2", "tree", "straw2"),
        racks=5,
        devices=5,
        weight=lambda d: 0 if d % 11 == 3 else uneven(d),
    )
    yield hosts_of(Cluster("few-hosts", "host"), ("uniform", "tree"), hosts=3, devices=6, weight=uneven)
