"""Clusters of the comparison of crushplan with Ceph: those with names, and random ones by a seed.

Each has a compiled CRUSH map, pools, states of devices and upmap items. Holes are left by crushtool
--remove-item, as a cluster leaves them.
"""
import pathlib
import random

import library
from make_clusters import ERASURE, ONE_LEVEL, REPLICATED
from make_maps import HOST, LEGACY, ONE, OSD, RACK, Map, chosen, hosts_of, leaves, tree_of

KINDS = ("list", "tree", "uniform", "straw2", "straw2")


class PlanMap(Map):
    """A map with the rules that the pools name, under the root -1."""

    def rules(self):
        return (
            *ONE_LEVEL,
            ("two-levels", 4, REPLICATED, ("take -1", chosen("firstn", 2, "host"), chosen("firstn", 2, "osd"), "emit")),
            (
                "two-takes",
                5,
                REPLICATED,
                ("take -1", leaves("firstn", 1), "emit", "take -1", leaves("firstn", -1), "emit"),
            ),
            ("racks", 6, REPLICATED, ("take -1", leaves("firstn", 0, "rack"), "emit")),
            ("one-device-first", 7, REPLICATED, ("take 0", "emit", "take -1", leaves("firstn", -1), "emit")),
        )

    def rule_lines(self):
        return [line for it in self.rules() for line in self.lines_of_rule(*it)]


def pool(id_, rule, size, pg_num, *, kind=None, pgp_num=None, hashpspool=True, min_size=None):
    """A pool; its kind is that of its rule, which is one of PlanMap where no kind is given."""
    return {
        "id": id_, "kind": kind or (ERASURE if rule in (1, 3) else REPLICATED), "size": size, "rule": rule,
        "pg_num": pg_num, "pgp_num": pgp_num or pg_num, "hashpspool": hashpspool, "name": f"pool-{id_}",
        "min_size": min_size or max(1, size - 1),
    }  # fmt: skip


class Cluster:
    """A cluster before Ceph is asked. `removed` are devices that crushtool takes out of the map,
    `upmaps` how many groups get upmap items, `affinities` the primary affinities in 65536ths that
    aren't 1, by device; `ruleless` are pools that can't be computed."""

    def __init__(
        self, name, map_, pools, *, states=None, removed=(), upmaps=0, drains=None, affinities=None, ruleless=(), seed=0
    ):
        self.name, self.map, self.pools, self.removed, self.upmaps = (
            name,
            map_,
            sorted(pools, key=lambda it: it["id"]),
            removed,
            upmaps,
        )
        self.drawn = random.Random(f"{name} {seed}")
        self.states = states or [(ONE, True)] * map_.devices
        self.drains, self.affinities, self.ruleless = drains, affinities or {}, ruleless

    def names(self, level):
        """Names of the buckets of a level, or of the devices that are still there."""
        if level == OSD:
            return [f"osd.{it}" for it in range(self.map.devices) if it not in self.removed]
        return [
            self.map.item_name(id_)
            for id_, type_, _, items in self.map.buckets
            if type_ == level and any(self.stays(it) for it, _ in items)
        ]

    def emptied(self, devices):
        """The kinds of the buckets that lose their last device. crushtool of release 16 frees the
        items of such a list, tree or uniform bucket twice; of a tree bucket it then writes what
        stands in that memory."""
        lost = {*self.removed, *devices}
        return {
            kind
            for _, _, kind, items in self.map.buckets
            if any(it in devices for it, _ in items) and all(it in lost for it, _ in items)
        }

    def stays(self, item):
        if item >= 0:
            return item not in self.removed
        return any(self.stays(it) for id_, _, _, items in self.map.buckets if id_ == item for it, _ in items)


def uneven(drawn):
    """Weights as clusters have them: sizes of disks, and some that three decimals round."""
    return lambda d: drawn.choice((ONE, ONE * 3 // 2, 59_583, 119_141, 238_419, 29_804, 953_344))


def mixed_states(drawn, devices, share=0.3):
    return [
        (
            drawn.choice((0, ONE // 2, 1, ONE - 1, drawn.randrange(ONE))) if drawn.random() < share else ONE,
            drawn.random() > share / 3,
        )
        for _ in range(devices)
    ]


def named_clusters():
    drawn = random.Random("crushplan")
    basic = lambda: [
        pool(1, 0, 3, 128),
        pool(2, 1, 4, 64, min_size=3),
        pool(5, 2, 2, 100, pgp_num=37),
        pool(7, 4, 4, 33, hashpspool=False),
    ]
    yield Cluster("lists", tree_of(PlanMap("lists"), ["list"] * 3, weight=uneven(drawn)), basic())
    yield Cluster("trees", tree_of(PlanMap("trees"), ["tree"] * 3, weight=uneven(drawn)), basic(), upmaps=20)
    yield Cluster(
        "uniforms", tree_of(PlanMap("uniforms"), ["uniform"] * 3, racks=5, hosts=3, devices=4), basic(), upmaps=10
    )
    yield Cluster("mixed", tree_of(PlanMap("mixed"), ("tree", "list", "uniform"), racks=6), basic())
    yield Cluster(
        "legacy",
        hosts_of(PlanMap("legacy", LEGACY), ("list", "tree"), hosts=9, devices=4, weight=uneven(drawn)),
        [pool(1, 0, 3, 256), pool(2, 5, 3, 64)],
    )
    map_ = tree_of(PlanMap("reweighted"), ("list", "tree", "tree"), weight=uneven(drawn))
    yield Cluster("reweighted", map_, basic(), states=mixed_states(drawn, map_.devices), upmaps=20)
    map_ = tree_of(PlanMap("holes"), ["tree"] * 3, racks=3, hosts=4, devices=5, weight=uneven(drawn))
    yield Cluster("holes", map_, basic(), removed=(0, 1, 7, 8, 23, 31, 33, 59), upmaps=10)
    map_ = tree_of(PlanMap("holes-of-one"), ("list", "tree", "tree"), racks=3, hosts=4, devices=5)
    yield Cluster("holes-of-one", map_, basic(), removed=(11,))
    yield Cluster(
        "four-racks",
        tree_of(PlanMap("four-racks"), ["tree"] * 3, racks=4, hosts=5, devices=3),
        [pool(3, 6, 4, 512, min_size=2), pool(4, 0, 3, 128)],
        drains=[["rack7"], ["rack13", "osd.3"]],
    )
    yield Cluster(
        "few-hosts",
        hosts_of(PlanMap("few-hosts"), ("tree", "list"), hosts=3, devices=4, weight=uneven(drawn)),
        [pool(1, 0, 3, 128), pool(2, 1, 3, 64), pool(3, 0, 4, 32, min_size=2)],
        upmaps=10,
    )
    yield Cluster(
        "device-taken",
        hosts_of(PlanMap("device-taken"), ("list", "tree"), hosts=6, devices=4, weight=uneven(drawn)),
        [pool(1, 7, 3, 64), pool(2, 0, 3, 64)],
        upmaps=8,
        drains=[["osd.0"], ["host2"]],
    )
    map_ = tree_of(PlanMap("many-pools"), ("tree", "tree", "list"), racks=5, hosts=4, devices=4, weight=uneven(drawn))
    yield Cluster(
        "many-pools",
        map_,
        [
            pool(id_, rule, size, pg_num)
            for id_, (rule, size, pg_num) in enumerate(
                [
                    (0, 3, 64),
                    (1, 6, 32),
                    (2, 3, 17),
                    (3, 5, 48),
                    (4, 4, 64),
                    (5, 3, 31),
                    (6, 3, 64),
                    (0, 2, 128),
                    (1, 3, 8),
                    (0, 5, 16),
                ],
                1,
            )
        ],
        states=mixed_states(drawn, map_.devices, 0.1),
        upmaps=30,
    )
    map_ = hosts_of(PlanMap("thousand"), ("tree", "tree"), hosts=60, devices=17, weight=uneven(drawn))
    yield Cluster(
        "thousand",
        map_,
        [pool(1, 0, 3, 2048), pool(2, 1, 6, 512)],
        states=mixed_states(drawn, map_.devices, 0.02),
        removed=(40, 41, 500),
        upmaps=400,
    )
    map_ = tree_of(PlanMap("straw2"), ["straw2"] * 3, racks=4, hosts=4, devices=4, weight=uneven(drawn))
    yield Cluster(
        "straw2",
        map_,
        [*basic(), pool(9, 6, 3, 64)],
        states=mixed_states(drawn, map_.devices),
        removed=(5, 17),
        upmaps=30,
    )
    # a uniform bucket weighs 0 where crushtool has removed a device: once one of the last host
    # weighs 0, all together do, and Ceph then counts no weight as 0
    map_ = hosts_of(PlanMap("weightless"), ("uniform", "uniform"), hosts=4, devices=3)
    yield Cluster("weightless", map_, [pool(1, 0, 1, 64)], removed=(1, 4, 7), upmaps=40, drains=[["osd.10"], ["host2"]])
    yield Cluster(
        "straw2-and-others",
        tree_of(PlanMap("straw2-and-others"), ("straw2", "list", "straw2"), racks=5, hosts=3, devices=5),
        basic(),
        upmaps=10,
    )


def random_cluster(seed, number):
    """Draws a cluster: two or three levels, kinds of buckets by level or by bucket, weights,
    states, holes, pools and upmap items."""
    drawn = random.Random(f"{seed} {number}")
    map_ = PlanMap(f"random-{number}", drawn.choice(((50, 1, 1, 1), (50, 1, 1, 1), LEGACY, (30, 1, 2, 0))))
    kind = drawn.choice((*KINDS, None))
    weight = uneven(drawn) if drawn.random() < 0.8 else lambda d: ONE
    tops, racks = [], drawn.random() < 0.6
    for _ in range(drawn.randint(3, 5) if racks else drawn.randint(4, 9)):
        below = []
        for _ in range(drawn.randint(2, 4) if racks else 1):
            of, count = kind or drawn.choice(KINDS), drawn.randint(1, 6)
            id_, total = map_.bucket(of, HOST, map_.take_devices(count, (lambda d: ONE) if of == "uniform" else weight))
            # what a bucket says of an item needn't be the sum below it
            below.append((id_, total if drawn.random() < 0.8 else drawn.randrange(ONE, 8 * ONE)))
        tops.append(grouped(map_, drawn, kind, below) if racks else below[0])
    of = kind or drawn.choice(KINDS)
    map_.bucket(of, 10, even_where(of, tops), -1)
    usable = [0, 1, 2, 3, 4, 5] + ([6] if racks else []) + ([7] if drawn.random() < 0.3 else [])
    pools = []
    for id_ in sorted(drawn.sample(range(1, 40), drawn.randint(1, 4))):
        size, pg_num = drawn.randint(1, 6), drawn.choice((1, 7, 16, 32, 60, 128))
        pools.append(
            pool(
                id_,
                drawn.choice(usable),
                size,
                pg_num,
                pgp_num=drawn.randint(1, pg_num),
                hashpspool=drawn.random() < 0.8,
                min_size=drawn.randint(1, size),
            )
        )
    # never the last device of a bucket, nor one that a rule takes by name
    spare = [device for _, _, _, items in map_.buckets for device, _ in items[1:] if device >= 0]
    removed = drawn.sample(spare, min(drawn.randint(0, 4), len(spare))) if drawn.random() < 0.6 else ()
    states = mixed_states(drawn, map_.devices, drawn.choice((0, 0, 0.1, 0.3)))
    return Cluster(
        map_.name, map_, pools, states=states, removed=tuple(removed), upmaps=drawn.choice((0, 0, 5, 25)), seed=seed
    )


def grouped(map_, drawn, kind, below):
    of = kind or drawn.choice(KINDS)
    return map_.bucket(of, RACK, even_where(of, below))


def even_where(kind, items):
    return [(it, items[0][1]) for it, _ in items] if kind == "uniform" else items


def allowing(text):
    """A map's text by which new buckets are of straw2, as they are in clusters of today; without
    that crushtool makes straw buckets."""
    return text.replace("tunable choose_local_tries", "tunable allowed_bucket_algs 54\ntunable choose_local_tries", 1)


def compiled(cluster, folder):
    """Returns the file of the cluster's map, once its devices are removed by crushtool."""
    text, path = pathlib.Path(folder) / "made.txt", pathlib.Path(folder) / "made.bin"
    text.write_text(allowing(cluster.map.text()))
    library.run(["crushtool", "-c", text, "-o", path])
    if " class " in text.read_text():
        # the trees of classes get rows of the weight sets, as a cluster makes them
        library.run(["crushtool", "-i", path, "--rebuild-class-roots", "-o", path])
    for device in cluster.removed:
        library.run(["crushtool", "-i", path, "--remove-item", f"osd.{device}", "-o", path])
    return path


def removed_item(crush, device, path):
    """Removes an item by crushtool, which writes its file before it may abort (see `emptied`)."""
    try:
        library.run(["crushtool", "-i", crush, "--remove-item", f"osd.{device}", "-o", path])
    except library.Failed as why:
        if "double free" not in str(why) or not pathlib.Path(path).exists():
            raise
