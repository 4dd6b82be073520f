#!/usr/bin/env python3
"""The maps of the comparison with Ceph; run, it writes them beside this file, in maps/, as CRUSH
map texts.

usage: tests/ceph/make_maps.py

README.md says what they cover, and which maps are kept out. The same maps are written each time.
"""
import pathlib
import random

HERE = pathlib.Path(__file__).resolve().parent
ONE = 65536
OSD, HOST, RACK, ROOT = 0, 1, 3, 10
TYPES = {OSD: "osd", HOST: "host", RACK: "rack", ROOT: "root"}
TUNABLES = ("choose_total_tries", "chooseleaf_descend_once", "chooseleaf_vary_r", "chooseleaf_stable")
JEWEL, LEGACY = (50, 1, 1, 1), (19, 0, 0, 0)
MARK = "# crushcalc: straw2"  # the first line of each text with straw2 buckets; crushtool passes over it
KINDS = ("uniform", "list", "tree")
WITH_STRAW2 = ("straw2", "straw2", "straw2", *KINDS)


def weight_text(weight):
    """All digits of a 16.16 weight, so that every reader has the same one: w / 65536 ends after 16
    digits."""
    return f"{weight >> 16}." + (f"{(weight & 65535) * 10**16 // 65536:016d}".rstrip("0") or "0")


class Map:
    """A map with one rule, 0, while it is declared; buckets below the root -1 have ids from -2
    on."""

    def __init__(self, name, tunables=JEWEL):
        self.name, self.tunables, self.devices, self.ids = name, tunables, 0, None
        self.buckets, self.reweights, self.steps, self.sizes, self.type_of, self.next = [], [], (), (3,), {}, -2

    def take_devices(self, count, weight=lambda d: ONE):
        first = self.devices
        self.devices += count
        return [(d, weight(d)) for d in range(first, first + count)]

    def name_devices(self, entries):
        """Devices of these ids, given with their weights, instead of those from 0 on."""
        self.ids = sorted([*(self.ids or []), *(d for d, _ in entries)])
        self.devices = self.ids[-1] + 1
        return entries

    def bucket(self, kind, type_, entries, id_=None):
        if id_ is None:
            id_, self.next = self.next, self.next - 1
        self.buckets.append((id_, type_, kind, tuple(entries)))
        self.type_of[id_] = type_
        return id_, sum(w for _, w in entries)

    def reweight(self, device, weight):
        self.reweights.append((device, weight))

    def rule(self, *steps, sizes=(3,)):
        self.steps, self.sizes = steps, sizes
        return self

    def shares(self, inputs):
        """The sizes of answers, each with its first input and their number."""
        share = [inputs // len(self.sizes) + (1 if i < inputs % len(self.sizes) else 0) for i in range(len(self.sizes))]
        return [(size, sum(share[:i]), share[i]) for i, size in enumerate(self.sizes)]

    def item_name(self, id_):
        return f"osd.{id_}" if id_ >= 0 else f"{TYPES[self.type_of[id_]]}{-id_}"

    def step_text(self, step):
        word, *rest = step.split()
        if word == "take":
            return " ".join([f"take {self.item_name(int(rest[0]))}", *(f"class {it}" for it in rest[1:])])
        return f"{word} {rest[0]} {rest[1]} type {TYPES[int(rest[2])]}" if word in ("choose", "chooseleaf") else step

    def text(self):
        """The CRUSH map text; crushtool of release 16 wants the sizes in the rule."""
        lines = [MARK] if any(kind == "straw2" for _, _, kind, _ in self.buckets) else []
        lines += ["# begin crush map", "tunable choose_local_tries 0", "tunable choose_local_fallback_tries 0"]
        lines += [f"tunable {name} {value}" for name, value in zip(TUNABLES, self.tunables)]
        lines += ["", "# devices"] + [f"device {d} osd.{d}" for d in self.ids or range(self.devices)]
        lines += ["", "# types"] + [f"type {number} {name}" for number, name in TYPES.items()] + ["", "# buckets"]
        for id_, type_, kind, entries in self.buckets:
            items = [f"\titem {self.item_name(it)} weight {weight_text(weight)}" for it, weight in entries]
            lines += [
                f"{TYPES[type_]} {self.item_name(id_)} {{",
                f"\tid {id_}",
                f"\talg {kind}",
                "\thash 0",
                *items,
                "}",
            ]
        return "\n".join(lines + ["", "# rules", *self.rule_lines(), "", "# end crush map"]) + "\n"

    def rule_lines(self):
        return self.lines_of_rule("data", 0, "replicated", self.steps)

    def lines_of_rule(self, name, id_, type_, steps):
        return [
            f"rule {name} {{",
            f"\tid {id_}",
            f"\ttype {type_}",
            "\tmin_size 1",
            "\tmax_size 10",
            *(f"\tstep {self.step_text(it)}" for it in steps),
            "}",
        ]


def even(d):
    return ONE


def uneven(d):
    return ONE * (1 + d % 4) // 2


def tree_of(map_, kinds, racks=4, hosts=4, devices=3, weight=even, host_weight=None):
    """Racks of hosts of devices under the root -1. kinds are those of root, racks and hosts; a
    uniform one has equal weights."""
    root_kind, rack_kind, host_kind = kinds
    tops = []
    for r in range(racks):
        below = []
        for h in range(hosts):
            id_, total = map_.bucket(
                host_kind, HOST, map_.take_devices(devices, even if host_kind == "uniform" else weight)
            )
            below.append(
                (id_, devices * ONE if rack_kind == "uniform" else host_weight(r, h) if host_weight else total)
            )
        id_, total = map_.bucket(rack_kind, RACK, below)
        tops.append((id_, hosts * devices * ONE if root_kind == "uniform" else total))
    map_.bucket(root_kind, ROOT, tops, -1)
    return map_


def hosts_of(map_, kinds, hosts=8, devices=4, weight=even):
    """Hosts of devices under the root -1."""
    root_kind, host_kind = kinds
    tops = []
    for _ in range(hosts):
        id_, total = map_.bucket(
            host_kind, HOST, map_.take_devices(devices, even if host_kind == "uniform" else weight)
        )
        tops.append((id_, devices * ONE if root_kind == "uniform" else total))
    map_.bucket(root_kind, ROOT, tops, -1)
    return map_


def some_out(map_):
    for d in range(map_.devices):
        if d % 5 == 0:
            map_.reweight(d, 0)
        elif d % 5 in (1, 3):
            map_.reweight(d, ONE * (1 + d % 7) // 8)
    return map_


def leaves(mode, n=0, type_="host"):
    return f"chooseleaf {mode} {n} {dict(osd=OSD, host=HOST, rack=RACK)[type_]}"


def chosen(mode, n, type_):
    return f"choose {mode} {n} {dict(osd=OSD, host=HOST, rack=RACK)[type_]}"


ALL = tuple(range(1, 11))


def by_kind():
    for kind in (*KINDS, "straw2"):
        yield tree_of(Map(f"{kind}_firstn"), [kind] * 3, weight=uneven).rule(
            "take -1", leaves("firstn"), "emit", sizes=ALL
        )
        yield some_out(tree_of(Map(f"{kind}_indep"), [kind] * 3, weight=uneven)).rule(
            "take -1", leaves("indep"), "emit", sizes=ALL
        )
        yield some_out(hosts_of(Map(f"{kind}_two_levels_legacy", LEGACY), [kind] * 2, weight=uneven)).rule(
            "take -1", leaves("firstn"), "emit", sizes=(1, 2, 4, 7, 10)
        )
        yield some_out(hosts_of(Map(f"{kind}_devices"), [kind] * 2, weight=uneven)).rule(
            "take -1", chosen("firstn", 0, "osd"), "emit", sizes=(1, 3, 9)
        )


def mixed():
    yield some_out(tree_of(Map("mixed_firstn"), ("tree", "list", "uniform"), racks=5, weight=uneven)).rule(
        "take -1", leaves("firstn"), "emit", sizes=(2, 3, 6, 10)
    )
    yield some_out(tree_of(Map("mixed_indep", LEGACY), ("uniform", "tree", "list"), racks=3, weight=uneven)).rule(
        "take -1", leaves("indep"), "emit", sizes=(2, 3, 6, 10)
    )
    yield some_out(tree_of(Map("mixed_legacy_racks", LEGACY), ("list", "uniform", "tree"), weight=uneven)).rule(
        "take -1", leaves("firstn", 0, "rack"), "emit", sizes=(1, 3, 4, 5)
    )
    yield some_out(hosts_of(Map("uniform_sizes_that_numrep_divides"), ["uniform"] * 2, hosts=6, devices=4)).rule(
        "set_chooseleaf_tries 3", "take -1", leaves("indep"), "emit", sizes=(1, 2, 3, 4, 6, 8)
    )


def weights():
    def sparse(d):
        return 0 if d % 3 == 0 else ONE * (d % 4)

    for kind in ("list", "tree", "straw2"):
        for mode in ("firstn", "indep"):
            map_ = tree_of(
                Map(f"zero_weights_{kind}_{mode}"),
                [kind] * 3,
                devices=4,
                weight=sparse,
                host_weight=lambda r, h: 0 if h == r else ONE,
            )
            yield map_.rule("take -1", leaves(mode), "emit", sizes=(1, 3, 5))
    map_ = hosts_of(Map("reweights"), ("list", "tree"), hosts=6, weight=uneven)
    for d in range(map_.devices):
        map_.reweight(d, (0, 1, 4096, 32768, 65535, 65536, 65537, 2**31 - 1)[d % 8])
    yield map_.rule("take -1", leaves("firstn"), "emit", sizes=(1, 3, 6))
    map_ = hosts_of(Map("one_device_is_in"), ("uniform", "uniform"), hosts=3, devices=3)
    for d in range(map_.devices):
        map_.reweight(d, ONE if d == 4 else 0)
    yield map_.rule("take -1", leaves("firstn"), "emit", "take -1", leaves("indep"), "emit", sizes=(2, 4))


def levels():
    kinds = ("list", "tree", "uniform")
    yield some_out(tree_of(Map("racks_then_hosts_then_devices"), kinds, weight=uneven)).rule(
        "take -1",
        chosen("firstn", 2, "rack"),
        chosen("firstn", 2, "host"),
        chosen("firstn", 1, "osd"),
        "emit",
        sizes=(3, 4, 6),
    )
    yield some_out(tree_of(Map("racks_then_leaves"), kinds, weight=uneven)).rule(
        "take -1", chosen("firstn", 2, "rack"), leaves("firstn", 2), "emit", sizes=(3, 4, 6)
    )
    yield some_out(tree_of(Map("racks_then_leaves_legacy", LEGACY), kinds, weight=uneven)).rule(
        "take -1", chosen("firstn", 3, "rack"), leaves("firstn", -1), "emit", sizes=(3, 4, 6)
    )
    yield some_out(tree_of(Map("racks_then_leaves_indep"), kinds, weight=uneven)).rule(
        "set_chooseleaf_tries 5", "take -1", chosen("indep", 5, "rack"), leaves("indep", 2), "emit", sizes=(4, 8, 10)
    )
    yield some_out(tree_of(Map("indep_then_firstn"), kinds, weight=uneven)).rule(
        "take -1", chosen("indep", 6, "rack"), leaves("firstn", 2), "emit", sizes=(4, 10)
    )
    yield tree_of(Map("hosts_themselves"), kinds, weight=uneven).rule(
        "take -1", chosen("firstn", 0, "host"), "emit", "take -1", chosen("indep", -2, "rack"), "emit", sizes=(3, 10)
    )
    yield some_out(tree_of(Map("several_takes"), kinds, weight=uneven)).rule(
        "take -2",
        chosen("firstn", 1, "osd"),
        "emit",
        "take -1",
        leaves("firstn", -1),
        "emit",
        "take 7",
        "emit",
        sizes=(2, 5, 10),
    )
    yield some_out(tree_of(Map("takes_at_odds"), kinds, weight=uneven)).rule(
        "take 3",
        leaves("firstn"),
        "emit",
        "take -6",
        "take -11",
        chosen("indep", 2, "host"),
        leaves("firstn", 1, "osd"),
        "emit",
        "emit",
        "take -16",
        "emit",
        sizes=(1, 4),
    )


def counts():
    kinds = ("tree", "list", "list")
    for n, sizes in ((0, ALL), (-2, (1, 2, 3, 5)), (20, (1, 3, 10)), (2, (1, 2, 3))):
        name = str(n).replace("-", "minus_")
        yield some_out(tree_of(Map(f"count_{name}_firstn"), kinds, racks=2, hosts=3)).rule(
            "take -1", leaves("firstn", n), "emit", sizes=sizes
        )
        yield some_out(tree_of(Map(f"count_{name}_indep"), kinds, racks=2, hosts=3)).rule(
            "take -1", leaves("indep", n), "emit", sizes=sizes
        )


def tunables():
    kinds = ("list", "tree", "list")
    for vary_r in range(5):
        for stable in (0, 1):
            map_ = some_out(
                tree_of(Map(f"vary_r_{vary_r}_stable_{stable}", (30, 1, vary_r, stable)), kinds, weight=uneven)
            )
            yield map_.rule("take -1", leaves("firstn"), "emit", sizes=(2, 4, 6))
    map_ = some_out(tree_of(Map("descend_more_than_once", (40, 0, 1, 1)), kinds, weight=uneven))
    yield map_.rule("take -1", leaves("firstn"), "emit", sizes=(2, 4, 6))
    map_ = some_out(tree_of(Map("no_tries_left", (0, 1, 1, 1)), kinds, weight=uneven))
    yield map_.rule("take -1", leaves("firstn"), "emit", "take -1", leaves("indep"), "emit", sizes=(3, 6, 10))
    map_ = some_out(tree_of(Map("set_tries_firstn"), kinds, weight=uneven))
    yield map_.rule(
        "set_choose_tries 4",
        "set_chooseleaf_tries 3",
        "take -1",
        leaves("firstn"),
        "emit",
        "set_choose_tries 0",
        "set_chooseleaf_tries 1",
        "take -1",
        leaves("firstn", 1),
        "emit",
        sizes=(3, 6, 10),
    )
    map_ = some_out(tree_of(Map("set_tries_indep"), ("uniform", "tree", "uniform"), weight=uneven))
    yield map_.rule(
        "set_choose_tries 6", "set_chooseleaf_tries 2", "take -1", leaves("indep"), "emit", sizes=(3, 4, 6, 10)
    )
    map_ = some_out(tree_of(Map("set_vary_r_and_stable"), kinds, weight=uneven))
    yield map_.rule(
        "set_chooseleaf_vary_r 3",
        "set_chooseleaf_stable 0",
        "take -1",
        leaves("firstn", 2),
        "emit",
        "set_chooseleaf_vary_r 0",
        "set_chooseleaf_stable 1",
        "take -1",
        leaves("firstn", -2),
        "emit",
        sizes=(4, 6),
    )


def odd():
    map_ = Map("devices_beside_hosts")
    hosts = [map_.bucket("list", HOST, map_.take_devices(3)) for _ in range(3)]
    map_.bucket("list", ROOT, hosts + map_.take_devices(3), -1)
    yield map_.rule("take -1", leaves("firstn", 2), "emit", "take -1", leaves("indep", 4), "emit", sizes=(3, 6))
    map_ = Map("empty_buckets")
    hosts = [map_.bucket(kind, HOST, []) for kind in ("uniform", "list", "tree")]
    hosts += [map_.bucket("list", HOST, map_.take_devices(2)) for _ in range(3)]
    map_.bucket("list", ROOT, [(id_, ONE) for id_, _ in hosts], -1)
    yield map_.rule(
        "take -1",
        leaves("firstn", 3),
        "emit",
        "take -1",
        leaves("indep", 3),
        "emit",
        "take -2",
        chosen("indep", 2, "osd"),
        "emit",
        sizes=(4, 8),
    )
    map_ = Map("large_buckets")
    hosts = [
        map_.bucket(kind, HOST, map_.take_devices(count))
        for kind, count in (("uniform", 100), ("list", 120), ("tree", 64), ("tree", 63))
    ]
    map_.bucket("list", ROOT, hosts, -1)
    yield map_.rule("take -1", leaves("firstn", 3), "emit", "take -1", chosen("indep", 3, "osd"), "emit", sizes=(6,))


def straw2():
    kinds = ("straw2", "straw2", "straw2")
    yield some_out(tree_of(Map("straw2_lists_uniforms"), ("straw2", "list", "uniform"), racks=5, weight=uneven)).rule(
        "take -1", leaves("firstn"), "emit", sizes=(2, 3, 6, 10)
    )
    yield some_out(
        tree_of(Map("straw2_below_uniform_legacy", LEGACY), ("uniform", "tree", "straw2"), racks=3, weight=uneven)
    ).rule("take -1", leaves("indep"), "emit", sizes=(2, 3, 6, 10))
    yield tree_of(Map("straw2_even"), kinds, racks=8, hosts=4, devices=4).rule(
        "take -1", leaves("firstn"), "emit", "take -1", leaves("indep"), "emit", sizes=(3, 6)
    )
    choice = random.Random("straw2")
    yield some_out(
        tree_of(Map("straw2_of_any_weights"), kinds, racks=6, devices=9, weight=lambda d: choice.randrange(16 * ONE))
    ).rule("take -1", leaves("firstn"), "emit", "take -1", leaves("indep", 3), "emit", sizes=(4, 7))
    yield some_out(tree_of(Map("straw2_racks_then_hosts_then_devices"), kinds, weight=uneven)).rule(
        "take -1",
        chosen("firstn", 2, "rack"),
        chosen("firstn", 2, "host"),
        chosen("firstn", 1, "osd"),
        "emit",
        sizes=(3, 4, 6),
    )
    yield some_out(tree_of(Map("straw2_racks_then_leaves_indep"), kinds, weight=uneven)).rule(
        "set_chooseleaf_tries 5", "take -1", chosen("indep", 5, "rack"), leaves("indep", 2), "emit", sizes=(4, 8, 10)
    )
    map_ = tree_of(Map("straw2_nothing_weighs"), kinds, weight=lambda d: 0)
    yield map_.rule("take -1", leaves("firstn"), "emit", "take -5", chosen("indep", 2, "osd"), "emit", sizes=(1, 3))
    map_ = tree_of(
        Map("straw2_little_weighs"), kinds, weight=lambda d: int(d % 3 == 2), host_weight=lambda r, h: int(h != r)
    )
    yield map_.rule("take -1", leaves("firstn"), "emit", "take -1", leaves("indep"), "emit", sizes=(1, 3, 5))
    # weights above 856.4, by which different logarithms may give the same quotient; crushtool takes
    # none above 100.0 of a device
    map_ = tree_of(
        Map("straw2_of_great_weights"),
        kinds,
        racks=3,
        hosts=3,
        host_weight=lambda r, h: (900 * ONE, 5_000 * ONE, 1_000 * ONE)[h],
    )
    yield map_.rule(
        "take -1", leaves("firstn"), "emit", "take -1", chosen("firstn", 0, "rack"), "emit", sizes=(1, 3, 6)
    )
    map_ = hosts_of(Map("straw2_of_equal_great_weights"), ("list", "straw2"), hosts=12, devices=2)
    hosts = [(id_, 5_000 * ONE) for id_ in range(-13, -1)]
    map_.bucket("straw2", RACK, hosts, -20)
    yield map_.rule(
        "take -20", leaves("firstn"), "emit", "take -20", chosen("indep", 0, "host"), "emit", sizes=(1, 2, 8)
    )
    map_ = Map("straw2_of_a_thousand")
    map_.bucket("straw2", ROOT, map_.take_devices(1000, lambda d: 0 if d % 50 == 7 else ONE * (1 + d % 4)), -1)
    yield some_out(map_).rule(
        "take -1", chosen("firstn", 3, "osd"), "emit", "take -1", chosen("indep", 3, "osd"), "emit", sizes=(1, 6)
    )
    for size in range(1, 18):
        map_ = Map(f"straw2_of_{size}")
        map_.bucket("straw2", ROOT, map_.take_devices(size, lambda d: ONE * (1 + d % 2)), -77)
        yield map_.rule("take -77", chosen("firstn", 1, "osd"), "emit", sizes=(1,))
    map_ = Map("straw2_of_great_ids")
    entries = map_.name_devices(
        [(d, ONE * (1 + d % 3)) for d in (65535, 0, 65534, 32768, 9, 32767, 60000, 4096, 55160, 64590)]
    )
    map_.bucket("straw2", ROOT, entries, -65536)
    yield map_.rule("take -65536", chosen("firstn", 0, "osd"), "emit", sizes=(1, 3, 10))


def random_map(seed, kinds=KINDS, name="random"):
    choice = random.Random(seed)
    map_ = Map(f"{name}_{seed}", choice.choice([JEWEL, LEGACY, (10, 1, 2, 0), (7, 0, 3, 1), (50, 1, 4, 0)]))

    def bucket(type_, entries, id_=None):
        kind = choice.choice(kinds)
        if kind == "uniform":
            entries = [(i, ONE) for i, _ in entries]
        elif kind == "tree" and not any(w for _, w in entries):
            kind = "list"
        elif choice.random() < 0.3:
            entries = [(i, choice.choice((0, w, w // 3 + 1))) for i, w in entries]
            kind = kind if any(w for _, w in entries) else "list"
        return map_.bucket(kind, type_, entries, id_)

    def hosts(count):
        return [
            bucket(HOST, map_.take_devices(choice.randint(1, 7), lambda d: choice.randint(1, 4 * ONE)))
            for _ in range(count)
        ]

    tops = [bucket(RACK, hosts(choice.randint(1, 6))) for _ in range(choice.randint(2, 6))]
    if choice.random() < 0.3:
        tops += hosts(1)
    bucket(ROOT, tops, -1)
    for d in range(map_.devices):
        if choice.random() < 0.3:
            map_.reweight(d, choice.choice((0, choice.randint(1, ONE - 1))))
    steps = []
    for name, most in (
        ("set_choose_tries", 20),
        ("set_chooseleaf_tries", 6),
        ("set_chooseleaf_vary_r", 4),
        ("set_chooseleaf_stable", 1),
    ):
        if choice.random() < 0.3:
            steps.append(f"{name} {choice.randint(0, most)}")
    for _ in range(choice.randint(1, 2)):
        mode = choice.choice(("firstn", "indep"))
        steps.append("take -1")
        if choice.random() < 0.4:
            steps.append(chosen(choice.choice(("firstn", "indep")), choice.randint(-1, 3), "rack"))
        steps.append(
            choice.choice(
                (
                    leaves(mode, choice.randint(-1, 5)),
                    leaves(mode, choice.randint(-1, 5), "rack"),
                    chosen(mode, choice.randint(-1, 5), "osd"),
                )
            )
        )
        steps.append("emit")
    return map_.rule(*steps, sizes=tuple(sorted(choice.sample(ALL, 4))))


def shared_map(seed, kinds=KINDS, name="shared"):
    """Devices that are in several hosts, and hosts in several racks: an item chosen may have been
    chosen elsewhere before."""
    choice = random.Random(seed)
    map_ = Map(
        f"{name}_{seed}", (choice.randint(0, 19), choice.randint(0, 1), choice.randint(0, 3), choice.randint(0, 1))
    )
    devices = [device for device, _ in map_.take_devices(12)]

    def bucket(type_, items, id_=None):
        kind = choice.choice(kinds)
        of_all = choice.choice((ONE // 2, ONE, 3 * ONE))
        entries = [
            (it, of_all if kind == "uniform" else choice.choice((0, ONE // 2, ONE, ONE, 3 * ONE)))
            for it in items
            if choice.random() < 0.6
        ]
        if kind == "tree" and not any(w for _, w in entries):
            kind = "list"
        return map_.bucket(kind, type_, entries, id_)[0]

    hosts = [bucket(HOST, devices) for _ in range(5)]
    racks = [bucket(RACK, [*hosts, devices[0]]) for _ in range(3)]
    bucket(ROOT, [*racks, hosts[0], devices[11]], -1)
    for d in devices:
        map_.reweight(d, choice.choice((0, ONE // 2, ONE, ONE)))
    steps = [f"set_chooseleaf_tries {choice.randint(0, 4)}"] if choice.random() < 0.5 else []
    for mode in ("firstn", "indep"):
        choose = choice.choice(
            (
                leaves(mode, choice.randint(0, 6)),
                leaves(mode, choice.randint(0, 6), "rack"),
                chosen(mode, choice.randint(0, 6), choice.choice(("osd", "host", "rack"))),
            )
        )
        steps += ["take -1", choose, "emit"]
    return map_.rule(*steps, sizes=(2, 4, 7, 10))


def late():
    """What only late tries and great numbers tell apart: vary_r above 4, where one of ten hosts is
    rarely picked; the last of a thousand tries, for items and for leaves; and devices past the ids
    of 15 bits that are in in part."""
    for vary_r in range(5, 9):
        for stable in (0, 1):
            map_ = Map(f"vary_r_{vary_r}_stable_{stable}", (999, 1, vary_r, stable))
            hosts = [map_.bucket("list", HOST, map_.take_devices(5)) for _ in range(10)]
            map_.bucket(
                "tree",
                ROOT,
                [(id_, ONE // 24 if place == 4 else weight) for place, (id_, weight) in enumerate(hosts)],
                -1,
            )
            yield map_.rule("take -1", leaves("firstn"), "emit", sizes=(10,))
    for mode, kind, less, tunables in (("firstn", "list", 1000, (999, 1, 1, 1)), ("indep", "tree", 800, JEWEL)):
        map_ = Map(f"a_thousand_tries_{mode}", tunables)
        map_.bucket(kind, ROOT, [(0, ONE), (1, ONE // less)], -1)
        map_.devices = 2
        yield map_.rule(
            *(() if mode == "firstn" else ("set_choose_tries 1000",)),
            "take -1",
            chosen(mode, 2, "osd"),
            "emit",
            sizes=(2,),
        )
    for mode, kind, less in (("firstn", "straw2", 800), ("indep", "tree", 1000)):
        map_ = Map(f"a_thousand_tries_for_a_leaf_{mode}")
        for host in (1, 2):
            map_.bucket(kind, HOST, [(0, ONE), (host, ONE // less)], -1 - host)
        map_.bucket("list", ROOT, [(-2, ONE), (-3, ONE)], -1)
        map_.devices = 3
        if mode == "indep":
            map_.reweight(0, 0)
        yield map_.rule(
            "set_choose_tries 3", "set_chooseleaf_tries 1000", "take -1", leaves(mode, 2), "emit", sizes=(2,)
        )
    map_ = Map("great_ids_in_part")
    hosts = [
        map_.bucket("list", HOST, map_.name_devices([(it, ONE) for it in range(first, first + 3)]))
        for first in (32_766, 40_000, 49_151, 65_533)
    ]
    map_.bucket("list", ROOT, hosts, -1)
    for place, device in enumerate(map_.ids):
        map_.reweight(device, ONE * (1 + place % 7) // 8)
    yield map_.rule("take -1", leaves("firstn"), "emit", sizes=(2, 4))


def all_maps():
    for group in (by_kind, mixed, weights, levels, counts, tunables, odd):
        yield from group()
    for seed in range(1, 21):
        yield random_map(seed)
    for seed in range(1, 13):
        yield shared_map(seed)
    yield from straw2()
    for seed in range(101, 116):
        yield random_map(seed, WITH_STRAW2, "straw2_random")
    for seed in range(101, 106):
        yield shared_map(seed, WITH_STRAW2, "straw2_shared")
    yield from late()


def main():
    maps = list(all_maps())
    (HERE / "maps").mkdir(exist_ok=True)
    for old in (HERE / "maps").glob("*.txt"):
        old.unlink()
    for it in maps:
        (HERE / "maps" / f"{it.name}.txt").write_text(it.text())
    print(f"{len(maps)} maps")


if __name__ == "__main__":
    main()
