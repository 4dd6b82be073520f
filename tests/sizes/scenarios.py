"""Lines of scripts in sessions, each scenario with much of something: what a planner of a large
cluster sends, up to the limits."""
import json
import random

from model import maps

TEXT = 4_194_304  # bytes of a map text
DEVICES, ITEMS = 10_000, 4_096
KINDS = ("uniform", "list", "tree", "straw2")
TUNABLES = [
    "tunable choose_local_tries 0",
    "tunable choose_local_fallback_tries 0",
    "tunable choose_total_tries 50",
    "tunable chooseleaf_descend_once 1",
    "tunable chooseleaf_vary_r 1",
    "tunable chooseleaf_stable 1",
]
TYPES = ["type 0 osd", "type 1 host", "type 2 rack", "type 3 root"]

# ---- lines


def post(tenant, path, **members):
    return f"POST /t/{tenant}/{path} {json.dumps(members, separators=(',', ':'))}".encode()


def get(tenant, path=""):
    return f"GET /t/{tenant}{path and '/'}{path}".encode()


def create(tenant):
    return f"PUT /t/{tenant}".encode()


def drop(tenant):
    return f"DELETE /t/{tenant}".encode()


def import_of(tenant, request, text):
    return post(tenant, "maps", request=request, text=text)


def pool_of(tenant, number, *, groups, size=3, rule=0, kind="replicated", places=None, hashed=True):
    return post(
        tenant,
        "pools",
        request=f"pool-{number}",
        id=number,
        name=f"p{number}",
        kind=kind,
        size=size,
        rule=rule,
        pg_num=groups,
        pgp_num=places or groups,
        hashpspool=hashed,
    )


def states_of(tenant, request, rows, by_csv=False):
    """Changes of states, 1,024 in a request: rows of a device, its reweight, and whether it is
    up."""
    for first in range(0, len(rows), 1_024):
        part = rows[first : first + 1_024]
        if by_csv:
            yield post(
                tenant,
                "devices/csv",
                request=f"{request}-{first}",
                csv="id,reweight,up\n" + "".join(f"{id},{reweight},{up:d}\n" for id, reweight, up in part),
            )
        else:
            yield post(
                tenant,
                "devices",
                request=f"{request}-{first}",
                devices=[{"id": id, "reweight": reweight, "up": up} for id, reweight, up in part],
            )


def pairs_of(tenant, request, pool, pairs):
    return post(
        tenant,
        "pools/exceptions",
        request=request,
        id=pool,
        exceptions=[{"group": group, "from": old, "to": new} for group, old, new in pairs],
    )


# ---- texts


def bucket(type, name, number, kind, items):
    return [
        f"{type} {name} {{",
        f"\tid {number}",
        f"\talg {kind}",
        "\thash 0",
        *(f"\titem {it} weight {weight / 65536:.5f}" for it, weight in items),
        "}",
    ]


def rule(number, take, *steps, kind="replicated"):
    return [
        f"rule rule{number} {{",
        f"\tid {number}",
        f"\ttype {kind}",
        f"\tstep take {take}",
        *(f"\tstep {it}" for it in steps),
        "\tstep emit",
        "}",
    ]


class Text:
    """Writes a map of devices whose ids and names are given, with weights of a seed."""

    def __init__(self, devices, seed):
        self.devices, self.drawn = devices, random.Random(seed)
        self.buckets, self.rules, self.number = [], [], 0

    def add(self, type, name, kind, items):
        """Adds a bucket, and gives it as an item."""
        self.number -= 1
        self.buckets += bucket(type, name, self.number, kind, items)
        return name, sum(weight for _, weight in items)

    def weight(self, kind):
        # of whole thousandths of 65536ths, so that each has five decimals that say it
        return 65_536 if kind == "uniform" else 8_192 * self.drawn.randrange(1, 32)

    def tree(self, kind, racks, hosts):
        """Racks of hosts of the devices in order, all of one kind."""
        width = len(self.devices) // (racks * hosts)
        names, found = [name for _, name in self.devices], []
        for rack in range(racks):
            within = []
            for host in range(hosts):
                first = (rack * hosts + host) * width
                within.append(
                    self.add(
                        "host",
                        f"{kind}-h{rack}-{host}",
                        kind,
                        [(it, self.weight(kind)) for it in names[first : first + width]],
                    )
                )
            found.append(self.add("rack", f"{kind}-r{rack}", kind, within))
        self.add("root", f"{kind}-all", kind, found)

    def flat(self, kind, count):
        self.add("root", f"{kind}-flat", kind, [(name, self.weight(kind)) for _, name in self.devices[:count]])

    def rule(self, *words, **more):
        self.rules += rule(self.rules.count("}"), *words, **more)

    def lines(self):
        return [
            maps.MARK,
            *TUNABLES,
            *(f"device {id} {name}" for id, name in self.devices),
            *TYPES,
            *self.buckets,
            *self.rules,
        ]

    def text(self):
        return "\n".join([*self.lines(), ""])


def of_every_kind(seed):
    """A text of the greatest length: 10,000 devices, each in a tree of each kind, and 4,096 of them
    in a bucket of each kind. By the rules 0 to 3 a pool lies on the trees, by 4 to 7 too, erasure
    coded, and by 8 to 11 on the buckets."""

    def written(length):
        it = Text([(device * 6 + device % 5, f"osd.{device:0{length}}") for device in range(DEVICES)], seed)
        for kind in KINDS:
            it.tree(kind, 10, 20)
        for kind in KINDS:
            it.flat(kind, ITEMS)
        for how, more in (("firstn", {}), ("indep", {"kind": "erasure"})):
            for kind in KINDS:
                it.rule(f"{kind}-all", f"chooseleaf {how} 0 type host", **more)
        for kind in KINDS:
            it.rule(f"{kind}-flat", "choose firstn 0 type osd")
        return it.text()

    # each byte of a name stands in the text as often as the names do
    short = written(10)
    names = DEVICES * 5 + ITEMS * 4
    text = written(10 + (TEXT - len(short)) // names)
    return text + "#" * (TEXT - len(text))


def racks_of(devices, seed, kind="straw2", racks=1, hosts=8):
    it = Text([(device, f"osd.{device}") for device in range(devices)], seed)
    it.tree(kind, racks, hosts)
    it.rule(f"{kind}-all", "chooseleaf firstn 0 type host")
    return it.text()


def in_one(kind, devices, seed=0):
    it = Text([(device, f"osd.{device}") for device in range(devices)], seed)
    it.flat(kind, devices)
    it.rule(f"{kind}-flat", "choose firstn 0 type osd")
    return it.text()


def of_least_words():
    """A text of the greatest length that says as many items as it can: its canonical text has three
    bytes for each of its own."""
    letters = "abcdefghjklmnopqrstuvwxyz0123456789ABCDEFGHIJKLMNOPQRSTUVWXYZ_"
    names = [
        *letters,
        *(a + b for a in letters for b in letters),
        *(a + b + c for a in letters[:3] for b in letters for c in letters),
    ][:DEVICES]
    text = "\n".join([*TUNABLES, *(f"device {device} {name}" for device, name in enumerate(names)), *TYPES, ""])
    end = "\n".join(
        [
            "",
            *(
                line
                for number, kind in enumerate(KINDS[:3])
                for line in rule(number, f"b-{number + 1}", "choose firstn 0 type osd")
            ),
        ]
    )
    buckets = []
    while True:
        number, items = len(buckets) + 1, "item " + "\nitem ".join(names[:3_800])
        more = f"host b-{number} {{ id -{number} alg {KINDS[number % 3]}\n{items} }}\n"
        if len(text) + len(more) + len(end) > TEXT:
            break
        buckets.append(more)
        text += more
    return text + end + "\n" + "#" * (TEXT - len(text) - len(end) - 1)


# ---- scenarios: each gives its sessions


def mixed_states(devices, seed):
    """For each device: one in twenty out, one in three between, and one in ten down."""
    drawn = random.Random(seed)
    return [
        (
            it,
            drawn.choice((0, *[65_536] * 13, *(drawn.randrange(1, 65_536) for _ in range(6)))),
            drawn.randrange(10) > 0,
        )
        for it in devices
    ]


def a_map_of_every_kind():
    """4 MiB of map text twice, 10,000 devices with states, twelve pools and their reports."""
    first, second = of_every_kind(1), of_every_kind(2)
    ids = [it * 6 + it % 5 for it in range(DEVICES)]
    pools = [
        pool_of(
            "a",
            number + 1,
            groups=24 if number < 8 else 3,
            rule=number,
            kind="erasure" if 4 <= number < 8 else "replicated",
            size=4 if 4 <= number < 8 else 3,
        )
        for number in range(12)
    ]
    usages = [get("a", f"pools/{number + 1}/usage") for number in range(12)]
    states, later = list(states_of("a", "s", mixed_states(ids, 1))), list(
        states_of("a", "t", mixed_states(ids, 2), by_csv=True)
    )
    imports = [import_of("a", "m1", first), import_of("a", "m2", second)]
    groups = [get("a", f"pools/{number + 1}/groups/{group}") for number in range(12) for group in (0, 2)]
    asked = [
        *usages,
        *groups,
        *(get("a", f"pools/{number + 1}/impact/{ids[device]}") for number in range(12) for device in (0, 4_095, 9_999)),
        *(post("a", "pools/4/locate", name=f"object {it}") for it in range(10)),
        *(post("a", "test", rule=it, size=2, x=4_294_967_295 - it) for it in range(8)),
    ]
    return [
        [create("a"), imports[0], get("a", "maps/1"), *states, get("a"), *pools, *asked],
        [
            *usages,
            *imports,
            get("a", "maps/2"),
            *states,
            imports[0] + b" ",
            imports[0],
            *(get("a", f"pools/{it + 1}/moves/1/2") for it in range(12)),
            *later,
            *usages,
            get("a"),
        ],
        [
            *imports,
            *later,
            *states,
            *pools,
            get("a", "maps/1"),
            get("a", "maps/2"),
            *(get("a", f"pools/{it + 1}/moves/2/1") for it in range(12)),
            *asked,
            drop("a"),
            get("a"),
            usages[0],
            create("a"),
            imports[1],
            get("a"),
            get("a", "maps/1"),
            get("a", "maps/2"),
        ],
        [imports[0], imports[1], get("a", "maps/1"), get("a", "maps/2"), drop("a"), imports[0]],
    ]


def the_longest_canonical_text():
    """4 MiB that are 12 MiB as they are stored; a byte more of text, and of a body, is refused."""
    text = of_least_words()
    first, again = import_of("a", "m1", text), import_of("a", "m2", text)
    over = [
        import_of("a", "m3", text + "#"),
        import_of("a", "m3", text) + b" " * (5_242_881 - len(import_of("a", "m3", text)) + len(b"POST /t/a/maps ")),
    ]
    pools = [pool_of("a", number + 1, groups=2, rule=number) for number in range(3)]
    asked = [
        get("a"),
        get("a", "maps/1"),
        *(get("a", f"pools/{it + 1}/{what}") for it in range(3) for what in ("usage", "groups/1", "impact/0")),
    ]
    return [
        [create("a"), first, *pools, *asked],
        [*asked, first, *over, again, *over, get("a", "maps/2"), get("a", "pools/1/moves/1/2")],
        [again, first, *pools, *over, *asked, drop("a"), first, create("a"), get("a")],
    ]


def versions():
    """256 versions, and moves from each to the next."""
    texts = [racks_of(48, seed, KINDS[seed % 4]) for seed in range(257)]
    # one rule of one id, whatever the kind
    imports = [import_of("a", f"m{number}", text) for number, text in enumerate(texts)]
    shown = [get("a", f"maps/{it}") for it in range(258)]
    moved = [get("a", f"pools/1/moves/{it}/{it + 1}") for it in range(257)]
    far = [get("a", f"pools/2/moves/{it}/{257 - it}") for it in range(1, 257, 17)]
    pools = [pool_of("a", 1, groups=13, size=2), pool_of("a", 2, groups=24, kind="erasure", places=17, hashed=False)]
    states = list(states_of("a", "s", mixed_states(range(48), 3)))
    return [
        [create("a"), imports[0], *pools, *imports[1:200], get("a"), *shown, *moved],
        [
            *imports[150:],
            get("a"),
            *shown,
            *imports,
            *moved,
            *far,
            get("a", "pools/1/usage"),
            imports[256],
            *states,
            *far,
        ],
        [
            *imports,
            *states,
            *shown,
            *moved,
            *far,
            get("a"),
            drop("a"),
            get("a", "maps/256"),
            create("a"),
            imports[256],
            get("a", "maps/1"),
            get("a", "maps/2"),
        ],
        [imports[256], imports[255], imports[255], *shown[:4], drop("a")],
    ]


def pools():
    """256 pools with 1,024 exceptions each."""
    drawn, numbers = random.Random(4), [it * it * 31_337 % 2_147_483_647 for it in range(1, 258)]

    def pairs(groups):
        return [(drawn.randrange(groups), *drawn.sample(range(64), 2)) for _ in range(1_024)]

    made = [
        pool_of("a", it, groups=8 + place % 17, kind=("replicated", "erasure")[place % 2], hashed=place % 3 > 0)
        for place, it in enumerate(numbers)
    ]
    lists = [pairs_of("a", f"x{it}", it, pairs(8 + place % 17)) for place, it in enumerate(numbers)]
    others = [
        pairs_of("a", f"y{it}", it, pairs(8 + place % 17)[: 1_024 - place]) for place, it in enumerate(numbers[:64])
    ]
    shown = [get("a", f"pools/{it}/exceptions") for it in numbers]
    asked = [get("a", f"pools/{it}/{what}") for it in numbers[::16] for what in ("usage", "impact/7", "moves/1/2")] + [
        get("a", f"pools/{it}/groups/{it % 8}") for it in numbers
    ]
    removed = [post("a", "pools/remove", request=f"e{it}", id=it) for it in numbers[::3]]
    over = pairs_of("a", "over", numbers[0], [*pairs(8), (0, 1, 2)])
    start = [create("a"), import_of("a", "m1", racks_of(64, 5)), import_of("a", "m2", racks_of(64, 6))]
    return [
        [*start, *made, *lists, over, get("a"), *shown, *asked],
        [
            *shown,
            *lists[::5],
            *states_of("a", "s", mixed_states(range(64), 7)),
            *asked,
            *others,
            *shown[:70],
            *asked,
            over,
        ],
        [
            *removed,
            *shown,
            *made[256:],
            *lists[256:],
            *made[:9],
            *lists,
            *others,
            get("a"),
            *asked,
            drop("a"),
            shown[0],
            *start,
            made[0],
            shown[0],
            asked[0],
        ],
        [*start, *made[:3], lists[0], lists[0], shown[0], drop("a"), shown[0]],
    ]


def versions_and_pools():
    """256 versions and 256 pools of one tenant, on small maps."""
    texts = [in_one(KINDS[seed % 4], 4, seed) for seed in range(256)]
    imports = [import_of("a", f"m{number}", text) for number, text in enumerate(texts)]
    made = [pool_of("a", it, groups=1 + it % 4, size=2, kind=("replicated", "erasure")[it % 2]) for it in range(1, 257)]
    usages = [get("a", f"pools/{it}/usage") for it in range(1, 257)]
    moved = [get("a", f"pools/{it}/moves/{it}/{257 - it}") for it in range(1, 257, 5)]
    asked = [get("a"), *usages, *moved, *(get("a", f"maps/{it}") for it in range(1, 257, 51))]
    down = list(states_of("a", "s", [(0, 0, True), (1, 30_000, True), (3, 65_536, False)]))
    return [
        [create("a"), imports[0], *made[:128], *imports[1:], *made[128:], *asked[:40]],
        [*asked, imports[255], made[255], *down, *usages],
        [*down, *asked, pool_of("a", 257, groups=1), import_of("a", "m256", texts[0]), drop("a"), get("a")],
    ]


def three_copies():
    """Pools of as many groups as there may be with three copies and more, of few seeds."""
    start = [create("a"), import_of("a", "m1", in_one("tree", 5, 1)), import_of("a", "m2", in_one("list", 5, 1))]
    pools = [
        pool_of("a", 1, groups=65_536, places=64),
        pool_of("a", 2, groups=32_768, places=96, kind="erasure"),
        pool_of("a", 3, groups=16_385, places=64, size=4),
    ]
    usages = [get("a", f"pools/{it}/usage") for it in (1, 2, 3)]
    impacts = [get("a", f"pools/2/impact/{it}") for it in (0, 4)]
    out = post("a", "devices", request="d", devices=[{"id": 2, "up": False}, {"id": 3, "reweight": 30_000}])
    return [[*start, *pools, *usages, *impacts], [*usages, out, *usages, *impacts]]


def receipts():
    """100,000 receipts; then changes are refused, and each earlier one has its reply."""
    start = [create("a"), import_of("a", "m1", in_one("list", 8)), pool_of("a", 1, groups=8)]
    changes = [
        post(
            "a",
            "devices",
            request=f"change {it}",
            devices=[{"id": it % 8, "reweight": it * 7_919 % 65_537, "up": it % 5 > 0}],
        )
        for it in range(100_001)
    ]
    asked = [get("a"), get("a", "pools/1/usage"), get("a", "pools/1/groups/3")]
    again = [*start[1:], *changes[:99_998:4_999], changes[99_997]]
    refused = [
        changes[99_998],
        import_of("a", "m2", in_one("list", 9)),
        post("a", "pools/remove", request="e", id=1),
        pairs_of("a", "x", 1, [(0, 1, 2)]),
    ]
    return [
        [*start, *changes[:99_997], *asked, changes[99_997], *asked, *refused, *again],
        [*refused, *again, *(it + b" " for it in again), *asked, *refused, *asked],
        [*again, *refused, *asked, create("a"), drop("a"), *asked, *start, changes[99_998], *asked, changes[99_998]],
        [*start, *changes[99_998:], *asked, drop("a"), *asked],
    ]


def tenants():
    """1,001 tenants, each with a map of its own, asked one after the other, and again."""
    names = [f"t{it}" for it in range(1_001)]
    texts = [maps.with_devices(3, it % 3) if it % 2 else maps.tiny(it) for it in range(1_001)]
    start = [
        line
        for it, text in zip(names, texts)
        for line in (create(it), import_of(it, "m1", text), pool_of(it, 1, groups=8, size=1))
    ]
    round_ = [
        line
        for place, it in enumerate(names)
        for line in (get(it, f"pools/1/groups/{place % 8}"), get(it, "pools/1/usage"))
    ]
    down = [
        post(it, "devices", request="d1", devices=[{"id": place % 3 if place % 2 else place, "up": False}])
        for place, it in enumerate(names)
    ]
    return [
        [*start, *round_, *round_],
        [*round_, *(line for it in zip(down[::2], round_[::4]) for line in it), *round_, *start[1::3]],
        [*round_, *down, *round_, *map(drop, names[::3]), *round_, *map(create, names[::6]), *round_],
    ]


def tenants_of_large_maps():
    """64 tenants whose maps of 10,000 devices the memory that is kept has no room for, asked one
    after the other, and again."""
    names, texts = [f"t{it}" for it in range(64)], [racks_of(DEVICES, it, racks=10, hosts=50) for it in range(2)]
    start = [
        [create(it), import_of(it, "m1", texts[place % 2]), pool_of(it, 1, groups=2)] for place, it in enumerate(names)
    ]
    round_ = [line for it in names for line in (get(it, "pools/1/groups/0"), get(it, "pools/1/groups/1"), get(it))]
    parts = [[line for it in start[first : first + 32] for line in it] for first in (0, 32)]
    return [
        parts[0],
        [*parts[1], *round_, *round_],
        [*round_, *round_, get(names[0], "pools/1/usage"), *(it[1] for it in start[:32]), *round_],
        [*map(drop, names[::2]), *round_, get(names[1], "pools/1/usage")],
    ]


def groups():
    """65,536 groups: a pool with as many seeds on a bucket of three, and one with 16,385 seeds."""
    kinds = ("straw2", "list", "tree")
    start = [
        create("a"),
        *(
            import_of("a", f"m{number}", in_one(kind, 3, seed))
            for number, (seed, kind) in enumerate(zip((7, 7, 7), kinds))
        ),
    ]
    pools = [
        pool_of("a", 1, groups=65_536, size=1),
        pool_of("a", 2, groups=65_536, places=16_385, size=2, kind="erasure"),
        pool_of("a", 3, groups=65_535, places=16_385, size=2),
    ]
    usages, impacts = [get("a", f"pools/{it}/usage") for it in (1, 2, 3)], [
        get("a", f"pools/{it}/impact/1") for it in (1, 2)
    ]
    moves = [get("a", "pools/2/moves/1/3"), get("a", "pools/3/moves/2/3")]
    located = [post("a", f"pools/{1 + it % 3}/locate", name=f"object-{it}") for it in range(300)]
    ends = [
        get("a", f"pools/{pool}/groups/{group}")
        for pool in (1, 2, 3)
        for group in (0, 16_384, 16_385, 32_767, 32_768, 65_534, 65_535)
    ]
    drawn = random.Random(8)
    pairs = pairs_of("a", "x", 2, [(drawn.randrange(65_536), *drawn.sample(range(3), 2)) for _ in range(1_024)])
    return [
        [*start, *pools, *usages, *moves, *impacts],
        [
            *moves,
            *usages,
            *located,
            *ends,
            pairs,
            *usages[1:],
            post("a", "devices", request="d", devices=[{"id": 2, "up": False}]),
            *moves,
            *usages[1:],
        ],
        [pairs, *usages[1:], *moves, *impacts[1:], *ends, *located, drop("a"), usages[0]],
    ]


def small():
    """Few of all, by which the test tries itself."""
    it = [pool_of("a", 1, groups=8), get("a"), get("a", "pools/1/usage")]
    return [[create("a"), import_of("a", "m1", racks_of(16, 1)), *it], [*it, get("a", "maps/1")]]


def all():
    """Those that take longest first."""
    return (
        groups,
        a_map_of_every_kind,
        pools,
        tenants,
        versions,
        versions_and_pools,
        three_copies,
        receipts,
        tenants_of_large_maps,
        the_longest_canonical_text,
    )
