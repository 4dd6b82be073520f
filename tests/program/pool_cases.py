"""Requests on states of devices, on pools and on their groups, each with the reply that the rules
of requests give it. The maps are small enough to be answered by hand; names' hashes and seeds are
those of crush.py."""
from model import crush
from model.maps import canonical_tiny, duo, hosts, one_host, three, tiny, with_devices, with_line, with_rule
from model.messages import (
    BAD,
    EXISTS,
    IN_USE,
    LIMIT,
    METHOD,
    NO_DEVICE,
    NO_GROUP,
    NO_PATH,
    NO_POOL,
    NO_RULE,
    NO_TENANT,
    NO_VERSION,
    POOL,
    REUSED,
    SEED,
    START,
    accepted,
    created,
    devices_of,
    dropped,
    group_of,
    import_of,
    imported,
    lies,
    made,
    object_of,
    of_b,
    pool_of,
    post,
    refused,
    removal_of,
    removed,
    state,
    summary,
    test_of,
    tested,
    version_of,
)


# ---- where groups lie


def first_pools():
    """A pool, its objects and groups; a rule that a pool names stays; the same pool without hashed
    seeds."""
    twelve = dict(pg_num=12, pgp_num=12, hashpspool=False)
    return START + [
        (import_of(tiny()), imported(1, 1)),
        (pool_of("p1", **twelve), created(2)),
        (
            object_of(""),
            b'200 {"epoch":2,"group":5,"hash":3175731469,"primary":0,"raw":[0],"seed":6,"up":[0],"version":1}',
        ),
        (
            object_of("a"),
            b'200 {"epoch":2,"group":8,"hash":703514648,"primary":0,"raw":[0],"seed":9,"up":[0],"version":1}',
        ),
        (import_of(with_rule(1, tiny()), "m2"), IN_USE),
        (pool_of("p2", **twelve), EXISTS),
        (group_of(12), NO_GROUP),
        (group_of(11), lies(2, 11, 12, [0])),
        (removal_of("d1"), removed(3)),
        (pool_of("p2"), created(4)),
        (group_of(0), lies(4, 0, SEED, [0])),
        (removal_of("d2"), removed(5)),
        (pool_of("p3", hashpspool=False), created(6)),
        (group_of(0), lies(6, 0, 1, [0])),
    ]


def seeds_and_names():
    """Groups by the hashes of names, and seeds by groups, with fewer seeds than groups and at the
    greatest numbers."""
    rows, epoch, greatest = START + [(import_of(tiny()), imported(1, 1))], 1, 2147483647
    for pool, pg_num, pgp_num, groups in (
        (1, 12, 12, range(12)),
        (2, 12, 5, range(12)),
        (3, 1, 1, [0]),
        (5, 65536, 65535, [0, 32767, 65534, 65535]),
        (greatest, 65536, 65536, [0, 65535]),
    ):
        for hashed in (True, False):
            number, epoch = f"{pool} {hashed}", epoch + 1
            rows.append(
                (pool_of(number, id=pool, pg_num=pg_num, pgp_num=pgp_num, hashpspool=hashed), created(epoch, pool))
            )
            seed = lambda group: (
                crush.hash2(crush.stable_mod(group, pgp_num), pool)
                if hashed
                else crush.stable_mod(group, pgp_num) + pool
            )
            rows += [(group_of(it, pool), lies(epoch, it, seed(it), [0])) for it in groups] + [
                (group_of(pg_num, pool), NO_GROUP)
            ]
            for name in (
                "",
                "a",
                "rbd_data.1.0",
                "\u00e9\u20ac\U0001f600\0",
                *("n" * length for length in (3, 4, 5, 7, 8, 9, 11, 12, 13, 23, 24, 25, 1024)),
            ):
                hash = crush.name_hash(name.encode())
                group = crush.stable_mod(hash, pg_num)
                rows.append((object_of(name, pool), lies(epoch, group, seed(group), [0], hash=hash)))
            epoch += 1
            rows.append((removal_of(f"without {number}", pool), removed(epoch, pool)))
    return rows


def reweights():
    """A device is in where the lower half of hash2(x, device) is below its reweight; a leaf that is
    out is looked for again by its tries."""
    rows = START + [
        (import_of(tiny(1)), imported(1, 1)),
        (devices_of("d1", state(1, reweight=55335)), accepted(1, 2)),  # that half of hash2(0, 1) is 55335
        (test_of(), tested([], [], 2, 1)),
        (devices_of("d2", state(1, reweight=55336)), accepted(1, 3)),
        (test_of(), tested([1], [1], 3, 1)),
        (import_of(duo(), "m2"), imported(4, 2)),
        (devices_of("d3", state(0, reweight=0), state(1, reweight=65536)), accepted(2, 5)),
    ]
    rows += [(test_of(x=x, size=2), tested([1], [1], 5, 2)) for x in range(200)]
    rows += [
        (test_of(x=7, version=1), tested([1], [1], 5, 1)),  # the states as they are now, for any version
        (import_of(one_host(), "m3"), imported(6, 3)),
        (devices_of("d4", state(0, reweight=65536), state(1, reweight=0)), accepted(2, 7)),
        (test_of(size=3), tested([0, None, None], [0], 7, 3)),
        (test_of(size=2), tested([None, None], [], 7, 3)),
        (test_of(size=2, rule=1), tested([0, None], [0], 7, 3)),
        (test_of(x=7, version=1), tested([], [], 7, 1)),  # its one device is out by now
        (test_of(x=7, version=2), tested([0], [0], 7, 2)),
    ]
    return rows


def devices_down():
    """A replicated pool leaves devices that are down out of up, an erasure pool has none in their
    places; raw stays."""
    raw, seed = [0, 1, 2], crush.hash2(0, 2)
    return START + [
        (import_of(three()), imported(1, 1)),
        (pool_of("p1", size=3), created(2)),
        (pool_of("p2", size=3, id=2, name="e", kind="erasure"), created(3, 2)),
        (group_of(0), lies(3, 0, SEED, raw)),
        (devices_of("d1", state(1, up=False)), accepted(1, 4)),
        (group_of(0), lies(4, 0, SEED, [0, 2], raw)),
        (group_of(0, 2), lies(4, 0, seed, [0, None, 2], raw)),
        (devices_of("d2", state(1, up=True), state(0, up=False)), accepted(2, 5)),
        (group_of(0), lies(5, 0, SEED, [1, 2], raw)),
        (group_of(0, 2), lies(5, 0, seed, [None, 1, 2], raw)),
        (devices_of("d3", state(2, up=False), state(1, up=False)), accepted(2, 6)),
        (group_of(0), lies(6, 0, SEED, [], raw)),
        (group_of(0, 2), lies(6, 0, seed, [None] * 3, raw)),
        (test_of(size=3), tested(raw, [], 6, 1)),  # a rule's answer doesn't ask who is up
    ]


def no_device_in_raw():
    """A bucket in raw, and a place without an item, are left out of up, or none in their places."""
    firstn = hosts().replace("chooseleaf firstn 2", "choose firstn 2")
    indep = hosts().replace("chooseleaf firstn 2", "choose indep 2")
    leaves = hosts().replace("chooseleaf firstn 2", "chooseleaf indep 2")
    seed = crush.hash2(0, 2)
    rows = START + [
        (import_of(firstn), imported(1, 1)),
        (pool_of("p1", size=2), created(2)),
        (pool_of("p2", size=2, id=2, name="e", kind="erasure"), created(3, 2)),
    ]
    for epoch, text, raw, up, in_place in (
        (3, firstn, [-2], [], [None]),
        (4, indep, [-2, None], [], [None, None]),
        (5, leaves, [0, None], [0], [0, None]),
    ):
        if epoch > 3:
            rows.append((import_of(text, f"m{epoch}"), imported(epoch, epoch - 2)))
        rows.append((group_of(0), lies(epoch, 0, SEED, up, raw, epoch - 2)))
        rows.append((group_of(0, 2), lies(epoch, 0, seed, in_place, raw, epoch - 2)))
    return rows


def newest_version():
    """A pool is placed on the newest version."""
    return START + [
        (import_of(tiny()), imported(1, 1)),
        (pool_of("p1"), created(2)),
        (group_of(0), lies(2, 0, SEED, [0])),
        (import_of(tiny(7), "m2"), imported(3, 2)),
        (group_of(0), lies(3, 0, SEED, [7], version=2)),
        (object_of("a"), lies(3, 0, SEED, [7], version=2, hash=703514648)),  # 703514648 is 0 modulo 8
        (import_of(tiny(), "m3"), imported(4, 3)),
        (group_of(0), lies(4, 0, SEED, [0], version=3)),
    ]


# ---- states of devices


def states_of_devices():
    """What an entry doesn't name stays; what is counted are the stored states."""
    return START + [
        (b"GET /t/a", summary(0, 0)),
        (import_of(duo()), imported(1, 1)),
        (pool_of("p1"), created(2)),
        (b"GET /t/a", summary(2, 1, 0, 1)),
        (devices_of("d1", state(0, reweight=0)), accepted(1, 3)),
        (group_of(0), lies(3, 0, SEED, [1])),
        (devices_of("d2", state(1, up=False)), accepted(1, 4)),
        (b"GET /t/a", summary(4, 1, 2, 1)),
        (group_of(0), lies(4, 0, SEED, [], [1])),  # up alone: the reweight is 65536
        (devices_of("d3", state(1, reweight=0)), accepted(1, 5)),
        (group_of(0), lies(5, 0, SEED, [])),
        (devices_of("d4", state(1, reweight=65536)), accepted(1, 6)),
        (group_of(0), lies(6, 0, SEED, [], [1])),  # reweight alone: it is still down
        (devices_of("d5", state(0, up=False), state(1, up=True)), accepted(2, 7)),
        (group_of(0), lies(7, 0, SEED, [1])),  # up alone: device 0 is still out
        (devices_of("d6", state(0, up=True, reweight=65536), state(1, reweight=0)), accepted(2, 8)),
        (group_of(0), lies(8, 0, SEED, [0])),
        (devices_of("d7", state(0, up=False)), accepted(1, 9)),
        (group_of(0), lies(9, 0, SEED, [], [0])),
        (devices_of("d8", state(0, up=True, reweight=65536), state(1, up=True, reweight=65536)), accepted(2, 10)),
        (b"GET /t/a", summary(10, 1, 2, 1)),  # a state as at first is stored too
    ]


def states_are_kept():
    """States of devices that a later version lacks come into force again with a version that has
    them."""
    return START + [
        (import_of(tiny()), imported(1, 1)),
        (pool_of("p1"), created(2)),
        (devices_of("d1", state(0, up=False, reweight=1)), accepted(1, 3)),
        (import_of(tiny(7), "m2"), imported(4, 2)),
        (group_of(0), lies(4, 0, SEED, [7], version=2)),
        (b"GET /t/a", summary(4, 2, 1, 1)),
        (devices_of("d2", state(0, up=True)), NO_DEVICE),
        (devices_of("d2", state(7, up=True), state(0, up=True)), NO_DEVICE),
        (devices_of("d2", state(7, up=False)), accepted(1, 5)),
        (b"GET /t/a", summary(5, 2, 2, 1)),
        (import_of(tiny(), "m3"), imported(6, 3)),
        (group_of(0), lies(6, 0, SEED, [], version=3)),
        (devices_of("d3", state(0, reweight=65536)), accepted(1, 7)),
        (group_of(0), lies(7, 0, SEED, [], [0], version=3)),
        (import_of(tiny(7), "m4"), imported(8, 4)),
        (group_of(0), lies(8, 0, SEED, [], [7], version=4)),
    ]


def many_devices():
    """As many entries as a request may have, one more, and what one request can't have."""
    every = [state(it, reweight=it) for it in range(1024)]
    return START + [
        (import_of(with_devices(1024)), imported(1, 1)),
        (pool_of("p1"), created(2)),
        (devices_of("d1", *every), accepted(1024, 3)),
        (b"GET /t/a", summary(3, 1, 1024, 1)),
        (devices_of("d2", *every, state(1024, up=True)), BAD),
        (devices_of("d2"), BAD),
        (devices_of("d2", *every[:5], state(3, up=True)), BAD),
        (group_of(0), lies(3, 0, SEED, [])),
        (devices_of("d2", *reversed(every[1:]), state(0, reweight=65536)), accepted(1024, 4)),
        (group_of(0), lies(4, 0, SEED, [0])),
        (b"GET /t/a", summary(4, 1, 1024, 1)),
    ]


# ---- checks and their order


def own_checks():
    """A request's own checks come in their order, and what is refused changes nothing and leaves no
    receipt."""
    return START + [
        (devices_of("r", state(0, up=False)), NO_VERSION),  # no version, before no device
        (pool_of("r"), NO_VERSION),
        (removal_of("r"), NO_POOL),
        (group_of(0), NO_POOL),
        (object_of("a"), NO_POOL),
        (b"GET /t/a", summary(0, 0)),
        (import_of(tiny()), imported(1, 1)),
        (devices_of("r", state(1, up=False)), NO_DEVICE),
        (devices_of("r", state(0, up=False), state(65535, reweight=0)), NO_DEVICE),
        (pool_of("r", rule=1), NO_RULE),
        (pool_of("r", rule=255), NO_RULE),
        (b"GET /t/a", summary(1, 1)),
        (pool_of("r"), created(2)),  # the number is free
        (group_of(0), lies(2, 0, SEED, [0])),  # the device wasn't taken down
        (pool_of("s", name="q"), EXISTS),
        (pool_of("s", id=2), EXISTS),
        (pool_of("s"), EXISTS),
        (pool_of("s", rule=1), NO_RULE),  # before exists
        (pool_of("s", id=2, name="P"), created(3, 2)),  # names differ in case
        (removal_of("t", 3), NO_POOL),
        (removal_of("t", 2147483647), NO_POOL),
        (group_of(8), NO_GROUP),
        (group_of(7), lies(3, 7, crush.hash2(7, 1), [0])),
        (group_of(8, 2), NO_GROUP),
        (group_of(8, 3), NO_POOL),  # before no group
        (group_of(9999999999), NO_GROUP),
        (group_of(4294967296), NO_GROUP),  # 2^32: numbers are compared as a whole
        (group_of(0, 0), NO_POOL),
        (group_of(0, 9999999999), NO_POOL),
        (group_of(0, 4294967297), NO_POOL),
        (object_of("a", 0), NO_POOL),
        (object_of("a", 4294967297), NO_POOL),
        (b"GET /t/a/pools/0000000001/groups/0000000000", lies(3, 0, SEED, [0])),
        (b"GET /t/a", summary(3, 1, 0, 2)),
        (removal_of("t", 2), removed(4, 2)),
        (group_of(0, 2), NO_POOL),
        (removal_of("u", 2), NO_POOL),
        (b"GET /t/a", summary(4, 1, 0, 1)),
    ]


def rules_in_use():
    """A new version has the rule of each pool; else it is refused and nothing is changed."""
    other, both = with_rule(1, tiny(7)), tiny(7) + tiny().split("}\n", 1)[1].replace("rule all", "rule other").replace(
        " id 0", " id 1"
    )
    straw2 = with_line(other, 13, " alg straw2")
    return START + [
        (import_of(tiny()), imported(1, 1)),
        (pool_of("p1"), created(2)),
        (devices_of("d1", state(0, up=False)), accepted(1, 3)),
        (import_of(other, "m2"), IN_USE),
        (b"GET /t/a", summary(3, 1, 1, 1)),
        (b"GET /t/a/maps/2", NO_VERSION),
        (b"GET /t/a/maps/1", version_of(canonical_tiny(), 1)),
        (group_of(0), lies(3, 0, SEED, [], [0])),
        (test_of(), tested([0], [0], 3, 1)),
        (import_of(straw2, "m2"), refused("X2", 13)),  # the text before the rules
        (import_of(both, "m2"), imported(4, 2)),  # the number is free
        (pool_of("p2", id=2, name="q", rule=1), created(5, 2)),
        (import_of(tiny(), "m3"), IN_USE),  # any pool's rule
        (import_of(other, "m3"), IN_USE),
        (removal_of("e1"), removed(6)),
        (import_of(tiny(), "m3"), IN_USE),
        (import_of(other, "m3"), imported(7, 3)),
        (group_of(0, 2), lies(7, 0, crush.hash2(0, 2), [7], version=3)),
        (pool_of("p3"), NO_RULE),  # the newest version has no rule 0 any more
        (test_of(version=1), tested([0], [0], 7, 1)),
        (removal_of("e2", 2), removed(8, 2)),
        (import_of(tiny(), "m4"), imported(9, 4)),
    ]


def repeats():
    """A request number acts once, whichever path it was sent to: the first reply again for the same
    path and body, else a refusal."""
    first, down, gone = pool_of("p1"), devices_of("d1", state(0, up=False)), removal_of("e1")
    return START + [
        (import_of(tiny()), imported(1, 1)),
        (first, created(2)),
        (first, created(2)),
        (down, accepted(1, 3)),
        (devices_of("d2", state(0, up=True)), accepted(1, 4)),
        (down, accepted(1, 3)),  # nothing is done again
        (group_of(0), lies(4, 0, SEED, [0])),
        (down + b" ", REUSED),
        (devices_of("d1", state(0, up=True)), REUSED),
        (devices_of("d1", state(1, up=True)), REUSED),  # before no device
        (post("devices", {"devices": [state(0, up=False)], "request": "d1"}), REUSED),  # the same keys in another order
        (devices_of("d1"), BAD),  # a body out of its form is refused first
        (pool_of("p1", size=2), REUSED),
        (pool_of("p1", rule=1), REUSED),
        (pool_of("p1", size=33), BAD),
        (pool_of("d1"), REUSED),
        (removal_of("d1"), REUSED),
        (removal_of("p1", 9), REUSED),
        (import_of(tiny(), "p1"), REUSED),
        (devices_of("m1", state(0, up=False)), REUSED),
        (pool_of("m1", id=3, name="r"), REUSED),
        (b"GET /t/a", summary(4, 1, 1, 1)),
        (gone, removed(5)),
        (gone, removed(5)),
        (removal_of("e2"), NO_POOL),
        (first, created(2)),  # the pool isn't created anew
        (group_of(0), NO_POOL),
        (pool_of("p2"), created(6)),
        (gone, removed(5)),
        (group_of(0), lies(6, 0, SEED, [0])),
        (removal_of("e1", 2), REUSED),
        (removal_of("e1", 0), BAD),
        (devices_of("e2", state(0, up=False)), accepted(1, 7)),  # refused before, so the number was free
        (removal_of("e2"), REUSED),
        (import_of(tiny()), imported(1, 1)),
        (b"GET /t/a", summary(7, 1, 1, 1)),
    ]


def dropped_tenants():
    """A tenant that is dropped leaves neither pools nor states nor receipts to the next of its
    name, nor to others."""
    out, down = lies(2, 0, SEED, [0]), devices_of("d1", state(0, up=False))
    first = [(import_of(tiny()), imported(1, 1)), (pool_of("p1"), created(2)), (group_of(0), out)]
    seven = [(import_of(tiny(7)), imported(1, 1)), (pool_of("p1"), created(2)), (group_of(0), lies(2, 0, SEED, [7]))]
    return (
        START
        + first
        + [(b"DELETE /t/a", dropped(b"a")), (b"PUT /t/b", made(b"b"))]
        + [(of_b(line), reply) for line, reply in first]
        + [
            (group_of(0), NO_TENANT),
            (b"PUT /t/a", made(b"a")),
            (group_of(0), NO_POOL),
            *seven,
            (of_b(group_of(0)), out),
            (of_b(down), accepted(1, 3)),
            (group_of(0), lies(2, 0, SEED, [7])),
            (of_b(group_of(0)), lies(3, 0, SEED, [], [0])),
            (b"DELETE /t/b", dropped(b"b")),
            (of_b(down), NO_TENANT),
            (b"PUT /t/b", made(b"b")),
            (b"GET /t/b", summary(0, 0, tenant="b")),
            (of_b(down), NO_VERSION),
            *((of_b(line), reply) for line, reply in first),  # the device is up again
            (b"GET /t/b", summary(2, 1, 0, 1, "b")),
            (b"GET /t/a", summary(2, 1, 0, 1)),
        ]
    )


def pool_limit():
    """256 pools; the limit comes after all other checks, a repeat before it."""
    rows = START + [(import_of(tiny()), imported(1, 1))]
    rows += [(pool_of(f"p{it}", id=it, name=f"n{it}"), created(it + 1, it)) for it in range(1, 257)]
    return rows + [
        (b"GET /t/a", summary(257, 1, 0, 256)),
        (pool_of("p257", id=257, name="n257"), LIMIT),
        (pool_of("p257", id=256, name="n257"), EXISTS),
        (pool_of("p257", id=257, name="n1"), EXISTS),
        (pool_of("p257", id=257, name="n257", rule=1), NO_RULE),
        (pool_of("p256", id=256, name="n256"), created(257, 256)),
        (group_of(0, 256), lies(257, 0, crush.hash2(0, 256), [0])),
        (group_of(0, 257), NO_POOL),
        (removal_of("e1", 128), removed(258, 128)),
        (pool_of("p257", id=257, name="n257"), created(259, 257)),
        (pool_of("p258", id=128, name="n128"), LIMIT),
        (b"GET /t/a", summary(259, 1, 0, 256)),
    ]


def receipt_limit():
    """100,000 receipts; the limit comes before a request's own checks, a repeat before it. What
    changes nothing is answered as ever."""
    down = [devices_of(f"d{it}", state(0, up=it % 2 == 0)) for it in range(2, 100_001)]
    return (
        START
        + [(import_of(tiny()), imported(1, 1))]
        + [(line, accepted(1, epoch)) for epoch, line in enumerate(down, 2)]
        + [
            (devices_of("more", state(0, up=True)), LIMIT),
            (devices_of("more", state(1, up=True)), LIMIT),
            (pool_of("more"), LIMIT),
            (removal_of("more"), LIMIT),
            (post("pools/exceptions", {"exceptions": [], "id": 1, "request": "more"}), LIMIT),  # before no pool
            (import_of("", "more"), LIMIT),
            (devices_of("more"), BAD),
            (down[0], accepted(1, 2)),
            (down[-1], accepted(1, 100_000)),
            (devices_of("d2", state(0, up=False)), REUSED),
            (test_of(), tested([0], [0], 100_000, 1)),
            (b"GET /t/a", summary(100_000, 1, 1)),
            (b"PUT /t/b", made(b"b")),
            (of_b(import_of(tiny())), imported(1, 1)),
            (b"DELETE /t/a", dropped(b"a")),
            (b"PUT /t/a", made(b"a")),
            (import_of(tiny()), imported(1, 1)),
        ]
    )


# ---- forms


def without(members, key):
    return {it: value for it, value in members.items() if it != key}


def forms_of_devices():
    """Bodies on both sides of each bound; what passes has a map with the greatest id."""
    entry = {"id": 65535, "up": True}
    wrong = [
        {"id": -1},
        {"id": 65536},
        {"id": 4294967296},
        {"id": 1.0},
        {"id": "1"},
        {"id": None},
        {"reweight": -1},
        {"reweight": 65537},
        {"reweight": 0.5},
        {"reweight": None},
        {"reweight": True},
        {"reweight": "1"},
        {"up": None},
        {"up": 0},
        {"up": "true"},
        {"more": 0},
    ]
    rows = START + [(import_of(tiny(65535)), imported(1, 1))]
    rows += [(devices_of("d", {**entry, "reweight": 1, **it}), BAD) for it in wrong]
    rows += [
        (devices_of("d", it), BAD) for it in ({"id": 65535}, {"up": True}, {"reweight": 1}, {}, 1, None, [], "osd.0")
    ]
    rows += [
        (post("devices", it), BAD)
        for it in (
            {"request": "d"},
            {"devices": [entry]},
            {"request": "d", "devices": [entry], "more": 0},
            {"request": "d", "devices": entry},
            {"request": "d", "devices": None},
            {"request": "d", "devices": []},
            {"request": "d", "devices": [entry, entry]},
            {"request": "d", "devices": [entry, {"id": 65535, "reweight": 1}]},
            {"request": "", "devices": [entry]},
            {"request": "r" * 65, "devices": [entry]},
            {"request": 1, "devices": [entry]},
            {"request": None, "devices": [entry]},
            [],
            1,
        )
    ]
    return rows + [
        (b"POST /t/a/devices", BAD),
        (b"POST /t/a/devices {", BAD),
        (b"POST /t/b/devices {}", BAD),  # before no tenant
        (of_b(devices_of("d", entry)), NO_TENANT),
        (b"GET /t/a/devices", METHOD),
        (b"PUT /t/a/devices", METHOD),
        (b"DELETE /t/b/devices", METHOD),
        (b"POST /t/a/devices/ {}", NO_PATH),
        (b"POST /t/a/devices/1 {}", NO_PATH),
        (devices_of("d", {"id": 65534, "up": True}), NO_DEVICE),
        (devices_of("d", {"id": 0, "up": True}), NO_DEVICE),
        (devices_of("r" * 64, entry), accepted(1, 2)),
        (devices_of("2", {"id": 65535, "reweight": 0}), accepted(1, 3)),
        (test_of(), tested([], [], 3, 1)),
        (devices_of("3", {"id": 65535, "reweight": 65536}), accepted(1, 4)),
        (test_of(), tested([65535], [65535], 4, 1)),
        (devices_of("4", {"reweight": 1, "up": False, "id": 65535}), accepted(1, 5)),
        (
            b'POST /t/a/devices {"request":"5","devices":[{"id":1.5,"up":true,"\\u0069d":65535}]}',
            accepted(1, 6),
        ),  # of a key twice the last counts
        (b"GET /t/a", summary(6, 1, 1)),
    ]


def forms_of_pools():
    """Bodies on both sides of each bound."""
    wrong = [
        {"id": 0},
        {"id": -1},
        {"id": 2147483648},
        {"id": 4294967297},
        {"id": 1.0},
        {"id": "1"},
        {"name": ""},
        {"name": "n" * 65},
        {"name": "a b"},
        {"name": "\u00e9"},
        {"name": 1},
        {"name": None},
        {"kind": "Replicated"},
        {"kind": ""},
        {"kind": "erasure "},
        {"kind": 1},
        {"kind": True},
        {"size": 0},
        {"size": 33},
        {"size": -1},
        {"size": 1.0},
        {"size": 4294967297},
        {"rule": -1},
        {"rule": 256},
        {"rule": 4294967296},
        {"rule": "all"},
        {"pg_num": 0, "pgp_num": 0},
        {"pg_num": 65537},
        {"pg_num": 8.0},
        {"pg_num": None},
        {"pg_num": 4294967304},
        {"pgp_num": 0},
        {"pgp_num": 9},
        {"pgp_num": -8},
        {"pg_num": 1, "pgp_num": 2},
        {"pg_num": 65536, "pgp_num": 65537},
        {"pgp_num": 4294967304},
        {"hashpspool": 1},
        {"hashpspool": "true"},
        {"hashpspool": None},
        {"more": 0},
        {"request": ""},
        {"request": "r" * 65},
        {"request": 1},
    ]
    rows = START + [
        (
            import_of(with_rule(255, tiny()) + tiny().split("}\n", 1)[1].replace("rule all", "rule first")),
            imported(1, 1),
        )
    ]
    rows += [(pool_of(**{"request": "p", **it}), BAD) for it in wrong]
    rows += [(post("pools", without({"request": "p", **POOL}, key)), BAD) for key in ("request", *POOL)]
    rows += [
        (post("pools/remove", it), BAD)
        for it in (
            {"request": "e", "id": 0},
            {"request": "e", "id": 2147483648},
            {"request": "e", "id": -1},
            {"request": "e", "id": "1"},
            {"request": "e"},
            {"id": 1},
            {"request": "e", "id": 1, "more": 0},
            {"request": "", "id": 1},
            {"request": "r" * 65, "id": 1},
            [],
        )
    ]
    rows += [
        (b"POST /t/a/pools []", BAD),
        (b"POST /t/b/pools {}", BAD),  # before no tenant
        (b"POST /t/b/pools/remove {}", BAD),
        (of_b(pool_of("p")), NO_TENANT),
        (of_b(removal_of("e")), NO_TENANT),
        (b"GET /t/a/pools", METHOD),
        (b"PUT /t/a/pools", METHOD),
        (b"DELETE /t/a/pools/remove", METHOD),
        (b"GET /t/a/pools/remove", METHOD),
        (b"GET /t/a/pools/1", NO_PATH),
        (b"POST /t/a/pools/ {}", NO_PATH),
        (b"GET /t/a", summary(1, 1)),
    ]
    right = [
        ({"id": 2147483647, "name": "n" * 64, "request": "r" * 64}, 0),
        ({"kind": "erasure", "name": "A-z_0.9"}, 0),
        ({"size": 32}, 0),
        ({"rule": 255}, 0),
        ({"pg_num": 65536, "pgp_num": 65536}, 65535),
        ({"pg_num": 65536, "pgp_num": 1}, 65535),
        ({"pg_num": 1, "pgp_num": 1}, 0),
    ]
    for epoch, (it, group) in enumerate(right, 2):
        id = it.get("id", epoch)
        members = {"id": id, "name": f"n{epoch}", **it}
        seed = crush.hash2(crush.stable_mod(group, it.get("pgp_num", 8)), id)
        rows += [
            (pool_of(**{"request": f"p{epoch}", **members}), created(epoch, id)),
            (group_of(group, id), lies(epoch, group, seed, [0])),
        ]
    return rows + [(b"GET /t/a", summary(8, 1, 0, 7)), (removal_of("r" * 63, 2147483647), removed(9, 2147483647))]


def forms_of_groups():
    """The paths and bodies that ask where a group or an object lies."""
    locate = b"POST /t/a/pools/1/locate "
    rows = START + [(import_of(tiny()), imported(1, 1)), (pool_of("p1"), created(2))]
    rows += [
        (b"GET /t/a/pools/%s/groups/%s" % it, BAD)
        for it in (
            (b"x", b"0"),
            (b"1", b"x"),
            (b"-1", b"0"),
            (b"1", b"-1"),
            (b"00000000001", b"0"),
            (b"1", b"00000000000"),
            (b"1.0", b"0"),
            (b"remove", b"1"),
            (b"1", b"%30"),
        )
    ]
    rows += [
        (locate + it, BAD)
        for it in (
            b"",
            b"{",
            b"{}",
            b"[]",
            b'{"name":1}',
            b'{"name":null}',
            b'{"name":["a"]}',
            b'{"name":"a","more":0}',
            b'{"names":"a"}',
            b'{"name":"\\ud800"}',
            b'{"name":"\xff"}',
        )
    ]
    rows += [(object_of(it), BAD) for it in ("n" * 1025, "\u00e9" * 513)]
    rows += [(b'POST /t/a/pools/%s/locate {"name":"a"}' % it, BAD) for it in (b"x", b"remove", b"-1", b"00000000001")]
    for name in ("n" * 1024, "\u00e9" * 512):
        hash = crush.name_hash(name.encode())
        group = crush.stable_mod(hash, 8)
        rows.append((object_of(name), lies(2, group, crush.hash2(group, 1), [0], hash=hash)))
    return rows + [
        (locate + b'{"name":1,"n\\u0061me":"\\u0061"}', lies(2, 0, SEED, [0], hash=703514648)),
        (b"GET /t/a/pools/1/groups/0 {}", BAD),
        (b"POST /t/a/pools/1/groups/0 {}", METHOD),
        (b"PUT /t/a/pools/1/groups/0", METHOD),
        (b"GET /t/a/pools/1/locate", METHOD),
        (b"DELETE /t/a/pools/1/locate", METHOD),
        (b"GET /t/a/pools/1/groups", NO_PATH),
        (b"GET /t/a/pools/1/groups/", NO_PATH),
        (b"GET /t/a/pools//groups/0", NO_PATH),
        (b"POST /t/a/pools/1/locate/ {}", NO_PATH),
        (b"GET /t/b/pools/x/groups/0", BAD),  # before no tenant
        (b"GET /t/b/pools/1/groups/0", NO_TENANT),
        (of_b(object_of("a")), NO_TENANT),
        (b"GET /t/a", summary(2, 1, 0, 1)),
    ]


def cases():
    for make in (
        first_pools,
        seeds_and_names,
        reweights,
        devices_down,
        no_device_in_raw,
        newest_version,
        states_of_devices,
        states_are_kept,
        many_devices,
        own_checks,
        rules_in_use,
        repeats,
        dropped_tenants,
        pool_limit,
        forms_of_devices,
        forms_of_pools,
        forms_of_groups,
        receipt_limit,
    ):
        yield make.__name__, make()
