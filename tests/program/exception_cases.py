"""Requests on placement exceptions of pools, each with the reply that the rules of requests give
it. The maps are small enough to be answered by hand; those of a cluster are answered by
placed.py."""
import pathlib
import random

from model import crush
from model.maps import hosts, taking, tiny, with_devices
from model.placed import Placed
from program.pool_cases import without
from model.messages import (
    BAD,
    METHOD,
    NO_DEVICE,
    NO_GROUP,
    NO_PATH,
    NO_POOL,
    NO_TENANT,
    REUSED,
    SECOND,
    SEED,
    START,
    TWO,
    accepted,
    created,
    devices_of,
    dropped,
    excepted,
    exceptions_of,
    group_of,
    impact_of,
    import_of,
    imported,
    lies,
    made,
    moved,
    moves_of,
    object_of,
    of_b,
    pairs_of,
    pool_of,
    post,
    removal_of,
    removed,
    seed_of,
    shown,
    shown_of,
    state,
    summary,
    test_of,
    tested,
    touched,
    usage_of,
    used,
)

CLUSTER = (pathlib.Path(__file__).resolve().parent.parent.parent / "examples" / "cluster.txt").read_text()

# ---- the rule


def first_exceptions():
    """A pair, its device taken out, two pairs of which the second takes the first back, and lists
    that are refused."""
    return START + [
        (import_of(with_devices(2)), imported(1, 1)),
        (pool_of("p1", **TWO), created(2)),
        (
            b'POST /t/a/pools/exceptions {"exceptions":[{"from":0,"group":0,"to":1}],"id":1,"request":"x1"}',
            b'200 {"epoch":3,"exceptions":1,"pool":1}',
        ),
        (group_of(0), b'200 {"epoch":3,"group":0,"primary":1,"raw":[0],"seed":91478055,"up":[1],"version":1}'),
        (b"GET /t/a/pools/1/exceptions", b'200 {"epoch":3,"exceptions":[{"from":0,"group":0,"to":1}],"pool":1}'),
        (devices_of("d1", state(1, reweight=0)), accepted(1, 4)),
        (group_of(0), b'200 {"epoch":4,"group":0,"primary":0,"raw":[0],"seed":91478055,"up":[0],"version":1}'),
        (impact_of(1), b'200 {"device":1,"epoch":4,"groups":[0],"pool":1,"version":1}'),
        (b"DELETE /t/a", dropped(b"a")),
        *START,
        (import_of(with_devices(2)), imported(1, 1)),
        (pool_of("p1", **TWO), created(2)),
        (exceptions_of("x1", (0, 0, 1)), excepted(3, 1)),
        (exceptions_of("x2", (0, 0, 1), (0, 1, 0)), excepted(4, 2)),
        (group_of(0), lies(4, 0, SEED, [0])),
        (exceptions_of("x3", (2, 0, 1)), NO_GROUP),
        (exceptions_of("x3", (0, 0, 0)), BAD),
        (shown_of(), shown(4, (0, 0, 1), (0, 1, 0))),
    ]


def pairs_in_their_order():
    """One pair after the other changes the list; pairs of other groups may stand between."""
    lists = [
        ([(0, 0, 1), (0, 1, 2)], [2]),
        ([(0, 1, 2), (0, 0, 1)], [1]),
        ([(0, 0, 1), (0, 0, 2)], [1]),
        ([(0, 0, 2), (0, 0, 1)], [2]),
        ([(0, 0, 1), (0, 1, 2), (0, 2, 3), (0, 3, 0)], [0]),
        ([(0, 0, 1), (0, 1, 0), (0, 0, 3)], [3]),
        ([(1, 0, 3), (0, 0, 1), (1, 3, 1), (0, 1, 2), (1, 1, 0)], [2]),
        ([(0, 0, 1), (0, 0, 1)], [1]),
        ([(0, 2, 3)], [0]),
        ([], [0]),
    ]
    rows = START + [(import_of(with_devices(4)), imported(1, 1)), (pool_of("p1", **TWO), created(2))]
    for epoch, (pairs, up) in enumerate(lists, 3):
        rows += [
            (exceptions_of(f"x{epoch}", *pairs), excepted(epoch, len(pairs))),
            (group_of(0), lies(epoch, 0, SEED, up, [0])),
            (group_of(1), lies(epoch, 1, seed_of(1), [0])),
            (shown_of(), shown(epoch, *pairs)),
        ]
    return rows


def devices_of_a_list():
    """The first `from` becomes `to`, where `to` isn't in the list; raw stays, and so does what a
    rule test says."""
    cases = [
        ([0, 1], [(0, 0, 2)], [2, 1]),
        ([0, 1], [(0, 1, 2)], [0, 2]),
        ([0, 1], [(0, 0, 1)], [0, 1]),
        ([0, 1], [(0, 1, 0)], [0, 1]),
        ([0, 1], [(0, 2, 3)], [0, 1]),
        ([0, 0, 1], [(0, 0, 3)], [3, 0, 1]),
        ([0, 0, 1], [(0, 0, 3), (0, 0, 2)], [3, 2, 1]),
        ([0, 0, 1], [(0, 0, 3), (0, 0, 3)], [3, 0, 1]),
        ([1, 0, 1], [(0, 1, 2)], [2, 0, 1]),
        ([0, 1, 2], [(0, 0, 1), (0, 1, 3)], [0, 3, 2]),
        ([0, 1, 2], [(0, 1, 3), (0, 0, 1)], [1, 3, 2]),
        ([0, 1, 2], [(0, 0, 3), (0, 1, 0), (0, 3, 1)], [1, 0, 2]),
    ]
    rows, epoch = [*START], 0
    for version, (raw, pairs, up) in enumerate(cases, 1):
        rows += [
            (import_of(taking(*raw), f"m{version}"), imported(epoch + 1, version)),
            (pool_of(f"p{version}", size=3, **TWO), created(epoch + 2)),
            (exceptions_of(f"x{version}", *pairs), excepted(epoch + 3, len(pairs))),
            (group_of(0), lies(epoch + 3, 0, SEED, up, raw, version)),
            (group_of(1), lies(epoch + 3, 1, seed_of(1), raw, version=version)),
            (test_of(x=SEED, size=3), tested(raw, [], epoch + 3, version)),
            (removal_of(f"e{version}"), removed(epoch + 4)),
        ]
        epoch += 4
    return rows


def a_device_that_is_out():
    """A pair whose `to` has reweight 0 is passed over; with any other it isn't, whatever the draw
    says. It is by reweights as they are. `from` may have any."""
    rows = START + [
        (import_of(with_devices(3)), imported(1, 1)),
        (pool_of("p1", **TWO), created(2)),
        (exceptions_of("x1", (0, 0, 1)), excepted(3, 1)),
    ]
    for epoch, (reweight, up) in enumerate(((0, [0]), (1, [1]), (32768, [1]), (0, [0]), (65536, [1])), 4):
        rows += [
            (devices_of(f"d{epoch}", state(1, reweight=reweight)), accepted(1, epoch)),
            (group_of(0), lies(epoch, 0, SEED, up, [0])),
        ]
    assert crush.hash2(SEED, 1) & 0xFFFF >= 32768  # the draw that a rule makes
    return rows + [
        (exceptions_of("x2", (0, 0, 1), (0, 1, 2)), excepted(9, 2)),
        (group_of(0), lies(9, 0, SEED, [2], [0])),
        (devices_of("d9", state(1, reweight=0)), accepted(1, 10)),
        (group_of(0), lies(10, 0, SEED, [0])),  # the second pair doesn't find its `from`
        (import_of(taking(0, 1), "m2"), imported(11, 2)),
        (pool_of("p2", id=2, name="q", size=2, **TWO), created(12, 2)),
        (devices_of("d10", state(1, reweight=65536), state(0, reweight=0)), accepted(2, 13)),
        (group_of(0, 2), lies(13, 0, seed_of(0, 2), [0, 1], version=2)),  # the rule takes it by its name
        (exceptions_of("x3", (0, 0, 3), pool=2), excepted(14, 1, 2)),
        (group_of(0, 2), lies(14, 0, seed_of(0, 2), [3, 1], [0, 1], 2)),
        (devices_of("d11", state(3, reweight=0, up=True), state(0, up=False)), accepted(2, 15)),
        (group_of(0, 2), lies(15, 0, seed_of(0, 2), [1], [0, 1], 2)),
    ]


def a_device_that_is_down():
    """Up and the primary are made of the list that the pairs leave: a device that is down takes a
    place in it, and then isn't up."""
    raw, seed = [0, 1, 2], seed_of(0, 2)
    pairs = [(0, 0, 3)]
    return START + [
        (import_of(taking(*raw)), imported(1, 1)),
        (pool_of("p1", size=3, **TWO), created(2)),
        (pool_of("p2", size=3, **SECOND), created(3, 2)),
        (exceptions_of("x1", *pairs), excepted(4, 1)),
        (exceptions_of("x2", *pairs, pool=2), excepted(5, 1, 2)),
        (group_of(0), lies(5, 0, SEED, [3, 1, 2], raw)),
        (group_of(0, 2), lies(5, 0, seed, [3, 1, 2], raw)),
        (devices_of("d1", state(3, up=False)), accepted(1, 6)),
        (group_of(0), lies(6, 0, SEED, [1, 2], raw)),
        (group_of(0, 2), lies(6, 0, seed, [None, 1, 2], raw)),
        (devices_of("d2", state(3, up=True), state(0, up=False)), accepted(2, 7)),
        (group_of(0), lies(7, 0, SEED, [3, 1, 2], raw)),  # `from` may be down
        (group_of(0, 2), lies(7, 0, seed, [3, 1, 2], raw)),
        (group_of(1), lies(7, 1, seed_of(1), [1, 2], raw)),
        (exceptions_of("x3", (0, 1, 0)), excepted(8, 1)),  # it is in the list, though it is down
        (group_of(0), lies(8, 0, SEED, [1, 2], raw)),
        (exceptions_of("x4", (0, 0, 3), (0, 1, 0), (0, 2, 1), pool=2), excepted(9, 3, 2)),
        (group_of(0, 2), lies(9, 0, seed, [3, None, 1], raw)),
    ]


def no_device_in_a_list():
    """A bucket and none in a list stay as they are."""
    firstn, indep = (hosts().replace("chooseleaf firstn 2", it) for it in ("choose firstn 2", "chooseleaf indep 2"))
    return START + [
        (import_of(firstn), imported(1, 1)),
        (pool_of("p1", size=2, **TWO), created(2)),
        (pool_of("p2", size=2, **SECOND), created(3, 2)),
        (exceptions_of("x1", (0, 0, 1), (0, 1, 0)), excepted(4, 2)),
        (exceptions_of("x2", (0, 0, 1), pool=2), excepted(5, 1, 2)),
        (group_of(0), lies(5, 0, SEED, [], [-2])),
        (group_of(0, 2), lies(5, 0, seed_of(0, 2), [None], [-2])),
        (import_of(indep, "m2"), imported(6, 2)),
        (group_of(0), lies(6, 0, SEED, [0], [0, None], 2)),  # there and back
        (group_of(0, 2), lies(6, 0, seed_of(0, 2), [1, None], [0, None], 2)),
    ]


def a_device_that_a_version_lacks():
    """Such a pair is kept, and has no effect while the newest version lacks `to`."""
    return START + [
        (import_of(with_devices(2)), imported(1, 1)),
        (pool_of("p1", **TWO), created(2)),
        (exceptions_of("x1", (0, 0, 1)), excepted(3, 1)),
        (devices_of("d1", state(1, reweight=65536)), accepted(1, 4)),
        (import_of(tiny(), "m2"), imported(5, 2)),
        (group_of(0), lies(5, 0, SEED, [0], version=2)),
        (shown_of(), shown(5, (0, 0, 1))),
        (exceptions_of("x2", (0, 0, 1)), NO_DEVICE),
        (exceptions_of("x2", (0, 1, 0)), NO_DEVICE),
        (usage_of(), used(5, (0, 2, 2, 2, 1000), version=2)),
        (impact_of(1), NO_DEVICE),
        (import_of(with_devices(2), "m3"), imported(6, 3)),
        (group_of(0), lies(6, 0, SEED, [1], [0], 3)),
        (import_of(with_devices(9, 7), "m4"), imported(7, 4)),
        (group_of(0), lies(7, 0, SEED, [7], version=4)),
        (exceptions_of("x2", (0, 7, 1)), excepted(8, 1)),
        (group_of(0), lies(8, 0, SEED, [1], [7], 4)),
        (import_of(tiny(7), "m5"), imported(9, 5)),
        (group_of(0), lies(9, 0, SEED, [7], version=5)),
        (exceptions_of("x3"), excepted(10, 0)),  # no pair names a device
        (shown_of(), shown(10)),
    ]


def objects():
    """An object lies where its group does."""
    hash = 703514648  # of a, which is 0 modulo 2
    return START + [
        (import_of(with_devices(2)), imported(1, 1)),
        (pool_of("p1", **TWO), created(2)),
        (object_of("a"), lies(2, 0, SEED, [0], hash=hash)),
        (exceptions_of("x1", (1, 0, 1)), excepted(3, 1)),
        (object_of("a"), lies(3, 0, SEED, [0], hash=hash)),
        (exceptions_of("x2", (0, 0, 1)), excepted(4, 1)),
        (object_of("a"), lies(4, 0, SEED, [1], [0], hash=hash)),
        (group_of(1), lies(4, 1, seed_of(1), [0])),
    ]


# ---- lists of pairs


def lists_of_pools():
    """A request replaces the whole list of its pool and none of another's; a pool that is removed
    takes its list along, and so does a tenant."""
    end = [
        (shown_of(), NO_POOL),
        (import_of(with_devices(4)), imported(1, 1)),
        (pool_of("p1", **TWO), created(2)),
        (shown_of(), shown(2)),
        (group_of(0), lies(2, 0, SEED, [0])),
    ]
    return START + [
        (shown_of(), NO_POOL),
        (import_of(with_devices(4)), imported(1, 1)),
        (pool_of("p1", **TWO), created(2)),
        (pool_of("p2", id=2, name="q", **TWO), created(3, 2)),
        (shown_of(), shown(3)),
        (exceptions_of("x1", (0, 0, 1), (1, 0, 2)), excepted(4, 2)),
        (exceptions_of("x2", (0, 0, 3), pool=2), excepted(5, 1, 2)),
        (exceptions_of("x3", (1, 0, 3)), excepted(6, 1)),
        (shown_of(), shown(6, (1, 0, 3))),
        (shown_of(2), shown(6, (0, 0, 3), pool=2)),
        (group_of(0), lies(6, 0, SEED, [0])),
        (group_of(1), lies(6, 1, seed_of(1), [3], [0])),
        (group_of(0, 2), lies(6, 0, seed_of(0, 2), [3], [0])),
        (exceptions_of("x4"), excepted(7, 0)),
        (shown_of(), shown(7)),
        (exceptions_of("x5"), excepted(8, 0)),
        (group_of(1), lies(8, 1, seed_of(1), [0])),
        (removal_of("e1", 2), removed(9, 2)),
        (shown_of(2), NO_POOL),
        (exceptions_of("x6", (0, 0, 3), pool=2), NO_POOL),
        (pool_of("p3", id=2, name="q", **TWO), created(10, 2)),
        (shown_of(2), shown(10, pool=2)),
        (group_of(0, 2), lies(10, 0, seed_of(0, 2), [0])),
        (b"GET /t/a", summary(10, 1, 0, 2)),  # neither states of devices nor pools
        (exceptions_of("x6", (0, 0, 3), pool=2), excepted(11, 1, 2)),
        (b"PUT /t/b", made(b"b")),
        *((of_b(line), reply) for line, reply in end),
        (of_b(exceptions_of("x1", (0, 0, 2))), excepted(3, 1)),
        (shown_of(2), shown(11, (0, 0, 3), pool=2)),
        (of_b(shown_of()), shown(3, (0, 0, 2))),
        (b"DELETE /t/a", dropped(b"a")),
        (shown_of(), NO_TENANT),
        (exceptions_of("x1"), NO_TENANT),
        (b"PUT /t/a", made(b"a")),
        *end,
        (of_b(group_of(0)), lies(3, 0, SEED, [2], [0])),
    ]


def checks_of_exceptions():
    """No pool, no group of any pair and no device of any pair come in this order; what is out of
    its range before them."""
    return START + [
        (exceptions_of("x1", (0, 0, 1)), NO_POOL),
        (exceptions_of("x1"), NO_POOL),  # there is no version either
        (import_of(with_devices(4)), imported(1, 1)),
        (exceptions_of("x1", (0, 0, 1)), NO_POOL),
        (exceptions_of("x1", (9, 9, 8)), NO_POOL),
        (pool_of("p1", **TWO), created(2)),
        (exceptions_of("x1", (9, 9, 8), pool=2), NO_POOL),
        (exceptions_of("x1", (0, 0, 0), pool=2), BAD),
        (exceptions_of("x1", (1, 0, 3)), excepted(3, 1)),
        (exceptions_of("x2", (2, 0, 1)), NO_GROUP),
        (exceptions_of("x2", (65535, 0, 1)), NO_GROUP),
        (exceptions_of("x2", (0, 0, 1), (2, 0, 1)), NO_GROUP),
        (exceptions_of("x2", (0, 4, 1)), NO_DEVICE),
        (exceptions_of("x2", (0, 0, 4)), NO_DEVICE),
        (exceptions_of("x2", (0, 0, 65535)), NO_DEVICE),
        (exceptions_of("x2", (0, 65535, 0)), NO_DEVICE),
        (exceptions_of("x2", (0, 0, 1), (1, 0, 4)), NO_DEVICE),
        (exceptions_of("x2", (0, 4, 5), (2, 0, 1)), NO_GROUP),  # any group before any device
        (exceptions_of("x2", (2, 4, 5)), NO_GROUP),
        (exceptions_of("x2", (0, 4, 5), (2, 0, 0)), BAD),
        (exceptions_of("x2", (0, 0, 1), (65536, 0, 1)), BAD),
        (shown_of(), shown(3, (1, 0, 3))),  # what is refused changes nothing
        (b"GET /t/a", summary(3, 1, 0, 1)),
        (exceptions_of("x2", (1, 3, 2), (0, 3, 2)), excepted(4, 2)),  # `from` needn't be in a list
        (shown_of(4294967297), NO_POOL),
        (b"GET /t/a/pools/0000000001/exceptions", shown(4, (1, 3, 2), (0, 3, 2))),
        (b"GET /t/a/pools/9999999999/exceptions", NO_POOL),
    ]


def repeats_of_exceptions():
    """A request number acts once, whichever path it was sent to."""
    first = exceptions_of("x1", (0, 0, 1))
    return START + [
        (first, NO_POOL),
        (import_of(with_devices(4)), imported(1, 1)),
        (pool_of("p1", **TWO), created(2)),
        (first, excepted(3, 1)),  # refused before, so the number was free
        (first, excepted(3, 1)),
        (exceptions_of("x2", (0, 0, 2)), excepted(4, 1)),
        (first, excepted(3, 1)),
        (shown_of(), shown(4, (0, 0, 2))),  # nothing is done again
        (group_of(0), lies(4, 0, SEED, [2], [0])),
        (first + b" ", REUSED),
        (exceptions_of("x1", (0, 0, 3)), REUSED),
        (exceptions_of("x1", (2, 0, 3)), REUSED),  # before no group
        (exceptions_of("x1", (0, 0, 9)), REUSED),
        (exceptions_of("x1", (0, 0, 1), pool=2), REUSED),
        (exceptions_of("x1", (0, 0, 0)), BAD),  # a body out of its form is refused first
        (
            post("pools/exceptions", {"id": 1, "request": "x1", "exceptions": pairs_of([(0, 0, 1)])}),
            REUSED,
        ),  # the same keys in another order
        (pool_of("x1", id=2, name="q"), REUSED),
        (removal_of("x1"), REUSED),
        (import_of(tiny(), "x1"), REUSED),
        (exceptions_of("p1"), REUSED),
        (exceptions_of("m1"), REUSED),
        (import_of(tiny(), "m2"), imported(5, 2)),
        (first, excepted(3, 1)),  # whatever the newest version has
        (removal_of("e1"), removed(6)),
        (first, excepted(3, 1)),
        (exceptions_of("x2", (0, 0, 2)), excepted(4, 1)),
        (shown_of(), NO_POOL),
        (exceptions_of("x3"), NO_POOL),
        (b"GET /t/a", summary(6, 2)),
    ]


def pair_limit():
    """1,024 pairs, of any groups and the same ones too, and one more."""
    drawn = random.Random(15)
    pairs = (
        [(0, 0, 1)] * 3
        + [(drawn.randrange(2), *drawn.sample(range(64), 2)) for _ in range(1018)]
        + [(1, 0, 5), (0, 63, 0), (0, 0, 63)]
    )
    lists = {group: [0] for group in range(2)}
    for group, old, new in pairs:
        if old in lists[group] and new not in lists[group]:
            lists[group] = [new if it == old else it for it in lists[group]]
    back = [(0, it, it + 1) for it in range(63)] + [(1, it % 2, (it + 1) % 2) for it in range(961)]
    return START + [
        (import_of(with_devices(64)), imported(1, 1)),
        (pool_of("p1", **TWO), created(2)),
        (exceptions_of("x1", *pairs, (0, 0, 1)), BAD),
        (exceptions_of("x1", *pairs, (9, 99, 1)), BAD),  # before no group
        (shown_of(), shown(2)),
        (exceptions_of("x1", *pairs), excepted(3, 1024)),
        (shown_of(), shown(3, *pairs)),
        *((group_of(it), lies(3, it, seed_of(it), lists[it], [0])) for it in range(2)),
        (exceptions_of("x2", *back), excepted(4, 1024)),
        (group_of(0), lies(4, 0, SEED, [63], [0])),
        (group_of(1), lies(4, 1, seed_of(1), [1], [0])),
        (exceptions_of("x3", *back[1:]), excepted(5, 1023)),
        (group_of(0), lies(5, 0, SEED, [0])),
    ]


def forms_of_exceptions():
    """Bodies on both sides of each bound, and the paths."""
    pair = {"group": 65535, "from": 65535, "to": 0}
    body = {"request": "x", "id": 1, "exceptions": [pair]}
    wrong_pairs = [
        *({**pair, key: value} for key in pair for value in (-1, 65536, 4294967296, 1.0, 0.5, "1", None, True, [], {})),
        {**pair, "from": 0},
        {**pair, "to": 65535},
        {**pair, "more": 0},
        *(without(pair, key) for key in pair),
        {},
        1,
        None,
        [],
        [0, 0, 1],
        "0",
    ]
    wrong = [
        *({**body, "exceptions": [it]} for it in wrong_pairs),
        {**body, "exceptions": [pair, {**pair, "to": 65535}]},
        {**body, "exceptions": [wrong_pairs[0], pair]},
        *({**body, "exceptions": it} for it in (None, pair, {}, 0, "", True)),
        *({**body, "id": it} for it in (0, -1, 2147483648, 4294967297, 1.0, "1", None, True)),
        *({**body, "request": it} for it in ("", "r" * 65, 1, None)),
        {**body, "more": 0},
        {**body, "pool": 1},
        *(without(body, it) for it in body),
        {},
        [],
        1,
    ]
    full = dict(pg_num=65536, pgp_num=65536)
    rows = START + [
        (import_of(with_devices(1).replace("type 0 osd", "device 65535 osd.65535\ntype 0 osd")), imported(1, 1)),
        (pool_of("p1", **full), created(2)),
    ]
    rows += [(post("pools/exceptions", it), BAD) for it in wrong]
    rows += [
        (b"GET /t/a/pools/%s/exceptions" % it, BAD)
        for it in (b"x", b"-1", b"+1", b"1.0", b"00000000001", b"%31", b"remove", b"exceptions")
    ]
    return rows + [
        (b"POST /t/a/pools/exceptions", BAD),
        (b"POST /t/a/pools/exceptions {", BAD),
        (b"POST /t/a/pools/exceptions []", BAD),
        (b"POST /t/b/pools/exceptions {}", BAD),  # before no tenant
        (of_b(post("pools/exceptions", body)), NO_TENANT),
        (b"GET /t/b/pools/x/exceptions", BAD),
        (b"GET /t/b/pools/1/exceptions", NO_TENANT),
        (b"GET /t/a/pools/1/exceptions {}", BAD),
        (b"POST /t/a/pools/1/exceptions {}", METHOD),
        (b"PUT /t/a/pools/1/exceptions", METHOD),
        (b"DELETE /t/a/pools/1/exceptions", METHOD),
        (b"GET /t/a/pools/exceptions", METHOD),
        (b"PUT /t/a/pools/exceptions", METHOD),
        (b"DELETE /t/b/pools/exceptions", METHOD),
        (b"GET /t/a/pools/1/exceptions/", NO_PATH),
        (b"GET /t/a/pools/1/exceptions/1", NO_PATH),
        (b"GET /t/a/pools/1/exception", NO_PATH),
        (b"GET /t/a/pools//exceptions", NO_PATH),
        (b"POST /t/a/pools/exceptions/ {}", NO_PATH),
        (b"POST /t/a/pools/Exceptions {}", NO_PATH),
        (b"POST /t/a/pools/exceptions/remove {}", NO_PATH),
        (b"GET /t/a/pools/exceptions/groups/1", BAD),  # the pool part of another route
        (b"GET /t/a/pools/exceptions/usage", BAD),
        (shown_of(), shown(2)),
        (post("pools/exceptions", {**body, "request": "r" * 64}), excepted(3, 1)),
        (shown_of(), shown(3, (65535, 65535, 0))),
        (shown_of() + b" ", shown(3, (65535, 65535, 0))),
        (exceptions_of("x", (65535, 0, 65535)), excepted(4, 1)),
        (group_of(65535), lies(4, 65535, seed_of(65535), [65535], [0])),
        (exceptions_of("y", (0, 65534, 0)), NO_DEVICE),
        (pool_of("p2", id=2147483647, name="q", pg_num=1, pgp_num=1), created(5, 2147483647)),
        (exceptions_of("y", (1, 0, 65535), pool=2147483647), NO_GROUP),
        (exceptions_of("y", (0, 0, 65535), pool=2147483647), excepted(6, 1, 2147483647)),
        (
            (
                b"POST /t/a/pools/exceptions"
                b' {"request":"z","id":7,"exceptions":[{"to":65535,"from":65535,"group":3,"\\u0066rom":0}],'
                b'"\\u0069d":1}'
            ),
            excepted(7, 1),
        ),  # of a key twice the last counts
        (shown_of(), shown(7, (3, 0, 65535))),
        (post("pools/exceptions", {"exceptions": [], "request": "w", "id": 1}), excepted(8, 0)),
        (b"GET /t/a", summary(8, 1, 0, 2)),
    ]


# ---- reports


def usage_with_exceptions():
    """A list that pairs leave is counted; where they leave one device twice in a list it stood
    there twice before."""
    return START + [
        (import_of(with_devices(3)), imported(1, 1)),
        (pool_of("p1"), created(2)),
        (usage_of(), used(2, (0, 8, 8, 8, 1000), (1, 0, 0, 0, 0), (2, 0, 0, 0, 0))),
        (exceptions_of("x1", (0, 0, 1), (7, 0, 1), (3, 0, 2), (4, 1, 2)), excepted(3, 4)),
        (usage_of(), used(3, (0, 5, 5, 5, 625), (1, 2, 2, 2, 250), (2, 1, 1, 1, 125))),
        (devices_of("d1", state(1, up=False)), accepted(1, 4)),
        (usage_of(), used(4, (0, 5, 5, 5, 833), (1, 0, 0, 0, 0), (2, 1, 1, 1, 166))),
        (devices_of("d2", state(1, up=True, reweight=0)), accepted(1, 5)),
        (usage_of(), used(5, (0, 7, 7, 7, 875), (1, 0, 0, 0, 0), (2, 1, 1, 1, 125))),
        (import_of(taking(0, 0, 1), "m2"), imported(6, 2)),
        (pool_of("p2", size=3, **SECOND), created(7, 2)),
        (exceptions_of("x2", (0, 0, 3), pool=2), excepted(8, 1, 2)),
        (
            usage_of(2),
            used(8, (0, 2, 3, 1, 500), (1, 2, 2, 0, 333), (2, 0, 0, 0, 0), (3, 1, 1, 1, 166), version=2, pool=2),
        ),
    ]


def groups_of_one_place():
    """Where groups share what the rule answers, since pgp_num is less than pg_num, a pair is still
    of its own group alone."""
    rows = START + [
        (import_of(with_devices(2)), imported(1, 1)),
        (pool_of("p1", pg_num=4, pgp_num=1), created(2)),
        (exceptions_of("x1", (3, 0, 1)), excepted(3, 1)),
    ]
    rows += [(group_of(it), lies(3, it, SEED, [int(it == 3)], [0])) for it in range(4)]
    return rows + [
        (usage_of(), used(3, (0, 3, 3, 3, 750), (1, 1, 1, 1, 250))),
        (impact_of(0), touched(3, 0, [0, 1, 2, 3])),
        (impact_of(1), touched(3, 1, [3])),
        (import_of(with_devices(2, 1), "m2"), imported(4, 2)),
        (moves_of(1, 2), moved(4, 1, 2, *((it, 1, [0], [1]) for it in range(3)))),
    ]


def moves_with_exceptions():
    """The pairs as they are now hold for both versions, by the devices of each; so do states."""
    return START + [
        (import_of(with_devices(9)), imported(1, 1)),  # 0 in the bucket
        (import_of(tiny(), "m2"), imported(2, 2)),  # the same without 1
        (import_of(with_devices(9, 7), "m3"), imported(3, 3)),  # 7 in the bucket
        (pool_of("p1", **TWO), created(4)),
        (moves_of(1, 2), moved(4, 1, 2)),
        (moves_of(1, 3), moved(4, 1, 3, (0, 1, [0], [7]), (1, 1, [0], [7]))),
        (exceptions_of("x1", (0, 0, 1)), excepted(5, 1)),
        (moves_of(1, 2), moved(5, 1, 2, (0, 1, [1], [0]))),
        (moves_of(2, 1), moved(5, 2, 1, (0, 1, [0], [1]))),
        (moves_of(1, 1), moved(5, 1, 1)),
        (moves_of(1, 3), moved(5, 1, 3, (0, 1, [1], [7]), (1, 1, [0], [7]))),
        (exceptions_of("x2", (1, 0, 7), (0, 7, 0)), excepted(6, 2)),
        (moves_of(1, 3), moved(6, 1, 3)),  # each group has the same list by its pair
        (moves_of(2, 3), moved(6, 2, 3, (1, 1, [0], [7]))),
        (devices_of("d1", state(7, reweight=0)), accepted(1, 7)),
        (moves_of(1, 3), moved(7, 1, 3, (0, 0, [0], []), (1, 0, [0], []))),
        (devices_of("d2", state(7, reweight=65536, up=False)), accepted(1, 8)),
        (moves_of(1, 3), moved(8, 1, 3)),  # 7 is down, and so in neither list of group 1
        (moves_of(2, 3), moved(8, 2, 3, (1, 0, [0], []))),
        (exceptions_of("x3"), excepted(9, 0)),
        (moves_of(1, 3), moved(9, 1, 3, (0, 0, [0], []), (1, 0, [0], []))),
    ]


def impact_with_exceptions():
    """The groups whose trace has the device and those that have a pair with it as `to`, each once,
    in order, whether or not the pair takes effect."""
    return START + [
        (import_of(with_devices(5)), imported(1, 1)),
        (pool_of("p1"), created(2)),
        (impact_of(1), touched(2, 1, [])),
        (exceptions_of("x1", (5, 0, 1), (2, 0, 1), (2, 1, 3), (2, 0, 1), (3, 2, 4), (6, 1, 0)), excepted(3, 6)),
        (impact_of(0), touched(3, 0, list(range(8)))),
        (impact_of(1), touched(3, 1, [2, 5])),
        (impact_of(2), touched(3, 2, [])),  # it is `from` alone
        (impact_of(3), touched(3, 3, [2])),
        (impact_of(4), touched(3, 4, [3])),  # its `from` is in no list
        (devices_of("d1", state(0, reweight=0), state(1, reweight=0, up=False)), accepted(2, 4)),
        (impact_of(0), touched(4, 0, [6])),  # out, and so in no trace
        (impact_of(1), touched(4, 1, [2, 5])),
        (impact_of(5), NO_DEVICE),
        (import_of(with_devices(2, 1), "m2"), imported(5, 2)),
        (impact_of(3), NO_DEVICE),
        (devices_of("d2", state(1, reweight=65536)), accepted(1, 6)),
        (impact_of(1), touched(6, 1, list(range(8)), version=2)),
        (impact_of(0), touched(6, 0, [6], version=2)),
        (exceptions_of("x2"), excepted(7, 0)),
        (impact_of(0), touched(7, 0, [], version=2)),
    ]


def clusters():
    """Pairs drawn by chance on the groups of a cluster of twelve devices: where each group lies,
    and all reports, with devices that are out, reweighted and down."""
    rows, size, groups = START + [(import_of(CLUSTER), imported(1, 1))], 3, 32
    shape = dict(size=size, pg_num=groups, pgp_num=groups)
    rows += [
        (pool_of("p1", **shape), created(2)),
        (pool_of("p2", id=2, name="q", kind="erasure", **shape), created(3, 2)),
    ]
    epoch, drawn = 3, random.Random(48)
    for place in range(4):
        reweights = {} if place == 0 else {it: drawn.choice((0, 0, 1, 32768, 65536)) for it in range(12)}
        down = set() if place == 0 else {it for it in range(12) if drawn.random() < 0.2}
        entries = [state(it, reweight=reweights.get(it, 65536), up=it not in down) for it in range(12)]
        epoch += 1
        rows.append((devices_of(f"d{epoch}", *entries), accepted(12, epoch)))
        for pool in (1, 2):
            how = dict(pool=pool, size=size, pg_num=groups, reweights=reweights, down=down, erasure=pool == 2)
            plain = Placed(CLUSTER, **how)
            raw = plain.raw
            pairs = []
            for _ in range(80):
                group = drawn.randrange(groups)
                old = (
                    drawn.choice([it for it in raw[group] if it is not None] or [0])
                    if drawn.random() < 0.7
                    else drawn.randrange(12)
                )
                pairs.append((group, old, drawn.choice([it for it in range(12) if it != old])))
            epoch += 1
            rows.append((exceptions_of(f"x{epoch}", *pairs, pool=pool), excepted(epoch, len(pairs), pool)))
            with_pairs = Placed(CLUSTER, pairs=pairs, **how)
            assert with_pairs.up != plain.up
            rows += [
                (group_of(it, pool), lies(epoch, it, with_pairs.seeds[it], with_pairs.up[it], raw[it]))
                for it in range(groups)
            ]
            rows.append(
                (
                    usage_of(pool),
                    used(epoch, *((device, *row) for device, row in with_pairs.entries().items()), pool=pool),
                )
            )
            rows += [(impact_of(it, pool), touched(epoch, it, with_pairs.impact(it), pool=pool)) for it in range(12)]
            rows.append((shown_of(pool), shown(epoch, *pairs, pool=pool)))
    return rows


def cases():
    for make in (
        first_exceptions,
        pairs_in_their_order,
        devices_of_a_list,
        a_device_that_is_out,
        a_device_that_is_down,
        no_device_in_a_list,
        a_device_that_a_version_lacks,
        objects,
        lists_of_pools,
        checks_of_exceptions,
        repeats_of_exceptions,
        pair_limit,
        forms_of_exceptions,
        usage_with_exceptions,
        groups_of_one_place,
        moves_with_exceptions,
        impact_with_exceptions,
        clusters,
    ):
        yield make.__name__, make()
