"""Requests for reports on pools, and changes of states of devices as CSV, each with the reply that
the rules of requests give it. The maps are small enough to be answered by hand; picks and seeds are
those of crush.py. A pool beside items of weight 0 is answered by placed.py."""
import pathlib

from model import crush
from model.maps import duo, one_host, taking, three, tiny, with_devices, with_line, with_rule
from model.placed import Placed
from model.messages import (
    BAD,
    METHOD,
    NO_DEVICE,
    NO_PATH,
    NO_POOL,
    NO_RULE,
    NO_TENANT,
    NO_VERSION,
    REUSED,
    SECOND,
    SEED,
    START,
    TOO_LARGE,
    TWO,
    accepted,
    created,
    csv_of,
    devices_of,
    dropped,
    group_of,
    impact_of,
    import_of,
    imported,
    lies,
    lines_of,
    made,
    moved,
    moves_of,
    of_b,
    pool_of,
    post,
    removal_of,
    removed,
    state,
    summary,
    test_of,
    tested,
    touched,
    usage_of,
    used,
)

THREE_HOSTS = (pathlib.Path(__file__).resolve().parent.parent.parent / "examples" / "three_hosts.txt").read_text()

# ---- usage


def usage():
    """What a pool of one device lies on; a device that is down, and then one that is out, has
    nothing."""
    return START + [
        (usage_of(), NO_POOL),
        (import_of(tiny()), imported(1, 1)),
        (usage_of(), NO_POOL),
        (pool_of("p1"), created(2)),
        (
            usage_of(),
            (
                b'200 {"epoch":2,"pool":1,"rows":[{"device":0,"entries":8,"groups":8,"permille":1000,"primaries":8}],'
                b'"version":1}'
            ),
        ),
        (usage_of(2), NO_POOL),
        (usage_of(4294967297), NO_POOL),  # 2^32 + 1: numbers are compared as a whole
        (devices_of("d1", state(0, up=False)), accepted(1, 3)),
        (usage_of(), used(3, (0, 0, 0, 0, 0))),
        (devices_of("d2", state(0, up=True)), accepted(1, 4)),
        (usage_of(), used(4, (0, 8, 8, 8, 1000))),
        (devices_of("d3", state(0, reweight=0)), accepted(1, 5)),
        (usage_of(), used(5, (0, 0, 0, 0, 0))),
        (import_of(tiny(7), "m2"), imported(6, 2)),
        (usage_of(), used(6, (7, 8, 8, 8, 1000), version=2)),  # the newest version, and its devices alone
        (pool_of("p2", id=2, name="q", pg_num=65536, pgp_num=65536), created(7, 2)),
        (usage_of(2), used(7, (7, 65536, 65536, 65536, 1000), version=2, pool=2)),
        (pool_of("p3", id=3, name="r", pg_num=1, pgp_num=1), created(8, 3)),
        (usage_of(3), used(8, (7, 1, 1, 1, 1000), version=2, pool=3)),
        (removal_of("e1", 3), removed(9, 3)),
        (usage_of(3), NO_POOL),
        (b"GET /t/a", summary(9, 2, 1, 2)),  # a report changes nothing
    ]


def usage_by_entries():
    """Permille is of all entries that aren't none, rounded down; groups count a device once,
    entries each time."""
    return START + [
        (import_of(three()), imported(1, 1)),
        (pool_of("p1", size=3), created(2)),
        (pool_of("p2", size=3, **SECOND), created(3, 2)),
        (usage_of(), used(3, (0, 8, 8, 8, 333), (1, 8, 8, 0, 333), (2, 8, 8, 0, 333))),
        (usage_of(2), used(3, (0, 2, 2, 2, 333), (1, 2, 2, 0, 333), (2, 2, 2, 0, 333), pool=2)),
        (devices_of("d1", state(0, up=False)), accepted(1, 4)),
        (usage_of(), used(4, (0, 0, 0, 0, 0), (1, 8, 8, 8, 500), (2, 8, 8, 0, 500))),
        (usage_of(2), used(4, (0, 0, 0, 0, 0), (1, 2, 2, 2, 500), (2, 2, 2, 0, 500), pool=2)),  # its none isn't counted
        (devices_of("d2", state(1, up=False), state(2, up=False)), accepted(2, 5)),
        (usage_of(), used(5, *((it, 0, 0, 0, 0) for it in range(3)))),
        (usage_of(2), used(5, *((it, 0, 0, 0, 0) for it in range(3)), pool=2)),
        (devices_of("d3", *(state(it, up=True) for it in range(3))), accepted(3, 6)),
        (import_of(taking(1, 0, 1), "m2"), imported(7, 2)),
        (usage_of(), used(7, (0, 8, 8, 0, 333), (1, 8, 16, 8, 666), (2, 0, 0, 0, 0), (3, 0, 0, 0, 0), version=2)),
        (devices_of("d4", state(1, up=False)), accepted(1, 8)),
        (usage_of(), used(8, (0, 8, 8, 8, 1000), (1, 0, 0, 0, 0), (2, 0, 0, 0, 0), (3, 0, 0, 0, 0), version=2)),
        (import_of(with_line(tiny(7), 7, "device 7 osd.7\ndevice 9 osd.9\ndevice 0 osd.0"), "m3"), imported(9, 3)),
        (usage_of(), used(9, (0, 0, 0, 0, 0), (7, 8, 8, 8, 1000), (9, 0, 0, 0, 0), version=3)),  # by id
        (import_of(with_line(tiny(), 21, None), "m4"), imported(10, 4)),
        (usage_of(), used(10, (0, 0, 0, 0, 0), version=4)),  # a bucket is never up
    ]


# ---- moves


def weightless(text, *items):
    """The text with these items, of weight 1.0 or 2.0, of weight 0."""
    for it in items:
        text = text.replace(f"item {it} weight 1.0", f"item {it} weight 0").replace(
            f"item {it} weight 2.0", f"item {it} weight 0"
        )
    return text


def usage_beside_weight_0():
    """Where a host weighs nothing, a device of each host, both, all devices, or all hosts."""
    first, second, all_hosts = ("osd.0", "osd.2", "osd.4"), ("osd.1", "osd.3", "osd.5"), ("host0", "host1", "host2")
    rows = START + [(import_of(tiny()), imported(1, 1)), (pool_of("p1", size=3, pg_num=32, pgp_num=32), created(2))]
    texts = [
        weightless(THREE_HOSTS.replace("alg list", f"alg {kind}"), *items)
        for items in (("host1",), second, ("host1", *first), first + second, all_hosts)
        for kind in ("list", "tree")
    ]
    for version, text in enumerate(texts, 2):
        placed = Placed(text, pool=1, size=3, pg_num=32)
        rows += [
            (import_of(text, f"m{version}"), imported(version + 1, version)),
            (usage_of(), used(version + 1, *((it, *row) for it, row in placed.entries().items()), version=version)),
            *(
                (test_of(placed.seeds[it], 3), tested(placed.raw[it], placed.traces[it], version + 1, version))
                for it in range(32)
            ),
        ]
    return rows


def moves():
    """Which groups a second map moves; from a version to itself none does."""
    return START + [
        (moves_of(1, 1), NO_POOL),
        (import_of(tiny()), imported(1, 1)),
        (pool_of("p1", **TWO), created(2)),
        (import_of(tiny(7), "m2"), imported(3, 2)),
        (
            moves_of(1, 2),
            (
                b'200 {"epoch":3,"from":1,"gained":2,"moved":2,"pool":1,"rows":['
                b'{"gained":1,"group":0,"new":[7],"old":[0]},{"gained":1,"group":1,"new":[7],"old":[0]}],"to":2}'
            ),
        ),
        (moves_of(2, 1), moved(3, 2, 1, (0, 1, [7], [0]), (1, 1, [7], [0]))),
        (moves_of(1, 1), moved(3, 1, 1)),
        (moves_of(2, 2), moved(3, 2, 2)),
        (import_of(tiny(), "m3"), imported(4, 3)),
        (moves_of(1, 3), moved(4, 1, 3)),
        (devices_of("d1", state(0, up=False)), accepted(1, 5)),  # the states as they are now, for both versions
        (moves_of(1, 2), moved(5, 1, 2, (0, 1, [], [7]), (1, 1, [], [7]))),
        (moves_of(2, 1), moved(5, 2, 1, (0, 0, [7], []), (1, 0, [7], []))),
        (moves_of(1, 3), moved(5, 1, 3)),
        (pool_of("p2", **SECOND), created(6, 2)),
        (moves_of(2, 3, 2), moved(6, 2, 3, (0, 0, [7], [None]), (1, 0, [7], [None]), pool=2)),
        (b"GET /t/a", summary(6, 3, 1, 2)),
    ]


def moves_of_lists():
    """A group moves where its list differs, be it in its order alone; what it gains are the devices
    that it didn't have."""
    lists = [[0, 1, 2], [2, 1, 0], [3, 3, 1], [0, 1], [0, 1, 1]]
    rows = START + [(import_of(taking(*it), f"m{epoch}"), imported(epoch, epoch)) for epoch, it in enumerate(lists, 1)]
    rows += [(pool_of("p1", size=3, pg_num=1, pgp_num=1), created(6))]
    gained = [
        [0, 0, 1, 0, 0],
        [0, 0, 1, 0, 0],
        [2, 2, 0, 1, 1],
        [1, 1, 1, 0, 0],
        [1, 1, 1, 0, 0],
    ]  # from the one to the other
    for old in range(5):
        for new in range(5):
            row = [] if old == new else [(0, gained[old][new], lists[old], lists[new])]
            rows.append((moves_of(old + 1, new + 1), moved(6, old + 1, new + 1, *row)))
    return rows


def checks_of_moves():
    """No pool, no version and no rule come in this order; a pool's rule may be missing on a version
    before the newest."""
    return START + [
        (import_of(with_rule(1, tiny())), imported(1, 1)),
        (import_of(tiny(), "m2"), imported(2, 2)),
        (moves_of(9, 9), NO_POOL),
        (pool_of("p1", **TWO), created(3)),
        (moves_of(1, 1), NO_RULE),
        (moves_of(1, 2), NO_RULE),
        (moves_of(2, 1), NO_RULE),
        (moves_of(2, 2), moved(3, 2, 2)),
        (moves_of(2, 0), NO_VERSION),
        (moves_of(0, 2), NO_VERSION),
        (moves_of(2, 3), NO_VERSION),
        (moves_of(1, 3), NO_VERSION),  # before no rule
        (moves_of(3, 1), NO_VERSION),
        (moves_of(4294967298, 2), NO_VERSION),
        (moves_of(2, 4294967298), NO_VERSION),
        (moves_of(9999999999, 9999999999), NO_VERSION),
        (moves_of(2, 3, 2), NO_POOL),
        (moves_of(2, 2, 4294967297), NO_POOL),
        (b"GET /t/a/pools/0000000001/moves/0000000002/2", moved(3, 2, 2)),
        (usage_of(), used(3, (0, 2, 2, 2, 1000), version=2)),
        (impact_of(0), touched(3, 0, [0, 1], version=2)),
    ]


# ---- impact


def impact():
    """Which groups a device can touch, be it up or down; once it is out there is none."""
    return START + [
        (impact_of(0), NO_POOL),
        (import_of(tiny()), imported(1, 1)),
        (impact_of(0), NO_POOL),
        (pool_of("p1", **TWO), created(2)),
        (impact_of(0), b'200 {"device":0,"epoch":2,"groups":[0,1],"pool":1,"version":1}'),
        (impact_of(4), NO_DEVICE),
        (devices_of("d1", state(0, up=False)), accepted(1, 3)),
        (
            usage_of(),
            (
                b'200 {"epoch":3,"pool":1,"rows":[{"device":0,"entries":0,"groups":0,"permille":0,"primaries":0}],'
                b'"version":1}'
            ),
        ),
        (impact_of(0), b'200 {"device":0,"epoch":3,"groups":[0,1],"pool":1,"version":1}'),
        (devices_of("d2", state(0, reweight=0)), accepted(1, 4)),
        (impact_of(0), b'200 {"device":0,"epoch":4,"groups":[],"pool":1,"version":1}'),
        (devices_of("d3", state(0, reweight=65536)), accepted(1, 5)),
        (import_of(tiny(7), "m2"), imported(6, 2)),
        (impact_of(0), NO_DEVICE),  # the newest version
        (impact_of(7), touched(6, 7, [0, 1], version=2)),
        (b"GET /t/a", summary(6, 2, 1, 1)),
    ]


def checks_of_impact():
    """No pool comes before no device; a device that no bucket holds, or that a rule takes by its
    name, is in no trace."""
    return START + [
        (import_of(three()), imported(1, 1)),
        (pool_of("p1", size=3), created(2)),
        (impact_of(0), touched(2, 0, [])),
        (group_of(0), lies(2, 0, SEED, [0, 1, 2])),
        (import_of(with_devices(3), "m2"), imported(3, 2)),
        (impact_of(0), touched(3, 0, list(range(8)), version=2)),
        (impact_of(2), touched(3, 2, [], version=2)),
        (impact_of(3), NO_DEVICE),
        (impact_of(65536), NO_DEVICE),
        (impact_of(4294967296), NO_DEVICE),
        (impact_of(9999999999), NO_DEVICE),
        (impact_of(3, 2), NO_POOL),
        (impact_of(0, 4294967297), NO_POOL),
        (b"GET /t/a/pools/0000000001/impact/0000000000", touched(3, 0, list(range(8)), version=2)),
    ]


def impact_of_what_is_passed_over():
    """A leaf that is out leaves no trace; the leaf that is then taken does."""
    pool = next(
        it for it in range(1, 99) if crush.uniform_pick(-1, [(0, 65536), (1, 65536)], it, 0) == 1
    )  # the seed of its group
    return START + [
        (import_of(one_host()), imported(1, 1)),
        (
            pool_of("p1", id=pool, size=2, rule=1, kind="erasure", pg_num=1, pgp_num=1, hashpspool=False),
            created(2, pool),
        ),
        (group_of(0, pool), lies(2, 0, pool, [1, None])),
        (impact_of(0, pool), touched(2, 0, [], pool=pool)),
        (impact_of(1, pool), touched(2, 1, [0], pool=pool)),
        (usage_of(pool), used(2, (0, 0, 0, 0, 0), (1, 1, 1, 1, 1000), pool=pool)),
        (devices_of("d1", state(1, reweight=0)), accepted(1, 3)),
        (group_of(0, pool), lies(3, 0, pool, [0, None])),
        (impact_of(0, pool), touched(3, 0, [0], pool=pool)),
        (impact_of(1, pool), touched(3, 1, [], pool=pool)),
    ]


def groups_of_two_devices():
    """Of two devices each touches its own groups alone; with one of them out no group of the
    other's changes."""
    seeds = [crush.hash2(group, 1) for group in range(64)]
    first = [crush.uniform_pick(-1, [(0, 65536), (1, 65536)], seed, 0) for seed in seeds]
    of = {device: [group for group in range(64) if first[group] == device] for device in (0, 1)}
    assert of[0] and of[1]
    permille = lambda device: 1000 * len(of[device]) // 64
    rows = START + [
        (import_of(duo()), imported(1, 1)),
        (pool_of("p1", pg_num=64, pgp_num=64), created(2)),
        (impact_of(0), touched(2, 0, of[0])),
        (impact_of(1), touched(2, 1, of[1])),
        (usage_of(), used(2, *((it, len(of[it]), len(of[it]), len(of[it]), permille(it)) for it in (0, 1)))),
    ]
    rows += [(group_of(it), lies(2, it, seeds[it], [first[it]])) for it in range(64)]
    rows += [(devices_of("d1", state(0, reweight=0)), accepted(1, 3))]
    rows += [(group_of(it), lies(3, it, seeds[it], [1])) for it in range(64)]
    return rows + [
        (impact_of(0), touched(3, 0, [])),
        (impact_of(1), touched(3, 1, list(range(64)))),
        (usage_of(), used(3, (0, 0, 0, 0, 0), (1, 64, 64, 64, 1000))),
    ]


# ---- states of devices as CSV


def states_as_csv():
    """Both reweight and up of each device that has a line, at once; a number acts once, whichever
    path it was sent to."""
    first = csv_of("c1", lines_of("1,32768,0"))
    return START + [
        (first, NO_VERSION),
        (import_of(tiny()), imported(1, 1)),
        (first, NO_DEVICE),
        (b"GET /t/a", summary(1, 1)),
        (import_of(duo(), "m2"), imported(2, 2)),
        (pool_of("p1"), created(3)),
        (first, accepted(1, 4)),  # refused before, so the number was free
        (b"GET /t/a", summary(4, 2, 1, 1)),
        (devices_of("d1", state(1, reweight=65536)), accepted(1, 5)),
        (first, accepted(1, 4)),  # nothing is done again
        (csv_of("c1", lines_of("1,32768,1")), REUSED),
        (first + b" ", REUSED),
        (devices_of("c1", state(1, reweight=32768, up=False)), REUSED),
        (csv_of("d1", lines_of("1,65536,0")), REUSED),
        (csv_of("d1", lines_of("2,65536,0")), REUSED),  # before no device
        (csv_of("c1", ""), BAD),  # a body out of its form is refused first
        (csv_of("c2", lines_of("0,0,1", "2,0,1")), NO_DEVICE),
        (csv_of("c2", lines_of("0,0,1")), accepted(1, 6)),
        (group_of(0), lies(6, 0, SEED, [], [1], version=2)),  # device 1 is still down
        (csv_of("c3", lines_of("1,65536,1", "0,65536,0")), accepted(2, 7)),
        (devices_of("d2", state(1, reweight=0)), accepted(1, 8)),
        (group_of(0), lies(8, 0, SEED, [], [0], version=2)),
        (csv_of("c4", lines_of("0,65536,1")), accepted(1, 9)),
        (group_of(0), lies(9, 0, SEED, [0], version=2)),
        (impact_of(0), touched(9, 0, list(range(8)), version=2)),
        (b"GET /t/a", summary(9, 2, 2, 1)),
        (of_b(first), NO_TENANT),
        (b"DELETE /t/a", dropped(b"a")),
        (b"PUT /t/a", made(b"a")),
        (first, NO_VERSION),
    ]


def forms_of_csv():
    """Texts on both sides of each bound: those of the form say the same, the others are refused."""
    right = [
        lines_of("65535,32768,0"),
        lines_of("65535,32768,0", end="\r\n"),
        lines_of("65535,32768,0", end="\r"),
        lines_of("65535,32768,0")[:-1],
        "\ufeff" + lines_of("65535,32768,0"),
        "\n\r\n" + lines_of("", "65535,32768,0", ""),
        '"id","reweight","up"\n"65535","32768","0"\n',
        lines_of("0000065535,0000032768,0"),
        'id,reweight,up\n65535,"32768",0',
        'id,reweight,up\n65535,32768,"0',
    ]
    wrong = [
        "",
        "\n",
        "\ufeff",
        lines_of(),
        lines_of()[:-1],
        "65535,32768,0\n",
        "ID,reweight,up\n65535,32768,0\n",
        "id, reweight,up\n65535,32768,0\n",
        "id,up,reweight\n65535,0,1\n",
        "id,reweight\n65535,32768\n",
        "id,reweight,up,\n65535,32768,0\n",
        "# a remark\n" + lines_of("65535,32768,0"),
        *(
            lines_of(it)
            for it in (
                "65535,65537,0",
                "65536,32768,0",
                "65535,4294967296,0",
                "4295032831,32768,0",
                "9999999999,32768,0",
                "00000065535,32768,0",
                "65535,00000032768,0",
                "-1,32768,0",
                "65535,-1,0",
                "+1,32768,0",
                "65535,1.0,0",
                "65535,0x1,0",
                " 65535,32768,0",
                "65535, 32768,0",
                "65535,32768, 0",
                "65535,32768,0 ",
                "65535,32768,2",
                "65535,32768,00",
                "65535,32768,true",
                "65535,32768,",
                "65535,,0",
                ",32768,0",
                "65535,32768",
                "65535",
                "65535,32768,0,",
                "65535;32768;0",
                "osd.65535,32768,0",
                '65535,32768,"0',
                '""',
                "65535,\u0663,0",
            )
        ),
        lines_of("65535,1,0", "65535,1,0"),
        lines_of("65535,1,0", "0065535,2,1"),
        lines_of("65535,1,0", "x"),
        lines_of("65535,1,0", lines_of()[:-1]),
    ]
    rows = START + [(import_of(tiny(65535)), imported(1, 1))] + [(csv_of("c", it), BAD) for it in wrong]
    rows += [(csv_of(f"c{epoch}", it), accepted(1, epoch)) for epoch, it in enumerate(right, 2)]
    epoch = len(right) + 1
    text = lines_of("65535,32768,0")
    rows += [
        (post("devices/csv", it), BAD)
        for it in (
            {"request": "c"},
            {"csv": text},
            {"request": "c", "csv": text, "more": 0},
            {"request": "c", "csv": None},
            {"request": "c", "csv": [text]},
            {"request": "c", "csv": 1},
            {"request": "", "csv": text},
            {"request": "r" * 65, "csv": text},
            {"request": 1, "csv": text},
            {"request": "c", "text": text},
            [],
            1,
        )
    ]
    return rows + [
        (b"POST /t/a/devices/csv", BAD),
        (b"POST /t/a/devices/csv {", BAD),
        (b"POST /t/a/devices/csv " + text.encode().replace(b"\n", b"\\n"), BAD),
        (b"POST /t/b/devices/csv {}", BAD),  # before no tenant
        (of_b(csv_of("c", text)), NO_TENANT),
        (b"GET /t/a/devices/csv", METHOD),
        (b"PUT /t/a/devices/csv", METHOD),
        (b"DELETE /t/b/devices/csv", METHOD),
        (b"POST /t/a/devices/csv/ {}", NO_PATH),
        (b"POST /t/a/devices/CSV {}", NO_PATH),
        (csv_of("r" * 64, lines_of("65535,65536,1")), accepted(1, epoch + 1)),
        (test_of(), tested([65535], [65535], epoch + 1, 1)),
        (csv_of("0", lines_of("65535,0,1")), accepted(1, epoch + 2)),
        (test_of(), tested([], [], epoch + 2, 1)),
        (csv_of("1", lines_of("0,0,1")), NO_DEVICE),
        (
            b'POST /t/a/devices/csv {"csv":1,"request":"2","c\\u0073v":"id,reweight,up\\u000a65535,1,1"}',
            accepted(1, epoch + 3),
        ),  # of a key twice the last counts
        (b"GET /t/a", summary(epoch + 3, 1, 1)),
    ]


def many_lines():
    """As many lines as a CSV may have, and one more; and the greatest body."""
    every = [f"{it},65536,1" for it in range(1024)]
    far = lines_of(*("0,0,1" for _ in range(740_000)))
    return START + [
        (import_of(with_devices(1024)), imported(1, 1)),
        (csv_of("c1", lines_of(*every)), accepted(1024, 2)),
        (b"GET /t/a", summary(2, 1, 1024)),
        (csv_of("c2", lines_of(*every, "1024,65536,1")), BAD),
        (csv_of("c2", lines_of(*every, "x")), BAD),
        (csv_of("c2", lines_of(*every[:5], "3,0,0")), BAD),
        (csv_of("c2", far), BAD),
        (csv_of("c2", far + far), TOO_LARGE),
        (csv_of("c2", "\n" * 2_500_000 + lines_of(*reversed(every), "")), accepted(1024, 3)),
        (b"GET /t/a", summary(3, 1, 1024)),
    ]


# ---- paths


def forms_of_reports():
    """The paths that ask for reports."""
    reports = (b"usage", b"moves/1/1", b"impact/0")
    rows = START + [(import_of(tiny()), imported(1, 1)), (pool_of("p1", **TWO), created(2))]
    for it in reports:
        path = b"/t/a/pools/1/" + it
        rows += [
            (b"GET /t/a/pools/%s/%s" % (pool, it), BAD)
            for pool in (b"x", b"-1", b"+1", b"1.0", b"00000000001", b"%31", b"remove")
        ]
        rows += [
            (b"GET " + path + b" {}", BAD),
            (b"POST " + path + b" {}", METHOD),
            (b"PUT " + path, METHOD),
            (b"DELETE " + path, METHOD),
            (b"GET " + path + b"/", NO_PATH),
            (b"GET " + path + b"/1", NO_PATH),
        ]
        rows += [(b"GET /t/b/pools/1/" + it, NO_TENANT), (b"GET /t/b/pools/x/" + it, BAD)]  # the form comes first
    rows += [
        (b"GET /t/a/pools/1/" + it, BAD)
        for it in (
            b"moves/x/1",
            b"moves/1/x",
            b"moves/-1/1",
            b"moves/1/00000000001",
            b"moves/1.0/1",
            b"impact/x",
            b"impact/-1",
            b"impact/00000000000",
            b"impact/osd.0",
        )
    ]
    rows += [
        (b"GET /t/a/pools/1/" + it, NO_PATH)
        for it in (
            b"moves",
            b"moves/",
            b"moves/1",
            b"moves//1",
            b"impact",
            b"impact/",
            b"Usage",
            b"usages",
            b"moves/1/1/1",
        )
    ]
    rows += [(b"GET /t/a/pools/9/moves/x/1", BAD), (b"GET /t/a/pools/9/impact/x", BAD)]  # before no pool
    return rows + [
        (usage_of(), used(2, (0, 2, 2, 2, 1000))),
        (moves_of(1, 1), moved(2, 1, 1)),
        (impact_of(0), touched(2, 0, [0, 1])),
        (usage_of() + b" ", used(2, (0, 2, 2, 2, 1000))),
        (b"GET /t/a", summary(2, 1, 0, 1)),
    ]


def reports_of_tenants():
    """A report is of the tenant's own pool, versions and states, and of none that was dropped."""
    mine = [(import_of(tiny()), imported(1, 1)), (pool_of("p1", **TWO), created(2))]
    theirs = [
        (import_of(tiny(7)), imported(1, 1)),
        (pool_of("p1"), created(2)),
        (csv_of("c1", lines_of("7,0,1")), accepted(1, 3)),
    ]
    return (
        START
        + mine
        + [(b"PUT /t/b", made(b"b"))]
        + [(of_b(line), reply) for line, reply in theirs]
        + [
            (usage_of(), used(2, (0, 2, 2, 2, 1000))),
            (of_b(usage_of()), used(3, (7, 0, 0, 0, 0))),
            (impact_of(0), touched(2, 0, [0, 1])),
            (of_b(impact_of(0)), NO_DEVICE),
            (of_b(impact_of(7)), touched(3, 7, [])),
            (import_of(tiny(7), "m2"), imported(3, 2)),
            (impact_of(7), touched(3, 7, [0, 1], version=2)),
            (of_b(moves_of(1, 2)), NO_VERSION),
            (b"DELETE /t/a", dropped(b"a")),
            (usage_of(), NO_TENANT),
            (moves_of(1, 1), NO_TENANT),
            (impact_of(0), NO_TENANT),
            (b"PUT /t/a", made(b"a")),
            (usage_of(), NO_POOL),
            (of_b(usage_of()), used(3, (7, 0, 0, 0, 0))),
        ]
    )


def cases():
    for make in (
        usage,
        usage_by_entries,
        usage_beside_weight_0,
        moves,
        moves_of_lists,
        checks_of_moves,
        impact,
        checks_of_impact,
        impact_of_what_is_passed_over,
        groups_of_two_devices,
        states_as_csv,
        forms_of_csv,
        many_lines,
        forms_of_reports,
        reports_of_tenants,
    ):
        yield make.__name__, make()
