"""`crushplan balance`: the search by itself on copies that are laid out by hand, shares that are
worked by hand, and the command on small clusters. Where groups lie is computed by placed.py, also
once the lines are there."""
import collections
import copy
import fractions
import json
import types

from crushplan_parts.crush_map import Bucket, CrushMap
from crushplan_parts.evening import Ground, InnerSearch, Search
from crushplan_parts.parts import Parts
from crushplan_parts.proposal import Stopped
from crushplan_parts.rule_shares import Block, Zone, capped
from made import ONE, STEPS, cluster, crush_dump, osd_dump, pool, rule, text_of, write
from model.placed import Placed
from running import equals, wants

PHOTOS = {"pool": 1, "size": 3, "pg_num": 64}
EACH = 1_000_000  # bytes of a copy
HALF = fractions.Fraction(1, 2)
NEWER = {"require_osd_release": "reef", "require_min_compat_client": "reef"}


# ---- the search alone


def searched(lists, low, high, domain, raws=None, zone=None):
    """A search once it is over; devices are letters, each of which is from its low to its high."""
    devices = {it: 0 for it in low} if zone is None else zone
    ground = Ground(dict(enumerate(lists)), dict(enumerate(raws or [()] * len(lists))), {}, devices, domain)
    found = Search(ground, low, high, lambda device, count: count)
    found.even()
    return found


def alone(letters):
    return {it: it for it in letters}


def direct(runner, folder):
    """A device gives what it has too many, to who lacks most, and no more moves."""
    lists = [("a", "b"), ("a", "b"), ("a", "c"), ("a", "c")]
    found = searched(lists, dict.fromkeys("abcd", 2), dict.fromkeys("abcd", 2), alone("abcd"))
    equals("copies", dict(found.count), {"a": 2, "b": 2, "c": 2, "d": 2})
    equals("moved", (found.cost, found.ground.least(found.low, found.high, "abcd")), (2, 2))
    equals("pairs", sorted(found.changed), [0, 1])


def ways(runner, folder):
    """Each group of a has a copy on c, which lacks one: b takes one of a's, and gives c one."""
    lists = [("a", "c"), ("a", "c"), ("a", "c"), ("b", "d"), ("b", "d")]
    low = {"a": 2, "b": 2, "c": 4, "d": 2}
    found = searched(lists, low, low, alone("abcd"))
    equals("copies", {it: found.count[it] for it in low}, low)
    equals("moved, where the least would be 1", (found.cost, found.ground.least(low, low, "abcd")), (2, 1))


def moved_again(runner, folder):
    """A copy that moved already goes on to another device, and no other one moves for it."""
    ground = Ground({0: ("a", "x"), 1: ("b", "c")}, {0: (), 1: ()}, {}, dict.fromkeys("abcxd", 0), alone("abcxd"))
    low = {"a": 0, "b": 0, "c": 2, "d": 1, "x": 1}
    found = Search(ground, low, low, lambda device, count: count)
    found.move(0, "a", "c")
    equals("after a move", (found.cost, found.count["c"]), (1, 2))
    found.move(0, "c", "d")
    equals("after it went on", (found.cost, found.at[0]), (1, ["d", "x"]))
    found.move(0, "d", "a")
    equals("back at first", (found.cost, found.changed), (0, set()))
    # b has to give one, and can't give it to c: c's copy that came from a goes on to d
    found = Search(
        ground,
        {"a": 0, "b": 0, "c": 1, "d": 2, "x": 1},
        {"a": 0, "b": 0, "c": 1, "d": 2, "x": 1},
        lambda device, count: count,
    )
    found.even()
    equals("all", ({it: found.count[it] for it in "abcdx"}, found.cost), ({"a": 0, "b": 0, "c": 1, "d": 2, "x": 1}, 2))


def domains(runner, folder):
    """No group gets two copies in a domain, nor a device of its raw list at another place; what
    can't be reached stays."""
    domain = {"a": 1, "b": 2, "c": 1, "d": 2}
    found = searched([("a", "b")] * 3, {"a": 1, "b": 1, "c": 2, "d": 2}, {"a": 1, "b": 1, "c": 2, "d": 2}, domain)
    equals("copies", {it: found.count[it] for it in "abcd"}, {"a": 1, "b": 1, "c": 2, "d": 2})
    wants(all(domain[it[0]] != domain[it[1]] for it in found.at.values()), found.at)
    found = searched([("a", "b"), ("a", "b")], {"a": 0, "b": 4}, {"a": 0, "b": 4}, {"a": 1, "b": 2})
    equals("nothing helps", (found.cost, found.at), (0, {0: ["a", "b"], 1: ["a", "b"]}))
    found = searched([("a", "b")], {"a": 0, "b": 1, "c": 1}, {"a": 0, "b": 1, "c": 1}, alone("abc"), raws=[("c", "b")])
    equals("back to its own place", found.at, {0: ["c", "b"]})
    found = searched([("a", "b")], {"a": 0, "b": 1, "c": 1}, {"a": 0, "b": 1, "c": 1}, alone("abc"), raws=[("a", "c")])
    equals("not to another place of the raw list", found.at, {0: ["a", "b"]})
    found = searched(
        [("a", "b")], {"a": 0, "b": 1, "c": 1}, {"a": 0, "b": 1, "c": 1}, alone("abc"), zone={"a": 0, "b": 0, "c": 1}
    )
    equals("not to another zone", found.cost, 0)


def interrupted(runner, folder):
    """A search that is stopped leaves each of its moves whole."""
    lists, left = [("a", "b")] * 8, [3]

    def watch(search):
        left[0] -= 1
        if left[0] < 0:
            raise Stopped

    ground = Ground(dict(enumerate(lists)), dict.fromkeys(range(8), ()), {}, dict.fromkeys("abcd", 0), alone("abcd"))
    found = InnerSearch(ground, dict.fromkeys("abcd", 4), dict.fromkeys("abcd", 4), lambda device, count: count, watch)
    try:
        found.even()
        wants(False, "it wasn't stopped")
    except Stopped:
        equals("moved", (found.cost, len(found.changed) <= 3), (3, True))
    equals(
        "counts",
        collections.Counter(it for own in found.at.values() for it in own),
        collections.Counter(+collections.Counter(found.count)),
    )


# ---- whole parts of a rule of two levels


def parted(lists, devices, width=2):
    """A pool as Parts and the search take it, whose groups have one part each: letters are devices,
    each its own lower domain, and of an upper domain by `devices`."""
    upper = {it: name for name, own in devices.items() for it in own}
    block = types.SimpleNamespace(width=width, upper=upper, domain=alone(upper))
    free = dict(enumerate(lists))
    zone = {it: (0, name) for it, name in upper.items()}
    ground = Ground(free, dict.fromkeys(free, ()), {}, zone, alone(upper))
    return Parts(types.SimpleNamespace(blocks=[block], ground=ground, by_device=zone, free=free)), ground


def whole_parts(runner, folder):
    """Each device is to have two. A has four parts, of which one goes: 2 copies. B gets it, and f,
    which lacks two, gets one of it; so the other comes from d or e inside: 3 in all, where each
    device by itself would ask for 2."""
    lists = [("a", "b"), ("a", "c"), ("b", "c"), ("a", "b"), ("d", "e"), ("d", "e")]
    parts, ground = parted(lists, {"A": "abc", "B": "def"})
    limits = [dict.fromkeys("abcdef", 2)] * 2
    equals(
        "parts",
        {zone[1]: (it.first, it.parts) for zone, it in parts.targets(*limits).items()},
        {"A": (4, 3), "B": (2, 3)},
    )
    equals(
        "the least", (parts.least(*limits), ground.least(*limits, "abcdef"), parts.are_possible(*limits)), (3, 2, True)
    )
    # f may have none, and then two devices of B have three each, or A keeps its part: both are one
    # past their limits, and no number of whole parts gives each its two
    fewer = {**limits[0], "f": 0}, {**limits[0], "f": 0}
    equals("not to be had", parts.are_possible(*fewer), False)
    # where A's devices are to have one each more and B's one each less, nothing has to move
    other = {**dict.fromkeys("abc", 2), **dict.fromkeys("def", 0)}, {
        **dict.fromkeys("abc", 3),
        **dict.fromkeys("def", 2),
    }
    equals("nothing", (parts.least(*other), parts.are_possible(*other)), (0, True))


def odd_parts(runner, folder):
    """Twelve devices in four hosts share 180 copies, 15 each, of which a group has two in each of
    two hosts: each host has an even number, so one of its devices can't have 15."""
    crush = crush_dump()
    steps = (
        STEPS[0],
        {"op": "choose_firstn", "num": 2, "type": "host"},
        {"op": "choose_firstn", "num": 2, "type": "osd"},
        STEPS[2],
    )
    crush["rules"][0]["steps"] = list(steps)
    write(folder, crush, osd_dump(pools=[pool(1, "photos", size=4, pg_num=45)]))
    said = runner.said("balance", folder, status=1)
    after = placed_by(crush, said, size=4, pg_num=45)
    counts = entries(after)
    equals("copies", collections.Counter(abs(counts[it] - 15) for it in range(12)), collections.Counter({0: 8, 1: 4}))
    for up in after.up:
        equals("two in each of two hosts", sorted(collections.Counter(it // 3 for it in up).values()), [2, 2])
    equals("off", len(said["pools"][0]["off"]), 4)
    text = runner.run("balance", folder)[1]
    wants("copies of a group go together to another part of the tree, and no numbers of these are nearer" in text, text)


# ---- shares by the rule


def shares(runner, folder):
    """Weights 5, 1, 1, 1 and two copies: by weight the first would have 5/4 of each group. It has
    1, and the others share one. At the weight 3 it would have 1 by weight."""
    third = fractions.Fraction(1, 3)
    equals("capped", capped({1: 5, 2: 1, 3: 1, 4: 1}, 2)[0], {1: 1, 2: third, 3: third, 4: third})
    # hosts -2 of devices 0 and 1 that weigh 4 and 1, and -3, -4, -5 of one device each
    items = {-2: [(0, 4), (1, 1)], -3: [(2, 1)], -4: [(3, 1)], -5: [(4, 1)]}
    buckets = {
        id_: Bucket(id_, f"host{-id_}", 1, "straw2", "0", [(it, weight * ONE) for it, weight in own])
        for id_, own in items.items()
    }
    buckets[-1] = Bucket(-1, "default", 10, "straw2", "0", [(id_, it.weight()) for id_, it in list(buckets.items())])
    map_ = CrushMap(
        "made", False, {}, {it: f"osd.{it}" for it in range(5)}, {}, {0: "osd", 1: "host", 10: "root"}, buckets, {}
    )
    state = types.SimpleNamespace(up=True, reweight=ONE)
    host_of = {device: id_ for id_, own in items.items() for device, _ in own}
    zone = Zone(map_, lambda type_: host_of, Block(-1, 2, [(1, 2)]), lambda device: state)
    found = zone.shares(60, 30)
    equals("shares", found, {0: 24, 1: 6, 2: 10, 3: 10, 4: 10})
    heavy = zone.heavy()
    equals(
        "heavy",
        [(it.domain, it.by_weight, it.mended) for it in heavy],
        [(-2, fractions.Fraction(5, 4), fractions.Fraction(3, 5))],
    )
    half = lambda device: types.SimpleNamespace(up=True, reweight=ONE // 2 if device == 0 else ONE)
    # 4 at the reweight 1/2 counts as 2: the host weighs 3, which isn't too heavy
    zone = Zone(map_, lambda type_: host_of, Block(-1, 2, [(1, 2)]), half)
    equals("reweighted", (zone.shares(60, 30), zone.heavy()), ({0: 20, 1: 10, 2: 10, 3: 10, 4: 10}, []))


def shares_of_two_levels(runner, folder):
    """Two racks are chosen of three that weigh 4, 2, 2, and two hosts in each: the first rack is in
    each group, the others in half of them. The first has a host of 2 and two of 1: in each part the
    first host has a copy, and each other one every second time."""
    hosts = {
        -11: [(0, 1), (1, 1)],
        -12: [(2, 1)],
        -13: [(3, 1)],
        -21: [(4, 1)],
        -22: [(5, 1)],
        -31: [(6, 1)],
        -32: [(7, 1)],
    }
    racks = {-2: (-11, -12, -13), -3: (-21, -22), -4: (-31, -32)}
    buckets = {
        id_: Bucket(id_, f"host{-id_}", 1, "straw2", "0", [(it, weight * ONE) for it, weight in own])
        for id_, own in hosts.items()
    }
    buckets.update(
        {
            id_: Bucket(id_, f"rack{-id_}", 3, "straw2", "0", [(it, buckets[it].weight()) for it in own])
            for id_, own in racks.items()
        }
    )
    buckets[-1] = Bucket(-1, "default", 10, "straw2", "0", [(id_, buckets[id_].weight()) for id_ in racks])
    map_ = CrushMap(
        "made",
        False,
        {},
        {it: f"osd.{it}" for it in range(8)},
        {},
        {0: "osd", 1: "host", 3: "rack", 10: "root"},
        buckets,
        {},
    )
    host_of = {device: id_ for id_, own in hosts.items() for device, _ in own}
    rack_of = {device: id_ for id_, own in racks.items() for host in own for device, _ in hosts[host]}
    state = types.SimpleNamespace(up=True, reweight=ONE)
    zone = Zone(
        map_, lambda type_: {1: host_of, 3: rack_of}[type_], Block(-1, 4, [(3, 2), (1, 2)]), lambda device: state
    )
    equals("shares", zone.shares(80, 20), {0: 10, 1: 10, 2: 10, 3: 10, 4: 10, 5: 10, 6: 10, 7: 10})


# ---- the command


def lines_in(said):
    """Of each group of pool 1 the pairs of the lines."""
    found = {}
    for line in said["lines"]:
        words = line.split()
        numbers = list(map(int, words[4:]))
        found[int(words[3].split(".")[1], 16)] = (
            list(zip(numbers[::2], numbers[1::2])) if words[2] == "pg-upmap-items" else []
        )
    return found


def placed_by(crush, said, **fields):
    """Where the groups lie with the lines."""
    pairs = [(group, old, new) for group, own in lines_in(said).items() for old, new in own]
    return Placed(text_of(crush), pairs=pairs, **{**PHOTOS, **fields})


def entries(placed):
    return collections.Counter(it for up in placed.up for it in up if it is not None)


def bound(counts, low, high):
    return max(sum(max(0, counts[it] - high) for it in range(12)), sum(max(0, low - counts[it]) for it in range(12)))


def evened(runner, folder):
    """Twelve devices of one weight share 192 copies: each ends with 16, by as few as can be."""
    cluster(folder)
    crush = crush_dump()
    before = entries(Placed(text_of(crush), **PHOTOS))
    said = runner.said("balance", folder, status=0)
    after = placed_by(crush, said)
    equals("copies", entries(after), collections.Counter({it: 16 for it in range(12)}))
    wants(all(len({it // 3 for it in up}) == 3 for up in after.up), "two copies are in one host")
    equals("the least", (said["copies"], said["least"], said["pools"][0]["least"]), (bound(before, 16, 16),) * 3)
    equals(
        "groups",
        [(it["group"], it["after"]) for it in said["groups"]],
        [(group, after.up[group]) for group in sorted(lines_in(said))],
    )
    usage = [{"device": it, "before": before[it], "after": 16, "share": 16.0} for it in range(12)]
    equals("usage", said["pools"][0]["usage"], usage)
    hosts = [{"device": it, "name": f"osd.{it}", "host": f"host{it // 3}"} for it in range(12)]
    equals("devices", said["devices"], hosts)
    text = runner.run("balance", folder)[1]
    wants(all(f"\n{it}\n" in text for it in said["remarks"]), said["remarks"])
    wants(
        f"{said['copies']} copies move by {len(said['lines'])} lines, and no list of items does it with fewer." in text,
        text,
    )
    wants(all(f"\n  {line}\n" in text for line in said["lines"]), text)


def read_again(runner, folder):
    """The lines are what 'crushplan upmap' reads; with them there nothing is left to do."""
    crush = crush_dump()
    cluster(folder)
    runner.run("balance", folder, "--lines", folder / "lines")
    said = runner.said("balance", folder, status=0)
    equals("the file", (folder / "lines").read_text().splitlines(), said["lines"])
    upmap = runner.said("upmap", folder, folder / "lines", status=0)
    equals("what moves", (upmap["moved"], upmap["copies"]), (said["moved"], said["copies"]))
    osd = osd_dump()
    osd["pg_upmap_items"] = [
        {"pgid": f"1.{group:x}", "mappings": [{"from": old, "to": new} for old, new in own]}
        for group, own in lines_in(said).items()
    ]
    write(folder, crush, osd)
    again = runner.said("balance", folder, status=0)
    equals(
        "again",
        (again["lines"], again["answer"]),
        ([], "no copy has to move: each device has its share, rounded down or up."),
    )
    csv = runner.run("balance", folder, "--csv")[1].splitlines()
    equals("CSV", csv, ["pool,group,id,pairs,before,after,copies,line"])


def bounded(runner, folder):
    """By at most so many moves it gets as even as that allows; a deviation ends it earlier."""
    cluster(folder)
    crush = crush_dump()
    counts = entries(Placed(text_of(crush), **PHOTOS))
    whole = bound(counts, 16, 16)
    for most in (0, 1, 5, whole // 2, whole - 1, whole, 10 * whole):
        said = runner.said("balance", folder, "--moves", most)
        after = entries(placed_by(crush, said))
        farthest = max(abs(after[it] - 16) for it in range(12))
        # the least distance of which the bound is within the moves
        least = next(it for it in range(100) if bound(counts, 16 - it, 16 + it) <= most)
        equals(f"at most {most}", (said["copies"] <= most, farthest), (True, least))
    for deviation in (1, 2, 4):
        said = runner.said("balance", folder, "--deviation", deviation, status=0)
        after = entries(placed_by(crush, said))
        wants(all(abs(after[it] - 16) <= deviation for it in range(12)), after)
        equals(f"within {deviation}", said["copies"], bound(counts, 16 - deviation, 16 + deviation))


def earlier_items(runner, folder):
    """A line has all pairs of its group; what was set before goes on or back; items that the
    monitors remove count as gone."""
    crush, osd = crush_dump(), osd_dump()
    raw = Placed(text_of(crush), **PHOTOS).raw
    # items that make osd.0 hold many copies, and one to a host that has a copy
    found = [(group, it) for group, own in enumerate(raw) for it in own if it in (1, 2)]
    osd["pg_upmap_items"] = [{"pgid": f"1.{group:x}", "mappings": [{"from": old, "to": 0}]} for group, old in found]
    other = next(group for group, own in enumerate(raw) if not {it // 3 for it in own} & {0})
    osd["pg_upmap_items"].append(
        {
            "pgid": f"1.{other:x}",
            "mappings": [{"from": raw[other][0], "to": raw[other][1] // 3 * 3 + (raw[other][1] + 1) % 3}],
        }
    )
    write(folder, crush, osd)
    said = runner.said("balance", folder, status=0)
    pairs = dict(collections.ChainMap(lines_in(said), {group: [(old, 0)] for group, old in found}))
    after = Placed(
        text_of(crush), pairs=[(group, old, new) for group, own in pairs.items() for old, new in own], **PHOTOS
    )
    equals("copies", entries(after), collections.Counter({it: 16 for it in range(12)}))
    wants(any(line.startswith("ceph osd rm-pg-upmap-items ") for line in said["lines"]), said["lines"])
    wants(any("Ceph removes items of 1 group" in it["text"] for it in said["notes"]), said["notes"])


def heavy(runner, folder):
    """Three hosts of 1, 1 and 1 and one of 6 for three copies: the heavy one would have 2 of each
    group, and has 1; at the weight 1.5 it would have that by weight."""
    crush = crush_dump()
    crush["buckets"][1]["items"] = [{"id": it, "weight": 2 * ONE, "pos": it} for it in range(3)]
    for host in (2, 3, 4):
        for item in crush["buckets"][host]["items"]:
            item["weight"] = ONE // 3
    for item, weight in zip(crush["buckets"][0]["items"], (6 * ONE, *[ONE // 3 * 3] * 3)):
        item["weight"] = weight
    write(folder, crush, osd_dump())
    said, text = runner.said("balance", folder), runner.run("balance", folder)[1]
    equals(
        "heavy",
        [(it["name"], it["by_weight"], it["weight"], it["mended"]) for it in said["heavy"]],
        [("host0", 2.0, 6.0, 1.499)],
    )
    wants(
        "host0 is too heavy for size 3 by replicated_rule: its weight of 6.00 asks for 2.00 copies of each group, "
        "and it can have 1; at a weight of 1.50"
        in text,
        text,
    )
    after = entries(placed_by(crush, said))
    # 64 copies of the heavy host, and 128 that nine devices share
    wants(all(after[it] in (21, 22) for it in range(3)) and all(after[it] in (14, 15) for it in range(3, 12)), after)


def left_out(runner, folder):
    """What can't be evened out is named: pools that are split, rules that take a device by name,
    and groups with a whole list."""
    crush = crush_dump()
    crush["rules"].append(rule(1, "by-name", ({"op": "take", "item": 0, "item_name": "osd.0"}, {"op": "emit"}, *STEPS)))
    pools = [
        pool(1, "photos", pg_num_target=128, pg_placement_num_target=128),
        pool(2, "mail", crush_rule=1),
        pool(3, "music"),
    ]
    osd = osd_dump(pools=pools)
    raw = Placed(text_of(crush), pool=3, size=3, pg_num=64).raw
    osd["pg_upmap"] = [{"pgid": "3.0", "osds": [it // 3 * 3 + (it + 1) % 3 for it in raw[0]]}]
    write(folder, crush, osd)
    said = runner.said("balance", folder, status=2)
    equals("pools", [it["name"] for it in said["pools"]], ["music"])
    texts = " ".join(it["text"] for it in said["uncomputed"] + said["notes"])
    for it in (
        "pool photos (1) isn't evened out: it is being split or merged",
        "pool mail (2) isn't evened out: its rule by-name takes a device by name",
        "1 group of pool music stays as it is",
    ):
        wants(it in texts, texts)
    wants(0 not in {it["group"] for it in said["groups"]}, "the group of the whole list changes")
    equals("by its name alone", runner.said("balance", folder, "music", status=0)["lines"], said["lines"])


def down(runner, folder):
    """Copies on a device that is down and in stay; those that are up share the others."""
    crush = crush_dump()
    write(folder, crush, osd_dump(down=(4,)))
    said = runner.said("balance", folder, status=0)
    wants(any("osd.4, which is down and in, stay" in it["text"] for it in said["notes"]), said["notes"])
    wants(all(4 not in own for it in said["groups"] for own in it["pairs"]), said["groups"])
    before, after = entries(Placed(text_of(crush), **PHOTOS)), entries(placed_by(crush, said))
    share = fractions.Fraction(192 - before[4], 11)
    equals("osd.4", after[4], before[4])
    usage = {it["device"]: (it["before"], it["after"], it["share"]) for it in said["pools"][0]["usage"]}
    cut = int(share * 1000) / 1000
    equals("usage", usage, {it: (before[it], after[it], None if it == 4 else cut) for it in range(12)})
    wants(all(abs(after[it] - share) < 1 for it in range(12) if it != 4), after)


def classes(runner, folder):
    """A rule that takes a class is evened out among its devices; --class leaves the others out."""
    crush = crush_dump(hosts=8)
    for it in crush["devices"]:
        it["class"] = "ssd" if it["id"] < 12 else "hdd"
    root, hosts = crush["buckets"][0], crush["buckets"][1:]
    shadow = [{**copy.deepcopy(it), "id": -20 - at, "name": f"host{at}~ssd"} for at, it in enumerate(hosts[:4])]
    top = {
        **copy.deepcopy(root),
        "id": -30,
        "name": "default~ssd",
        "items": [{"id": it["id"], "weight": 3 * ONE, "pos": at} for at, it in enumerate(shadow)],
    }
    crush["buckets"] += [*shadow, top]
    crush["rules"].append(rule(1, "ssd", ({"op": "take", "item": -30, "item_name": "default~ssd"}, *STEPS[1:])))
    write(folder, crush, osd_dump(24, pools=[pool(1, "photos", crush_rule=1), pool(2, "mail")]))
    said = runner.said("balance", folder, "--class", "ssd", status=2)
    equals("pools", [it["name"] for it in said["pools"]], ["photos"])
    wants("no take of its rule has devices of the class ssd alone" in said["uncomputed"][0]["text"], said["uncomputed"])
    counts = collections.Counter(
        it for own in runner.said("usage", folder, "--pool", "photos", "--groups")["groups"] for it in own["up"]
    )
    for it in said["groups"]:
        counts.update(
            {
                **{old: -1 for old in set(it["before"]) - set(it["after"])},
                **{new: 1 for new in set(it["after"]) - set(it["before"])},
            }
        )
    equals("copies", counts, collections.Counter({it: 16 for it in range(12)}))
    runner.refused("balance", folder, "--class", "sdd", has="no device of the class 'sdd'; the nearest is ssd")


def fills(runner, folder):
    """--until-fill ends once no device is past it: here two copies of the fullest have to go."""
    crush = crush_dump()
    counts = entries(Placed(text_of(crush), **PHOTOS))
    most = max(counts, key=lambda it: (counts[it], -it))
    room = {
        "nodes": [
            {"id": it, "name": f"osd.{it}", "kb": 100_000_000 // 1024, "kb_used": counts[it] * EACH // 1024}
            for it in range(12)
        ]
    }
    taken = {
        "stats": {},
        "pools": [{"name": "photos", "id": 1, "stats": {"stored": 64 * EACH, "objects": 1, "bytes_used": 192 * EACH}}],
    }
    write(folder, crush, osd_dump(), df_json=taken, osd__df_json=room)
    equals("none is past it", runner.said("balance", folder, "--until-fill", counts[most] + 1, status=0)["copies"], 0)
    said = runner.said("balance", folder, "--until-fill", f"{counts[most] - 2}.5", status=0)
    after = entries(placed_by(crush, said))
    wants(
        max(after.values()) <= counts[most] - 2 and 0 < said["copies"] < runner.said("balance", folder)["copies"],
        (counts, after),
    )
    said = runner.said("balance", folder, "--until-fill", 10, status=1)
    equals(
        "past it all the same",
        (said["past_fill"], sorted(entries(placed_by(crush, said)).values())),
        (list(range(12)), [16] * 12),
    )
    (folder / "df.json").unlink()
    runner.refused("balance", folder, "--until-fill", 80, has="--until-fill wants df.json and osd-df.json")


def several(runner, folder):
    """Of two pools of which a device has 2 2/3 copies each, none gets the third copy of both where
    another gets of none."""
    crush = crush_dump()
    pools = [
        pool(1, "photos", size=2, pg_num=16),
        pool(2, "mail", size=2, pg_num=16),
        pool(3, "music", size=2, pg_num=16),
    ]
    write(folder, crush, osd_dump(pools=pools))
    said = runner.said("balance", folder, "--for-bytes", 100, status=0)
    counts = collections.Counter()
    for it in pools:
        counts.update(entries(Placed(text_of(crush), pool=it["pool"], size=2, pg_num=16)))
    for it in said["groups"]:
        counts.update(
            {
                **{old: -1 for old in set(it["before"]) - set(it["after"])},
                **{new: 1 for new in set(it["after"]) - set(it["before"])},
            }
        )
    equals("copies of all three, of 8", sorted(counts.values()), [8] * 12)
    equals("the fullest", said["fullest"]["after"]["percent"], 100.0)
    extra = f", {said['extra']} of these copies only to even out copies"
    wants(said["extra"] and f" by {len(said['lines'])} lines{extra}; " in said["answer"], said["answer"])
    none = runner.said("balance", folder, "--for-bytes", 0, status=0)
    equals(
        "no move more than each pool wants",
        (none["extra"], none["copies"]),
        (0, sum(it["least"] for it in none["pools"])),
    )


def named(runner, folder):
    """Pools stand by themselves or behind --pool, here as in 'usage'; a note on a pool's number of
    groups stands where bytes of this pool are said."""
    crush, taken = crush_dump(), {"stored": 48 * EACH, "objects": 1, "bytes_used": 144 * EACH}
    pools = [pool(1, "photos"), pool(2, "mail", pg_num=48)]
    stats = [{"name": it["pool_name"], "id": it["pool"], "stats": taken} for it in pools]
    write(folder, crush, osd_dump(pools=pools), df_json={"stats": {}, "pools": stats})
    for command in ("usage", "balance"):
        for name, notes in (("photos", []), ("mail", ["pg_num"])):
            said = [runner.said(command, folder, *words, status=0) for words in ((name,), ("--pool", name))]
            equals(f"{command} {name}", said[0], said[1])
            equals("of this pool alone", [it["name"] for it in said[0]["pools"]], [name])
            equals(f"notes of {command} {name}", [it["kind"] for it in said[0]["notes"]], notes)
        both = [it["name"] for it in runner.said(command, folder, "mail", "--pool", "photos", status=0)["pools"]]
        equals("both", sorted(both), ["mail", "photos"])
    for words in (("check",), ("locate", "mail", "x"), ("balance", "--primaries"), ("plan", "-")):
        own = [words[0], folder, *words[1:], "--json"]
        said = json.loads(runner.run(*own, given=b"ceph osd set noout")[1])
        wants("error" in said or "pg_num" not in [it["kind"] for it in said["notes"]], (words, said))


def primaries(runner, folder):
    """Each device ends with 5 or 6 of 64 primaries, and no copy moves."""
    crush = crush_dump()
    osd = {**osd_dump(pools=[pool(1, "photos"), pool(2, "parts", type=3, crush_rule=1)]), **NEWER}
    crush["rules"].append(
        rule(
            1,
            "parts",
            (
                {"op": "take", "item": -1, "item_name": "default"},
                {"op": "chooseleaf_indep", "num": 0, "type": "host"},
                {"op": "emit"},
            ),
            type_=3,
        )
    )
    write(folder, crush, osd)
    up = Placed(text_of(crush), **PHOTOS).up
    said = runner.said("balance", folder, "--primaries", status=2)
    wants("erasure pool" in said["uncomputed"][0]["text"], said["uncomputed"])
    own = {group: it[0] for group, it in enumerate(up)}
    for line in said["lines"]:
        words = line.split()
        equals("a line", (words[:3], words[3].split(".")[0]), (["ceph", "osd", "pg-upmap-primary"], "1"))
        group = int(words[3].split(".")[1], 16)
        wants(int(words[4]) in up[group] and int(words[4]) != own[group], line)
        own[group] = int(words[4])
    wants(set(collections.Counter(own.values()).values()) == {5, 6}, own)
    before = collections.Counter(it[0] for it in up)
    least = max(sum(max(0, before[it] - 6) for it in range(12)), sum(max(0, 5 - before[it]) for it in range(12)))
    equals("the least", (said["least"], said["changed"] >= least), (least, True))
    after = collections.Counter(own.values())
    usage = [{"device": it, "before": before[it], "after": after[it], "share": 5.333} for it in range(12)]
    equals("usage", (said["pools"][0]["usage"], [it["device"] for it in said["devices"]]), (usage, [*range(12)]))
    # with these there, and once more: none changes; without need one goes back
    osd["pg_upmap_primaries"] = [
        {"pgid": line.split()[3], "primary_osd": int(line.split()[4])} for line in said["lines"]
    ]
    write(folder, crush, osd)
    equals("again", runner.said("balance", folder, "photos", "--primaries", status=0)["lines"], [])
    osd.update(require_osd_release="pacific")
    write(folder, crush, osd)
    runner.refused(
        "balance",
        folder,
        "--primaries",
        has="pg-upmap-primary is of release 18 (reef), and osd.json has require_osd_release pacific",
    )


def refused(runner, folder):
    """Bad words are named, and what clients have to know."""
    cluster(folder)
    for words, has in (
        (("--moves", "x"), "'x' isn't a whole number"),
        (("--moves", "-1"), "'-1' isn't a whole number"),
        (("--deviation", "0.4"), "'0.4' isn't a number from 0.5 on"),
        (("--deviation", "1/0"), "'1/0' isn't a number"),
        (("--until-fill", "101"), "'101' isn't a number from 0 to 100"),
        (("--moves", "3", "--deviation", "2"), "not allowed with"),
        (("photo",), "there is no pool 'photo'; the nearest is photos"),
        (("--lines", "-"), "--lines -: it is written into a file"),
    ):  # fmt: skip
        runner.refused("balance", folder, *words, has=has)
    write(folder, crush_dump(), {**osd_dump(), "require_min_compat_client": "jewel"})
    wants(
        "First 'ceph osd set-require-min-compat-client luminous'" in runner.run("balance", folder)[1],
        "what older clients know",
    )
    page = folder / "page.html"
    runner.run("balance", folder, "photos", "--html", page)
    wants(
        "ceph osd pg-upmap-items 1." in page.read_text() and "crushplan balance" in page.read_text(),
        "the page lacks the lines",
    )


def doubted(runner, folder):
    """Where the cluster says that groups lie otherwise there are no lines."""
    crush = crush_dump()
    up = Placed(text_of(crush), **PHOTOS).up
    rows = [
        {
            "pgid": f"1.{group:x}",
            "state": "active+clean",
            "up": it[::-1],
            "up_primary": it[-1],
            "acting": it,
            "acting_primary": it[0],
        }
        for group, it in enumerate(up)
    ]
    cluster(folder, pgs__json={"pg_stats": rows})
    (folder / "pgs-json").rename(folder / "pgs.json") if (folder / "pgs-json").exists() else None
    code, out, _ = runner.run("balance", folder)
    equals("the status", code, 2)
    wants(out.startswith("unknown: ") and "ceph osd pg-upmap-items" not in out, out)


def cases():
    return (
        ("direct", direct), ("ways", ways), ("moved_again", moved_again), ("domains", domains),
        ("interrupted", interrupted), ("whole_parts", whole_parts), ("odd_parts", odd_parts), ("shares", shares),
        ("shares_of_two_levels", shares_of_two_levels),
        ("evened", evened), ("read_again", read_again), ("bounded", bounded), ("earlier_items", earlier_items),
        ("heavy", heavy), ("left_out", left_out), ("down", down), ("classes", classes), ("fills", fills),
        ("several", several), ("named", named), ("primaries", primaries),
        ("refused", refused), ("doubted", doubted),
    )  # fmt: skip
