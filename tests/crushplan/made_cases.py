"""Small clusters made by hand: what can't be computed is named, more states and pairs than a
request takes, holes, bytes and ratios, devices that a rule takes by name."""
import copy
import json
import random
import subprocess

from made import ONE, STEPS, bucket, crush_dump, osd_dump, pool, rule, text_of, write
from model.placed import Placed
from running import equals, wants


def kinds(said, name="uncomputed"):
    return sorted(it["kind"] for it in said[name])


# ---- what can't be computed


def straw(runner, folder):
    """A root of straw buckets is named with its pool and devices, and what to do; a pool on another
    root is computed."""
    crush = crush_dump()
    crush["devices"] += [{"id": it, "name": f"osd.{it}"} for it in (12, 13, 14)]
    crush["buckets"] += [bucket(-20 - it, f"fast{it}", 1, "straw", [(12 + it, ONE)]) for it in range(3)]
    crush["buckets"].append(bucket(-30, "fast", 10, "straw", [(-20 - it, ONE) for it in range(3)]))
    crush["rules"].append(rule(1, "fast_rule", ({**STEPS[0], "item": -30, "item_name": "fast"}, *STEPS[1:])))
    write(folder, crush, osd_dump(15, [pool(1, "photos"), pool(2, "index", crush_rule=1)]))
    said = runner.said("check", folder, status=1)
    equals("pools", [(it["pool"], it["computed"]) for it in said["pools"]], [(1, True), (2, False)])
    note = said["uncomputed"][0]
    equals("the note", (note["kind"], note["pools"], note["devices"]), ("straw", [2], [12, 13, 14]))
    wants("fast" in note["text"] and "set-all-straw-buckets-to-straw2" in note["text"], note["text"])
    equals("a drain that has nothing to do with it", runner.said("drain", folder, "host0")["status"], 0)
    equals("a drain that has", runner.said("drain", folder, "fast1")["status"], 2)
    said = runner.said("drain", folder, "fast1", status=2)
    equals("its answer", said["answer"], "unknown: pool index can't be computed; of what can, no group moves.")
    said = runner.said("fail", folder, "--each", "host", status=2)
    equals(
        "each host",
        {it["name"]: it["status"] for it in said["each"]},
        {**{f"host{it}": 0 for it in range(4)}, **{f"fast{it}": 2 for it in range(3)}},
    )
    equals(
        "its answer",
        said["answer"],
        "unknown: of 7 hosts 4 can fail, and every copy has a device; of 3 not all can be computed.",
    )
    rows = [it.split() for it in runner.run("fail", folder, "--each", "host")[1].splitlines()]
    equals(
        "which",
        {it[0]: it[2:] for it in rows if it and it[0].startswith("fast")},
        {f"fast{it}": ["?"] * 8 + ["nothing"] for it in range(3)},
    )
    equals("their numbers", {it["copies"] for it in said["each"] if it["name"].startswith("fast")}, {None})
    equals(
        "usage has the devices of pools that are computed",
        [it["device"] for it in runner.said("usage", folder, status=0)["rows"]],
        list(range(12)),
    )
    wants(
        "osd.12, osd.13, osd.14 have copies of pools alone that aren't computed" in runner.run("usage", folder)[1],
        "the others aren't named",
    )
    wants(
        "not computed: pool index (2): below" in runner.run("usage", folder)[1]
        and "has to do with osd.12, osd.13, osd.14" in runner.run("usage", folder)[1],
        "nor the pool",
    )
    runner.refused(
        "usage", folder, "--pool", "index", has="pool index isn't computed: below its rule fast_rule are straw buckets"
    )
    crush["buckets"] = [{**it, "alg": "straw"} for it in crush["buckets"]]
    write(folder, crush)
    equals(
        "a whole cluster of straw",
        runner.said("check", folder, status=2)["answer"],
        "no: 0 of 2 pools can be computed.",
    )
    equals("and a drain of it", runner.said("drain", folder, "host0")["status"], 2)
    for words in (("drain", "host0"), ("fail", "host0"), ("fail", "--each", "host")):
        text = runner.run(words[0], folder, *words[1:])[1]
        wants(text.startswith("unknown: no pool can be computed.\n\nnot computed: ") and "move" not in text, text)
    said, text = (
        runner.said("compare", folder, folder / "crush.json", status=2),
        runner.run("compare", folder, folder / "crush.json")[1],
    )
    equals("and a compare", (said["answer"], said["moved"]), ("unknown: no pool can be computed.", None))
    wants(text.startswith("unknown: no pool can be computed.\n\nnot computed: "), text)
    equals("and its usage", runner.said("usage", folder, status=2)["answer"], "unknown: no pool can be computed.")


def classes(runner, folder):
    """A class is computed by crush.json, which has its tree, and named where there is map.txt
    alone."""
    crush = crush_dump()
    for it in crush["devices"]:
        it["class"] = "hdd"
    crush["buckets"] += [
        bucket(-52 - host, f"host{host}~hdd", 1, "list", [(host * 3 + it, ONE) for it in range(3)]) for host in range(4)
    ]
    crush["buckets"].append(bucket(-51, "default~hdd", 10, "list", [(-52 - it, 3 * ONE) for it in range(4)]))
    crush["rules"] = [rule(0, "replicated_rule", ({**STEPS[0], "item": -51, "item_name": "default~hdd"}, *STEPS[1:]))]
    write(folder, crush, osd_dump())
    said = runner.said("usage", folder, "--groups", status=0)
    equals("groups", [it["raw"] for it in said["groups"]], Placed(shadow_text(), pool=1, size=3, pg_num=64).raw)
    said = runner.said("drain", folder, "host1", "--groups", status=0)
    drained = Placed(shadow_text(), pool=1, size=3, pg_num=64, reweights={3: 0, 4: 0, 5: 0})
    purged = Placed(shadow_text(gone=1), pool=1, size=3, pg_num=64)
    equals(
        "a purge", [(it["group"], it["before"], it["after"]) for it in said["purge"]["groups"]], drained.moves(purged)
    )
    crush["rules"].append(rule(1, "all", STEPS))
    write(folder, crush, osd_dump(pools=[pool(1, "photos"), pool(2, "mail", crush_rule=1)]))
    said, text = runner.said("drain", folder, "host1", status=0), runner.run("drain", folder, "host1")[1]
    equals("both pools", [it["pool"] for it in said["pools"] if it["copies"]], [1, 2])
    for sentence, sum_ in (
        ("osd purge", said["copies"] + said["purge"]["copies"]),
        ("crush reweight", said["weight_first"]["copies"] + said["weight_first"]["then_purge"]["copies"]),
    ):
        wants(
            any(sentence in it and f"in all {sum_:,}" in it for it in text.splitlines()),
            f"no {sentence} with {sum_} in all: {text}",
        )
    crush["rules"].pop()
    write(folder, crush, osd_dump())
    (folder / "crush.json").unlink()
    (folder / "map.txt").write_text(text_of(crush_dump()).replace("step take default", "step take default class hdd"))
    said = runner.said("drain", folder, "host1", status=2)
    equals("by map.txt", (kinds(said), said["uncomputed"][0]["pools"]), (["class"], [1]))
    equals("the map", said["map"], {"file": "map.txt", "exact": False})


def shadow_text(gone=None):
    """The map of a class's tree, with the ids of its buckets; without the devices of a host."""
    crush = crush_dump()
    for it in crush["buckets"]:
        if gone is not None and it["name"] == f"host{gone}":
            it["items"] = []
        it["id"] -= 50
        for item in it["items"]:
            if gone is not None and item["id"] == -2 - gone:
                item["weight"] = 0
            item["id"] -= 50 if item["id"] < 0 else 0
    return text_of(crush)


ODD_POOLS = (
    ({"crush_rule": 9}, "rule", "lacks its rule 9"), ({"size": 33}, "limit", "its size is 33"),
    ({"size": 11, "min_size": 6}, "rule", "isn't within 1 to 10"), ({"type": 3}, "rule", "for replicated pools"),
    ({"type": 2}, "pool", "of type 2"), ({"pg_num": 65537, "pg_placement_num": 65537}, "limit", "65537 groups"),
)  # fmt: skip


def odd_pools(runner, folder):
    """Pools that can't be computed are named with the reason, and those beside them computed."""
    for fields, kind, words in ODD_POOLS:
        write(folder, crush_dump(), osd_dump(pools=[pool(1, "photos"), pool(4, "odd", **fields)]))
        said = runner.said("check", folder, status=1)
        equals(f"{fields}: kinds", [(it["kind"], it["pools"]) for it in said["uncomputed"]], [(kind, [4])])
        wants(words in said["uncomputed"][0]["text"], said["uncomputed"][0]["text"])
        equals(f"{fields}: a drain", runner.said("drain", folder, "host0")["status"], 2)


def refused_maps(runner, folder):
    """What crushcalc refuses of a map is named by its declaration, with the code."""
    crush = crush_dump()
    crush["buckets"][1]["alg"], crush["buckets"][1]["items"][0]["weight"] = "uniform", 5
    write(folder, crush, osd_dump())
    text = runner.said("check", folder, status=2)["uncomputed"][0]["text"]
    wants("bucket host0" in text and "M8" in text, text)
    crush = crush_dump()
    crush["tunables"]["choose_local_tries"] = 2
    text = runner.said("check", write(folder, crush), status=2)["uncomputed"][0]["text"]
    wants("the tunable choose_local_tries 2" in text and "ceph osd crush tunables" in text, text)
    crush = crush_dump()
    crush["rules"].append(
        rule(1, "leaves", (STEPS[0], {"op": "chooseleaf_indep", "num": 0, "type": "osd"}, STEPS[2]), 3)
    )
    write(folder, crush, osd_dump(pools=[pool(1, "photos"), pool(2, "parts", type=3, crush_rule=1)]))
    said = runner.said("check", folder, status=1)
    wants("rule leaves" in said["uncomputed"][0]["text"] and "M14" in said["uncomputed"][0]["text"], said["uncomputed"])
    equals("the other pool", said["pools"][0]["computed"], True)


def oddities(runner, folder):
    """What lies otherwise for a reason that Ceph alone knows is a note, with what it touches."""
    osd = osd_dump()
    osd["pg_temp"], osd["primary_temp"] = [{"pgid": "1.3", "osds": [0, 4, 7]}], [{"pgid": "1.1c", "osd": 4}]
    osd["pools"][0].update(pg_num_target=128, object_hash=1)
    write(folder, crush_dump(), osd)
    said = runner.said("drain", folder, "host3", status=0)
    notes = {it["kind"]: it for it in said["notes"]}
    equals("kinds", sorted(notes), ["object hash", "pg_temp", "primary_temp", "split"])
    equals("pg_temp", [notes["pg_temp"][it] for it in ("pools", "groups", "devices")], [[1], ["1.3"], [0, 4, 7]])
    equals("primary_temp", [notes["primary_temp"][it] for it in ("pools", "groups", "devices")], [[1], ["1.1c"], [4]])
    equals("split", [notes["split"][it] for it in ("pools", "devices")], [[1], list(range(12))])
    equals("object hash", [notes["object hash"][it] for it in ("pools", "devices")], [[1], list(range(12))])
    text = runner.run("drain", folder, "host3")[1]
    wants("1.3, of pool photos and osd.0, osd.4, osd.7; what" in text, text)
    wants("128" in notes["split"]["text"], notes["split"]["text"])
    runner.refused("locate", folder, "photos", "a", has="another object hash")


# ---- limits of requests


def many_states(runner, folder):
    """1,100 devices with reweights are sent in two requests: where groups lie is computed apart."""
    drawn = random.Random(3)
    crush = crush_dump(hosts=22, devices=50, alg="tree")
    weights = {it: drawn.randrange(1, ONE) for it in range(1100)}
    write(folder, crush, osd_dump(1100, [pool(1, "photos", pg_num=48)], weights, down=range(0, 1100, 7)))
    said = runner.said("usage", folder, "--groups", status=0)
    placed = Placed(text_of(crush), pool=1, size=3, pg_num=48, reweights=weights, down=set(range(0, 1100, 7)))
    equals("groups", [(it["raw"], it["up"]) for it in said["groups"]], list(zip(placed.raw, placed.up)))


def many_pairs(runner, folder):
    """More upmap items than a pool may have: where groups lie, usage, and a drain are computed
    apart."""
    drawn, text = random.Random(5), text_of(crush_dump())
    bare, pairs = Placed(text, pool=1, size=3, pg_num=1500), []
    for group in range(1200):
        host = next(it for it in range(4) if it not in [device // 3 for device in bare.raw[group]])
        old = drawn.choice(bare.raw[group])
        # to the host that the group hasn't, or to another device of the same one
        pairs.append(
            (
                group,
                old,
                drawn.choice(
                    [*range(host * 3, host * 3 + 3), *(it for it in range(old // 3 * 3, old // 3 * 3 + 3) if it != old)]
                ),
            )
        )
    osd = osd_dump(pools=[pool(1, "photos", pg_num=1500)])
    osd["pg_upmap_items"] = [
        {"pgid": f"1.{group:x}", "mappings": [{"from": old, "to": new}]} for group, old, new in pairs
    ]
    write(folder, crush_dump(), osd)
    placed = Placed(text, pool=1, size=3, pg_num=1500, pairs=pairs)
    said = runner.said("usage", folder, "--groups", status=0)
    equals("groups", [it["up"] for it in said["groups"]], placed.up)
    equals(
        "usage",
        {it["device"]: (it["copies"], it["primaries"]) for it in said["rows"]},
        {device: row[:2] for device, row in placed.usage().items()},
    )
    drained = Placed(
        text,
        pool=1,
        size=3,
        pg_num=1500,
        reweights={it: 0 for it in (0, 1, 2)},
        pairs=[(group, old, new) for group, old, new in pairs],
    )
    said = runner.said("drain", folder, "host0", "--groups")
    broken = {it for it in range(1200) if len({device // 3 for device in drained.up[it]}) < 3}
    moves = {group: (old, new) for group, old, new in placed.moves(drained) if group not in broken}
    equals(
        "the groups that move",
        {it["group"]: (it["before"], it["after"]) for it in said["groups"] if it["group"] not in broken},
        moves,
    )
    # the monitors remove the items of the groups that would have two copies in one host
    equals(
        "groups whose items are removed",
        {it["group"]: it["after"] for it in said["groups"] if it["group"] in broken},
        {it: drained.raw[it] for it in broken if drained.raw[it] != placed.up[it]},
    )


# ---- holes


def holed():
    """A cluster of tree buckets with three holes: removed devices in two hosts, and a removed host
    in the root; osd.0 is in host0."""
    crush = crush_dump(hosts=5, devices=5, alg="tree", root="tree")
    for host, place in ((1, 1), (1, 3), (2, 2)):
        it = crush["buckets"][1 + host]["items"][place]
        it.update(id=0, weight=0)
        crush["buckets"][0]["items"][host]["weight"] -= ONE
    crush["buckets"][0]["items"][3].update(id=0, weight=0)
    crush["buckets"] = [it for it in crush["buckets"] if it["name"] != "host3"]
    return crush


def holes(runner, folder):
    """Holes are named and filled; the text that is written is a map, in which all groups lie as
    with any other item of no weight in the holes."""
    write(folder, holed(), osd_dump(25))
    said = runner.said("check", folder, "--mend", folder / "mended.txt", status=0)
    equals(
        "holes",
        said["holes"],
        [
            {"bucket": "default", "pos": 3},
            {"bucket": "host1", "pos": 1},
            {"bucket": "host1", "pos": 3},
            {"bucket": "host2", "pos": 2},
        ],
    )
    code = runner.run("check", folder)[1]
    wants("host1 (pos 1)" in code, code)
    ran = subprocess.run([runner.program, "check", folder / "mended.txt"], stdout=subprocess.PIPE)
    equals("crushcalc check", ran.stdout, b"ok devices 29 buckets 5 rules 1\n")
    placed = Placed((folder / "mended.txt").read_text(), pool=1, size=3, pg_num=64)
    equals("groups", [it["raw"] for it in runner.said("usage", folder, "--groups")["groups"]], placed.raw)
    equals("osd.0 is in host0 alone", runner.said("usage", folder)["rows"][0]["host"], "host0")
    equals("host1 has three devices", runner.said("drain", folder, "host1")["devices"], [5, 7, 9])
    write(folder, map_txt=text_of(holed()))
    (folder / "crush.json").unlink()
    said = runner.said("check", folder, status=0)
    equals("by map.txt", (len(said["holes"]), said["map"]["exact"]), (4, False))


def purge_that_damages(runner, folder):
    """Purged, osd.0 leaves a tree bucket with a device of no weight alone, which Ceph's monitors
    lose: what that moves isn't known."""
    crush = crush_dump(devices=2, alg="tree")
    crush["buckets"][1]["items"][1]["weight"] = 0
    crush["buckets"][0]["items"][0]["weight"] -= ONE
    write(folder, crush, osd_dump(8))
    said = runner.said("drain", folder, "osd.0", status=0)
    why = "the monitor's map is damaged: host0 is a tree bucket that keeps items of weight 0 alone"
    wants(said["moved"] > 0, "no group moves")
    equals("unforetold", [said["unforetold"], said["purge"], said["weight_first"]["then_purge"]], [why, None, None])
    wants(said["weight_first"]["moved"] > 0, "no group moves by the weight")
    out = runner.run("drain", folder, "osd.0")[1]
    wants(f"What 'ceph osd purge' of 1 device (0) does isn't known: {why}." in out, out[-300:])
    equals("osd.1", runner.said("drain", folder, "osd.1")["unforetold"], None)


# ---- answers


def no_room(runner, folder):
    """A pool of size 4 over four hosts, one of which is drained: every group ends a copy short."""
    write(folder, crush_dump(), osd_dump(pools=[pool(1, "photos", size=4), pool(2, "small", size=2, min_size=1)]))
    code, out, _ = runner.run("drain", folder, "host2")
    equals("status", code, 1)
    wants(out.startswith("no: 64 copies of pool photos have no device; "), out[:200])
    said = runner.said("drain", folder, "host2")
    equals("short", said["short"], {"groups": 64, "copies": 64, "groups_before": 0, "copies_before": 0})
    said = runner.said("fail", folder, "host2", status=1)
    equals("while it is down", (said["down"]["short"] >= 64, said["down"]["below_min_size"]), (True, 0))
    write(folder, osd=osd_dump(pools=[pool(1, "photos", size=4, min_size=4)]))
    equals("min_size 4", runner.said("fail", folder, "host2", status=1)["down"]["below_min_size"], 64)
    said = runner.said("fail", folder, "--each", "host", status=1)
    equals("each", [it["below_min_size"] for it in said["each"]], [64] * 4)
    equals("each osd", len(runner.said("fail", folder, "--each", "osd", status=1)["each"]), 12)


def io_stops(runner, folder):
    """Where a failure stops I/O its answer says of which pools, with how many copies left beside
    min_size, and names the groups: for one number of copies in the sentence, else in a table."""
    write(folder, crush_dump(), osd_dump(pools=[pool(1, "photos", size=4, min_size=4), pool(2, "small", min_size=1)]))
    out = runner.run("fail", folder, "host2")[1]
    wants(
        out.startswith(
            "no: 64 groups of pool photos have 3 copies left while the devices are down, below min_size 4, so their I/O"
            " stops; 64 copies of pool photos have no device; "
        ),
        out,
    )
    wants("\n  photos   1     4         4            3      64  1.0, 1.1, 1.2, 1.3, 1.4, 1.5 and 58 more\n" in out, out)
    pools = [
        pool(1, "photos", size=4, min_size=4),
        pool(2, "small", size=2),
        pool(3, "one", size=1, min_size=1, pg_num=1),
    ]
    write(folder, osd=osd_dump(pools=pools))
    text, down = text_of(crush_dump()), set(range(3, 9))  # the devices of host1 and host2
    wanted = {}
    for it in pools:
        size, least, groups = it["size"], it["min_size"], it["pg_num"]
        placed = Placed(text, pool=it["pool"], size=size, pg_num=groups, down=down)
        left = [len(up) for up in placed.up]
        wanted[it["pool"]] = [
            {"copies": count, "groups": left.count(count)} for count in range(least) if left.count(count)
        ]
    wants(len(wanted[2]) == 2, wanted)
    said = runner.said("fail", folder, "host1", "host2", status=1)
    equals(
        "copies left",
        {it["pool"]: it["left"] for it in said["down"]["pools"] if it["left"]},
        {id_: of for id_, of in wanted.items() if of},
    )
    stopped = sum(it["groups"] for of in wanted.values() for it in of)
    named = [name for name, id_ in (("photos", 1), ("small", 2), ("one", 3)) if wanted[id_]]
    wants(
        said["answer"].startswith(
            f"no: {stopped} groups of the pools {', '.join(named)} have fewer copies than min_size while the devices"
            " are down, so their I/O stops; "
        ),
        said["answer"],
    )
    out = runner.run("fail", folder, "host1", "host2")[1]
    rows = [
        it.split()[:6]
        for it in out.partition("whose I/O stops while they are down:\n")[2].partition("\n\n")[0].splitlines()[1:]
    ]
    equals(
        "rows",
        rows,
        [
            [it["pool_name"], *map(str, (it["pool"], it["size"], it["min_size"], of["copies"], of["groups"]))]
            for it in pools
            for of in wanted[it["pool"]]
        ],
    )
    (only,) = Placed(text, pool=3, size=1, pg_num=1).up
    write(folder, osd=osd_dump(pools=pools[2:]))
    said = runner.said("fail", folder, f"osd.{only[0]}", status=1)["answer"]
    wants(
        said.startswith(
            "no: 1 group of pool one has no copy left while the devices are down, below min_size 1, so its"
        ),
        said,
    )
    write(folder, osd=osd_dump(pools=[pool(1, "photos")]))
    out = runner.run("fail", folder, "host2")[1]
    wants("I/O stops while they are down" not in out and "left" not in out.partition("\n")[0], out)


def already_short(runner, folder):
    """Groups that lack a copy before a drain are told apart from those that lack one by it."""
    write(folder, crush_dump(hosts=3), osd_dump(9, [pool(1, "photos", size=4)]))
    said = runner.said("drain", folder, "osd.0", status=1)
    equals("short", said["short"], {"groups": 64, "copies": 64, "groups_before": 64, "copies_before": 64})
    wants(
        said["answer"].startswith("no: 64 copies of pool photos have no device (as many as before); "), said["answer"]
    )
    wants(
        "64 of 64, by 64 copies (before: 64, by 64)" in runner.run("drain", folder, "osd.0")[1],
        "the summary doesn't say it",
    )
    wants(
        runner.said("drain", folder, "host0", status=1)["answer"].startswith(
            "no: 128 copies of pool photos have no device (64 before); "
        ),
        "nor does another",
    )
    said = runner.said("fail", folder, "osd.0", status=1)
    equals("while it is down all are short", said["down"]["short"], 64)


def room(runner, folder):
    """Bytes of pools and devices: what is written, how full a device is, and the ratios."""
    write(
        folder,
        crush_dump(),
        osd_dump(),
        df_json={
            "stats": {},
            "pools": [{"name": "photos", "id": 1, "stats": {"stored": 64_000, "objects": 10, "bytes_used": 192_000}}],
        },
    )
    said = runner.said("drain", folder, "host0", status=0)
    wants(not_looked_at(said), said["warnings"])
    equals("each copy has 1,000 bytes", said["bytes"], said["copies"] * 1000)
    equals(
        "bytes of a device",
        [it["bytes_after"] for it in said["usage"]],
        [it["copies_after"] * 1000 for it in said["usage"]],
    )
    for size, status, past in ((1_000_000, 0, False), (28_000, 0, True), (25_000, 1, True)):
        nodes = [
            {
                "id": it["device"],
                "name": it["name"],
                "kb": size // 1000 * 1000 // 1024,
                "kb_used": it["bytes_before"] // 1024,
            }
            for it in said["usage"]
        ]
        write(folder, osd__df_json={"nodes": [*nodes, {"id": -1, "name": "default", "kb": 1, "kb_used": 1}]})
        answer = runner.said("drain", folder, "host0")
        most = max((it["used_after"] for it in answer["usage"]))
        equals(f"{size}: fullest", answer["fullest"]["used_after"], most)
        # kb_used is rounded down, so that these lose more than they are said to hold
        equals(f"{size}: emptied", [it["used_after"] for it in answer["usage"] if not it["copies_after"]], [0, 0, 0])
        equals(f"{size}: past near-full", bool(answer["past_nearfull"]), most > 0.85)
        equals(f"{size}: status", answer["status"], int(most > 0.9))
        equals(f"{size}: warnings", answer["warnings"], [])
    wants("past the backfill-full ratio" in runner.run("drain", folder, "host0")[1], "the sentence doesn't say it")
    for words in (("fail", folder, "host0"), ("fail", folder, "--each", "host"), ("usage", folder)):
        equals(f"{words}: warnings", runner.said(*words)["warnings"], [])
    write(folder, osd={**osd_dump(), "nearfull_ratio": 0.8500000238418579})  # as a cluster writes it
    wants("near-full is 85.0%" in runner.run("drain", folder, "host0")[1], "the ratio isn't said")
    write(folder, osd={name: value for name, value in osd_dump().items() if name != "backfillfull_ratio"})
    wants(not_looked_at(runner.said("drain", folder, "host0", status=0)), "a cluster without the ratio")
    write(folder, osd=osd_dump())
    wants("B" in runner.run("usage", folder)[1] and "used %" in runner.run("usage", folder)[1], "usage shows no bytes")


def not_looked_at(said):
    """Whether an answer warns, once, that it looked at no room."""
    return [it.startswith("how full devices get isn't looked at") for it in said["warnings"]] == [True]


def without_room(runner, folder):
    """Without df.json or osd-df.json no device counts as full, and drain and fail say so; usage,
    which asks for no room, doesn't."""
    nodes = [{"id": it, "name": f"osd.{it}", "kb": 1, "kb_used": 1} for it in range(12)]
    write(folder, crush_dump(), osd_dump(), osd__df_json={"nodes": nodes})
    for words in (("drain", folder, "host0"), ("fail", folder, "host0"), ("fail", folder, "--each", "host")):
        wants(not_looked_at(runner.said(*words, status=0)), words)
        wants("note: how full devices get isn't looked at" in runner.run(*words)[1], f"{words} says nothing of it")
    equals("usage", runner.said("usage", folder, status=0)["warnings"], [])


def taken_by_name(runner, folder):
    """A device that a rule takes by name stands in no impact list: drained it keeps its copies, and
    down it is missed in every group."""
    crush = crush_dump()
    crush["rules"] = [
        rule(
            0,
            "first",
            (
                {"op": "take", "item": 0, "item_name": "osd.0"},
                {"op": "emit"},
                STEPS[0],
                {"op": "chooseleaf_firstn", "num": -1, "type": "host"},
                STEPS[2],
            ),
        )
    ]
    write(folder, crush, osd_dump())
    said = runner.said("drain", folder, "osd.0", status=1)
    wants(
        said["stay"] == [{"device": 0, "copies": said["usage"][0]["copies_after"]}] and said["stay"][0]["copies"] >= 64,
        said["stay"],
    )
    wants("keeps" in said["answer"] and "takes it by name" in said["answer"], said["answer"])
    said = runner.said("fail", folder, "osd.0", "--groups", status=1)
    equals("while it is down", said["down"]["short"], 64)
    wants(all(0 not in it["up"] for it in said["down"]["groups"]), "osd.0 is up")
    text = runner.run("fail", folder, "osd.0")[1]
    wants(
        "0 of 64 groups can't move: those in no impact list, and whose rule takes none of the devices by name" in text,
        text,
    )
    wants(said["out"]["moved"] > said["out"]["can_move"], "each group that moves is in an impact list")


def described(runner, folder):
    """Without osd.json each rule is a pool that the command line describes."""
    write(folder, crush_dump())
    said = runner.said("usage", folder, "--size", "2", "--pg-num", "16", "--groups", status=0)
    equals("groups", [it["raw"] for it in said["groups"]], Placed(text_of(crush_dump()), pool=1, size=2, pg_num=16).raw)
    equals("pools", [(it["pool"], it["name"], it["wanted"]) for it in said["pools"]], [(1, "replicated_rule", 32)])
    wants(any("no osd.json" in it for it in said["warnings"]), said["warnings"])
    equals("the usual pool", runner.said("usage", folder)["pools"][0]["wanted"], 384)


def shares(runner, folder):
    """What a device should have is by what each bucket says of its items, and by reweights: the
    weight of an item needn't be the sum below it."""
    crush = crush_dump(hosts=2, devices=2)
    crush["buckets"][0]["items"][0]["weight"], crush["buckets"][0]["items"][1]["weight"] = 3 * ONE, ONE
    crush["buckets"][1]["items"][0]["weight"] = 3 * ONE
    write(folder, crush, osd_dump(4, [pool(1, "photos", size=1, min_size=1, pg_num=128)], {2: ONE // 2}))
    said = runner.said("usage", folder, status=0)
    # osd.0 9/16, osd.1 3/16, osd.2 1/8 times one half, osd.3 1/8: of 15/16
    equals("shares", [it["share"] for it in said["rows"]], [round(128 * it / 15, 2) for it in (9, 3, 1, 2)])
    equals(
        "percents",
        [it["percent"] for it in said["rows"]],
        [round(it["copies"] * 100 / (128 * of / 15) + 1e-9, 1) for it, of in zip(said["rows"], (9, 3, 1, 2))],
    )
    equals(
        "least and greatest",
        (said["least"]["percent"], said["greatest"]["percent"]),
        (min(it["percent"] for it in said["rows"]), max(it["percent"] for it in said["rows"])),
    )
    equals(
        "by host",
        [(it["name"], it["share"]) for it in runner.said("usage", folder, "--by", "host")["rows"]],
        [("host0", 102.4), ("host1", 25.6)],
    )


def least(runner, folder):
    """The least that a change of weights asks for: what all devices gain of their shares."""
    write(folder, crush_dump(), osd_dump())
    crush = crush_dump(hosts=5)
    (folder / "new.txt").write_text(text_of(crush))
    said = runner.said("compare", folder, folder / "new.txt", "--groups", status=0)
    equals("the least", said["least"], round(192 / 5, 2))
    before, after = Placed(text_of(crush_dump()), pool=1, size=3, pg_num=64), Placed(
        text_of(crush), pool=1, size=3, pg_num=64
    )
    equals("groups", [(it["group"], it["before"], it["after"]) for it in said["groups"]], before.moves(after))
    gained = sum(device >= 12 for _, old, new in before.moves(after) for device in set(new) - set(old))
    equals("the new host", [(it["lost"], it["gained"]) for it in said["hosts"] if it["name"] == "host4"], [(0, gained)])
    equals("copies", said["copies"], sum(it["gained"] for it in said["hosts"]))
    equals("rounding is said", kinds(said, "notes"), ["rounded"])
    crush["rules"] = [rule(5, "other")]
    (folder / "new.json").write_text(json.dumps(crush))
    said = runner.said("compare", folder, folder / "new.json", status=2)
    equals("a map without the pool's rule", (kinds(said), said["uncomputed"][0]["pools"]), (["rule"], [1]))


def upmaps(runner, folder):
    """Commands of a list: what each does, which have no effect, and which Ceph removes again."""
    write(folder, crush_dump(), osd_dump())
    placed = Placed(text_of(crush_dump()), pool=1, size=3, pg_num=64)
    first, second, third = placed.raw[9]
    near = next(it for it in range(first // 3 * 3, first // 3 * 3 + 3) if it != first)
    beside = next(it for it in range(second // 3 * 3, second // 3 * 3 + 3) if it != second)
    lines = (
        f"# by hand\nceph osd pg-upmap-items 1.9 {first} {near}\nceph osd pg-upmap-items 1.8"
        f" osd.{placed.raw[8][0]} {placed.raw[8][1]}\n\nceph osd rm-pg-upmap-items 1.7\n"
    )
    (folder / "list").write_text(lines)
    said = runner.said("upmap", folder, folder / "list", status=0)
    rows = {it["id"]: it for it in said["groups"]}
    equals("1.9", (rows["1.9"]["after"], rows["1.9"]["copies"], rows["1.9"]["remarks"]), ([near, second, third], 1, []))
    equals("1.8", (rows["1.8"]["after"], len(rows["1.8"]["remarks"]), rows["1.8"]["breaks"]), (placed.up[8], 1, None))
    equals("1.7", (rows["1.7"]["pairs"], rows["1.7"]["copies"]), ([], 0))
    equals(
        "no commands",
        runner.run("upmap", folder, "-", given=b"\n")[:2],
        (0, "yes: no group moves, since standard input has no commands.\n"),
    )
    code, out, _ = runner.run("upmap", folder, "-", given=f"ceph osd pg-upmap-items 1.9 {first} {beside}\n".encode())
    equals("two copies in one host", code, 1)
    wants(
        f"osd.{beside} and osd.{second} are in one host" in out
        or f"osd.{second} and osd.{beside} are in one host" in out,
        out,
    )


def located(runner, folder):
    """Objects: group, lists and primary, with host and rack of each device."""
    write(folder, crush_dump(), osd_dump(down=(4,)))
    said = runner.said("locate", folder, "photos", "cat.jpg", "ä", status=0)["objects"]
    placed = Placed(text_of(crush_dump()), pool=1, size=3, pg_num=64, down={4})
    for it in said:
        equals(
            it["name"],
            (it["raw"], it["up"], it["primary"]),
            (placed.raw[it["group"]], placed.up[it["group"]], placed.primary(it["group"])),
        )
        equals(
            "places",
            [(of["device"], of["above"]["host"], of["above"]["root"]) for of in it["places"]],
            [
                (of, f"host{of // 3}", "default")
                for of in dict.fromkeys(placed.up[it["group"]] + placed.raw[it["group"]])
            ],
        )
    equals("the pool by its id", runner.said("locate", folder, "1", "cat.jpg", "ä")["objects"], said)
    groups = runner.said("locate", folder, "--group", "1.0", "--group", "1.3f", status=0)["groups"]
    equals(
        "groups",
        [(it["id"], it["raw"], it["up"], it["primary"]) for it in groups],
        [(f"1.{it:x}", placed.raw[it], placed.up[it], placed.primary(it)) for it in (0, 63)],
    )
    of = said[0]
    equals(
        "the group of an object",
        runner.said("locate", folder, "--group", of["id"])["groups"],
        [{"pool": 1, **{key: of[key] for key in of if key != "name"}}],
    )


def as_full(runner, folder):
    """Devices of one weight that have equally many copies, the most, are as full."""
    write(folder, crush_dump(), osd_dump(pools=[pool(1, "photos", pg_num=4)]))
    ties = 0
    for host in range(4):
        said = runner.said("drain", folder, f"host{host}", status=0)
        most = max(it["copies_after"] for it in said["usage"])
        found = [it["device"] for it in said["usage"] if it["copies_after"] == most]
        equals(f"host{host}", [said["fullest"]["device"], *said["as_full"]], found)
        line = f"  as full {', '.join(f'osd.{it}' for it in found[1:4])}" + (
            f" and {len(found) - 4} more" if len(found) > 4 else ""
        )
        text = [" ".join(it.split()) for it in runner.run("drain", folder, f"host{host}")[1].splitlines()]
        equals(f"host{host}: its line", line.strip() in text, len(found) > 1)
        ties += len(found) > 1
    wants(ties, "no drain has devices that are as full")


def deep(runner, folder):
    """Racks: names of any level, and usage by each of them."""
    crush = crush_dump(hosts=6)
    hosts = crush["buckets"][1:]
    racks = [
        bucket(-10 - it, f"rack{it}", 3, "tree", [(host["id"], host["weight"]) for host in hosts[it * 2 : it * 2 + 2]])
        for it in range(3)
    ]
    crush["buckets"] = [bucket(-1, "default", 10, "list", [(it["id"], it["weight"]) for it in racks]), *racks, *hosts]
    write(folder, crush, osd_dump(18))
    equals("a rack", runner.said("drain", folder, "rack1")["devices"], list(range(6, 12)))
    equals("a host and a device", runner.said("drain", folder, "host0", "osd.17", "5")["devices"], [0, 1, 2, 5, 17])
    rows = runner.said("usage", folder, "--by", "rack")["rows"]
    equals("racks", ([it["name"] for it in rows], sum(it["copies"] for it in rows)), (["rack0", "rack1", "rack2"], 192))
    equals(
        "each rack",
        sorted(it["name"] for it in runner.said("fail", folder, "--each", "rack")["each"]),
        ["rack0", "rack1", "rack2"],
    )
    equals("the whole root", runner.said("drain", folder, "default", status=1)["short"]["copies"], 192)


def untouched(runner, folder):
    """Neither a drain of devices that are out, nor of a host that no rule reaches, moves
    anything."""
    crush = crush_dump()
    crush["devices"] += [{"id": it, "name": f"osd.{it}"} for it in (12, 13)]
    crush["buckets"].append(bucket(-40, "spare", 1, "list", [(12, ONE), (13, ONE)]))
    write(folder, crush, osd_dump(14, weights={5: 0}))
    for name in ("spare", "osd.5"):
        said = runner.said("drain", folder, name, status=0)
        equals(name, (said["moved"], said["copies"]), (0, 0))
        equals(name, said["answer"], "yes: no group moves, and every copy has a device.")


def dumps_in_turn(runner, folder):
    """crush.json is taken before map.txt."""
    write(folder, crush_dump(), osd_dump(), map_txt="no map at all")
    equals("the map", runner.said("check", folder, status=0)["map"], {"file": "crush.json", "exact": True})
    copied = copy.deepcopy(crush_dump())
    copied["buckets"][1]["items"][0]["weight"] = 59_583
    write(folder, copied, map_txt=text_of(copied))
    (folder / "crush.json").unlink()
    equals("rounded", runner.said("usage", folder, status=0)["map"], {"file": "map.txt", "exact": False})
    wants("rounded" in runner.run("usage", folder)[1], "rounding isn't said")


def cases():
    found = (
        straw, classes, odd_pools, refused_maps, oddities, many_states, many_pairs, holes, purge_that_damages, no_room,
        io_stops,
        already_short, room, without_room, taken_by_name,
        described, shares, least, upmaps, located, as_full, deep, untouched, dumps_in_turn,
    )  # fmt: skip
    return [(it.__name__, it) for it in found]
