"""Clusters of today: straw2, classes, weight sets, whole upmap lists, primaries, the cluster's own
word, stretch mode; and what still isn't computed. Where groups lie is computed by `placed.py`,
primaries here."""
import copy
import json
import re
import subprocess

from made import ONE, STEPS, bucket, crush_dump, osd_dump, pool, rule, text_of, write
from model.crush import hash2, stable_mod
from model.placed import Placed
from running import equals, wants

PHOTOS = {"pool": 1, "size": 3, "pg_num": 64}
NONE = 2_147_483_647


def uneven(alg="straw2", hosts=5):
    """Hosts whose devices weigh 1, 2 and 3."""
    crush = crush_dump(hosts, 3, alg, alg)
    for place, it in enumerate(crush["buckets"][1:]):
        for at, item in enumerate(it["items"]):
            item["weight"] = (at + 1) * ONE
        crush["buckets"][0]["items"][place]["weight"] = 6 * ONE
    return crush


def lies(said):
    return {it["group"]: (it["raw"], it["up"]) for it in said["groups"]}


def moves(said):
    return [(it["group"], it["before"], it["after"]) for it in said["groups"]]


def straw2(runner, folder):
    """Straw2 buckets at every level: where groups lie, a drain, and what a purge moves."""
    crush = uneven()
    write(folder, crush, osd_dump(15, down=(4,), weights={7: ONE // 2}))
    fields = {**PHOTOS, "down": {4}}
    before = Placed(text_of(crush), reweights={7: ONE // 2}, **fields)
    equals(
        "groups", lies(runner.said("usage", folder, "--groups", status=0)), dict(enumerate(zip(before.raw, before.up)))
    )
    said = runner.said("drain", folder, "osd.2", "--groups", status=1)
    drained = Placed(text_of(crush), reweights={7: ONE // 2, 2: 0}, **fields)
    equals("a drain", moves(said), before.moves(drained))
    gone = copy.deepcopy(crush)
    gone["buckets"][1]["items"].pop()
    gone["buckets"][0]["items"][0]["weight"] = 3 * ONE
    purged = Placed(text_of(gone), reweights={7: ONE // 2}, **fields)
    equals(
        "a purge", [(it["group"], it["before"], it["after"]) for it in said["purge"]["groups"]], drained.moves(purged)
    )
    write(folder, crush=gone)
    (folder / "new.json").write_text(json.dumps(crush))
    equals(
        "a device more",
        moves(runner.said("compare", folder, folder / "new.json", "--groups")),
        Placed(text_of(gone), reweights={7: ONE // 2}, **fields).moves(before),
    )


def converted(runner, folder):
    """A map of list buckets of which straw2 ones are made; and one of straw buckets, from where the
    cluster says that its groups lie."""
    write(folder, uneven("list"), osd_dump(15))
    (folder / "new.json").write_text(json.dumps(uneven()))
    before, after = (Placed(text_of(uneven(it)), **PHOTOS) for it in ("list", "straw2"))
    equals(
        "list to straw2",
        moves(runner.said("compare", folder, folder / "new.json", "--groups", status=0)),
        before.moves(after),
    )
    write(folder, uneven("straw"))
    equals(
        "straw to straw2",
        runner.said("compare", folder, folder / "new.json", status=2)["answer"],
        "unknown: no pool can be computed.",
    )
    write(folder, pgs_json=brief(before))
    said = runner.said("compare", folder, folder / "new.json", "--groups", status=0)
    equals("straw to straw2 by its word", moves(said), before.moves(after))
    equals("nothing is left out", said["uncomputed"], [])


def host_added(runner, folder):
    """A host that crushtool adds with two devices: those count as in and up. An upmap item stays
    where its devices stay."""
    old, new = crush_dump(4, 3, "straw2", "straw2"), crush_dump(4, 3, "straw2", "straw2")
    more = bucket(-6, "host-more", 1, "straw2", [(12, ONE), (13, 2 * ONE)])
    new["buckets"].append(more)
    new["buckets"][0]["items"].append({"id": -6, "weight": more["weight"], "pos": 4})
    new["buckets"][0]["weight"] += more["weight"]
    new["devices"] += [{"id": it, "name": f"osd.{it}"} for it in (12, 13)]
    write(folder, old, osd_dump(12))
    (folder / "new.json").write_text(json.dumps(new))
    before, after = (Placed(text_of(it), **PHOTOS) for it in (old, new))
    said = runner.said("compare", folder, folder / "new.json", "--groups", status=0)
    equals("a host more", moves(said), before.moves(after))
    wants({12, 13} <= {device for _, _, now in moves(said) for device in now}, "nothing lies on the new devices")
    # where allowed_bucket_algs is an old release's, crushtool makes the new host a straw bucket
    old_kind = copy.deepcopy(new)
    old_kind["buckets"][-1]["alg"] = "straw"
    (folder / "straw.json").write_text(json.dumps(old_kind))
    said = runner.said("compare", folder, folder / "straw.json", "--groups", status=2)
    equals("a straw host more", (said["answer"], said["groups"]), ("unknown: no pool can be computed.", []))
    wants("are straw buckets (host-more)" in said["uncomputed"][0]["text"], said["uncomputed"])
    equals(
        "its rows",
        runner.run("compare", folder, folder / "straw.json", "--groups", "--csv")[1],
        "pool,group,id,before,after,primary_before,primary_after,copies\n",
    )
    # the other way: the devices are there, and the map lacks them
    write(folder, new, osd_dump(14))
    (folder / "old.json").write_text(json.dumps(old))
    equals(
        "a host less",
        moves(runner.said("compare", folder, folder / "old.json", "--groups", status=0)),
        after.moves(before),
    )
    write(folder, old)
    runner.refused(
        "compare", folder, folder / "new.json", has="osd.json has devices that crush.json lacks (osd.12, osd.13)"
    )
    equals(
        "devices without a place",
        moves(runner.said("compare", folder, folder / "new.json", "--groups", "--allow-unplaced", status=0)),
        before.moves(after),
    )


CLASS_IDS = {"hdd": -20, "ssd": -40}  # what the ids of buckets of a class alone are lower by


def alone(crush, classes, class_):
    """The buckets that have the devices of a class alone, each behind those that are in it."""
    made = {}
    for it in sorted(crush["buckets"], key=lambda of: of["type_id"]):
        items = [(of["id"], of["weight"]) for of in it["items"] if classes.get(of["id"]) == class_]
        items += [(made[of["id"]]["id"], made[of["id"]]["weight"]) for of in it["items"] if of["id"] < 0]
        made[it["id"]] = bucket(CLASS_IDS[class_] + it["id"], f"{it['name']}~{class_}", it["type_id"], it["alg"], items)
    return list(made.values())


def of_class(class_):
    """The steps that take a class alone."""
    return ({"op": "take", "item": CLASS_IDS[class_] - 1, "item_name": f"default~{class_}"}, *STEPS[1:])


def with_classes(crush, classes):
    """The map with a class for each device, the trees of single classes, and rules 0 and 1 that
    take hdd and ssd."""
    found = copy.deepcopy(crush)
    for it in found["devices"]:
        it["class"] = classes[it["id"]]
    found["buckets"] += [of for class_ in CLASS_IDS for of in alone(crush, classes, class_)]
    found["rules"] = [rule(number, class_, of_class(class_)) for number, class_ in enumerate(CLASS_IDS)]
    return found


def placed_alone(crush, classes, class_, **fields):
    """Where groups lie on the devices of a class, by a map that has no other."""
    buckets = [{**it, "name": it["name"].split("~")[0]} for it in alone(crush, classes, class_)]
    return Placed(text_of({**crush, "buckets": buckets}), **{**PHOTOS, **fields})


def class_changed(runner, folder):
    """Devices that get another class: groups of both classes' pools move, those of the whole tree
    don't; a drain is on the class's own tree."""
    crush, old = uneven(hosts=6), {it: "ssd" if it % 3 == 2 else "hdd" for it in range(18)}
    new = {**old, 4: "ssd", 8: "hdd", 13: "ssd"}
    before, after = (with_classes(crush, it) for it in (old, new))
    for it in (before, after):
        it["rules"].append(rule(2, "all"))
    write(
        folder, before, osd_dump(18, [pool(1, "disks"), pool(2, "flash", crush_rule=1), pool(3, "all", crush_rule=2)])
    )
    (folder / "new.json").write_text(json.dumps(after))
    said = runner.said("compare", folder, folder / "new.json", "--groups", status=0)
    for id_, class_ in ((1, "hdd"), (2, "ssd")):
        wanted = placed_alone(crush, old, class_, pool=id_).moves(placed_alone(crush, new, class_, pool=id_))
        equals(class_, [(it["group"], it["before"], it["after"]) for it in said["groups"] if it["pool"] == id_], wanted)
        wants(wanted, f"nothing of {class_} moves")
    equals("pools that move", sorted({it["pool"] for it in said["groups"]}), [1, 2])
    drained = placed_alone(crush, old, "ssd", pool=2, reweights={2: 0})
    equals(
        "a drain",
        [
            (it["group"], it["before"], it["after"])
            for it in runner.said("drain", folder, "osd.2", "--groups")["groups"]
            if it["pool"] == 2
        ],
        placed_alone(crush, old, "ssd", pool=2).moves(drained),
    )


def with_set(crush, rows):
    """The same map with the weights of a set: by the names of buckets."""
    found = copy.deepcopy(crush)
    for it in found["buckets"]:
        for item, weight in zip(it["items"], rows.get(it["name"], [])):
            item["weight"] = int(weight * ONE)
    return found


def sets(runner, folder):
    """Weight sets of one position: of all pools, and of one; others leave their pools out."""
    crush, pools = uneven(), [pool(1, "photos"), pool(2, "mail", crush_rule=0)]
    all_, own = {"default": [4, 5, 6, 7, 8.5], "host1": [2, 2, 2]}, {"default": [6, 6, 6, 6, 1.25]}
    ids = {it["name"]: it["id"] for it in crush["buckets"]}
    args = lambda rows, *more: [{"bucket_id": ids[name], "weight_set": [row, *more]} for name, row in rows.items()]
    write(folder, {**crush, "choose_args": {"-1": args(all_), "2": args(own)}}, osd_dump(15, pools))
    said = runner.said("usage", folder, "--groups", status=0)
    for id_, rows in ((1, all_), (2, own)):
        placed = Placed(text_of(with_set(crush, rows)), **{**PHOTOS, "pool": id_})
        equals(f"pool {id_}", [it["up"] for it in said["groups"] if it["pool"] == id_], placed.up)
        equals(
            f"a drain, pool {id_}",
            [
                (it["group"], it["before"], it["after"])
                for it in runner.said("drain", folder, "host0", "--groups")["groups"]
                if it["pool"] == id_
            ],
            placed.moves(
                Placed(text_of(with_set(crush, rows)), reweights={0: 0, 1: 0, 2: 0}, **{**PHOTOS, "pool": id_})
            ),
        )
    wants(
        "choose_args -1 of all pools (1 pool), the weight set choose_args 2 (1 pool)" in runner.run("check", folder)[1],
        "the sets aren't named",
    )
    for more, words in (
        ({"2": args(own, [1, 1, 1, 1, 1])}, "other weights for each of 2 places"),
        ({"2": [{"bucket_id": -1, "ids": [-9, -8, -7, -6, -5]}]}, "has other ids for the items of default"),
        ({"2": args({"default": [1, 2]})}, "has 2 weights for the 5 items"),
    ):
        write(folder, {**crush, "choose_args": more})
        said = runner.said("check", folder, status=1)
        equals(f"{words}: pools", [(it["kind"], it["pools"]) for it in said["uncomputed"]], [("weight set", [2])])
        wants(words in said["uncomputed"][0]["text"], said["uncomputed"])


def lists(runner, folder):
    """A whole upmap list is where its group lies; items act on it; while a device of it is out
    neither acts, and where one of it is lost the group moves."""
    crush = uneven()
    placed = Placed(text_of(crush), **PHOTOS)
    free = {
        group: next(it for it in range(5) if it not in [device // 3 for device in placed.raw[group]])
        for group in range(64)
    }
    own = {group: [free[group] * 3, placed.raw[group][1], placed.raw[group][2]] for group in (3, 4, 5)}
    osd = osd_dump(15)
    osd["pg_upmap"] = [{"pgid": f"1.{group:x}", "osds": it} for group, it in own.items()]
    osd["pg_upmap_items"] = [{"pgid": "1.4", "mappings": [{"from": own[4][0], "to": own[4][0] + 1}]}]
    write(folder, crush, osd)
    wanted = {**dict(enumerate(placed.up)), **own, 4: [own[4][0] + 1, *own[4][1:]]}
    equals(
        "groups",
        {group: up for group, (_, up) in lies(runner.said("usage", folder, "--groups", status=0)).items()},
        wanted,
    )
    said = runner.said("drain", folder, f"osd.{own[3][0]}", "--groups")
    drained = Placed(text_of(crush), reweights={own[3][0]: 0}, **PHOTOS)
    equals("the list of a drained device", {it["group"]: it["after"] for it in said["groups"]}[3], drained.up[3])
    idle = copy.deepcopy(osd)
    idle["osds"][own[4][0]]["weight"] = 0.0
    write(folder, osd=idle)
    placed = Placed(text_of(crush), reweights={own[4][0]: 0}, **PHOTOS)
    equals("while it is out", lies(runner.said("usage", folder, "--groups"))[4][1], placed.up[4])


def led(pool_id, group, up, affinity, front):
    """The primary of a list by affinities in 65536ths, and the list with it in front."""
    seed = hash2(stable_mod(group, 64), pool_id)
    refuses = lambda it: affinity.get(it, ONE) < ONE and hash2(seed, it) >> 16 >= affinity.get(it, ONE)
    known = [it for it in up if it is not None]
    first = next((it for it in known if not refuses(it)), known[0] if known else None)
    return ([first, *(it for it in up if it != first)] if front and first is not None else up), first


def primaries(runner, folder):
    """Primaries by affinity and as they are set: where groups lie, how many a device has, and what
    a drain makes of it."""
    crush = uneven()
    crush["rules"].append(
        rule(1, "parts", (STEPS[0], {"op": "chooseleaf_indep", "num": 0, "type": "host"}, STEPS[2]), 3)
    )
    osd = osd_dump(15, [pool(1, "photos"), pool(2, "parts", type=3, crush_rule=1)])
    affinity = {0: 0, 1: ONE // 2, 5: 100, 8: 0, 9: 0}
    for device, it in affinity.items():
        osd["osds"][device]["primary_affinity"] = it / ONE
    write(folder, crush, osd)
    for words, reweights in (((), {}), (("drain", "host2"), {6: 0, 7: 0, 8: 0})):
        said = (
            runner.said("usage", folder, "--groups") if not words else runner.said("drain", folder, "host2", "--groups")
        )
        found, counts = {}, {}
        for id_, erasure in ((1, False), (2, True)):
            placed = Placed(
                text_of(crush), reweights=reweights, rule=id_ - 1, erasure=erasure, **{**PHOTOS, "pool": id_}
            )
            found.update(
                {(id_, group): led(id_, group, up, affinity, not erasure) for group, up in enumerate(placed.up)}
            )
        for _, first in found.values():
            counts[first] = counts.get(first, 0) + 1
        if not words:
            equals("groups", {(it["pool"], it["group"]): (it["up"], it["primary"]) for it in said["groups"]}, found)
            equals("primaries", {it["device"]: it["primaries"] for it in said["rows"] if it["primaries"]}, counts)
        else:
            equals(
                "after a drain",
                {(it["pool"], it["group"]): (it["after"], it["primary_after"]) for it in said["groups"]},
                {key: it for key, it in found.items() if key in {(it["pool"], it["group"]) for it in said["groups"]}},
            )
            equals(
                "its primaries",
                {it["device"]: it["primaries_after"] for it in said["usage"] if it["primaries_after"]},
                counts,
            )
    plain = osd_dump(15)
    up = Placed(text_of(crush), **PHOTOS).up[9]
    plain["pg_upmap_primaries"] = [{"pgid": "1.9", "primary_osd": up[2]}, {"pgid": "1.a", "primary_osd": 99}]
    write(folder, osd=plain)
    it = runner.said("locate", folder, "--group", "1.9", status=0)["groups"][0]
    equals("a set primary", (it["up"], it["primary"]), ([up[2], up[1], up[0]], up[2]))
    it = runner.said(
        "upmap",
        folder,
        commands(folder, f"ceph osd rm-pg-upmap-primary 1.9;\nceph osd pg-upmap-primary 1.9 {up[1]} &\n"),
        status=0,
    )["groups"][0]
    equals("another one", (it["after"], it["primary_after"], it["copies"]), ([up[1], up[0], up[2]], up[1], 0))


def commands(folder, text):
    (folder / "list").write_text(text)
    return folder / "list"


def mixed_list(runner, folder):
    """A list of commands that names a pool which isn't computed: the others are answered."""
    write(folder, uneven(), osd_dump(15, [pool(1, "photos"), pool(2, "odd", crush_rule=9)]))
    said = runner.said(
        "upmap",
        folder,
        commands(folder, "ceph osd pg-upmap-items 2.1 0 3 ;\nceph osd rm-pg-upmap-items 1.1\n"),
        status=2,
    )
    equals(
        "the answer",
        said["answer"],
        "unknown: 0 groups move, and 0 copies are written anew; of pool odd nothing is computed.",
    )
    equals(
        "groups",
        ([it["id"] for it in said["groups"]], [it["groups"] for it in said["uncomputed"] if it["kind"] == "upmap"]),
        (["1.1"], [["2.1"]]),
    )
    up = Placed(text_of(uneven()), **PHOTOS).up[9]
    lines = (
        f"ceph osd pg-upmap-items 2.1 0 3 &\nceph osd pg-upmap-primary 1.9 {up[1]} ;\nceph osd rm-pg-upmap-items 1.1"
        " &&\nwait\n"
    )
    runner.refused("upmap", folder, commands(folder, lines), has="line 4: it isn't 'ceph osd pg-upmap-items")
    said = runner.said("upmap", folder, commands(folder, lines.removesuffix("wait\n")), status=2)
    equals(
        "primaries among them",
        {it["id"]: (it["primary_after"], it["copies"]) for it in said["groups"]}["1.9"],
        (up[1], 0),
    )
    wants(
        "; 1 primary changes" in said["answer"] and "of pool odd nothing is computed" in said["answer"], said["answer"]
    )


def brief(placed, changed=()):
    """What the cluster says of the groups of pool 1; `changed` are others by group."""
    rows = []
    for group, up in enumerate(placed.up):
        up = dict(changed).get(group, up)
        rows.append(
            {
                "pgid": f"1.{group:x}",
                "state": "active+clean",
                "up": up,
                "up_primary": up[0] if up else -1,
                "acting": up,
                "acting_primary": up[0] if up else -1,
            }
        )
    return {"pg_ready": True, "pg_stats": rows}


def word(runner, folder):
    """Each group beside what the cluster says of it; where some lie otherwise no answer holds."""
    crush = uneven()
    placed = Placed(text_of(crush), **PHOTOS)
    write(folder, crush, osd_dump(15), pgs_json=brief(placed))
    said = runner.said("check", folder, status=0)
    equals(
        "all",
        (said["answer"], said["lying"]["same"]),
        ("yes: 1 of 1 pool can be computed; 64 of 64 groups lie as computed.", 64),
    )
    equals("a drain", runner.said("drain", folder, "host0", status=0)["answer"].split(":")[0], "yes")
    other = [placed.up[31][0], placed.up[31][1], next(it for it in range(15) if it not in placed.up[31])]
    osd = osd_dump(15)
    osd["pg_temp"] = [{"pgid": "1.1f", "osds": placed.up[31]}]
    write(folder, osd=osd, pgs_json=brief(placed, {31: other}))
    said = runner.said("check", folder, status=2)
    differs = f"1.1f up {str(other).replace(' ', '')} here {str(placed.up[31]).replace(' ', '')}: pg_temp"
    wants(f"63 of 64 groups lie as computed; 1 differs: {differs}" in said["answer"], said["answer"])
    for words in (
        ("drain", folder, "host0"),
        ("fail", folder, "--each", "host"),
        ("usage", folder),
        ("compare", folder, folder / "crush.json"),
        ("locate", folder, "--group", "1.1f"),
    ):
        wants(runner.said(*words, status=2)["answer"].startswith("unknown: "), f"{words} is answered")
    equals("another group", runner.said("locate", folder, "--group", "1.1", status=0)["answer"], "")
    pgs = brief(placed)
    pgs["pg_stats"][5].update(state="unknown", up=[], up_primary=-1)
    write(folder, osd=osd_dump(15), pgs_json=pgs)
    wants(
        "63 of 64 groups lie as computed; of 1 the cluster says nothing (1.5)."
        in runner.said("check", folder, status=0)["answer"],
        "a group of which nothing is said",
    )
    write(folder, pgs_json={"pgs": []})
    runner.refused("check", folder, has="pgs.json: it isn't what 'ceph pg dump pgs_brief")
    (folder / "pgs.json").unlink()
    groups = {device: row[0] for device, row in placed.entries().items()}
    for more, status in ((0, 0), (1, 2)):
        write(
            folder,
            osd__df_json={
                "nodes": [
                    {"id": it, "kb": 100, "kb_used": 1, "pgs": groups[it] + (more if it == 3 else 0)}
                    for it in range(15)
                ]
            },
        )
        said = runner.said("check", folder, status=status)
        equals(
            f"{more} more by osd-df.json", (said["lying"]["by"], len(said["lying"]["devices"])), ("osd-df.json", more)
        )
        equals(
            f"{more} more: a drain", runner.said("drain", folder, "host0")["answer"].startswith("unknown"), bool(more)
        )


def sites(runner, folder):
    """In stretch mode a failure's placements are computed, and what stops isn't; noout of buckets
    and classes."""
    crush, osd = uneven(), osd_dump(15)
    for it in crush["devices"]:
        it["class"] = "ssd" if it["id"] < 6 else "hdd"
    write(folder, crush, {**osd, "stretch_mode": {"stretch_mode_enabled": True, "stretch_bucket_count": 2}})
    said = runner.said("fail", folder, "host0", status=2)
    wants(
        "what stops in pool photos isn't computed (stretch mode)" in said["answer"] and said["out"]["moved"],
        said["answer"],
    )
    equals("a drain", runner.said("drain", folder, "host0")["status"], 0)
    equals("each", {it["status"] for it in runner.said("fail", folder, "--each", "host")["each"]}, {2})
    write(
        folder,
        osd={
            **osd,
            "crush_node_flags": {"host0": ["noout"], "host3": ["noup"]},
            "device_class_flags": {"hdd": ["noout"]},
        },
    )
    for name, flagged in (("host0", "host0"), ("host1", None), ("host3", "the class hdd")):
        found = [it for it in runner.said("fail", folder, name)["warnings"] if "noout" in it]
        equals(name, [f"noout of {flagged}:" in it for it in found], [True] if flagged else [])


def many_buckets(runner, folder):
    """Two trees that have more buckets together than a text may have are computed one by one; one
    alone is named."""
    crush = crush_dump(700, 1, "straw2", "straw2")
    other = crush_dump(700, 1, "straw2", "straw2")
    crush["devices"] += [{"id": it + 700, "name": f"osd.{it + 700}"} for it in range(700)]
    moved = lambda id_: id_ + 700 if id_ >= 0 else id_ - 1000
    for it in other["buckets"]:
        crush["buckets"].append(
            {
                **it,
                "id": moved(it["id"]),
                "name": f"other-{it['name']}",
                "items": [{**of, "id": moved(of["id"])} for of in it["items"]],
            }
        )
    crush["rules"].append(rule(1, "other", ({**STEPS[0], "item": -1001, "item_name": "other-default"}, *STEPS[1:])))
    write(folder, crush, osd_dump(1400, [pool(1, "photos", pg_num=8), pool(2, "mail", pg_num=8, crush_rule=1)]))
    said = runner.said("usage", folder, "--groups", status=0)
    own = {**crush_dump(700, 1, "straw2", "straw2")}
    equals(
        "the first",
        [it["up"] for it in said["groups"] if it["pool"] == 1],
        Placed(text_of(own), pool=1, size=3, pg_num=8).up,
    )
    wants(all(700 <= device for it in said["groups"] if it["pool"] == 2 for device in it["up"]), "the second")
    equals("a drain", runner.said("drain", folder, "other-host3")["status"], 0)
    crush["rules"][1]["steps"] = [*crush["rules"][1]["steps"], *STEPS]
    write(folder, crush)
    said = runner.said("check", folder, status=1)
    wants(
        "below its rule other are 1,402 buckets, and crushcalc takes 1,024" in said["uncomputed"][0]["text"],
        said["uncomputed"],
    )


def left_out(runner, folder):
    """MSR rules, local tries and pools over 32 places are named with what to do; a tier isn't
    located."""
    crush = uneven()
    crush["rules"] += [rule(1, "msr", STEPS, 4), rule(2, "tries", ({"op": "set_choose_local_tries", "num": 2}, *STEPS))]
    write(
        folder,
        crush,
        osd_dump(
            15,
            [
                pool(1, "photos", tiers=[3], read_tier=3),
                pool(2, "new", crush_rule=1),
                pool(3, "old", crush_rule=2),
                pool(4, "wide", size=33),
            ],
        ),
    )
    texts = {it["pools"][0]: it["text"] for it in runner.said("check", folder, status=1)["uncomputed"]}
    for id_, words in (
        (2, "it is an MSR rule"),
        (3, "has the step set_choose_local_tries 2"),
        (4, "its size is 33, and crushcalc takes 1 to 32: 'ceph pg ls-by-pool wide'"),
    ):
        wants(words in texts[id_], texts)
    runner.refused("locate", folder, "photos", "a", has="pool photos is a tier of others, or has tiers (old)")
    equals("its groups", runner.said("locate", folder, "--group", "1.1")["status"], 0)


def words(runner, folder):
    """Devices past near-full stand in the sentence; nan in osd-df.json is left out; an unproved
    program is named."""
    crush = crush_dump(alg="straw2", root="straw2")
    old = Placed(text_of(crush), **PHOTOS)
    new = Placed(text_of(crush), reweights={0: 0, 1: 0, 2: 0}, **PHOTOS)
    used, after = ({it: sum(it in up for up in of.up) * 1_000_000 for it in range(12)} for of in (old, new))
    fills = max(range(3, 12), key=lambda it: after[it] - used[it])
    df = {"stats": {}, "pools": [{"name": "photos", "id": 1, "stats": {"stored": 1, "bytes_used": 192_000_000}}]}
    nodes = [
        {
            "id": it,
            "kb": (int(after[fills] / 0.87) if it == fills else 500_000_000) // 1024,
            "kb_used": used[it] // 1024,
            "utilization": 1.5,
        }
        for it in range(12)
    ]
    write(folder, crush, osd_dump(), df_json=df, osd__df_json={"nodes": nodes})
    wants(
        runner.said("drain", folder, "host0", status=0)["answer"].startswith(
            "yes, but 1 device gets past near-full (a health warning): "
        ),
        "near-full",
    )
    write(folder, osd__df_json=json.dumps({"nodes": nodes}).replace('"utilization": 1.5', '"utilization": -nan', 1))
    said = runner.said("usage", folder, status=0)
    wants(said["warnings"] == ["osd-df.json has no number of how full osd.0 is (nan)"], said["warnings"])
    unproved = folder / "unproved"
    unproved.write_text(
        '#!/bin/sh\n[ "$1" = --version ] && { echo "crushcalc 0.1.0 (unproved)"; exit; }\nexec'
        f' {runner.program} "$@"\n'
    )
    unproved.chmod(0o755)
    wants(
        "not proved: the program is unproved" in runner.run("drain", folder, "host0", "--program", unproved)[1],
        "an unproved program proves",
    )
    wants("crushcalc 0.1.0 (unproved)" in runner.run("--version", CRUSHCALC=str(unproved))[1], "its version")


def outputs(runner, folder):
    """A full disk and a closed standard output are named; a terminal of Latin-1 has a mark for what
    it lacks."""
    crush = crush_dump()
    crush["buckets"][1]["name"] = "höst→0"
    write(folder, crush, osd_dump())
    command = " ".join([*runner.command, "drain", str(folder), "host1"])
    for end, words in (("> /dev/full", "No space left on device"), (">&-", "it is closed")):
        ran = subprocess.run(
            ["sh", "-c", f"{command} {end}"], stdout=subprocess.PIPE, stderr=subprocess.PIPE, env=runner.environment
        )
        err = ran.stderr.decode()
        equals(f"{end}: status", ran.returncode, 2)
        equals(f"{end}: words", err, f"crushplan: the answer can't be written to standard output: {words}\n")
    for character_set, name in (("ascii", "h?st?0"), ("latin-1", "h\u00f6st?0")):
        ran = subprocess.run(
            command.split(),
            stdout=subprocess.PIPE,
            stderr=subprocess.PIPE,
            env={**runner.environment, "PYTHONIOENCODING": character_set},
        )
        said = (ran.returncode, name in ran.stdout.decode(character_set), ran.stderr)
        equals(f"a terminal of {character_set}", said, (0, True, b""))
    for words in ("--help", "--version", "help", "drain --help"):
        for end, why in ((">&-", "it is closed"), ("> /dev/full", "No space left on device")):
            ran = subprocess.run(
                ["sh", "-c", f"{' '.join(runner.command)} {words} {end}"],
                stdout=subprocess.PIPE,
                stderr=subprocess.PIPE,
                env=runner.environment,
            )
            wanted = (2, f"crushplan: the answer can't be written to standard output: {why}\n")
            equals(f"{words} {end}", (ran.returncode, ran.stderr.decode()), wanted)


def left_alone(runner, folder):
    """Of a pool that isn't computed no note says how it is computed, and no answer has a zero."""
    osd = osd_dump(12, [pool(1, "photos", object_hash=1, pg_num_target=128)])
    osd["pg_temp"] = [{"pgid": "1.1", "osds": [3, 6, 9]}]
    osd["primary_temp"] = [{"pgid": "1.2", "osd": 3}]
    write(folder, crush_dump(root="straw"), osd)
    for words in (("check", folder), ("drain", folder, "host0"), ("compare", folder, folder / "crush.json")):
        said = runner.said(*words, status=2)
        equals(f"{words}: notes", said["notes"], [])
    text = runner.run("compare", folder, folder / "crush.json")[1]
    wants(
        text.startswith("unknown: no pool can be computed.\n\nnot computed: ")
        and not re.search(r"(?<![.\w])0\b", text),
        text,
    )
    write(folder, crush_dump())
    said = runner.said("check", folder, status=0)
    equals(
        "of one that is",
        sorted(it["kind"] for it in said["notes"]),
        ["object hash", "pg_temp", "primary_temp", "split"],
    )


def cases():
    found = (
        straw2,
        converted,
        host_added,
        class_changed,
        sets,
        lists,
        primaries,
        mixed_list,
        word,
        sites,
        many_buckets,
        left_out,
        left_alone,
        words,
        outputs,
    )
    return [(it.__name__, it) for it in found]
