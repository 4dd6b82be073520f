"""What a planner decides by: room that isn't known, ways to drain that don't, flags of the cluster,
pairs that Ceph removes, gaps that were there before. Where groups lie is computed by placed.py."""
import collections
import json

from made import ONE, STEPS, bucket, crush_dump, osd_dump, pool, rule, text_of, write
from model.placed import Placed
from running import equals, wants

PHOTOS = {"pool": 1, "size": 3, "pg_num": 64}
EACH = 1_000_000  # bytes of a copy


def entries(placed):
    return collections.Counter(it for up in placed.up for it in up)


def df(*names, ids=(1,)):
    return {
        "stats": {},
        "pools": [
            {"name": name, "id": id_, "stats": {"stored": 64 * EACH, "objects": 1, "bytes_used": 192 * EACH}}
            for id_, name in zip(ids, names)
        ],
    }


def osd_df(used, sizes, left_out=(), devices=12):
    """Rooms of devices, in bytes; 100 times what a device holds where no size is given."""
    return {
        "nodes": [
            {
                "id": it,
                "name": f"osd.{it}",
                "kb": sizes.get(it, used[it] * EACH * 100) // 1024,
                "kb_used": used[it] * EACH // 1024,
            }
            for it in range(devices)
            if it not in left_out
        ]
    }


def uniform(runner, folder):
    """A weight of 0 drains no device where uniform buckets are picked all the same."""
    crush = crush_dump(alg="uniform", root="uniform")
    before = entries(Placed(text_of(crush), **PHOTOS))
    write(folder, crush, osd_dump())
    for names, devices in ((["osd.0"], [0]), (["host1"], [3, 4, 5])):
        said, text = runner.said("drain", folder, *names, status=0), runner.run("drain", folder, *names)[1]
        equals(f"{names}: what stays", said["weight_first"]["left"], sum(before[it] for it in devices))
        wants(
            f"is no way to drain them: {said['weight_first']['left']} copies would stay on them" in text
            and "fewer copies." not in text,
            text,
        )
    write(folder, crush_dump(alg="uniform"), osd_dump())
    said, text = runner.said("drain", folder, "osd.0", status=0), runner.run("drain", folder, "osd.0")[1]
    equals("below a list its host has the weight 0", said["weight_first"]["left"], 0)
    wants("(the other devices of host0, a uniform bucket, get that weight too)" in text, text)
    wants("get that weight too" not in runner.run("drain", folder, "host0")[1], "a host whose devices are all drained")


def weight_first(runner, folder):
    """The weight of 0 may fill a device that the drain doesn't."""
    crush, weightless = crush_dump(), crush_dump()
    host, root = weightless["buckets"][1], weightless["buckets"][0]
    host["items"][0]["weight"], root["items"][0]["weight"] = 0, 2 * ONE
    before, drained, first = (
        entries(Placed(text_of(of), reweights=reweights, **PHOTOS))
        for of, reweights in ((crush, {}), (crush, {0: 0}), (weightless, {}))
    )
    fills = max(range(1, 12), key=lambda it: first[it] - drained[it])
    wants(first[fills] > max(drained[fills], before[fills]), "no device gets more by the weight of 0")
    size = int(EACH * (first[fills] - 0.5) / 0.9)
    write(folder, crush, osd_dump(), df_json=df("photos"), osd__df_json=osd_df(before, {fills: size}))
    said, text = runner.said("drain", folder, "osd.0", status=0), runner.run("drain", folder, "osd.0")[1]
    equals(
        "what is past the ratio", (said["past_backfillfull"], said["weight_first"]["past_backfillfull"]), ([], [fills])
    )
    percent = round(
        (before[fills] * EACH // 1024 * 1024 + (first[fills] - before[fills]) * EACH) * 100 / (size // 1024 * 1024), 1
    )
    wants(f"But then osd.{fills} would be {percent}% full, past the backfill-full ratio." in text, text)


def gaps(runner, folder):
    """Where a part of the files on room is missing, the answer isn't yes; without them it says
    less."""
    crush, both = crush_dump(), [pool(1, "photos"), pool(2, "meta")]
    placed = [Placed(text_of(crush), **{**PHOTOS, "pool": it}) for it in (1, 2)]
    used = entries(placed[0]) + entries(placed[1])
    write(folder, crush, osd_dump(pools=both), df_json=df("photos", "meta", ids=(1, 2)), osd__df_json=osd_df(used, {}))
    wants(
        runner.said("drain", folder, "host0", status=0)["answer"].endswith(", and every copy has room."),
        "all of it is there",
    )
    write(folder, osd__df_json=osd_df(used, {}, (7,)))
    said = runner.said("drain", folder, "host0", status=2)
    wants(
        said["answer"].startswith("unknown: osd-df.json doesn't say how full osd.7 gets; of what can, "), said["answer"]
    )
    equals("a device that gets nothing", runner.said("drain", folder, "host2", status=0)["warnings"], [])
    equals(
        "each host",
        {it["name"]: it["status"] for it in runner.said("fail", folder, "--each", "host", status=2)["each"]},
        {"host0": 2, "host1": 2, "host2": 0, "host3": 2},
    )
    write(folder, osd__df_json=osd_df(used, {7: 0}))
    equals("a room of 0", runner.said("drain", folder, "host0", status=2)["answer"], said["answer"])
    write(folder, df_json=df("photos"), osd__df_json=osd_df(used, {}))
    said = runner.said("drain", folder, "host0", status=2)
    wants("df.json doesn't say what pool meta takes" in said["answer"], said["answer"])
    (folder / "df.json").unlink()
    for words in (("drain", folder, "host0"), ("fail", folder, "host0"), ("fail", folder, "--each", "host")):
        wants(
            runner.said(*words, status=0)["answer"].endswith(", and every copy has a device."),
            f"{words}: more than is known",
        )


def too_full(runner, folder):
    """Which hosts can't fail since a device would be too full stands in the table, first."""
    crush = crush_dump(hosts=5)
    used = entries(Placed(text_of(crush), **PHOTOS))
    write(folder, crush, osd_dump(15), df_json=df("photos"), osd__df_json=osd_df(used, {}, devices=15))
    usage = {it["name"]: {} for it in runner.said("fail", folder, "--each", "host", status=0)["each"]}
    for name in usage:
        out = entries(
            Placed(
                text_of(crush),
                reweights={device: 0 for device in range(int(name[4:]) * 3, int(name[4:]) * 3 + 3)},
                **PHOTOS,
            )
        )
        usage[name] = {device: out[device] for device in out if out[device] > used[device]}
    # a device that one host's failure fills more than any other
    for fills in range(15):
        most, worst = max((got.get(fills, 0), name) for name, got in usage.items())
        if [got.get(fills, 0) for got in usage.values()].count(most) == 1:
            break
    wants(most > used[fills], f"no host's failure alone fills osd.{fills}")
    write(folder, osd__df_json=osd_df(used, {fills: int(EACH * (most - 0.5) / 0.9)}, devices=15))
    said = runner.said("fail", folder, "--each", "host", status=1)
    equals("too full", [(it["name"], it["too_full"], it["status"]) for it in said["each"]][0], (worst, 1, 1))
    equals("the others", {it["too_full"] for it in said["each"][1:]}, {0})
    rows = [it.split(",") for it in runner.run("fail", folder, "--each", "host", "--csv")[1].splitlines()]
    row = dict(zip(rows[0], rows[1]))
    equals(
        "the CSV",
        (row["name"], row["too_full"], row["fullest"], float(row["fullest_used"]) > 0.9),
        (worst, "1", f"osd.{fills}", True),
    )


def lost_shadows(runner, folder):
    """A rule that takes a class by a bucket that isn't in the dump isn't computed, whatever is
    drained."""
    crush = crush_dump()
    crush["rules"] = [
        rule(0, "replicated_rule", ({**STEPS[0], "item": -51, "item_name": "default~hdd"}, *STEPS[1:])),
        rule(1, "all"),
    ]
    write(folder, crush, osd_dump(pools=[pool(1, "photos"), pool(2, "mail", crush_rule=1)]))
    said = runner.said("drain", folder, "host1", status=2)
    wants(said["answer"].startswith("unknown: pool photos can't be computed; "), said["answer"])
    wants("osd.-51" not in said["uncomputed"][0]["text"], said["uncomputed"][0]["text"])


def cut_pairs(runner, folder):
    """Pairs of which Ceph keeps a part, or none: the answer is no, and says what it keeps."""
    write(folder, crush_dump(), osd_dump())
    first, second, third = Placed(text_of(crush_dump()), **PHOTOS).raw[9]
    near, far = (it for it in range(first // 3 * 3, first // 3 * 3 + 3) if it != first)
    code, out, _ = runner.run(
        "upmap", folder, "-", given=f"ceph osd pg-upmap-items 1.9 {first} {near} {near} {far}\n".encode()
    )
    equals("a pair from what the first one brought", code, 1)
    wants(f"; of 1 group Ceph removes pairs again, and keeps 1.9 {first}>{near}." in out, out)
    absent = next(it for it in range(12) if it // 3 not in {first // 3, second // 3, third // 3})
    code, out, _ = runner.run(
        "upmap",
        folder,
        "-",
        given=f"ceph osd pg-upmap-items 1.9 {absent} {absent + 1 if absent % 3 < 2 else absent - 1}\n".encode(),
    )
    equals("a pair from a device that isn't there", code, 1)
    wants("keeps 1.9 none;" in out, out)


def new_devices(runner, folder):
    """A pair to a device that only the new map has stays; gaps from before are told apart."""
    crush, wider = crush_dump(), crush_dump(hosts=5)
    osd = osd_dump()
    before, plain = Placed(text_of(crush), **PHOTOS), Placed(text_of(wider), **PHOTOS)
    # a group that gets a new device, and a pair of two devices of a host that it keeps
    group, old = next(
        (group, it) for group, up in enumerate(plain.up) if max(up) >= 12 for it in up if it in before.up[group]
    )
    new = next(it for it in range(old // 3 * 3, old // 3 * 3 + 3) if it != old)
    osd["pg_upmap_items"] = [{"pgid": f"1.{group:x}", "mappings": [{"from": old, "to": new}]}]
    write(folder, crush, osd)
    (folder / "new.json").write_text(json.dumps(wider))
    said = runner.said("compare", folder, folder / "new.json", "--groups", status=0)
    pairs = [(group, old, new)]
    equals(
        "groups",
        [(it["group"], it["before"], it["after"]) for it in said["groups"]],
        Placed(text_of(crush), pairs=pairs, **PHOTOS).moves(Placed(text_of(wider), pairs=pairs, **PHOTOS)),
    )
    write(folder, crush, osd_dump(pools=[pool(1, "photos", size=4)], down=(5,)))
    lacking = sum(4 - len(up) for up in Placed(text_of(crush), down={5}, **{**PHOTOS, "size": 4}).up)
    said = runner.said("compare", folder, folder / "crush.json", status=1)
    equals("gaps", (said["missing_copies"], said["missing_copies_before"]), (lacking, lacking))
    wants(said["answer"].endswith(f"; {lacking} copies have no device (as many as before)."), said["answer"])


def filled_by_a_map(runner, folder):
    """A map without a host fills the others: those whose weight stays are looked at."""
    crush, less = crush_dump(hosts=5), crush_dump(hosts=4)
    less["buckets"][1]["items"][0]["weight"], less["buckets"][0]["items"][0]["weight"] = 2 * ONE, 4 * ONE
    less["devices"] = crush["devices"]
    before, after = (entries(Placed(text_of(it), **PHOTOS)) for it in (crush, less))
    gains = sorted(range(1, 12), key=lambda it: before[it] - after[it])
    most = gains[0]
    wants(after[most] > before[most] and after[0] > before[0], "nothing is filled")
    (folder / "new.json").write_text(json.dumps(less))
    sizes = {0: 1024, most: int(EACH * (after[most] - 0.5) / 0.9)}
    for left_out, status, past in (((), 1, [most]), ((most,), 0, [])):
        write(folder, crush, osd_dump(15), df_json=df("photos"), osd__df_json=osd_df(before, sizes, left_out))
        said, text = (
            runner.said("compare", folder, folder / "new.json", status=status),
            runner.run("compare", folder, folder / "new.json")[1],
        )
        equals("past the ratio", said["past_backfillfull"], past)
        equals("in the sentence", f"; osd.{most} would be " in text.splitlines()[0], bool(past))
    full = {
        it: (before[it] * EACH // 1024 * 1024 + (after[it] - before[it]) * EACH) / (
            before[it] * EACH * 100 // 1024 * 1024
        )
        for it in range(1, 12)
        if it != most
    }
    wants(
        said["fullest"]["device"] == max(full, key=lambda it: (full[it], -it))
        and abs(said["fullest"]["used_after"] - max(full.values())) < 0.0001,
        (said["fullest"], full),
    )
    (folder / "df.json").unlink()
    said = runner.said("compare", folder, folder / "new.json", status=0)
    equals("without df.json", (said["fullest"], said["past_backfillfull"]), (None, []))


def uneven_groups(runner, folder):
    """Where pg_num is no power of two, groups of two residues of the hash count twice."""
    crush = crush_dump()
    fields = {**PHOTOS, "pg_num": 24}
    old, new = Placed(text_of(crush), **fields), Placed(text_of(crush), reweights={0: 0, 1: 0, 2: 0}, **fields)
    residues = collections.Counter(it if it < 24 else it % 16 for it in range(32))
    equals("groups that count twice", sorted(it for it in residues if residues[it] == 2), list(range(8, 16)))
    each = 72_000_000 / (3 * 32)  # bytes of a copy of one residue
    moved = [(residues[group], before, after) for group, before, after in old.moves(new)]
    dump = {
        "stats": {},
        "pools": [{"name": "photos", "id": 1, "stats": {"stored": 1, "objects": 1, "bytes_used": 72_000_000}}],
    }
    used = {it: sum(residues[group] for group, up in enumerate(old.up) if it in up) * each for it in range(12)}
    nodes = [{"id": it, "name": f"osd.{it}", "kb": 100_000, "kb_used": int(used[it] // 1024)} for it in range(12)]
    write(folder, crush, osd_dump(pools=[pool(1, "photos", pg_num=24)]), df_json=dump, osd__df_json={"nodes": nodes})
    said = runner.said("drain", folder, "host0", status=0)
    equals(
        "bytes",
        said["bytes"],
        round(sum(count * len(set(after) - set(before)) for count, before, after in moved) * each),
    )
    wanted = {
        it: (
            used[it] // 1024 * 1024
            + sum(count * ((it in after) - (it in before)) for count, before, after in moved) * each
        ) / 102_400_000
        for it in range(3, 12)
    }
    for it in said["usage"][3:]:
        wants(abs(it["used_after"] - wanted[it["device"]]) < 0.0001, (it, wanted[it["device"]]))
    groups = collections.Counter(it for up in new.up for it in up)
    wants(
        any(abs(wanted[it] - groups[it] * 1_000_000 / 102_400_000) > 0.001 for it in wanted),
        "no device has more of one kind of groups",
    )


def by_itself(runner, folder):
    """What Ceph doesn't do by itself is said: by flags, of whole racks,
    and that not all groups have as many bytes."""
    crush = crush_dump(hosts=6)
    hosts = crush["buckets"][1:]
    racks = [
        bucket(-10 - it, f"rack{it}", 3, "list", [(host["id"], host["weight"]) for host in hosts[it * 2 : it * 2 + 2]])
        for it in range(3)
    ]
    crush["buckets"] = [bucket(-1, "default", 10, "list", [(it["id"], it["weight"]) for it in racks]), *racks, *hosts]
    osd = osd_dump(18, [pool(1, "photos", pg_num=48)])
    write(folder, crush, {**osd, "flags": "noout,sortbitwise,norebalance"}, df_json=df("photos"))
    equals(
        "a drain",
        [it for it in runner.said("drain", folder, "host0")["warnings"] if "flag" in it],
        ["osd.json has the flag norebalance: until Ceph is without it, it doesn't do all of this"],
    )
    equals(
        "a failure",
        [it for it in runner.said("fail", folder, "host0")["warnings"] if "flag" in it],
        ["osd.json has the flags noout, norebalance: until Ceph is without them, it doesn't do all of this"],
    )
    write(folder, osd={**osd, "flags": "sortbitwise,purged_snapdirs"})
    equals(
        "other flags",
        [
            it
            for words in (("drain", "host0"), ("fail", "host0"))
            for it in runner.said(words[0], folder, words[1])["warnings"]
            if "flag" in it
        ],
        [],
    )
    for words, named in (
        (("rack1",), "rack1"),
        (("--each", "rack"), "rack0, rack1, rack2"),
        (("default",), "default"),
        (("host0",), None),
        (("--each", "host"), None),
    ):
        found = [
            it.rsplit(": ", 1)[1]
            for it in runner.said("fail", folder, *words)["warnings"]
            if "mon_osd_down_out_subtree_limit" in it
        ]
        equals(f"{words}: racks", found, [named] if named else [])
    equals("of no bytes", runner.said("locate", folder, "photos", "cat.jpg", status=0)["notes"], [])
    notes = {it["kind"]: it for it in runner.said("usage", folder, status=0)["notes"]}
    wants("48 groups, which is no power of two" in notes["pg_num"]["text"], notes["pg_num"]["text"])
    write(folder, osd=osd_dump(18))
    equals("a power of two", [it["kind"] for it in runner.said("usage", folder)["notes"]], [])


def old_tunables(runner, folder):
    """A map with tunables that crushcalc doesn't compute: each command says so."""
    crush = crush_dump()
    crush["tunables"]["choose_local_tries"] = 2
    write(folder, crush, osd_dump())
    for words in (("check",), ("drain", "host0"), ("fail", "host0"), ("fail", "--each", "host"), ("usage",)):
        code, out, err = runner.run(words[0], folder, *words[1:])
        equals(f"{words}: status", code, 2)
        wants("choose_local_tries" in out and not err, f"{words}: {out} {err}")


def cases():
    found = (
        uniform,
        weight_first,
        gaps,
        too_full,
        lost_shadows,
        cut_pairs,
        new_devices,
        filled_by_a_map,
        uneven_groups,
        by_itself,
        old_tunables,
    )
    return [(it.__name__, it) for it in found]
