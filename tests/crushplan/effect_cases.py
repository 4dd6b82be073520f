"""What single commands do: the lines of commands/*.lines, which were typed into a real monitor of
release 16, do here what they did there, are refused by the same errors, and say what isn't known.
commands/*.json has the monitor's own dumps after each line (tests/cluster/commands makes it)."""
import argparse
import json
import pathlib
import shlex

from crushplan_parts import commands, commands_osd, maps
from crushplan_parts.cluster import read_cluster
from crushplan_parts.sets import as_float
from crushplan_parts.wrapper import Refused, is_placeholder
from dumped import PARTS, changed, plain
from made import write
from running import equals, wants

KEPT = pathlib.Path(__file__).resolve().parent / "commands"
TYPES = {"replicated": 1, "erasure": 3}


def told(own):
    """The maps in the parts of dumped.py."""
    crush = own.crush
    return {
        "devices": {
            str(id_): [name, crush.classes.get(id_)]
            for id_, name in crush.devices.items()
            if not is_placeholder(id_, name) or id_ in crush.classes
        },
        "buckets": {
            str(it.id): [it.name, it.type, it.alg, [[item or 0, weight] for item, weight in it.items]]
            for it in crush.buckets.values()
        },
        "rules": {str(it.id): [it.name, TYPES[it.kind], [step(of) for of in it.steps]] for it in crush.rules.values()},
        "tunables": {**crush.tunables, "allowed_bucket_algs": crush.algs},
        "sets": {
            str(key): {
                str(id_): [[as_float(weight) for weight in row] for row in rows] for id_, rows in it.rows.items()
            }
            for key, it in crush.weight_sets.items()
        },
        "osds": {str(id_): [it.up, it.reweight, it.affinity, it.old, it.destroyed] for id_, it in own.osds.items()},
        "pools": {
            str(it.id): [it.name, it.size, it.min_size, it.rule, it.pg_num, it.pgp_num] for it in own.pools.values()
        },
        "pairs": {
            it.group_name(group): [list(pair) for pair in pairs]
            for it in own.pools.values()
            for group, pairs in own.pairs.get(it.id, {}).items()
        },
        "lists": {
            it.group_name(group): list(ids)
            for it in own.pools.values()
            for group, ids in own.lists.get(it.id, {}).items()
        },
        "flags": {"": sorted(own.flags)},
    }


def step(it):
    if it[0] in ("choose", "chooseleaf"):
        return [f"{it[0]}_{it[1]}", *it[2:]]
    return list(it[:2])


def start_of(kept, folder):
    """The maps of the dumps at the start of a file."""
    write(folder, kept["crush"], kept["osd"])
    options = argparse.Namespace(allow_unplaced=True, size=None, pg_num=None, min_size=None)
    return maps.maps_of(read_cluster(folder, options))


def given(line, own, there):
    """The maps after a line that this program has no command for: as the monitor has them."""
    wants("pool create" in line, f"no command for {line!r}")
    pools, fields = there["pools"], ("name", "size", "min_size", "rule", "pg_num", "pgp_num")
    for id_, values in pools.items():
        if int(id_) not in own.pools:
            from crushplan_parts.cluster import Pool

            kind = "erasure" if "erasure" in line else "replicated"
            own.pools[int(id_)] = Pool(
                id=int(id_),
                kind=kind,
                hashpspool=True,
                profile="default" if kind == "erasure" else "",
                **dict(zip(fields, values)),
            )
            if kind == "erasure":
                rule = there["rules"][str(values[3])]
                take = next(it for it in rule[2] if it[0] == "take")
                from crushplan_parts.crush_map import Rule

                steps = [
                    (
                        tuple(it[0].split("_")) + tuple(it[1:])
                        if it[0].startswith("choose")
                        else (*it, None) if it is take else tuple(it)
                    )
                    for it in rule[2]
                ]
                own.crush.rules[values[3]] = Rule(values[3], rule[0], "erasure", steps, (3, 4))
    return own


def case(name):
    kept = json.loads((KEPT / f"{name}.json").read_text())

    def one(runner, folder):
        own, there, count = start_of(kept, folder), plain(kept["crush"], kept["osd"]), 0
        equals("the start", told(own), there)
        for number, it in enumerate(kept["lines"], 1):
            there = changed(there, it["changes"])
            where = f"{name} {number}: {it['line']} ({it['said'][:80]})"
            if " pool create " in it["line"]:
                own = given(it["line"], own, there)
                continue
            try:
                words = commands.read_words(shlex.split(it["line"]), "here")
                own.folders = (KEPT,)
                own, _ = commands.after(own, words)
                code = ""
            except Refused as refused:
                own, code = refused.maps, refused.code
            if it["code"] == "EAGAIN":
                # the manager asks for another time while groups of this small cluster aren't clean
                equals(f"{where}: error", code, "EPERM")
            else:
                equals(f"{where}: error", code, it["code"])
            if told(own)["osds"] != there["osds"]:
                # an OSD whose process runs is up again by itself
                own = commands_osd.await_clean(own)[0]
            here = told(own)
            for part in PARTS:
                odd = {
                    key: (here[part].get(key), there[part].get(key))
                    for key in {*here[part], *there[part]}
                    if here[part].get(key) != there[part].get(key)
                }
                wants(not odd, f"{where}: {part}: here and there {odd}")
            count += 1
        wants(count > 10, f"only {count} lines")

    return one


def cases():
    for path in sorted(KEPT.glob("*.json")):
        if path.stem != "upmaps":  # what the monitor removes is in plan_cases.py
            yield path.stem, case(path.stem)
