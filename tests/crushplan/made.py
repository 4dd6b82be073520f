"""Dumps of small clusters, made by hand in the form that Ceph writes them in (crushtool --dump and
osdmaptool --dump json of release 16)."""
import copy
import json
import pathlib

ONE = 65536
TUNABLES = {
    "choose_local_tries": 0, "choose_local_fallback_tries": 0, "choose_total_tries": 50, "chooseleaf_descend_once": 1,
    "chooseleaf_vary_r": 1,
    "chooseleaf_stable": 1, "straw_calc_version": 1, "allowed_bucket_algs": 54, "profile": "jewel",
}  # fmt: skip
TYPES = ((0, "osd"), (1, "host"), (3, "rack"), (10, "root"))
STEPS = (
    {"op": "take", "item": -1, "item_name": "default"},
    {"op": "chooseleaf_firstn", "num": 0, "type": "host"},
    {"op": "emit"},
)


def bucket(id_, name, type_, alg, items):
    """A bucket; items are pairs of an id and a weight in 65536ths."""
    return {
        "id": id_, "name": name, "type_id": type_, "type_name": dict(TYPES)[type_],
        "weight": sum(it for _, it in items), "alg": alg, "hash": "rjenkins1",
        "items": [{"id": item, "weight": weight, "pos": place} for place, (item, weight) in enumerate(items)],
    }  # fmt: skip


def rule(id_, name, steps=STEPS, type_=1, sizes=(1, 10)):
    return {
        "rule_id": id_,
        "rule_name": name,
        "ruleset": id_,
        "type": type_,
        "min_size": sizes[0],
        "max_size": sizes[1],
        "steps": list(steps),
    }


def crush_dump(hosts=4, devices=3, alg="list", root="list"):
    """Hosts of devices under the root default, and one rule that takes different hosts."""
    count = hosts * devices
    made = [
        bucket(-2 - host, f"host{host}", 1, alg, [(host * devices + it, ONE) for it in range(devices)])
        for host in range(hosts)
    ]
    return {
        "devices": [{"id": it, "name": f"osd.{it}"} for it in range(count)],
        "types": [{"type_id": number, "name": name} for number, name in TYPES],
        "buckets": [bucket(-1, "default", 10, root, [(it["id"], it["weight"]) for it in made]), *made],
        "rules": [rule(0, "replicated_rule")],
        "tunables": dict(TUNABLES), "choose_args": {},
    }  # fmt: skip


def pool(id_, name, **fields):
    """A pool as the dump has it."""
    pg_num = fields.get("pg_num", 64)
    found = {
        "pool": id_, "pool_name": name, "flags": 1, "flags_names": "hashpspool", "type": 1, "size": 3, "min_size": 2,
        "crush_rule": 0, "object_hash": 2,
        "pg_num": pg_num, "pg_placement_num": pg_num, "pg_num_target": pg_num, "pg_placement_num_target": pg_num,
    }  # fmt: skip
    return {**found, **fields}


def osd_dump(devices=12, pools=None, weights=(), down=()):
    """Devices that are up and in, but for reweights by device in 65536ths and those that are
    down."""
    weights = dict(weights)
    osds = [
        {
            "osd": it,
            "up": int(it not in down),
            "in": int(weights.get(it, ONE) > 0),
            "weight": float(f"{weights.get(it, ONE) / ONE:f}"),
            "primary_affinity": 1.0,
        }
        for it in range(devices)
    ]
    return {
        "epoch": 7, "pools": [pool(1, "photos")] if pools is None else pools, "osds": osds, "pg_upmap": [],
        "pg_upmap_items": [], "pg_temp": [], "primary_temp": [],
        "full_ratio": 0.95, "backfillfull_ratio": 0.9, "nearfull_ratio": 0.85,
    }  # fmt: skip


def write(folder, crush=None, osd=None, **others):
    """Writes dumps into a folder, with other files by their names, and returns it."""
    folder = pathlib.Path(folder)
    folder.mkdir(parents=True, exist_ok=True)
    for name, value in (
        ("crush.json", crush),
        ("osd.json", osd),
        *((name.replace("__", "-").replace("_", "."), it) for name, it in others.items()),
    ):
        if value is not None:
            (folder / name).write_bytes(
                value
                if isinstance(value, bytes)
                else value.encode() if isinstance(value, str) else json.dumps(value).encode()
            )
    return folder


def cluster(folder, **changes):
    """Writes the usual cluster: twelve devices in four hosts, and a pool of 64 groups."""
    crush, osd = crush_dump(), osd_dump()
    for change in (changes.pop("crush_change", None), changes.pop("osd_change", None)):
        if change:
            change(crush if change.__code__.co_varnames[:1] == ("crush",) else osd)
    return write(folder, copy.deepcopy(crush), osd, **changes)


def text_of(crush):
    """A map's text as `crushtool -d` writes it, with three decimals."""
    names = {it["id"]: it["name"] for it in (*crush["devices"], *crush["buckets"])}
    lines = ["# crushcalc: straw2"] * any(it["alg"] == "straw2" for it in crush["buckets"])
    lines += [f"tunable {name} {value}" for name, value in crush["tunables"].items() if name != "profile"]
    lines += [f"device {it['id']} {it['name']}" for it in crush["devices"]] + [
        f"type {number} {name}" for number, name in TYPES
    ]
    for it in sorted(crush["buckets"], key=lambda of: of["type_id"]):
        items = [
            f"\titem {names[of['id']]} weight {of['weight'] / ONE:.3f}"
            + (f" pos {of['pos']}" if it["alg"] == "tree" else "")
            for of in it["items"]
        ]
        lines += [
            f"{it['type_name']} {it['name']} {{",
            f"\tid {it['id']}",
            f"\talg {it['alg']}",
            "\thash 0",
            *items,
            "}",
        ]
    for it in crush["rules"]:
        steps = [f"\tstep {step_text(of)}" for of in it["steps"]]
        lines += [
            f"rule {it['rule_name']} {{",
            f"\tid {it['rule_id']}",
            "\ttype replicated",
            "\tmin_size 1",
            "\tmax_size 10",
            *steps,
            "}",
        ]
    return "\n".join(lines) + "\n"


def step_text(step):
    if step["op"] == "take":
        return f"take {step['item_name']}"
    if step["op"] == "emit":
        return "emit"
    word, mode = step["op"].split("_")
    return f"{word} {mode} {step['num']} type {step['type']}"
