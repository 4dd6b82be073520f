"""What two dumps of Ceph say, in parts that are compared one by one: of the CRUSH map its devices,
buckets, rules, tunables and weight sets, and OSDs, pools, upmap items and flags."""
PARTS = ("devices", "buckets", "rules", "tunables", "sets", "osds", "pools", "pairs", "lists", "flags")
TUNABLES = (
    "choose_local_tries",
    "choose_local_fallback_tries",
    "choose_total_tries",
    "chooseleaf_descend_once",
    "chooseleaf_vary_r",
    "chooseleaf_stable",
    "allowed_bucket_algs",
)
NUMBERS = {12: "set_chooseleaf_vary_r", 13: "set_chooseleaf_stable"}


def plain(crush, osd):
    """Both dumps as dictionaries of dictionaries: by part, and by id or name as a text."""
    old = {it["osd"]: it.get("old_weight", 0) for it in osd.get("osd_xinfo", ())}
    return {
        "devices": {
            str(it["id"]): [it["name"], it.get("class")]
            for it in crush["devices"]
            if it["name"] != f"device{it['id']}" or "class" in it
        },
        "buckets": {
            str(it["id"]): [it["name"], it["type_id"], it["alg"], [[of["id"], of["weight"]] for of in it["items"]]]
            for it in crush["buckets"]
        },
        "rules": {
            str(it["rule_id"]): [it["rule_name"], it["type"], [step(of) for of in it["steps"]]] for it in crush["rules"]
        },
        "tunables": {name: crush["tunables"][name] for name in TUNABLES},
        "sets": {
            key: {
                str(it["bucket_id"]): [[round(of * 65536) for of in row] for row in it["weight_set"]]
                for it in own
                if "weight_set" in it
            }
            for key, own in crush["choose_args"].items()
        },
        "osds": {
            str(it["osd"]): [
                bool(it["up"]),
                round(it["weight"] * 65536),
                round(it["primary_affinity"] * 65536),
                old.get(it["osd"], 0),
                "destroyed" in it.get("state", ()),
            ]
            for it in osd["osds"]
        },
        "pools": {
            str(it["pool"]): [
                it["pool_name"],
                it["size"],
                it["min_size"],
                it["crush_rule"],
                it["pg_num"],
                it.get("pg_placement_num_target", it["pg_placement_num"]),
            ]
            for it in osd["pools"]
        },
        "pairs": {it["pgid"]: [[of["from"], of["to"]] for of in it["mappings"]] for it in osd["pg_upmap_items"]},
        "lists": {it["pgid"]: it["osds"] for it in osd["pg_upmap"]},
        "flags": {"": sorted(set(filter(None, osd["flags"].split(","))))},
    }


def step(it):
    """A step as its words and numbers."""
    if "opcode" in it:
        return [NUMBERS.get(it["opcode"], it["opcode"]), it["arg1"]]
    return [it["op"], *[it[key] for key in ("item", "num", "type") if key in it]]


def changes(before, after):
    """What has changed, by part; None stands for what is gone."""
    found = {}
    for part in PARTS:
        old, new = before[part], after[part]
        own = {key: new.get(key) for key in {*old, *new} if old.get(key) != new.get(key)}
        if own:
            found[part] = own
    return found


def changed(before, own):
    """The plain dumps once changes are made."""
    found = {part: dict(before[part]) for part in PARTS}
    for part, values in own.items():
        for key, value in values.items():
            found[part].pop(key, None)
            if value is not None:
                found[part][key] = value
    return found
