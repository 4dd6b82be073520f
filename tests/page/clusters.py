"""Clusters as their own dumps say them: crush.json and osd.json as Ceph writes these, and the map's
text with exact weights, made beside the page's own writer. CRUSH weights differ by device."""
import json
import random

ONE = 65536
WEIGHTS = (238551, 476774, 459986)
TYPES = ((0, "osd"), (1, "host"), (2, "chassis"), (3, "rack"), (11, "root"))
TUNABLES = {
    "choose_local_tries": 0,
    "choose_local_fallback_tries": 0,
    "choose_total_tries": 50,
    "chooseleaf_descend_once": 1,
    "chooseleaf_vary_r": 1,
    "chooseleaf_stable": 1,
}


def exact(weight):
    """A weight of 65536ths with all its decimals."""
    return f"{weight // ONE}.{weight % ONE * 10**16 // ONE:016d}"


class Cluster:
    """Racks of hosts of devices, all buckets of one kind, with rules by host (0) and by rack
    (1)."""

    def __init__(self, racks, hosts, devices, alg="tree", seed=5):
        chance = random.Random(seed)
        self.alg, self.count = alg, racks * hosts * devices
        self.weights = [chance.choice(WEIGHTS) for _ in range(self.count)]
        self.buckets, self.names = [], {it: f"osd.{it}" for it in range(self.count)}
        tops = []
        for rack in range(racks):
            own = [
                self.bucket(
                    f"host{rack * hosts + it}",
                    1,
                    [
                        ((rack * hosts + it) * devices + at, self.weights[(rack * hosts + it) * devices + at])
                        for at in range(devices)
                    ],
                )
                for it in range(hosts)
            ]
            tops.append(self.bucket(f"rack{rack}", 3, own))
        self.root = self.bucket("default", 11, tops)[0]

    def bucket(self, name, kind, items):
        id_ = -1 - len(self.buckets)
        self.buckets.append((id_, name, kind, items))
        self.names[id_] = name
        return id_, sum(weight for _, weight in items)

    def crush(self):
        """The JSON of 'ceph osd crush dump -f json'."""
        kinds = dict(TYPES)
        rule = lambda id_, name, kind: {
            "rule_id": id_,
            "rule_name": name,
            "ruleset": id_,
            "type": 1,
            "min_size": 1,
            "max_size": 10,
            "steps": [
                {"op": "take", "item": self.root, "item_name": "default"},
                {"op": "chooseleaf_firstn", "num": 0, "type": kind},
                {"op": "emit"},
            ],
        }
        return json.dumps(
            {
                "devices": [{"id": it, "name": f"osd.{it}", "class": "hdd"} for it in range(self.count)],
                "types": [{"type_id": number, "name": name} for number, name in TYPES],
                "buckets": [
                    {
                        "id": id_,
                        "name": name,
                        "type_id": kind,
                        "type_name": kinds[kind],
                        "weight": sum(weight for _, weight in items),
                        "alg": self.alg,
                        "hash": "rjenkins1",
                        "items": [
                            {"id": item, "weight": weight, "pos": place} for place, (item, weight) in enumerate(items)
                        ],
                    }
                    for id_, name, kind, items in self.buckets
                ],
                "rules": [rule(0, "by_host", "host"), rule(1, "by_rack", "rack")],
                "tunables": TUNABLES,
                "choose_args": {},
            }
        )

    def osd(self, pools, states=(), upmaps=(), **more):
        """The JSON of 'ceph osd dump -f json': pools are (name, size, min_size, rule, pg_num),
        states by device (a reweight as Ceph writes it, and whether it is up)."""
        states = dict(states)
        return json.dumps(
            {
                "epoch": 9,
                "fsid": "0",
                "full_ratio": 0.95,
                "nearfull_ratio": 0.85,
                "pools": [
                    {
                        "pool": number,
                        "pool_name": name,
                        "type": 1,
                        "size": size,
                        "min_size": least,
                        "crush_rule": rule,
                        "object_hash": 2,
                        "pg_num": groups,
                        "pg_placement_num": groups,
                        "pg_num_target": groups,
                        "pg_placement_num_target": groups,
                        "flags": 1,
                        "flags_names": "hashpspool",
                    }
                    for number, (name, size, least, rule, groups) in enumerate(pools, 1)
                ],
                "osds": [
                    {
                        "osd": it,
                        "up": int(states.get(it, (1, True))[1]),
                        "in": 1,
                        "weight": states.get(it, (1, True))[0],
                        "primary_affinity": 1,
                    }
                    for it in range(self.count)
                ],
                "pg_upmap": [],
                "pg_upmap_items": [
                    {"pgid": pgid, "mappings": [{"from": old, "to": new} for old, new in pairs]}
                    for pgid, pairs in upmaps
                ],
                "pg_temp": [],
                "primary_temp": [],
                **more,
            }
        )

    def text(self):
        """The map's text, with exact weights."""
        kinds = dict(TYPES)
        lines = [
            *(f"tunable {name} {value}" for name, value in TUNABLES.items()),
            *(f"device {it} osd.{it}" for it in range(self.count)),
            *(f"type {number} {name}" for number, name in TYPES),
        ]
        for id_, name, kind, items in self.buckets:
            lines += [
                f"{kinds[kind]} {name} {{",
                f" id {id_}",
                f" alg {self.alg}",
                *(f" item {self.names[item]} weight {exact(weight)}" for item, weight in items),
                "}",
            ]
        for id_, name, kind in ((0, "by_host", "host"), (1, "by_rack", "rack")):
            lines.append(
                f"rule {name} {{ id {id_} type replicated min_size 1 max_size 10 step take default step chooseleaf"
                f" firstn 0 type {kind} step emit }}"
            )
        return "\n".join([*lines, ""])
