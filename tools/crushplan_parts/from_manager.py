"""A cluster's dumps from its own manager, in the forms in which `crushplan fetch` has them from the
commands of `ceph`, all of one map."""
import functools
import hashlib
import json

SLICE = 1_000  # groups that are written at once: in between other modules of the manager go on
# what of the map places groups, or says what stops and what is full
POOL_FIELDS = (
    "pool", "pool_name", "type", "size", "min_size", "crush_rule", "pg_num", "pg_placement_num", "pg_num_target",
    "pg_placement_num_target", "flags_names", "peering_crush_bucket_count",
)  # fmt: skip
OSD_FIELDS = ("osd", "up", "weight", "primary_affinity")
MAP_FIELDS = (
    "pg_upmap", "pg_upmap_items", "pg_upmap_primaries", "full_ratio", "backfillfull_ratio", "nearfull_ratio",
    "stretch_mode",
)  # fmt: skip


class Dumps:
    """What a module of the manager knows of the cluster at one time. The map, which is large, is
    dumped once it is asked for."""

    def __init__(self, module):
        self.map, self.df = module.get_osdmap(), module.get("df")
        self.stats = module.get("osd_stats")["osd_stats"]

    @functools.cached_property
    def osd(self):
        return self.map.dump()

    @functools.cached_property
    def crush(self):
        return self.map.get_crush().dump()

    def write(self, folder):
        """Writes the files that crushplan reads into a folder."""
        for name, dump in (("osd", self.osd), ("crush", self.crush), ("df", self.df), ("osd-df", self.rooms())):
            (folder / f"{name}.json").write_text(json.dumps(dump))
        with (folder / "pgs.json").open("w") as file:
            self.write_groups(file)

    def rooms(self):
        """Returns how full devices are, as `ceph osd df` says it: of those that are out nothing."""
        out = {it["osd"] for it in self.osd["osds"] if not it["weight"]}
        rows = ((it["osd"], 0 if it["osd"] in out else 1, it) for it in self.stats)
        nodes = [{"id": id_, "kb": it["kb"] * is_in, "kb_used": it["kb_used"] * is_in} for id_, is_in, it in rows]
        return {"nodes": nodes}

    def write_groups(self, file):
        """Writes where each group lies by Ceph's own code in the manager and this map. What OSDs
        report of their groups is of an older map while these peer, and takes much memory."""
        part, is_first = [], True
        file.write("[")
        for row in self.groups():
            part.append(row)
            if len(part) == SLICE:
                file.write(("" if is_first else ",") + json.dumps(part)[1:-1])
                part, is_first = [], False
        file.write(("" if is_first or not part else ",") + json.dumps(part)[1:])

    def groups(self):
        for pool in self.osd["pools"]:
            for group in range(pool["pg_num"]):
                said = self.map.pg_to_up_acting_osds(pool["pool"], group)
                yield {"pgid": f"{pool['pool']}.{group:x}", "state": "mapped", **said}

    def used(self):
        """Returns how full each device is, in whole percents."""
        return [[it["osd"], it["kb"] and it["kb_used"] * 100 // it["kb"]] for it in self.stats]

    def first_mark(self):
        """Returns what is the same while nothing at all changed: quicker than mark()."""
        return self.map.get_epoch(), self.used()

    def mark(self):
        """Returns a word that is another one once something else places groups, says what stops, or
        a device is fuller or less full by a percent."""
        pools = [[it.get(name) for name in POOL_FIELDS] for it in self.osd["pools"]]
        osds = [[it.get(name) for name in OSD_FIELDS] for it in self.osd["osds"]]
        whole = [self.osd.get(name) for name in MAP_FIELDS]
        text = json.dumps([pools, osds, whole, self.used(), self.crush], sort_keys=True)
        return hashlib.sha256(text.encode()).hexdigest()
