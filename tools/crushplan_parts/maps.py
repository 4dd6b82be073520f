"""What Ceph's monitors hold and commands change: the CRUSH map, OSDs, pools, upmap items, flags."""
import copy

from .cluster import OSD_DUMP, State
from .crush_map import ONE
from .fields import opened
from .record import Record
from .wrapper import copied

CLEAN_FLAGS = {"pauserd", "pausewr"}  # which 'ceph osd set pause' means


class Osd(Record):
    """An OSD that exists. Weights are reweights in 65536ths; `old` is the one that 'osd in' gives
    it back, or 0. `runs` is whether its process runs: one that is only marked down comes back.
    `went_out` is whether it did by itself, so that it comes in by itself too (autoout)."""

    def __init__(self, reweight=ONE, up=True, old=0, affinity=ONE, runs=True):
        self.reweight, self.up, self.old, self.affinity, self.runs = reweight, up, old, affinity, runs
        self.destroyed, self.went_out = False, False


class Maps:
    """All that commands act on. `crush` is a map that may be changed; pairs, lists and primaries
    are by pool and group. `profiles` are those of erasure codes, by name; `gone` reweights of OSDs
    that don't exist any more; `folders` where files of the runbook may be; `oldest_client` what the
    monitors let in."""

    def __init__(self, crush, osds, pools, pairs, lists, primaries, flags):
        self.crush, self.osds, self.pools, self.flags = crush, osds, pools, flags
        self.pairs, self.lists, self.primaries = pairs, lists, primaries
        self.profiles, self.gone, self.folders, self.release, self.oldest_client = {}, {}, (), None, "luminous"

    def copied(self):
        """Returns the same, to be changed."""
        found = copy.copy(self)
        found.crush = copied(self.crush)
        found.osds = {id_: it.replaced() for id_, it in self.osds.items()}
        found.pools = {id_: it.replaced() for id_, it in self.pools.items()}
        for name in ("pairs", "lists", "primaries"):
            setattr(found, name, {pool: dict(own) for pool, own in getattr(self, name).items()})
        found.flags, found.gone = set(self.flags), dict(self.gone)
        return found

    def group_names(self):
        """Returns the groups that have pairs, a list or a set primary, by pool."""
        found = {}
        for own in (self.pairs, self.lists, self.primaries):
            for pool, groups in own.items():
                if groups:
                    found.setdefault(pool, set()).update(groups)
        return found

    def pool_named(self, name):
        """Returns the pool of a name, or None."""
        return next((it for it in self.pools.values() if it.name == name), None)

    def states(self):
        """Returns the state of each device for CRUSH. What doesn't exist any more keeps its weight,
        and is down."""
        found = {id_: State(it.reweight, it.up) for id_, it in self.osds.items()}
        placed = {item for it in self.crush.buckets.values() for item, _ in it.items if item is not None and item >= 0}
        found.update({id_: State(self.gone.get(id_, 0), False) for id_ in placed - found.keys()})
        return found


def maps_of(cluster):
    """Returns what the monitors of a cluster hold, by its files."""
    found = Maps(
        cluster.map,
        {id_: Osd(it.reweight, it.up, 0, cluster.affinity.get(id_, ONE), it.up) for id_, it in cluster.states.items()},
        cluster.pools,
        cluster.pairs,
        cluster.lists,
        cluster.primaries,
        set(it for it in cluster.flags if it),
    ).copied()
    if cluster.described:
        found.osds = {id_: Osd() for id_ in cluster.map.devices}
    else:
        read_more(found, opened(cluster.folder / OSD_DUMP, OSD_DUMP))
    return found


def read_more(maps, dump):
    """Reads what only commands need: weights that 'osd in' gives back, states, profiles."""
    known = {it.get("osd", int): [of.of_kind(str) for of in it.each("state", ())] for it in dump.each("osds")}
    maps.osds = {id_: it for id_, it in maps.osds.items() if id_ in known}
    for id_, words in known.items():
        maps.osds[id_].destroyed, maps.osds[id_].went_out = "destroyed" in words, "autoout" in words
    for it in dump.each("osd_xinfo", ()):
        if it.get("osd", int) in maps.osds:
            maps.osds[it.get("osd", int)].old = it.size("old_weight", int, 0)
    if dump.has("erasure_code_profiles"):
        own = dump.at("erasure_code_profiles")
        maps.profiles = {name: dict(own.at(name).of_kind(dict)) for name in own.of_kind(dict)}
    maps.oldest_client = dump.get("require_min_compat_client", str, maps.oldest_client)
    maps.release = dump.get("require_osd_release", str, None) if dump.has("require_osd_release") else None


def cluster_of(maps, cluster):
    """Returns a cluster as its files would have it once the monitors hold this."""
    affinity = {id_: it.affinity for id_, it in maps.osds.items() if it.affinity != ONE}
    crush = copy.copy(maps.crush)
    crush.kept = {}
    return cluster.replaced(
        map=crush,
        pools=maps.pools,
        states=maps.states(),
        pairs=maps.pairs,
        lists=maps.lists,
        primaries=maps.primaries,
        affinity=affinity,
        temporary={},
        warnings=[],
        flags=tuple(sorted(maps.flags)),
        groups=None,
    )
