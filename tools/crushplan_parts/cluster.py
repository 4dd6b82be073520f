"""A cluster, from the folder of its dumps: map, pools, states of devices, upmap items, bytes."""
import pathlib
import re
from decimal import Decimal

from .crush_map import KINDS, MOST_DEVICES, ONE, mark_holes
from .faults import Fault, some
from .fields import opened
from .read_dump import read_dump
from .read_pgs import NONE, read_pgs
from .record import Record

MAP_DUMP, MAP_TEXT, OSD_DUMP, DF, OSD_DF, PGS = (
    "crush.json",
    "map.txt",
    "osd.json",
    "df.json",
    "osd-df.json",
    "pgs.json",
)
HASHPSPOOL, RJENKINS = 1, 2
GROUP = re.compile(r"(\d{1,10})\.([0-9a-f]{1,8})")


class Pool(Record):
    """A pool. `bytes` is what it takes on all its devices, or None where that isn't known;
    `split_to` the pg_num and pgp_num that it is on its way to, or None; `stretched` whether its I/O
    also stops where a site has no copy (stretch mode); `tiers` the pools that objects of it may lie
    in instead, or that it is the cache of; `profile` that of its erasure code."""

    def __init__(
        self, id, name, kind, size, min_size, rule, pg_num, pgp_num, hashpspool,
        object_hash=RJENKINS, split_to=None, bytes=None, stretched=False, tiers=(), profile="",
    ):  # fmt: skip
        self.id, self.name, self.kind, self.size, self.min_size, self.rule = id, name, kind, size, min_size, rule
        self.pg_num, self.pgp_num, self.hashpspool, self.object_hash = pg_num, pgp_num, hashpspool, object_hash
        self.split_to, self.bytes, self.stretched, self.tiers, self.profile = (
            split_to,
            bytes,
            stretched,
            tiers,
            profile,
        )

    def group_name(self, group):
        """Returns a group's id as Ceph writes it."""
        return f"{self.id}.{group:x}"

    def parts(self):
        """Returns how many of the pool's groups one counts for by its objects, as what is above and
        below a line, and the groups that count for twice as many: there are some where pg_num is no
        power of two, since Ceph's stable_mod gives them twice the objects."""
        whole = 1 << (self.pg_num - 1).bit_length()
        if whole == self.pg_num:
            return (1, 1), range(0)
        return (self.pg_num, whole), range(self.pg_num - whole // 2, whole // 2)

    def place_of(self, group):
        """Returns the place by which groups share a seed (Ceph's stable_mod by pgp_num)."""
        mask = (1 << (self.pgp_num - 1).bit_length()) - 1
        return group & mask if group & mask < self.pgp_num else group & (mask >> 1)


class State(Record):
    """The state of a device: its reweight in 65536ths, and whether it is up."""

    def __init__(self, reweight=ONE, up=True):
        self.reweight, self.up = reweight, up


class Room(Record):
    """What a device holds and can hold, in bytes, and how many groups it has, or None."""

    def __init__(self, used, size, groups=None):
        self.used, self.size, self.groups = used, size, groups

    def used_after(self, gained=0):
        """Returns which part of it is used once so many bytes are added, or None where its size
        isn't known."""
        import fractions  # takes a while to read, and not all commands ask it

        return fractions.Fraction(max(self.used + gained, 0)) / self.size if self.size > 0 else None


class Cluster(Record):
    """All that the files of a folder say.

    Of each pool and each group: `pairs` are its upmap items, `lists` its whole upmap list, None for
    a place without a device, `primaries` the primary that was set (pg_upmap_primaries). `temporary`
    are pg_temp and primary_temp: of each, of each pool, of each group, its devices. `affinity` are
    primary affinities in 65536ths, by device, where they aren't 1. `described` is whether the pools
    come from the command line, `flags` are those of the whole cluster, as noout, and `own_flags` of
    single devices, buckets and classes, by name. `groups` is where the cluster itself says that
    groups lie, or None; `releases` are the least ones that it asks for, by field."""

    def __init__(self, folder, map_, states):
        self.folder, self.map, self.states, self.pools, self.rooms = folder, map_, states, {}, {}
        self.pairs, self.lists, self.temporary, self.primaries, self.affinity = {}, {}, {}, {}, {}
        self.ratios, self.releases, self.flags, self.own_flags = {}, {}, (), {}
        self.groups, self.described, self.warnings = None, False, []

    def is_past(self, name, used):
        """Returns whether such a part of a device's room is more than a ratio of the cluster."""
        import fractions

        return used is not None and name in self.ratios and used > fractions.Fraction(self.ratios[name])


def fixed(value):
    """Returns the 65536ths of a decimal number as Ceph writes a reweight: six digits after the
    point, which are enough to find each of the 65,537 values again."""
    return int((value * ONE).to_integral_value())


def read_map(folder, with_osd_0):
    """Reads the map of a folder: crush.json where it is there, else map.txt."""
    dump, text = folder / MAP_DUMP, folder / MAP_TEXT
    if dump.exists():
        map_ = read_dump(dump, MAP_DUMP)
    elif text.exists():
        from .read_text import read_text  # long, and seldom needed

        map_ = read_text(text_of(text), MAP_TEXT)
    else:
        raise Fault(
            f"{folder}: it has neither crush.json ('ceph osd crush dump -f json') nor map.txt ('crushtool -d');"
            f" 'crushplan fetch {folder}' writes them where ceph is there"
        )
    cycle = [map_.buckets[it].name for it in map_.cycle()]
    if cycle:
        raise Fault(f"{map_.file}: the bucket {cycle[0]} is below itself ({' has '.join([*cycle, cycle[0]])})")
    if with_osd_0 is None:
        with_osd_0 = 0 in map_.devices and map_.devices[0] != "device0"
    mark_holes(map_.buckets, with_osd_0)
    return map_


def text_of(path):
    try:
        return path.read_bytes().decode("utf-8-sig", errors="replace")
    except OSError as error:
        raise Fault(f"{path}: {error.strerror or error}") from None


def read_cluster(folder, asked):
    """Reads the files of a folder. `asked` has the options that describe pools where there is no
    dump of them, and `allow_unplaced`."""
    folder = pathlib.Path(folder)
    if not folder.is_dir():
        raise Fault(
            f"{folder}: there is no such folder"
            if not folder.exists()
            else f"{folder}: it isn't a folder: crushplan takes the folder of a cluster's dumps"
        )
    path = folder / OSD_DUMP
    dump = opened(path, OSD_DUMP) if path.exists() else None
    states = {} if dump is None else states_of(dump)
    map_ = read_map(folder, None if dump is None else 0 in states)
    cluster = Cluster(folder, map_, states)
    if map_.rounded:
        cluster.warnings.append(
            f"{map_.file} has weights that 'crushtool -d' rounded to three decimals; {MAP_DUMP} ('ceph osd crush dump"
            " -f json') has exact ones"
        )
    if dump is None:
        describe_pools(cluster, asked)
    else:
        read_osd_dump(cluster, dump, asked)
    read_bytes(cluster)
    cluster.groups = read_pgs(folder / PGS)
    return cluster


def states_of(dump):
    if not dump.has("osds") or not dump.has("pools"):
        raise Fault(f"{OSD_DUMP} has no fields 'osds' and 'pools': it isn't what 'ceph osd dump -f json' writes")
    found = {}
    for it in dump.each("osds"):
        id_, weight = it.get("osd", int), fixed(it.get("weight", Decimal))
        if not 0 <= id_ < MOST_DEVICES:
            raise Fault(f"{it.where}: osd is {id_}, and ids are 0 to {MOST_DEVICES - 1}")
        if weight < 0:
            raise Fault(f"{it.where}: weight is below 0")
        found[id_] = State(min(weight, ONE), it.flag("up", True))
    return found


def read_osd_dump(cluster, dump, asked):
    for it in dump.each("pools"):
        pool = pool_of(it)
        cluster.pools[pool.id] = pool
    in_buckets = {
        item for bucket in cluster.map.buckets.values() for item, _ in bucket.items if item is not None and item >= 0
    }
    lacking = sorted(
        id_ for id_, it in cluster.states.items() if id_ not in cluster.map.devices and id_ not in in_buckets
    )
    working = [id_ for id_ in lacking if cluster.states[id_].up and cluster.states[id_].reweight]
    if working and not asked.allow_unplaced:
        raise Fault(
            f"{OSD_DUMP} has devices that {cluster.map.file} lacks ({some([f'osd.{it}' for it in working])}): is it of"
            " this cluster, and of the same time? Where they aren't placed yet, say --allow-unplaced."
        )
    if lacking:
        cluster.warnings.append(
            f"{OSD_DUMP} has devices that {cluster.map.file} lacks; they hold nothing:"
            f" {some([f'osd.{it}' for it in lacking])}"
        )
    missing = sorted(in_buckets - cluster.states.keys())
    if missing:
        cluster.warnings.append(
            f"{cluster.map.file} has devices that {OSD_DUMP} lacks; they count as out and down:"
            f" {some([f'osd.{it}' for it in missing])}"
        )
    for id_ in missing:
        cluster.states[id_] = State(0, False)
    read_upmaps(cluster, dump)
    read_flags(cluster, dump)
    for name in ("pg_temp", "primary_temp"):
        cluster.temporary[name] = groups_named(dump, name)
    for it in dump.each("osds"):
        affinity = it.get("primary_affinity", Decimal, None)
        if affinity is not None and fixed(affinity) != ONE:
            cluster.affinity[it.get("osd", int)] = fixed(affinity)
    for name in ("require_min_compat_client", "require_osd_release"):
        if dump.has(name):
            cluster.releases[name] = dump.get(name, str)
    for name in ("full_ratio", "backfillfull_ratio", "nearfull_ratio"):
        if dump.has(name):
            cluster.ratios[name] = dump.size(name, Decimal)


def read_flags(cluster, dump):
    """Reads the flags of the cluster, and those of single devices, buckets and classes."""
    cluster.flags = tuple(dump.get("flags", str, "").split(","))
    for it in dump.each("osds"):
        own = it.texts("state")
        if "noout" in own:
            cluster.own_flags[f"osd.{it.get('osd', int)}"] = list(own)
    for name, what in (("crush_node_flags", ""), ("device_class_flags", "the class ")):
        inner = dump.at(name) if dump.has(name) else None
        for key in inner.of_kind(dict) if inner else ():
            cluster.own_flags[what + key] = [it.of_kind(str) for it in inner.each(key)]
    own = dump.at("stretch_mode") if dump.has("stretch_mode") else None
    if own and own.flag("stretch_mode_enabled", False):
        for it in cluster.pools.values():
            it.stretched = it.kind == "replicated"


def pool_of(node):
    kind, name = node.get("type", int), node.get("pool_name", str)
    pg_num, pgp_num = node.get("pg_num", int), node.get("pg_placement_num", int)
    target = (node.get("pg_num_target", int, pg_num), node.get("pg_placement_num_target", int, pgp_num))
    flags = (
        node.get("flags_names", str, "").split(",")
        if node.has("flags_names")
        else ["hashpspool"] * (node.get("flags", int, HASHPSPOOL) & HASHPSPOOL)
    )
    size = node.get("size", int)
    return Pool(
        node.get("pool", int), name, KINDS.get(kind, f"of type {kind}"), size, node.size("min_size", int, 1),
        node.get("crush_rule", int), pg_num, pgp_num,
        "hashpspool" in flags, node.get("object_hash", int, RJENKINS), target if target != (pg_num, pgp_num) else None,
        stretched=node.get("peering_crush_bucket_count", int, 0) > 0, tiers=tiers_of(node),
        profile=node.get("erasure_code_profile", str, ""),
    )  # fmt: skip


def tiers_of(node):
    """Returns the pools that a pool is a tier of, or that are its tiers."""
    found = [node.get(name, int, -1) for name in ("tier_of", "read_tier", "write_tier")]
    return tuple(sorted({it for it in found if it >= 0} | {it.of_kind(int) for it in node.each("tiers", ())}))


def group_of(text, where):
    found = GROUP.fullmatch(text)
    if not found:
        raise Fault(f"{where} is {text!r}, which isn't the id of a group as 1.1c")
    return int(found[1]), int(found[2], 16)


def read_upmaps(cluster, dump):
    for it in dump.each("pg_upmap_items", ()):
        pool, group = group_of(it.get("pgid", str), f"{it.where}: pgid")
        pairs = [(pair.get("from", int), pair.get("to", int)) for pair in it.each("mappings")]
        cluster.pairs.setdefault(pool, {})[group] = pairs
    for it in dump.each("pg_upmap", ()):
        pool, group = group_of(it.get("pgid", str), f"{it.where}: pgid")
        cluster.lists.setdefault(pool, {})[group] = [
            None if of.of_kind(int) == NONE else of.value for of in it.each("osds")
        ]
    for it in dump.each("pg_upmap_primaries", ()):
        pool, group = group_of(it.get("pgid", str), f"{it.where}: pgid")
        cluster.primaries.setdefault(pool, {})[group] = it.get("primary_osd", int)


def groups_named(dump, name):
    """Returns the groups that a list of the dump names, by pool, each with its devices."""
    found = {}
    for it in dump.each(name, ()):
        pool, group = group_of(it.get("pgid", str), f"{it.where}: pgid")
        found.setdefault(pool, {})[group] = devices_in(it) if it.has("osds") else {it.get("osd", int)}
    return found


def devices_in(node):
    """Returns the devices of a list of the dump, without places that have none."""
    return {device.of_kind(int) for device in node.each("osds")} - {NONE}


def describe_pools(cluster, asked):
    """Makes a pool of each rule, as the command line describes it."""
    cluster.described = True
    for rule in cluster.map.rules.values():
        size, pg_num = asked.size or 3, asked.pg_num or 128
        cluster.pools[rule.id + 1] = Pool(
            rule.id + 1, rule.name, rule.kind, size, asked.min_size or size - size // 2, rule.id, pg_num, pg_num, True
        )
    cluster.warnings.append(
        f"there is no {OSD_DUMP}: each rule is taken for a pool of size {asked.size or 3} with"
        f" {asked.pg_num or 128} groups (--size, --pg-num, --min-size), and each device for in and up"
    )


def counts_by_pool(dump):
    """Returns whether every OSD counts by pools what it holds. FileStore and MemStore don't."""
    if not dump.has("stats"):
        return True
    stats = dump.at("stats")
    return not stats.has("num_per_pool_osds") or stats.get("num_per_pool_osds", int) == stats.get("num_osds", int)


def bytes_of(pool, stats, by_pool):
    """Returns what a pool takes on all its devices, or None where that isn't known."""
    used = stats.size("bytes_used")
    if stats.has("stored") and by_pool:
        return used
    # otherwise, and before release 14, bytes_used is without copies
    return stats.get("stored_raw", int, used * pool.size if pool.kind == "replicated" else None)


def read_bytes(cluster):
    """Reads what pools take and devices hold, where the files are there."""
    if (cluster.folder / DF).exists():
        dump = opened(cluster.folder / DF, DF)
        for it in dump.each("pools"):
            pool = cluster.pools.get(it.get("id", int))
            if pool:
                name = it.get("name", str, pool.name)
                if name != pool.name and not cluster.described:
                    raise Fault(
                        f"{DF} has pool {pool.id} as {name!r}, and {OSD_DUMP} as {pool.name!r}: are they of one"
                        " cluster, and of the same time?"
                    )
                pool.bytes = bytes_of(pool, it.at("stats"), counts_by_pool(dump))
    if (cluster.folder / OSD_DF).exists():
        read_rooms(cluster, opened(cluster.folder / OSD_DF, OSD_DF))


def read_rooms(cluster, dump):
    """Reads what devices hold and can hold; a number that is none (nan) is left out with a note."""
    odd = []
    for it in dump.each("nodes"):
        id_ = it.get("id", int)
        if id_ < 0:
            continue
        # of the numbers of a dump only one that is none is a float
        if float in map(type, it.value.values()) and any(of != of for of in it.value.values()):
            odd.append(f"osd.{id_}")
            continue
        cluster.rooms[id_] = Room(
            it.size("kb_used") * 1024,
            it.size("kb") * 1024,
            it.get("pgs", int) if isinstance(it.value.get("pgs"), int) else None,
        )
    if odd:
        cluster.warnings.append(
            f"{OSD_DF} has no number of how full {some(odd)} {'is' if len(odd) == 1 else 'are'} (nan)"
        )
