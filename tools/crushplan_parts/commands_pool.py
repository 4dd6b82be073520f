"""Commands on pools and on single groups (OSDMonitor::prepare_command_pool_set, pg-upmap-items and
its like). What the monitors then remove of upmap items is upmap_rules.py's."""
from .cluster import GROUP
from .commands import counted_in, id_in
from .wrapper import Refused, Unforetold

MOST_SIZE = 10
OLD_CLIENTS = ("unknown", "argonaut", "bobtail", "dumpling", "firefly", "hammer", "infernalis", "jewel", "kraken")


def set_(maps, words):
    name, field, value = words.take(3, 3, "POOL FIELD VALUE")
    pool = maps.pool_named(name)
    if pool is None:
        raise Refused("ENOENT", f"unrecognized pool '{name}'")
    act = FIELDS.get(field)
    if act is None:
        raise Unforetold(UNKNOWN_FIELDS.get(field, f"what 'pool set {field}' does to placements isn't known here"))
    return act(maps, pool, value, words)


def set_size(maps, pool, value, words):
    """The min_size becomes N - N/2, whatever it was."""
    size = counted_in(value)
    if pool.kind == "erasure":
        raise Refused("ENOTSUP", "can not change the size of an erasure-coded pool")
    if not 1 <= size <= MOST_SIZE:
        raise Refused("EINVAL", f"pool size must be between 1 and {MOST_SIZE}")
    if size == 1:
        raise Refused("EPERM", "configuring pool size as 1 is disabled by default.")
    pool.size, old = size, pool.min_size
    pool.min_size = size - size // 2
    return [f"min_size becomes {pool.min_size}" + (f", and was {old}" if old != pool.min_size else "")]


def set_min_size(maps, pool, value, words):
    size = counted_in(value)
    least = data_parts(maps, pool) if pool.kind == "erasure" else 1
    if not least <= size <= pool.size:
        raise Refused("EINVAL", f"pool min_size must be between {least} and size, which is set to {pool.size}")
    pool.min_size = size
    return []


def data_parts(maps, pool):
    """Returns how many parts of an erasure pool hold its data (k of its profile)."""
    own = maps.profiles.get(pool.profile, {})
    return int(own["k"]) if str(own.get("k", "")).isdigit() else 1


def set_rule(maps, pool, value, words):
    rule = next((it for it in maps.crush.rules.values() if it.name == value), None)
    if rule is None:
        raise Refused("ENOENT", f"crush rule {value} does not exist")
    if rule.kind != pool.kind:
        raise Refused("EINVAL", f"crush rule {value} type does not match pool")
    if rule.sizes and not rule.sizes[0] <= pool.size <= rule.sizes[1]:
        raise Refused("EINVAL", f"size {pool.size} is not within {rule.sizes[0]} to {rule.sizes[1]} of the rule")
    pool.rule = rule.id
    return []


def set_pgp_num(maps, pool, value, words):
    """The manager comes to it by steps, each group moving once."""
    number = counted_in(value)
    if number < 1:
        raise Refused("EINVAL", f"specified pgp_num must > 0, but you set to {number}")
    if number > pool.pg_num:
        raise Refused("EINVAL", f"specified pgp_num {number} > pg_num {pool.pg_num}")
    pool.pgp_num = number
    pool.split_to = None
    return ["the manager comes to it by steps: what is said is their end"]


FIELDS = {"size": set_size, "min_size": set_min_size, "crush_rule": set_rule, "pgp_num": set_pgp_num}
UNKNOWN_FIELDS = {
    "pg_num": "new groups aren't foretold: the manager splits or merges groups when it sees fit",
    "pg_autoscale_mode": "what the autoscaler does, and when, isn't known",
}


# ---- single groups


def group_in(maps, text):
    """Returns a pool and a group of it."""
    found = GROUP.fullmatch(text)
    if not found:
        raise Refused("EINVAL", f"invalid pgid '{text}'")
    pool, group = maps.pools.get(int(found[1])), int(found[2], 16)
    if pool is None or group >= pool.pg_num:
        raise Refused("ENOENT", f"pgid '{text}' does not exist")
    return pool, group


def osds_in(maps, words, must_exist=True):
    found = []
    for text in words:
        id_ = id_in(text)
        if id_ is None:
            raise Refused("EINVAL", f"Invalid command: {text} isn't the id of an OSD")
        if must_exist and id_ not in maps.osds:
            raise Refused("ENOENT", f"osd.{id_} does not exist")
        found.append(id_)
    return found


def check_clients(maps):
    """Refuses upmap entries while clients are let in that don't know them."""
    if maps.oldest_client in OLD_CLIENTS:
        raise Refused(
            "EPERM",
            (
                f"min_compat_client {maps.oldest_client} < luminous, which is required for pg-upmap. "
                "Try 'ceph osd set-require-min-compat-client luminous' before using the new interface"
            ),
        )


def set_oldest_client(maps, words):
    (maps.oldest_client,) = words.take(1, 1, "RELEASE")
    return []


def set_pairs(maps, words):
    text, *rest = words.take(2, None, "GROUP FROM TO ..")
    check_clients(maps)
    pool, group = group_in(maps, text)
    ids = osds_in(maps, rest, must_exist=False)
    if len(ids) % 2:
        raise Refused("EINVAL", "you must specify pairs of osd ids: from and to")
    pairs, remarks = [], []
    if len(ids) // 2 > pool.size:
        raise Refused("EINVAL", f"num of osd pairs ({len(ids) // 2}) > pool size ({pool.size})")
    for old, new in zip(ids[::2], ids[1::2]):
        if old == new:
            remarks.append(f"from osd.{old} == to osd.{new}, ignoring")
            continue
        osds_in(maps, [str(old), str(new)])
        if (old, new) in pairs:
            remarks.append(f"osd.{old} -> osd.{new} already exists, ignoring")
        else:
            pairs.append((old, new))
    if not pairs:
        raise Refused("EINVAL", "no valid pairs is specified")
    maps.pairs.setdefault(pool.id, {})[group] = pairs
    return remarks


def set_list(maps, words):
    text, *rest = words.take(2, None, "GROUP ID ..")
    check_clients(maps)
    pool, group = group_in(maps, text)
    ids = list(dict.fromkeys(osds_in(maps, rest)))
    if not pool.min_size <= len(ids) <= pool.size:
        raise Refused(
            "EINVAL", f"num of osds ({len(ids)}) isn't between min_size ({pool.min_size}) and size ({pool.size})"
        )
    maps.lists.setdefault(pool.id, {})[group] = ids
    return []


def set_primary(maps, words):
    text, first = words.take(2, 2, "GROUP ID")
    check_release(maps)
    pool, group = group_in(maps, text)
    if pool.kind == "erasure":
        raise Refused("EINVAL", f"pg-upmap-primary is only for replicated pools, and pool {pool.name} isn't one")
    (id_,) = osds_in(maps, [first])
    maps.primaries.setdefault(pool.id, {})[group] = id_
    return []


def check_release(maps):
    if maps.release in ("luminous", "mimic", "nautilus", "octopus", "pacific", "quincy"):
        raise Refused(
            "EINVAL", f"invalid command: it is of release 18 (reef) on, and require_osd_release is {maps.release}"
        )


def dropped(name):
    """Returns the function of a command that takes away what a group has."""

    def act(maps, words):
        (text,) = words.take(1, 1, "GROUP")
        pool, group = group_in(maps, text)
        has = getattr(maps, name).get(pool.id, {}).pop(group, None)
        return [] if has is not None else ["there is none"]

    return act


COMMANDS = {
    ("osd", "pool", "set"): set_,
    ("osd", "pg-upmap-items"): set_pairs,
    ("osd", "rm-pg-upmap-items"): dropped("pairs"),
    ("osd", "pg-upmap"): set_list,
    ("osd", "rm-pg-upmap"): dropped("lists"),
    ("osd", "pg-upmap-primary"): set_primary,
    ("osd", "rm-pg-upmap-primary"): dropped("primaries"),
    ("osd", "set-require-min-compat-client"): set_oldest_client,
}
