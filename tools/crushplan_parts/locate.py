"""`crushplan locate`: where objects lie, or groups."""
import re

from .bulk_worker import MOST_NAME
from .faults import Fault, some
from .output import Answer, Table, devices_text
from .reports import listed
from .service import Request
from .usage import pools_named

HEADS = ("group", "raw", "up", "device", "state", "in")


def locate(plan, asked):
    """Answers where objects of a pool lie, or groups."""
    ways = [bool(asked.objects), asked.names_from is not None, bool(asked.group)]
    if sum(ways) != 1 or bool(asked.group) == bool(asked.pool_name):
        raise Fault("locate wants a POOL with the names of objects or --objects FILE, or else --group")
    if asked.left is not None and asked.only_on is None:
        raise Fault("--left goes with --only-on")
    if asked.names_from is not None:
        return locate_list(plan, asked)
    if asked.only_on is not None or asked.no_head:
        raise Fault(f"{'--no-head' if asked.only_on is None else '--only-on'} goes with --objects FILE")
    return locate_groups(plan, asked.group) if asked.group else locate_objects(plan, asked)


def locate_groups(plan, names):
    """Answers where groups lie, which are named as Ceph does."""
    groups = [group_named(plan, it) for it in names]
    run = plan.run(list({pool.id: pool for pool, _ in groups}))
    lists = {pool.id: run.lists(pool.id, sorted({it for other, it in groups if other is pool})) for pool, _ in groups}
    plan.answer(run)
    placements = {id_: run.placements(it) for id_, it in lists.items()}
    plan.doubt_groups(placements)
    found = []
    for pool, group in groups:
        it = placements[pool.id][group]
        found.append(
            {
                "pool": pool.id,
                "group": group,
                "id": pool.group_name(group),
                "raw": it.raw,
                "up": it.up,
                "primary": it.primary,
                "places": places_of(plan, it.raw, it.up),
            }
        )
    rows = [row for it in found for row in rows_of(it, [])]
    heads = ["pool", "group", "id", "raw", "up", "primary"]
    own = [heads] + [
        [it["pool"], it["group"], it["id"], listed(it["raw"]), listed(it["up"]), it["primary"]] for it in found
    ]
    return Answer(0, "", {"groups": found}, [Table(HEADS, rows)], own).of({it["pool"] for it in found}, ())


def group_named(plan, name):
    """Returns the pool and the number of a group's name: the pool's id, a point, and the number in
    hexadecimal digits."""
    parts = re.fullmatch(r"(\d+)\.([0-9a-f]+)", name)
    if not parts:
        raise Fault(f"{name!r} isn't the name of a group, as 5.1f is: the pool's id, a point and hexadecimal digits")
    pool = pools_named(plan, [parts[1]])[0]
    if int(parts[2], 16) >= pool.pg_num:
        raise Fault(
            f"pool {pool.name} has the groups {pool.group_name(0)} to {pool.group_name(pool.pg_num - 1)}, and no {name}"
        )
    return pool, int(parts[2], 16)


def pool_of_objects(plan, name):
    """Returns the pool of a name, whose objects can be located."""
    pool = pools_named(plan, [name])[0]
    if pool.tiers:
        others = some([plan.cluster.pools[it].name if it in plan.cluster.pools else it for it in pool.tiers])
        raise Fault(
            f"pool {pool.name} is a tier of others, or has tiers ({others}): in which of them an object lies isn't"
            " known here; --group says where groups lie"
        )
    if pool.object_hash != 2:
        raise Fault(f"pool {pool.name} has another object hash than rjenkins: where its objects lie isn't computed")
    return pool


def locate_list(plan, asked):
    """Writes where the objects of a list lie."""
    from .bulk import locate_many

    pool = pool_of_objects(plan, asked.pool_name)
    placements = placements_of(plan, pool, range(pool.pg_num))
    plan.doubt_groups({pool.id: placements})
    return locate_many(plan, pool, placements, asked)


def locate_objects(plan, asked):
    """Answers where objects of a pool lie."""
    pool = pool_of_objects(plan, asked.pool_name)
    for name in asked.objects:
        if (
            len(name.encode(errors="surrogateescape")) > MOST_NAME
            or not name.isprintable()
            and "\udc80" <= max(name) <= "\udcff"
        ):
            raise Fault(f"the object's name {name[:40]!r} is longer than {MOST_NAME} bytes, or is no UTF-8")
    run = plan.run([pool.id])
    places = [run.add(pool.id, Request("POST", f"/pools/{pool.id}/locate", {"name": it})) for it in asked.objects]
    plan.answer(run)
    groups = [run.reply(pool.id, place)["group"] for place in places]
    placements = placements_of(plan, pool, groups)
    plan.doubt_groups({pool.id: placements})
    found = [row_of(plan, pool, name, group, placements[group]) for name, group in zip(asked.objects, groups)]
    rows = [row for it in found for row in rows_of(it, [it["name"]])]
    heads = ["object", "pool", "group", "id", "raw", "up", "primary"]
    own = [heads] + [
        [it["name"], pool.id, it["group"], it["id"], listed(it["raw"]), listed(it["up"]), it["primary"]] for it in found
    ]
    return Answer(0, "", {"pool": pool.id, "objects": found}, [Table(("object", *HEADS), rows)], own).of({pool.id}, ())


def placements_of(plan, pool, groups):
    """Asks where groups of a pool lie: with all upmap items, of which a request by a name may lack
    some."""
    run = plan.run([pool.id])
    asked = run.lists(pool.id, set(groups))
    plan.answer(run)
    return run.placements(asked)


def rows_of(it, first):
    """Returns the lines of a group or an object: one for each of its devices."""
    first = [*first, it["id"], devices_text(it["raw"]), devices_text(it["up"])]
    rows = []
    for device in it["places"]:
        rows.append(
            [
                *first,
                device["name"] + (" (primary)" if device["device"] == it["primary"] else ""),
                device["state"],
                ", ".join(device["above"].values()),
            ]
        )
        first = [""] * len(first)
    return rows or [[*first, "no device", "", ""]]


def row_of(plan, pool, name, group, it):
    return {
        "name": name,
        "group": group,
        "id": pool.group_name(group),
        "raw": it.raw,
        "up": it.up,
        "primary": it.primary,
        "places": places_of(plan, it.raw, it.up),
    }


def places_of(plan, raw, up):
    """Returns where the devices of two lists stand, each once."""
    devices = list(dict.fromkeys(it for it in [*up, *raw] if it is not None))
    return [
        {
            "device": it,
            "name": plan.map.name_of(it),
            "state": "up" if it in up else "down" if not plan.state(it).up else "not in up",
            "above": plan.tree.path(it),
        }
        for it in devices
    ]
