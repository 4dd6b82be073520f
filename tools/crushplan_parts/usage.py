"""`crushplan usage`: how much lies where, beside what weights and reweights ask for."""

from .drawing import of_shares
from .faults import Fault, nearest
from .output import Answer, Table, devices_text, shown, sized
from .shares import hundredths, percent, rounded
from .summary import PoolChange, bytes_after, devices_of, whole
from .reports import grouped, listed, sum_fractions


def pools_named(plan, names):
    """Returns the pools of names or ids, or all that are computed."""
    if not names:
        return list(plan.pools.values())
    known = {it.name: it for it in plan.cluster.pools.values()}
    found = []
    for name in names:
        pool = known.get(name) or (plan.cluster.pools.get(int(name)) if name.isdigit() else None)
        if pool is None:
            raise Fault(f"there is no pool {name!r}{nearest(name, known)}")
        if pool.id not in plan.pools:
            raise Fault(f"pool {pool.name} isn't computed: {plan.left_out[pool.id][1]}")
        found.append(pool)
    return list(dict.fromkeys(it.id for it in found) and {it.id: it for it in found}.values())


def usage(plan, asked):
    """Answers how much of pools lies on each device, host or rack."""
    pools = pools_named(plan, asked.names)
    run = plan.run([it.id for it in pools])
    places = {it.id: run.usage(it.id) for it in pools}
    lists = {it.id: run.lists(it.id, range(it.pg_num)) for it in pools} if asked.groups else {}
    plan.answer(run)
    usages = {it.id: run.counted(places[it.id]) for it in pools}
    plan.doubt_usage(usages)
    changes = [PoolChange(it, usages[it.id], set(), []) for it in pools]
    others = devices_of_others(plan)
    devices = [
        it
        for it in devices_of(plan, changes, with_before=False)
        if it.after or it.expected_after[0] or not asked.names and it.id not in others
    ]
    type_ = plan.tree.type_number(asked.by or "osd")
    rows = [row_of(plan, type_, *it) for it in grouped(plan, devices, type_)]
    known = any(it["bytes"] is not None for it in rows)
    used = any(it["used"] is not None for it in rows)
    heads = (
        ["device" if type_ == 0 else plan.map.types.get(type_, "bucket")]
        + (["host"] if type_ == 0 else [])
        + ["copies", "primaries", "share", "% of share"]
        + (["bytes"] if known else [])
        + (["used %"] if used else [])
    )
    table = [
        [it["name"]]
        + ([it["host"]] if type_ == 0 else [])
        + [it["copies"], it["primaries"], it["share"], it["percent"]]
        + ([sized(it["bytes"])] if known else [])
        + ([None if it["used"] is None else hundredths(it["used"])] if used else [])
        for it in rows
    ]
    ranked = sorted((it for it in rows if it["percent"] is not None), key=lambda it: it["percent"])
    least, greatest = (ranked[0], ranked[-1]) if ranked else (None, None)
    copies, wanted = sum(it.before.total() for it in changes), sum(it.pool.size * it.pool.pg_num for it in changes)
    sentence = (
        f"{copies:,} copies of {', '.join(it.name for it in pools) if len(pools) < 4 else f'{len(pools)} pools'}"
        + (f", {wanted - copies:,} fewer than the pools' sizes ask for" if wanted > copies else "")
        + "."
    )
    if not pools:
        sentence = "unknown: no pool can be computed."
    text = f"Least: {extreme(least)}. Greatest: {extreme(greatest)}." if ranked else ""
    if others and not asked.names:
        text += (
            f"\n{plan.names_of(others)} {'has' if len(others) == 1 else 'have'} copies of pools alone that aren't"
            " computed."
        )
    keys = ["name", "device", "host", "copies", "primaries", "share", "percent", "bytes", "used"]
    fields = {
        "by": heads[0],
        "pools": [
            {
                "pool": it.pool.id,
                "name": it.pool.name,
                "copies": it.before.total(),
                "wanted": it.pool.size * it.pool.pg_num,
                "bytes": it.pool.bytes,
            }
            for it in changes
        ],
        "rows": rows,
        "least": least,
        "greatest": greatest,
    }
    blocks, own = [text, Table(heads, table)], [keys] + [[it[key] for key in keys] for it in rows]
    if asked.groups:
        groups = [
            (it, group, placement) for it in pools for group, placement in sorted(run.placements(lists[it.id]).items())
        ]
        fields["groups"] = [
            {
                "pool": it.id,
                "group": group,
                "id": it.group_name(group),
                "raw": placement.raw,
                "up": placement.up,
                "primary": placement.primary,
            }
            for it, group, placement in groups
        ]
        blocks.append(
            Table(
                ("group", "raw", "up", "primary"),
                [
                    (it.group_name(group), devices_text(placement.raw), devices_text(placement.up), placement.primary)
                    for it, group, placement in groups
                ],
                "Groups:",
            )
        )
        own = [["pool", "group", "id", "raw", "up", "primary"]] + [
            [it.id, group, it.group_name(group), listed(placement.raw), listed(placement.up), placement.primary]
            for it, group, placement in groups
        ]
    answer = Answer(0 if pools else 2, sentence, fields, blocks, own, lambda: of_shares(rows, heads[0]))
    return answer.of(it.id for it in pools)


def devices_of_others(plan):
    """Returns the devices that only pools reach that aren't computed."""
    rules = [plan.map.rules.get(plan.cluster.pools[it].rule) for it in plan.left_out]
    left_out = {device for it in rules if it for device in plan.map.reached(it)}
    return left_out - {device for it in plan.pools.values() for device in plan.reach(it)}


def extreme(row):
    return f"{row['name']}, {row['copies']:,} copies, {shown(row['percent'])}% of its share"


def row_of(plan, type_, name, host, own):
    copies, expected = sum(it.after for it in own), sum_fractions(it.expected_after for it in own)
    bytes_ = bytes_after(own)
    rooms = [plan.cluster.rooms[it.id] for it in own if it.id in plan.cluster.rooms]
    size = sum(it.size for it in rooms)
    return {
        "name": name, "device": own[0].id if type_ == 0 else None, "host": host or None, "copies": copies,
        "primaries": sum(it.primaries_after for it in own),
        "share": rounded(*expected, 2), "percent": percent(copies, expected), "bytes": whole(bytes_),
        "used": rounded(sum(it.used for it in rooms), size, 4) if size else None,
    }  # fmt: skip
