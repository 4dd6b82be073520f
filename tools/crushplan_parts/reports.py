"""Parts that several commands write: the summary, tables of pools, devices and groups."""

from .faults import counted, some
from .output import Table, devices_text, shown, sized

from .shares import hundredths, percent, rounded
from .summary import bytes_after, looks_at_room

MOST_ROWS = 40  # devices in a table of usage; where there are more, hosts are shown
PROVED = {True: "not proved: the program is unproved", False: "proved", None: "proved, if the server's program is"}
COPY = ("copy", "copies")
HOLDING = ("norebalance", "nobackfill", "norecover")
NO_ROOM = "how full devices get isn't looked at (that takes df.json, osd-df.json and the ratios of osd.json)"


class Stay:
    """Copies that devices keep though they are out, since a rule takes them by name; and the pools
    that have to do with the devices and aren't computed."""

    def __init__(self, plan, start, devices, changes):
        self.keeping = {}
        for it in changes:
            for device in plan.taken(it.pool) & set(devices):
                if it.after.entries.get(device):
                    self.keeping[device] = self.keeping.get(device, 0) + it.after.entries[device]
        own = set(devices)
        self.left_out = [it for it in plan.notes if it.open and it.pools and (not it.devices or own & set(it.devices))]
        self.pools = [plan.cluster.pools[pool].name for it in self.left_out for pool in it.pools]
        self.names = [plan.map.name_of(it) for it in self.keeping]

    def is_unknown(self):
        return bool(self.left_out)

    def unknown_text(self):
        """Says what isn't computed and has to do with the devices."""
        return f"{'pool' if len(self.pools) == 1 else 'the pools'} {some(self.pools, 3)}" if self.pools else ""

    def said(self):
        return [{"device": device, "copies": copies} for device, copies in sorted(self.keeping.items())]


def status_of(plan, summary, stay, stopped=0):
    """Returns the exit status: 1 where a copy has no room, a device keeps some, or I/O stops; 2
    where what isn't computed may have to do with it, or files on room lack a part of it."""
    if summary.changes and (not summary.has_room() or stay.keeping or stopped):
        return 1
    return 2 if stay.is_unknown() or not plan.pools or summary.room_gap() else 0


def warn_of_room(plan):
    """Warns where no device counts as full, since the files don't say how full they are."""
    if plan.pools and not looks_at_room(plan.cluster):
        plan.cluster.warnings.append(NO_ROOM)


def warn_of_flags(plan, *more):
    """Warns of flags of the cluster, while which Ceph doesn't do by itself what is computed."""
    flags = [it for it in plan.cluster.flags if it in (*HOLDING, *more)]
    if flags:
        plan.cluster.warnings.append(
            f"osd.json has the {'flag' if len(flags) == 1 else 'flags'} {some(flags)}: until Ceph is without"
            f" {'it' if len(flags) == 1 else 'them'}, it doesn't do all of this"
        )


def near_full(summary):
    """Says how many devices get past the near-full ratio, which stops nothing."""
    count = len(summary.past["nearfull_ratio"])
    return (
        f", but {counted(count, 'device')} {'gets' if count == 1 else 'get'} past near-full (a health warning)"
        if count
        else ""
    )


def verdict(summary, stay, status, stopped="", stretched=()):
    """Returns the answer in one sentence. `stopped` says which I/O stops, if any; `stretched` are
    pools of which it isn't known what stops."""
    moved = (
        f"{counted(len(summary.moves), 'group')} {'moves' if len(summary.moves) == 1 else 'move'}"
        if summary.moves
        else "no group moves"
    )
    if status == 2:
        why = ([f"{stay.unknown_text()} can't be computed"] if stay.is_unknown() else []) + (
            [summary.room_gap()] if summary.room_gap() else []
        )
        why += (
            [
                "what stops in"
                f" {'pool' if len(stretched) == 1 else 'the pools'} {some([it.name for it in stretched], 3)} isn't"
                " computed (stretch mode)"
            ]
            if stretched
            else []
        )
        return (
            f"unknown: {'; '.join(why)}; of what can, {moved}."
            if summary.changes
            else "unknown: no pool can be computed."
        )
    if status == 0:
        return f"yes{near_full(summary)}: {moved}, and every copy has {'room' if summary.knows_room() else 'a device'}."
    why = [stopped] if stopped else []
    lacking = [it for it in summary.changes if it.missing]
    if lacking:
        pools = some([it.pool.name for it in lacking], 3)
        before = (
            " (as many as before)"
            if summary.missing_before == summary.missing
            else f" ({summary.missing_before:,} before)" if summary.missing_before else ""
        )
        why.append(
            f"{counted(summary.missing, *COPY)} of"
            f" {'pool' if len(lacking) == 1 else 'the pools'} {pools} {'has' if summary.missing == 1 else 'have'} no"
            f" device{before}"
        )
    if summary.past["backfillfull_ratio"]:
        why.append(
            f"{some([shown_used(it) for it in summary.past['backfillfull_ratio']], 3)}, past the backfill-full ratio"
        )
    if summary.room_gap():
        why.append(summary.room_gap())
    if stay.keeping:
        why.append(
            f"{some(stay.names, 3)} {'keeps' if len(stay.names) == 1 else 'keep'}"
            f" {counted(sum(stay.keeping.values()), *COPY)}: a rule takes it by name"
        )
    return "no: " + "; ".join(why) + f"; {moved}."


def shown_used(it):
    return used_said(it.id, it.used_after)


def used_said(device, used):
    return f"osd.{device} would be {rounded(used.numerator * 100, used.denominator, 1)}% full"


def summary_table(plan, summary, stay, title=None, down=()):
    """Returns the lines of a summary, in the order in which they matter, or None where no pool is
    computed. `down` are the devices that are down by then."""
    if not summary.changes:
        return None
    before = f" (before: {summary.short_before:,}, by {summary.missing_before:,})" if summary.short_before else ""
    short = (
        f"{summary.short:,} of {summary.groups:,}, by {counted(summary.missing, *COPY)}" if summary.short else "none"
    ) + before
    rows = [
        ("groups with fewer copies than the pool's size", short),
        ("groups that move", f"{len(summary.moves):,} of {summary.groups:,}"),
        (
            "copies that are written anew",
            f"{summary.copies:,}" + (f", {sized(summary.bytes)}" if summary.bytes is not None else ""),
        ),
        ("fullest device afterwards", fullest_text(plan, summary)),
        (PROVED[plan.client.is_unproved()], proved_text(summary, down)),
    ]
    if summary.past["nearfull_ratio"]:
        rows.insert(4, ("past the near-full ratio", some([shown_used(it) for it in summary.past["nearfull_ratio"]])))
    if summary.as_full:
        rows.insert(4, ("as full", some([plan.map.name_of(it.id) for it in summary.as_full], 3)))
    if summary.fullest and summary.fullest.used_after is not None:
        rows.insert(4, ("its room", room_text(plan, summary.fullest)))
    if stay.keeping:
        rows.insert(
            1,
            (
                "copies that stay, by a rule that takes the device",
                some([f"osd.{device}: {copies:,}" for device, copies in sorted(stay.keeping.items())]),
            ),
        )
    return Table(("", ""), rows, title)


def proved_text(summary, down):
    """Says how many groups can't move: those that are computed, that no impact list has, and whose
    rule takes no device by name that is down."""
    plan, by_name, rest = summary.plan, False, 0
    for it in summary.changes:
        takes = bool(plan.taken(it.pool) & set(down))
        by_name = by_name or takes
        rest += 0 if takes else it.pool.pg_num - len(it.can_move)
    also = ", and whose rule takes none of the devices by name" if by_name else ""
    return f"{rest:,} of {counted(summary.groups, 'group')} can't move: those in no impact list{also}"


def fullest_text(plan, summary):
    it = summary.fullest
    if it is None:
        return "none has copies"
    text = f"{plan.map.name_of(it.id)} ({plan.tree.host(it.id)}): {counted(it.after, *COPY)}"
    of = it.percent()
    if of is not None:
        text += f", {shown(of)}% of its share of {shown(rounded(*it.expected_after, 1))}"
    return text


def room_text(plan, it):
    """Says how much of a device's room is used afterwards, beside the near-full ratio."""
    ratio = plan.cluster.ratios.get("nearfull_ratio")
    used = f"{rounded(it.used_after.numerator * 100, it.used_after.denominator, 1)}% used"
    return used + (f"; near-full is {hundredths(ratio)}%" if ratio is not None else "")


def pools_table(summary):
    """Returns a line for each pool that the change touches, where there are several pools."""
    own = [it for it in summary.changes if it.moves or it.missing or it.can_move]
    if len(summary.changes) < 2 or not own:
        return None
    heads = ("pool", "id", "size", "short", "missing", "move", "of", "copies", "bytes")
    rows = [
        (
            it.pool.name,
            it.pool.id,
            it.pool.size,
            it.short,
            it.missing,
            len(it.moves),
            it.pool.pg_num,
            it.copies,
            sized(it.bytes),
        )
        for it in own
    ]
    return Table(heads, rows, "By pool:")


def check_type(plan, summary, by):
    """A Fault where a table of usage is asked for by a type that isn't there."""
    if summary.changes and by:
        plan.tree.type_number(by)


def usage_table(plan, summary, by):
    """Returns usage before and after, by device, or by the buckets of a type, or None where no pool
    is computed."""
    if not summary.changes:
        return None
    devices = [it for it in summary.devices if it.before or it.after or it.expected_before[0]]
    type_ = plan.tree.type_number(by) if by else 0 if len(devices) <= MOST_ROWS else plan.tree.host_type()
    known = any(it.bytes_after is not None for it in devices)
    used = any(it.used_after is not None for it in devices) and type_ == 0
    heads = (
        ["device" if type_ == 0 else plan.map.types.get(type_, "bucket")]
        + (["host"] if type_ == 0 else [])
        + ["before", "after", "change", "share", "% of share"]
        + (["bytes"] if known else [])
        + (["used %"] if used else [])
    )
    rows = []
    for name, host, own in grouped(plan, devices, type_):
        before, after, expected = (
            sum(it.before for it in own),
            sum(it.after for it in own),
            sum_fractions(it.expected_after for it in own),
        )
        row = (
            [name]
            + ([host] if type_ == 0 else [])
            + [before, after, after - before, rounded(*expected, 1), percent(after, expected)]
        )
        row += [sized(bytes_after(own))] if known else []
        row += (
            [
                (
                    None
                    if own[0].used_after is None
                    else rounded(own[0].used_after.numerator * 100, own[0].used_after.denominator, 1)
                )
            ]
            if used
            else []
        )
        rows.append(row)
    return Table(heads, rows, f"Copies before and after, by {heads[0]}:")


def grouped(plan, devices, type_):
    """Yields the name, the host and the devices of each row of a table."""
    if type_ == 0:
        yield from ((plan.map.name_of(it.id), plan.tree.host(it.id), [it]) for it in devices)
        return
    groups = {}
    for it in devices:
        groups.setdefault(plan.tree.of_type(it.id, type_), []).append(it)
    for bucket, own in groups.items():
        yield ("-" if bucket is None else plan.map.name_of(bucket)), "", own


def sum_fractions(values):
    """Returns the sum of fractions, each a pair of what is above and below its line."""
    over, under = 0, 1
    for more, below in values:
        if below == under:
            over += more
        elif more:
            over, under = over * below + more * under, under * below
    return over, under


def usage_rows(summary):
    """Yields the rows of a CSV of usage before and after."""
    said = summary.devices_said()
    heads = list(said[0]) if said else ["device"]
    yield heads
    for it in said:
        yield [it[head] for head in heads]


def groups_table(moves):
    rows = [
        (
            it.pool.group_name(it.group),
            devices_text(it.before.up),
            devices_text(it.after.up),
            it.after.primary,
            it.copies,
            "yes" if it.short else "",
        )
        for it in moves
    ]
    return (
        Table(("group", "before", "after", "primary", "copies", "short"), rows, "Groups that move:")
        if rows
        else "No group moves."
    )


def groups_rows(plan, moves):
    """Yields the rows of a CSV of groups that move; a list has blanks between its devices, and a
    dash for none."""
    yield ["pool", "group", "id", "before", "after", "primary_before", "primary_after", "copies", "short"]
    for it in moves:
        said = it.said()
        yield [
            said["pool"],
            said["group"],
            said["id"],
            listed(said["before"]),
            listed(said["after"]),
            said["primary_before"],
            said["primary_after"],
            said["copies"],
            int(said["short"]),
        ]


def listed(items):
    return " ".join("-" if it is None else str(it) for it in items)
