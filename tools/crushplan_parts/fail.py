"""`crushplan fail`: hosts, racks or devices that go down, and later out."""
from .changing import Start, pool_changes, short_now
from .drawing import of_devices, of_each
from .faults import Fault, counted, some
from .names import Chosen, names_in, of_class
from .output import Answer, Progress, Sized, Table, devices_text, shown, sized
from .reports import (
    COPY,
    Stay,
    check_type,
    groups_rows,
    groups_table,
    listed,
    pools_table,
    status_of,
    summary_table,
    usage_rows,
    usage_table,
    verdict,
    warn_of_flags,
    warn_of_room,
)
from .shares import hundredths
from .service import JOBS
from .stages import Stages, in_turn, states_after
from .summary import Levels, Summary, whole

UNKNOWN = 2
MOST_ASKED = 60_000  # groups that are asked for at once, of which each is kept
MOST_OF_TASK, TASKS_EACH = 20_000, 4  # groups that a task of another machine asks for; tasks of each


def stops(pool, copies):
    """Returns whether a group's I/O stops with so many copies, as far as is known: in stretch mode
    it also counts where they are, and Ceph changes min_size by itself."""
    return copies < pool.min_size and not pool.stretched


class Down:
    """Groups that lack copies while devices are down. Of each pool: the groups with fewer copies
    than its size, and those of them with fewer than its min_size, whose I/O stops."""

    def __init__(self, plan, start, lists):
        self.rows = []
        for id_, pool in plan.pools.items():
            short = short_now(pool, lists.get(id_, {}), start.lacking.get(id_))
            for group, copies in sorted(short.items()):
                self.rows.append((pool, group, lists.get(id_, {}).get(group) or start.all_lists[id_][group], copies))
        self.short = len(self.rows)
        self.stopped = sum(stops(pool, copies) for pool, _, _, copies in self.rows)

    def by_pool(self):
        found = {}
        for pool, _, _, copies in self.rows:
            own = found.setdefault(pool.id, [pool, 0, 0])
            own[1], own[2] = own[1] + 1, own[2] + stops(pool, copies)
        return list(found.values())

    def stopping(self):
        """Returns which I/O stops: pools, each with how many copies are left and the names of the
        groups of which that is so, the fewest copies first."""
        found = {}
        for pool, group, _, copies in self.rows:
            if stops(pool, copies):
                found.setdefault((pool.id, copies), (pool, copies, []))[2].append(pool.group_name(group))
        return [found[key] for key in sorted(found)]

    def why(self):
        """Says which I/O stops and why, or nothing where none does."""
        found = self.stopping()
        if not found:
            return ""
        pools = list(dict.fromkeys(pool.name for pool, _, _ in found))
        left, below = "fewer copies than min_size", ""
        if len(found) == 1:
            pool, copies, _ = found[0]
            left = f"{counted(copies, *COPY) if copies else 'no copy'} left"
            below = f", below min_size {pool.min_size}"
        return (
            f"{counted(self.stopped, 'group')} of {'pool' if len(pools) == 1 else 'the pools'} {some(pools, 3)}"
            f" {'has' if self.stopped == 1 else 'have'} {left} while the devices are down{below},"
            f" so {'its' if self.stopped == 1 else 'their'} I/O stops"
        )

    def said(self, with_groups):
        stopping = self.stopping()
        found = {
            "below_min_size": self.stopped,
            "short": self.short,
            "pools": [
                {
                    "pool": pool.id,
                    "name": pool.name,
                    "size": pool.size,
                    "min_size": pool.min_size,
                    "short": short,
                    "below_min_size": stopped,
                    "left": [{"copies": it, "groups": len(of)} for own, it, of in stopping if own is pool],
                }
                for pool, short, stopped in self.by_pool()
            ],
        }
        if with_groups:
            found["groups"] = [
                {
                    "pool": pool.id,
                    "group": group,
                    "id": pool.group_name(group),
                    "up": it.up,
                    "primary": it.primary,
                    "copies": copies,
                    "below_min_size": stops(pool, copies),
                }
                for pool, group, it, copies in self.rows
            ]
        return found

    def table(self, groups):
        rows = [
            (
                "groups below their pool's min_size: their I/O stops",
                f"{self.stopped:,} of {groups:,}" if self.stopped else "none",
            ),
            (
                "groups with fewer copies than the pool's size",
                f"{self.short:,} of {groups:,}" if self.short else "none",
            ),
        ]
        return Table(("", ""), rows, "While they are down:")

    def stopping_table(self):
        """Returns of each pool whose I/O stops how many groups have how many copies left, or None
        where none stops."""
        rows = [
            (pool.name, pool.id, pool.size, pool.min_size, copies, len(groups), some(groups))
            for pool, copies, groups in self.stopping()
        ]
        heads = ("pool", "id", "size", "min_size", "copies left", "groups", "which")
        return Table(heads, rows, "Groups whose I/O stops while they are down:") if rows else None

    def pools_table(self):
        rows = [
            (pool.name, pool.id, pool.size, pool.min_size, short, stopped) for pool, short, stopped in self.by_pool()
        ]
        return Table(("pool", "id", "size", "min_size", "short", "below min_size"), rows) if len(rows) > 1 else None

    def groups_table(self):
        rows = [
            (
                pool.group_name(group),
                devices_text(it.up),
                it.primary,
                copies,
                "yes" if stops(pool, copies) else "?" if pool.stretched else "",
            )
            for pool, group, it, copies in self.rows
        ]
        return (
            Table(("group", "up", "primary", "copies", "I/O stops"), rows, "Groups a copy short while they are down:")
            if rows
            else None
        )


def stages_of(plan, devices):
    """Returns the states of devices that go down, and then out."""
    return [states_after(plan, devices, up=False), states_after(plan, devices, up=False, reweight=0)]


class Failure:
    """Devices that go down, and then out."""

    def __init__(self, plan, start, devices, lists=None, levels=None):
        """Takes the lists before, while they are down and once they are out, where they were asked
        for."""
        self.devices = devices
        before, while_down, after = lists or Stages(plan, start.touched).set_states(
            stages_of(plan, devices), start.wanted(devices), start.before
        )
        self.down = Down(plan, start, while_down)
        changes = pool_changes(plan, start, devices, before, after)
        self.summary = Summary(plan, changes, devices, levels)


def fail(plan, asked):
    """Answers what a failure of devices does, or of each bucket of a type in turn."""
    if asked.each:
        if asked.names:
            raise Fault("crushplan fail takes either names or --each TYPE")
        return fail_each(plan, asked)
    chosen = Chosen(plan, names_in(asked, "fail"), asked.of_class)
    devices = chosen.devices
    start = Start(plan, devices)
    it = Failure(plan, start, devices)
    stay = Stay(plan, start, devices, it.summary.changes)
    warn_of_room(plan)
    warn_of_outs(plan, chosen.names, devices)
    stretched = plan.stretched(devices)
    status = status_of(plan, it.summary, stay, it.down.stopped) or (UNKNOWN if stretched else 0)
    fields = lambda: {
        "devices": devices,
        "down": it.down.said(asked.groups),
        "out": it.summary.said(asked.groups),
        "stay": stay.said(),
    }
    check_type(plan, it.summary, asked.by)
    blocks = lambda: [
        chosen.text(),
        it.down.table(it.summary.groups) if plan.pools else None,
        it.down.pools_table(),
        it.down.stopping_table(),
        summary_table(plan, it.summary, stay, "Once they are out:", devices),
        pools_table(it.summary),
        usage_table(plan, it.summary, asked.by),
        *([it.down.groups_table(), groups_table(it.summary.moves)] if asked.groups else []),
    ]
    rows = rows_of(plan, it) if asked.groups else usage_rows(it.summary)
    sentence = verdict(it.summary, stay, status, it.down.why(), stretched)
    answer = Answer(status, sentence, fields, blocks, rows, lambda: of_devices(plan, it.summary.devices, asked.by))
    return answer.of(of.pool.id for of in it.summary.changes)


def rows_of(plan, it):
    """Yields the rows of a CSV of groups: those that are short while devices are down, and those
    that move once they are out."""
    yield ["stage", "pool", "group", "id", "before", "after", "primary_before", "primary_after", "copies", "short"]
    for pool, group, placement, copies in it.down.rows:
        yield [
            "down",
            pool.id,
            group,
            pool.group_name(group),
            "",
            listed(placement.up),
            "",
            placement.primary,
            copies,
            1,
        ]
    rows = groups_rows(plan, it.summary.moves)
    next(rows)
    for row in rows:
        yield ["out", *row]


def flagged(plan, devices):
    """Returns the names of devices, buckets and classes with the flag noout that have some of these
    devices."""
    found, own = [], set(devices)
    for name, flags in plan.cluster.own_flags.items():
        class_ = name.removeprefix("the class ")
        if name != class_:
            below = {it for it, of in plan.map.classes.items() if of == class_}
        else:
            below = set(plan.map.below(plan.tree.ids[name])) if name in plan.tree.ids else set()
        if "noout" in flags and below & own:
            found.append(name)
    return found


def warn_of_outs(plan, names, devices):
    """Warns where Ceph marks no device of these names out by itself."""
    warn_of_flags(plan, "noout")
    own = flagged(plan, devices)
    if own:
        plan.cluster.warnings.append(
            f"osd.json has the flag noout of {some(own)}: Ceph marks out none of"
            f" {'its' if len(own) == 1 else 'their'} devices by itself"
        )
    rack = next((number for number, name in plan.map.types.items() if name == "rack"), None)
    wide = [it.name for it in plan.map.buckets.values() if rack is not None and it.type >= rack and it.name in names]
    if wide:
        plan.cluster.warnings.append(
            "Ceph marks out by itself no whole rack, nor what is above racks (mon_osd_down_out_subtree_limit, unless"
            f" it was set): {some(wide)}"
        )


class Each:
    """A bucket of a type that fails: what that does, in numbers, and what of it isn't computed. The
    groups themselves aren't kept: those of all buckets take much memory."""

    def __init__(self, plan, start, levels, item, devices, lists):
        self.name = plan.map.name_of(item)
        it = Failure(plan, start, devices, lists, levels)
        stay, summary, stretched = Stay(plan, start, devices, it.summary.changes), it.summary, plan.stretched(devices)
        self.status = status_of(plan, summary, stay, it.down.stopped) or (UNKNOWN if stretched else 0)
        # nothing of it was computed where no computed pool can have groups on its devices, and
        # another has
        self.is_blank = stay.is_unknown() and not plan.touched(devices)
        self.is_stretched, self.is_in_part = bool(stretched), stay.is_unknown() or bool(stretched)
        self.knows_room = summary.knows_room()
        self.numbers = {
            "below_min_size": it.down.stopped, "short_down": it.down.short, "short_groups": summary.short,
            "missing_copies": summary.missing, "too_full": len(summary.past["backfillfull_ratio"]),
            "moved": len(summary.moves), "can_move": summary.can_move, "copies": summary.copies,
            "bytes": whole(summary.bytes),
        }  # fmt: skip
        found = dict.fromkeys(self.numbers) if self.is_blank else self.numbers
        fullest = None if self.is_blank else summary.fullest and summary.device_said(summary.fullest)
        self.said = {"name": self.name, "devices": len(devices), **found, "status": self.status, "fullest": fullest}

    def order(self):
        """Returns what is least for the worst."""
        return (
            *(-self.numbers[it] for it in ("below_min_size", "missing_copies", "too_full", "copies")),
            self.is_blank,
            self.name,
        )

    def row(self):
        """Returns its line of the table; what isn't known is a question mark."""
        it = self.said
        if self.is_blank:
            return [it["name"], it["devices"], *[Sized("?")] * 7, "?"]
        stops = Sized("?") if self.is_stretched and not it["below_min_size"] else it["below_min_size"]
        return [
            it["name"],
            it["devices"],
            stops,
            it["short_down"],
            it["missing_copies"],
            it["too_full"],
            it["moved"],
            it["copies"],
            sized(it["bytes"]),
            each_fullest(it),
        ]


def fail_each(plan, asked):
    """Answers what each bucket of a type would cost, the worst first."""
    if not plan.tree.buckets_of_type(plan.tree.type_number(asked.each)):
        raise Fault(f"no {asked.each} has devices")
    units = units_of(plan, asked.each, asked.of_class)
    if not units:
        raise Fault(f"no {asked.each} has devices of the class {asked.of_class}")
    found = failures_of(plan, asked.each, units, start_of(plan, units))
    warn_of_room(plan)
    warn_of_outs(
        plan, [plan.map.name_of(it) for it, _ in units], [device for _, devices in units for device in devices]
    )
    statuses, rows = [it.status for it in found], [it.said for it in found]
    status = 1 if 1 in statuses else 2 if 2 in statuses else 0
    own = [list(rows[0])[:-1] + ["fullest", "fullest_percent", "fullest_used"]] + [
        [*list(it.values())[:-1], *((it["fullest"] or {}).get(key) for key in ("name", "percent_after", "used_after"))]
        for it in rows
    ]
    has = "room" if all(it.knows_room for it in found) else "a device"
    blocks = [each_table(asked.each, found), each_words(rows)] if plan.pools else []
    fields, drawing = {"type": asked.each, "each": rows}, (
        (lambda: of_each(plan, asked.each, rows)) if plan.pools else None
    )
    return Answer(status, each_sentence(plan, asked.each, statuses, has), fields, blocks, own, drawing)


def units_of(plan, type_, class_=None):
    """Returns the buckets of a type that have devices, of a class or of any, each with these."""
    own = of_class(plan, class_)
    items = plan.tree.buckets_of_type(plan.tree.type_number(type_))
    units = [(it, [d for d in own(dict.fromkeys(plan.map.below(it))) if d in plan.known]) for it in items]
    return [it for it in units if it[1] or class_ is None]


def start_of(plan, units):
    """Returns what is known before any of some buckets fails, with the lists of their groups."""
    start = Start(plan, sorted({device for _, devices in units for device in devices}))
    start.lists_now()
    return start


def failures_of(plan, type_, units, start):
    """Returns what each of the buckets of a type does that fails, the worst first."""
    found, levels, progress = [], Levels(plan), Progress(len(units), type_ + "s")
    try:
        progress.at(0)
        if plan.client.spread:
            done = lambda part: progress.more(len(part))
            tasks = list(parts_of(start, units, size_of_tasks(plan, start, units)))
            found = [it for own in plan.client.spread(each_of, (plan, start, levels), tasks, done) for it in own]
        for part in parts_of(start, units) if not plan.client.spread else ():
            # side by side, each with some of them, and no more at once than fit into memory
            shares = [part[it::JOBS] for it in range(JOBS) if part[it::JOBS]]
            works = (lambda own=own: each_of(plan, start, levels, own, progress.more) for own in shares)
            found += [it for own in plan.side_by_side(*works) for it in own]
    finally:
        progress.end()
    return sorted(found, key=Each.order)


def each_of(plan, start, levels, units, done=lambda: None):
    """Returns what some of the buckets cost, each of which fails alone; `done` is called after
    each."""
    placed = in_turn(plan, start.touched, [(stages_of(plan, of), start.wanted(of), start.before) for _, of in units])
    found = []
    for unit, lists in zip(units, placed):
        found.append(Each(plan, start, levels, *unit, lists))
        done()
    return found


def asked_for(start, unit):
    """Returns how many groups are asked for where a bucket fails: at two stages."""
    return 2 * sum(map(len, start.wanted(unit[1]).values()))


def size_of_tasks(plan, start, units):
    """Returns how many groups a task of other machines asks for: each of them gets several, so that
    all are done at nearly the same time."""
    whole = sum(asked_for(start, it) for it in units)
    return min(MOST_OF_TASK, whole // (TASKS_EACH * plan.client.jobs) + 1)


def parts_of(start, units, most=MOST_ASKED):
    """Yields parts of the buckets that fail in turn: so many that not too many groups are asked for
    at once."""
    part, room = [], most
    for unit in units:
        count = asked_for(start, unit)
        if part and count > room:
            yield part
            part, room = [], most
        part.append(unit)
        room -= count
    if part:
        yield part


def each_table(name, found):
    heads, table = (name, "devices", "stops", "short", "no device", "too full", "move", "copies", "bytes", "fullest"), [
        it.row() for it in found
    ]
    if any(it.is_in_part for it in found):
        heads = (*heads, "computed")
        table = [
            (*row, "nothing" if it.is_blank else "in part" if it.is_in_part else "all") for row, it in zip(table, found)
        ]
    return Table(heads, table, spare=(1, 3, 8), uncut=(9,))


def each_words(rows):
    """Says what the columns of the table are."""
    of = (
        "its percent of its share"
        if all(it["fullest"] is None or it["fullest"]["used_after"] is None for it in rows)
        else "how much of its room is used"
    )
    return (
        "stops: groups below min_size while it is down, whose I/O stops; short: groups below size then;\nno device:"
        " copies that have none once it is out; too full: devices that then get more and are past the\nbackfill-full"
        " ratio; move, copies: groups that then move, and copies written anew;\nfullest: the fullest device then, and"
        f" {of}."
    )


def each_sentence(plan, name, statuses, has):
    """Returns the answer in one sentence, from the status of each bucket of a type; `has` is what
    every copy has where the answer is yes."""
    all_, bad, unknown = counted(len(statuses), name), statuses.count(1), statuses.count(2)
    if not plan.pools:
        return "unknown: no pool can be computed."
    rest = f"; of {unknown:,} not all can be computed." if unknown else "."
    if bad:
        return f"no: of {all_} {bad:,} can't fail without I/O that stops or copies that have no room{rest}"
    if unknown:
        return f"unknown: of {all_} {len(statuses) - unknown:,} can fail, and every copy has {has}{rest}"
    return f"yes: {'each' if len(statuses) > 1 else 'the one'} of {all_} can fail, and every copy has {has}."


def each_fullest(it):
    if it["fullest"] is None:
        return "-"
    of = it["fullest"]["used_after"]
    return f"{it['fullest']['name']} {shown(it['fullest']['percent_after']) if of is None else hundredths(of)}%"
