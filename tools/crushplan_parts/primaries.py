"""`crushplan balance --primaries`: which primaries to set so that each device has as many as its
share asks for, as lines to type. No data moves: a primary goes to a device that has a copy."""
import fractions

from .balance import Watch, begun, note, nothing
from .balanced import (
    FARTHEST,
    clients_lines,
    devices_said,
    fixed_text,
    lacks_pools,
    lines_text,
    usage_said,
    write_lines,
)
from .balancing import ceiling, cut_off, floor
from .drawing import of_counts
from .evening import Ground, Search
from .faults import Fault, counted, some
from .output import Answer, Table
from .proposal import Stopped
from .waiting import waiting

SET, REMOVE = "ceph osd pg-upmap-primary", "ceph osd rm-pg-upmap-primary"
FIRST = "reef"  # the first release that has them; names of releases go by the alphabet
MOST_NAMED = 4


class PrimarySearch(Search):
    """A search over the primaries of a pool: each group has one, which may go to any of its
    `choices`, bits of devices by group."""

    def __init__(self, ground, low, high, choices, watch):
        self.choices = choices
        super().__init__(ground, low, high, lambda device, count: count - self.wanted(device), watch)

    def wanted(self, device):
        return (self.low[device] + self.high[device]) / 2

    def group_for(self, source, target):
        own = self.bit[target]
        for groups in (self.moved[source], self.held[source]):
            for group in groups:
                if self.choices[group] & own:
                    return group
        return None

    def reached(self, source, groups):
        found = 0
        for group in groups:
            found |= self.choices[group]
        return found


class Primaries:
    """The primaries of a pool: each device's share of them, and the search for those to set."""

    def __init__(self, plan, balancing, watch):
        self.plan, self.pool, self.placements = plan, balancing.pool, balancing.placements
        self.natural = {group: natural(plan, items) for group, items in balancing.items.items()}
        lists = {group: (it.primary,) for group, it in self.placements.items() if it.primary is not None}
        devices = {it: 0 for it in balancing.shares}
        self.ground = Ground(lists, dict.fromkeys(lists, ()), {}, devices, {it: it for it in devices})
        whole = sum(balancing.shares.values())
        self.shares = {it: of * len(lists) / whole for it, of in balancing.shares.items()}
        low = {it: floor(of) for it, of in self.shares.items()}
        high = {it: ceiling(of) for it, of in self.shares.items()}
        choices = {group: self.ground.mask_of(self.placements[group].up) for group in lists}
        self.search = PrimarySearch(self.ground, low, high, choices, watch)
        self.least = self.ground.least(low, high, devices)

    def distance(self, counts):
        return max((abs(counts[it] - of) for it, of in self.shares.items()), default=fractions.Fraction(0))

    def off(self):
        search = self.search
        return sorted(it for it in self.shares if not search.low[it] <= search.count[it] <= search.high[it])

    def chosen(self):
        """Yields each group that gets another primary, and it; None where that is the one that it
        has when none is set."""
        for group in sorted(self.search.changed):
            device = self.search.at[group][0]
            yield group, None if device == self.natural[group] else device

    def said(self):
        return {
            "pool": self.pool.id, "name": self.pool.name, "size": self.pool.size, "pg_num": self.pool.pg_num,
            "changed": len(self.search.changed), "least": self.least,
            "deviation_before": cut_off(self.distance(self.ground.counts)),
            "deviation_after": cut_off(self.distance(self.search.count)),
            "off": [self.device_said(it) for it in self.off()],
            "usage": usage_said(self.shares, self.ground.counts, self.search.count),
        }  # fmt: skip

    def device_said(self, it):
        return {
            "device": it, "primaries": self.search.count[it], "copies": self.copies_of(it),
            "share": cut_off(self.shares[it]),
        }  # fmt: skip

    def copies_of(self, device):
        return sum(device in it.up for it in self.placements.values())


def natural(plan, items):
    """Returns the primary of a list without one that is set: the first device that is up."""
    return next((it for it in items if it is not None and plan.state(it).up), None)


def primaries(plan, asked):
    """Answers which primaries to set."""
    wants_release(plan)
    balancings = [it for it in begun(plan, asked) if not left_out(plan, it)]
    if plan.doubt or not balancings:
        return nothing(plan, "unknown: no pool has primaries that can be evened out.")
    waiting.at("searching")
    is_whole = True
    with Watch() as watch:
        found = [Primaries(plan, it, watch) for it in balancings]
        watch.begin(sum(it.least for it in found))
        try:
            for it in found:
                it.search.even()
        except Stopped:
            is_whole = False
    return answer(plan, asked, found, is_whole)


def wants_release(plan):
    release = plan.cluster.releases.get("require_osd_release")
    if release and release < FIRST:
        raise Fault(
            f"--primaries: pg-upmap-primary is of release 18 ({FIRST}), and osd.json has require_osd_release {release}"
        )


def left_out(plan, balancing):
    """Returns whether the primaries of a pool stay as they are, and notes why."""
    pool, why = balancing.pool, None
    if pool.kind != "replicated":
        why = "it is an erasure pool, whose primaries Ceph doesn't let one set"
    elif len(balancing.blocks) > 1:
        why = "its rule has several takes, of which the first has the primaries"
    elif plan.is_affine(pool.id):
        why = "primary affinities choose its primaries"
    if why:
        note(plan, pool, why)
    return bool(why)


def groups_said(plan, found):
    """Returns what is said of each group that gets another primary; a Fault where crushcalc has
    another one."""
    changed = {(it.pool.id, group): device for it in found for group, device in it.chosen()}
    run = plan.run([it.pool.id for it in found])
    exceptions = plan.exceptions.with_primaries(changed)
    asked = {it.pool.id: run.lists(it.pool.id, it.search.changed, plan.pairs[it.pool.id], exceptions) for it in found}
    plan.answer(run)
    rows = []
    for it in found:
        after = run.placements(asked[it.pool.id])
        for group, device in it.chosen():
            name, primary = it.pool.group_name(group), it.search.at[group][0]
            if after[group].primary != primary:
                raise Fault(f"the primary found for {name} isn't the one that it gets: a mistake in crushplan")
            line = f"{REMOVE} {name}" if device is None else f"{SET} {name} {device}"
            rows.append({
                "pool": it.pool.id, "group": group, "id": name, "up": it.placements[group].up,
                "primary_before": it.placements[group].primary, "primary_after": primary, "line": line,
            })  # fmt: skip
    return rows


def answer(plan, asked, found, is_whole):
    groups, pools = groups_said(plan, found), [it.said() for it in found]
    lines, least = [it["line"] for it in groups], sum(it.least for it in found)
    off = [it for it in pools if it["off"]]
    if asked.lines:
        write_lines(asked.lines, lines)
    status = 2 if lacks_pools(plan, asked) else 1 if off or not is_whole else 0
    fields = {"whole": is_whole, "changed": len(groups), "least": least, "pools": pools, "groups": groups}
    fields |= {"lines": lines, "devices": devices_said(plan, pools), "remarks": remarks(plan, pools, lines)}
    heads = ["pool", "group", "id", "primary_before", "primary_after", "line"]
    rows = [heads, *([it[head] for head in heads] for it in groups)]
    blocks = [pools_table(pools), "\n".join(fields["remarks"]), lines_text(lines)]
    answer = Answer(status, sentence(groups, least, off, is_whole), fields, blocks, rows, lambda: drawing(plan, found))
    return answer.of({it["pool"] for it in fields["pools"]}, ())


def sentence(groups, least, off, is_whole):
    verb = "changes" if len(groups) == 1 else "change"
    changes = f"{counted(len(groups), 'primary', 'primaries')} {verb}, and no data moves"
    if not is_whole:
        return f"interrupted: {changes} so far; all of it wants {least:,} at least."
    rest = f"; some devices of {some([it['name'] for it in off], 3)} stay 1 or more off" if off else ""
    less = ", which is the least" if len(groups) == least else f"; no list of lines changes fewer than {least:,}"
    if not groups:
        return f"no primary has to change{rest}."
    return f"{changes}{less}{rest}."


def pools_table(pools):
    rows = []
    for it in pools:
        farthest = [fixed_text(it["deviation_before"]), fixed_text(it["deviation_after"])]
        rows.append((it["name"], it["pool"], *farthest, it["changed"], it["least"]))
    return Table(("pool", "id", *FARTHEST, "primaries change", "least"), rows)


def remarks(plan, pools, lines):
    """Returns what else is to be said, a line each."""
    found = ["'farthest' is how many primaries a device is from its share of copies by the pool's size, at most."]
    for pool in (it for it in pools if it["off"]):
        of = lambda it: f"osd.{it['device']} has {it['primaries']} of {it['copies']} copies for {it['share']}"
        each = some(list(map(of, pool["off"])), MOST_NAMED)
        found.append(f"Of pool {pool['name']} {each}: its copies allow no other number; even these out.")
    return [*found, *(clients_lines(plan, FIRST, "lines") if lines else ())]


def drawing(plan, found):
    before, after = {}, {}
    for it in found:
        for counts, own in ((before, it.ground.counts), (after, it.search.count)):
            for device in it.shares:
                counts[device] = counts.get(device, 0) + own[device]
    return of_counts(plan, "Primaries, by device", ("before", "after"), before, after)
