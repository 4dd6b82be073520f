"""`crushplan compare`: what moves where a map is changed."""
import collections
import fractions
import pathlib

from .cluster import State, text_of
from .computable import pool_fault
from .crush_map import mark_holes
from .drawing import of_counts
from .faults import counted, some
from .output import Answer, Table, devices_text, sized
from .notes import Note
from .read_dump import read_dump
from .pgs import entries_said
from .reports import COPY, listed, used_said
from .run import Usage
from .settled import Placement, first_of, led
from .shares import Shares, hundredths, rounded
from .stages import Stages
from .summary import PoolChange, bytes_anew, gains, ratio_said, total, whole, written_anew
from .tree import Tree

ROUNDED = 33  # 65536ths by which rounding to three decimals changes a weight
GROUP_HEADS = ["pool", "group", "id", "before", "after", "primary_before", "primary_after", "copies"]
HOST_HEADS = ["host", "lost", "gained"]


def read_new(plan, path):
    """Reads the changed map: a text, or a dump."""
    path = pathlib.Path(path)
    start = text_of(path).lstrip()[:1]
    if start == "{":
        map_ = read_dump(path, path.name)
    else:
        from .read_text import read_text

        map_ = read_text(text_of(path), path.name)
    mark_holes(map_.buckets, 0 in plan.cluster.states or plan.cluster.described)
    return map_


class NewMap:
    """A changed map as crushcalc takes it, with the pools that it can compute, by id, and those
    that it can't."""

    def __init__(self, plan, map_):
        self.plan, self.map, self.left_out, self.pools = plan, map_, [], {}
        for pool in plan.pools.values():
            why = pool_fault(map_, pool, plan.cluster.described)
            if why:
                self.leave_out(pool, *why)
            else:
                self.pools[pool.id] = pool
        self.texts = plan.acceptance.accepted(map_, self.pools, self.leave_out)

    def leave_out(self, pool, kind, why):
        self.left_out.append(pool)
        self.plan.notes.append(
            Note(kind, f"pool {pool.name} ({pool.id}) isn't computed on {self.map.file}: {why}", pools=[pool.id])
        )

    def changes(self):
        """Returns what moves in each pool that is computed on both maps."""
        plan, pools = self.plan, list(self.pools.values())
        if not pools:
            return []
        run = plan.run(self.pools)
        asked = {it.id: run.usage(it.id) for it in pools}
        plan.answer(run)
        before = {it.id: run.counted(asked[it.id]) for it in pools}
        plan.doubt_usage(before)
        stages = Stages(plan, self.pools)
        moves = stages.set_map(self.map, self.texts, True)
        return [Compared(plan, self.map, it, before[it.id], stages.usages[it.id], moves[it.id]) for it in pools]

    def changes_by_word(self):
        """Returns what moves in the pools that can be computed on the new map alone, as those of
        straw buckets of which it makes straw2 ones: from where the cluster itself says that their
        groups lie."""
        plan, own = self.plan, {}
        for id_ in list(plan.left_out):
            pool = plan.cluster.pools[id_]
            if (
                plan.cluster.groups is not None
                and plan.map.rules.get(pool.rule)
                and entries_said(plan, pool) is not None
                and not pool_fault(self.map, pool, plan.cluster.described)
            ):
                own[id_] = pool
        texts = plan.acceptance.accepted(self.map, own, lambda *_: None)
        if not own:
            return []
        for it in own.values():
            plan.take_in(it)
        stages = Stages(plan, own, first=texts)
        after = stages.set_states([], {id_: range(it.pg_num) for id_, it in own.items()})[-1]
        return [self.by_word(it, after[it.id]) for it in own.values()]

    def by_word(self, pool, after):
        said = self.plan.cluster.groups[pool.id]
        before = Usage(entries_said(self.plan, pool), {})
        entries = Usage({}, {}).after([(Placement([], [], None), it) for it in after.values()])
        moves = {group: (said[group].up, it.up) for group, it in after.items() if said[group].up != it.up}
        return Compared(self.plan, self.map, pool, before, entries, moves)


def compare(plan, asked):
    """Answers what a changed map moves, or each of several."""
    if asked.others:
        from .compare_each import compare_each

        return compare_each(plan, asked)
    new = NewMap(plan, read_new(plan, asked.new))
    changes = new.changes() + new.changes_by_word()
    if not changes:
        return nothing(new, asked.groups)
    pools = [it.pool for it in changes]
    moved, copies = sum(len(it.moves) for it in changes), sum(it.copies for it in changes)
    bytes_ = total(it.bytes for it in changes)
    missing, before = sum(it.missing for it in changes), sum(it.missing_before for it in changes)
    least = sum((it.least for it in changes), fractions.Fraction(0))
    unknown = bool(new.left_out or plan.left_out)
    full = Filled(plan, new.map, changes)
    status = 1 if missing or full.past["backfillfull_ratio"] else 2 if unknown else 0
    sentence = (
        f"{counted(moved, 'group')} {'moves' if moved == 1 else 'move'}, and"
        f" {counted(copies, *COPY)} {'is' if copies == 1 else 'are'} written anew"
        + (
            f"; {counted(missing, *COPY)} {'has' if missing == 1 else 'have'} no"
            f" device{' (as many as before)' if missing == before else f' ({before:,} before)' if before else ''}"
            if missing
            else ""
        )
        + (
            f"; {full.past_text('backfillfull_ratio')}, past the backfill-full ratio"
            if full.past["backfillfull_ratio"]
            else ""
        )
        + ("; not all can be computed" if unknown else "")
        + "."
    )
    rows = [
        ("groups that move", f"{moved:,} of {sum(it.pg_num for it in pools):,}"),
        ("copies that are written anew", f"{copies:,}" + (f", {sized(bytes_)}" if bytes_ is not None else "")),
        ("the least that the change of weights asks for", f"{rounded(least.numerator, least.denominator, 1):,} copies"),
        ("copies without a device afterwards", f"{missing:,}" if missing else "none"),
    ]  # fmt: skip
    rows += full.rows()
    if new.map.rounded and not plan.map.rounded:
        plan.notes.append(
            Note(
                "rounded",
                (
                    f"{new.map.file} has weights with three decimals, and {plan.map.file} exact ones: what this"
                    " rounding alone moves is part of the answer, as it would be in the cluster"
                ),
                open_=False,
            )
        )
    hosts = hosts_of(plan, new.map, changes)
    by_pool = (
        Table(
            ("pool", "id", "move", "of", "copies", "bytes", "least"),
            [
                (
                    it.pool.name,
                    it.pool.id,
                    len(it.moves),
                    it.pool.pg_num,
                    it.copies,
                    sized(it.bytes),
                    rounded(it.least.numerator, it.least.denominator, 1),
                )
                for it in changes
            ],
            "By pool:",
        )
        if len(changes) > 1
        else None
    )
    by_host = Table(("host", "lost", "gained"), hosts, "Copies lost and gained, by host:") if hosts else None
    blocks = [Table(("", ""), rows), by_pool, by_host]
    groups = [
        (it.pool, group, old, now, written_anew(it.pool, old, now))
        for it in changes
        for group, (old, now) in sorted(it.moves.items())
    ]
    if asked.groups:
        blocks.append(
            Table(
                ("group", "before", "after", "copies"),
                [
                    (pool.group_name(group), devices_text(old), devices_text(now), count)
                    for pool, group, old, now, count in groups
                ],
                "Groups that move:",
            )
            if groups
            else "No group moves."
        )
    fields = {
        "new": new.map.file, "moved": moved, "copies": copies, "bytes": whole(bytes_),
        "least": rounded(least.numerator, least.denominator, 2), "missing_copies": missing,
        "missing_copies_before": before, **full.said(),
        "pools": [it.said() for it in changes],
        "hosts": [{"name": name, "lost": lost, "gained": gained} for name, lost, gained in hosts],
    }  # fmt: skip
    own = [GROUP_HEADS] + [
        [
            pool.id,
            group,
            pool.group_name(group),
            listed(old),
            listed(now),
            primary(plan, pool, group, old),
            primary(plan, pool, group, now),
            count,
        ]
        for pool, group, old, now, count in groups
    ]
    if asked.groups:
        fields["groups"] = [
            {
                "pool": pool.id,
                "group": group,
                "id": pool.group_name(group),
                "before": old,
                "after": now,
                "primary_before": primary(plan, pool, group, old),
                "primary_after": primary(plan, pool, group, now),
                "copies": count,
            }
            for pool, group, old, now, count in groups
        ]
    else:
        own = [HOST_HEADS, *hosts]
    answer = Answer(status, sentence, fields, blocks, own, lambda: drawn(plan, new.map, changes))
    return answer.of(plan.cluster.pools, {it.pool.id for it in changes if it.moves})


def drawn(plan, map_, changes):
    """Returns the drawing of copies before and after."""
    before, after = collections.Counter(), collections.Counter()
    for it in changes:
        before.update(it.before.entries)
        after.update(it.after.entries)
    return of_counts(plan, "Copies, by device", ("before", "after"), before, after, Tree(map_))


def nothing(new, with_groups):
    """Returns the answer where no pool can be computed."""
    fields = dict.fromkeys(("moved", "copies", "bytes", "least", "missing_copies", "missing_copies_before", "fullest"))
    fields = {"new": new.map.file, **fields, "past_nearfull": [], "past_backfillfull": [], "pools": [], "hosts": []}
    if with_groups:
        fields["groups"] = []
    return Answer(2, "unknown: no pool can be computed.", fields, [], [GROUP_HEADS if with_groups else HOST_HEADS])


def primary(plan, pool, group, up):
    """Returns the primary of an up list: the first device, but for affinities, which change no
    order of an erasure pool."""
    return led(pool, group, up, plan.exceptions.affinity)[1] if pool.kind == "erasure" else first_of(up)


class Compared:
    """What a changed map moves in one pool."""

    def __init__(self, plan, map_, pool, before, after, moves):
        self.pool, self.moves, self.before, self.after = pool, moves, before, after
        written = [(group, written_anew(pool, *both)) for group, both in self.moves.items()]
        self.copies = sum(copies for _, copies in written)
        self.change = PoolChange(pool, before, set(), [])
        self.bytes, self.gains = bytes_anew(self.change, written), gains(
            pool, [(group, *both) for group, both in self.moves.items()]
        )
        self.missing, self.missing_before = (pool.size * pool.pg_num - it.total() for it in (after, before))
        old = Shares(plan.map, plan.map.rules[pool.rule], pool.size, plan.state)
        new = Shares(map_, map_.rules[pool.rule], pool.size, lambda it: plan.state(it) if it in plan.known else State())
        # the parts that devices gain, each of the copies that there are
        grown = (new.of(it) * old.whole - old.of(it) * new.whole for it in old.devices() | new.devices())
        self.least = fractions.Fraction(sum(it for it in grown if it > 0), old.whole * new.whole) * before.total()

    def said(self):
        return {
            "pool": self.pool.id,
            "name": self.pool.name,
            "moved": len(self.moves),
            "copies": self.copies,
            "bytes": whole(self.bytes),
            "least": rounded(self.least.numerator, self.least.denominator, 2),
            "missing_copies": self.missing,
            "missing_copies_before": self.missing_before,
        }


class Filled:
    """How full the devices get that have one weight in both maps: that of another weight may be
    another device by then, and of a new one the files know no room."""

    def __init__(self, plan, map_, changes):
        self.plan, self.used = plan, {}
        weights, cluster = [weights_of(it) for it in (plan.map, map_)], plan.cluster
        for device, room in sorted(cluster.rooms.items()):
            gained = total(it.change.bytes_of(it.gains[device]) for it in changes)
            old, new = (it.get(device) for it in weights)
            if gained is not None and room.size > 0 and old and new and abs(old - new) <= ROUNDED:
                self.used[device] = room.used_after(), room.used_after(gained)
        self.fullest = max(self.used, key=lambda it: (self.used[it][1], -it), default=None)
        self.past = {
            name: [it for it, (old, new) in self.used.items() if new > old and cluster.is_past(name, new)]
            for name in ("nearfull_ratio", "backfillfull_ratio")
        }

    def past_text(self, name):
        return some([used_said(it, self.used[it][1]) for it in self.past[name]], 3)

    def rows(self):
        if self.fullest is None:
            return []
        near = self.plan.cluster.ratios.get("nearfull_ratio")
        ratio = f"; near-full is {hundredths(near)}%" if near is not None else ""
        found = [
            (
                "fullest of the devices whose weight stays",
                (
                    f"{self.plan.map.name_of(self.fullest)} ({self.plan.tree.host(self.fullest)}):"
                    f" {hundredths(ratio_said(self.used[self.fullest][1]))}% used{ratio}"
                ),
            )
        ]
        return found + (
            [("past the near-full ratio", self.past_text("nearfull_ratio"))] if self.past["nearfull_ratio"] else []
        )

    def said(self):
        old, new = self.used.get(self.fullest, (None, None))
        fullest = (
            self.fullest
            if self.fullest is None
            else {"device": self.fullest, "used_before": ratio_said(old), "used_after": ratio_said(new)}
        )
        return {"fullest": fullest, **{f"past_{name.removesuffix('_ratio')}": self.past[name] for name in self.past}}


def weights_of(map_):
    """Returns the weight of each device, in all buckets but the trees of classes."""
    found = {}
    for bucket in map_.buckets.values():
        for item, weight in bucket.items if not bucket.shadow else ():
            if item is not None and item >= 0:
                found[item] = found.get(item, 0) + weight
    return found


def hosts_of(plan, map_, changes):
    """Returns of each host how many copies it loses and gains, most first."""
    trees, found = (plan.tree, Tree(map_)), {}
    for it in changes:
        for old, now in it.moves.values():
            for tree, place, items, others in ((trees[0], 0, old, now), (trees[1], 1, now, old)):
                for device in {d for d in items if d is not None} - set(others):
                    found.setdefault(tree.host(device), [0, 0])[place] += 1
    return [[name, *both] for name, both in sorted(found.items(), key=lambda it: (-sum(it[1]), it[0]))]
