"""`crushplan upmap`: what a list of upmap commands does, before it is sent."""
import pathlib
import re
import sys

from .cluster import text_of
from .drawing import of_devices
from .faults import Fault, counted, some
from .output import Answer, Table, devices_text, sized
from .notes import Note
from .reports import COPY, listed
from .shares import percent
from .summary import Moved, PoolChange, devices_of, total, whole
from .upmap_rules import pair_remarks

COMMAND = re.compile(r"(?:\S*/)?ceph\s+(?:-\S+\s+\S+\s+)*?osd\s+(\S+)\s+(\S+)\s*(.*)")
GROUP = re.compile(r"(\d{1,10})\.([0-9a-f]{1,8})")
DEVICE = re.compile(r"(?:osd\.)?(\d{1,9})")
PAIRS, NO_PAIRS, PRIMARY, NO_PRIMARY = "pg-upmap-items", "rm-pg-upmap-items", "pg-upmap-primary", "rm-pg-upmap-primary"


class Commands:
    """What a list sets: of each pool and group its pairs, and its primary or None; the line of the
    last command of each."""

    def __init__(self):
        self.pairs, self.primaries, self.where = {}, {}, {}

    def take(self, parts, where):
        """Takes a command of a list."""
        group = GROUP.fullmatch(parts[2])
        if not group:
            raise Fault(f"{where}: {parts[2]!r} isn't the id of a group as 1.1c")
        key, words = (int(group[1]), int(group[2], 16)), parts[3].split()
        self.where[key] = where
        if parts[1] in (PAIRS, NO_PAIRS):
            self.pairs[key] = pairs_in(words, where) if parts[1] == PAIRS else []
            return
        ids = [DEVICE.fullmatch(it) for it in words]
        if None in ids or len(ids) != (parts[1] == PRIMARY):
            raise Fault(
                f"{where}: it wants {'one device' if parts[1] == PRIMARY else 'no device'} behind the group, and has"
                f" {' '.join(words) or 'none'}"
            )
        self.primaries[key] = int(ids[0][1]) if ids else None

    def devices_of(self, key):
        return [it for pair in self.pairs.get(key, ()) for it in pair] + (
            [self.primaries[key]] if self.primaries.get(key) is not None else []
        )


def read_commands(path):
    """Reads the lines `ceph osd pg-upmap-items GROUP FROM TO ..`, `pg-upmap-primary GROUP DEVICE`,
    and those with rm- that take them away, of a file, or of standard input by '-'."""
    text, name = (sys.stdin.read(), "standard input") if path == "-" else (text_of(pathlib.Path(path)), path)
    found = Commands()
    for number, line in enumerate(text.splitlines(), 1):
        # what a shell reads behind a command isn't a part of it
        line = line.split("#", 1)[0].strip().rstrip(";&").strip()
        if not line:
            continue
        where = f"{name}: line {number}"
        parts = COMMAND.fullmatch(line)
        if not parts or parts[1] not in (PAIRS, NO_PAIRS, PRIMARY, NO_PRIMARY):
            raise Fault(
                f"{where}: it isn't 'ceph osd pg-upmap-items GROUP FROM TO ..', 'ceph osd pg-upmap-primary GROUP"
                f" DEVICE', nor one with rm- before: {line[:60]}"
            )
        found.take(parts, where)
    return found


def pairs_in(words, where):
    ids = [DEVICE.fullmatch(it) for it in words]
    if None in ids:
        raise Fault(f"{where}: {words[ids.index(None)]!r} isn't the id of a device")
    if not ids or len(ids) % 2:
        raise Fault(f"{where}: it wants pairs of devices, FROM TO, and has {counted(len(ids), 'device')}")
    numbers = [int(it[1]) for it in ids]
    return list(zip(numbers[::2], numbers[1::2]))


def checked(plan, commands):
    """Returns the groups of the commands, by pool, of computed pools; the others are noted. A Fault
    names the line of a pool, a group or a device that isn't there."""
    found, left_out = {}, {}
    for key, where in commands.where.items():
        pool, group = key
        known = plan.cluster.pools.get(pool)
        if known is None:
            raise Fault(f"{where}: there is no pool {pool}")
        if group >= known.pg_num:
            raise Fault(
                f"{where}: pool {known.name} has {counted(known.pg_num, 'group')}, none of which is"
                f" {known.group_name(group)}"
            )
        for device in commands.devices_of(key):
            if device not in plan.known:
                raise Fault(f"{where}: there is no device osd.{device}")
        if any(old == new for old, new in commands.pairs.get(key, ())):
            raise Fault(f"{where}: a pair leads from a device to itself")
        (found if pool in plan.pools else left_out).setdefault(pool, []).append(group)
    for pool, groups in left_out.items():
        names = [plan.cluster.pools[pool].group_name(it) for it in sorted(groups)]
        plan.notes.append(
            Note(
                "upmap",
                (
                    f"what the list does to {counted(len(names), 'group')} of"
                    f" {plan.pools_text([pool])} ({some(names)}), which isn't computed"
                ),
                pools=[pool],
                groups=names,
            )
        )
    return found, left_out


class Lists:
    """Where the groups of a list of commands lie, before and after, by pool."""

    def __init__(self, plan, commands, wanted):
        self.plan, run = plan, plan.run(wanted)
        usages = {pool: run.usage(pool) for pool in wanted}
        before = {pool: run.lists(pool, own) for pool, own in wanted.items()}
        self.pairs = {
            pool: {it: commands.pairs.get((pool, it), plan.pairs[pool].get(it, [])) for it in own}
            for pool, own in wanted.items()
        }
        exceptions = plan.exceptions.with_primaries(commands.primaries)
        after = {pool: run.lists(pool, own, self.pairs[pool], exceptions) for pool, own in wanted.items()}
        plan.answer(run)
        self.usages = {pool: run.counted(it) for pool, it in usages.items()}
        self.before, self.after = ({pool: run.placements(it) for pool, it in own.items()} for own in (before, after))

    def changes(self):
        """Returns what changes in each pool."""
        found = []
        for pool, own in self.pairs.items():
            old, new, known = self.before[pool], self.after[pool], self.plan.pools[pool]
            # another order alone, by another primary, moves nothing
            moves = [
                Moved(known, group, old[group], new[group])
                for group in sorted(own)
                if old[group].up != new[group].up
                and (known.kind == "erasure" or set(old[group].up) != set(new[group].up))
            ]
            found.append(PoolChange(known, self.usages[pool], set(), moves))
        return found

    def rows(self, commands):
        """Returns what is said of each group."""
        return [
            row_of(
                self.plan,
                self.plan.pools[pool],
                group,
                own[group],
                commands,
                self.before[pool][group],
                self.after[pool][group],
            )
            for pool, own in self.pairs.items()
            for group in sorted(own)
        ]


def upmap(plan, asked):
    """Answers what a list of upmap commands does."""
    commands = read_commands(asked.file)
    wanted, left_out = checked(plan, commands)
    lists = Lists(plan, commands, wanted)
    plan.doubt_groups({pool: it for pool, it in lists.before.items()})
    changes, rows = lists.changes(), lists.rows(commands)
    moved, copies = sum(len(it.moves) for it in changes), sum(it.copies for it in changes)
    bytes_ = total(it.bytes for it in changes)
    refused, idle = [it for it in rows if it["breaks"]], [it for it in rows if it["remarks"]]
    cut = [it for it in rows if not it["breaks"] and it["kept"] != it["pairs"]]
    status = 1 if refused or cut else 2 if left_out else 0
    sentence = (
        ("no: " if refused or cut else "unknown: " if left_out else "yes: ")
        + f"{counted(moved, 'group')} {'moves' if moved == 1 else 'move'}, and"
        f" {counted(copies, *COPY)} {'is' if copies == 1 else 'are'} written anew"
    )
    if not rows and not left_out:
        sentence = f"yes: no group moves, since {'standard input' if asked.file == '-' else asked.file} has no commands"
    primaries = sum(it["primary_before"] != it["primary_after"] for it in rows)
    sentence += (
        f"; {counted(primaries, 'primary', 'primaries')} {'changes' if primaries == 1 else 'change'}"
        if commands.primaries
        else ""
    )
    sentence += (
        refusals(refused, cut, idle)
        + (f"; of {plan.pools_text(left_out)} nothing is computed" if left_out else "")
        + "."
    )
    blocks = [
        (
            Table(
                ("group", "pairs", "before", "after", "copies", "remark"),
                [
                    (
                        it["id"],
                        pairs_text(it["pairs"]),
                        devices_text(it["before"]),
                        devices_text(it["after"]),
                        it["copies"],
                        remark_of(it),
                    )
                    for it in rows
                ],
            )
            if rows
            else ""
        )
    ]
    even = evenness(plan, changes)
    blocks.append(even_text(even) + (f" Bytes: {sized(bytes_)}." if bytes_ is not None else ""))
    fields = {"moved": moved, "copies": copies, "bytes": whole(bytes_), "groups": rows, "evenness": even}
    heads = ["pool", "group", "id", "pairs", "before", "after", "copies", "breaks", "remarks"]
    own = [heads] + [
        [
            it["pool"],
            it["group"],
            it["id"],
            pairs_text(it["pairs"]),
            listed(it["before"]),
            listed(it["after"]),
            it["copies"],
            it["breaks"] or "",
            "; ".join(it["remarks"]),
        ]
        for it in rows
    ]
    answer = Answer(status, sentence, fields, blocks, own, lambda: changed_devices(plan, changes))
    return answer.of({it["pool"] for it in rows})


def changed_devices(plan, changes):
    """Returns the drawing of the devices that get more or less."""
    return of_devices(plan, [it for it in devices_of(plan, changes) if it.before != it.after])


def refusals(refused, cut, idle):
    """Says what Ceph doesn't keep of a list."""
    words = f"; {counted(len(refused), 'group')} would break the rule, and Ceph removes such items" if refused else ""
    if cut:
        words += (
            f"; of {counted(len(cut), 'group')} Ceph removes pairs again, and keeps"
            f" {some([it['id'] + ' ' + pairs_text(it['kept']) for it in cut], 3)}"
        )
    return words + (f"; of {counted(len(idle), 'group')} a pair or a primary has no effect" if idle else "")


def remark_of(it):
    """Returns what is to be said of a group."""
    changed = it["primary_before"] is not None and it["primary_after"] not in (it["primary_before"], None)
    primary = (
        [f"primary osd.{it['primary_before']} becomes osd.{it['primary_after']}"]
        if changed and it["before"] and set(it["before"]) == set(it["after"])
        else []
    )
    return "; ".join(([it["breaks"]] if it["breaks"] else []) + it["remarks"] + primary)


def pairs_text(pairs):
    return " ".join(f"{old}>{new}" for old, new in pairs) or "none"


def row_of(plan, pool, group, pairs, commands, before, after):
    move, keeper, key = Moved(pool, group, before, after), plan.keeper, (pool.id, group)
    list_ = plan.exceptions.lists.get(pool.id, {}).get(group)
    items, remarks = pair_remarks(after.raw if list_ is None or keeper.is_idle(list_) else list_, pairs, keeper.may_be)
    primary = commands.primaries.get(key)
    if primary is not None and after.primary != primary:
        remarks.append(f"osd.{primary} isn't the primary by it: no effect")
    return {
        "pool": pool.id, "group": group, "id": pool.group_name(group), "pairs": [list(it) for it in pairs],
        "raw": after.raw, "before": before.up, "after": after.up,
        "primary_before": before.primary, "primary_after": after.primary, "copies": move.copies,
        "breaks": keeper.broken(pool, items) if pairs else None, "remarks": remarks,
        "kept": [list(it) for it in keeper.kept_at_last(pool, after.raw, pairs, list_)[0]],
    }  # fmt: skip


def evenness(plan, changes):
    """Returns the least and the greatest percent of its share that a device has, before and after,
    in these pools."""
    found = {}
    for it in devices_of(plan, changes):
        for name, copies, expected in (
            ("before", it.before, it.expected_before),
            ("after", it.after, it.expected_after),
        ):
            of = percent(copies, expected)
            if of is not None:
                own = found.setdefault(name, {"least": of, "greatest": of})
                own["least"], own["greatest"] = min(own["least"], of), max(own["greatest"], of)
    return found


def even_text(even):
    if not even:
        return ""
    return (
        "Of its share a device has "
        + ", ".join(f"{it['least']}% to {it['greatest']}% {name}" for name, it in even.items())
        + "."
    )
