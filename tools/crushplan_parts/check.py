"""`crushplan check`: what of a folder can be computed, and what can't."""
import collections
import pathlib

from .cluster import DF, MAP_DUMP, MAP_TEXT, OSD_DF, OSD_DUMP, PGS
from .computable import count_of
from .faults import Fault, counted, some
from .output import Answer, Table
from .pgs import Compared, by_device, entries_said, is_steady
from .write_text import Text

MOST_LINES = 20  # of groups that lie otherwise

FILES = (
    (MAP_DUMP, "the map, with exact weights"), (MAP_TEXT, "the map, with rounded weights"),
    (OSD_DUMP, "pools, reweights, up and down, exceptions"),
    (DF, "bytes of pools"), (OSD_DF, "bytes and room of devices"), (PGS, "where the cluster says that groups lie"),
)  # fmt: skip


def check(plan, asked):
    """Answers what of a folder can be computed, and whether groups lie as computed; with --mend it
    writes the map's text with the holes filled."""
    pools = [
        {
            "pool": it.id,
            "name": it.name,
            "size": it.size,
            "min_size": it.min_size,
            "computed": it.id in plan.pools,
            "why": plan.left_out.get(it.id, (None, None))[1],
        }
        for it in plan.cluster.pools.values()
    ]
    count = sum(it["computed"] for it in pools)
    status = 0 if count == len(pools) and pools else 1 if count else 2
    sentence = (
        f"{'yes' if status == 0 else 'in part' if status == 1 else 'no'}: {count:,} of"
        f" {counted(len(pools), 'pool')} can be computed"
    )
    lying = Lying(plan)
    files = [
        (
            name,
            (
                "read"
                if is_read(plan, name)
                else "not read: crush.json is" if (plan.cluster.folder / name).exists() else "not there"
            ),
            what,
        )
        for name, what in FILES
    ]
    blocks = [
        Table(("file", "", ""), files),
        Table(("", ""), map_lines(plan)),
        Table(
            ("pool", "id", "size", "min_size", "computed", "why not"),
            [(it["name"], it["pool"], it["size"], it["min_size"], it["computed"], it["why"] or "") for it in pools],
        ),
    ]
    blocks += lying.blocks()
    if asked.mend:
        blocks.append(mend(plan, asked.mend))
    own = [it for it in plan.map.buckets.values() if not it.shadow]
    fields = {
        "files": {name: is_read(plan, name) for name, _ in FILES}, "devices": len(plan.tree.placed_devices()),
        "buckets": len(own), "rules": len(plan.map.rules), "pools": pools,
        "holes": [{"bucket": bucket.name, "pos": place} for bucket, place in holes_of(plan.map)], "lying": lying.said(),
    }  # fmt: skip
    rows = [["pool", "name", "computed", "why"]] + [
        [it["pool"], it["name"], int(it["computed"]), it["why"] or ""] for it in pools
    ]
    status = 2 if lying.differs() else status
    answer = Answer(status, f"{sentence}{lying.sentence()}.", fields, blocks, rows, lying.drawing)
    return answer.of(plan.cluster.pools, ())


class Lying:
    """Whether groups lie as computed: by pgs.json each of them, else by osd-df.json how many each
    device has."""

    def __init__(self, plan):
        self.plan, self.compared, self.devices, self.looked, self.entries = plan, None, [], False, collections.Counter()
        if not plan.pools:
            return
        run, by_group = plan.run(), plan.cluster.groups is not None
        asked = {
            id_: run.lists(id_, range(it.pg_num)) if by_group else run.usage(id_) for id_, it in plan.pools.items()
        }
        plan.answer(run)
        if by_group:
            placements = {id_: run.placements(it) for id_, it in asked.items()}
            self.compared = Compared(plan, placements)
            for it in (it for own in placements.values() for it in own.values()):
                self.entries.update(device for device in it.up if device is not None)
        else:
            usages = {id_: run.counted(it) for id_, it in asked.items()}
            self.looked = is_steady(plan, usages) and any(it.groups is not None for it in plan.cluster.rooms.values())
            self.devices = by_device(plan, usages)
            for it in usages.values():
                self.entries.update(it.entries)

    def drawing(self):
        """Returns the drawing of how many groups each device has as computed, beside how many the
        cluster says that it has, where it does."""
        from .drawing import of_counts  # seldom needed

        plan, before = self.plan, None
        if plan.cluster.groups is not None:
            said = [entries_said(plan, it) for it in plan.pools.values()]
            before = None if None in said else sum(map(collections.Counter, said), collections.Counter())
        elif self.looked:
            before = {device: it.groups for device, it in plan.cluster.rooms.items() if it.groups is not None}
        words = ("in the cluster" if before else None, "computed")
        return of_counts(plan, "Groups of the computed pools, by device", words, before or None, self.entries)

    def differs(self):
        return bool(self.devices or self.compared and self.compared.others)

    def sentence(self):
        if self.compared:
            return f"; {self.compared.sentence()}"
        if self.devices:
            return f"; but groups don't lie as computed: {some(self.devices, 3)}"
        return "; each device has as many groups as computed" if self.looked else ""

    def blocks(self):
        """Returns what is said beside the sentence: the groups that differ, or how it can be
        known."""
        if self.compared and len(self.compared.others) > 1:
            return [
                "Groups that lie otherwise in the cluster:\n"
                + "\n".join(f"  {it}" for it in self.compared.lines()[:MOST_LINES])
            ]
        if self.compared or not self.plan.pools or self.plan.cluster.described:
            return []
        return ["Whether each group lies as computed is known with pgs.json: 'ceph pg dump pgs_brief -f json'."]

    def said(self):
        by_group = self.compared.said() if self.compared else None
        return {
            "by": "pgs.json" if by_group else "osd-df.json" if self.looked else None,
            **(by_group or {}),
            "devices": self.devices,
        }


def holes_of(map_):
    """Returns the holes of buckets, without those of single classes."""
    return [(bucket, place) for bucket, place in map_.holes() if not bucket.shadow]


def map_lines(plan):
    """Returns what the map and the states of devices are like."""
    map_, cluster = plan.map, plan.cluster
    own, devices, holes = (
        [it for it in map_.buckets.values() if not it.shadow],
        plan.tree.placed_devices(),
        holes_of(map_),
    )
    classes = sorted({it for it in map_.classes.values()})
    lists, primaries = (sum(map(len, it.values())) for it in (cluster.lists, cluster.primaries))
    more = [f"whole lists of {lists:,}"] * bool(lists) + [f"set primaries of {primaries:,}"] * bool(primaries)
    lines = [
        (
            "map",
            (
                f"{map_.file}: {counted(len(devices), 'device')} in {counted(len(own), 'bucket')},"
                f" {counted(len(map_.rules), 'rule')}"
            ),
        ),
        (
            "weights",
            "rounded to three decimals by 'crushtool -d'; crush.json has exact ones" if map_.rounded else "exact",
        ),
        ("buckets", ", ".join(f"{sum(it.alg == alg for it in own):,} {alg}" for alg in sorted({it.alg for it in own}))),
        (
            "holes",
            (
                f"{len(holes):,}, in {some([f'{bucket.name} (pos {place})' for bucket, place in holes])}: they are"
                " filled here by devices of weight 0"
                if holes
                else "none"
            ),
        ),
        (
            "not up or not in",
            some([map_.name_of(it) for it in devices if not plan.state(it).up or plan.state(it).reweight == 0])
            or "none",
        ),
        ("reweighted", some([map_.name_of(it) for it in devices if 0 < plan.state(it).reweight < 65536]) or "none"),
        (
            "upmap items",
            ", ".join([f"of {counted(sum(map(len, cluster.pairs.values())), 'group')}"] * bool(cluster.pairs) + more)
            or "none",
        ),
    ]
    lines += [
        ("classes", ", ".join(f"{sum(it == class_ for it in map_.classes.values()):,} {class_}" for class_ in classes))
    ] * bool(classes)
    lines += [("weight sets", count_of(map_, plan.pools.values()))] * bool(map_.weight_sets)
    return lines + [("primary affinity", f"other than 1: {plan.names_of(cluster.affinity)}")] * bool(cluster.affinity)


def is_read(plan, name):
    folder = plan.cluster.folder
    return (folder / name).exists() and (name != MAP_TEXT or not (folder / MAP_DUMP).exists())


def mend(plan, path):
    """Writes the whole map's text, with a device of weight 0 in each hole, and says so."""
    map_ = plan.map
    buckets = [it.id for it in map_.buckets.values() if not it.shadow]
    declared = set(map_.devices)
    more = {item for it in buckets for item, _ in map_.buckets[it].items if item is not None and item >= 0} - declared
    rules = [
        it.id
        for it in map_.rules.values()
        if not any(item < 0 and item not in buckets for item in it.takes()) and not it.odd
    ]
    text = Text(map_, buckets, sorted(rules), more, with_classes=True)
    try:
        pathlib.Path(path).write_text(text.text())
    except OSError as error:
        raise Fault(f"--mend {path}: {error.strerror or error}") from None
    left = [it.name for it in map_.rules.values() if it.id not in rules]
    return (
        f"{path} is the text of the map with {counted(len(text.filled), 'hole')} filled"
        + (f", without the rules {some(left)}" if left else "")
        + "."
    )
