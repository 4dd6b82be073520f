"""What crushplan foretold of a step, beside what the cluster then did. `compared` yields each
comparison of a recorded step (steps.py): what was compared, and why it differs, or None."""
import collections
import concurrent.futures
import hashlib
import json
import pathlib
import subprocess

import steps

CRUSHPLAN = pathlib.Path(__file__).resolve().parent.parent.parent / "tools" / "crushplan"
ERASURE = 3
JOBS = 4
SECONDS = 1800  # on a slow machine


class Unsaid(Exception):
    """Says what crushplan said in the place of an answer."""


class Step:
    """A recorded step, and crushplan on the dumps before it."""

    def __init__(self, folder, program):
        self.folder, self.program = folder, program
        self.record = steps.read(folder)
        self.pools = self.record["pools"]
        self.before, self.stages = self.record["before"], [it["groups"] for it in self.record["stages"]]
        self.drains = {tuple(it["names"]): it["groups"] for it in self.record.get("drains", ()) if "groups" in it}
        self.kept = {tuple(it["names"]): it for it in self.record.get("drains", ()) if "groups" not in it}

    def foretold(self, *words, kinds=()):
        """Returns the object of JSON that crushplan writes for a command on the folder. What isn't
        computed may be of some kinds."""
        command, *rest = [str(self.folder / it[7:]) if it.startswith("FOLDER/") else it for it in words]
        rest += self.record.get("more", [])
        ran = subprocess.run(
            [str(CRUSHPLAN), command, str(self.folder), *rest, "--json", "--program", self.program],
            stdin=subprocess.DEVNULL,
            stdout=subprocess.PIPE,
            stderr=subprocess.PIPE,
            timeout=SECONDS,
        )
        try:
            said = json.loads(ran.stdout)
        except ValueError:
            said = {"error": f"{ran.stdout!r} {ran.stderr!r}"}
        if "error" in said:
            raise Unsaid(f"crushplan {' '.join(words)}: {said['error']}")
        if said["status"] != ran.returncode:
            raise Unsaid(
                f"crushplan {' '.join(words)}: exit status {ran.returncode}, and its JSON says {said['status']}"
            )
        if said["uncomputed"] and not all(it["kind"] in kinds for it in said["uncomputed"]):
            raise Unsaid(f"crushplan {' '.join(words)}: not computed: {said['uncomputed']}")
        return said

    def moved(self):
        """Returns how many groups the cluster moved, in all stages."""
        lists = [self.before, *self.stages]
        return sum(it["moved"] for it in self.kept.values()) + sum(
            len(moved_between(*it))
            for it in (*zip(lists, lists[1:]), *((self.before, it) for it in self.drains.values()))
        )

    def drained(self):
        """Returns how many drains it has."""
        return len(self.drains) + len(self.kept) + (self.record["words"][0] == "drain")

    def pool(self, group):
        return self.pools[int(group.split(".")[0])]

    def is_short(self, group, up):
        return devices_in(up) < self.pool(group)["size"]

    def written(self, group, old, new):
        """Returns how many copies a move from one up list to another writes."""
        if self.pool(group)["type"] == ERASURE:
            return sum(it is not None and it != was for was, it in zip(old, new))
        return len({it for it in new if it is not None} - set(old))


def devices_in(up):
    return len({it for it in up if it is not None})


def moved_between(old, new):
    """Returns the groups whose up list differs."""
    return {it for it in old if old[it]["up"] != new[it]["up"]}


def with_state(groups, state):
    return {it for it, of in groups.items() if state in of["states"].split("+")}


def counted(groups, *, primaries=False):
    """Returns how many copies each device has by up lists, or of how many groups it is the
    primary."""
    found = collections.Counter()
    for it in groups.values():
        found.update([it["primary"]] if primaries else [device for device in it["up"] if device is not None])
    return {device: count for device, count in found.items() if device is not None}


def same(said, is_, what="crushplan"):
    """Returns why two values differ, or None. Of sets and dicts it names a few differences."""
    if said == is_:
        return None
    if isinstance(is_, set):
        return (
            f"{what} alone: {sorted(said - is_)[:5]}, the cluster alone: {sorted(is_ - said)[:5]}, of {len(said)} and"
            f" {len(is_)}"
        )
    if isinstance(is_, dict):
        other = [it for it in {**said, **is_} if said.get(it) != is_.get(it)]
        return f"{len(other)} of {len({**said, **is_})} differ: " + "; ".join(
            f"{it}: {what} {said.get(it)}, the cluster {is_.get(it)}" for it in other[:4]
        )
    return f"{what}: {said}, the cluster: {is_}"


# ---- each command


def compared(step):
    """Yields each comparison of a step."""
    command, *names = step.record["words"]
    yield from COMMANDS[step.record.get("by", command)](step, step.foretold(command, *names))
    said = step.foretold("check", kinds=("straw",))
    yield "holes of tree buckets", same(said["holes"], step.record["holes"])
    if said["lying"]["by"] == "pgs.json":
        yield "the groups that lie as computed by the cluster's own word", same(
            (said["lying"]["same"], said["lying"]["others"]), (said_groups(step), [])
        )


def said_groups(step):
    """Returns how many groups have an OSD that can say where they lie."""
    return sum("stale" not in it["states"].split("+") for it in step.before.values())


def usage(step, said):
    """Compares all lists, copies, primaries and bytes of each device, and where objects lie."""
    rows = {it["device"]: it for it in said["rows"]}
    yield from usage_beside(
        step,
        {it: of["copies"] for it, of in rows.items()},
        {it: of["primaries"] for it, of in rows.items()},
        step.before,
    )
    lists = {it["id"]: (it["up"], it["primary"]) for it in step.foretold("usage", "--groups")["groups"]}
    yield f"up lists and primaries of all {len(lists)} groups", same(
        lists, {it: (of["up"], of["primary"]) for it, of in step.before.items()}
    )
    for number, pool in step.pools.items():
        own = {it["device"]: it["bytes"] for it in step.foretold("usage", "--pool", pool["pool_name"])["rows"]}
        yield f"bytes of each device in pool {pool['pool_name']}", bytes_beside(step, number, own, step.before)
    for pool, names in step.record["objects"].items():
        found = {
            it["name"]: {"id": it["id"], "up": it["up"], "primary": it["primary"]}
            for it in step.foretold("locate", pool, *names)["objects"]
        }
        yield f"{len(names)} objects of pool {pool} lie where ceph osd map says", same(found, names)


def usage_beside(step, copies, primaries, groups):
    yield "copies of each device", same(nonzero(copies), counted(groups))
    yield "primaries of each device", same(nonzero(primaries), counted(groups, primaries=True))


def nonzero(counts):
    return {it: count for it, count in counts.items() if count}


def bytes_beside(step, number, said, groups):
    """Returns why devices can't have the bytes that crushplan gives them in a pool, or None. A copy
    has as many as its group's objects; where all groups have as many, a device has exactly so many
    a copy, and else between the least and the greatest."""
    own = [it for group, it in groups.items() if int(group.split(".")[0]) == number]
    parts = step.pool(f"{number}.0")["size"] // 2 if step.pool(f"{number}.0")["type"] == ERASURE else 1
    least, greatest = (of(it["bytes"] for it in own) // parts for of in (min, max))
    copies = counted({str(place): it for place, it in enumerate(own)})
    wrong = {
        device: bytes_
        for device, bytes_ in said.items()
        if not copies.get(device, 0) * least <= bytes_ <= copies.get(device, 0) * greatest
    }
    return (
        f"{len(wrong)} of {len(said)} devices can't have so many with {least} to {greatest} in a copy:"
        f" {dict(list(wrong.items())[:4])}, copies {[copies.get(it, 0) for it in list(wrong)[:4]]}"
        if wrong
        else None
    )


def moves(step, said, groups):
    """Compares the groups that moved, their lists and primaries, and the copies written."""
    told = {it["id"]: it for it in said}
    moved = moved_between(step.before, groups)
    yield f"{len(moved)} groups moved", same(set(told), moved)
    both = set(told) & moved
    lists = {it: (told[it]["before"], told[it]["after"]) for it in both}
    yield "their up lists before and after", same(lists, {it: (step.before[it]["up"], groups[it]["up"]) for it in both})
    if all("primary_after" in it for it in said):
        primaries = {it: (told[it]["primary_before"], told[it]["primary_after"]) for it in both}
        yield "their primaries before and after", same(
            primaries, {it: (step.before[it]["primary"], groups[it]["primary"]) for it in both}
        )
    copies = {it: told[it]["copies"] for it in both}
    yield "copies that were written anew", same(
        copies, {it: step.written(it, step.before[it]["up"], groups[it]["up"]) for it in both}
    )


def summed(step, said, groups):
    """Compares numbers of groups by pool, groups a copy short, and copies of each device
    afterwards."""
    short = {it for it, of in groups.items() if step.is_short(it, of["up"])}
    by_pool = {it["name"]: (it["moved"], it["short_groups"]) for it in said["pools"]}
    moved = moved_between(step.before, groups)
    yield "groups that moved and are short, by pool", same(
        by_pool,
        {
            it["pool_name"]: tuple(sum(step.pool(group) is it for group in of) for of in (moved, short))
            for it in step.pools.values()
        },
    )
    told = {it["id"] for it in said["groups"] if it["short"]}
    yield "groups that moved and are short", same(told, short & moved)
    yield from usage_beside(
        step,
        {it["device"]: it["copies_after"] for it in said["usage"]},
        {it["device"]: it["primaries_after"] for it in said["usage"]},
        groups,
    )


def drain(step, said):
    """Compares devices out, then ended, then perhaps removed from the map."""
    out, ended, *purged = step.stages
    yield from drained(step, said, out)
    short = {it for it, of in out.items() if step.is_short(it, of["up"])}
    yield "undersized for good, once these end, are the groups without room", short_of_cluster(
        step, short, ended, step.before, True
    )
    yield "no more moves once they end", same(set(), moved_between(out, ended))
    if purged:
        moved = {it: (ended[it]["up"], purged[0][it]["up"]) for it in moved_between(ended, purged[0])}
        yield f"{len(moved)} groups that purge moves", same(
            {it["id"]: (it["before"], it["after"]) for it in said["purge"]["groups"]}, moved
        )
        yield "copies that purge writes", same(
            (said["purge"]["moved"], said["purge"]["copies"]), moved_and_copies(step, ended, purged[0])
        )
    if "stores" in step.record:
        yield from stores(step, ended)


def drained(step, said, out):
    """Compares devices out."""
    yield from moves(step, said["groups"], out)
    yield from summed(step, said, out)
    short = {it for it, of in out.items() if step.is_short(it, of["up"])}
    yield f"{len(short)} groups without room stay where they are", short_of_cluster(step, short, out, step.before)
    yield "exit status", same(said["status"], 1 if short else 0)


def drains(step, _):
    """Compares drains, each of the cluster as it was before."""
    for names, out in step.drains.items():
        for what, why in drained(step, step.foretold("drain", *names, "--groups"), out):
            yield f"drain {' '.join(names)}: {what}", why


def kept_drains(step, _):
    """Compares kept drains by their numbers and sums."""
    with concurrent.futures.ThreadPoolExecutor(JOBS) as jobs:
        answers = jobs.map(lambda names: step.foretold("drain", *names, "--groups"), step.kept)
        for (names, it), said in zip(step.kept.items(), answers):
            short = said["short"]["groups"]
            here = {"moved": said["moved"], "copies": said["copies"], "short": short, "sum": sum_of(said["groups"])}
            yield f"drain {' '.join(names)}: {it['moved']} groups moved, and their lists and primaries", same(
                here, {key: of for key, of in it.items() if key != "names"}
            )
            yield f"drain {' '.join(names)}: exit status", same(said["status"], 1 if it["short"] else 0)


def sum_of(groups):
    """Returns a checksum of groups that move: their ids, lists and primaries before and after."""
    lines = [
        json.dumps([it[of] for of in ("id", "before", "after", "primary_before", "primary_after")]) for it in groups
    ]
    return hashlib.sha256("\n".join(sorted(lines)).encode()).hexdigest()[:16]


def kept(step):
    """Returns the record of a step of drains with sums in the place of groups, by what the cluster
    did."""
    found = []
    for names, out in step.drains.items():
        moved = moved_between(step.before, out)
        both = {it: (step.before[it], out[it]) for it in moved}
        groups = [
            {
                "id": it,
                "before": old["up"],
                "after": new["up"],
                "primary_before": old["primary"],
                "primary_after": new["primary"],
            }
            for it, (old, new) in both.items()
        ]
        copies = sum(step.written(it, old["up"], new["up"]) for it, (old, new) in both.items())
        short = sum(step.is_short(it, of["up"]) for it, of in out.items())
        found.append(
            {"names": list(names), "moved": len(moved), "copies": copies, "short": short, "sum": sum_of(groups)}
        )
    return {
        **{key: it for key, it in step.record.items() if key in ("kind", "seed", "words", "pools", "holes")},
        "by": "kept drains",
        "before": {},
        "stages": [],
        "drains": found,
    }


def short_of_cluster(step, short, groups, before, ended=False):
    """Returns why the groups a copy short aren't those that a settled cluster calls undersized, or
    remapped, where a device outside the list is up and keeps the copy; or None. The drained devices
    do that until they end; then only others that had the copy before."""
    undersized, kept = with_state(groups, "undersized"), with_state(groups, "remapped")
    if ended:
        new = {it for it in kept if not set(groups[it]["acting"]) - set(groups[it]["up"]) <= set(before[it]["acting"])}
        return same(short, undersized | kept, "crushplan's lists") or same(set(), new, "no group")
    earlier = with_state(before, "undersized")
    return same(short, undersized | kept, "crushplan's lists") or same(undersized | earlier, earlier, "new ones")


def moved_and_copies(step, old, new):
    moved = moved_between(old, new)
    return len(moved), sum(step.written(it, old[it]["up"], new[it]["up"]) for it in moved)


def stores(step, groups):
    """Compares what the stores of the OSDs hold with the lists and the objects of the groups."""
    wanted = collections.defaultdict(collections.Counter)
    for group, it in groups.items():
        for device in it["acting"]:
            if device is not None and it["objects"]:
                wanted[device][int(group.split(".")[0])] += it["objects"]
    found = {
        int(device): {int(pool): count for pool, count in of.items()} for device, of in step.record["stores"].items()
    }
    yield "objects in the stores of OSDs", same({it: dict(wanted[it]) for it in found}, found, "the lists")


def fail(step, said):
    """Compares devices down, then out, then back."""
    down, out, back = step.stages
    told = {it["id"]: it for it in said["down"]["groups"]}
    short = {
        it for it, of in down.items() if "undersized" in of["states"].split("+") or "stale" in of["states"].split("+")
    }
    yield f"{len(short)} groups undersized while devices are down", same(set(told), short)
    stopped = {
        it for it, of in down.items() if "active" not in of["states"].split("+") or "stale" in of["states"].split("+")
    }
    yield f"{len(stopped)} groups whose I/O stops", same(
        {it for it, of in told.items() if of["below_min_size"]}, stopped
    )
    both = set(told) & short
    yield "their up lists and primaries", same(
        {it: (told[it]["up"], told[it]["primary"]) for it in both},
        {it: (down[it]["up"], down[it]["primary"]) for it in both},
    )
    yield from moves(step, said["out"]["groups"], out)
    yield from summed(step, said["out"], out)
    without = {it for it, of in out.items() if step.is_short(it, of["up"])}
    # of a group whose every OSD has ended nobody knows whether it is a copy short
    undersized = with_state(out, "undersized") | without & with_state(out, "stale")
    yield f"undersized for good, once they are out, are the {len(without)} groups without room", same(
        without, undersized, "crushplan's lists"
    )
    yield "exit status", same(said["status"], 1 if stopped or without else 0)
    names = step.record["words"][1:-1]
    row = {it["name"]: it for it in step.foretold("fail", "--each", names[0].rstrip("0123456789"))["each"]}[names[0]]
    if len(names) == 1:
        told = [row[it] for it in ("below_min_size", "short_down", "short_groups", "moved")]
        yield "its line among those of each rack", same(
            told, [len(stopped), len(short), len(without), len(moved_between(step.before, out))]
        )
    # Ceph forgets upmap items of devices that are out
    with_items = {it["pgid"] for it in json.loads((step.folder / "osd.json").read_text())["pg_upmap_items"]}
    yield "where groups without upmap items lie once they are back", same(
        set(), moved_between(step.before, back) - with_items
    )


def upmap(step, said):
    """Compares upmap items that were sent."""
    after = step.stages[0]
    rows = [it for it in said["groups"] if it["before"] != it["after"]]
    yield from moves(step, rows, after)
    yield "groups and copies in all", same((said["moved"], said["copies"]), moved_and_copies(step, step.before, after))
    yield "the rest of the groups named stays", same(
        {it["id"]: it["after"] for it in said["groups"]}, {it["id"]: after[it["id"]]["up"] for it in said["groups"]}
    )


def compare(step, said):
    """Compares a changed map."""
    after = step.stages[0]
    yield from moves(step, said["groups"], after)
    yield "groups and copies in all", same((said["moved"], said["copies"]), moved_and_copies(step, step.before, after))


def converted(step, said):
    """Compares a map of straw buckets that becomes one of straw2 buckets, and how crushplan says
    that it can't compute the first."""
    yield from compare(step, said)
    check = step.foretold("check", kinds=("straw",))
    yield "no pool of straw buckets can be computed", same(
        (check["status"], {it["computed"] for it in check["pools"]}), (2, {False})
    )


def weight(step, said):
    """Compares a device of the CRUSH weight 0, then ended, then removed from the map."""
    weighed, ended, purged = step.stages
    for what, own, old, new in (
        ("the weight 0 moves", said["weight_first"], step.before, weighed),
        ("purge then moves", said["weight_first"]["then_purge"], ended, purged),
    ):
        moved = {it: (old[it]["up"], new[it]["up"]) for it in moved_between(old, new)}
        yield f"{len(moved)} groups that {what}", same(
            {it["id"]: (it["before"], it["after"]) for it in own["groups"]}, moved
        )
        yield f"copies that {what.split(' moves')[0]} writes", same(
            (own["moved"], own["copies"]), moved_and_copies(step, old, new)
        )
    left = sum(set(said["devices"]) <= set(it["up"]) for it in weighed.values())
    yield "copies that stay on it", same(said["weight_first"]["left"], left)
    yield "no more moves once it ends", same(set(), moved_between(weighed, ended))


COMMANDS = {
    "usage": usage, "drain": drain, "drains": drains, "kept drains": kept_drains, "fail": fail, "upmap": upmap,
    "compare": compare, "converted": converted, "weight": weight,
}  # fmt: skip
