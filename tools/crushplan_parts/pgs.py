"""The cluster's own word: where it says that groups lie (pgs.json, 'ceph pg dump pgs_brief -f
json'), beside what is computed; or without it how many groups each device has (osd-df.json)."""
from .cluster import OSD_DF, PGS
from .faults import counted, some
from .output import devices_text
from .read_pgs import is_said

MOST_NAMED = 4  # groups that are named


class Compared:
    """How groups lie that were computed, beside the cluster's word: how many, those it says nothing
    of, and those that lie otherwise, with why they may."""

    def __init__(self, plan, placements):
        """Takes placements by pool and group."""
        self.plan, self.count, self.silent, self.others = plan, 0, [], []
        for id_, own in placements.items():
            pool, said = plan.cluster.pools[id_], plan.cluster.groups.get(id_, {})
            for group, it in own.items():
                self.count += 1
                if not is_said(said.get(group)):
                    self.silent.append(pool.group_name(group))
                elif said[group].up != it.up or said[group].primary != it.primary:
                    self.others.append((pool, group, said[group], it, self.cause(pool, group, said[group], it)))
        self.same = self.count - len(self.silent) - len(self.others)

    def cause(self, pool, group, said, here):
        """Returns why a group may lie otherwise, in words."""
        plan, exceptions = self.plan, self.plan.exceptions
        gone = [it for it in said.up if it is not None and not (plan.state(it).up and plan.state(it).reweight)]
        if gone:
            return (
                f"{some([f'osd.{it}' for it in gone], 2)} is down or out in osd.json: the dumps are of different times"
            )
        if pool.split_to:
            return "its pool is being split or merged"
        if group in plan.cluster.temporary.get("pg_temp", {}).get(pool.id, ()):
            return "pg_temp: it moves just now, and the dumps may be of different times"
        if said.up == here.up:
            return "only the primary: an affinity or a set primary of another time"
        if group in plan.pairs[pool.id] or group in exceptions.of(pool.id):
            return "its upmap exception in osd.json is of another time"
        if sorted(said.up, key=str) == sorted(here.up, key=str):
            return "only the order: an affinity or a set primary of another time"
        return "no cause is known"

    def lines(self):
        """Returns the groups that lie otherwise, in words."""
        found = []
        for pool, group, said, it, why in self.others:
            primary = f", primary {said.primary} here {it.primary}" if said.up == it.up else ""
            found.append(
                f"{pool.group_name(group)} up {devices_text(said.up)} here {devices_text(it.up)}{primary}: {why}"
            )
        return found

    def sentence(self):
        words = f"{self.same:,} of {counted(self.count, 'group')} {'lies' if self.count == 1 else 'lie'} as computed"
        if self.silent:
            words += f"; of {len(self.silent):,} the cluster says nothing ({some(self.silent, MOST_NAMED)})"
        if self.others:
            more = [f"and {len(self.others) - MOST_NAMED:,} more"] * (len(self.others) > MOST_NAMED)
            words += f"; {len(self.others):,} {'differs' if len(self.others) == 1 else 'differ'}: "
            words += "; ".join(self.lines()[:MOST_NAMED] + more)
        return words

    def doubt(self):
        """Returns why no answer holds, or None."""
        if not self.others:
            return None
        verb = "lies" if len(self.others) == 1 else "lie"
        return (
            f"{counted(len(self.others), 'group')} {verb} otherwise in the cluster ({some(self.lines(), 1)}); "
            "'crushplan check' says more"
        )

    def said(self):
        return {
            "groups": self.count, "same": self.same, "silent": self.silent,
            "others": [
                {
                    "pool": pool.id, "group": group, "id": pool.group_name(group), "up": said.up,
                    "up_primary": said.primary,
                    "here": it.up, "here_primary": it.primary, "why": why,
                }
                for pool, group, said, it, why in self.others
            ],
        }  # fmt: skip


def entries_said(plan, pool):
    """Returns how many entries each device has of a pool by the cluster's word, or None where it is
    silent of a group."""
    own, found = plan.cluster.groups.get(pool.id, {}), {}
    if any(not is_said(own.get(group)) for group in range(pool.pg_num)):
        return None
    for group in range(pool.pg_num):
        for device in own[group].up:
            if device is not None:
                found[device] = found.get(device, 0) + 1
    return found


def doubt_by_usage(plan, usages):
    """Returns why no answer holds, where devices have other numbers of groups in the cluster than
    are computed, or None. `usages` are by pool."""
    if plan.cluster.groups is not None:
        for id_, usage in usages.items():
            pool, said = plan.pools[id_], entries_said(plan, plan.pools[id_])
            here = {device: it for device, it in usage.entries.items() if it}
            if said is not None and said != here:
                device = min(it for it in {*said, *here} if said.get(it) != here.get(it))
                return (
                    f"osd.{device} has {counted(said.get(device, 0), 'copy', 'copies')} of pool {pool.name} by {PGS}, "
                    f"and {here.get(device, 0):,} as computed; 'crushplan check' says more"
                )
        return None
    found = by_device(plan, usages)
    return f"{some(found, 1)}; 'crushplan check' says more" if found else None


def is_steady(plan, usages):
    """Returns whether osd-df.json can say how many groups of all pools each device has: while none
    moves."""
    cluster = plan.cluster
    return usages.keys() == cluster.pools.keys() and not cluster.described and not cluster.temporary.get("pg_temp")


def by_device(plan, usages):
    """Returns the devices that have other numbers of groups by osd-df.json than as computed, in
    words."""
    if not is_steady(plan, usages):
        return []
    found = []
    for device, room in sorted(plan.cluster.rooms.items()):
        if room.groups is None:
            continue
        here = sum(it.entries.get(device, 0) for it in usages.values())
        if room.groups != here and plan.state(device).up:
            found.append(f"osd.{device} has {counted(room.groups, 'group')} by {OSD_DF}, and {here:,} as computed")
    return found
