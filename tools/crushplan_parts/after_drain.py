"""What removing the drained devices from the map would move again, and what it moves where their
CRUSH weight becomes 0 first, in the place of the drain."""
import fractions

from .sets import key_of, rows_of
from .stages import Stages
from .summary import Bytes, bytes_anew, gains, total, whole, written_anew
from .texts import reached_buckets
from .wrapper import Unforetold, Wrapper, copied


class Steps:
    """Groups that a step moves, over all pools, and copies that it writes."""

    def __init__(self, changes):
        """Takes of each change of a pool its PoolChange, and the moved groups: up before and
        after."""
        self.moved = sum(len(moves) for _, moves in changes)
        self.groups = [
            (change.pool, group, *both) for change, moves in changes for group, both in sorted(moves.items())
        ]
        written = [
            (change, [(group, written_anew(change.pool, *both)) for group, both in moves.items()])
            for change, moves in changes
        ]
        self.copies = sum(copies for _, own in written for _, copies in own)
        self.bytes = total(bytes_anew(*it) for it in written)
        self.gains = [
            (change, gains(change.pool, [(group, *both) for group, both in moves.items()])) for change, moves in changes
        ]

    def said(self, with_groups):
        found = {"moved": self.moved, "copies": self.copies, "bytes": whole(self.bytes)}
        if with_groups:
            found["groups"] = [
                {"pool": pool.id, "group": group, "id": pool.group_name(group), "before": old, "after": new}
                for pool, group, old, new in self.groups
            ]
        return found


class AfterDrain:
    """`purge` is what removing the devices moves once they are drained; `weight_first` what their
    CRUSH weight of 0 moves in the place of the drain, and `then_purge` what removing them moves
    then. Both removals are None where Ceph's own effect isn't known: `unforetold` says why. `left`
    are the copies that stay on the devices by the weight of 0, and `too_full` the devices that it
    fills past the backfill-full ratio, with the used part of their room."""

    def __init__(self, plan, devices):
        self.plan, self.devices = plan, devices
        has, own = set(devices), set(devices)
        has.update(it.id for it in plan.map.buckets.values() if not own.isdisjoint([item for item, _ in it.items]))
        self.gone, self.unforetold, self.weightless = *purged(plan.map, devices), weighed(plan.map, devices)
        others = self.changed_elsewhere()
        own = {it.id: it for it in plan.pools.values() if has & self.below(it) or self.key(it) in others}
        self.pools = list(own)
        self.texts = [it and plan.acceptance.written(it, own) for it in (self.gone, self.weightless)]

    def key(self, pool):
        """Returns a pool's rule and weight set."""
        return pool.rule, key_of(self.plan.map, pool.id)

    def changed_elsewhere(self):
        """Returns the rules and weight sets of which either map has another tree. It may be one
        without the devices: Ceph then sums up all rows of weight sets, and makes the trees of
        classes anew."""
        keys, maps = {self.key(it) for it in self.plan.pools.values()}, (self.gone, self.weightless)
        return {it for it in keys if any(of and tree_by(of, *it) != tree_by(self.plan.map, *it) for of in maps)}

    def below(self, pool):
        """Returns the items that a pool's rule takes, and all buckets below them."""
        takes = self.plan.map.rules[pool.rule].takes()
        return {*takes, *(it for item in takes for it in self.plan.map.buckets_below(item))}

    def ask_purge(self, drained):
        """Asks what removing the devices moves once they are drained, after the stages that drained
        them."""
        if not self.pools or not self.gone:
            return {}
        return Stages(self.plan, self.pools, drained).set_map(self.gone, self.texts[0])

    def is_plain(self):
        """Returns whether pools have neither upmap items nor lists, of which the monitors could
        remove some while devices are drained: then nobody has to wait for what they leave."""
        return not any(self.plan.pairs[it] or self.plan.exceptions.lists.get(it) for it in self.pools)

    def ask_weight_first(self):
        """Asks what the CRUSH weight of 0 moves, and then the removal: side by side where no upmap
        items are there, of which the first could remove some."""
        if not self.pools:
            return {}, {}
        stages = Stages(self.plan, self.pools)
        if not self.gone:
            return stages.set_map(self.weightless, self.texts[1]), {}
        if any(stages.pairs.values()) or any(stages.lists.values()):
            return stages.set_map(self.weightless, self.texts[1]), stages.set_map(self.gone, self.texts[0])
        later = Stages(self.plan, self.pools, texts=[self.texts[1]])
        return self.plan.side_by_side(
            lambda: stages.set_map(self.weightless, self.texts[1]), lambda: later.set_map(self.gone, self.texts[0])
        )

    def take(self, changes, purge, first, second):
        """Takes what was answered. `changes` are those of the drain."""
        self.drained = sum(it.copies for it in changes)
        changes = [it for it in changes if it.pool.id in self.pools]
        self.weight_first = self.steps(changes, first)
        self.purge, self.then_purge = (self.steps(changes, it) if self.gone else None for it in (purge, second))
        # a uniform bucket picks a device of the weight 0 as any other
        own = set(self.devices)
        self.left = sum(it.before.entries.get(device, 0) for it in changes for device in own) + sum(
            len(own.intersection(new)) - len(own.intersection(old)) for _, _, old, new in self.weight_first.groups
        )
        self.too_full = self.find_too_full()

    def find_too_full(self):
        rooms, ratio, all_ = (
            self.plan.cluster.rooms,
            self.plan.cluster.ratios.get("backfillfull_ratio"),
            self.weight_first.gains,
        )
        if ratio is None or not rooms:
            return []
        known = [(change, copies) for change, copies in all_ if change.bytes_of(0) is not None]
        unknown = {
            device for change, copies in all_ if change.bytes_of(0) is None for device, count in copies.items() if count
        }
        bytes_, gained, found, (over, under) = Bytes([change for change, _ in known]), {}, [], ratio.as_integer_ratio()
        for (_, copies), part in zip(known, bytes_.parts):
            for device, count in copies.items():
                gained[device] = gained.get(device, 0) + count * part
        for device in sorted(gained.keys() & rooms.keys() - unknown):
            room, more = rooms[device], gained[device]
            if (
                more > 0
                and room.size > 0
                and (room.used * bytes_.measure + more) * under > over * room.size * bytes_.measure
            ):
                found.append((device, room.used_after(fractions.Fraction(more, bytes_.measure))))
        return found

    def steps(self, changes, moves):
        return Steps([(it, moves[it.pool.id]) for it in changes])

    def compared(self):
        """Returns the copies in all, of the pools of which both are known: drained and then
        removed, and by the CRUSH weight first. Both removals have to be known."""
        return self.drained + self.purge.copies, self.weight_first.copies + self.then_purge.copies


def weighed(map_, devices):
    """Returns the map after 'ceph osd crush reweight osd.N 0' of each device."""
    found = Wrapper(copied(map_))
    found.each(devices, lambda it: found.adjust(it, 0))
    return found.map


def purged(map_, devices):
    """Returns the map after 'ceph osd purge' of each device, or None and why it isn't known."""
    found = Wrapper(copied(map_))
    try:
        found.each(devices, found.remove)
    except Unforetold as why:
        return None, str(why)
    return found.map, None


def tree_by(map_, rule, key):
    """Returns the items of the buckets that a rule can come by, and their weights in a set."""
    buckets = reached_buckets(map_, rule)
    return {it: map_.buckets[it].items for it in buckets}, rows_of(map_, key, buckets)
