"""What a change does to pools: the groups that move, copies written anew, groups a copy short, and
how full devices are then. Sums and differences of what crushcalc answers, in whole numbers."""
import collections
import fractions
import itertools
import math

from .faults import some
from .shares import Expected, Shares, percent, rounded


def copies_in(up):
    """Returns how many copies a list has: devices, each once."""
    return len(set(up)) - (None in up)


def written_anew(pool, old, new):
    """Returns how many copies a move writes: devices that the old list hasn't; in an erasure pool
    places with another device, since each place has another part of the data."""
    if pool.kind == "erasure":
        return sum(it is not None and (place >= len(old) or old[place] != it) for place, it in enumerate(new))
    found = set(new).difference(old)
    return len(found) - (None in found)


def bytes_anew(change, written):
    """Returns the bytes that moves of a pool write: groups, each with its copies that are written
    anew."""
    _, twice = change.pool.parts()
    return change.bytes_of(sum(2 * copies if group in twice else copies for group, copies in written))


def gains(pool, moves):
    """Returns of each device how many copies it gains by moves, groups with their up lists before
    and after; those of a group with twice the objects count twice."""
    _, twice = pool.parts()
    if twice:
        moves = [*moves, *(it for it in moves if it[0] in twice)]
    found = collections.Counter(itertools.chain.from_iterable([new for _, _, new in moves]))
    found.subtract(collections.Counter(itertools.chain.from_iterable([old for _, old, _ in moves])))
    return found


class Moved:
    """A group that lies elsewhere afterwards. `lacks` are the copies that have no device then."""

    __slots__ = ("pool", "group", "before", "after", "copies", "lacks")

    def __init__(self, pool, group, before, after):
        self.pool, self.group, self.before, self.after = pool, group, before, after
        self.copies = written_anew(pool, before.up, after.up)
        self.lacks = pool.size - copies_in(after.up)

    @property
    def short(self):
        return self.lacks > 0

    def said(self):
        return {
            "pool": self.pool.id, "group": self.group, "id": self.pool.group_name(self.group), "before": self.before.up,
            "after": self.after.up, "primary_before": self.before.primary, "primary_after": self.after.primary,
            "copies": self.copies, "short": self.short,
        }  # fmt: skip


class PoolChange:
    """What a change does to one pool. `missing` are copies that have no device, afterwards and
    before; `short` the groups that lack some."""

    def __init__(self, pool, before, can_move, moves, lacking=None):
        """Takes the usage before, the groups that can move, the moves, and what groups lack before,
        by group, if it was asked for."""
        self.pool, self.before, self.can_move, self.moves = pool, before, can_move, moves
        self.after, lacking = before.after([(it.before, it.after) for it in moves]), lacking or {}
        self.short_before, self.missing_before = len(lacking), sum(lacking.values())
        lacked = [lacking[it.group] for it in moves if it.group in lacking]
        lacks = [it.lacks for it in moves if it.lacks > 0]
        self.short = self.short_before - len(lacked) + len(lacks)
        self.missing = self.missing_before - sum(lacked) + sum(lacks)
        self.copies = sum([it.copies for it in moves])
        self.bytes = bytes_anew(self, [(it.group, it.copies) for it in moves])
        self.gains = gains(pool, [(it.group, it.before.up, it.after.up) for it in moves])

    def bytes_of(self, copies):
        """Returns the bytes of so many copies, of which those of groups with twice the objects
        count twice, or None where these aren't known."""
        (over, under), _ = self.pool.parts()
        total = self.before.total()
        return (
            None
            if self.pool.bytes is None or not total
            else fractions.Fraction(self.pool.bytes * copies * over, total * under)
        )

    def said(self):
        pool = self.pool
        return {
            "pool": pool.id, "name": pool.name, "kind": pool.kind, "size": pool.size, "min_size": pool.min_size,
            "pg_num": pool.pg_num, "short_groups": self.short, "missing_copies": self.missing,
            "short_groups_before": self.short_before, "missing_copies_before": self.missing_before,
            "can_move": len(self.can_move), "moved": len(self.moves), "copies": self.copies, "bytes": whole(self.bytes),
        }  # fmt: skip


def whole(value):
    """Returns a number of bytes rounded half up to whole ones, as all others, or None."""
    return None if value is None else int((2 * value + 1) // 2)


class Device:
    """How full a device is, before and after. Expected copies are fractions, of what is above and
    below a line; bytes are the part of the pools' bytes, and `used` the part of its room that is
    then used, as a fraction or None. What few devices are asked for is computed when it is asked
    for; `room` is what it holds before and after, and its size, by one measure, or None."""

    __slots__ = ("id", "change", "before", "after", "room")

    def __init__(self, id_, change, before, after, room):
        self.id, self.change, self.before, self.after, self.room = id_, change, before, after, room

    expected_before = property(lambda self: self.change.expected_before.of(self.id))
    expected_after = property(lambda self: self.change.expected_after.of(self.id))
    primaries_before = property(lambda self: self.change.primaries("before", self.id))
    primaries_after = property(lambda self: self.change.primaries("after", self.id))
    bytes_before = property(
        lambda self: self.change.bytes.of([it.before.entries.get(self.id, 0) for it in self.change.changes])
    )
    bytes_after = property(
        lambda self: self.change.bytes.of([it.after.entries.get(self.id, 0) for it in self.change.changes])
    )
    used_before = property(lambda self: self.room and fractions.Fraction(self.room[0], self.room[2]))
    used_after = property(lambda self: self.room and fractions.Fraction(self.room[1], self.room[2]))

    def percent(self):
        return percent(self.after, self.expected_after)

    def level(self):
        """Returns how full it is afterwards, as a fraction that isn't shortened: the part of its
        room that is used, or else of its share, or else its copies."""
        if self.room:
            return self.room[1:]
        over, under = self.expected_after
        return (self.after * under, over) if over else (self.after, 1)


def bytes_after(devices):
    """Returns the bytes of some devices of a change together afterwards, or None."""
    shared = devices[0].change
    return shared.bytes.of([sum([it.after.entries.get(of.id, 0) for of in devices]) for it in shared.changes])


class Summary:
    """A change of the states of devices, in all pools that are computed."""

    def __init__(self, plan, changes, gone, levels=None):
        """Takes the changes by pool, and the devices that are down or out afterwards. By `levels`
        it has the devices alone that change, and not what is expected of them before."""
        self.plan, self.changes = plan, changes
        self.moves = [it for change in changes for it in change.moves]
        self.copies = sum(it.copies for it in changes)
        self.short = sum(it.short for it in changes)
        self.missing = sum(it.missing for it in changes)
        self.short_before = sum(it.short_before for it in changes)
        self.missing_before = sum(it.missing_before for it in changes)
        self.can_move = sum(len(it.can_move) for it in changes)
        self.groups = sum(it.pool.pg_num for it in changes)
        self.bytes = total(it.bytes for it in changes)
        self.devices = devices_of(plan, changes, gone, levels is None, levels)
        self.fullest, self.as_full = self.find_fullest()
        self.past = {name: self.devices_past(name) for name in ("nearfull_ratio", "backfillfull_ratio", "full_ratio")}

    def find_fullest(self):
        """Returns the device that is fullest afterwards, or None, and those that are as full: by
        bytes where these are known, else by its copies against its share."""
        devices = [it for it in self.devices if it.after]
        known = [it for it in devices if it.room] or [it for it in devices if it.expected_after[0]] or devices
        if not known:
            return None, []
        # a quotient of whole numbers is rounded the same way where they are equal, and never the
        # other way round where they aren't, so that few have to be compared exactly
        levels = [it.level() for it in known]
        rounded_ = [over / under for over, under in levels]
        most = max(rounded_)
        found = [(fractions.Fraction(*level), it) for it, level, of in zip(known, levels, rounded_) if of == most]
        most = max(level for level, _ in found)
        first, *others = [it for level, it in found if level == most]
        return first, others

    def devices_past(self, name):
        """Returns the devices that are past a ratio of the cluster afterwards."""
        limit = self.plan.cluster.ratios.get(name)
        if limit is None:
            return []
        over, under = limit.as_integer_ratio()
        return [
            it for it in self.devices if it.room and it.room[1] * under > over * it.room[2] and it.room[1] > it.room[0]
        ]

    def looks_at_room(self):
        return looks_at_room(self.plan.cluster)

    def room_gap(self):
        """Returns what the files don't say of how full devices get, in words, or None; None too
        where they say nothing at all of it."""
        gaining = [
            it.id for it in self.devices if not it.room and any(change.gains[it.id] > 0 for change in self.changes)
        ]
        if not self.looks_at_room() or not gaining:
            return None
        pools = [it.pool.name for it in self.changes if it.pool.bytes is None]
        if pools:
            return (
                f"df.json doesn't say what {'pool' if len(pools) == 1 else 'the pools'} {some(pools, 3)}"
                f" {'takes' if len(pools) == 1 else 'take'}, and so not how full devices get"
            )
        return f"osd-df.json doesn't say how full {some([f'osd.{it}' for it in gaining], 3)} gets"

    def knows_room(self):
        """Returns whether the files say how full each device gets that gets more."""
        return self.looks_at_room() and not self.room_gap()

    def has_room(self):
        """Returns whether every copy has room: a device, which isn't past the ratio from which on
        Ceph writes no more copies to it."""
        return not self.missing and not self.past["backfillfull_ratio"]

    def said(self, with_groups):
        found = {
            "short": {"groups": self.short, "copies": self.missing, "groups_before": self.short_before,
                      "copies_before": self.missing_before},
            "moved": len(self.moves), "can_move": self.can_move, "copies": self.copies, "bytes": whole(self.bytes),
            "fullest": self.fullest and self.device_said(self.fullest), "as_full": [it.id for it in self.as_full],
            "past_nearfull": [it.id for it in self.past["nearfull_ratio"]],
            "past_backfillfull": [it.id for it in self.past["backfillfull_ratio"]],
            "pools": [it.said() for it in self.changes], "usage": self.devices_said(),
        }  # fmt: skip
        if with_groups:
            found["groups"] = [it.said() for it in self.moves]
        return found

    def devices_said(self):
        """Returns what is said of all devices."""
        if self.devices:
            self.devices[0].change.gather()
        return [self.device_said(it) for it in self.devices]

    def device_said(self, it):
        before, after, shared, room = it.expected_before, it.expected_after, it.change, it.room
        return {
            "device": it.id, "name": self.plan.map.name_of(it.id), "host": self.plan.tree.host(it.id),
            "copies_before": it.before, "copies_after": it.after,
            "share_before": rounded(*before, 2), "share_after": rounded(*after, 2),
            "percent_after": percent(it.after, after),
            "primaries_before": it.primaries_before, "primaries_after": it.primaries_after,
            "bytes_before": shared.whole_bytes("before", it.id), "bytes_after": shared.whole_bytes("after", it.id),
            "used_before": room and rounded(room[0], room[2], 4), "used_after": room and rounded(room[1], room[2], 4),
        }  # fmt: skip


def looks_at_room(cluster):
    """Returns whether the files say how full devices are, what pools take, and from which ratio on
    Ceph writes no more copies to a device. Otherwise no device counts as full."""
    return (
        "backfillfull_ratio" in cluster.ratios
        and bool(cluster.rooms)
        and any(it.bytes is not None for it in cluster.pools.values())
    )


def ratio_said(value):
    """Returns a part of 1 with four decimals, or None."""
    return None if value is None else rounded(value.numerator, value.denominator, 4)


def total(values):
    """Returns a sum, or None where a part isn't known."""
    values = list(values)
    return None if any(it is None for it in values) or not values else sum(values)


def shares_of(plan, pool):
    """Returns the shares of a pool by the states that devices have now."""
    key = (pool.rule, pool.size)
    if key not in plan.shares:
        plan.shares[key] = Shares(plan.map, plan.map.rules[pool.rule], pool.size, plan.state)
    return plan.shares[key]


class Bytes:
    """Bytes of copies of several pools, over one measure, so that sums of them are sums of whole
    numbers. `parts` are bytes of copies of which those of groups with twice the objects count
    twice."""

    def __init__(self, changes):
        self.is_known = bool(changes) and all(it.pool.bytes is not None for it in changes)
        totals = [(it.before.total(), it.pool.parts()[0]) for it in changes]
        self.measure = math.lcm(*(count * under or 1 for count, (_, under) in totals))
        self.each = (
            [it.pool.bytes * (self.measure // count) if count else 0 for it, (count, _) in zip(changes, totals)]
            if self.is_known
            else []
        )
        self.parts = [each * over // under for each, (_, (over, under)) in zip(self.each, totals)]

    def of(self, copies):
        """Returns the bytes of so many copies of each pool, or None where these aren't known."""
        if not self.is_known:
            return None
        return fractions.Fraction(sum(count * each for count, each in zip(copies, self.each) if count), self.measure)


class Levels:
    """How full devices are before anything changes, the fullest first; none where the files don't
    say it."""

    def __init__(self, plan):
        rooms, known = plan.cluster.rooms, bool(plan.pools) and all(it.bytes is not None for it in plan.pools.values())
        devices = (
            [it for it in plan.tree.placed_devices() if it in plan.known and it in rooms and rooms[it].size > 0]
            if known
            else []
        )
        self.used = {it: rooms[it].used_after() for it in devices}
        self.order, level = [], lambda it: rooms[it].used / rooms[it].size
        # as in find_fullest() few are compared exactly
        for _, own in itertools.groupby(sorted(devices, key=level, reverse=True), level):
            self.order += sorted(own, key=lambda it: (-self.used[it], it))

    def fullest(self, changed, changes):
        """Returns the fullest devices that have copies and that nothing changes."""
        found = []
        for it in self.order:
            if found and self.used[it] != self.used[found[0]]:
                break
            if it not in changed and any(change.before.entries.get(it) for change in changes):
                found.append(it)
        return found


class Shared:
    """What devices share whose copies change: the changes of pools, what is expected of each before
    and after, and the bytes of copies."""

    def __init__(self, plan, changes, gone, with_before):
        self.changes, self.bytes, self.gathered = changes, Bytes(changes), {}
        self.expected_before, self.expected_after, own = Expected(), Expected(), {}
        for change in changes:
            shares, key = shares_of(plan, change.pool), (change.pool.rule, change.pool.size)
            own[key] = own.get(key) or (shares.without(gone) if gone else shares)
            if with_before:
                self.expected_before.add(shares, change.before.total())
            self.expected_after.add(own[key], change.after.total())

    def sums(self, which, devices):
        """Returns the copies of devices over all pools, before or after."""
        entries = [getattr(it, which).entries for it in self.changes]
        if len(entries) == 1:
            return [entries[0].get(it, 0) for it in devices]
        return [sum([own.get(it, 0) for own in entries]) for it in devices]

    def gather(self):
        """Adds up what all devices have over all pools: it takes less than to do so for each."""
        for which in ("before", "after"):
            leading, amounts = collections.Counter(), {}
            for it in self.changes:
                leading.update(getattr(it, which).primaries)
            for it, each in zip(self.changes, self.bytes.each):
                for device, count in getattr(it, which).entries.items():
                    amounts[device] = amounts.get(device, 0) + count * each
            self.gathered[which] = leading, amounts

    def primaries(self, which, device):
        """Returns of how many groups a device is the primary, before or after."""
        if which in self.gathered:
            return self.gathered[which][0].get(device, 0)
        return sum([getattr(it, which).primaries.get(device, 0) for it in self.changes])

    def whole_bytes(self, which, device):
        """Returns the bytes of a device's copies, before or after, rounded as whole() does."""
        if not self.bytes.is_known:
            return None
        if which in self.gathered:
            amount = self.gathered[which][1].get(device, 0)
        else:
            counts = [getattr(it, which).entries.get(device, 0) for it in self.changes]
            amount = sum([count * each for count, each in zip(counts, self.bytes.each)])
        return (2 * amount + self.bytes.measure) // (2 * self.bytes.measure)

    def gained(self):
        """Returns the bytes that devices gain, by the measure of bytes."""
        found = {}
        for change, each in zip(self.changes, self.bytes.parts):
            for device, count in change.gains.items():
                found[device] = found.get(device, 0) + count * each
        return found


def devices_of(plan, changes, gone=(), with_before=True, levels=None):
    """Returns each placed device with how full it is before and after; `gone` are down or out
    afterwards. By `levels` the devices alone that change, and of the others the fullest."""
    placed = plan.placed()
    if levels is not None and levels.order:
        changed = {it for change in changes for it in change.gains}
        placed = sorted(changed.intersection(placed).union(levels.fullest(changed, changes)))
    shared = Shared(plan, changes, gone, with_before)
    rooms, gained, measure = plan.cluster.rooms if shared.bytes.is_known else {}, shared.gained(), shared.bytes.measure
    found = []
    for id_, before, after in zip(placed, shared.sums("before", placed), shared.sums("after", placed)):
        own, room = rooms.get(id_), None
        if own and own.size > 0:
            used = own.used * measure
            room = max(used, 0), max(used + gained.get(id_, 0), 0), own.size * measure
        found.append(Device(id_, shared, before, after, room))
    return found
