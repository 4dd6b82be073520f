"""What happens between two moments of a runbook: groups that move, copies that are read and
written, how full devices get on the way and afterwards, what stops."""
import collections
import fractions
import functools

from .commands_pool import data_parts
from .meanwhile import Meanwhile, alive_in, from_line
from .shares import Expected, percent
from .summary import copies_in, looks_at_room, shares_of, written_anew

NO_MOVES = ("norebalance", "nobackfill", "norecover")
MEGABYTE, HOUR = 10**6, 3600


class Ledger:
    """How many bytes a copy of each pool has, and what devices hold at the start: bytes are known
    where the files have them. `start` is the first moment."""

    def __init__(self, start):
        self.start, self.cluster = start, start.plan.cluster
        self.rooms, self.looks = self.cluster.rooms, looks_at_room(self.cluster)
        self.units, self.counts = {}, {}
        for id_, pool in start.plan.pools.items():
            self.counts[id_] = counts_of(pool, start.lists[id_])
            self.units[id_] = bytes_of_copy(pool, start.lists[id_])

    def bytes_of(self, counts):
        """Returns the bytes of copies, counted by pool and device, by device; None where a pool's
        aren't known."""
        found = collections.defaultdict(fractions.Fraction)
        for id_, own in counts.items():
            unit = self.units.get(id_)
            for device, count in own.items():
                if count and unit is None:
                    return None
                found[device] += count * unit if count else 0
        return found

    def used(self, counts, more=None):
        """Returns the used part of the room of each device that has a size, once it has such
        counts of copies, and more copies on the way."""
        at_start = {id_: own for id_, own in self.counts.items() if id_ in counts}
        own, first, more = self.bytes_of(counts), self.bytes_of(at_start), self.bytes_of(more or {})
        if own is None or first is None or more is None:
            return {}
        return {it: room.used_after(own[it] - first[it] + more[it]) for it, room in self.rooms.items() if room.size > 0}

    def gap(self, gained, pools):
        """Returns what the files don't say of how full devices get that gain copies, or None."""
        if not self.looks or not gained:
            return None
        silent = sorted(
            self.cluster.pools[it].name if it in self.cluster.pools else str(it)
            for it in pools
            if self.units.get(it) is None
        )
        if silent:
            return f"df.json doesn't say what pool {silent[0]} takes"
        lacking = sorted(it for it in gained if it not in self.rooms or self.rooms[it].size <= 0)
        return f"osd-df.json doesn't say how full osd.{lacking[0]} gets" if lacking else None


def bytes_of_copy(pool, placements):
    """Returns the bytes of a copy of a group with as many objects as most, or None where they
    aren't known."""
    (over, under), _ = pool.parts()
    copies = sum(copies_in(it.up) for it in placements.values())
    if not pool.bytes or not copies:
        return fractions.Fraction(0) if pool.bytes == 0 else None
    return fractions.Fraction(pool.bytes * over, copies * under)


def counts_of(pool, placements):
    """Returns how many copies of a pool each device has; those of a group with twice the objects
    count twice."""
    found, (_, twice) = collections.Counter(), pool.parts()
    for group, it in placements.items():
        for device in set(it.up) - {None}:
            found[device] += 2 if group in twice else 1
    return found


def entries_of(moment):
    """Returns how many copies of all pools each device has."""
    found = collections.Counter()
    for own in moment.lists.values():
        for it in own.values():
            found.update(set(it.up) - {None})
    return found


class Passage:
    """What happens between two moments. `maps` are those while data moves, before OSDs that are
    down go out; `alive` has the OSDs that serve data, as Meanwhile wants them."""

    def __init__(self, ledger, before, after, maps, alive=None):
        self.ledger, self.before, self.after, self.maps = ledger, before, after, maps
        self.moves, self.written, self.read = [], {}, {}
        self.meanwhile = Meanwhile(alive or [(None, alive_in(maps))])
        known = before.lists.keys() & after.lists.keys()
        self.pools = [after.plan.cluster.pools[it] for it in sorted(known)]
        self.unknown = [it for it, sign in after.signs.items() if sign != before.signs.get(it) and it not in known]
        self.stopped, self.lost, self.missing, self.missing_before, self.short = [], [], 0, 0, []
        for pool in self.pools:
            self.take_pool(pool, before.lists[pool.id], after.lists[pool.id])
        self.copies = sum(copies for *_, copies in self.moves)
        self.counts = {it.id: counts_of(it, after.lists[it.id]) for it in self.pools}

    def take_pool(self, pool, before, after):
        _, twice = pool.parts()
        written, read = collections.Counter(), collections.Counter()
        least = data_parts(self.maps, pool) if pool.kind == "erasure" else 1
        was = self.before.plan.cluster.pools[pool.id]
        self.missing_before += sum(max(was.size - copies_in(it.up), 0) for it in before.values())
        for group, new in after.items():
            old, weight = before[group], 2 if group in twice else 1
            alive = [it if it is not None and self.is_alive(it) else None for it in old.up]
            self.meanwhile.take(pool, group, old.up)
            self.take_state(pool, group, old, new, least)
            if new.up == old.up:
                continue
            count = written_anew(pool, old.up, new.up)
            if count or set(old.up) != set(new.up) or pool.kind == "erasure":
                self.moves.append((pool, group, old, new, count))
            for place, device in written_to(pool, old.up, new.up):
                written[device] += weight
                read.update(dict.fromkeys(sources(pool, place, new, alive, least), weight))
        self.written[pool.id], self.read[pool.id] = written, read

    def take_state(self, pool, group, old, new, least):
        """Counts what a group lacks: copies that are left while data moves, and afterwards."""
        name = pool.group_name(group)
        kept = copies_in([it if it in self.maps.osds and not self.maps.osds[it].destroyed else None for it in old.up])
        if kept < min(least, copies_in(old.up)):
            self.lost.append(name)
        fewest = min(copies_in(old.up), copies_in(new.up))
        if name in self.meanwhile.stopped or fewest < pool.min_size and not pool.stretched:
            self.stopped.append(name)
        lacks = pool.size - copies_in(new.up)
        if lacks > 0:
            self.missing += lacks
            self.short.append(name)

    def is_alive(self, device):
        it = self.maps.osds.get(device)
        return it is not None and it.up and not it.destroyed

    # ---- numbers

    def bytes(self):
        own = self.ledger.bytes_of(self.written)
        return None if own is None else sum(own.values(), fractions.Fraction(0))

    def least(self):
        """Returns the copies that the change of weights alone asks for: what devices gain of their
        shares."""
        found = fractions.Fraction(0)
        for pool in self.pools:
            if self.after.signs[pool.id] == self.before.signs[pool.id]:
                continue
            old, new = (expected_of(it, pool.id) for it in (self.before, self.after))
            found += sum(of - old.get(it, 0) for it, of in new.items() if of > old.get(it, 0))
        return found

    def hours(self, rate):
        """Returns how long the busiest device takes, which reads and writes so many megabytes a
        second, or None."""
        own = [self.ledger.bytes_of(it) for it in (self.written, self.read)]
        if None in own:
            return None
        busiest = max((own[0][it] + own[1][it] for it in {*own[0], *own[1]}), default=fractions.Fraction(0))
        return busiest / (rate * MEGABYTE * HOUR)

    @functools.cached_property
    def used_on_the_way(self):
        """Returns the used parts by device while each new copy is there and no old one is gone
        yet: more than that none has."""
        return self.ledger.used({it.id: counts_of(it, self.before.lists[it.id]) for it in self.pools}, self.written)

    @functools.cached_property
    def used_after(self):
        return self.ledger.used(self.counts)

    def past(self, used, name):
        """Returns the devices that get copies and are then past a ratio of the cluster."""
        getting = {device for own in self.written.values() for device, count in own.items() if count}
        return sorted(it for it, of in used.items() if it in getting and self.ledger.cluster.is_past(name, of))

    def fullest(self, used, more=None):
        """Returns the fullest device, and how full it is: the used part of its room where that is
        known, else its copies and their percent of its share."""
        entries = entries_of(self.after)
        if used:
            own = {it: of for it, of in used.items() if entries[it] or more and any(it in own for own in more.values())}
            if own:
                device = max(own, key=lambda it: (own[it], -it))
                return device, own[device], None
        if more is not None:
            entries = entries_of(self.before)
            for own in more.values():
                entries.update(own)
        return self.fullest_by_share(entries)

    def fullest_by_share(self, entries):
        expected = Expected()
        for pool in self.pools:
            shares = shares_of(self.after.plan, self.after.plan.cluster.pools[pool.id])
            expected.add(shares, sum(copies_in(it.up) for it in self.after.lists[pool.id].values()))
        found = (
            {it: (count, percent(count, expected.of(it))) for it, count in entries.items() if count}
            if self.pools
            else {}
        )
        if not found:
            return None
        device = max(found, key=lambda it: (found[it][1] or 0, found[it][0], -it))
        return device, None, found[device]

    # ---- what is to be said

    def faults(self, waits):
        """Yields what makes an answer no (1) or unknown (2), in words, the worst first. `waits` is
        whether a 'wait' follows."""
        if self.lost:
            yield 1, f"{groups_text(self.lost)} {verb(self.lost, 'lose')} data: too few copies are on OSDs that exist"
        if self.stopped:
            has, only = "has" if len(self.stopped) == 1 else "have", len(self.meanwhile.stopped) == len(self.stopped)
            first = from_line(self.meanwhile.stopped_from) if only else ""
            yield 1, f"{first}{groups_text(self.stopped)} {has} fewer copies than min_size, which stops I/O"
        if self.missing:
            as_before = (
                " (as many as before)"
                if self.missing == self.missing_before
                else f" ({self.missing_before:,} before)" if self.missing_before else ""
            )
            never = ", and the 'wait' doesn't end" if waits else ""
            has = "copy has" if self.missing == 1 else "copies have"
            yield 1, f"{self.missing:,} {has} no device{as_before}{never}"
        full = self.past(self.used_after, "backfillfull_ratio")
        if full:
            yield 1, f"{names_text(full)} {'gets' if len(full) == 1 else 'get'} past the backfill-full ratio"
        held = [it for it in NO_MOVES if it in self.maps.flags]
        if held and self.moves and waits:
            yield 1, f"the flag {held[0]} is set, and the 'wait' doesn't end"
        if self.unknown:
            names = sorted(self.after.plan.cluster.pools[it].name for it in self.unknown)
            yield 2, f"pool {names[0]}{f' and {len(names) - 1} more' if len(names) > 1 else ''} can't be computed"
        gained = {it for own in self.written.values() for it, count in own.items() if count}
        gap = self.ledger.gap(gained, [id_ for id_, own in self.written.items() if any(own.values())])
        if gap:
            yield 2, gap

    def remarks(self):
        """Yields what else is to be said."""
        way = self.past(self.used_on_the_way, "backfillfull_ratio")
        full = self.past(self.used_after, "backfillfull_ratio")
        if way and not full:
            yield (
                f"on the way {names_text(way)} may be past the backfill-full ratio: Ceph then holds some moves until "
                "others are over"
            )
        near = self.past(self.used_after, "nearfull_ratio")
        if near and not full:
            yield f"{names_text(near)} {'gets' if len(near) == 1 else 'get'} past near-full (a health warning)"


def expected_of(moment, pool):
    """Returns the copies of a pool that each device should have by its share."""
    shares = shares_of(moment.plan, moment.plan.cluster.pools[pool])
    copies = sum(copies_in(it.up) for it in moment.lists[pool].values())
    return {it: fractions.Fraction(shares.of(it) * copies, shares.whole) for it in shares.devices()}


def written_to(pool, old, new):
    """Yields the places of a list with the devices that get a new copy there: in an erasure pool
    each place has another part of the data."""
    for place, device in enumerate(new):
        has = old[place : place + 1] == [device] if pool.kind == "erasure" else device in old
        if device is not None and not has:
            yield place, device


def sources(pool, place, new, alive, least):
    """Returns the devices that a new copy is read from: of a replicated pool the primary, where it
    has a copy, else the first that has one; of an erasure pool the device that had the part, else
    as many others as hold the data."""
    if pool.kind == "erasure":
        if place < len(alive) and alive[place] is not None:
            return [alive[place]]
        return [it for it in alive if it is not None][:least]
    if new.primary in alive and new.primary is not None:
        return [new.primary]
    return [it for it in alive if it is not None][:1]


def groups_text(groups):
    return (
        groups[0]
        if len(groups) == 1
        else f"{len(groups):,} groups ({', '.join(groups[:3])}{', ..' if len(groups) > 3 else ''})"
    )


def verb(many, word):
    """Returns a verb of one or several."""
    return f"{word}s" if len(many) == 1 else word


def names_text(devices):
    return ", ".join(f"osd.{it}" for it in devices[:3]) + (f" and {len(devices) - 3} more" if len(devices) > 3 else "")
