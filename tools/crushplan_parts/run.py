"""Requests on tenants that have the cluster, and the replies to them."""
import collections
import itertools

from .service import Groups, change, get, refused

MOST_PAIRS, MOST_CHANGES = 1024, 1024


class Side:
    """A tenant: pools that share the texts of all maps of a run."""

    def __init__(self, texts):
        self.texts, self.requests, self.replies, self.version = texts, [], None, 0

    def add(self, request):
        """Adds a request, and returns its place."""
        self.requests.append(request)
        return len(self.requests) - 1


class Asked:
    """Where groups of a pool were asked for: groups with the place of their request, with what held
    then."""

    __slots__ = ("pool", "places", "pairs", "exceptions", "states")

    def __init__(self, pool, pairs, exceptions, states):
        self.pool, self.places, self.pairs, self.exceptions, self.states = pool, [], pairs, exceptions, states


class Counting:
    """The usage of a pool that was asked for: the place of the request, and the groups that it
    counts otherwise than they lie, as it counts them and as they lie."""

    def __init__(self, pool, place):
        self.pool, self.place, self.plain, self.own = pool, place, None, None


class Run:
    """A run on some of the pools, with upmap items and other exceptions. `maps` are the texts of
    the maps that it imports, of which the first are there from its beginning."""

    def __init__(self, plan, pools, pairs, exceptions, maps):
        self.plan, self.pools, self.pairs, self.exceptions = plan, list(pools), pairs, exceptions
        self.changed, self.side_of, sides = {}, {}, {}
        self.batched = {it for it in self.pools if sum(map(len, pairs[it].values())) > MOST_PAIRS}
        for id_ in self.pools:
            texts = tuple(it.of[id_] for it in maps)
            if texts not in sides:
                sides[texts] = Side(texts)
            self.side_of[id_] = sides[texts]
        self.sides = list(sides.values())
        self.import_map()
        self.set_states(plan.own_states(), False)
        for id_ in self.pools:
            pool = plan.cluster.pools[id_]
            fields = {it: getattr(pool, it) for it in ("kind", "size", "rule", "pg_num", "pgp_num", "hashpspool")}
            self.add(id_, change("/pools", id=id_, name=f"pool-{id_}", **fields))
            if pairs[id_] and not self.is_batched(id_):
                self.set_pairs(id_, pairs[id_])

    def add(self, pool, request):
        return self.side_of[pool].add(request)

    def import_map(self):
        """Imports the texts of the next map."""
        for it in self.sides:
            it.add(change("/maps", text=it.texts[it.version].text()))
            it.version += 1

    def set_states(self, states, are_new=True):
        """Changes states of devices, in as many requests as they need."""
        if are_new:
            self.changed = {**self.changed, **states}
        for side in self.sides:
            known = side.texts[side.version - 1].devices()
            changes = [
                {"id": id_, "reweight": it.reweight, "up": it.up} for id_, it in sorted(states.items()) if id_ in known
            ]
            for start in range(0, len(changes), MOST_CHANGES):
                side.add(change("/devices", devices=changes[start : start + MOST_CHANGES]))

    def set_pairs(self, pool, pairs):
        side = self.side_of[pool]
        known = side.texts[side.version - 1].items
        own = [
            {"group": group, "from": old, "to": new}
            for group, own in pairs.items()
            for old, new in own
            if old in known and new in known
        ]
        self.add(pool, change("/pools/exceptions", id=pool, exceptions=own))

    def ask_groups(self, asked, groups):
        if groups:
            request = Groups(asked.pool, groups)
            asked.places.append((request.groups, self.add(asked.pool, request)))
        return asked

    def is_batched(self, pool):
        """Returns whether a pool has more pairs than crushcalc takes at once."""
        return pool in self.batched

    def lists(self, pool, groups, pairs=None, exceptions=None):
        """Asks where groups lie. More pairs than a pool may have are set part by part. `pairs` by
        group, and other exceptions, stand in the place of the run's own."""
        groups = sorted(groups)
        own = self.pairs[pool] if pairs is None else pairs
        changed = self.changed
        asked = Asked(pool, own, exceptions or self.exceptions, lambda it: changed.get(it) or self.plan.state(it))
        if pairs is None and not self.is_batched(pool):
            return self.ask_groups(asked, groups)
        self.ask_groups(asked, [it for it in groups if it not in own])
        for part in parts_of({it: own[it] for it in groups if it in own}):
            self.set_pairs(pool, part)
            self.ask_groups(asked, part)
        self.set_pairs(pool, {} if self.is_batched(pool) else self.pairs[pool])
        return asked

    def usage(self, pool):
        """Asks how much lies on each device, and where the groups lie that a request for this
        counts otherwise."""
        found = Counting(pool, self.add(pool, get(f"/pools/{pool}/usage")))
        others = self.exceptions.of(pool)
        if self.plan.is_affine(pool):
            others = range(self.plan.cluster.pools[pool].pg_num)
        elif self.is_batched(pool):
            others = others | self.pairs[pool].keys()
        if self.is_batched(pool):
            found.plain = self.ask_groups(Asked(pool, {}, self.exceptions, None), sorted(others))
        if others:
            found.own = self.lists(pool, others)
        return found

    def impact(self, pool, devices):
        """Asks which groups can move where reweights of devices are lowered."""
        return pool, devices, [self.add(pool, get(f"/pools/{pool}/impact/{it}")) for it in devices]

    def moves_to(self, pool):
        """Asks which groups lie elsewhere on the last version than on the one before."""
        version = self.side_of[pool].version
        return pool, self.add(pool, get(f"/pools/{pool}/moves/{version - 1}/{version}"))

    # ---- replies

    def take(self, side, replies):
        """Takes the replies of a tenant; a Fault where a request was refused."""
        side.replies = []
        for request, reply in zip(side.requests, replies):
            if not isinstance(request, Groups):
                status, reply = reply
                if status not in (200, 201):
                    raise refused(self.plan.client.where, request.method, request.path, status, reply)
            side.replies.append(reply)
        side.requests = None  # nothing is added to a run that was answered

    def reply(self, pool, place):
        return self.side_of[pool].replies[place]

    def placements(self, asked):
        """Returns where groups lie that were asked for."""
        pool, exceptions, found = self.plan.cluster.pools[asked.pool], asked.exceptions, self.as_said(asked)
        for group in list(found) if exceptions.affinity else exceptions.of(asked.pool) & found.keys():
            found[group] = exceptions.settled(pool, group, found[group], asked.pairs.get(group, ()), asked.states)
        return found

    def as_said(self, asked):
        """Returns where groups lie by what the service alone knows of."""
        found = {}
        for groups, place in asked.places:
            found.update(zip(groups, self.reply(asked.pool, place)))
        return found

    def counted(self, asked):
        """Returns the entries and the primaries of each device."""
        entries, primaries, groups = {}, {}, {}
        for row in self.reply(asked.pool, asked.place)["rows"]:
            entries[row["device"]], primaries[row["device"]], groups[row["device"]] = (
                row["entries"],
                row["primaries"],
                row["groups"],
            )
        if asked.own:
            count(entries, primaries, self.as_said(asked.plain or asked.own).values(), -1)
            count(entries, primaries, self.placements(asked.own).values(), 1)
        return Usage(entries, primaries, asked.plain is None and entries != groups)

    def can_move(self, asked):
        """Returns the groups of impact lists, and those with an exception that names a device."""
        pool, devices, places = asked
        found = {group for place in places for group in self.reply(pool, place)["groups"]}
        return found | self.plan.with_exception_to(pool, devices)

    def moves(self, asked):
        """Returns the groups that lie elsewhere on the next version: up before and after."""
        pool, place = asked
        found = {row["group"]: (row["old"], row["new"]) for row in self.reply(pool, place)["rows"]}
        return self.plan.led_moves(pool, found) if self.plan.is_affine(pool) else found


class Usage:
    """Entries of up lists and primaries by device. `doubled` is whether a list has a device twice,
    as far as is known."""

    def __init__(self, entries, primaries, doubled=False):
        self.entries, self.primaries, self.doubled = entries, primaries, doubled
        self.whole = sum(entries.values())

    def total(self):
        return self.whole

    def after(self, moves):
        """Returns the usage once moves are over: pairs of a placement before and after."""
        entries, primaries = dict(self.entries), dict(self.primaries)
        count(entries, primaries, (before for before, _ in moves), -1)
        count(entries, primaries, (now for _, now in moves), 1)
        return Usage(entries, primaries, self.doubled)


def count(entries, primaries, placements, sign):
    """Adds the entries and the primaries of placements, or takes them away."""
    placements = list(placements)
    lists = itertools.chain.from_iterable([it.up for it in placements])
    for counts, own in ((entries, lists), (primaries, [it.primary for it in placements])):
        for device, count_ in collections.Counter(own).items():
            if device is not None:
                counts[device] = counts.get(device, 0) + sign * count_


def parts_of(pairs):
    """Yields parts of upmap items by group, each with as many pairs as a pool may have."""
    part, room = {}, MOST_PAIRS
    for group, own in pairs.items():
        if len(own) > room:
            yield part
            part, room = {}, MOST_PAIRS
        part[group] = list(own)[:MOST_PAIRS]
        room -= len(part[group])
    if part:
        yield part
