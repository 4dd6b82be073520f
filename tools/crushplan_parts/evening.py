"""The search for what evens out the copies of one pool: which copy goes from which device to which.
It knows no maps and no rules, but which copies may move, where to, and how many each device should
have."""
import collections
import heapq
import itertools

MOST_TRIES = 40  # ways that are tried one after the other, of which a step bars another
MOST_LOOKED_AT = 200  # groups of which the best is taken
MOST_EXCHANGES = 10_000  # of parts, that are tried: a millisecond each


class Ground:
    """Where the copies of a pool lie before a search. `lists` has of each group that may change the
    device at each place, `raws` what CRUSH alone gives there; `fixed` counts the other copies by
    device. Copies go from a device to others of its zone alone, and `zone` has the devices that
    take copies; a group has one copy in a domain, and `domain` also has other devices."""

    def __init__(self, lists, raws, fixed, zone, domain):
        self.lists, self.raws, self.zone = lists, raws, zone
        bits = {it: 1 << place for place, it in enumerate(dict.fromkeys(domain.values()))}
        self.bit = {device: bits[it] for device, it in domain.items()}
        self.members = {}
        for device in sorted(zone):
            self.members.setdefault(zone[device], []).append(device)
        self.counts = collections.Counter(fixed)
        self.counts.update(itertools.chain.from_iterable(lists.values()))
        self.masks = {group: self.mask_of(own) for group, own in lists.items()}

    def mask_of(self, devices):
        """Returns the bits of the domains that devices are in."""
        found = 0
        for it in devices:
            found |= self.bit.get(it, 0)
        return found

    def least(self, low, high, devices):
        """Returns how many copies of devices have to move at least: they give what they have above
        `high`, and get what they lack below `low`."""
        over = sum([max(0, self.counts[it] - high[it]) for it in devices])
        under = sum([max(0, low[it] - self.counts[it]) for it in devices])
        return max(over, under)


class Queue:
    """Devices by a key that changes, the least first. The key of one that isn't wanted any more is
    None. A device whose key became less has to be put in again."""

    def __init__(self, devices, key):
        self.key = key
        self.heap = [(key(it), it) for it in devices if key(it) is not None]
        heapq.heapify(self.heap)

    def take(self):
        """Takes the first device out, and returns it, or None where there is none."""
        while self.heap:
            before, device = heapq.heappop(self.heap)
            now = self.key(device)
            if now == before:
                return device
            if now is not None:
                heapq.heappush(self.heap, (now, device))
        return None

    def put(self, device):
        key = self.key(device)
        if key is not None:
            heapq.heappush(self.heap, (key, device))


class Search:
    """A search from a ground: each device is to have from `low` to `high` copies. `level` says how
    full a device is with so many copies, for where there is a choice. `at` is where copies lie by
    now; `cost` counts those that lie elsewhere than at first. `watch` is called between moves."""

    def __init__(self, ground, low, high, level, watch=None):
        self.ground, self.low, self.high = ground, low, high
        self.level = lambda it: level(it, self.count[it])
        self.zone, self.bit, self.raws, self.start = ground.zone, ground.bit, ground.raws, ground.lists
        self.watch = watch or (lambda search: None)
        self.at = {group: list(own) for group, own in ground.lists.items()}
        self.masks, self.count, self.cost = dict(ground.masks), dict.fromkeys(ground.zone, 0), 0
        self.count.update(ground.counts)
        # of each device the groups that have a copy there that may move, with its place: all of
        # them, those of which some copy has moved already, and those of which this copy has
        self.held, self.begun, self.moved = ({it: {} for it in ground.zone} for _ in range(3))
        self.changed = set()
        self.hold()

    def hold(self):
        """Finds which copies each device has; first those that CRUSH alone had elsewhere."""
        rest = []
        for group, own in self.start.items():
            raw = self.raws[group]
            for place, device in enumerate(own):
                if device in self.held:
                    if raw and raw[place] != device:
                        self.held[device][group] = place
                    else:
                        rest.append((device, group, place))
        for device, group, place in rest:
            self.held[device][group] = place

    # ---- single copies

    def fits(self, group, place, device):
        """Returns whether a device may stand at a place beside what CRUSH alone gives: a pair to a
        device of that list has no effect, but the place has its own device without a pair."""
        raw = self.raws[group]
        return device not in raw or raw[place] == device

    def group_for(self, source, target):
        """Returns a group whose copy may go from one device to another, or None: first one whose
        copy has moved already, as it then moves no more than before, then one of which another copy
        has, as both then stand in one line."""
        if self.zone[source] != self.zone[target]:
            return None
        masks, own = self.masks, self.bit[target]
        others = 0 if own == self.bit[source] else own
        for groups in (self.moved[source], self.begun[source], self.held[source]):
            for group, place in groups.items():
                if not masks[group] & others and self.fits(group, place, target):
                    return group
        return None

    def reached(self, source, groups):
        """Returns the bits of the domains that a copy of some of these groups may go to."""
        masks, found, whole = self.masks, self.bit[source], (1 << len(self.bit)) - 1
        for group in groups:
            found |= ~masks[group]
            if found & whole == whole:
                break
        return found

    def move(self, group, source, target):
        """Moves a copy."""
        place = self.held[source].pop(group)
        self.at[group][place] = target
        self.held[target][group] = place
        self.masks[group] ^= self.bit[source] ^ self.bit[target]
        self.count[source] -= 1
        self.count[target] += 1
        first = self.start[group][place]
        self.cost += (source == first) - (target == first)
        self.begun[source].pop(group, None)
        self.moved[source].pop(group, None)
        if target != first:
            self.moved[target][group] = place
        self.mark(group)

    def mark(self, group):
        """Marks a group on its devices as one that has changed, or as one that hasn't."""
        at = self.at[group]
        if at != list(self.start[group]):
            self.changed.add(group)
            for place, device in enumerate(at):
                if device in self.begun and group in self.held[device]:
                    self.begun[device][group] = place
        else:
            self.changed.discard(group)
            for device in at:
                if device in self.begun:
                    self.begun[device].pop(group, None)

    # ---- all of them

    def even(self):
        """Moves copies until each device has from its low to its high number, or nothing helps."""
        self.give_to_lacking()
        self.by_ways(self.overfull, self.is_lacking, 2)
        self.give_to_room()
        self.by_ways(self.overfull, self.has_room)
        self.take_from_spare()
        self.by_ways(self.sparing, self.is_lacking)

    def overfull(self):
        return [it for it in self.zone if self.count[it] > self.high[it]]

    def lacking(self):
        return [it for it in self.zone if self.count[it] < self.low[it]]

    def sparing(self):
        return [it for it in self.zone if self.count[it] > self.low[it]]

    def is_lacking(self, device):
        return self.count[device] < self.low[device]

    def has_room(self, device):
        return self.count[device] < self.high[device]

    def excess(self, device):
        """Returns the key of a device that has too many: who has most comes first."""
        over = self.count[device] - self.high[device]
        return -over if over > 0 else None

    def lack(self, device):
        under = self.low[device] - self.count[device]
        return -under if under > 0 else None

    def by_zone(self, key):
        return {zone: Queue(own, key) for zone, own in self.ground.members.items()}

    def give_to_lacking(self):
        self.give(self.by_zone(self.lack))

    def give_to_room(self):
        """Has those that have too many give to those that aren't full yet, the emptiest first."""
        self.give(self.by_zone(lambda it: self.level(it) if self.has_room(it) else None))

    def give(self, targets):
        """Has those that have too many give copies to targets, by zone, while one takes them."""
        sources = Queue(self.zone, self.excess)
        source = sources.take()
        while source is not None:
            self.watch(self)
            if self.give_one(source, targets[self.zone[source]]):
                sources.put(source)
            source = sources.take()

    def give_one(self, source, targets):
        """Has a device give a copy to the first of the targets that takes one, and returns whether
        there is such a one."""
        reached, aside, group = self.reached(source, self.held[source]), [], None
        target = targets.take()
        while target is not None:
            group = self.group_for(source, target) if self.bit[target] & reached else None
            if group is not None:
                self.move(group, source, target)
            aside.append(target)
            target = targets.take() if group is None else None
        for it in aside:
            targets.put(it)
        return group is not None

    def take_from_spare(self):
        """Has those that lack copies take them from those that have more than their low number, the
        fullest first."""
        spare = self.by_zone(lambda it: -self.level(it) if self.count[it] > self.low[it] else None)
        targets = Queue(self.zone, self.lack)
        target = targets.take()
        while target is not None:
            self.watch(self)
            if self.take_one(target, spare[self.zone[target]]):
                targets.put(target)
            target = targets.take()

    def take_one(self, target, sources):
        aside, group = [], None
        source = sources.take()
        while source is not None:
            group = self.group_for(source, target) if source != target else None
            if group is not None:
                self.move(group, source, target)
            aside.append(source)
            source = sources.take() if group is None else None
        for it in aside:
            sources.put(it)
        return group is not None

    # ---- fewer lines

    def gather(self):
        """Has groups that change anyhow move copies in the place of groups of which few move: what
        a group moves stands in one line. No device gets another number of copies by it."""
        while True:
            before = len(self.changed)
            for group in sorted(self.changed, key=lambda it: (len(self.moves_of(it)), it)):
                self.watch(self)
                self.leave(group)
            if len(self.changed) == before:
                return

    def moves_of(self, group):
        """Returns where each copy of a group that has moved was at first, and where it is."""
        return [both for both in zip(self.start[group], self.at[group]) if both[0] != both[1]]

    def leave(self, group):
        """Has other groups that have changed move all copies of a group in its place, or changes
        nothing where one of them can't be moved so."""
        cost, done = self.cost, []
        for source, target in self.moves_of(group):
            others = self.masks[group] & ~self.bit[target]
            if self.zone.get(source) != self.zone[target] or others & self.bit[source]:
                break
            self.move(group, target, source)
            done.append((group, target, source))
            other = self.changed_for(source, target, group)
            if other is None:
                break
            self.move(other, source, target)
            done.append((other, source, target))
        if self.moves_of(group) or self.cost > cost or len(done) % 2:
            for it, source, target in reversed(done):
                self.move(it, target, source)

    def changed_for(self, source, target, group):
        """Returns another group that has changed whose copy may go from one device to another, or
        None."""
        others = 0 if self.bit[target] == self.bit[source] else self.bit[target]
        for it, place in self.begun[source].items():
            if it != group and it in self.changed and not self.masks[it] & others and self.fits(it, place, target):
                return it
        return None

    # ---- ways by several devices, each of which takes a copy and passes another on

    def by_ways(self, sources, is_end, most=None):
        """Moves copies from sources to ends by ways while there are some that move no more than
        `most` copies."""
        if not any(map(is_end, self.zone)):
            return
        while sources() and self.one_way(sources(), is_end, most):
            self.watch(self)

    def one_way(self, sources, is_end, most):
        barred = set()
        for _ in range(MOST_TRIES):
            way = self.shortest(sources, is_end, most, barred)
            if way is None:
                return False
            if self.go(way, barred):
                return True
        return False

    def shortest(self, sources, is_end, most, barred):
        """Returns the way that moves fewest copies, as the list of its devices, or None. To pass on
        a copy that has moved already moves none more."""
        costs, before, queue = dict.fromkeys(sources, 0), {}, collections.deque(sources)
        done = set()
        while queue:
            device = queue.popleft()
            if device in done:
                continue
            done.add(device)
            if device in before and is_end(device):
                return way_to(device, before)
            for cost, groups in ((0, self.moved[device]), (1, self.held[device])):
                cost += costs[device]
                if groups and (most is None or cost <= most):
                    self.reach_further(device, cost, groups, (costs, before, queue, barred))
        return None

    def reach_further(self, device, cost, groups, known):
        """Adds what a device reaches by passing a copy of some groups on."""
        costs, before, queue, barred = known
        reached, bit, first = self.reached(device, groups), self.bit, cost == costs[device]
        for it in self.ground.members[self.zone[device]]:
            if bit[it] & reached and cost < costs.get(it, cost + 1) and (device, it) not in barred:
                costs[it], before[it] = cost, device
                if first:
                    queue.appendleft(it)
                else:
                    queue.append(it)

    def go(self, way, barred):
        """Moves a copy along each step of a way, the last first, and returns True; or nothing,
        where a step can't be done: it is barred then."""
        done = []
        for source, target in reversed(list(zip(way, way[1:]))):
            group = self.group_for(source, target)
            if group is None:
                for of, old, new in reversed(done):
                    self.move(of, new, old)
                barred.add((source, target))
                return False
            self.move(group, source, target)
            done.append((group, source, target))
        return True


def way_to(device, before):
    """Returns the devices from the first one to the last."""
    found = [device]
    while found[-1] in before:
        found.append(before[found[-1]])
    return found[::-1]


class PartSearch(Search):
    """A search over a rule's upper level, where a group's copies in one upper domain go together.
    Its devices are upper domains, its copies such parts; `places` has the places of each part, and
    `inner` is the search over devices, in which each move of a part moves its copies."""

    def __init__(self, ground, low, high, level, inner, places, watch=None):
        self.inner, self.places = inner, places
        super().__init__(ground, low, high, level, watch)

    def group_for(self, source, target):
        """Returns a group whose part may go from one upper domain to another, or None: one whose
        copies lie on devices that have too many, if some of the first have that."""
        if self.zone[source] != self.zone[target]:
            return None
        best, most, own = None, float("-inf"), self.bit[target]
        groups = itertools.chain(self.moved[source].items(), self.held[source].items())
        for seen, (group, place) in enumerate(groups):
            if best is not None and seen > MOST_LOOKED_AT:
                break
            if self.masks[group] & own:
                continue
            places = self.places[group][place]
            gain = self.inner.gain_of(group, places)
            if gain > most and self.inner.room_in(target, group, places):
                best, most = group, gain
                if gain == len(places):
                    break
        return best

    def move(self, group, source, target):
        places = self.places[group][self.held[source][group]]
        super().move(group, source, target)
        self.inner.move_part(group, places, target)

    def exchange(self, least, most):
        """Has other parts move in the place of those that took copies from devices that haven't too
        many, also from other upper domains that may have so few parts, where less is left to do."""
        self.tries = MOST_EXCHANGES
        for target in self.zone:
            for group, place in list(self.moved[target].items()):
                self.watch(self)
                source = self.start[group][place]
                if self.tries > 0 and not self.masks[group] & self.bit[source]:
                    self.exchange_one(group, source, target, least, most)

    def exchange_one(self, group, source, target, least, most):
        full = 2 * len(self.places[group][self.held[target][group]]) * self.inner.WEIGHT
        before = self.inner.left_in(source, target)
        self.move(group, target, source)
        undone = self.inner.left_in(source, target) - before
        best, others = (-undone, source, group), [source] if self.count[source] > most[source] else self.zone
        for it in others if undone < full else ():
            if it == target or self.zone[it] != self.zone[target] or it != source and self.count[it] <= least[it]:
                continue
            other, self.tries = self.group_for(it, target), self.tries - 1
            if other is None:
                continue
            before = self.inner.left_in(it, target)
            self.move(other, it, target)
            best = min(best, (self.inner.left_in(it, target) - before, it, other), key=lambda of: of[0])
            self.move(other, target, it)
        self.move(best[2], best[1], target)


class InnerSearch(Search):
    """A search over the devices of a rule of two levels: its zones are the upper domains."""

    WEIGHT = 1 << 16  # more than there are copies in one, for what is left by two measures

    def gain_of(self, group, places):
        """Returns how many of the devices at some places have too many, less those that then lack
        one."""
        found = 0
        for place in places:
            device = self.at[group][place]
            found += (self.count[device] > self.high[device]) - (self.count[device] <= self.low[device])
        return found

    def left_in(self, *uppers):
        """Returns how much is left to do in upper domains: first by how many copies have to move
        inside at least, then by how many devices have too many or lack."""
        found = 0
        for upper in set(uppers):
            own = self.ground.members[upper]
            over = sum([max(0, self.count[it] - self.high[it]) for it in own])
            under = sum([max(0, self.low[it] - self.count[it]) for it in own])
            found += max(over, under) * self.WEIGHT + over + under
        return found

    def room_in(self, upper, group, places):
        """Returns devices of an upper domain for the copies at some places of a group, those first
        that lack most, or None where there are too few."""
        start = self.start[group]
        if all(self.zone.get(start[it]) == upper for it in places):
            return [start[it] for it in places]
        key = lambda it: (self.count[it] - self.low[it], self.count[it] - self.high[it], self.level(it), it)
        found, taken = [], 0
        for device in sorted(self.ground.members.get(upper, ()), key=key):
            if len(found) == len(places):
                break
            if not self.bit[device] & taken and self.fits(group, places[len(found)], device):
                found.append(device)
                taken |= self.bit[device]
        return found if len(found) == len(places) else None

    def move_part(self, group, places, upper):
        for place, device in zip(places, self.room_in(upper, group, places)):
            self.move(group, self.at[group][place], device)
