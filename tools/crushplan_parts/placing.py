"""What of a cluster is computed, and by which questions to crushcalc: where groups lie, which can
move, how much lies on each device."""
from .acceptance import Acceptance
from .cluster import State
from .computable import MOST_POOLS, pool_fault
from .crush_map import ONE
from .faults import some
from .notes import Note, known_pairs, on_oddities, on_rounded_sets
from .pgs import Compared, doubt_by_usage
from .run import Run
from .service import at_once, side_by_side
from .settled import Exceptions, led
from .tree import Tree
from .upmap_rules import Keeper

MOST_NAMES = 4  # of devices in a note


class Plan:
    """A cluster with what of it is computed. `pools` are the computed ones, by id; `texts` those of
    its map; `known` the devices that they declare; `doubt` says why no answer holds, where the
    cluster itself says otherwise, or is None. With `is_hopeful` it goes on while crushcalc reads
    the map: where this refuses a part of it, whatever is asked of the plan ends by MapRefused."""

    def __init__(self, cluster, client, is_hopeful=False):
        self.cluster, self.client, self.map, self.tree = cluster, client, cluster.map, Tree(cluster.map)
        self.notes, self.pools, self.left_out, self.sets, self.shares, self.doubt = [], {}, {}, {}, {}, None
        self.in_buckets, self.odd_states, self.by_exception = None, None, {}
        for pool in cluster.pools.values():
            why = pool_fault(self.map, pool, cluster.described)
            if why:
                self.leave_out(pool, *why)
            else:
                self.pools[pool.id] = pool
        self.more_pools()
        self.acceptance = Acceptance(cluster, client)
        if is_hopeful and self.pools:
            self.texts = self.acceptance.hoped(self.map, self.pools)
        else:
            self.texts = self.acceptance.accepted(self.map, self.pools, self.leave_out)
        self.known = self.texts.devices()
        self.pairs = {}
        for pool in self.pools.values():
            self.note_pairs(pool)
        self.exceptions = Exceptions(cluster.lists, cluster.primaries, cluster.affinity)
        self.affine = {it.id for it in self.pools.values() if cluster.affinity.keys() & self.may_have(it)}
        self.keeper = Keeper(self.map, self.state)
        self.notes += on_oddities(self, self.pools) + on_rounded_sets(self)

    # ---- what is computed

    def leave_out(self, pool, kind, why):
        devices = self.devices_of(pool)
        self.left_out[pool.id] = (kind, why)
        self.pools.pop(pool.id, None)
        touched = f"; it has to do with {self.names_of(devices)}" if devices else ""
        whole, short = (f"pool {pool.name} ({pool.id}){words}: {why}{touched}" for words in (" isn't computed", ""))
        self.notes.append(Note(kind, whole, pools=[pool.id], devices=devices, short=short))

    def devices_of(self, pool):
        """Returns the devices that a pool's rule can answer; none where the map lacks the rule."""
        rule = self.map.rules.get(pool.rule)
        return self.map.reached(rule) if rule else set()

    def names_of(self, devices):
        """Returns devices in words, cut after some of them."""
        return some([self.map.name_of(it) for it in sorted(devices)], MOST_NAMES)

    def pools_text(self, pools):
        if not pools:
            return "no pool"
        names = [self.cluster.pools[it].name if it in self.cluster.pools else it for it in pools]
        return f"{'pool' if len(pools) == 1 else 'the pools'} {some(names)}"

    def more_pools(self):
        """Leaves out the pools that are more than a tenant has."""
        for pool in list(self.pools.values())[MOST_POOLS:]:
            self.leave_out(pool, "limit", f"crushcalc takes {MOST_POOLS} pools")

    def take_in(self, pool):
        """Takes a pool for computed after all, which was left out."""
        self.left_out.pop(pool.id)
        self.notes = [it for it in self.notes if not (it.open and it.pools == [pool.id])]
        self.note_pairs(pool)
        self.by_exception.pop(pool.id, None)
        self.notes += on_oddities(self, {pool.id: pool})

    def note_pairs(self, pool):
        """Takes in the upmap items of a pool that crushcalc can have."""
        self.pairs[pool.id], notes = known_pairs(self, pool)
        self.notes += notes

    # ---- what stands in the answers

    def state(self, device):
        """Returns the state of a device as the files have it."""
        return self.cluster.states.get(device) or (State() if self.cluster.described else State(0, False))

    def own_states(self):
        """Returns the states of devices that aren't in and up, or that are reweighted: all others
        are so from the beginning of a run."""
        if self.odd_states is None:
            states = {it: self.state(it) for it in self.known}
            self.odd_states = {id_: it for id_, it in states.items() if it.reweight != ONE or not it.up}
        return self.odd_states

    def placed(self):
        """Returns the devices that stand in some bucket, and that a text declares."""
        if self.in_buckets is None:
            self.in_buckets = [it for it in self.tree.placed_devices() if it in self.known]
        return self.in_buckets

    def reach(self, pool):
        """Returns the devices that a pool's rule can answer."""
        if pool.rule not in self.sets:
            self.sets[pool.rule] = self.map.reached(self.map.rules[pool.rule])
        return self.sets[pool.rule]

    def may_have(self, pool):
        """Returns the devices that groups of a pool may lie on, by its rule or by exceptions."""
        named = {new for pairs in self.pairs[pool.id].values() for _, new in pairs}
        return self.reach(pool) | named | {it for own in self.cluster.lists.get(pool.id, {}).values() for it in own}

    def taken(self, pool):
        """Returns the devices that a pool's rule takes by name: these stand in no impact list."""
        return {item for item in self.map.rules[pool.rule].takes() if item >= 0}

    def touched(self, devices):
        """Returns the computed pools that may have groups on devices."""
        devices = set(devices)
        return [it for it in self.pools.values() if devices & self.reach(it) or self.with_exception_to(it.id, devices)]

    def stretched(self, devices):
        """Returns the pools of stretch mode that may have groups on devices: what stops in them
        isn't computed."""
        return [it for it in self.touched(devices) if it.stretched]

    def with_exception_to(self, pool, devices):
        """Returns the groups that have a pair to one of the devices, or a whole list with one."""
        if pool not in self.by_exception:
            found = {}
            for group, pairs in self.pairs[pool].items():
                for _, new in pairs:
                    found.setdefault(new, set()).add(group)
            for group, own in self.exceptions.lists.get(pool, {}).items():
                for device in own:
                    found.setdefault(device, set()).add(group)
            self.by_exception[pool] = found
        found = self.by_exception[pool]
        return set().union(*(found[it] for it in devices if it in found))

    def doubt_groups(self, placements):
        """Doubts all answers where groups, by pool, lie otherwise than the cluster itself says."""
        if self.cluster.groups is not None:
            self.doubt = self.doubt or Compared(self, placements).doubt()

    def doubt_usage(self, usages):
        """Doubts all answers where devices have other numbers of groups, by pool, than the cluster
        itself says."""
        self.doubt = self.doubt or doubt_by_usage(self, usages)

    def is_affine(self, pool):
        """Returns whether a pool may have groups on devices with a primary affinity other than
        1."""
        return pool in self.affine

    def led_moves(self, pool, moves):
        """Returns moves as they are by primary affinity, by which the order of a list may be
        another."""
        own, affinity = self.pools[pool], self.exceptions.affinity
        found = {group: tuple(led(own, group, it, affinity)[0] for it in both) for group, both in moves.items()}
        return {group: (old, new) for group, (old, new) in found.items() if old != new}

    def run(self, pools=None, pairs=None, exceptions=None, maps=None):
        """Begins a run on some of the pools, with the cluster's map, upmap items and other
        exceptions, or others."""
        return Run(
            self,
            self.pools if pools is None else pools,
            self.pairs if pairs is None else pairs,
            exceptions or self.exceptions,
            maps or [self.texts],
        )

    def side_by_side(self, *works):
        """Does several works that ask, side by side where that can be; returns what they return."""
        return side_by_side(self.client, works)

    def answer(self, *runs):
        """Has runs answered, side by side where that can be."""
        sides = [(run, side) for run in runs for side in run.sides]
        try:
            found = at_once(self.client, [side.requests for _, side in sides])
        except Exception:
            self.acceptance.confirm()
            raise
        self.acceptance.confirm()
        for (run, side), replies in zip(sides, found):
            run.take(side, replies)
        return runs
