"""Changes of device states on paper: the lists before and after, of the groups alone that can
move."""
from .summary import Moved, PoolChange, copies_in


class Start:
    """What is known of all pools before anything changes: usage, and which groups have a device in
    their impact list. Where a pool lacks copies already, its lists too."""

    def __init__(self, plan, devices):
        self.plan, self.devices = plan, devices
        self.touched = {it.id for it in plan.touched(devices)}
        pools = list(plan.pools.values())
        usages, impacts = plan.run(), plan.run(self.touched)
        asked = {it.id: usages.usage(it.id) for it in pools}
        # one request a device, so that each has its own list
        lists = {(pool, device): impacts.impact(pool, [device]) for pool in sorted(self.touched) for device in devices}
        plan.answer(*([usages, impacts] if lists else [usages]))
        self.usage = {pool: usages.counted(it) for pool, it in asked.items()}
        plan.doubt_usage(self.usage)
        self.impact = {key: impacts.can_move(it) for key, it in lists.items()} if lists else {}
        self.all_lists, self.lacking, self.before = {}, {}, None
        self.ask_short_pools()

    def ask_short_pools(self):
        """Asks all lists of the pools that lack copies already, so that each short group is
        known."""
        short = [
            it
            for it in self.plan.pools.values()
            if self.usage[it.id].total() < it.size * it.pg_num or self.usage[it.id].doubled
        ]
        if not short:
            return
        run = self.plan.run([it.id for it in short])
        asked = {it.id: run.lists(it.id, range(it.pg_num)) for it in short}
        self.plan.answer(run)
        self.all_lists = {pool: run.placements(it) for pool, it in asked.items()}
        for it in short:
            lacking = ((group, it.size - copies_in(of.up)) for group, of in self.all_lists[it.id].items())
            self.lacking[it.id] = {group: count for group, count in lacking if count > 0}

    def groups(self, pool, devices):
        """Returns the groups that can move where reweights of these devices are lowered."""
        found = set().union(*(self.impact.get((pool, it), set()) for it in devices)) if devices else set()
        return found

    def groups_with(self, pool, devices):
        """Returns the groups whose up list may have one of the devices: those of the impact lists,
        and all of a pool whose rule takes one by name, which no impact list has."""
        if self.plan.taken(self.plan.pools[pool]) & set(devices):
            return set(range(self.plan.pools[pool].pg_num))
        return self.groups(pool, devices)

    def wanted(self, devices):
        """Returns the groups that are to be asked for devices that change, by pool."""
        return {pool: self.groups_with(pool, devices) for pool in sorted(self.touched)}

    def lists_now(self):
        """Asks where all groups lie now that stand in some impact list, and keeps it."""
        run = self.plan.run(self.touched)
        asked = {pool: run.lists(pool, groups) for pool, groups in self.wanted(self.devices).items() if groups}
        self.plan.answer(run)
        self.before = {pool: run.placements(it) for pool, it in asked.items()}


def pool_changes(plan, start, devices, before, after):
    """Returns what changes in each pool, from where groups lie before and after."""
    found = []
    for id_, pool in plan.pools.items():
        old, new = before.get(id_, {}), after.get(id_, {})
        moves = [Moved(pool, group, old[group], new[group]) for group in sorted(old) if old[group].up != new[group].up]
        found.append(PoolChange(pool, start.usage[id_], start.groups(id_, devices), moves, start.lacking.get(id_)))
    return found


def short_now(pool, lists, lacking):
    """Returns the groups of a pool that lack copies by some lists, and of the others those that
    lacked some before: copies by group."""
    found = {group: pool.size - count for group, count in (lacking or {}).items() if group not in lists}
    for group, it in lists.items():
        copies = copies_in(it.up)
        if copies < pool.size:
            found[group] = copies
    return found
