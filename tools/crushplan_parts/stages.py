"""Changes of a cluster one after the other, as they are done to it: states of devices, and maps.
After each the upmap items that Ceph's monitors remove then are gone."""
from .cluster import State
from .upmap_rules import Keeper


class Stages:
    """A cluster on its way. `pools` are ids; `pairs`, `lists` and `changed`, the states of devices,
    are what holds by now, and `texts` those of the maps that it had so far, beside its own."""

    def __init__(self, plan, pools, before=None, texts=(), first=None):
        """Takes the stages that came before, or None, and the texts of maps that are there beside
        the cluster's own; or `first`, those of the map that is there in its place."""
        self.plan, self.pools = plan, sorted(pools)
        pairs, lists = (before.pairs, before.lists) if before else ({}, {})
        self.pairs = {it: dict(pairs.get(it, plan.pairs[it])) for it in self.pools}
        self.lists = {it: dict(lists.get(it, plan.exceptions.lists.get(it, {}))) for it in self.pools}
        self.changed, self.first, self.texts = dict(before.changed if before else {}), first or plan.texts, list(texts)
        self.map = self.first.map

    def exceptions(self):
        return self.plan.exceptions.with_lists({it: dict(own) for it, own in self.lists.items()})

    def begun(self, pools=None, later=()):
        """Returns a run on the cluster as it is by now, for some of the pools; `later` are the
        texts of the next map."""
        pairs = {it: dict(own) for it, own in self.pairs.items()}
        maps = [self.first, *self.texts, *later]
        run = self.plan.run(self.pools if pools is None else pools, pairs, self.exceptions(), maps)
        if self.changed:
            run.set_states(self.changed)
        for _ in self.texts:
            run.import_map()
        return run

    def keeper(self):
        # a device that a changed map brings counts as in and up, as it does for placement
        found = Keeper(
            self.map,
            lambda device: self.changed.get(device)
            or (self.plan.state(device) if device in self.plan.known else State()),
        )
        return found.knows_as(self.plan.keeper)

    def remove_pairs(self, pool, raws):
        """Takes away the pairs and lists that the monitors don't keep; `raws` are raw lists by
        group. Returns the groups of which others hold now."""
        own, lists, found = self.pairs[pool], self.lists[pool], []
        if not own and not lists:
            return found
        keeper = self.keeper()
        for group, raw in raws.items():
            if group in own or group in lists:
                old = (list(own.get(group, ())), lists.get(group))
                kept = keeper.kept_at_last(self.plan.cluster.pools[pool], raw, *old)
                if kept != old:
                    found.append(group)
                    for of, value in zip((own, lists), kept):
                        of.pop(group, None)
                        if value:
                            of[group] = value
        return found

    def again(self, dirty):
        """Returns where groups lie whose pairs were removed in part: by pool and group."""
        dirty = {pool: groups for pool, groups in dirty.items() if groups}
        if not dirty:
            return {}
        run = self.begun(dirty)
        asked = {pool: run.lists(pool, groups) for pool, groups in dirty.items()}
        self.plan.answer(run)
        return {pool: run.placements(it) for pool, it in asked.items()}

    def set_states(self, stages, groups, before=None):
        """Changes states of devices, stage by stage, and returns where groups lie before and after
        each: a list of placements by pool and group. `groups` are wanted by pool; `before` is given
        where it is known."""
        run, pools = self.begun(), [it for it in self.pools if groups.get(it)]
        asked = [{}] if before is not None else [{pool: run.lists(pool, groups[pool]) for pool in pools}]
        for changed in stages:
            run.set_states(changed)
            asked.append({pool: run.lists(pool, groups[pool]) for pool in pools})
        self.plan.answer(run)
        for changed in stages:
            self.changed.update(changed)
        found = [{pool: run.placements(it) for pool, it in own.items()} for own in asked]
        if before is not None:
            found[0] = {pool: {group: before[pool][group] for group in groups[pool]} for pool in pools}
        self.settle(found[-1])
        return found

    def settle(self, placements):
        """Has the monitors remove what they don't keep where groups lie so, by pool, and asks for
        these groups again."""
        dirty = {
            pool: self.remove_pairs(pool, {group: it.raw for group, it in own.items()})
            for pool, own in placements.items()
        }
        for pool, own in self.again(dirty).items():
            placements[pool].update(own)

    def set_map(self, map_, texts, with_usage=False):
        """Changes the map, and returns the groups that lie elsewhere then: up before and after, by
        pool and group. `with_usage` also asks how much then lies where, and where groups with
        exceptions lie."""
        run = self.begun(later=[texts])
        groups = {pool: sorted(self.pairs[pool].keys() | self.plan.exceptions.of(pool)) for pool in self.pools}
        groups = {pool: own for pool, own in groups.items() if own}
        before = {pool: run.lists(pool, own) for pool, own in groups.items()}
        run.import_map()
        moves = {pool: run.moves_to(pool) for pool in self.pools}
        after = {pool: run.lists(pool, own) for pool, own in groups.items()}
        usages = {pool: run.usage(pool) for pool in self.pools if with_usage}
        self.plan.answer(run)
        self.map = map_
        self.texts.append(texts)
        found = {pool: run.moves(place) for pool, place in moves.items()}
        self.usages = {pool: run.counted(it) for pool, it in usages.items()}
        old, new = ({pool: run.placements(it) for pool, it in own.items()} for own in (before, after))
        dirty = {
            pool: self.remove_pairs(pool, {group: it.raw for group, it in own.items()}) for pool, own in new.items()
        }
        for pool, own in self.again(dirty).items():
            if with_usage:
                self.usages[pool] = self.usages[pool].after([(new[pool][group], it) for group, it in own.items()])
            new[pool].update(own)
        for pool, own in groups.items():
            for group in own:
                found[pool].pop(group, None)
                if old[pool][group].up != new[pool][group].up:
                    found[pool][group] = (old[pool][group].up, new[pool][group].up)
        return found


def in_turn(plan, pools, units):
    """Returns what set_states() does for each of several changes, each of them of the cluster as it
    is: one run asks them all. Of each there are its stages, the groups that are wanted by pool, and
    where groups lie before."""
    run, asked = plan.run(pools), []
    for stages, groups, _ in units:
        own = []
        for changed in stages:
            run.set_states(changed)
            own.append({pool: run.lists(pool, groups[pool]) for pool in sorted(pools) if groups.get(pool)})
        run.set_states({it: plan.state(it) for changed in stages for it in changed})
        asked.append(own)
    plan.answer(run)
    found = []
    for (stages, groups, before), own in zip(units, asked):
        lists = [{pool: {group: before[pool][group] for group in groups[pool]} for pool in own[-1]}]
        lists += [{pool: run.placements(it) for pool, it in of.items()} for of in own]
        after = Stages(plan, pools)
        for changed in stages:
            after.changed.update(changed)
        after.settle(lists[-1])
        found.append(lists)
    return found


def states_after(plan, devices, **fields):
    """Returns the states of devices once they are changed."""
    return {it: State(**{**vars(plan.state(it)), **fields}) for it in devices}
