"""The upmap items that a search ends with, as lines to type: each is looked at by what Ceph's
monitors keep, and each group by where crushcalc says that it then lies."""
from .faults import Fault
from .upmap_rules import pair_remarks

SET, REMOVE = "ceph osd pg-upmap-items", "ceph osd rm-pg-upmap-items"


class Item:
    """A group with the pairs that it is to have: none where it is to lie as CRUSH alone has it."""

    def __init__(self, pool, group, pairs, items):
        self.pool, self.group, self.pairs, self.items = pool, group, pairs, items

    def line(self):
        name = self.pool.group_name(self.group)
        words = " ".join(f"{old} {new}" for old, new in self.pairs)
        return f"{SET} {name} {words}" if self.pairs else f"{REMOVE} {name}"


def items_of(balancing, search):
    """Returns the items of the groups that a search changed. One that the monitors wouldn't keep is
    a mistake of the search: a Fault, so that it is never sent."""
    plan, pool, found = balancing.plan, balancing.pool, []
    for group in sorted(search.changed):
        raw, items = balancing.placements[group].raw, search.at[group]
        pairs = [(old, new) for old, new in zip(raw, items) if old != new]
        acted, remarks = pair_remarks(raw, pairs, plan.keeper.may_be)
        kept, _ = plan.keeper.kept_at_last(pool, raw, pairs)
        if acted != items or remarks or kept != pairs:
            raise Fault(f"the items found for {pool.group_name(group)} aren't kept: a mistake in crushplan")
        found.append(Item(pool, group, pairs, items))
    return found


def placed(plan, items):
    """Returns where crushcalc says that groups lie with items, by pool and group; a Fault where
    that isn't where the search had them."""
    by_pool = {}
    for it in items:
        by_pool.setdefault(it.pool.id, {})[it.group] = it
    run = plan.run(list(by_pool))
    pairs = {pool: {group: it.pairs for group, it in own.items()} for pool, own in by_pool.items()}
    asked = {pool: run.lists(pool, own, own) for pool, own in pairs.items()}
    if by_pool:
        plan.answer(run)
    found = {pool: run.placements(it) for pool, it in asked.items()}
    for pool, own in found.items():
        for group, it in own.items():
            if sorted(filter(is_device, it.up)) != sorted(up_of(plan, by_pool[pool][group].items)):
                name = by_pool[pool][group].pool.group_name(group)
                raise Fault(f"{plan.client.where} has {name} elsewhere than the search: a mistake in crushplan")
    return found


def is_device(it):
    return it is not None


def up_of(plan, items):
    return [it for it in items if it is not None and plan.state(it).up]
