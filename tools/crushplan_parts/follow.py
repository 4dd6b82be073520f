"""Follows a runbook: the maps after each line, with what the monitors remove of upmap items, and
where all groups lie at each moment."""
from .commands import after
from .commands_osd import await_clean, go_out, kept_in
from .maps import cluster_of, maps_of
from .placing import Plan
from .texts import reached_buckets
from .sets import key_of
from .upmap_rules import Keeper


class Moment:
    """A moment of a cluster: what the monitors hold, and where the groups of each pool lie that is
    computed. `pools` are pools by id; `signs` have of each pool all by which it is placed."""

    def __init__(self, maps, plan, signs, lists):
        self.maps, self.plan, self.signs, self.lists = maps, plan, signs, lists

    def is_alive(self, device):
        """Returns whether a device has its data and serves it."""
        it = self.maps.osds.get(device)
        return it is not None and it.up and not it.destroyed


class Event:
    """A line that was done, or refused: what is to be said of it, and the upmap entries that the
    monitors removed by it, in words."""

    def __init__(self, line, remarks=(), removed=(), refused=None, unknown=None):
        self.line, self.remarks, self.removed = line, list(remarks), list(removed)
        self.refused, self.unknown = refused, unknown  # Ceph's refusal; why it isn't foretold

    def ends(self):
        """Returns whether nothing behind it is foretold."""
        return self.refused is not None or self.unknown is not None


class Follower:
    """Does commands one after the other. Where groups lie is asked once for the same maps."""

    def __init__(self, plan, folders):
        self.first, self.known = plan, {}
        self.maps = maps_of(plan.cluster)
        self.maps.folders = folders
        self.plans = [(self.maps, plan)]

    def plan_of(self, maps):
        """Returns what is computed of maps."""
        found = next((own for it, own in self.plans if it is maps), None)
        if found is None:
            found = Plan(cluster_of(maps, self.first.cluster), self.first.client)
            self.plans = [*self.plans[-3:], (maps, found)]
        return found

    def moment(self, maps):
        """Returns where all groups lie."""
        plan = self.plan_of(maps)
        wanted = {id_: range(it.pg_num) for id_, it in plan.pools.items()}
        signs = {id_: sign_of(plan, it) for id_, it in plan.cluster.pools.items()}
        return Moment(maps, plan, signs, self.lists(plan, wanted, signs))

    def lists(self, plan, wanted, signs):
        """Returns where groups lie that are wanted, by pool: all of a pool, or some."""
        found, run = {}, None
        asked = {}
        for id_, groups in wanted.items():
            kept = self.known.get((id_, signs[id_]))
            if kept is not None:
                found[id_] = {it: kept[it] for it in groups}
                continue
            run = run or plan.run(list(wanted))
            asked[id_] = run.lists(id_, groups)
        if asked:
            plan.answer(run)
        for id_, it in asked.items():
            found[id_] = run.placements(it)
            if len(found[id_]) == plan.pools[id_].pg_num:
                self.known[id_, signs[id_]] = found[id_]
        return found

    def do(self, line, maps):
        """Returns the maps after a line, and what happened (Event)."""
        from .wrapper import Refused, Unforetold

        try:
            found, remarks = after(maps, line.words)
        except Refused as refused:
            return self.cleaned(refused.maps)[0], Event(line, refused=refused)
        except Unforetold as why:
            return maps, Event(line, unknown=str(why))
        found, removed = self.cleaned(found)
        return found, Event(line, remarks, removed)

    def cleaned(self, maps):
        """Returns the maps once the monitors have removed the upmap entries that they don't keep
        (OSDMap::clean_pg_upmaps), as they do in each new epoch; and these in words."""
        entries = {pool: own for pool, own in maps.group_names().items()}
        if not any(entries.values()):
            return maps, []
        plan = self.plan_of(maps)
        wanted = {pool: sorted(own) for pool, own in entries.items() if pool in plan.pools}
        lists = self.lists(plan, wanted, {id_: sign_of(plan, plan.cluster.pools[id_]) for id_ in wanted})
        keeper, found, removed = Keeper(plan.map, plan.state), maps.copied(), []
        for pool, own in lists.items():
            for group, it in own.items():
                removed += clean_group(keeper, plan.cluster.pools[pool], group, it.raw, found)
        return (found, removed) if removed else (maps, [])

    def taken_down(self, maps):
        """Returns the OSDs that are down, and were up at the start."""
        return [id_ for id_, it in maps.osds.items() if not it.up and id_ in self.maps.osds and self.maps.osds[id_].up]

    def settled(self, maps, taken_down):
        """Returns the maps once enough time has passed, and what happened by itself: OSDs that the
        runbook took down go out, and others come up."""
        found, remarks = await_clean(maps)
        late = [it for it in taken_down if it in found.osds and not found.osds[it].up and found.osds[it].reweight]
        kept = kept_in(found, late)
        if kept and "noout" not in found.flags:
            names, late = ", ".join(f"osd.{it}" for it in kept), [it for it in late if it not in kept]
            remarks.append(
                f"{names}, down for long, {'stays' if len(kept) == 1 else 'stay'} in: the whole rack is down"
            )
        if late and "noout" not in found.flags:
            found = go_out(found, late)
            names = ", ".join(f"osd.{it}" for it in late)
            remarks.append(
                f"{names}, down for long, {'goes' if len(late) == 1 else 'go'} out (mon_osd_down_out_interval)"
            )
        if not remarks:
            return maps, [], []
        found, removed = self.cleaned(found)
        return found, remarks, removed


def clean_group(keeper, pool, group, raw, maps):
    """Removes what isn't kept of a group, and returns it in words."""
    pairs, whole = maps.pairs.get(pool.id, {}).get(group, []), maps.lists.get(pool.id, {}).get(group)
    if not pairs and whole is None:
        return []
    kept, left = keeper.kept_at_last(pool, raw, list(pairs), whole)
    removed = []
    for of, old, new in ((maps.pairs, list(pairs), kept), (maps.lists, whole, left)):
        if old == new:
            continue
        of[pool.id].pop(group, None)
        if new:
            of[pool.id][group] = new
        gone = " ".join(f"{a}>{b}" for a, b in old if (a, b) not in new) if of is maps.pairs else "its whole list"
        removed.append(f"{pool.group_name(group)} {gone}{why_removed(keeper, pool, raw, pairs, whole)}")
    return removed


def why_removed(keeper, pool, raw, pairs, whole):
    """Returns why the monitors remove what a group has, in words behind it."""
    from .upmap_rules import pair_remarks

    items, remarks = pair_remarks(raw if whole is None else whole, pairs, keeper.may_be)
    why = keeper.broken(pool, items) or next(iter(remarks), None)
    return f" ({why})" if why else ""


def sign_of(plan, pool):
    """Returns all by which a pool is placed: two moments at which it is the same place it alike."""
    rule = plan.map.rules.get(pool.rule)
    if rule is None:
        return (pool.rule,)
    buckets = sorted(reached_buckets(plan.map, pool.rule))
    own = [
        (it, plan.map.buckets[it].alg, plan.map.buckets[it].type, tuple(plan.map.buckets[it].items)) for it in buckets
    ]
    key = key_of(plan.map, pool.id)
    rows = plan.map.weight_sets[key].rows if key is not None else {}
    devices = sorted(plan.map.reached(rule) | plan.cluster.states.keys())
    return hashed(
        (
            (pool.kind, pool.size, pool.rule, pool.pg_num, pool.pgp_num, pool.hashpspool),
            rule.steps,
            own,
            [(it, rows.get(it)) for it in buckets],
            sorted(plan.map.tunables.items()),
            [(it, plan.state(it).reweight, plan.state(it).up) for it in devices],
            sorted(plan.cluster.pairs.get(pool.id, {}).items()),
            sorted(plan.cluster.lists.get(pool.id, {}).items()),
            sorted(plan.cluster.primaries.get(pool.id, {}).items()),
            sorted(plan.cluster.affinity.items()),
        )
    )


def hashed(value):
    """Returns a value that is the same for the same one alone, and short."""
    import hashlib

    return hashlib.sha256(repr(value).encode()).hexdigest()
