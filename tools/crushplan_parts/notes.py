"""Notes on a cluster: what of it isn't computed, or is otherwise than it seems."""
from .computable import sets_in_use
from .faults import counted, some


class Note:
    """Something that isn't computed, or is otherwise than it seems, with what it touches. `open`
    is whether an answer lacks it; `short` is the text where it stands under that head."""

    def __init__(self, kind, text, *, pools=(), devices=(), groups=(), open_=True, short=None):
        self.kind, self.text, self.pools, self.devices, self.groups, self.open = (
            kind,
            text,
            sorted(pools),
            sorted(devices),
            list(groups),
            open_,
        )
        self.short = short or text

    def said(self):
        return {
            "kind": self.kind,
            "text": self.text,
            "pools": self.pools,
            "devices": self.devices,
            "groups": self.groups,
        }


def known_pairs(plan, pool):
    """Returns the upmap items of a pool that crushcalc can have, of its groups and of devices that
    the text declares, and notes on others."""
    found, notes = {}, []
    for group, pairs in plan.cluster.pairs.get(pool.id, {}).items():
        odd = [it for it in pairs if it[1] not in plan.known]
        if odd:
            notes.append(
                Note(
                    "upmap",
                    (
                        f"{pool.group_name(group)} has upmap items to devices that aren't there:"
                        f" {some([f'osd.{it[1]}' for it in odd])}"
                    ),
                    pools=[pool.id],
                    groups=[pool.group_name(group)],
                    open_=False,
                )
            )
        own = [it for it in pairs if it[0] in plan.known and it[1] in plan.known and it[0] != it[1]]
        if own and group < pool.pg_num:
            found[group] = own
    return found, notes


def on_oddities(plan, pools):
    """Returns notes on what the files have that placements here don't have, of pools that are
    computed, by id."""
    cluster, notes = plan.cluster, []
    for pool in pools.values():
        if pool.split_to:
            notes.append(
                Note(
                    "split",
                    (
                        f"pool {pool.name} is being split or merged (pg_num {pool.pg_num} on its way to"
                        f" {pool.split_to[0]}, pgp_num {pool.pgp_num} to {pool.split_to[1]}): it is computed as it"
                        " is now, and its groups move by themselves"
                    ),
                    pools=[pool.id],
                    devices=plan.devices_of(pool),
                    open_=False,
                )
            )
        if pool.object_hash != 2:
            notes.append(
                Note(
                    "object hash",
                    (
                        f"pool {pool.name} has another object hash than rjenkins: where its groups lie is computed,"
                        " where its objects lie isn't"
                    ),
                    pools=[pool.id],
                    devices=plan.devices_of(pool),
                    open_=False,
                )
            )
        if pool.bytes is not None and pool.pg_num & (pool.pg_num - 1):
            notes.append(
                Note(
                    "pg_num",
                    (
                        f"pool {pool.name} has {pool.pg_num} groups, which is no power of two: some of them have"
                        " twice the objects of others. What moves, and how full devices get, is said by that, but"
                        " bytes before and after as if all had as many"
                    ),
                    pools=[pool.id],
                    devices=plan.devices_of(pool),
                    open_=False,
                )
            )
    for kind in ("pg_temp", "primary_temp"):
        own = {pool: groups for pool, groups in cluster.temporary.get(kind, {}).items() if pool in pools}
        has = f"a temporary {'list' if kind == 'pg_temp' else 'primary'} ({kind})"
        notes += on_groups(plan, kind, own, has, "what is said is where they lie once that is over")
    return notes


def on_rounded_sets(plan):
    """Returns notes on which groups may lie otherwise by weight sets that are rounded."""
    notes = []
    for key, pools in sets_in_use(plan.map, plan.pools.values()).items():
        if plan.map.weight_sets[key].rounded:
            notes.append(
                Note(
                    "weight set",
                    (
                        f"{plan.map.file} has rounded weights of 256 and more in the weight set choose_args {key}:"
                        f" a few groups of {plan.pools_text([it.id for it in pools])} may lie otherwise"
                    ),
                    pools=[it.id for it in pools],
                    open_=False,
                )
            )
    return notes


def on_groups(plan, kind, lists, has, what):
    """Returns a note on groups that have something: of each pool, of each group, its devices."""
    written = [f"{pool}.{group:x}" for pool, groups in sorted(lists.items()) for group in sorted(groups)]
    devices = {it for groups in lists.values() for own in groups.values() for it in own}
    if not written:
        return []
    of = f"{some(written)}, of {plan.pools_text(sorted(lists))}" + (f" and {plan.names_of(devices)}" if devices else "")
    text = f"{counted(len(written), 'group')} with {has}: {of}; {what}"
    return [Note(kind, text, pools=lists, devices=devices, groups=written, open_=False)]
