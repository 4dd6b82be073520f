"""`crushplan drain`: hosts, racks or devices out, on paper."""
from .after_drain import AfterDrain
from .changing import Start, pool_changes
from .drawing import of_devices
from .faults import counted, some
from .names import Chosen, names_in
from .output import Answer, sized
from .reports import (
    Stay,
    check_type,
    groups_rows,
    groups_table,
    pools_table,
    status_of,
    summary_table,
    usage_rows,
    usage_table,
    used_said,
    verdict,
    warn_of_flags,
    warn_of_room,
)
from .service import Later
from .stages import Stages, states_after
from .summary import Summary


def drain(plan, asked):
    """Answers what a drain does: the reweights of devices become 0."""
    chosen = Chosen(plan, names_in(asked, "drain"), asked.of_class)
    devices = chosen.devices
    drained = states_after(plan, devices, reweight=0)
    making = Later(lambda: AfterDrain(plan, devices))

    def drain_then_purge():
        start = Start(plan, devices)
        stages = Stages(plan, start.touched)
        lists, later = stages.set_states([drained], start.wanted(devices)), making.result()
        return start, lists, None if later.is_plain() else later.ask_purge(stages)

    def purge_meanwhile():
        later = making.result()
        stages = Stages(plan, later.pools)
        stages.changed.update(drained)
        return later.ask_purge(stages) if later.is_plain() else None

    (start, (before, after), purge), (first, second), meanwhile = plan.side_by_side(
        drain_then_purge, lambda: making.result().ask_weight_first(), purge_meanwhile
    )
    later = making.result()
    purge = meanwhile if later.is_plain() else purge
    changes = pool_changes(plan, start, devices, before, after)
    later.take(changes, purge, first, second)
    summary, stay = Summary(plan, changes, devices), Stay(plan, start, devices, changes)
    warn_of_room(plan)
    warn_of_flags(plan)
    status = status_of(plan, summary, stay)
    fields = lambda: {
        "devices": devices, **summary.said(asked.groups), "stay": stay.said(),
        "purge": later.purge and later.purge.said(asked.groups), "unforetold": later.unforetold,
        "weight_first": {**later.weight_first.said(asked.groups), "left": later.left,
                         "past_backfillfull": [it for it, _ in later.too_full],
                         "then_purge": later.then_purge and later.then_purge.said(asked.groups)},
    }  # fmt: skip
    check_type(plan, summary, asked.by)
    blocks = lambda: [
        chosen.text(),
        summary_table(plan, summary, stay),
        pools_table(summary),
        usage_table(plan, summary, asked.by),
        purge_text(later, devices) if plan.pools else None,
        groups_table(summary.moves) if asked.groups else None,
    ]
    rows = groups_rows(plan, summary.moves) if asked.groups else usage_rows(summary)
    drawing = lambda: of_devices(plan, summary.devices, asked.by)
    answer = Answer(status, verdict(summary, stay, status), fields, blocks, rows, drawing)
    return answer.of(it.pool.id for it in changes)


def in_bytes(value):
    return f" ({sized(value)})" if value is not None else ""


def purge_text(later, devices):
    """Says what removing the devices moves afterwards, and whether it is less by their CRUSH weight
    first; nothing where neither is computed."""
    if not later.pools:
        return ""
    ids = " ".join(map(str, devices[:3])) + (" .." if len(devices) > 3 else "")
    if later.unforetold:
        return (
            f"What 'ceph osd purge' of {counted(len(devices), 'device')} ({ids}) does isn't known: {later.unforetold}."
        )
    first, _ = later.compared()
    return "\n".join((
        f"Afterwards 'ceph osd purge' of {counted(len(devices), 'device')} ({ids}) would move"
        f" {counted(later.purge.moved, 'group')} again: {counted(later.purge.copies, 'copy', 'copies')}"
        f"{in_bytes(later.purge.bytes)}, in all {first:,}.",
        weight_first_text(later),
    ))  # fmt: skip


def weight_first_text(later):
    first, other = later.compared()
    if later.left:
        return (
            f"'ceph osd crush reweight osd.N 0' is no way to drain them: {counted(later.left, 'copy', 'copies')} would"
            " stay on them, since a uniform bucket picks its devices by no weight."
        )
    uniform = [
        it.name
        for it in later.plan.map.buckets.values()
        if it.alg == "uniform"
        and not it.shadow
        and 0 < len({item for item, _ in it.items} & set(later.devices)) < len(it.items)
    ]
    also = (
        f" (the other devices of {some(uniform, 3)}, {'a uniform bucket' if len(uniform) == 1 else 'uniform buckets'},"
        " get that weight too)"
        if uniform
        else ""
    )
    text = (
        f"With 'ceph osd crush reweight osd.N 0' in the place of the drain{also}:"
        f" {counted(later.weight_first.copies, 'copy', 'copies')}, and {later.then_purge.copies:,} by the purge, in all"
        f" {other:,}: "
    )
    text += (
        "that moves fewer copies"
        if other < first
        else "that moves as many" if other == first else "the drain moves fewer copies"
    ) + "."
    if later.too_full:
        text += f" But then {some([used_said(*it) for it in later.too_full], 3)}, past the backfill-full ratio."
    return text
