"""Which pools can be computed on a map, and why others can't: a kind, and words that say what to do
next."""
from . import sets
from .crush_map import COMPUTED
from .faults import counted, some
from .texts import limit_of, reached_buckets

MOST_SIZE, MOST_GROUPS, MOST_POOLS = 32, 65536, 256
LOCAL = ("choose_local_tries", "choose_local_fallback_tries")
NEXT = {
    "straw": "'ceph osd crush set-all-straw-buckets-to-straw2' makes straw2 buckets of them, which can be computed",
}  # fmt: skip


def pool_fault(map_, pool, described=False):
    """Returns why a pool can't be computed on a map, as a kind and words, or None. `described` is
    whether the command line describes the pools."""
    rule = map_.rules.get(pool.rule)
    if rule is None:
        return "rule", f"{map_.file} lacks its rule {pool.rule}"
    if pool.kind not in ("replicated", "erasure"):
        return "pool", f"it is a pool {pool.kind}"
    if not 1 <= pool.size <= MOST_SIZE:
        return (
            "limit",
            (
                f"its size is {pool.size}, and crushcalc takes 1 to {MOST_SIZE}: 'ceph pg ls-by-pool {pool.name}' says"
                " where its groups lie"
            ),
        )
    if not 1 <= pool.pg_num <= MOST_GROUPS or not 1 <= pool.pgp_num <= pool.pg_num:
        return (
            "limit",
            f"it has {pool.pg_num} groups, {pool.pgp_num} by pgp_num, and crushcalc takes 1 to {MOST_GROUPS:,}",
        )
    if rule.odd:
        return "rule", f"of its rule {rule.name}: {rule.odd}"
    if not described and pool.kind != rule.kind:
        return "rule", f"it is {pool.kind}, and its rule {rule.name} is for {rule.kind} pools: Ceph then finds no rule"
    if not described and rule.sizes and not rule.sizes[0] <= pool.size <= rule.sizes[1]:
        return (
            "rule",
            (
                f"its size {pool.size} isn't within {rule.sizes[0]} to {rule.sizes[1]} of its rule {rule.name}: Ceph"
                " then finds no rule"
            ),
        )
    return takes_fault(map_, rule) or buckets_fault(map_, rule) or set_fault(map_, pool)


def takes_fault(map_, rule):
    """Returns what is wrong with what a rule takes, and with its tries, or None."""
    for step in rule.steps:
        if step[0] == "take" and step[2]:
            return (
                "class",
                (
                    f"its rule {rule.name} takes the class {step[2]} alone, whose trees crush.json has, and"
                    f" {map_.file} hasn't"
                ),
            )
        if step[0] == "take" and step[1] < 0 and step[1] not in map_.buckets:
            return "rule", f"its rule {rule.name} takes the bucket {step[1]}, which isn't there"
        if step[0] in [f"set_{it}" for it in LOCAL] and step[1] > 0:
            return (
                "local tries",
                (
                    f"its rule {rule.name} has the step {step[0]} {step[1]}, which crushcalc doesn't compute: a rule"
                    " without it can be"
                ),
            )
    own = next((it for it in LOCAL if map_.tunables.get(it)), None)
    if own:
        return (
            "local tries",
            (
                f"{map_.file} has the tunable {own} {map_.tunables[own]}, of Ceph's first releases, which crushcalc"
                " doesn't compute: 'ceph osd crush tunables bobtail' and those behind it are without it, and move much"
            ),
        )
    return None


def buckets_fault(map_, rule):
    """Returns what is wrong with the buckets below a rule, or None."""
    buckets = [map_.buckets[it] for it in reached_buckets(map_, rule.id)]
    lost = next(
        (item for it in buckets for item, _ in it.items if item is not None and item < 0 and item not in map_.buckets),
        None,
    )
    if lost is not None:
        return "map", f"below its rule {rule.name} is the bucket {lost}, which isn't there"
    others = [it for it in buckets if it.alg not in COMPUTED]
    if others:
        algs = sorted({it.alg for it in others})
        then = f": {NEXT[algs[0]]}" if algs[0] in NEXT else ""
        names = some([it.name for it in others], 3)
        return (
            algs[0],
            (
                f"below its rule {rule.name} are {' and '.join(algs)} buckets ({names}), which crushcalc doesn't"
                f" compute{then}"
            ),
        )
    others = [it.name for it in buckets if it.hash not in ("rjenkins1", "0")]
    if others:
        return "hash", f"the buckets {some(others, 3)} have another hash than rjenkins1"
    why = limit_of(map_, rule.id)
    return ("limit", why) if why else None


def set_fault(map_, pool):
    """Returns what is wrong with a pool's weight set, or None."""
    return sets.fault_of(map_, sets.key_of(map_, pool.id), reached_buckets(map_, pool.rule))


def sets_in_use(map_, pools):
    """Returns the keys of the weight sets that pools are placed by, each with the pools."""
    found = {}
    for it in pools:
        key = sets.key_of(map_, it.id)
        if key is not None and sets.rows_of(map_, key, reached_buckets(map_, it.rule)):
            found.setdefault(key, []).append(it)
    return found


def count_of(map_, pools):
    """Says which weight sets are in use."""
    found = [
        f"{sets.name_of(key)} ({counted(len(own), 'pool')})" for key, own in sorted(sets_in_use(map_, pools).items())
    ]
    return ", ".join(found) or "none"
