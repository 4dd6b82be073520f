"""crush.json: the map with exact weights, as `ceph osd crush dump -f json` or `crushtool --dump`
writes it."""
from decimal import Decimal

from .crush_map import KINDS, MSR, MSR_KINDS, ONE, TUNABLES, Bucket, CrushMap, Rule, WeightSet
from .faults import Fault
from .fields import Node, opened
from .sets import sharpen

# steps that release 16 writes by their numbers
OPCODES = {12: "set_chooseleaf_vary_r", 13: "set_chooseleaf_stable"}
SET_STEPS = (
    "set_choose_tries", "set_chooseleaf_tries", "set_choose_local_tries", "set_choose_local_fallback_tries",
    "set_chooseleaf_vary_r", "set_chooseleaf_stable",
)  # fmt: skip


def read_dump(path, name):
    """Reads the map of a dump; a Fault names the field that isn't as Ceph writes it."""
    whole = opened(path, name)
    if not whole.has("buckets") or not whole.has("tunables"):
        raise Fault(
            f"{name} has no fields 'buckets' and 'tunables': it isn't what 'ceph osd crush dump -f json' writes"
        )
    types = {it.get("type_id", int): it.get("name", str) for it in whole.each("types")}
    devices, classes = {}, {}
    for it in whole.each("devices"):
        id_ = it.get("id", int)
        devices[id_] = it.get("name", str, f"osd.{id_}")
        if it.has("class"):
            classes[id_] = it.get("class", str)
    buckets = {it.id: it for it in map(bucket_of, whole.each("buckets"))}
    rules = {it.id: it for it in (rule_of(node, buckets) for node in whole.each("rules"))}
    tunables = {it: whole.at("tunables").get(it, int) for it in TUNABLES if whole.at("tunables").has(it)}
    map_ = CrushMap(name, False, tunables, devices, classes, types, buckets, rules, weight_sets_of(whole))
    map_.algs = whole.at("tunables").get("allowed_bucket_algs", int, map_.algs)
    for it in map_.weight_sets.values():
        sharpen(map_, it)
    return map_


def bucket_of(node):
    id_, name = node.get("id", int), node.get("name", str)
    if id_ >= 0:
        raise Fault(f"{node.where}: the id of a bucket is below 0")
    items = [
        (it.get("pos", int, place), it.get("id", int), it.size("weight")) for place, it in enumerate(node.each("items"))
    ]
    items = [(item, weight) for _, item, weight in sorted(items, key=lambda it: it[0])]
    shadow = name.rsplit("~", 1)[1] if "~" in name else None
    return Bucket(
        id_, name, node.get("type_id", int), node.get("alg", str), node.get("hash", str, "rjenkins1"), items, shadow
    )


def rule_of(node, buckets):
    id_, type_ = node.get("rule_id", int), node.get("type", int)
    steps, odd = [], MSR if type_ in MSR_KINDS else None if type_ in KINDS else f"its type is {type_}"
    for it in node.each("steps"):
        step = step_of(it, buckets)
        if step is None:
            odd = odd or f"it has a step {it.get('op', str, 'that is unknown')!r}"
        else:
            steps.append(step)
    if node.get("ruleset", int, id_) != id_:
        odd = odd or f"its ruleset is {node.get('ruleset', int)}"
    sizes = (
        (node.get("min_size", int), node.get("max_size", int))
        if node.has("min_size") and node.has("max_size")
        else None
    )
    return Rule(
        id_,
        node.get("rule_name", str, f"rule-{id_}"),
        {**KINDS, **MSR_KINDS}.get(type_, "replicated"),
        steps,
        sizes,
        odd,
    )


def step_of(node, buckets):
    """Returns a step as words, or None for one that is unknown here."""
    if node.has("opcode"):
        word = OPCODES.get(node.get("opcode", int))
        return (word, node.get("arg1", int)) if word else None
    op = node.get("op", str)
    if op == "take":
        item = node.get("item", int)
        name = node.get("item_name", str, "")
        # a class is taken by its own tree of buckets, which the dump has too
        return (op, item, name.split("~", 1)[1] if "~" in name and item not in buckets else None)
    if op in ("emit", "noop"):
        return (op,)
    if op in SET_STEPS:
        return (op, node.get("num", int))
    word, _, mode = op.rpartition("_")
    if word in ("choose", "chooseleaf") and mode in ("firstn", "indep"):
        return (word, mode, node.get("num", int), node.get("type", str))
    return None


def weight_sets_of(whole):
    """Returns the weight sets: by the id of a pool, or -1 for all pools that have none of their
    own."""
    if not whole.has("choose_args"):
        return {}
    sets, found = whole.at("choose_args"), {}
    for key in sets.of_kind(dict):
        try:
            id_ = int(key)
        except ValueError:
            raise Fault(f"{sets.where}: {key!r} is no id of a pool") from None
        rows, with_ids = {}, []
        for it in sets.each(key):
            bucket = it.get("bucket_id", int)
            if it.has("weight_set"):
                rows[bucket] = [
                    [fixed_weight(of) for of in row_of(it, place)]
                    for place in range(len(it.at("weight_set").of_kind(list)))
                ]
            if it.has("ids") and it.at("ids").of_kind(list):
                with_ids.append(bucket)
        found[id_] = WeightSet(rows, with_ids)
    return found


def row_of(node, place):
    """Yields the weights of a position."""
    inner = Node(node.value["weight_set"][place], f"{node.where}: weight_set[{place}]")
    for at, value in enumerate(inner.of_kind(list)):
        yield Node(value, f"{inner.where}[{at}]")


def fixed_weight(node):
    """Returns the 65536ths of a weight, which the dump has as a number with a point."""
    value = node.of_kind(Decimal)
    if value < 0:
        raise Fault(f"{node.where} is below 0")
    return int((value * ONE).to_integral_value())
