"""A compiled CRUSH map, as `ceph osd getcrushmap -o FILE` and `crushtool -o FILE` write it
(CrushWrapper::encode): its weights are exact, and it has the order of classes."""
import struct

from .crush_map import KINDS, MSR, MSR_KINDS, TUNABLES, Bucket, CrushMap, Rule, WeightSet
from .wrapper import Refused

MAGIC, MOST = 0x00010000, 1 << 20
UNIFORM, LIST, TREE, STRAW, STRAW2 = 1, 2, 3, 4, 5
ALGS = {UNIFORM: "uniform", LIST: "list", TREE: "tree", STRAW: "straw", STRAW2: "straw2"}
CHOOSES = {2: ("choose", "firstn"), 3: ("choose", "indep"), 6: ("chooseleaf", "firstn"), 7: ("chooseleaf", "indep")}
SETS = {
    8: "set_choose_tries",
    9: "set_chooseleaf_tries",
    10: "set_choose_local_tries",
    11: "set_choose_local_fallback_tries",
    12: "set_chooseleaf_vary_r",
    13: "set_chooseleaf_stable",
}


class Bytes:
    """The bytes of a map, read from the first on."""

    def __init__(self, data):
        self.data, self.at = data, 0

    def take(self, form):
        """Returns a number of a form of struct, in the order of little ends."""
        (found,) = struct.unpack_from(f"<{form}", self.data, self.at)
        self.at += struct.calcsize(f"<{form}")
        return found

    def each(self, count, read):
        if not 0 <= count <= MOST:
            raise ValueError("a count that is no count")
        return [read() for _ in range(count)]

    def text(self):
        size = self.take("I")
        found = self.data[self.at : self.at + size]
        self.at += size
        if len(found) != size:
            raise ValueError("it ends early")
        return found.decode("utf-8", "replace")

    def table(self, read):
        """Returns a table of Ceph: from ids to what is read."""
        return dict(self.each(self.take("I"), lambda: (self.take("i"), read())))

    def is_over(self):
        return self.at >= len(self.data)


def read_compiled(path):
    """Reads a map of a file; Refused where Ceph couldn't parse it."""
    data = path.read_bytes()
    try:
        return read_map(Bytes(data), path.name)
    except (struct.error, ValueError, KeyError, OverflowError):
        raise Refused(
            "EINVAL",
            f"Failed to parse crushmap: {path.name} isn't one that 'crushtool -c' or 'ceph osd getcrushmap' wrote",
        ) from None


def read_map(data, name):
    if data.take("I") != MAGIC:
        raise ValueError("another magic")
    buckets, rules, _ = data.take("i"), data.take("I"), data.take("i")
    own = [it for it in data.each(buckets, lambda: read_bucket(data)) if it]
    steps = [it for it in enumerate(data.each(rules, lambda: read_rule(data))) if it[1]]
    types, names, rule_names = (data.table(data.text) for _ in range(3))
    tunables = {it: data.take("I") for it in TUNABLES[:4]}
    tunables[TUNABLES[4]], _, algs = data.take("B"), data.take("B"), data.take("I")
    tunables[TUNABLES[5]] = 0 if data.is_over() else data.take("B")
    for it in own:
        it.name = names.get(it.id, f"bucket{it.id}")
    classes, class_names, shadows, sets = {}, {}, {}, {}
    if not data.is_over():
        classes, class_names = data.table(lambda: data.take("i")), data.table(data.text)
        shadows = data.table(lambda: data.table(lambda: data.take("i")))
        sets = dict(data.each(data.take("I"), lambda: read_set(data)))
    found = CrushMap(
        name,
        False,
        tunables,
        {id_: it for id_, it in names.items() if id_ >= 0},
        {id_: class_names[it] for id_, it in classes.items() if id_ >= 0},
        types,
        {it.id: it for it in own},
        {id_: rule_of(id_, rule_names, it, types) for id_, it in steps},
        sets,
        algs,
        [class_names[it] for it in sorted(class_names)],
        {(bucket, class_names[it]): id_ for bucket, of in shadows.items() for it, id_ in of.items()},
    )
    for (_, class_), id_ in found.shadow_ids.items():
        found.buckets[id_].shadow = class_
    return found


def read_bucket(data):
    """Returns a bucket, or None where there is none; a hole is item 0 of weight 0."""
    if not data.take("I"):
        return None
    id_, type_, alg, hash_ = data.take("i"), data.take("H"), data.take("B"), data.take("B")
    _, size = data.take("I"), data.take("I")
    items = data.each(size, lambda: data.take("i"))
    weights = weights_in(data, alg, size)
    return Bucket(id_, "", type_, ALGS[alg], "rjenkins1" if hash_ == 0 else str(hash_), list(zip(items, weights)))


def weights_in(data, alg, size):
    if alg == UNIFORM:
        return [data.take("I")] * size
    if alg == TREE:
        nodes = data.each(data.take("B"), lambda: data.take("I"))
        return [nodes[2 * it + 1] for it in range(size)]
    if alg == STRAW2:
        return data.each(size, lambda: data.take("I"))
    # a list also has sums, and straw the lengths of its straws
    return [it[0] for it in data.each(size, lambda: (data.take("I"), data.take("I")))]


def read_rule(data):
    """Returns the type, the sizes and the steps of a rule, or None where there is none."""
    if not data.take("I"):
        return None
    count = data.take("I")
    _, type_, least, most = (data.take("B") for _ in range(4))
    return type_, (least, most), data.each(count, lambda: (data.take("I"), data.take("i"), data.take("i")))


def rule_of(id_, names, own, types):
    type_, sizes, steps = own
    found, odd = [], MSR if type_ in MSR_KINDS else None if type_ in KINDS else f"its type is {type_}"
    for op, first, second in steps:
        if op in CHOOSES:
            found.append((*CHOOSES[op], first, types.get(second, str(second))))
        elif op in SETS:
            found.append((SETS[op], first))
        elif op == 1:
            found.append(("take", first, None))
        elif op in (0, 4):
            found.append(("emit",) if op else ("noop",))
        else:
            odd = odd or f"it has a step {op} that is unknown"
    return Rule(id_, names.get(id_, f"rule-{id_}"), {**KINDS, **MSR_KINDS}.get(type_, "replicated"), found, sizes, odd)


def read_set(data):
    """Returns the key and the rows of a weight set."""
    key, rows, with_ids = data.take("q"), {}, []
    for _ in range(data.take("I")):
        bucket = -1 - data.take("I")
        own = data.each(data.take("I"), lambda: data.each(data.take("I"), lambda: data.take("I")))
        if own:
            rows[bucket] = own
        if data.each(data.take("I"), lambda: data.take("i")):
            with_ids.append(bucket)
    return key, WeightSet(rows, with_ids)
