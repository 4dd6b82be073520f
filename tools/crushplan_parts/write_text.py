"""The text of a map for crushcalc: exact weights, and the buckets and rules alone that it is to
have."""
import decimal
import functools
import re

from .crush_map import MOST_DEVICES, ONE

MARK = "# crushcalc: straw2"  # the first line of a text that has straw2 buckets
NAME = re.compile(r"[A-Za-z0-9_.-]{1,64}")
KEYWORDS = {"tunable", "device", "type", "rule", "choose_args", "class"}


@functools.lru_cache(maxsize=4096)
def exact(weight):
    """Returns a weight of 65536ths with all its decimals, of which there are 16 at most."""
    text = f"{decimal.Decimal(weight) / ONE:f}"
    return text if "." in text else text + ".0"


@functools.lru_cache(maxsize=1 << 16)
def is_name(name):
    return NAME.fullmatch(name) is not None and name not in KEYWORDS


class Names:
    """Names that a text can have, each once: those of the map where they are such names."""

    def __init__(self):
        self.taken = set()

    def give(self, name, other):
        if name in self.taken or not is_name(name):
            name = other
            while name in self.taken:
                name += "-"
        self.taken.add(name)
        return name


class Text:
    """The text of a map, its lines, and what is declared from each line on. It declares the devices
    of the map and some more, or where `rows` are given, those alone that are given; `rows` are
    weights of buckets' items in the place of the map's."""

    def __init__(self, map_, buckets, rules, devices=(), with_classes=False, rows=None):
        self.map, self.lines, self.declared = map_, [], []
        self.names, self.items = Names(), {}
        self.with_classes, self.rows, self.whole = with_classes, rows or {}, None
        known = set(devices) if rows is not None else {*map_.devices, *devices}
        fillers = free_ids(map_, known)
        self.filled = {}  # the device that stands in a hole, by its bucket and place
        for bucket in buckets:
            for place in map_.buckets[bucket].holes():
                self.filled[bucket, place] = next(fillers)
        if any(map_.buckets[it].alg == "straw2" for it in buckets):
            self.lines.append(MARK)
        self.own_devices = known
        self.write_tunables()
        self.write_devices(known)
        self.write_types()
        for bucket in in_order(map_, buckets):
            self.write_bucket(map_.buckets[bucket])
        for rule in rules:
            self.write_rule(map_.rules[rule])

    def devices(self):
        """Returns the devices that it declares, without those that fill holes."""
        return self.own_devices

    def text(self):
        if self.whole is None:
            self.whole = "\n".join(self.lines) + "\n"
        return self.whole

    def at_line(self, number):
        """Returns what the declaration is of that a line belongs to: a kind and a key."""
        return next((what for line, what in reversed(self.declared) if line <= number), ("map", None))

    def declare(self, what):
        self.declared.append((len(self.lines) + 1, what))

    def write_tunables(self):
        for name, value in self.map.tunables.items():
            self.declare(("tunable", name))
            self.lines.append(f"tunable {name} {value}")

    def write_devices(self, known):
        names, classes = self.map.devices, self.map.classes if self.with_classes else {}
        devices = {
            **{id_: names[id_] if id_ in names else f"osd.{id_}" for id_ in known},
            **{id_: f"hole.{id_}" for id_ in self.filled.values()},
        }
        ids, first = sorted(devices), len(self.lines) + 1
        self.declared += [(line, ("device", id_)) for line, id_ in enumerate(ids, first)]
        for id_ in ids:
            name = self.items[id_] = self.names.give(devices[id_], f"device-{id_}")
            class_ = classes.get(id_)
            self.lines.append(
                f"device {id_} {name} class {class_}" if class_ and NAME.fullmatch(class_) else f"device {id_} {name}"
            )

    def write_types(self):
        names = Names()
        self.types = {name: names.give(name, f"type-{number}") for number, name in self.map.types.items()}
        for number, name in sorted(self.map.types.items()):
            self.declare(("type", number))
            self.lines.append(f"type {number} {self.types[name]}")

    def write_bucket(self, bucket):
        name = self.items[bucket.id] = self.names.give(bucket.name, f"bucket{bucket.id}")
        self.declare(("bucket", bucket.id))
        type_name = self.map.types.get(bucket.type)
        self.lines.append(f"{self.types.get(type_name, 'unknown')} {name} {{")
        self.lines.append(f"\tid {bucket.id}")
        if self.with_classes:
            for it in self.map.buckets.values():
                if it.shadow and it.name == f"{bucket.name}~{it.shadow}" and NAME.fullmatch(it.shadow):
                    self.lines.append(f"\tid {it.id} class {it.shadow}")
        self.lines += [f"\talg {bucket.alg}", "\thash 0"]
        row = self.rows.get(bucket.id)
        for place, (item, weight) in enumerate(bucket.items):
            item = self.filled[bucket.id, place] if item is None else item
            weight = weight if row is None else row[place]
            self.lines.append(
                f"\titem {self.items[item]} weight {exact(weight)}" + (f" pos {place}" if bucket.alg == "tree" else "")
            )
        self.lines.append("}")

    def write_rule(self, rule):
        self.declare(("rule", rule.id))
        self.lines += [
            f"rule {Names().give(rule.name, f'rule-{rule.id}')} {{",
            f"\tid {rule.id}",
            f"\ttype {rule.kind}",
        ]
        if rule.sizes:
            self.lines += [f"\tmin_size {rule.sizes[0]}", f"\tmax_size {rule.sizes[1]}"]
        self.lines += [f"\tstep {self.step(it)}" for it in rule.steps if it[0] != "noop"]
        self.lines.append("}")

    def step(self, words):
        if words[0] == "take":
            return f"take {self.items[words[1]]}"
        if words[0] in ("choose", "chooseleaf"):
            return f"{words[0]} {words[1]} {words[2]} type {self.types.get(words[3], 'unknown')}"
        return " ".join(map(str, words))


def free_ids(map_, more):
    """Yields ids that no device has, the ones behind the last first."""
    taken = {
        *map_.devices,
        *more,
        *(item for bucket in map_.buckets.values() for item, _ in bucket.items if item is not None and item >= 0),
    }
    last = max(taken, default=-1)
    yield from range(last + 1, MOST_DEVICES)
    yield from (it for it in range(last) if it not in taken)


def in_order(map_, buckets):
    """Returns buckets with each behind those that are its items."""
    wanted, found, seen = set(buckets), [], set()

    def visit(id_):
        if id_ in seen or id_ not in wanted:
            return
        seen.add(id_)
        for item, _ in map_.buckets[id_].items:
            visit(item)
        found.append(id_)

    for id_ in buckets:
        visit(id_)
    return found
