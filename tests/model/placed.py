"""Where the groups of a pool lie, and reports on them, computed from a map's text by the
definition's independent calculator: map_text.py, choosing.py and crush.py. It calls nothing of the
program."""
from model import choosing, crush, map_text

WHOLE = 65536


def excepted(items, pairs, may_be):
    """A rule's answer for a group, changed by pairs of devices (from, to), one after the other: the
    first `from` becomes `to`, where that isn't in the list and may be."""
    items = list(items)
    for old, new in pairs:
        if old in items and new not in items and may_be(new):
            items[items.index(old)] = new
    return items


class Placed:
    """A pool on the map of a text, with reweights of devices, those that are down, and the pool's
    exceptions: (group, from, to) each."""

    def __init__(self, text, *, pool, size, pg_num, rule=0, reweights=(), down=(), pairs=(), erasure=False):
        read = map_text.read(text.encode())
        types = {name: number for name, number in read.numbers.items()}
        self.names = {number: name.decode() for number, name in read.devices.items()}
        buckets = [
            (number, types[kind], alg.decode(), [(read.ids[item], weight) for item, weight in items])
            for number, kind, _, alg, items in read.buckets
        ]
        legacy = {b"choose_total_tries": 19}
        tunables = [
            read.tunables.get(it, legacy.get(it, 0))
            for it in (b"choose_total_tries", b"chooseleaf_descend_once", b"chooseleaf_vary_r", b"chooseleaf_stable")
        ]
        steps = [step_of(read, types, it) for it in read.rules[rule][2]]
        picks, reweights = choosing.Picks(buckets), dict(reweights)
        self.seeds = [crush.hash2(crush.stable_mod(group, pg_num), pool) for group in range(pg_num)]
        answers = [choosing.run_rule(picks, tunables, steps, reweights.items(), seed, size) for seed in self.seeds]
        self.raw, self.traces = [items for items, _ in answers], [trace for _, trace in answers]
        self.targets = [[new for of, _, new in pairs if of == group] for group in range(pg_num)]
        is_up = lambda item: item in self.names and item not in down
        self.up = []
        for group, raw in enumerate(self.raw):
            own = [(old, new) for of, old, new in pairs if of == group]
            items = excepted(raw, own, lambda device: device in self.names and reweights.get(device, WHOLE) > 0)
            self.up.append(
                [it if is_up(it) else None for it in items] if erasure else [it for it in items if is_up(it)]
            )

    def primary(self, group):
        return next((it for it in self.up[group] if it is not None), None)

    def entries(self):
        """Of each device the groups whose list has it, its entries, of how many groups it is the
        primary, and its part of all entries in thousandths."""
        whole = sum(it is not None for up in self.up for it in up)
        found = {}
        for device in sorted(self.names):
            entries = sum(it.count(device) for it in self.up)
            primaries = sum(self.primary(group) == device for group in range(len(self.up)))
            found[device] = (
                sum(device in it for it in self.up),
                entries,
                primaries,
                entries * 1000 // whole if whole else 0,
            )
        return found

    def usage(self):
        """Of each device its entries, its primaries, and its part of all entries in thousandths."""
        return {device: row[1:] for device, row in self.entries().items()}

    def impact(self, device):
        return [group for group, trace in enumerate(self.traces) if device in trace or device in self.targets[group]]

    def moves(self, other):
        """The groups that lie elsewhere there, with both lists."""
        return [(group, old, new) for group, (old, new) in enumerate(zip(self.up, other.up, strict=True)) if old != new]


def step_of(read, types, step):
    word, *rest = step
    if word == b"take":
        return f"take {read.ids[rest[0]]}"
    if word in (b"choose", b"chooseleaf"):
        return f"{word.decode()} {rest[0].decode()} {rest[1]} {types[rest[2]]}"
    return " ".join([word.decode(), *map(str, rest)])
