"""Choosing and rules, written from Ceph's `mapper.c` and apart from the crates: the answer of a
rule, and its trace.

The comparison with Ceph takes the traces that it expects from here: Ceph prints none.
`tests/ceph/check --part` holds the answers of this file to those of Ceph, and `check` holds it to
worked examples. None is an empty slot.
"""
import functools

from model import crush

UNDECIDED = "undecided"


class Run:
    """A rule's run for one input. Buckets are by id: the number of the type, the kind, and the
    items with their weights."""

    def __init__(self, picks, tunables, reweights, x, size):
        self.buckets, self.pick, self.reweights, self.x, self.size = picks.buckets, picks.pick, reweights, x, size
        total, self.descend_once, self.vary_r, self.stable = tunables
        self.tries, self.leaf_tries = total + 1, 0
        self.working, self.items, self.chosen = [], [], set()

    def is_out(self, device):
        weight = self.reweights.get(device, 65536)
        return weight < 65536 and (weight == 0 or crush.hash2(self.x, device) & 0xFFFF >= weight)

    def type_of(self, item):
        return self.buckets[item][0] if item < 0 else 0

    def descend(self, bucket, wanted, attempt):
        """The item where a walk ends, None where a bucket is empty, and UNDECIDED where it meets a
        device and wants a bucket."""
        while self.buckets[bucket][2]:
            item = self.pick(bucket, self.x, attempt(bucket))
            if self.type_of(item) == wanted:
                return item
            if item >= 0:
                return UNDECIDED
            bucket = item
        return None

    def firstn(self, bucket, numrep, wanted, out, place, room, tries, leaf_tries, leaves, parent):
        """Puts items into `out` from a place on; answers the place behind the last."""
        rep = 0 if self.stable else place
        while rep < numrep and room > 0:
            for failed in range(tries):
                r = rep + parent + failed
                item = self.descend(bucket, wanted, lambda _: r)
                if item == UNDECIDED:
                    break
                if item is None or item in out[:place]:
                    continue
                if leaves is not None and item < 0:
                    below = r >> (self.vary_r - 1) if self.vary_r else 0
                    if (
                        self.firstn(
                            item, 1 if self.stable else place + 1, 0, leaves, place, room, leaf_tries, 0, None, below
                        )
                        <= place
                    ):
                        continue
                elif leaves is not None:
                    leaves[place:] = [item]
                if item >= 0 and self.is_out(item):
                    continue
                out[place:] = [item]
                place, room = place + 1, room - 1
                break
            rep += 1
        return place

    def indep(self, bucket, numrep, wanted, out, places, tries, leaf_tries, leaves, parent):
        """Puts items at these places of `out`, round by round."""
        for place in places:
            out[place] = UNDECIDED
        for failed in range(tries):
            for place in (it for it in places if out[it] == UNDECIDED):

                def attempt(at):
                    _, kind, items = self.buckets[at]
                    return place + parent + failed * (numrep + (kind == "uniform" and len(items) % numrep == 0))

                item = self.descend(bucket, wanted, attempt)
                if item == UNDECIDED:
                    out[place] = None
                    continue
                if item is None or item in [out[it] for it in places]:
                    continue
                if leaves is not None and item < 0:
                    self.indep(
                        item,
                        numrep,
                        0,
                        leaves,
                        [place],
                        leaf_tries,
                        0,
                        None,
                        attempt(self.parent_of(bucket, wanted, attempt)),
                    )
                    if leaves[place] is None:
                        continue
                elif leaves is not None:
                    leaves[place] = item
                if item >= 0 and self.is_out(item):
                    continue
                out[place] = item
        for place in places:
            out[place] = None if out[place] == UNDECIDED else out[place]

    def parent_of(self, bucket, wanted, attempt):
        """The bucket in which a walk finds the item that it wants: its attempt is that of the
        leaf's walk."""
        while True:
            item = self.pick(bucket, self.x, attempt(bucket))
            if self.type_of(item) == wanted:
                return bucket
            bucket = item

    def output_of(self, bucket, word, mode, numrep, wanted, room):
        if mode == "firstn":
            out, leaves = [], [] if word == "chooseleaf" else None
            leaf_tries = self.leaf_tries or (1 if self.descend_once else self.tries)
            self.firstn(bucket, numrep, wanted, out, 0, room, self.tries, leaf_tries, leaves, 0)
        else:
            places = range(min(numrep, room))
            out, leaves = [None for _ in places], [None for _ in places] if word == "chooseleaf" else None
            self.indep(bucket, numrep, wanted, out, places, self.tries, self.leaf_tries or 1, leaves, 0)
        return out if leaves is None else [None if item is None else leaf for item, leaf in zip(out, leaves)]

    def choose(self, word, mode, count, wanted):
        numrep = count if count > 0 else self.size + count
        out = []
        for item in self.working:
            if item is not None and item < 0 and numrep > 0:
                out += self.output_of(item, word, mode, numrep, wanted, self.size - len(out))
        self.working = out
        self.chosen.update(it for it in out if it is not None and it >= 0)

    def step(self, word, *rest):
        if word == "take":
            self.working = [int(rest[0])]
        elif word == "emit":
            self.items += self.working[: self.size - len(self.items)]
            self.working = []
        elif word in ("choose", "chooseleaf"):
            self.choose(word, rest[0], int(rest[1]), int(rest[2]))
        elif word in ("set_choose_tries", "set_chooseleaf_tries"):
            name = "tries" if word == "set_choose_tries" else "leaf_tries"
            setattr(self, name, int(rest[0]) or getattr(self, name))
        else:
            setattr(self, {"set_chooseleaf_vary_r": "vary_r", "set_chooseleaf_stable": "stable"}[word], int(rest[0]))


class Picks:
    """The buckets of a map (id, type, kind, items), and what they pick."""

    def __init__(self, buckets):
        self.buckets = {id_: (type_, kind, items) for id_, type_, kind, items in buckets}
        self.pick = functools.lru_cache(maxsize=None)(self.picked)

    def picked(self, bucket, x, r):
        _, kind, items = self.buckets[bucket]
        return crush.PICKS[kind](bucket, items, x, r)


def run_rule(picks, tunables, steps, reweights, x, size):
    """The items of the answer, and the trace: the devices that choose steps put out, each once and
    ascending."""
    run = Run(picks, tunables, dict(reweights), x, size)
    for step in steps:
        run.step(*step.split())
    return run.items, sorted(run.chosen)


def check():
    """Whether worked examples come out: tries for leaves, devices that a choose step passes over,
    and devices that only the trace has."""
    one, legacy, jewel = 65536, (19, 0, 0, 0), (50, 1, 1, 1)
    host = Picks([(-1, 1, "uniform", ((0, one), (1, one))), (-2, 10, "list", ((-1, one),))])
    single = Picks(
        [
            (-1, 1, "uniform", ((0, one),)),
            (-2, 1, "list", ((1, one),)),
            (-3, 1, "list", ((2, one),)),
            (-4, 10, "list", ((-2, one), (-3, 0))),
        ]
    )
    leaf = ("take -2", "chooseleaf firstn 1 1", "emit")
    return (
        run_rule(host, legacy, ("set_choose_tries 1", *leaf), [(1, 0)], 0, 1) == ([], [])
        and run_rule(host, legacy, ("set_choose_tries 2", *leaf), [(1, 0)], 0, 1) == ([0], [0])
        and run_rule(host, jewel, ("take 0", "choose firstn 1 0", "emit"), [], 0, 1) == ([], [])
        and run_rule(
            single,
            jewel,
            ("take -1", "choose firstn 1 0", "take -4", "choose firstn 2 1", "choose firstn 1 0", "emit"),
            [],
            0,
            2,
        )
        == ([1], [0, 1])
        and run_rule(
            single,
            jewel,
            ("take -1", "choose firstn 1 0", "emit", "take -4", "chooseleaf firstn 1 1", "choose firstn 1 0", "emit"),
            [],
            0,
            2,
        )
        == ([0], [0, 1])
    )
