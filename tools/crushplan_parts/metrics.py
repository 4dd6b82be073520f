"""`crushplan metrics`: what of a cluster is watched, in Prometheus' text format: which failures it
bears, how evenly it is filled, and whether groups lie as computed."""
import argparse
import pathlib

from .check import FILES, Lying, is_read
from .fail import failures_of, start_of, units_of
from .faults import Fault, counted
from .fetch import write
from .output import Answer
from .usage import usage

WATCHED = ("host",)  # the types of which each bucket fails in turn, where none is named
WORDS = {0: "yes", 1: "no", 2: "unknown"}  # by the status of an answer
GAUGES = {
    "failures": "Hosts, or buckets of another type, by whether each can fail without harm.",
    "worst_groups_stopped": "The most groups whose I/O stops while one of them is down.",
    "worst_copies_without_device": "The most copies that have no device once one of them is out.",
    "worst_devices_too_full": "The most devices past the backfill-full ratio once one of them is out.",
    "worst_fullest_ratio": "The used part of the fullest device once one of them is out.",
    "share_ratio": "The copies of the devices with the least and the most of their shares, by the share.",
    "copies_over_share": "The most copies that a device has over its share.",
    "copies_under_share": "The most copies that a device lacks of its share.",
    "groups": "Groups of computed pools, by how they lie in the cluster: as computed, otherwise, or unknown.",
    "pools": "Pools, by whether they can be computed.",
    "known": "Whether the other numbers are known: 0 where groups lie otherwise, or something isn't computed.",
    "proved": "Whether the program that computes is a proved one.",
    "dumps_timestamp_seconds": "When the oldest dump of the cluster was written, in seconds since 1970.",
}


def metrics(plan, asked):
    """Answers what of a cluster is watched; with --to the text goes into a file."""
    watched = Watched(plan, asked.each or WATCHED)
    answer = Answer(0, watched.sentence(), watched.said, [], watched.rows())
    answer.plain = lambda: text_of(answer.sentence, watched)
    if asked.to:
        answer.plain = lambda: written_to(asked.to, text_of(answer.sentence, watched))
    return answer


def written_to(path, text):
    """Writes a text into a file, whole or not at all, and says so."""
    write(pathlib.Path(path), text.encode())
    return f"{path} is written: {counted(len(GAUGES), 'metric')}.\n"


class Watched:
    """What of a cluster is watched. `failures` has the buckets of each type that fail in turn, the
    worst first; `share` the rows of devices, by what they have of their shares."""

    def __init__(self, plan, types):
        self.plan, self.lying = plan, Lying(plan)
        if self.lying.compared:
            plan.doubt = self.lying.compared.doubt()
        units = {it: units_of(plan, it) for it in dict.fromkeys(types)}
        start = start_of(plan, [unit for own in units.values() for unit in own])
        self.failures = {it: failures_of(plan, it, own, start) for it, own in units.items()}
        self.share = usage(plan, argparse.Namespace(names=[], by=None, groups=False)).fields
        self.taken = taken(plan)
        self.proved = proved(plan.client.is_unproved())

    def is_known(self):
        statuses = [it.status for own in self.failures.values() for it in own]
        return bool(self.plan.pools) and not self.plan.doubt and not self.plan.left_out and 2 not in statuses

    def sentence(self):
        """Says how many buckets of each type can't fail, or that there is nothing to compute."""
        if not self.plan.cluster.pools:
            return "There is no pool."
        if not self.plan.pools:
            return "unknown: no pool can be computed."
        counts = [(it, len(own), sum(of.status == 1 for of in own)) for it, own in self.failures.items() if own]
        return "; ".join(f"{bad:,} of {counted(all_, it)} can't fail" for it, all_, bad in counts) + "."

    def said(self):
        return {
            "known": self.is_known(), "proved": self.proved, "taken": self.taken, "lying": self.lying.said(),
            "share": {name: self.share[name] for name in ("least", "greatest")},
            "pools": [pool_said(self.plan, it) for it in self.plan.cluster.pools.values()],
            "failures": [{"type": it, "each": [of.said for of in own]} for it, own in self.failures.items()],
        }  # fmt: skip

    def rows(self):
        """Yields the rows of the CSV: each metric, its labels and its value."""
        yield ["name", "labels", "value"]
        for name, samples in self.samples().items():
            for labels, value in samples:
                yield [f"crushplan_{name}", labels_text(labels), value]

    def samples(self):
        """Returns the samples of each metric: their labels, and numbers. What isn't known has
        none."""
        found = {it: [] for it in GAUGES}
        for type_, own in self.failures.items():
            add_failures(found, type_, own)
        self.add_shares(found)
        self.add_groups(found)
        computed = len(self.plan.pools)
        others = len(self.plan.cluster.pools) - computed
        found["pools"] = [({"computed": "yes"}, computed), ({"computed": "no"}, others)]
        found["known"] = [({}, int(self.is_known()))]
        found["proved"] = [({}, int(self.proved))] if self.proved is not None else []
        found["dumps_timestamp_seconds"] = [({}, self.taken)]
        return found

    def add_shares(self, found):
        for name in ("least", "greatest"):
            if self.share[name]:
                found["share_ratio"].append(({"of": name}, round(self.share[name]["percent"] / 100, 3)))
        over = [it["copies"] - it["share"] for it in self.share["rows"]]
        if over:
            found["copies_over_share"].append(({}, max(0, round(max(over), 2))))
            found["copies_under_share"].append(({}, max(0, round(-min(over), 2))))

    def add_groups(self, found):
        compared = self.lying.compared
        if compared:
            numbers = {"as_computed": compared.same, "otherwise": len(compared.others), "unknown": len(compared.silent)}
            found["groups"] += [({"lie": it}, number) for it, number in numbers.items()]


def add_failures(found, type_, own):
    """Adds the samples of the buckets of a type that fail in turn. Of those of which nothing is
    computed the numbers aren't known."""
    labels, known = {"type": type_}, [it.said for it in own if not it.is_blank]
    for status, word in WORDS.items():
        found["failures"].append(({**labels, "can_fail": word}, sum(it.status == status for it in own)))
    if not known:
        return
    of = {"groups_stopped": "below_min_size", "copies_without_device": "missing_copies", "devices_too_full": "too_full"}
    for name, field in of.items():
        found[f"worst_{name}"].append((labels, max(it[field] for it in known)))
    used = [it["fullest"]["used_after"] for it in known if it["fullest"] and it["fullest"]["used_after"] is not None]
    if used:
        found["worst_fullest_ratio"].append((labels, max(used)))


def taken(plan):
    """Returns when the oldest of the files was written, in whole seconds since 1970."""
    folder = plan.cluster.folder
    try:
        return int(min((folder / name).stat().st_mtime for name, _ in FILES if is_read(plan, name)))
    except OSError as error:
        raise Fault(f"{folder}: {error.strerror or error}") from None


def proved(unproved):
    """Returns whether the program is proved, or None where nobody says."""
    return None if unproved is None else not unproved


def pool_said(plan, pool):
    computed = pool.id in plan.pools
    return {
        "pool": pool.id, "name": pool.name, "computed": computed,
        "why": None if computed else plan.left_out[pool.id][1],
    }  # fmt: skip


def text_of(sentence, watched):
    """Returns Prometheus' text format of what is watched. Its first line is a comment."""
    lines = [f"# crushplan metrics: {' '.join(sentence.split())}"]
    for name, samples in watched.samples().items():
        if samples:
            lines += [f"# HELP crushplan_{name} {GAUGES[name]}", f"# TYPE crushplan_{name} gauge"]
            lines += [f"crushplan_{name}{labels_text(labels)} {value}" for labels, value in samples]
    return "".join(f"{it}\n" for it in lines)


def labels_text(labels):
    """Returns labels as the format has them, where some signs stand behind a backslash."""
    escaped = {key: it.replace("\\", "\\\\").replace('"', '\\"').replace("\n", "\\n") for key, it in labels.items()}
    return "{" + ",".join(f'{key}="{it}"' for key, it in escaped.items()) + "}" if labels else ""
