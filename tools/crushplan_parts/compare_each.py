"""`crushplan compare` of several changed maps: a line each, the one that moves least first."""
import argparse
import copy
import pathlib
import tempfile

from .faults import Fault
from .output import Answer, Progress, Table, sized

NUMBERS = ("moved", "copies", "bytes", "least", "missing_copies", "missing_copies_before")
HEADS = ("map", "move", "copies", "bytes", "least", "no device", "too full", "fullest", "answer")
ANSWERS = {0: "yes", 1: "no", 2: "not all"}


class One:
    """What compare() says of one of the maps."""

    def __init__(self, label, answer, plan, known):
        """Takes the answer, and the plan with the notes that it has beside those known before."""
        fields = answer.fields
        past = fields["past_backfillfull"]
        self.said = {
            "new": label, **{it: fields[it] for it in NUMBERS}, "too_full": len(past),
            "fullest": fields["fullest"], "status": answer.status,
        }  # fmt: skip
        self.notes = [it for it in plan.notes if it.text not in known]
        self.warnings, self.doubt = plan.cluster.warnings, plan.doubt

    def order(self):
        """Returns what is least for the one that moves least of those that can be done."""
        it = self.said
        return (it["copies"] is None, it["status"] == 1, it["copies"] or 0, it["moved"] or 0, it["new"])

    def row(self):
        it, fullest = self.said, self.said["fullest"]
        full = f"osd.{fullest['device']} {round(100 * fullest['used_after'], 1)}%" if fullest else "-"
        bytes_ = sized(it["bytes"])
        answer = ANSWERS[it["status"]]
        return [
            it["new"],
            it["moved"],
            it["copies"],
            bytes_,
            it["least"],
            it["missing_copies"],
            it["too_full"],
            full,
            answer,
        ]


def compared(plan, one):
    """Returns what a map says, of which there are its path and its bytes: of a plan of its own,
    since what a new map can compute changes that."""
    from .compare import compare

    own = copy.copy(plan)
    own.cluster = copy.copy(plan.cluster)
    own.cluster.warnings = list(plan.cluster.warnings)
    for name in ("pools", "left_out", "pairs", "by_exception"):
        setattr(own, name, dict(getattr(plan, name)))
    own.notes = list(plan.notes)
    label, data = one
    with tempfile.TemporaryDirectory() as folder:
        path = pathlib.Path(folder) / pathlib.Path(label).name
        path.write_bytes(data)
        answer = compare(own, argparse.Namespace(new=str(path), others=[], groups=False))
    return One(label, answer, own, {it.text for it in plan.notes})


def compare_each(plan, asked):
    """Answers what each of several maps moves."""
    if asked.groups:
        raise Fault("--groups lists the groups of one NEW")
    maps = [read(it) for it in (asked.new, *asked.others)]
    progress = Progress(len(maps), "maps")
    try:
        progress.at(0)
        if plan.client.spread:
            found = plan.client.spread(compared, (plan,), maps, lambda _: progress.more())
        else:
            found = [(compared(plan, it), progress.more())[0] for it in maps]
    finally:
        progress.end()
    found.sort(key=One.order)
    known = {it.text for it in plan.notes}
    for it in found:
        plan.notes += [note for note in it.notes if note.text not in known]
        known |= {note.text for note in it.notes}
        plan.cluster.warnings += [text for text in it.warnings if text not in plan.cluster.warnings]
        plan.doubt = plan.doubt or it.doubt
    rows = [it.said for it in found]
    statuses = [it["status"] for it in rows]
    status = 1 if 1 in statuses else 2 if 2 in statuses else 0
    own = [[*rows[0].keys()]] + [[*list(it.values())[:-2], fullest_words(it), it["status"]] for it in rows]
    return Answer(status, sentence_of(rows), {"maps": rows}, [Table(HEADS, [it.row() for it in found])], own)


def fullest_words(it):
    return it["fullest"] and f"osd.{it['fullest']['device']}"


def read(path):
    """Returns the path of a file, and its bytes."""
    try:
        return path, pathlib.Path(path).read_bytes()
    except OSError as error:
        raise Fault(f"{path}: {error.strerror or error}") from None


def sentence_of(rows):
    first = rows[0]
    if first["copies"] is None:
        return "unknown: no pool can be computed on any of the maps."
    return f"Of {len(rows)} maps {first['new']} moves least: {first['copies']:,} copies."
