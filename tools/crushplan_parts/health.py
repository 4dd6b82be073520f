"""The health checks of a cluster, by what `crushplan metrics --json` says of it, in the form that
Ceph's managers take."""
from .faults import counted

CANT_FAIL, DIFFERS, NOT_COMPUTED, PROGRAM = (
    f"CRUSHPLAN_{it}" for it in ("CANT_FAIL", "DIFFERS", "NOT_COMPUTED", "PROGRAM")
)  # fmt: skip
MOST_LINES = 50
# what is worst of a failure, in this order
ORDER = ("below_min_size", "missing_copies", "too_full", "copies")
HARMED = 1  # the status of a failure that does harm
# a mute of the lesser one ends where the count grows
UNPROVED, FAILED = 1, 2


def checks_of(said, with_uncomputed=False):
    """Returns the checks that don't hold, by name; `with_uncomputed` also those of pools that are
    left out."""
    found = {CANT_FAIL: cant_fail(said), DIFFERS: differs(said), PROGRAM: unproved(said)}
    if with_uncomputed:
        found[NOT_COMPUTED] = not_computed(said)
    return {name: it for name, it in found.items() if it}


def failed(why):
    """Returns the check of a program that gave no answer."""
    return {PROGRAM: check(FAILED, f"which failures the cluster bears is {said_unknown(why)}", [why])}


def said_unknown(why):
    return why if why.startswith("unknown: ") else f"unknown: {why}"


def check(count, summary, lines):
    rest = len(lines) - MOST_LINES
    if rest > 0:
        lines = [*lines[: MOST_LINES - 1], f"and {rest + 1:,} more"]
    return {"severity": "warning", "summary": summary, "count": count, "detail": lines}


def cant_fail(said):
    """Returns the check of hosts, or buckets of other types, that can't fail without harm."""
    bad = [(own["type"], it) for own in said["failures"] for it in own["each"] if it["status"] == HARMED]
    if not bad:
        return None
    bad.sort(key=lambda it: [-it[1][name] for name in ORDER])
    types = {type_: sum(of == type_ for of, _ in bad) for type_, _ in bad}
    words = f"{' and '.join(counted(number, type_) for type_, number in types.items())} can't fail without harm"
    others = len(said["lying"].get("others", ()))
    lie = f"{counted(others, 'group')} {'lies' if others == 1 else 'lie'} otherwise"
    doubt = f"unknown, since {lie}: as computed " if others else ""
    return check(len(bad), doubt + words, [f"{type_} {it['name']}: {harm(it)}" for type_, it in bad])


def harm(it):
    """Says what a failure does that shouldn't be."""
    found = []
    if it["below_min_size"]:
        found.append(f"{counted(it['below_min_size'], 'group')} would stop while it is down")
    if it["missing_copies"]:
        found.append(f"{counted(it['missing_copies'], 'copy', 'copies')} would have no device once it is out")
    if it["too_full"]:
        used = it["fullest"] and it["fullest"]["used_after"]
        fullest = f", the fullest {it['fullest']['name']} at {used:.1%}" if used else ""
        found.append(f"{counted(it['too_full'], 'device')} would be past backfill-full once it is out{fullest}")
    return "; ".join(found) or "copies would stay on it, since a rule takes a device of it by name"


def differs(said):
    """Returns the check of groups that don't lie as computed."""
    others = said["lying"].get("others", ())
    if not others:
        return None
    verb = "doesn't" if len(others) == 1 else "don't"
    summary = f"{counted(len(others), 'group')} {verb} lie as computed: what failures do is unknown"
    return check(len(others), summary, [two_lists(it) for it in others])


def two_lists(it):
    """Says where a group lies, and where it is computed."""
    here = f"computed {it['here']} {it['here_primary']}"
    return f"{it['id']} up {it['up']} primary {it['up_primary']}, {here}"


def not_computed(said):
    """Returns the check of pools that are left out."""
    left = [it for it in said["pools"] if not it["computed"]]
    if not left:
        return None
    verb = "isn't" if len(left) == 1 else "aren't"
    summary = f"{counted(len(left), 'pool')} of {len(said['pools']):,} {verb} computed"
    return check(len(left), summary, [f"pool {it['name']} ({it['pool']}): {it['why']}" for it in left])


def unproved(said):
    """Returns the check of a program that says of itself that it is unproved."""
    if said["proved"] is not False:
        return None
    line = "it was built without proofs, as by 'make try'; a release's package has a proved program"
    return check(UNPROVED, "the program crushcalc is unproved", [line])
