"""What is drawn of an answer: bars of devices, hosts or other items, each with what it has before
and after. The numbers are those of the answer; page.py writes them."""
from .faults import counted
from .shares import hundredths
from .summary import ratio_said

MOST_DRAWN = 100  # bars; of more the longest are drawn
RATIOS = (("nearfull_ratio", "near-full"), ("backfillfull_ratio", "backfill-full"))


class Bar:
    """An item's name, what it is below, and its values before and after; one of them may be
    None."""

    def __init__(self, name, above, before, after):
        self.name, self.above, self.before, self.after = name, above, before, after

    def longest(self):
        return max(it for it in (self.before, self.after, 0) if it is not None)


class Drawing:
    """Bars under a title. `words` say what the values before and after are, the first None where
    there is one value alone. Values are parts of 1 where `is_part`, else counts. `lines` are ratios
    that are drawn across: names and parts of 1."""

    def __init__(self, title, words, bars, is_part=False, lines=()):
        self.words, self.is_part, self.lines = words, is_part, list(lines)
        self.count, self.bars = len(bars), bars
        if len(bars) > MOST_DRAWN:
            longest = sorted(range(len(bars)), key=lambda it: (-bars[it].longest(), it))[:MOST_DRAWN]
            self.bars = [bars[it] for it in sorted(longest)]
            title += f": the {MOST_DRAWN} of {len(bars):,} that have most"
        self.title = title

    def end(self):
        """Returns the value at the end of a whole bar."""
        most = max((it.longest() for it in self.bars), default=0)
        return max(most, 1) if self.is_part else most or 1

    def shown(self, value):
        """Returns a value in words."""
        if value is None:
            return "?"
        if self.is_part:
            return f"{hundredths(value)}%"
        return f"{value:,}" if value == int(value) else f"{value:,.1f}"


def ratios_of(plan):
    return [(name, float(plan.cluster.ratios[key])) for key, name in RATIOS if key in plan.cluster.ratios]


def of_devices(plan, devices, by=None, words=("before", "after")):
    """Returns the drawing of devices before and after (summary.Device): how much of their room is
    used where that is known of each that has copies, else their copies; by the buckets of a type
    their copies."""
    from .reports import grouped

    own = [it for it in devices if it.before or it.after]
    if by and plan.tree.type_number(by):
        rows = grouped(plan, own, plan.tree.type_number(by))
        bars = [Bar(name, "", sum(it.before for it in of), sum(it.after for it in of)) for name, _, of in rows]
        return Drawing(f"Copies, by {by}", words, bars)
    if own and all(it.used_after is not None for it in own):
        bars = [Bar(*place_of(plan, it.id), ratio_said(it.used_before), ratio_said(it.used_after)) for it in own]
        return Drawing("Used room, by device", words, bars, True, ratios_of(plan))
    return Drawing("Copies, by device", words, [Bar(*place_of(plan, it.id), it.before, it.after) for it in own])


def of_counts(plan, title, words, before, after, tree=None):
    """Returns the drawing of numbers by device, of which those before may be None."""
    devices = sorted(it for it in {*(before or ()), *after} if (before or {}).get(it) or after.get(it))
    old = lambda device: None if before is None else before.get(device, 0)
    bars = [Bar(*place_of(plan, it, tree), old(it), after.get(it, 0)) for it in devices]
    return Drawing(title, words, bars)


def of_shares(rows, by):
    """Returns the drawing of usage beside shares, of the rows of its JSON."""
    bars = [Bar(it["name"], it["host"] or "", it["share"], it["copies"]) for it in rows]
    return Drawing(f"Copies beside the share, by {by}", ("share", "copies"), bars)


def of_each(plan, type_, rows):
    """Returns the drawing of failures in turn, of the rows of the JSON: how full the fullest device
    gets, or how many copies are written anew."""
    known = [it for it in rows if it["fullest"]]
    if known and all(it["fullest"]["used_after"] is not None for it in known):
        bars = [Bar(it["name"], *fullest_of(it)) for it in rows]
        title = f"The fullest device once it is out, by {type_}"
        return Drawing(title, (None, "used room of the fullest"), bars, True, ratios_of(plan))
    bars = [Bar(it["name"], counted(it["devices"], "device"), None, it["copies"]) for it in rows]
    return Drawing(f"Copies written anew, by {type_}", (None, "copies written anew"), bars)


def fullest_of(row):
    it = row["fullest"]
    return ("nothing computed", None, None) if it is None else (it["name"], None, it["used_after"])


def place_of(plan, device, tree=None):
    """Returns the name and the host of a device."""
    tree = tree or plan.tree
    host = tree.host(device)
    return tree.map.name_of(device), (plan.tree.host(device) if host == "-" else host)
