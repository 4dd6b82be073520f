"""What `crushplan plan` writes: its sum, steps, lines, orders, and how the cluster looks at the
step that decides."""
import collections
import fractions

from .drawing import RATIOS
from .output import Table, sized
from .passage import entries_of, groups_text
from .reports import listed
from .shares import hundredths, rounded
from .summary import ratio_said, whole

MOST_DEVICES = 12  # of which it is said how full they are, the fullest first
HEADS = [
    "step",
    "first_line",
    "last_line",
    "moved",
    "copies",
    "bytes",
    "least",
    "on_the_way",
    "used_on_the_way",
    "fullest",
    "used",
    "missing_copies",
    "below_min_size",
    "hours",
    "short_meanwhile",
    "not_done",
]

GROUP_HEADS = ["step", "pool", "group", "id", "before", "after", "copies"]


class Sums:
    """All steps together, beside the same change in one step."""

    def __init__(self, done, one_step, rate):
        own = [it.passage for it in done]
        self.steps, self.one_step, self.rate = own, one_step, rate
        groups = [(pool.id, group) for it in own for pool, group, *_ in it.moves]
        self.moved, self.copies = len(set(groups)), sum(it.copies for it in own)
        self.twice = sorted(it for it, count in collections.Counter(groups).items() if count > 1)
        bytes_ = [it.bytes() for it in own]
        self.bytes = None if None in bytes_ else sum(bytes_, fractions.Fraction(0))
        hours = [it.hours(rate) for it in own] if rate else [None]
        self.hours = None if None in hours else sum(hours, fractions.Fraction(0))
        self.stopped = by_number({of for it in own for of in it.stopped})
        self.shortened = by_number({of for it in own for of in it.meanwhile.short})
        self.fewest = min((it.meanwhile.fewest for it in own if it.meanwhile.short), default=None)
        self.knows_room = one_step.ledger.looks
        self.way = highest(own, lambda it: it.fullest(it.used_on_the_way, it.written))
        self.end = one_step.fullest(one_step.used_after)

    def short_text(self):
        """Returns which groups have fewer copies while data moves, and how many at least."""
        if not self.shortened:
            return "none"
        return f"{groups_text(self.shortened)}: {self.fewest}{' at least' if len(self.shortened) > 1 else ''}"


def by_number(names):
    """Returns names of groups by pool and number."""
    return sorted(names, key=lambda it: (int(it.split(".")[0]), int(it.split(".")[1], 16)))


def highest(passages, level):
    """Returns what is fullest in any of the passages."""
    found = [it for it in map(level, passages) if it]
    return max(found, key=lambda it: (it[1] or 0, it[2][1] or 0 if it[2] else 0), default=None)


def level_text(plan, level):
    """Says which device is how full."""
    if level is None:
        return "-"
    device, used, copies = level
    if used is not None:
        return f"osd.{device} {hundredths(ratio_said(used))}%"
    return f"osd.{device}: {copies[0]:,} copies" + (f", {copies[1]}% of its share" if copies[1] is not None else "")


def copies_text(copies, bytes_):
    return f"{copies:,}" + (f", {sized(bytes_)}" if bytes_ is not None else "")


def hours_text(hours):
    return None if hours is None else rounded(hours.numerator, hours.denominator, 2)


def least_text(passage):
    least = passage.least()
    return rounded(least.numerator, least.denominator, 1)


def summary_table(sums):
    one, plan = sums.one_step, sums.one_step.after.plan
    least = one.least()
    rows = [
        ("copies that are written anew, in all", copies_text(sums.copies, sums.bytes)),
        ("the same change in one step", copies_text(one.copies, one.bytes())),
        ("the least that the change of weights asks for", f"{rounded(least.numerator, least.denominator, 1):,} copies"),
        ("groups that move twice or more", f"{len(sums.twice):,}" if sums.twice else "none"),
        ("groups that have fewer copies meanwhile", sums.short_text()),
        ("groups below their pool's min_size: their I/O stops", groups_text(sums.stopped) if sums.stopped else "none"),
        ("fullest device on the way", level_text(plan, sums.way)),
        ("fullest device at the end", level_text(plan, sums.end)),
    ]
    if sums.rate:
        hours = hours_text(sums.hours)
        rows.append(
            (f"hours at least, at {float(sums.rate):g} MB/s a device", "unknown" if hours is None else f"{hours:,}")
        )
    return Table(("", ""), rows)


def steps_table(done, rate):
    heads = ["step", "lines", "move", "copies", "bytes", "least", "on the way", "afterwards", "no device", "short"]
    heads += ["stops"] + (["hours"] if rate else [])
    rows = []
    for it in done:
        own, plan = it.passage, it.passage.after.plan
        if it.is_empty():
            rows.append([it.number, lines_done(it), *[None] * (len(heads) - 2)])
            continue
        row = [it.number, lines_done(it), len(own.moves), own.copies, sized(own.bytes()), least_text(own)]
        row += [
            level_text(plan, own.fullest(own.used_on_the_way, own.written)),
            level_text(plan, own.fullest(own.used_after)),
            own.missing,
            len(own.meanwhile.short),
            len(own.stopped),
        ]
        rows.append(row + ([hours_text(own.hours(rate))] if rate else []))
    return Table(heads, rows, "By step, until all is clean:")


def lines_done(it):
    """Returns the lines of a step, and which of them isn't done, in words."""
    if it.not_done() is None:
        return it.step.where().split(" ")[1]
    why = f"{it.not_done()} {'refused' if it.events[-1].refused is not None else 'unknown'}"
    own = [of.line.number for of in it.events[:-1]]
    return f"{own[0]}-{own[-1]}, {why}" if len({*own}) > 1 else f"{own[0]}, {why}" if own else why


def lines_table(done):
    """Says of each line what there is to say of it."""
    rows = []
    for it in done:
        for event in it.events:
            words = [*event.remarks, *(f"Ceph removes the upmap entry {of}" for of in event.removed)]
            if event.refused is not None:
                words.insert(0, f"refused: {event.refused.code} {event.refused.why.strip()}")
            if event.unknown is not None:
                words.insert(0, f"not foretold: {event.unknown}")
            rows.append((event.line.number, event.line.text, "; ".join(words)))
        then = [*it.by_itself, *(f"Ceph removes the upmap entry {of}" for of in it.removed), *it.remarks()]
        if it.step.wait and it.not_done() is None or then:
            rows.append((it.step.wait or "", "wait" if it.step.wait else "", "; ".join(then)))
    return Table(("line", "command", "remark"), rows, "Lines:")


def deciding(it):
    """Says which groups are concerned where a step decides."""
    words = [text for _, text in it.faults()]
    own = it.passage
    if own.short:
        words.append(f"groups with fewer copies than their pool's size: {groups_text(own.short)}")
    return f"What decides is {it.where()}:\n" + "\n".join(f"  {text}" for text in words)


def after_table(ledger, own, where):
    """Returns how the cluster looks after a passage: its fullest devices."""
    if own is None or not own.pools:
        return None
    plan, used = own.after.plan, own.used_after
    start, before, after = entries_of(ledger.start), ledger.used(ledger.counts), entries_of(own.after)
    devices = [it for it in {*start, *after} if start[it] or after[it]]
    devices.sort(key=lambda it: (-(used.get(it) or 0), -after[it], it))
    cut = f", the {MOST_DEVICES} fullest" if len(devices) > MOST_DEVICES else ""
    heads = ["device", "host", "at the start", "then"] + (["used %", "then used %"] if used else []) + ["state"]
    rows = []
    for it in devices[:MOST_DEVICES]:
        row = [plan.map.name_of(it), plan.tree.host(it), start[it], after[it]]
        row += [hundredths(ratio_said(of[it])) if it in of else None for of in (before, used)] if used else []
        rows.append([*row, state_text(own.after.maps, it)])
    return Table(heads, rows, f"Copies {where}{cut}:")


def state_text(maps, device):
    it = maps.osds.get(device)
    if it is None:
        return "gone"
    words = ["down"] * (not it.up) + ["out"] * (not it.reweight) + ["destroyed"] * it.destroyed
    return " ".join(words) or "up"


def orders_of(it):
    """Returns both orders of a step: a name, and copies, bytes, the fullest on the way."""
    both = [("as one step", [it.passage]), ("one by one", [own for _, own in it.singles])]
    found = []
    for name, own in both:
        bytes_ = [of.bytes() for of in own]
        way = highest(own, lambda of: of.fullest(of.used_on_the_way, of.written))
        found.append(
            (
                name,
                own,
                sum(of.copies for of in own),
                None if None in bytes_ else sum(bytes_, fractions.Fraction(0)),
                way,
            )
        )
    return found


def best(found, key):
    """Returns the name of the order that has the least, or None where they are alike."""
    first, second = (key(it) for it in found)
    return None if first == second else found[0][0] if first < second else found[1][0]


def height(level):
    return (level[1] or 0, level[2][1] or 0 if level[2] else 0) if level else (0, 0)


def judged(found):
    """Returns which order moves least, and which stays lowest on the way."""
    return best(found, lambda it: it[2]), best(found, lambda it: height(it[4]))


def orders_table(done, rate):
    own = [it for it in done if it.singles]
    if not own:
        return "No step has several lines: there is one order."
    rows, lines = [], []
    for it in own:
        found = orders_of(it)
        for name, passages, copies, bytes_, way in found:
            stops = len({of for passage in passages for of in passage.stopped})
            row = [
                it.number,
                name,
                sum(len(of.moves) for of in passages),
                copies,
                sized(bytes_),
                level_text(it.passage.after.plan, way),
                stops,
            ]
            hours = [of.hours(rate) for of in passages] if rate else []
            rows.append(
                row + ([hours_text(None if None in hours else sum(hours, fractions.Fraction(0)))] if rate else [])
            )
        least, lowest = judged(found)
        lines.append(
            f"Step {it.number}: {least or 'either'} moves least; {lowest or 'either'} stays lowest on the way."
        )
    table = Table(
        ["step", "order", "move", "copies", "bytes", "on the way", "stops"] + (["hours"] if rate else []),
        rows,
        "Orders of the lines between two waits:",
    )
    return Joined(table, lines)


class Joined(Table):
    """A table with sentences below it."""

    def __init__(self, table, lines):
        super().__init__(table.heads, table.rows, table.title)
        self.lines = lines

    def text(self, width):
        return super().text(width) + "\n" + "\n".join(self.lines)


# ---- JSON and CSV


def level_said(level):
    if level is None:
        return None
    device, used, copies = level
    return {"device": device, "used": ratio_said(used), "copies": copies and copies[0], "percent": copies and copies[1]}


def passage_said(own, rate):
    least, hours = own.least(), own.hours(rate) if rate else None
    return {
        "moved": len(own.moves),
        "copies": own.copies,
        "bytes": whole(own.bytes()),
        "least": rounded(least.numerator, least.denominator, 2),
        "on_the_way": level_said(own.fullest(own.used_on_the_way, own.written)),
        "fullest": level_said(own.fullest(own.used_after)),
        "missing_copies": own.missing,
        "short": own.short,
        "below_min_size": own.stopped,
        "short_meanwhile": own.meanwhile.short,
        "fewest_meanwhile": own.meanwhile.fewest,
        "lost": own.lost,
        "hours": None if hours is None else rounded(hours.numerator, hours.denominator, 2),
    }


def event_said(it):
    refused = it.refused and {"code": it.refused.code, "why": it.refused.why}
    return {
        "line": it.line.number,
        "command": it.line.text,
        "remarks": it.remarks,
        "removed": it.removed,
        "refused": refused,
        "unforetold": it.unknown,
    }


def unfollowed(steps, done):
    """Returns the lines that stand behind one that is refused or isn't foretold, by their
    numbers."""
    lines, followed = [it for of in steps for it in of.lines], sum(len(it.events) for it in done)
    return sorted({it.number for it in lines[followed:]})


def said_of(steps_of, done, sums, asked):
    """Returns the fields of the JSON."""
    steps, ratios = [], sums.one_step.ledger.cluster.ratios
    for it in done:
        own = {
            "step": it.number,
            "lines": [of.number for of in it.step.lines],
            "wait": it.step.wait,
            **passage_said(it.passage, asked.rate),
        }
        own["events"] = [event_said(of) for of in it.events]
        own["by_itself"], own["faults"] = it.by_itself, [text for _, text in it.faults()]
        own["removed"], own["remarks"] = it.removed, list(it.remarks())
        if asked.groups:
            own["groups"] = [
                {
                    "pool": pool.id,
                    "group": group,
                    "id": pool.group_name(group),
                    "before": old.up,
                    "after": new.up,
                    "copies": count,
                }
                for pool, group, old, new, count in it.passage.moves
            ]
        if asked.orders:
            own["orders"] = order_said(it, asked.rate)
        steps.append(own)
    hours = sums.hours and rounded(sums.hours.numerator, sums.hours.denominator, 2)
    return {
        "steps": steps,
        "moved": sums.moved,
        "copies": sums.copies,
        "bytes": whole(sums.bytes),
        "twice": [f"{pool}.{group:x}" for pool, group in sums.twice],
        "below_min_size": sums.stopped,
        "short_meanwhile": sums.shortened,
        "fewest_meanwhile": sums.fewest,
        "on_the_way": level_said(sums.way),
        "hours": hours,
        "rate": None if asked.rate is None else float(asked.rate),
        "ratios": {name: float(ratios[name]) for name, _ in RATIOS if name in ratios},
        "unfollowed": unfollowed(steps_of, done),
        "one_step": passage_said(sums.one_step, asked.rate),
    }


def order_said(it, rate):
    if not it.singles:
        return None
    least, lowest = judged(orders_of(it))
    return {
        "moves_least": least,
        "stays_lowest": lowest,
        "one_by_one": [{"line": line.number, **passage_said(own, rate)} for line, own in it.singles],
    }


def rows_of(done, asked):
    """Yields the rows of the CSV: a line for each step, or for each group that moves in one."""
    if asked.groups:
        yield GROUP_HEADS
        for it in done:
            for pool, group, old, new, count in it.passage.moves:
                yield [it.number, pool.id, group, pool.group_name(group), listed(old.up), listed(new.up), count]
        return
    yield HEADS
    for it in done:
        own = passage_said(it.passage, asked.rate)
        way, full = (own[key] or {} for key in ("on_the_way", "fullest"))
        if it.is_empty():
            yield [it.number, it.step.lines[0].number, it.step.lines[-1].number, *[None] * 12, it.not_done()]
            continue
        yield [
            it.number,
            it.step.lines[0].number,
            it.step.lines[-1].number,
            own["moved"],
            own["copies"],
            own["bytes"],
            own["least"],
            way.get("device"),
            way.get("used"),
            full.get("device"),
            full.get("used"),
            own["missing_copies"],
            len(own["below_min_size"]),
            own["hours"],
            len(own["short_meanwhile"]),
            it.not_done(),
        ]
