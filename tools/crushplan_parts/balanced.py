"""What `crushplan balance` says of a proposal: what moves, beside the least that any list of items
does it with, what can't be reached and why, and the lines to type."""
import fractions

from .balancing import cut_off, percent_of
from .crush_map import ONE
from .drawing import of_devices
from .faults import counted, some
from .items import items_of, placed
from .output import Answer, Sized, Table, sized
from .reports import COPY, listed
from .run import Usage, count
from .summary import Moved, PoolChange, devices_of, total, whole
from .upmap import pairs_text
from .waiting import waiting

MOST_NAMED = 4
FIRST_OF_ITEMS = "luminous"  # the first release whose clients know upmap items
FARTHEST = ("farthest before", "after")  # heads of the deviation of a pool
GROUP_HEADS = ("pool", "group", "id", "pairs", "before", "after", "copies", "line")


# ---- how full devices get


def gained_bytes(proposal):
    """Returns the bytes that devices gain, as fractions, where the pools' are known."""
    found = {}
    for balancing, search in proposal.pairs:
        (over, under), twice = balancing.pool.parts()
        copies = sum(search.count.values())
        if balancing.pool.bytes is None or not copies:
            continue
        each = fractions.Fraction(balancing.pool.bytes * over, copies * under)
        for group in search.changed:
            part = each * (2 if group in twice else 1)
            for old, new in zip(search.start[group], search.at[group]):
                if old != new:
                    found[old] = found.get(old, 0) - part
                    found[new] = found.get(new, 0) + part
    return found


def past(plan, proposal, percent):
    """Returns the devices of the pools that are past a fill then, by id, with what is used then."""
    gained, found = gained_bytes(proposal), {}
    for device in sorted({it for balancing in proposal.order for it in balancing.shares}):
        room = plan.cluster.rooms.get(device)
        used = room and room.used_after(gained.get(device, 0))
        if used is not None and used * 100 > percent:
            found[device] = used
    return found


# ---- the answer


class Report:
    """What is said of a proposal for some pools. `past_fill` are the devices that are past the fill
    that was asked for."""

    def __init__(self, plan, asked, balancings, proposal):
        self.plan, self.asked, self.balancings, self.proposal = plan, asked, balancings, proposal
        self.searches = {it.pool.id: search for it, search in proposal.pairs}
        self.items = [item for it, search in proposal.pairs for item in items_of(it, search)]
        self.items.sort(key=lambda it: (it.pool.id, it.group))
        waiting.at("asking where the groups then lie")
        self.after = placed(plan, self.items)
        self.changes = [self.change_of(it) for it in balancings]
        self.copies = sum(it.copies for it in self.changes)
        self.bytes = total(it.bytes for it in self.changes)
        self.pools = [self.pool_said(it, change) for it, change in zip(balancings, self.changes)]
        self.off = [(pool, it) for pool in self.pools for it in pool["off"]]
        self.heavy = heavy_said(plan, balancings)
        self.past_fill = past(plan, proposal, asked.until_fill) if asked.until_fill is not None else {}

    def change_of(self, balancing):
        pool, entries, leading = balancing.pool, {}, {}
        count(entries, leading, balancing.placements.values(), 1)
        after = self.after.get(pool.id, {})
        moves = [Moved(pool, group, balancing.placements[group], after[group]) for group in sorted(after)]
        return PoolChange(pool, Usage(entries, leading), set(), moves)

    def counts_of(self, balancing):
        search = self.searches.get(balancing.pool.id)
        return search.count if search else balancing.ground.counts

    def pool_said(self, balancing, change):
        pool, counts, deviation = balancing.pool, self.counts_of(balancing), self.proposal.deviation
        low, high = balancing.limits(deviation)
        off = sorted(it for it in balancing.shares if not low[it] <= counts[it] <= high[it])
        shares = {it: cut_off(balancing.shares[it]) for it in off}
        return {
            "pool": pool.id, "name": pool.name, "kind": pool.kind, "size": pool.size, "pg_num": pool.pg_num,
            "copies": change.copies, "least": balancing.least(deviation),
            "lines": sum(it.pool is pool for it in self.items), "bytes": whole(change.bytes),
            "deviation_before": cut_off(balancing.deviation(balancing.ground.counts)),
            "deviation_after": cut_off(balancing.deviation(counts)),
            "staying_groups": pool.pg_num - len(balancing.free),
            "off": [{"device": it, "copies": counts[it], "share": shares[it]} for it in off],
            "usage": usage_said(balancing.shares, balancing.ground.counts, counts),
        }  # fmt: skip

    def answer(self):
        lines, groups = [it.line() for it in self.items], [self.group_said(it) for it in self.items]
        if self.asked.lines:
            write_lines(self.asked.lines, lines)
        fields = self.fields(groups, lines)
        text = {"pairs": pairs_text, "before": listed, "after": listed}
        rows = [[text.get(head, lambda it: it)(it[head]) for head in GROUP_HEADS] for it in groups]
        blocks = [self.pools_table(), "\n".join(self.remarks()), lines_text(lines)]
        answer = Answer(self.status(), self.sentence(), fields, blocks, [GROUP_HEADS, *rows], self.drawing)
        return answer.of((it["pool"] for it in self.pools), {it["pool"] for it in groups})

    def status(self):
        if lacks_pools(self.plan, self.asked):
            return 2
        return 1 if self.off or self.past_fill or not self.proposal.is_whole else 0

    def fields(self, groups, lines):
        proposal = self.proposal
        return {
            "deviation": None if proposal.deviation is None else str(proposal.deviation), "whole": proposal.is_whole,
            "moved": len(groups), "copies": self.copies, "least": proposal.least, "extra": proposal.extra,
            "bytes": whole(self.bytes), "pools": self.pools, "heavy": self.heavy, "fullest": self.fullest(),
            "past_fill": list(self.past_fill), "groups": groups, "lines": lines,
            "devices": devices_said(self.plan, self.pools), "remarks": list(self.remarks()),
        }  # fmt: skip

    def group_said(self, item):
        own = next(it for it in self.balancings if it.pool is item.pool)
        before, after = own.placements[item.group], self.after[item.pool.id][item.group]
        return {
            "pool": item.pool.id, "group": item.group, "id": item.pool.group_name(item.group),
            "pairs": [list(it) for it in item.pairs], "before": before.up, "after": after.up,
            "primary_before": before.primary, "primary_after": after.primary,
            "copies": Moved(item.pool, item.group, before, after).copies, "line": item.line(),
        }  # fmt: skip

    def drawing(self):
        return of_devices(self.plan, devices_of(self.plan, self.changes))

    def fullest(self):
        """Returns the fullest devices before and after by all pools, with how full they are."""
        fill, found = self.proposal.fill, {"by": self.proposal.fill.by()}
        for name, of in (("before", lambda it: it.ground.counts), ("after", self.counts_of)):
            for it in self.balancings:
                fill.take(it, of(it))
            device, level = fill.fullest()
            found[name] = {"device": device, "percent": percent_of(level)}
        return found

    # ---- words

    def sentence(self):
        """Returns the answer in one sentence."""
        copies, lines = counted(self.copies, *COPY), counted(len(self.items), "line")
        moves = f"{copies} {'moves' if self.copies == 1 else 'move'}"
        if not self.proposal.is_whole:
            return f"interrupted: {moves} by {lines} so far; all of it wants {self.proposal.least:,} at least."
        rest = "".join(f"; {it}" for it in (self.off_text(), self.past_text()) if it)
        if not self.copies:
            return f"no copy can move{rest}." if rest else f"no copy has to move: {self.aim()}."
        by, more = self.proposal.fill.by(), self.proposal.extra
        extra = f", {more:,} of these copies only to even out {by}" if more else ""
        least = ", and no list of items does it with fewer"
        if self.copies != self.proposal.least:
            least = f"; no list of items does it with fewer than {self.proposal.least:,}"
        return f"{moves} by {lines}{extra}{least}{rest}."

    def aim(self):
        """Returns what holds where nothing has to move, in words."""
        if self.asked.until_fill is not None:
            return f"no device is past {float(self.asked.until_fill):g}%"
        if self.proposal.deviation is None:
            return "each device has its share, rounded down or up"
        return f"each device is within {self.proposal.deviation} of its share"

    def off_text(self):
        if not self.off:
            return ""
        number, pools = len(self.off), some([it["name"] for it in self.pools if it["off"]], 3)
        by = "1 or more" if self.proposal.deviation is None else f"more than {self.proposal.deviation}"
        return f"{counted(number, 'device')} of {pools} {'stays' if number == 1 else 'stay'} {by} off"

    def past_text(self):
        if not self.past_fill:
            return ""
        verb, fill = "is" if len(self.past_fill) == 1 else "are", float(self.asked.until_fill)
        return f"{self.plan.names_of(self.past_fill)} {verb} past {fill:g}% all the same"

    def pools_table(self):
        """Returns a line for each pool."""
        known = any(it["bytes"] is not None for it in self.pools)
        heads = ["pool", "id", *FARTHEST, "copies move", "least", "lines"] + ["bytes"] * known
        rows = []
        for it in self.pools:
            row = [it["name"], it["pool"], fixed_text(it["deviation_before"]), fixed_text(it["deviation_after"])]
            rows.append(row + [it["copies"], it["least"], it["lines"]] + [sized(it["bytes"])] * known)
        return Table(heads, rows)

    def remarks(self):
        """Yields what else is to be said, a line each."""
        yield "'farthest' is how many copies a device is from its share by the rule, at most."
        if len(self.balancings) > 1:
            fullest, name = self.fullest(), self.plan.map.name_of
            both = [fullest[it] for it in ("before", "after")]
            old, new = (f"{name(it['device'])} with {it['percent']}% of its share" for it in both)
            yield f"Fullest by {fullest['by']}: {old} before, {new} afterwards."
        yield from (self.off_line(pool) for pool in self.pools if pool["off"])
        yield from map(heavy_text, self.heavy[:MOST_NAMED])
        if len(self.heavy) > MOST_NAMED:
            yield f"{len(self.heavy) - MOST_NAMED:,} more are too heavy: --json names them."
        if self.items:
            yield from clients_lines(self.plan, FIRST_OF_ITEMS, "items")

    def off_line(self, pool):
        """Returns why devices of a pool stay off, in words."""
        each = [f"osd.{it['device']} has {it['copies']:,} for a share of {it['share']}" for it in pool["off"]]
        own = next(it for it in self.balancings if it.pool.id == pool["pool"])
        why = "no item that the rule allows helps"
        if not self.proposal.is_whole:
            why = "the search was interrupted"
        elif own.has_parts() and not own.is_possible(self.proposal.deviation):
            why = "copies of a group go together to another part of the tree, and no numbers of these are nearer"
        elif pool["staying_groups"]:
            why += f", and {counted(pool['staying_groups'], 'group')} can't change"
        return f"Of pool {pool['name']} {some(each, MOST_NAMED)}: {why}."


def lacks_pools(plan, asked):
    """Returns whether the answer lacks pools that were asked for: all, where none is named."""
    return any(it.open for it in plan.notes if it.kind == "balance" or not asked.names)


def clients_lines(plan, first, what):
    """Yields the command that is wanted first, where clients are let in that are too old. Names of
    releases go by the alphabet."""
    least = plan.cluster.releases.get("require_min_compat_client")
    if least is not None and least < first:
        command = f"ceph osd set-require-min-compat-client {first}"
        yield f"First '{command}': by osd.json older clients are let in, which know no such {what}."


def usage_said(shares, before, after):
    """Returns what each device has of a pool before and after, beside its share, which is None
    where it isn't to be evened out."""
    devices = sorted({*shares, *(it for it in {*before, *after} if before.get(it) or after.get(it))})
    share = {it: cut_off(of) for it, of in shares.items()}
    return [
        {"device": it, "before": before.get(it, 0), "after": after.get(it, 0), "share": share.get(it)} for it in devices
    ]


def devices_said(plan, pools):
    """Returns the names and hosts of the devices in the usage of pools."""
    devices = sorted({it["device"] for pool in pools for it in pool["usage"]})
    return [{"device": it, "name": plan.map.name_of(it), "host": plan.tree.host(it)} for it in devices]


def heavy_said(plan, balancings):
    """Returns the domains that are too heavy, each once by rule and size."""
    found, seen = [], set()
    for it in balancings:
        key, rule = (it.pool.rule, it.pool.size), plan.map.rules[it.pool.rule]
        for of in (heavy for zone in it.blocks for heavy in zone.heavy()) if key not in seen else ():
            weight = weight_of(plan, rule, of.domain)
            found.append({
                "item": of.domain, "name": plan.map.name_of(of.domain), "rule": rule.name, "size": it.pool.size,
                "by_weight": cut_off(of.by_weight), "weight": cut_off(weight),
                "mended": None if of.mended is None else cut_off(weight * of.mended),
            })  # fmt: skip
        seen.add(key)
    return found


def weight_of(plan, rule, item):
    """Returns the CRUSH weight of a bucket or a device."""
    bucket = plan.map.buckets.get(item)
    return fractions.Fraction(bucket.weight() if bucket else plan.keeper.weights_of(rule).get(item, 0), ONE)


def heavy_text(it):
    """Returns which weight would mend a domain that is too heavy, in words."""
    mended = "it has no more beside it than copies need, so only equal weights would give shares"
    if it["mended"] is not None:
        mended = f"at a weight of {it['mended']:.2f} it would have its share"
    return (
        f"{it['name']} is too heavy for size {it['size']} by {it['rule']}: its weight of {it['weight']:.2f} asks for "
        f"{it['by_weight']:.2f} copies of each group, and it can have 1; {mended}."
    )


def fixed_text(value):
    """Returns a number with two decimals, cut after them: what is below 1 stays below it."""
    return Sized(f"{cut_off(fractions.Fraction(str(value)), 2):.2f}")


def write_lines(path, lines):
    """Writes the lines into a file, whole or not at all."""
    from .page import write_whole

    write_whole(path, "".join(f"{it}\n" for it in lines).encode(), "--lines")


def lines_text(lines):
    return "\n".join(["Lines to type:", *(f"  {it}" for it in lines)]) if lines else ""
