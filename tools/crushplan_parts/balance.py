"""`crushplan balance`: the upmap items that even out pools, as lines to type."""
import signal
import time

from .balanced import GROUP_HEADS, Report, past
from .balancing import Balancing, rule_fault
from .faults import Fault, counted, some
from .names import of_class
from .output import Answer, Progress
from .notes import Note
from .proposal import Proposal, Stopped, until_fill, within_moves
from .summary import looks_at_room
from .usage import pools_named
from .waiting import waiting

EACH = 0.2  # seconds between changes of the bar
MOST_NAMED = 4


class Watch:
    """Shows how far a search is, and ends it at Ctrl-C: a second one ends the program."""

    def __init__(self):
        self.bar, self.moves, self.at, self.is_over = None, 0, time.monotonic(), False

    def begin(self, least):
        """Shows a bar of so many moves, at least."""
        self.bar = Progress(max(least, 2), "moves")

    def __enter__(self):
        self.before = signal.signal(signal.SIGINT, self.stop)
        return self

    def __exit__(self, *_):
        signal.signal(signal.SIGINT, self.before)
        if self.bar:
            self.bar.end()

    def stop(self, *_):
        self.is_over = True
        signal.signal(signal.SIGINT, self.before)

    def __call__(self, search):
        if self.is_over:
            raise Stopped
        self.moves += 1
        if time.monotonic() - self.at > EACH:
            self.at = time.monotonic()
            self.bar.at(min(self.moves, self.bar.whole))


def balance(plan, asked):
    """Answers by which upmap items pools are evened out."""
    if asked.primaries:
        from .primaries import primaries

        return primaries(plan, asked)
    of_class(plan, asked.of_class)
    if asked.until_fill is not None and not looks_at_room(plan.cluster):
        raise Fault("--until-fill wants df.json and osd-df.json, which say how full devices are")
    balancings = begun(plan, asked)
    if plan.doubt or not balancings:
        return nothing(plan, "unknown: no pool can be evened out.")
    return Report(plan, asked, balancings, found(plan, asked, balancings)).answer()


def nothing(plan, sentence):
    """Returns the answer that has no lines: groups lie otherwise than computed, or no pool is
    left."""
    return Answer(2, "" if plan.doubt else sentence, {"pools": [], "groups": [], "lines": []}, [], [GROUP_HEADS])


def found(plan, asked, balancings):
    """Returns the proposal that is asked for."""
    waiting.at("searching")
    with Watch() as watch:
        watch.begin(sum(it.least() for it in balancings))
        if asked.moves is not None:
            return within_moves(balancings, asked.moves, watch).even_bytes(asked.for_bytes, asked.moves)
        if asked.until_fill is not None:
            return until_fill(balancings, lambda it: past(plan, it, asked.until_fill), watch)
        return Proposal(balancings, asked.deviation, watch).search().even_bytes(asked.for_bytes)


# ---- what is evened out


def begun(plan, asked):
    """Returns the pools that can be evened out, with where their copies lie; the others are noted.
    Items that the monitors remove by themselves at the next change are gone."""
    pools = [it for it in pools_named(plan, asked.names) if not left_out(plan, it)]
    placements = all_placed(plan, pools)
    plan.doubt_groups(placements)
    found = []
    for it in pools if not plan.doubt else ():
        pairs = kept_pairs(plan, it, placements[it.id])
        lists = plan.exceptions.lists.get(it.id, {})
        balancing = Balancing(plan, it, placements[it.id], pairs, lists, asked.of_class)
        if balancing.shares:
            note_oddities(plan, balancing)
            found.append(balancing)
        elif asked.of_class:
            note(plan, it, f"no take of its rule has devices of the class {asked.of_class} alone")
        else:
            note(plan, it, "it has no device that is up and in")
    return found


def left_out(plan, pool):
    """Returns whether a pool can't be evened out, and notes why."""
    why = rule_fault(plan.map, pool)
    if pool.split_to:
        why = "it is being split or merged, and until that is over Ceph removes its items"
    if why:
        note(plan, pool, why)
    return bool(why)


def note(plan, pool, why):
    whole = f"pool {pool.name} ({pool.id}) isn't evened out: {why}"
    plan.notes.append(Note("balance", whole, pools=[pool.id], short=f"pool {pool.name} ({pool.id}): {why}"))


def all_placed(plan, pools):
    """Returns where all groups of pools lie, by pool and group."""
    runs = {it.id: plan.run([it.id]) for it in pools}
    asked = {it.id: runs[it.id].lists(it.id, range(it.pg_num)) for it in pools}
    plan.answer(*runs.values())
    return {pool: runs[pool].placements(it) for pool, it in asked.items()}


def kept_pairs(plan, pool, placements):
    """Returns the pairs of a pool's groups that the monitors keep; groups whose pairs they don't
    lie as they do once these are gone."""
    found, changed = {}, []
    for group, pairs in plan.pairs[pool.id].items():
        list_ = plan.exceptions.lists.get(pool.id, {}).get(group)
        kept = plan.keeper.kept_at_last(pool, placements[group].raw, pairs, list_)[0]
        if kept:
            found[group] = kept
        if kept != pairs:
            changed.append(group)
    if changed:
        run = plan.run([pool.id])
        asked = run.lists(pool.id, changed, {it: found.get(it, []) for it in changed})
        plan.answer(run)
        placements.update(run.placements(asked))
        names = [pool.group_name(it) for it in sorted(changed)]
        text = (
            f"Ceph removes items of {counted(len(changed), 'group')} at the next change of a map "
            f"({some(names, MOST_NAMED)}): they count as gone"
        )
        plan.notes.append(Note("upmap", text, pools=[pool.id], groups=names, open_=False))
    return found


def note_oddities(plan, balancing):
    """Notes what of a pool stays as it is."""
    pool, stay = balancing.pool, balancing.pool.pg_num - len(balancing.free)
    if stay:
        verb = "stays as it is" if stay == 1 else "stay as they are"
        text = (
            f"{counted(stay, 'group')} of pool {pool.name} {verb}: by a whole list, with an empty place, or otherwise "
            "than the rule wants"
        )
        plan.notes.append(Note("balance", text, pools=[pool.id], open_=False))
    is_down = lambda it: it is not None and plan.state(it).reweight and not plan.state(it).up
    down = sorted(filter(is_down, balancing.ground.counts))
    if down:
        text = (
            f"of pool {pool.name} the copies on {plan.names_of(down)}, which {'is' if len(down) == 1 else 'are'} down "
            "and in, stay; the others are shared out among the devices that are up"
        )
        plan.notes.append(Note("down", text, pools=[pool.id], devices=down, open_=False))
