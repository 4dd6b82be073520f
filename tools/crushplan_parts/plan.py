"""`crushplan plan`: what the lines of a runbook do, step by step, before they are typed."""
import pathlib

from .commands_osd import await_clean
from .drawing import Bar, Drawing, of_counts, place_of, ratios_of
from .faults import Fault, counted, some
from .follow import Follower
from .meanwhile import alive_in
from .output import Answer
from .passage import Ledger, Passage, entries_of, groups_text
from .plan_text import (
    Sums,
    after_table,
    deciding,
    lines_table,
    orders_table,
    rows_of,
    said_of,
    steps_table,
    summary_table,
)
from .reports import COPY, warn_of_flags, warn_of_room
from .run import Usage
from .runbook import read_runbook
from .summary import ratio_said
from .waiting import waiting


class Done:
    """A step that was followed: the events of its lines, what happened by itself, and its passage
    from the moment before; `at` returns the maps before a line. `singles` are the passages of its
    lines where each is waited for, if they were asked for; `cause` is a line behind which something
    is wrong that wasn't before it, with the passage up to there if that isn't the last, where the
    step has several."""

    def __init__(self, number, step, events, at):
        self.number, self.step, self.events, self.at = number, step, events, at
        self.passage, self.by_itself, self.removed, self.singles, self.cause = None, [], [], None, None

    def where(self):
        return f"step {self.number} ({self.step.where()})"

    def faults(self):
        """Yields what makes the answer no (1) or unknown (2), with where, in words."""
        for it in self.events:
            at = f"line {it.line.number}"
            if it.refused is not None:
                yield 1, f"{at} is refused: {it.refused.code} {it.refused.why}".rstrip(". ")
            if it.unknown is not None:
                yield 2, f"{at} ('{it.line.text[:60]}') isn't foretold: {it.unknown}"
            own = [of for of in it.removed if of.split()[0] in it.line.words.arguments[:1]]
            if own and it.line.words.name[-1] in ("pg-upmap-items", "pg-upmap"):
                yield 1, f"{at}: Ceph removes what it sets at once, {own[0]}"
        line = f", with line {self.cause[0]}" if self.cause else ""
        for status, text in self.passage.faults(self.step.wait is not None):
            yield status, f"{self.where()}{line if status == 1 else ''}: {text}"

    def remarks(self):
        return [*self.meanwhile(), *self.passage.remarks()]

    def meanwhile(self):
        """Yields which groups are short while data moves, and whether a 'wait' helps."""
        own = self.passage.meanwhile
        if own.short:
            first = own.short_from
            helps = (
                first is not None and any(it.number < first for it in self.step.lines) and self.emptied_before(first)
            )
            yield own.words() + (f"; with a 'wait' before line {first} they move first" if helps else "")

    def emptied_before(self, number):
        """Returns whether the OSDs that are missed were to be empty before a line."""
        maps = self.at(number)
        weighs = {item for it in maps.crush.buckets.values() for item, weight in it.items if weight}
        return all(
            it in maps.osds and (not maps.osds[it].reweight or it not in weighs)
            for it in self.passage.meanwhile.lacking
        )

    def not_done(self):
        """Returns the number of the line that is refused or isn't foretold, or None."""
        last = self.events[-1]
        return last.line.number if last.ends() else None

    def deciding_line(self):
        """Returns the number of the line that decides where one does, or None."""
        if self.not_done() is not None:
            return self.not_done()
        return self.cause[0] if self.cause else self.step.lines[0].number if len(self.step.lines) == 1 else None

    def is_empty(self):
        """Returns whether nothing of the step is done."""
        return len(self.events) == 1 and self.events[0].ends()


def plan(plan_, asked):
    """Answers what a runbook does."""
    path = pathlib.Path(asked.file)
    steps = read_runbook(asked.file)
    if asked.no_files:
        refuse_files(steps)
    folders = (pathlib.Path(), path.parent) if asked.file != "-" else (pathlib.Path(),)
    follower = Follower(plan_, folders)
    waiting.at("asking where groups lie")
    start = follower.moment(follower.maps)
    judge(plan_, start)
    ledger, maps, before, done = Ledger(start), follower.maps, start, []
    for number, step in enumerate(steps, 1):
        waiting.at(f"step {number} of {len(steps)}")
        own, maps, before = follow_step(follower, ledger, number, step, maps, before, asked.orders)
        done.append(own)
        if own.events and own.events[-1].ends():
            break
    take_notes(plan_, follower, before.plan)
    warn_of_room(plan_)
    warn_of_flags(plan_)
    warn_of_down(plan_, follower.maps)
    return answer(plan_, ledger, steps, done, before, asked)


def refuse_files(steps):
    """A Fault names the first line that reads a file."""
    line = next((it for step in steps for it in step.lines if it.words.file is not None), None)
    if line:
        why = "it reads a file, which a cluster's manager doesn't have: 'crushplan plan' follows it on fetched dumps"
        raise Fault(f"line {line.number} ('{line.text[:60]}') can't be followed here: {why}")


def warn_of_down(plan_, maps):
    """Warns of OSDs that are down and in at the start: whether they go out meanwhile isn't
    known."""
    own = [f"osd.{id_}" for id_, it in sorted(maps.osds.items()) if not it.up and it.reweight]
    if own and "noout" not in maps.flags:
        plan_.cluster.warnings.append(f"down and in: {some(own)}; that Ceph may mark them out meanwhile isn't counted")


def judge(plan_, start):
    """Doubts all answers where groups lie otherwise in the cluster."""
    if plan_.cluster.groups is not None:
        plan_.doubt_groups(start.lists)
    else:
        plan_.doubt_usage({id_: Usage(counted_up(own), {}) for id_, own in start.lists.items()})


def counted_up(lists):
    """Returns how many entries each device has of one pool."""
    found = {}
    for it in lists.values():
        for device in it.up:
            if device is not None:
                found[device] = found.get(device, 0) + 1
    return found


def follow_step(follower, ledger, number, step, maps, before, with_singles):
    """Follows a step: returns it with the maps and the moment behind it."""
    events, at, moment, singles, waited, down, alive = [], maps, before, [], [], [], []
    for line in step.lines:
        at, event = follower.do(line, at)
        events.append(event)
        down = follower.taken_down(at)
        serving = alive_in(at)
        if not alive or alive[-1][1] != serving:
            alive.append((line.number, serving))
        if with_singles and len(step.lines) > 1 and not event.ends():
            waited.append((line, follower.settled(at, down)[0], await_clean(at)[0]))
        if event.ends():
            break
    asks = [lambda maps=maps: follower.moment(maps) for _, maps, _ in waited]
    for (line, _, own_maps), following in zip(waited, follower.first.side_by_side(*asks)):
        singles.append((line, Passage(ledger, moment, following, own_maps)))
        moment = following
    own = Done(number, step, events, lambda line: replayed(follower, maps, step, line))
    settled, own.by_itself, own.removed = follower.settled(at, down)
    after = follower.moment(settled)
    own.passage, own.singles = Passage(ledger, before, after, await_clean(at)[0], alive), singles
    if len(events) > 1 and is_wrong(own.passage, step):
        own.cause = cause_of(follower, ledger, own, before)
    return own, settled, after


def replayed(follower, maps, step, number):
    """Returns the maps before a line of a step that begins with maps."""
    for line in step.lines:
        if line.number >= number:
            break
        maps, _ = follower.do(line, maps)
    return maps


def is_wrong(passage, step):
    return any(status == 1 for status, _ in passage.faults(step.wait is not None))


def cause_of(follower, ledger, own, before):
    """Returns a line of a step behind which something is wrong that isn't before it, with the
    passage up to there, or None where that is the last; None where it was wrong before the step.
    Of thousands of lines few are looked at."""
    if is_wrong(Passage(ledger, before, before, before.maps), own.step):
        return None
    numbers = sorted({it.line.number for it in own.events})
    low, high, found = 0, len(numbers) - 1, None
    while low < high:
        middle = (low + high) // 2
        at = own.at(numbers[middle] + 1)
        settled, *_ = follower.settled(at, follower.taken_down(at))
        passage = Passage(ledger, before, follower.moment(settled), await_clean(at)[0])
        if is_wrong(passage, own.step):
            high, found = middle, passage
        else:
            low = middle + 1
    return numbers[high], found


def take_notes(plan_, follower, last):
    """Takes what isn't computed any more at the end into the notes of the answer."""
    known = {it.text for it in plan_.notes}
    plan_.notes += [it for it in last.notes if it.open and it.text not in known]


def answer(plan_, ledger, steps, done, end, asked):
    faults = [(status, text, it) for it in done for status, text in it.faults()]
    status = 1 if any(it[0] == 1 for it in faults) else 2 if faults else 0
    first = next((it for it in faults if it[0] == status), None)
    whole = Passage(ledger, ledger.start, end, end.maps)
    sums = Sums(done, whole, asked.rate)
    sentence = sentence_of(status, first, done, steps, sums)
    decides = first[2] if first else None
    blocks = [
        summary_table(sums),
        steps_table(done, asked.rate),
        lines_table(done),
        deciding(decides) if decides else None,
        after_table(ledger, *shown_at(decides or done[-1], bool(decides))),
        orders_table(done, asked.rate) if asked.orders else None,
    ]
    fields = lambda: {
        **said_of(steps, done, sums, asked),
        "decides": decides and {
            "step": decides.number,
            "lines": [it.number for it in decides.step.lines],
            "line": decides.deciding_line(),
            "why": first[1],
        },
    }
    found = Answer(status, sentence, fields, blocks, rows_of(done, asked), lambda: drawn(plan_, whole))
    return found.of(plan_.cluster.pools, {pool.id for it in done for pool, *_ in it.passage.moves})


def shown_at(it, decides):
    """Returns the passage to where the cluster is shown, and where that is, in words: at a line
    with which something is wrong, where a step has several."""
    if not decides:
        return it.passage, "at the end"
    if it.not_done() is not None:
        return it.passage, f"where line {it.not_done()} {'is refused' if it.events[-1].refused else 'stands'}"
    if it.cause and it.cause[1]:
        return it.cause[1], f"with line {it.cause[0]}"
    return it.passage, f"after {it.where()}"


def sentence_of(status, first, done, steps, sums):
    """Returns the answer in one sentence."""
    cut = done and done[-1].events and done[-1].events[-1].ends()
    behind = "; nothing behind it is foretold" if cut and (first is None or first[2] is done[-1]) else ""
    written = f"{counted(sums.copies, *COPY)} {'is' if sums.copies == 1 else 'are'} written anew"
    moved = f"{counted(sums.moved, 'group')} {'moves' if sums.moved == 1 else 'move'}, {written}"
    if status == 0:
        room = "every copy has room" if sums.knows_room else "every copy has a device"
        have = "has" if len(sums.shortened) == 1 else "have"
        short = f"; meanwhile {groups_text(sums.shortened)} {have} fewer copies" if sums.shortened else ""
        return f"yes: in {counted(len(done), 'step')} {moved}, and {room}{short}."
    return f"{'no' if status == 1 else 'unknown'}: {first[1]}{behind}."


def drawn(plan_, whole):
    """Returns the drawing of devices at the start and at the end."""
    before, after = whole.ledger.used(whole.ledger.counts), whole.used_after
    entries = [entries_of(it) for it in (whole.before, whole.after)]
    own = sorted(it for it in {*entries[0], *entries[1]} if entries[0][it] or entries[1][it])
    if own and all(it in after for it in own):
        bars = [Bar(*place_of(plan_, it), ratio_said(before[it]), ratio_said(after[it])) for it in own]
        return Drawing("Used room, by device", ("before", "after"), bars, True, ratios_of(plan_))
    return of_counts(plan_, "Copies, by device", ("before", "after"), *entries)
