"""`crushplan locate --objects`: where the objects of a list lie, as long as it may be. Parts of it
are located side by side, each by a process of its own (bulk_worker.py), and written in the order of
the list; no more of them than a few stand in memory."""
import collections
import concurrent.futures
import os
import pathlib
import pickle
import subprocess
import sys
import threading

from .bulk_worker import COLUMNS, EMPTY, LONG, MOST_NAME, RETURN, UNREADABLE
from .faults import Fault, NoAnswer, counted, some
from .names import Chosen
from .output import Answer, csv_text
from .reports import listed
from .service import PROCESSORS
from .waiting import waiting

UNKNOWN = 2
PART = 1 << 20  # bytes of a list that are located at once
MOST_NAMED = 20  # lines that are named, which aren't names
HEADS = ["object", "group", "up", "primary"]
# why a line isn't computed: in the sentence on the line, and in the one on all of them
WHY = {
    EMPTY: ("it is empty", "empty"),
    LONG: (f"it is longer than {MOST_NAME:,} bytes", f"longer than {MOST_NAME:,} bytes"),
    COLUMNS: (
        (
            "it has columns, as those that 'rados ls' writes of a namespace or a locator key, with which objects aren't"
            " computed"
        ),
        "with columns",
    ),
    RETURN: ("it has a carriage return, which 'rados ls' writes behind no name", "with a carriage return"),
    UNREADABLE: ("it isn't UTF-8", "not UTF-8"),
}
PARTS = pathlib.Path(__file__).resolve().parent
WORK = "import sys; sys.path.insert(0, sys.argv[1]); from crushplan_parts.bulk_worker import work; work()"


class Worker:
    """A process that locates names."""

    def __init__(self, setting):
        words = [sys.executable, "-IB", "-c", WORK, str(PARTS.parent)]
        try:
            self.process = subprocess.Popen(words, stdin=subprocess.PIPE, stdout=subprocess.PIPE)
        except OSError as error:
            raise NoAnswer(f"{sys.executable} can't be run: {error.strerror or error}") from None
        self.give(setting)

    def give(self, what):
        pickle.dump(what, self.process.stdin)
        self.process.stdin.flush()

    def located(self, part):
        """Returns what Names.rows() does of a part."""
        try:
            self.give(part)
            found = pickle.load(self.process.stdout)
        except (EOFError, OSError, pickle.UnpicklingError):
            raise NoAnswer(f"a process that locates names ended with status {self.process.wait()}") from None
        if isinstance(found, str):
            raise Fault(found)
        return found

    def end(self):
        self.process.kill()
        self.process.wait()


class Workers:
    """Workers, of which each begins once there is a part for it. `setting` is what each needs."""

    def __init__(self, setting, count):
        self.setting, self.count, self.own = setting, count, threading.local()
        self.lock, self.all, self.ended = threading.Lock(), [], False
        self.jobs = concurrent.futures.ThreadPoolExecutor(count)

    def __enter__(self):
        return self

    def __exit__(self, *_):
        self.jobs.shutdown(wait=False, cancel_futures=True)
        with self.lock:
            self.ended = True
            for it in self.all:
                it.end()

    def located(self, part):
        if not hasattr(self.own, "worker"):
            with self.lock:
                if self.ended:
                    raise NoAnswer("it was interrupted")
                self.own.worker = Worker(self.setting)
                self.all.append(self.own.worker)
        return self.own.worker.located(part)

    def in_order(self, parts):
        """Yields what is located of each part, in their order, as soon as it is there."""
        left = collections.deque()
        for part in parts:
            left.append(self.jobs.submit(self.located, part))
            while left and (left[0].done() or len(left) > 2 * self.count):
                yield left.popleft().result()
        while left:
            yield left.popleft().result()


def parts_in(stream):
    """Yields a list part by part, each of whole lines. A line that is longer than a part is cut: it
    stays longer than a name may be."""
    rest = b""
    while True:
        data = stream.read(PART)
        if not data:
            break
        end = data.rfind(b"\n") + 1
        if end:
            yield rest + data[:end]
            rest = data[end:]
        else:
            rest = (rest + data)[: 2 * MOST_NAME]
    if rest:
        yield rest + b"\n"


class Given:
    """A list of names: a file, or standard input."""

    def __init__(self, name):
        self.name, self.size, self.read = name, 0, 0
        try:
            self.stream = sys.stdin.buffer if name == "-" else open(name, "rb")
            self.size = os.fstat(self.stream.fileno()).st_size if name != "-" else 0
        except (OSError, AttributeError, ValueError) as error:
            raise self.fault(error) from None

    def fault(self, error):
        where = "standard input" if self.name == "-" else self.name
        return Fault(f"{where}: {getattr(error, 'strerror', None) or 'it is closed'}")

    def parts(self):
        found = parts_in(self.stream)
        while True:
            try:
                part = next(found, None)
            except (OSError, ValueError) as error:
                raise self.fault(error) from None
            if part is None:
                return
            self.read += len(part)
            yield part

    def words(self, names):
        """Says how much of the list is located."""
        done = f", {100 * self.read // self.size}% of the list is read" if self.size else ""
        return f"{counted(names, 'name')} {'is' if names == 1 else 'are'} located{done}"


class Bad:
    """Lines that aren't names which are computed: some are named, all are counted."""

    def __init__(self):
        self.counts, self.named = collections.Counter(), 0

    def add(self, first, lines):
        """Takes lines of a part that begins with a line of this number."""
        for place, why, line in lines:
            self.counts[why] += 1
            if self.named < MOST_NAMED:
                self.named += 1
                say(f"line {first + place:,}, {repr(line[:40])[1:]}, isn't computed: {WHY[why][0]}")

    def end(self, lines):
        """Says how many of all lines they are; returns whether there are some."""
        whole = sum(self.counts.values())
        if whole:
            of = some([f"{self.counts[it]:,} {words}" for it, (_, words) in WHY.items() if self.counts[it]])
            say(f"of {counted(lines, 'line')} {whole:,} {'is' if whole == 1 else 'are'} left out: {of}")
        return whole > 0


def say(what):
    waiting.clear()
    sys.stderr.write(f"crushplan: {what}\n")


def locate_many(plan, pool, placements, asked):
    """Writes where the objects of a list lie, as CSV, and returns an answer without text."""
    if asked.form == "json":
        raise Fault("--objects writes CSV, and has no --json")
    if not plan.client.is_parallel:
        raise Fault("--objects asks a program, and takes no --service")
    from .main import write_out

    ends = ["," + csv_text([it]) if it else None for it in cells_of(plan, pool, placements, asked)]
    setting = (str(plan.client.program), pool.pg_num, ends)
    bad, first, names = Bad(), 1, 0
    given = Given(asked.names_from)
    if plan.doubt:
        say(f"unknown: {plan.doubt}")
    if not asked.no_head:
        write_out(csv_text([HEADS + ["left"] * (asked.only_on is not None)]))
    waiting.at(given.words(0))
    waiting.give_way(sys.stdout.isatty())  # the rows themselves are seen there
    with Workers(setting, PROCESSORS) as workers:
        for rows, _, count, lines in workers.in_order(given.parts()):
            bad.add(first, lines)
            write_out(rows)
            names, first = names + count, first + count + len(lines)
            waiting.at(given.words(names))
    found = Answer(UNKNOWN if bad.end(first - 1) else 0, "", {}, [], [])
    found.plain = lambda: ""
    return found


def cells_of(plan, pool, placements, asked):
    """Returns what is written of an object of each group of a pool: the group, where it lies and
    its primary; or None of those that don't lie on the devices that are asked for. Where such are,
    also how many copies are left without them."""
    named = None if asked.only_on is None else set(Chosen(plan, asked.only_on.split(",")).devices)
    if named is not None:
        warn_of_out(plan, named)
    found = []
    for group in range(pool.pg_num):
        it = placements[group]
        cell = (pool.group_name(group), listed(it.up), "" if it.primary is None else it.primary)
        if named is not None:
            left = sum(device is not None and device not in named for device in it.up)
            is_there = not named.isdisjoint(items_of(plan, pool, group, it.raw))
            cell = (*cell, left) if is_there and (asked.left is None or left <= asked.left) else None
        found.append(cell)
    return found


def items_of(plan, pool, group, raw):
    """Returns the devices that have a group by rule and exceptions, also where they are down."""
    pairs = plan.pairs[pool.id].get(group, ())
    return plan.exceptions.items_of(pool, group, raw, pairs, lambda it: plan.state(it).reweight > 0)


def warn_of_out(plan, devices):
    out = sorted(it for it in devices if not plan.state(it).reweight)
    if out:
        verb = "is" if len(out) == 1 else "are"
        say(f"{plan.names_of(out)} {verb} out: what lay there before lies elsewhere, or has fewer copies")
