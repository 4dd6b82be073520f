"""What the proof of each crate takes, watched from outside while rt ci runs: the processor time and
the memory of the toolchain's processes, by crate.

A process of the prover names its crate (--crate-name), and --test where it proves the tests. What
it and those below it use is read from /proc a few times a second.
"""
import collections
import os
import pathlib
import threading
import time

TICK = os.sysconf("SC_CLK_TCK")
PAGE = os.sysconf("SC_PAGE_SIZE")
EVERY = 0.5  # seconds


class Process:
    """A line of /proc: who began it, seconds of processor with those of ended children, and
    bytes."""

    def __init__(self, number):
        fields = pathlib.Path(f"/proc/{number}/stat").read_text().rpartition(")")[2].split()
        self.number, self.above = number, int(fields[1])
        self.seconds = sum(map(int, fields[11:15])) / TICK
        self.bytes = int(fields[21]) * PAGE


def processes():
    found = {}
    for name in os.listdir("/proc"):
        if name.isdigit():
            try:
                found[int(name)] = Process(int(name))
            except (OSError, IndexError):
                pass
    return found


def crate_of(number):
    """Which crate a process of the prover is at, with whether these are its tests, or None."""
    try:
        words = pathlib.Path(f"/proc/{number}/cmdline").read_bytes().decode(errors="replace").split("\0")
    except OSError:
        return None
    if not words[0].endswith("/rattle") or "--crate-name" not in words:
        return None
    return words[words.index("--crate-name") + 1], "--test" in words


class Watch(threading.Thread):
    """Watches the processes that this process began, until `end`."""

    def __init__(self):
        super().__init__(daemon=True)
        self.over, self.known = threading.Event(), {}
        # by crate and process: seconds of processor, bytes, and when it was first and last there
        self.found = collections.defaultdict(lambda: [0.0, 0, time.monotonic(), time.monotonic()])

    def run(self):
        while not self.over.wait(EVERY):
            self.look()

    def look(self):
        every, below = processes(), collections.defaultdict(list)
        for it in every.values():
            below[it.above].append(it)
        self.visit(os.getpid(), below)

    def visit(self, number, below):
        for it in below[number]:
            # a process may be seen before it becomes the prover
            crate = self.known.get(it.number) or crate_of(it.number)
            if crate:
                self.known[it.number] = crate
                self.note(it, below)
            else:
                self.visit(it.number, below)

    def note(self, process, below):
        whole, left = [], [process]
        while left:
            whole.append(left.pop())
            left += below[whole[-1].number]
        found = self.found[self.known[process.number], process.number]
        found[0] = max(found[0], sum(it.seconds for it in whole))
        found[1] = max(found[1], sum(it.bytes for it in whole))
        found[3] = time.monotonic()

    def end(self):
        self.over.set()
        self.join()
        return self.rows()

    def rows(self):
        """Of each crate, and of its tests: seconds of processor, seconds of the clock, bytes."""
        rows = collections.defaultdict(lambda: [0.0, 0.0, 0])
        for (crate, _), (seconds, much, first, last) in self.found.items():
            row = rows[crate]
            row[0], row[1], row[2] = row[0] + seconds, row[1] + last - first, max(row[2], much)
        return dict(rows)


def write(path, rows):
    lines = [
        f"{crate}\t{'tests' if tests else 'crate'}\t{seconds:.0f}\t{clock:.0f}\t{much >> 20}\n"
        for (crate, tests), (seconds, clock, much) in sorted(rows.items())
    ]
    path.write_text("crate\tpart\tseconds of processor\tseconds of the clock\tMB\n" + "".join(lines))


def read(path):
    rows = [line.split("\t") for line in path.read_text().splitlines()[1:]]
    return {(crate, part == "tests"): tuple(map(int, rest)) for crate, part, *rest in rows}
