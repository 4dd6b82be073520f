"""Sessions whose power is cut: one is played to its end and recorded (record.c), and its files are
then made as a disk may have them after any of its calls. What was synced is there. Of a later write
each byte is the old or the new one, and past the length that was synced it is anything; a length is
anywhere between. A file that was made is there once the folder was synced, or the file."""
import collections
import itertools
import os
import pathlib
import random
import subprocess
import tempfile

from model.histories import Unexplained, may_leave
from stops.killed import found_in, script_of
from allocations.refusing import Unfit, compiled, side_by_side
from files.stored import SECONDS, Unsound, copy_to, files_at, run_over, write_files
from stops.stopping import real

SECTOR = 512
OUT, FOLDER, SUFFIXES = "out", "folder", {"file": "", "log": "-wal"}

# a call on one of these, with the bytes that it wrote; place: where they are, or a length
Call = collections.namedtuple("Call", "name what place bytes")
# a session: what the files held before it, its calls in order, and its replies
Recorded = collections.namedtuple("Recorded", "before calls replies")


def calls_of(record):
    found = []
    while head := record.readline():
        name, what, place, bytes = head.decode().split()
        found.append(Call(name, what, int(place), record.read(int(bytes)) if int(bytes) else b""))
    return found


def recorded(program, db, lines):
    """Plays a script over a file to its end."""
    top, library = compiled("record")
    with tempfile.TemporaryFile() as record:
        env = {**os.environ, "LD_PRELOAD": library, "RECORD_FILE": str(real(db)), "RECORD_FD": str(record.fileno())}
        before = files_at(db)
        ran = subprocess.run(
            [program, "script", "--db", str(real(db))],
            input=script_of(lines),
            stdout=subprocess.PIPE,
            stderr=subprocess.PIPE,
            timeout=SECONDS,
            cwd=top,
            env=env,
            pass_fds=(record.fileno(),),
        )
        if (ran.returncode, ran.stderr) != (0, b""):
            raise Unexplained(f"a session that isn't stopped ends with status {ran.returncode} and {ran.stderr!r}")
        record.seek(0)
        calls = calls_of(record)
    if not any(it.what == "log" for it in calls) or any(
        it.name == "unlink" or it.name == "write" and it.what != OUT for it in calls
    ):
        raise Unfit("the calls on the file aren't those that are recorded: is the program linked statically?")
    session = Recorded(before, calls, ran.stdout.splitlines())
    files, _ = collections.deque(cuts(session), 1).pop()
    if {SUFFIXES[what]: file.now for what, file in files.items() if file.now is not None} != files_at(db):
        raise Unfit("the calls that are recorded don't make the files that are there")
    return session


def grown(drawn, content, end):
    """Bytes with anything behind them, to a length anywhere up to this."""
    more = max(0, drawn.choice((0, end - len(content), drawn.randint(0, max(0, end - len(content))))))
    return content + (drawn.randbytes(more) if drawn.random() < 0.5 else bytes(more))


def written_of(drawn, at, count):
    """Which of so many bytes for a place are written: ranges."""
    middle = drawn.randint(0, count)
    sectors = sorted({0, count, *(it - at for it in range(at - at % SECTOR + SECTOR, at + count, SECTOR))})
    pieces = list(zip(sectors, sectors[1:])) if count > 64 else [(it, it + 1) for it in range(count)]
    return drawn.choice(
        (
            [],
            [(0, count)],
            [(0, middle)],
            [(middle, count)],
            [it for it in pieces if drawn.random() < 0.5],
            [it for it in pieces if drawn.random() < 0.95],
        )
    )


def torn(drawn, content, at, data):
    """Bytes over which these were being written."""
    content = bytearray(grown(drawn, content, at + len(data)))
    for first, end in written_of(drawn, at, len(data)):
        end = min(end, len(content) - at)
        if first < end:
            content[at + first : at + end] = data[first:end]
    return bytes(content)


def cut_to(drawn, content, length):
    """Bytes whose length was being changed to this."""
    return (
        grown(drawn, content, length)
        if length > len(content)
        else content[: drawn.choice((length, len(content), drawn.randint(length, len(content))))]
    )


class File:
    """A file of a recorded session. synced: what is surely there; None where it may be missing."""

    def __init__(self, content):
        self.synced, self.now, self.since = content, content, []

    def take(self, call):
        if call.name == "open" and self.now is None:
            self.now = b""
        elif call.name == "sync":
            self.synced, self.since = self.now, []
        elif call.name == "pwrite":
            self.now = self.now.ljust(call.place, b"\0")
            self.now = self.now[: call.place] + call.bytes + self.now[call.place + len(call.bytes) :]
            self.since.append(call)
        elif call.name == "ftruncate":
            self.now = self.now[: call.place].ljust(call.place, b"\0")
            self.since.append(call)

    def entered(self):
        """Its folder was synced."""
        if self.synced is None and self.now is not None:
            self.synced = b""

    def left(self, drawn):
        """What a cut of the power may leave of it: bytes, or None."""
        content = self.synced
        if content is None:
            if self.now is None or drawn.random() < 0.5:
                return None
            content = b""
        for call in self.since:
            content = (
                torn(drawn, content, call.place, call.bytes)
                if call.name == "pwrite"
                else cut_to(drawn, content, call.place)
            )
        return content


def cuts(session):
    """After each call of a session, and before the first: its files, and how many replies were
    written."""
    files, replies = {what: File(session.before.get(suffix)) for what, suffix in SUFFIXES.items()}, 0
    yield files, 0
    for call in session.calls:
        if call.what == OUT:
            replies += call.bytes.count(b"\n")
        elif call.what == FOLDER and call.name == "sync":
            for file in files.values():
                file.entered()
        elif call.what != FOLDER:
            files[call.what].take(call)
        yield files, replies


def leave(db, session, at, drawn):
    """Writes the files as a cut of the power after so many calls may leave them. Returns the
    replies that were written before it."""
    files, replies = next(itertools.islice(cuts(session), at, None))
    for what, suffix in SUFFIXES.items():
        path, content = pathlib.Path(f"{db}{suffix}"), files[what].left(drawn)
        path.unlink(missing_ok=True)
        if content is not None:
            path.write_bytes(content)
    return session.replies[:replies]


def found_by_opening(program, db, folder, states, _is_new):
    """Which of these tenants the files hold, once the program has opened and closed a copy."""
    with tempfile.TemporaryDirectory() as other:
        copy = copy_to(db, other)
        ran = run_over(program, copy, b"")
        if (ran.returncode, ran.stdout, ran.stderr) != (0, b"", b""):
            raise Unexplained(f"the next opening ends with status {ran.returncode} and {ran.stderr!r}")
        return found_in(copy, folder, states, False)


def recorded_over(program, files, lines):
    """The same over files with these bytes."""
    with tempfile.TemporaryDirectory() as folder:
        db = pathlib.Path(folder, "t.db")
        write_files(db, files)
        return recorded(program, db, lines)


def found_after(program, session, live, lines, at, seed):
    """How many more requests than had a reply are found done after a cut of the power."""
    with tempfile.TemporaryDirectory() as folder:
        db = pathlib.Path(folder, "t.db")
        replies = leave(db, session, at, random.Random(seed))
        try:
            return found_by_opening(program, db, folder, may_leave(live, lines, replies, 1), False)
        except (Unexplained, Unsound) as error:
            raise Unexplained(
                f"the power is cut after {at} of {len(session.calls)} calls, seed {seed}: {error}"
            ) from error


def each_cut(program, name, files, live, lines, images, drawn, most=None):
    """Cuts the power after each call of a session on `live`, with so many images of what is left,
    or after so many of the calls."""
    session = recorded_over(program, files, lines)
    places = range(len(session.calls) + 1)
    places = sorted(drawn.sample(places, min(len(places), most or len(places)))) * images
    seeded = [(at, drawn.getrandbits(64)) for at in places]
    found = side_by_side(lambda it: found_after(program, session, live, lines, *it), seeded)
    print(
        (
            f"{name}, the power cut at {len(set(places))} moments of its {len(session.calls)} calls:"
            f" {len(found)} images; in {sum(found)} the request without a reply is done."
        ),
        flush=True,
    )


class PowerCutter:
    """Plays sessions, each with a cut of the power after a random call, and counts them."""

    def __init__(self, drawn):
        self.drawn, self.count = drawn, 0

    def __call__(self, program, db, lines, share):
        """The replies to these requests, and how many more may be done."""
        session = recorded(program, db, lines)
        self.count += 1
        return leave(db, session, int(share * (len(session.calls) + 1)), self.drawn), 1
