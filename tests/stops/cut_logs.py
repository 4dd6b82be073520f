"""The log of a killed run, cut at some byte or with one byte changed, and what an opening then
finds: the tenants after a first part of the requests, or it is refused and changes nothing."""
import collections
import pathlib
import tempfile

from model.definition import played, tables_of
from model.histories import drawn_calls
from stops.killed import TENANTS, script_of
from server.served import Server, asked
from files.stored import STORE_FAULT, Unsound, copy_to, differ, files_at, held, run_over

CLOSED, CALLS = 12, 12  # requests before the file was closed, and of the run that was killed

# a file and its log, as bytes, and the tenants after each first part of the requests in the log
Left = collections.namedtuple("Left", "file log states")


def left_by_a_kill(program, drawn, lines=None):
    """A file that was closed with some tenants, and the log of a server that was killed after it
    had answered these requests, or some by chance."""
    with tempfile.TemporaryDirectory() as folder:
        db = pathlib.Path(folder, "t.db")
        first = drawn_calls(drawn, TENANTS, CLOSED, {}, 0)
        live = played(first)[1]
        if run_over(program, db, script_of(first)).returncode:
            raise Unsound("the first requests aren't served")
        lines, states = lines or drawn_calls(drawn, TENANTS, CALLS, live, CLOSED), [live]
        for line in lines:
            states.append(played([line], states[-1])[1])
        with Server(program, db) as server:
            answered = asked(server, lines)
            server.run.kill()
        if answered != played(lines, live)[0]:
            raise Unsound("the requests have other replies than those of the definition")
        return Left(db.read_bytes(), pathlib.Path(f"{db}-wal").read_bytes(), states)


def place_in(states, found):
    return next((place for place, live in enumerate(states) if differ(tables_of(live), found) is None), None)


def opened_with(program, left, log):
    """What comes of an opening with this log: 'all', 'a part' or 'none' of the requests in it, or
    'refused'; and why that may not be, or None."""
    with tempfile.TemporaryDirectory() as folder:
        db = pathlib.Path(folder, "t.db")
        db.write_bytes(left.file)
        pathlib.Path(f"{db}-wal").write_bytes(log)
        before = files_at(db)
        ran = run_over(program, db, b"")
        if (ran.returncode, ran.stdout, ran.stderr) == (1, b"", STORE_FAULT):
            return "refused", None if files_at(db) == before else "it is refused, and the files are changed"
        if (ran.returncode, ran.stdout, ran.stderr) != (0, b"", b""):
            return "refused", f"status {ran.returncode}, {ran.stdout[:100]!r}, {ran.stderr[:100]!r}"
        place = place_in(left.states, held(copy_to(db, folder)))
        if place is None:
            return "other", "it holds what no first part of the requests leaves"
        same = [it for it, live in enumerate(left.states) if live == left.states[place]]
        return "all" if same[-1] == len(left.states) - 1 else "none" if same[0] == 0 else "a part", None


def cut(program, left, length):
    outcome, why = opened_with(program, left, left.log[:length])
    return outcome, why and f"the log of {len(left.log)} bytes cut to {length}: {why}"


def changed(program, left, place, byte):
    """With this added to the byte at a place of the log."""
    log = bytearray(left.log)
    log[place] ^= byte
    outcome, why = opened_with(program, left, bytes(log))
    return outcome, why and f"byte {place} of the log of {len(log)} bytes changed by {byte}: {why}"
