"""The built program, killed at random moments while it plays a script or serves, over one file
again and again; and a client that notes what was acknowledged and sends the rest again."""
import pathlib
import subprocess
import tempfile
import threading
import time

from model.definition import played, tables_of
from model.histories import History, Unexplained, drawn_calls, may_leave
from server.served import Server, Unserved, message, read_reply
from files.stored import SECONDS, Unsound, copy_to, differ, held, run_over

TENANTS = [b"a", b"b", b"c"]
CALLS, ROUNDS = 60, 20  # of a run, and of a file
# a client of the server waits for each reply, or sends so many requests ahead
AHEAD = (1, 8)


def script_of(lines):
    return b"".join(it + b"\n" for it in lines)


def script_killed(program, db, lines, seconds):
    """The whole replies that a script wrote before it was killed, so long after its start, and how
    many more of its requests may have been done."""
    with subprocess.Popen(
        [program, "script", "--db", str(db)], stdin=subprocess.PIPE, stdout=subprocess.PIPE, stderr=subprocess.DEVNULL
    ) as run:
        try:
            out, _ = run.communicate(script_of(lines), timeout=seconds)
        except subprocess.TimeoutExpired:
            run.kill()
            out, _ = run.communicate()
    return out.split(b"\n")[:-1], 1


def talked(server, lines, ahead):
    """The whole replies of the server to these requests, sent so many ahead, until it is gone; and
    how many were sent without one."""
    replies, sent = [], 0
    try:
        with server.connect() as connection, connection.makefile("rb") as stream:
            while sent < len(lines):
                more = lines[sent : sent + ahead]
                sent += len(more)
                connection.sendall(b"".join(map(message, more)))
                while len(replies) < sent and (reply := read_reply(stream)):
                    replies.append(reply[0])
                if len(replies) < sent:
                    break
    except (OSError, Unserved):
        # the server was killed while a reply was sent, or before
        pass
    return replies, sent - len(replies)


def server_killed(program, db, lines, seconds, ahead):
    """The same of a server, killed so long after it listens."""
    with Server(program, db) as server:
        killer = threading.Timer(seconds, server.run.kill)
        killer.start()
        try:
            return talked(server, lines, ahead)
        finally:
            killer.cancel()
            killer.join()


def found_in(db, folder, states, is_new):
    """Which of these tenants a file holds, as sqlite3 reads it."""
    try:
        found = held(copy_to(db, folder))
    except Unsound:
        # while a new file is first made it is no database yet, except to the program
        if not is_new:
            raise
        found = {}
    for place, live in enumerate(states):
        if differ(tables_of(live), found) is None:
            return place
    raise Unexplained(
        f"the file holds what no first part of the requests leaves: {differ(tables_of(states[0]), found)}"
    )


def repeated(program, db, folder, live):
    """Each accepted change that is sent again has its first reply, and changes nothing."""
    lines = [line for tenant in live.values() for line, _ in tenant.receipts.values()]
    replies, after = played(lines, live)
    ran = run_over(program, db, script_of(lines))
    if (ran.returncode, ran.stdout, ran.stderr) != (0, script_of(replies), b""):
        raise Unexplained(f"{len(lines)} repeats end with status {ran.returncode}, or have other replies than at first")
    found_in(db, folder, [after], False)


def rounds(program, kill, drawn, count, whole, tenants=TENANTS, calls=CALLS, find=found_in):
    """Kills so many runs over one file one after another, each of so many calls of these tenants,
    begun with the requests that had no reply. kill: plays lines for so long at most; find: says
    which tenants the file holds. Returns the history, which the definition has explained."""
    history, live, again = History(), {}, []
    with tempfile.TemporaryDirectory() as folder:
        db = pathlib.Path(folder, "t.db")
        for place in range(count):
            lines = again + drawn_calls(drawn, tenants, calls - len(again), live, place * calls)
            replies, most = kill(program, db, lines, drawn.uniform(0, whole))
            states = may_leave(live, lines, replies, most)
            more = find(db, folder, states, not history.kept) if db.exists() else 0
            history.add(lines, replies, more)
            again, live = lines[len(replies) :][:most], states[more]
        repeated(program, db, folder, live)
    history.explain(live)
    return history


def whole_time(program, kill, drawn):
    """How long a run takes that isn't killed: the longest of three."""
    longest = 0.0
    for _ in range(3):
        with tempfile.TemporaryDirectory() as folder:
            start = time.perf_counter()
            replies, _ = kill(program, pathlib.Path(folder, "t.db"), drawn_calls(drawn, TENANTS, CALLS, {}, 0), SECONDS)
            longest = max(longest, time.perf_counter() - start)
            if len(replies) != CALLS:
                raise Unexplained(f"a run that isn't killed has {len(replies)} replies")
    return longest
