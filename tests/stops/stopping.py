"""Sessions of the built program, as a script or as a server, in which each call on its file, on its
log or on their folder fails from some call on, or the program is killed at that call: by the
library that stop.c is compiled to. And how such a session ended."""
import collections
import os
import pathlib
import signal
import subprocess
import tempfile

from model.histories import Unexplained
from stops.killed import script_of, talked
from allocations.refusing import compiled
from model.messages import short
from server.served import Server, Unserved
from files.stored import SECONDS, STORE_FAULT

FAILED = b'503 {"error":"store_failed"}'
# what is stopped, by what is added to the path of the file; the folder has that of the file
FILES = {"file": "", "log": "-wal", "journal": "-journal", "folder": "/.."}
WRITES, REPLY = ("write", "pwrite"), "reply"
FRAME = 4120  # bytes of a page in the log
NEVER = -1

# calls: how many on what is stopped are made before; bytes: how many are written of the call after
# them, if it is a write of more; kills: whether the program is then killed, or each call fails
Stop = collections.namedtuple("Stop", "what calls bytes kills")
# a session: its status, whole replies and standard error; the name and the bytes of each of its
# calls on what is stopped, those that failed too; and how many of them came before the first reply
# and after the last
Session = collections.namedtuple("Session", "status replies err calls opening closing")
# how it ended, the replies of the calls that are acknowledged, and how many calls may be done
# beside these
Ended = collections.namedtuple("Ended", "how acknowledged most")


def named(stop):
    """A stop in words."""
    at = f"call {stop.calls}" + (f", of which {stop.bytes} bytes are written" if stop.bytes else "")
    return f"{'killed' if stop.kills else 'failing'} from {at} of the {stop.what} on"


def stopping(db, stop, trace):
    """The folder, the environment and the files of a run with this stop."""
    top, library = compiled("stop")
    file = os.path.normpath(f"{db}{FILES[stop.what]}")
    words = {
        "LD_PRELOAD": library,
        "STOP_FILE": file,
        "STOP_AT": str(stop.calls),
        "STOP_BYTES": str(stop.bytes),
        "STOP_FD": str(trace.fileno()),
    }
    return {
        "cwd": top,
        "env": {**os.environ, **words, **({"STOP_KILLS": "1"} if stop.kills else {})},
        "pass_fds": (trace.fileno(),),
    }


def session_of(status, replies, err, trace):
    """A session with what stop.c has written of it."""
    trace.seek(0)
    noted = [(name, int(bytes)) for name, bytes in (line.split() for line in trace.read().decode().splitlines())]
    at = [place for place, (name, _) in enumerate(noted) if name == REPLY] or [0]
    return Session(status, replies, err, [it for it in noted if it[0] != REPLY], at[0], len(noted) - at[-1] - 1)


def real(db):
    """The path of a file without links, as the program opens it."""
    return pathlib.Path(os.path.realpath(db))


def script_stopped(program, db, lines, stop):
    """The session of a script under a stop."""
    with tempfile.TemporaryFile() as trace:
        how = stopping(real(db), stop, trace)
        ran = subprocess.run(
            [program, "script", "--db", str(real(db))],
            input=script_of(lines),
            stdout=subprocess.PIPE,
            stderr=subprocess.PIPE,
            timeout=SECONDS,
            **how,
        )
        return session_of(ran.returncode, ran.stdout.split(b"\n")[:-1], ran.stderr, trace)


def server_stopped(program, db, lines, stop):
    """The session of a server under a stop, whose client waits for each reply. It is ended when
    all are there, unless it ended by itself; of its 503s for want of the store one is kept."""
    with tempfile.TemporaryFile() as trace:
        replies = []
        try:
            with Server(program, real(db), **stopping(real(db), stop, trace)) as server:
                replies, _ = talked(server, lines, 1)
                failed = replies.index(FAILED) if FAILED in replies else len(replies)
                status, out, err = server.stop() if failed == len(replies) else server.ended()
        except Unserved as error:
            if error.end is None:
                raise
            (status, out, err), failed = error.end, 0
        if out or replies[failed:] != [FAILED] * (len(replies) - failed):
            raise Unexplained(
                f"the server has written {out!r}, or answers {replies[failed:]} once its store has failed"
            )
        return session_of(status, replies[: failed + 1], err, trace)


def ended(session, lines):
    """How a session of these requests ended. An opening that is refused makes no call; where the
    store fails for good, the call that met it is answered 503 and is the last one."""
    status, replies, err = session.status, session.replies, session.err
    if (status, err) == (-signal.SIGKILL, b""):
        return Ended("killed", replies, 1)
    if (status, err) == (0, b"") and len(replies) == len(lines):
        return Ended("without effect", replies, 0)
    if (status, err) == (1, STORE_FAULT) and replies[-1:] == [FAILED]:
        return Ended("answered 503", replies[:-1], 1)
    if (status, err) == (1, STORE_FAULT) and not replies:
        return Ended("refused before the first line" if lines else "refused", replies, 0)
    if (status, err) == (1, STORE_FAULT) and len(replies) == len(lines):
        return Ended("refused after the last line", replies, 0)
    raise Unexplained(
        f"a session of {len(lines)} requests ends with status {status}, {short(err)}, and has {len(replies)} replies"
    )


def parts_of(bytes, is_whole, place):
    """How many bytes are written of a write in part: few, half of them, all but one, and whole
    pages of a log; of these one by its place, or each."""
    parts = sorted({1, bytes // 2, bytes - 1, *range(FRAME, min(bytes, 20 * FRAME), FRAME)})
    return parts if is_whole else [parts[place % len(parts)]]


def stops_of(what, calls, is_whole):
    """The stops of a session that has these calls where it isn't stopped: before each, past the
    last, and amid each write."""
    for kills in (False, True):
        for place in range(len(calls) + 1):
            yield Stop(what, place, 0, kills)
        for place, (name, bytes) in enumerate(calls):
            if name in WRITES and bytes > 1:
                yield from (Stop(what, place, part, kills) for part in parts_of(bytes, is_whole, place))
