"""Sessions over one database file, each a script or a server of its own that begins where the one
before has ended."""
import subprocess
import threading

from files.stored import run_over
from model.messages import short
from server.served import Server, Unserved, message, read_reply

MESSAGES, BODY = 10_000, 5_242_880  # of a connection; bytes of a body
SECONDS = 300


class Unplayed(Exception):
    """Why a session has no replies."""


def by_script(program, db, lines):
    ran = run_over(program, db, b"".join(it + b"\n" for it in lines))
    if ran.returncode or ran.stderr:
        raise Unplayed(f"the script ends with status {ran.returncode} and {short(ran.stderr)}")
    return ran.stdout.splitlines()


def batches(lines):
    """The lines of each connection: as many as it may have, and one that is refused by its length
    as the last, since that ends it."""
    batch = []
    for it in lines:
        batch.append(it)
        if len(batch) == MESSAGES or is_too_long(it):
            yield batch
            batch = []
    if batch:
        yield batch


def is_too_long(line):
    return len(line) > BODY and len(line.split(b" ", 2)[2]) > BODY


def by_server(program, db, lines):
    """Over as many connections, one after the other, as such lines need."""
    found = []
    with Server(program, db) as server:
        for it in batches(lines):
            found += over_a_connection(server, it)
        ended = server.stop()
    if ended[1:] != (b"", b""):
        raise Unplayed(f"the server ends with {ended}")
    return found


def over_a_connection(server, lines):
    """The replies to lines that are sent one behind the other while replies are read; of a body
    that is too long only the head is sent."""

    def send():
        try:
            for it in lines:
                whole = message(it)
                connection.sendall(whole[: whole.index(b"\r\n\r\n") + 4] if is_too_long(it) else whole)
        except OSError as error:
            faults.append(error)

    faults, replies = [], []
    with server.connect(SECONDS) as connection, connection.makefile("rb") as stream:
        sender = threading.Thread(target=send, daemon=True)
        sender.start()
        while len(replies) < len(lines) and (reply := read_reply(stream)):
            replies.append(reply[0])
        sender.join(SECONDS)
    if faults:
        raise Unplayed(f"after {len(replies)} of {len(lines)} replies: {faults[0]}")
    return replies


WAYS = {"script": by_script, "server": by_server}
FAULTS = (Unplayed, Unserved, OSError, subprocess.SubprocessError)


def unlike(lines, wanted, found):
    """Which line has another reply than it has to have, or None."""
    for place, (line, want, got) in enumerate(zip(lines, wanted, found), 1):
        if want != got:
            at = next((it for it, (a, b) in enumerate(zip(want, got)) if a != b), min(len(want), len(got)))
            near = slice(max(0, at - 40), at + 60)
            return f"line {place} {short(line[:100])}: byte {at} of its reply, want {want[near]!r}, got {got[near]!r}"
    return None if len(found) == len(lines) else f"there are {len(found)} replies to {len(lines)} lines"
