"""The program as a server with one allocation after another refused, while a client sends a whole
stream of requests over one connection."""
import pathlib
import socket
import tempfile

from model.definition import tables_of
from allocations.refused_cases import file_of_two, judged, replies_unlike
from allocations.refused_runs import said
from allocations.refusing import ALL, EARLY, Run, allocations_of, chosen_of, refusing, side_by_side
from model.messages import NO_MEMORY, short
from server.served import Server, Unserved, message, replies_on
from files.stored import copy_to, differ, held

BUSY = (1, b"", b"crushcalc: cannot listen\n")


def replies_to(server, lines):
    """The replies on one connection; none where the server ends before it takes it."""
    found = []
    try:
        with server.connect() as connection:
            connection.sendall(b"".join(message(it) for it in lines))
            connection.shutdown(socket.SHUT_WR)
            found = replies_on(connection)[0]
    except OSError:
        pass
    return found


def run_of(program, db, lines, allocation, many):
    """A server that takes one connection, with an allocation refused, and so many in a row: its
    replies in the place of its standard output."""
    while True:
        try:
            with Server(program, db, "--connections", "1", **refusing(allocation, 2, many)) as server:
                found = replies_to(server, lines)
                status, _, err = server.ended()
            break
        except Unserved as error:
            if error.end is None:
                raise
            status, found, err = error.end
            # another run took the port
            if error.end != BUSY:
                break
    return Run(allocation, status, found or [], err.replace(b"\0", b""), 0 if b"\0" in err else None)


def run_on_copy(program, db, lines, allocation, many=1):
    """The same over a copy of a file, and what the copy then holds."""
    with tempfile.TemporaryDirectory() as folder:
        to = copy_to(db, folder)
        return run_of(program, to, lines, allocation, many), held(to)


def fault_of(run, lines, live, many):
    """Why the replies of a server aren't those that it may give, or None; and the tenants that the
    file then has to hold."""
    early = (run.status, run.err) == EARLY and run.mark is not None
    if early and not run.out:
        return None, live
    # where the closing found no memory all requests were served
    if (run.status, run.err) != (0, b"") and not early:
        return f"status {run.status}, standard error {short(run.err)}, after {len(run.out)} replies", live
    if len(run.out) != len(lines):
        return f"{len(run.out)} replies to {len(lines)} requests; standard error {short(run.err)}", live
    refused = [place for place, reply in enumerate(run.out) if reply == NO_MEMORY]
    most = len(lines) if many == ALL else many
    if len(refused) > (0 if run.mark is None or early and many == 1 else most):
        return f"the replies {refused} are 503", live
    return replies_unlike(run.out, lines, live)


def served(program, count, name, lines, many=1):
    """Why a server over a file that has tenants, with one allocation after another refused, answers
    otherwise than it may, or None."""
    with tempfile.TemporaryDirectory() as source:
        db = pathlib.Path(source, "t.db")
        live = file_of_two(program, db)
        total = allocations_of(lambda allocation: run_on_copy(program, db, lines, allocation)[0])

        def why_not(allocation):
            run, rows = run_on_copy(program, db, lines, allocation, many)
            why, after = fault_of(run, lines, live, many)
            why = why or differ(tables_of(after), rows)
            return why and f"{said(allocation, total, many)}: {why}", NO_MEMORY in run.out

        return judged(f"{name}, served", total, side_by_side(why_not, chosen_of(total, count)))
