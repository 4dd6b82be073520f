"""Scripts in memory and over a copy of a file, with one allocation refused or several in a row, and
what they may answer then."""
import pathlib
import tempfile

from allocations.refused_cases import file_of_two, judged, replies_unlike
from allocations.refusing import ALL, EARLY, Run, allocations_of, chosen_of, refused_run, side_by_side
from files.stored import copy_to, differ, held
from model.definition import tables_of
from model.messages import NO_MEMORY, short

SECONDS = 60


def run_of(words, data, allocation, many):
    """A script of these bytes. Its zero byte goes to standard output, among the replies."""
    # a file: how an input is read mustn't hang on when it comes
    with tempfile.TemporaryFile(buffering=0) as script:
        script.write(data)
        script.seek(0)
        ran = refused_run(words, allocation, 1, SECONDS, stdin=script, many=many)
    before, mark, after = ran.stdout.partition(b"\0")
    return Run(allocation, ran.returncode, before + after, ran.stderr, before.count(b"\n") if mark else None)


def run_in_memory(program, data, options, allocation, many=1):
    return run_of([program, "script", *options], data, allocation, many)


def run_on_copy(program, db, lines, allocation, options=(), many=1):
    """A run over a copy of a file, and what the copy then holds."""
    with tempfile.TemporaryDirectory() as folder:
        to = copy_to(db, folder)
        words = [program, "script", "--db", str(to), *options]
        return run_of(words, b"".join(it + b"\n" for it in lines), allocation, many), held(to)


def may_be_refused(run, lines, many):
    """The places of the lines that may be answered 503."""
    if run.mark is None:
        return range(0)
    return range(run.mark, len(lines) if many == ALL else min(len(lines), run.mark + many))


def fault_over_file(run, lines, live, many=1):
    """Why the replies of a run over a file aren't those that it may give, or None; and the tenants
    that the file then has to hold."""
    replies, early = run.out.split(b"\n")[:-1], (run.status, run.err) == EARLY
    if early and not replies and run.mark == 0:
        return None, live
    within = may_be_refused(run, lines, many)
    # where the closing found no memory all lines were served
    closes = run.mark == len(lines) or many != 1 and within.stop == len(lines)
    if (run.status, run.err) != (0, b"") and not (early and closes):
        return f"status {run.status}, standard error {short(run.err)}, after {len(replies)} replies", live
    if len(replies) != len(lines) or not run.out.endswith(b"\n"):
        return f"{len(replies)} whole replies to {len(lines)} lines", live
    refused = [place for place, reply in enumerate(replies) if reply == NO_MEMORY]
    if not {*refused} <= {*within}:
        return f"the allocation was refused in line {run.mark}, and the replies {refused} are 503", live
    return replies_unlike(replies, lines, live)


def said(allocation, total, many):
    more = {1: "", ALL: " and all that follow"}.get(many, f" and {many - 1} more")
    return f"with allocation {allocation} of {total}{more} refused"


def over_copies(program, db, live, count, name, lines, many=1):
    """Why these lines over a copy of a file with these tenants, with one allocation after another
    refused, go otherwise than they may, or None."""
    total = allocations_of(lambda allocation: run_on_copy(program, db, lines, allocation)[0])

    def why_not(allocation):
        run, rows = run_on_copy(program, db, lines, allocation, many=many)
        why, after = fault_over_file(run, lines, live, many)
        why = why or differ(tables_of(after), rows)
        return why and f"{said(allocation, total, many)}: {why}", NO_MEMORY in run.out

    return judged(f"{name}, over a file", total, side_by_side(why_not, chosen_of(total, count)))


def over_a_file(program, count, name, data, many=1):
    """Why a script over a file that has tenants, with one allocation after another refused, goes
    otherwise than it may, or None."""
    with tempfile.TemporaryDirectory() as source:
        db = pathlib.Path(source, "t.db")
        return over_copies(program, db, file_of_two(program, db), count, name, data.splitlines(), many)


def in_memory(program, count, name, data, many):
    """The same of a script in memory, from nothing."""
    lines = data.splitlines()
    total = allocations_of(lambda allocation: run_in_memory(program, data, (), allocation))

    def why_not(allocation):
        run = run_in_memory(program, data, (), allocation, many)
        replies = run.out.split(b"\n")[:-1]
        if (run.status, run.err) == EARLY and not replies and run.mark == 0:
            return None, False
        refused = [place for place, reply in enumerate(replies) if reply == NO_MEMORY]
        if (run.status, run.err) != (0, b""):
            why = f"status {run.status}, standard error {short(run.err)}, after {len(replies)} replies"
        elif len(replies) != len(lines):
            why = f"{len(replies)} whole replies to {len(lines)} lines"
        elif not {*refused} <= {*may_be_refused(run, lines, many)}:
            why = f"the allocation was refused in line {run.mark}, and the replies {refused} are 503"
        else:
            why, _ = replies_unlike(replies, lines, {})
        return why and f"{said(allocation, total, many)}: {why}", bool(refused)

    return judged(f"{name}, in memory", total, side_by_side(why_not, chosen_of(total, count)))
