"""Runs of a program with one of its allocations refused, by the library that refuse.c is compiled
to; and such libraries."""
import collections
import concurrent.futures
import functools
import os
import pathlib
import shutil
import subprocess
import threading

HERE = pathlib.Path(__file__).resolve().parent
MOST, JOBS = 10_000_000, os.cpu_count() or 1
# how many allocations are refused in a row: all that follow
ALL = 0

# how a run ends where an allocation was refused before the first line: status and standard error
EARLY = (1, b"crushcalc: no memory\n")

# allocation: the number of the allocation that was to be refused. mark: how many replies were
# written before it was, or None if none was refused; of a server it is 0 where one was
Run = collections.namedtuple("Run", "allocation status out err mark")


class Unfit(Exception):
    """Why there is no whole sweep to check."""


@functools.lru_cache(maxsize=None)
def compiled(name):
    """The folder to run in, and the path from there of tests/FOLDER/NAME.c compiled (LD_PRELOAD
    splits at blanks and colons)."""
    compiler = next(filter(None, map(shutil.which, ("cc", "gcc", "clang"))), None)
    if compiler is None:
        raise Unfit(
            f"there is no C compiler for {name}.c: install the package gcc, as by 'apt-get install gcc libc6-dev'"
        )
    top = HERE.parent.parent
    (top / "build").mkdir(exist_ok=True)
    library, made = f"build/{name}.so", f"build/{name}.{os.getpid()}-{threading.get_ident()}.so"
    ran = subprocess.run(
        [compiler, "-O1", "-fPIC", "-shared", "-o", made, str(next(HERE.parent.glob(f"*/{name}.c"))), "-ldl"],
        cwd=top,
        stderr=subprocess.PIPE,
    )
    if ran.returncode != 0:
        raise Unfit(
            f"{compiler} doesn't compile {name}.c (are the packages gcc and libc6-dev installed?):"
            f" {ran.stderr.decode(errors='replace').strip()[:200]}"
        )
    os.replace(top / made, top / library)
    return top, library


def refusing(allocation, mark, many=1):
    """The folder and the environment of a run with this allocation refused, if it comes to it, and
    with `many` in a row from there on (ALL: all that follow). At the first a zero byte goes to the
    file descriptor `mark`."""
    top, library = compiled("refuse")
    asked = {"LD_PRELOAD": library, "REFUSE_AT": str(allocation), "REFUSE_MANY": str(many), "REFUSE_FD": str(mark)}
    return {"cwd": top, "env": {**os.environ, **asked}}


def refused_run(command, allocation, mark, seconds, stdin=None, many=1):
    """Runs a command with this allocation refused, and so many in a row."""
    refused = refusing(allocation, mark, many)
    return subprocess.run(
        command, stdin=stdin, stdout=subprocess.PIPE, stderr=subprocess.PIPE, timeout=seconds, **refused
    )


def allocations_of(run):
    """How many allocations a run makes: the greatest number that meets a refusal."""
    least, most = 0, 1
    while run(most).mark is not None:
        least, most = most, 2 * most
        if most > MOST:
            raise Unfit("more allocations than are counted")
    while most - least > 1:
        middle = (least + most) // 2
        least, most = (middle, most) if run(middle).mark is not None else (least, middle)
    if least == 0:
        raise Unfit(
            "no allocation was refused: is the program linked statically, or does it take its memory from elsewhere"
            " than malloc?"
        )
    return least


def chosen_of(total, count):
    """Of so many allocations as many as are to be refused, spread over all of them (0: each), and
    the first that isn't made."""
    if count == 0 or total < count:
        return range(1, total + 2)
    return [*sorted({1 + place * (total - 1) // (count - 1) for place in range(count)}), total + 1]


def side_by_side(act, numbers, jobs=JOBS):
    """What comes of this on each of the numbers, in their order."""
    with concurrent.futures.ThreadPoolExecutor(jobs) as pool:
        return list(pool.map(act, numbers))
