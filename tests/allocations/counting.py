"""Scripts whose requests are counted one by one, by the library that requests.c is compiled to: how
many allocations each made, and how many bytes were in use at its reply; or with two allocations
in a row refused in each second one."""
import collections
import contextlib
import os
import subprocess
import tempfile

from allocations.refusing import Unfit, compiled
from model.messages import short

SECONDS = 600

# of a request: its reply, how many allocations it made, and the bytes in use when it is written
Counted = collections.namedtuple("Counted", "reply allocations in_use")


@contextlib.contextmanager
def counting(**more):
    """What to start a program with so that its requests are counted, and a function that gives
    their numbers once it has ended: of allocations, and of bytes in use."""
    top, library = compiled("requests")
    with tempfile.TemporaryFile() as said:
        env = {**os.environ, "LD_PRELOAD": library, "REQUESTS_FD": str(said.fileno()), **more}

        def numbers():
            said.seek(0)
            return [tuple(map(int, it.split())) for it in said]

        yield {"cwd": top, "env": env, "pass_fds": [said.fileno()]}, numbers


def counted(program, lines, words=(), refuse_from=None):
    """What each request of a script took. refuse_from: behind so many requests two allocations in a
    row of each second one are refused, from the first, the second and so on."""
    more = {} if refuse_from is None else {"REFUSE_FROM": str(refuse_from)}
    # a file: how an input is read mustn't hang on when it comes
    with counting(**more) as (how, numbers), tempfile.TemporaryFile(buffering=0) as script:
        script.write(b"".join(it + b"\n" for it in lines))
        script.seek(0)
        ran = subprocess.run(
            [program, "script", *words],
            stdin=script,
            stdout=subprocess.PIPE,
            stderr=subprocess.PIPE,
            timeout=SECONDS,
            **how,
        )
        replies, found = ran.stdout.splitlines(), numbers()
    if ran.returncode or ran.stderr or not len(replies) + 1 == len(found) == len(lines) + 1:
        raise Unfit(
            f"status {ran.returncode}, standard error {short(ran.stderr)}, {len(found)} numbers and"
            f" {len(replies)} replies to {len(lines)} lines"
        )
    return [Counted(reply, *it) for reply, it in zip(replies, found)]


def served(program, lines, words=()):
    """The same of requests that are all accepted."""
    found = counted(program, lines, words)
    for line, it in zip(lines, found):
        if not it.reply.startswith(b"2"):
            raise Unfit(f"the reply to {short(line)} is {short(it.reply)}")
    return found
