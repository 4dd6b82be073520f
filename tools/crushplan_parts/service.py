"""crushcalc as a service: its script beside this program, or a server (server.py). Each run has a
tenant of its own, which is gone at its end."""
import json
import os
import pathlib
import re
import subprocess
import threading

from .faults import NoAnswer
from .settled import Placement
from .waiting import waiting

MOST_JOBS = 4  # programs side by side
PROCESSORS = len(os.sched_getaffinity(0)) if hasattr(os, "sched_getaffinity") else os.cpu_count() or 1
if os.environ.get("CRUSHPLAN_JOBS", "").isdigit():  # as a manager asks for
    PROCESSORS = max(1, min(PROCESSORS, int(os.environ["CRUSHPLAN_JOBS"])))
JOBS = min(MOST_JOBS, PROCESSORS)
SECONDS = 600  # as long as one run may take
MOST_READ = 2_000  # replies that are read at once
UNPROVED = "unproved"  # a word of the version of a program that was built without proofs


def compact(body):
    return json.dumps(body, separators=(",", ":"))


class Request:
    """A request of a tenant: the path behind its name, the body or None, and whether it changes
    the tenant."""

    __slots__ = ("method", "path", "body")

    def __init__(self, method, path, body=None):
        self.method, self.path, self.body = method, path, body


class Groups:
    """Asks where groups of a pool lie: a request for each, which together have one place, and as
    their reply a list of placements."""

    __slots__ = ("path", "groups")
    method = "GET"

    def __init__(self, pool, groups):
        self.path, self.groups = f"/pools/{pool}/groups/", list(groups)


def get(path):
    return Request("GET", path)


def change(path, **fields):
    """Returns a changing request; its number is given when it is sent."""
    return Request("POST", path, fields)


def numbered(requests):
    """Yields each request's method, path and body, with a number of its own in those that change
    something."""
    for place, it in enumerate(requests):
        if isinstance(it, Groups):
            yield from ((it.method, f"{it.path}{group}", None) for group in it.groups)
        else:
            yield it.method, it.path, sent(place, it)


def sent(place, request):
    """Returns the body of a request, with a number of its own where it changes something, or
    None."""
    body = request.body
    if body is not None and request.path != "/test" and not request.path.endswith("/locate"):
        body = {"request": f"r{place}", **body}
    return None if body is None else compact(body)


def read(status, body, where):
    """Returns a reply's status and its JSON; a Fault where it is no answer."""
    try:
        said = json.loads(body)
    except ValueError:
        raise NoAnswer(f"{where} answers {body[:60]!r}, which isn't crushcalc's") from None
    if status in (500, 501, 503) or not isinstance(said, dict):
        raise NoAnswer(f"{where} answers {status} {said}")
    if said.get("error") in ("no_path", "method"):
        raise NoAnswer(f"{where} doesn't know a request that crushplan needs: it is older than crushplan")
    return status, said


def replies_of(requests, replies, where):
    """Returns the reply of each request: its status and what it says, or the placements of its
    groups; a Fault where one of these is refused."""
    found, left = [], iter(replies)
    for it in requests:
        found.append(
            [placement(it, group, next(left), where) for group in it.groups] if isinstance(it, Groups) else next(left)
        )
    return found


def placement(request, group, reply, where):
    status, said = reply
    if status != 200:
        raise refused(where, request.method, f"{request.path}{group}", status, said)
    return Placement(said["raw"], said["up"], said["primary"])


def refused(where, method, path, status, said):
    """Returns the NoAnswer of a request that a cluster's own tenant doesn't take."""
    return NoAnswer(f"{where} refuses {method} {path} of its own cluster: {status} {said}")


def placements_in(lines):
    """Returns what replies for groups say, or None where not each of them is such a reply. They are
    read together, and some at a time: each by itself would take twice as long, and all at once much
    memory."""
    found = []
    for start in range(0, len(lines), MOST_READ):
        part = b"\n" + b"\n".join(lines[start : start + MOST_READ])
        if part.count(b"\n200 {") != part.count(b"\n"):
            return None
        try:
            for it in json.loads("[" + part[5:].decode().replace("\n200 ", ",") + "]"):
                raw, up = it["raw"], it["up"]
                found.append(Placement(raw, raw if raw == up else up, it["primary"]))
        except (ValueError, KeyError, TypeError):
            return None
    return found if len(found) == len(lines) else None


def unnamed_file():
    """Returns a file without a name, in memory where the system has that. A program writes each
    line by itself, and would wake the reader of a pipe for each."""
    if hasattr(os, "memfd_create"):
        return os.fdopen(os.memfd_create("crushplan"), "w+b")
    import tempfile  # takes a while to read

    return tempfile.TemporaryFile()


class Script:
    """Plays `crushcalc script`."""

    is_parallel, jobs = True, JOBS  # each run asks a process of its own, and so many at once

    def __init__(self, program):
        self.program = program
        self.where = str(program)

    @property
    def spread(self):
        """What shares works out to processes of this machine, as machines.py to others; None where
        there is one processor, or this process has threads, which copies of it wouldn't have."""
        if self.jobs < 2 or threading.active_count() > 1:
            return None
        return self.spread_here

    def spread_here(self, function, shared, parts, done):
        from .processes import spread

        jobs, self.jobs = self.jobs, 1  # each of them asks one program at once
        try:
            return spread(function, shared, parts, done, jobs)
        finally:
            self.jobs = jobs

    def run(self, requests):
        """Answers requests on a new tenant, in order."""
        lines = ["PUT /t/plan"]
        for place, it in enumerate(requests):
            if isinstance(it, Groups):
                start = f"{it.method} /t/plan{it.path}"
                lines += [f"{start}{group}" for group in it.groups]
            else:
                body = sent(place, it)
                lines.append(f"{it.method} /t/plan{it.path}" + (f" {body}" if body else ""))
        return self.read(requests, self.play("\n".join(lines).encode() + b"\n").splitlines())

    def play(self, text):
        """Returns what the program writes of a script: a line for each of its lines."""
        try:
            with unnamed_file() as given, unnamed_file() as out:
                given.write(text)
                given.seek(0)
                ran = subprocess.run(
                    [self.program, "script"], stdin=given, stdout=out, stderr=subprocess.PIPE, timeout=SECONDS
                )
                out.seek(0)
                replies = out.read()
        except OSError as error:
            raise NoAnswer(f"{self.where} can't be run: {error.strerror or error}") from None
        except subprocess.TimeoutExpired:
            raise NoAnswer(f"{self.where} hasn't answered within {SECONDS} seconds") from None
        if ran.returncode != 0 or replies.count(b"\n") != text.count(b"\n"):
            said = ran.stderr.decode(errors="replace").strip().splitlines()[:1]
            raise NoAnswer(
                f"{self.where} isn't a crushcalc that plays scripts, or it failed (status"
                f" {ran.returncode}{': ' + said[0] if said else ''}; its version: {self.version()})"
            )
        return replies

    def read(self, requests, lines):
        """Returns the replies to requests, which are the lines behind the first."""
        found, at = [], 1
        for it in requests:
            size = len(it.groups) if isinstance(it, Groups) else 1
            own, at = lines[at : at + size], at + size
            said = placements_in(own) if isinstance(it, Groups) else None
            found += (
                [said] if said is not None else replies_of([it], [self.read_line(line) for line in own], self.where)
            )
        return found

    def read_line(self, line):
        status, body = line[:3], line[4:].decode(errors="replace")
        return read(int(status) if status.isdigit() else 0, body, self.where)

    def end(self):
        """Does nothing: a script's tenant ends with its process."""

    def version(self):
        """Returns what the program says of its version, or that it says nothing."""
        words = self.version_words()
        return " ".join(words[:2])[:60] + (" (unproved)" if UNPROVED in words else "") or "unknown"

    def version_words(self):
        try:
            ran = subprocess.run(
                [self.program, "--version"],
                stdin=subprocess.DEVNULL,
                stdout=subprocess.PIPE,
                stderr=subprocess.DEVNULL,
                timeout=10,
            )
        except (OSError, subprocess.TimeoutExpired):
            return []
        return re.findall(r"[^\s(),:;]+", ran.stdout.decode(errors="replace"))

    def words(self):
        """Returns which program answers, in words."""
        return self.version()

    def is_unproved(self):
        """Returns whether the program says of itself that it is unproved."""
        return UNPROVED in self.version_words()


def found_program(given, beside):
    """Returns the path of crushcalc: the one that is given, the one beside this program, or the
    one on PATH."""
    if given:
        path = pathlib.Path(given)
        if not path.is_file() or not os.access(path, os.X_OK):
            raise NoAnswer(f"--program {given}: there is no program there")
        return path.resolve()
    for path in beside:
        if path.is_file() and os.access(path, os.X_OK):
            return path
    path = next(
        (
            it
            for it in map(lambda folder: os.path.join(folder, "crushcalc"), os.get_exec_path())
            if os.path.isfile(it) and os.access(it, os.X_OK)
        ),
        None,
    )
    if path:
        return pathlib.Path(path)
    raise NoAnswer(
        "crushcalc isn't there: neither beside crushplan nor on PATH. Build it by 'make', or unproved by 'make try',"
        " install it by 'make install', or name it by --program FILE, or a server by --service URL."
    )


def side_by_side(client, works):
    """Does works, functions without arguments, side by side where each asks a process of its
    own."""
    if not client.is_parallel or len(works) < 2:
        return [it() for it in works]
    found, faults, left = [None] * len(works), [], iter(enumerate(works))
    lock = threading.Lock()

    def work():
        while not faults:
            with lock:
                place, own = next(left, (None, None))
            if own is None:
                return
            try:
                found[place] = own()
            except BaseException as error:  # the first is raised again below
                faults.append(error)

    # nobody waits for them where the program is interrupted
    threads = [threading.Thread(target=work, daemon=True) for _ in range(min(client.jobs, len(works)))]
    for it in threads:
        it.start()
    for it in threads:
        it.join()
    if faults:
        raise faults[0]
    return found


class Later(threading.Thread):
    """Does a work, a function without arguments, while the program goes on."""

    def __init__(self, work):
        super().__init__(daemon=True)
        self.work, self.found, self.fault = work, None, None
        self.start()

    def run(self):
        try:
            self.found = self.work()
        except BaseException as error:  # it is raised again by whoever asks for the result
            self.fault = error

    def result(self):
        """Waits for the end of the work, and returns what it returned."""
        self.join()
        if self.fault is not None:
            raise self.fault
        return self.found


def at_once(client, runs):
    """Answers several runs, side by side where that can be."""

    def answered(requests):
        waiting.ask(len(requests))
        replies = client.run(requests)
        waiting.take(len(requests))
        return replies

    return side_by_side(client, [lambda it=it: answered(it) for it in runs])
