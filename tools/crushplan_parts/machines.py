"""crushplan over several machines (`--on`): its runs, and parts of its searches, are tasks of
workers of Dask. What all tasks need of the cluster is sent once to each worker."""
import hashlib
import logging
import pathlib
import pickle
import sys
import urllib.parse
import warnings

from . import machines_probe
from .faults import Fault, NoAnswer, some
from .service import Groups, Script
from .waiting import waiting

SECONDS = 10  # as long as a scheduler, and its first worker, may take to answer
TRIES = 3  # of a task whose worker dies, once more each
OPEN = (
    "without certificates (tcp://) who reaches the scheduler or a worker runs any code there, and who reaches the"
    " network reads the cluster's map"
)


def imported():
    """Returns the module of Dask, which nothing but this needs."""
    try:
        import distributed
    except ImportError:
        raise Fault(
            "--on wants the package distributed of Dask (Debian's python3-distributed, for /usr/bin/python3), which"
            f" {sys.executable} doesn't have"
        ) from None
    # what goes wrong is said below, in a sentence
    logging.getLogger("distributed").setLevel(logging.CRITICAL)
    warnings.filterwarnings("ignore", module=r"(distributed|dask|tornado)\b")
    return distributed


def checked(url):
    """Returns the URL of a scheduler and whether it has certificates."""
    parts = urllib.parse.urlsplit(url)
    try:
        is_whole = parts.scheme in ("tls", "tcp") and parts.hostname and parts.port and not parts.path.strip("/")
    except ValueError:
        is_whole = False
    if not is_whole:
        raise Fault(f"--on {url}: it has to be as tls://HOST:8786")
    return f"{parts.scheme}://{parts.netloc}", parts.scheme == "tls"


def connected(url):
    """Returns a client of the scheduler."""
    url, is_secure = checked(url)
    distributed = imported()
    if not is_secure:
        say(OPEN)
    try:
        security = distributed.Security(require_encryption=True) if is_secure else None
        return distributed.Client(url, security=security, timeout=SECONDS)
    except (OSError, TypeError, ValueError, RuntimeError) as error:
        if is_secure and isinstance(error, (TypeError, ValueError, RuntimeError)):
            why = (
                "its certificates aren't configured: Dask takes them from DASK_DISTRIBUTED__COMM__TLS__CA_FILE,"
                " .._TLS__CLIENT__CERT and .._TLS__CLIENT__KEY, or from its files"
            )
        elif is_secure and isinstance(error, FileNotFoundError):
            why = f"a certificate can't be read: {error}"
        else:
            why = f"no scheduler answers there{', to these certificates' * is_secure}, within {SECONDS} seconds"
        raise NoAnswer(f"--on {url}: {why}") from None


def say(what):
    waiting.clear()
    sys.stderr.write(f"crushplan: {what}\n")


class Machines:
    """Has tasks done by the workers of a scheduler that have the same crushplan and crushcalc."""

    is_parallel = True

    def __init__(self, url, program):
        self.local, self.where = Script(program), f"the workers of {url}"
        self.url, self.program, self.kept = url, program, {}
        waiting.at(f"asking {self.where}")
        self.client = connected(url)
        try:
            self.workers = self.fit_workers()
        except BaseException:
            self.end()
            raise
        self.jobs = sum(self.workers.values())

    def __reduce__(self):
        # at a worker its own program answers
        from .machines_worker import own_script

        return own_script, ()

    def fit_workers(self):
        """Returns the workers that may have tasks, each with how many at once; the others are
        named."""
        import cloudpickle

        cloudpickle.register_pickle_by_value(machines_probe)
        parts = pathlib.Path(__file__).resolve().parent
        expected = machines_probe.digests(parts, pathlib.Path(self.program))
        try:
            self.client.wait_for_workers(1, timeout=SECONDS)
        except TimeoutError:
            raise NoAnswer(f"{self.where}: there are none") from None
        known = self.client.scheduler_info()["workers"]
        found, left_out = {}, []
        for address, why in sorted(self.client.run(machines_probe.probed, expected, on_error="return").items()):
            name = f"{known[address]['name'] if address in known else '?'} ({address})"
            if why is None:
                found[address] = known[address]["nthreads"] if address in known else 1
            else:
                left_out.append(name)
                say(f"the worker {name} is left out: {str(why) or type(why).__name__}")
        if not found:
            raise NoAnswer(
                f"{self.where}: none is left but {some(left_out)}, which"
                f" {'is' if len(left_out) == 1 else 'are'} left out"
            )
        return found

    # ---- tasks

    def run(self, requests):
        """Answers requests on a new tenant, in order, by one task."""
        count = next(
            (place for place, it in enumerate(requests) if isinstance(it, Groups) or not it.body), len(requests)
        )
        from .machines_worker import answered

        return self.taken(self.sent(answered, *self.once(requests[:count]), requests[count:]))

    def spread(self, function, shared, parts, done):
        """Returns what a function makes of each part beside what all share, in their order. `done`
        takes each part that is over."""
        from distributed import as_completed
        from .machines_worker import done as task

        shared = self.once(shared)
        asked = {self.sent(task, function, *shared, part): place for place, part in enumerate(parts)}
        found = [None] * len(asked)
        for it in as_completed(asked):
            found[asked[it]] = self.taken(it)
            done(parts[asked[it]])
        return found

    def once(self, what):
        """Sends something that tasks need, once for the same: workers hand it on to each other.
        Returns a digest of it, and its bytes as a task's result, which is there again where the
        worker that has it dies."""
        from .machines_worker import kept

        data = pickle.dumps(what)
        key = hashlib.sha256(data).hexdigest()
        if key not in self.kept:
            self.kept[key] = self.sent(kept, data)
        return key, self.kept[key]

    def sent(self, function, *given):
        return self.client.submit(function, *given, workers=list(self.workers), retries=TRIES, pure=False)

    def taken(self, future):
        """Returns what a task returned; a Fault where it couldn't."""
        try:
            is_answer, found = future.result()
        except Exception as error:  # as when each of its workers died
            raise NoAnswer(f"{self.where}: a task failed: {type(error).__name__}: {str(error)[:200]}") from None
        if not is_answer:
            raise Fault(found)
        return found

    def end(self):
        """Leaves the scheduler; what is kept at the workers is gone with that."""
        self.kept = {}
        self.client.close(timeout=SECONDS)

    # ---- which program answers: that of this machine, which the workers have too

    def version(self):
        return self.local.version()

    def words(self):
        return self.local.words()

    def is_unproved(self):
        return self.local.is_unproved()
