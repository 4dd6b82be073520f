"""crushplan in processes of its own beside a manager: at a lower priority, for so many seconds at
most, and ended with the manager's module."""
import os
import signal
import subprocess
import threading
import time

from .faults import Fault, NoAnswer

WRITING = 10  # seconds in which a search that is told to end writes what it found
LATE = WRITING + 5  # seconds that a process may take to end once it was told to
ANSWERED = (0, 1, 2)  # the statuses of crushplan
# the statuses of one whose time is over, by timeout
TIMED_OUT = (128 + signal.SIGINT, -signal.SIGINT, 128 + signal.SIGKILL, -signal.SIGKILL)


class Runs:
    """Runs a crushplan, an executable file."""

    def __init__(self, crushplan):
        self.crushplan = crushplan
        self.lock, self.running, self.ended = threading.Lock(), set(), False

    def run(self, words, seconds, jobs=1, nice=0, given=""):
        """Returns what crushplan writes on standard output. A Fault says why it wrote none."""
        start, process = time.monotonic(), self.started(words, seconds, jobs, nice)
        try:
            out, err = process.communicate(given.encode(), timeout=seconds + LATE)
        except subprocess.TimeoutExpired:
            self.kill(process)
            out, err = process.communicate()
        finally:
            with self.lock:
                self.running.discard(process)
        out = out.decode(errors="replace")
        if process.returncode in ANSWERED and is_answer(out):
            return out
        if process.returncode not in ANSWERED:
            self.kill(process)  # of its group something may be left
        is_late = process.returncode in TIMED_OUT and time.monotonic() - start >= seconds
        raise self.fault(process.returncode, seconds if is_late else None, err.decode(errors="replace"))

    def started(self, words, seconds, jobs, nice):
        # timeout ends it also where the manager is killed; at SIGINT a search gives what it found
        ends = ["timeout", "--preserve-status", "--signal=INT", f"--kill-after={WRITING}"]
        limits = [*ends, str(seconds), "nice", "-n", str(nice)]
        how = {**dict.fromkeys(("stdin", "stdout", "stderr"), subprocess.PIPE), "start_new_session": True}
        environment = {**os.environ, "CRUSHPLAN_JOBS": str(jobs), "PYTHONUTF8": "1"}
        with self.lock:
            if self.ended:
                raise NoAnswer("the module is being stopped")
            try:
                process = subprocess.Popen([*limits, str(self.crushplan), *words], env=environment, **how)
            except OSError as error:
                raise NoAnswer(f"{limits[0]} can't be run: {error.strerror or error}") from None
            self.running.add(process)
        return process

    def fault(self, status, seconds, said):
        """Returns the Fault of a process that wrote no answer; `seconds` where it had no more."""
        if self.ended:
            return NoAnswer("the module is being stopped")
        if seconds is not None:
            return NoAnswer(f"crushplan hasn't answered within {seconds} seconds")
        last = (said.strip().splitlines() or [f"crushplan ended with status {status} and said nothing"])[-1]
        # behind the name of the program, or that and its command
        why = last.partition(": error: ")[2] or last.removeprefix("crushplan: ")
        if status not in ANSWERED or why.startswith(NoAnswer.FIRST):
            return NoAnswer(why.removeprefix(NoAnswer.FIRST))
        return Fault(why)

    def kill(self, process):
        """Kills a process with what it started: these are a group of their own."""
        try:
            os.killpg(process.pid, signal.SIGKILL)
        except ProcessLookupError:
            pass  # none is left

    def end(self):
        """Ends all that run, and lets nothing else begin."""
        with self.lock:
            self.ended = True
            for it in self.running:
                self.kill(it)


def is_answer(out):
    """Returns whether crushplan wrote an answer: an object of JSON may have an error in its
    place."""
    is_json = out.startswith('{"crushplan": ')
    return bool(out) and not (is_json and '"error": ' in out.partition('"answer": ')[0])
