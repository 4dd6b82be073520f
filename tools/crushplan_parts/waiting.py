"""What a command is at and for how long, on standard error, once it takes longer than two seconds;
nothing where that is no terminal."""
import os
import sys
import threading
import time

AFTER, EACH = 2.0, 0.5  # seconds until the line is shown, and between its changes
BEGIN, CLEAR = "\r", "\033[K"


def is_shown():
    """Returns whether standard error is a terminal on which a line can be written anew."""
    return sys.stderr.isatty() and os.environ.get("TERM") != "dumb"


class Waiting:
    """The line. `what` is what the command is at, in words; while requests are asked these are
    counted."""

    def __init__(self):
        self.what, self.asked, self.answered = "", 0, 0
        self.lock, self.over, self.thread = threading.Lock(), threading.Event(), None
        self.bar, self.written = False, False

    def __enter__(self):
        self.start = time.monotonic()
        if is_shown():
            self.thread = threading.Thread(target=self.work, daemon=True)
            self.thread.start()
        return self

    def __exit__(self, *_):
        self.over.set()
        if self.thread is not None:
            self.thread.join()
        self.clear()

    def work(self):
        while not self.over.wait(EACH):
            passed = time.monotonic() - self.start
            with self.lock:
                if passed >= AFTER and not self.bar:
                    self.write(f"{passed:.0f} s: {self.words()}")

    def words(self):
        if self.asked == self.answered:
            return self.what
        return f"crushcalc has answered {self.answered:,} of {self.asked:,} requests"

    def write(self, text):
        import shutil  # takes a while to read, and is seldom needed

        text = text.encode("ascii", "replace").decode()[: max(shutil.get_terminal_size().columns - 1, 1)]
        sys.stderr.write(f"{BEGIN}{text}{CLEAR}")
        sys.stderr.flush()
        self.written = True

    def clear(self):
        if self.written:
            sys.stderr.write(f"{BEGIN}{CLEAR}")
            sys.stderr.flush()
            self.written = False

    def at(self, what):
        """Says what the command is at now."""
        self.what = what

    def ask(self, count):
        """Counts requests that are sent."""
        with self.lock:
            self.asked += count

    def take(self, count):
        """Counts requests that have their replies."""
        with self.lock:
            self.answered += count

    def give_way(self, to_bar):
        """Leaves the line to a bar of progress, or takes it again."""
        with self.lock:
            self.bar = to_bar
            if to_bar:
                self.clear()


waiting = Waiting()
