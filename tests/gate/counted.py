"""Counts of checks: passed, failed, and skipped, which could not be tried on this machine."""


class Untried(Exception):
    """Why a check can't be tried on this machine."""


class Counts:
    def __init__(self):
        self.passed = self.failed = self.skipped = 0

    def add(self, name, check, *faults):
        """Runs a check, which gives why it fails, or None; these faults are failures too."""
        try:
            why = check()
        except Untried as reason:
            self.skipped += 1
            print(f"SKIPPED {name}: {reason}", flush=True)
            return
        except faults as error:
            why = f"{type(error).__name__}: {error}"
        self.passed, self.failed = self.passed + (why is None), self.failed + (why is not None)
        if why is not None:
            print(f"FAIL {name}: {why}", flush=True)

    def end(self):
        """Prints the line of counts; gives the exit status."""
        skipped = f", {self.skipped} skipped" if self.skipped else ""
        print(f"{self.passed} passed, {self.failed} failed{skipped}")
        return 1 if self.failed or not self.passed + self.skipped else 0
