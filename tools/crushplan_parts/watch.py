"""The watch over a cluster from within its manager: which health checks it has, computed anew when
something changed that they come from."""
import json
import shutil

from . import health
from .faults import Fault
from .from_manager import Dumps


class Folder:
    """A folder of dumps that is there while it is used."""

    def __init__(self, path):
        self.path = path

    def __enter__(self):
        shutil.rmtree(self.path, ignore_errors=True)  # a manager that was killed leaves it
        self.path.mkdir(parents=True)
        return self.path

    def __exit__(self, *_):
        shutil.rmtree(self.path, ignore_errors=True)


class Watch:
    """What is watched. `asked` takes the words of a command, and returns what crushplan writes;
    `folder` is where the dumps go."""

    def __init__(self, asked, folder):
        self.asked, self.folder = asked, folder
        self.first, self.mark, self.checks = None, None, {}

    def look(self, module, types, own, with_uncomputed):
        """Returns the health checks, computed anew where the cluster or what is asked for isn't
        what it was. `own` is what else an answer comes from. Where there is none, the others stay
        as they were last known."""
        dumps, asked = Dumps(module), (tuple(types), tuple(own), with_uncomputed)
        first = (dumps.first_mark(), asked)
        if first == self.first:
            return self.checks
        mark = (dumps.mark(), asked)
        if mark != self.mark:
            self.checks, self.mark = self.computed(dumps, types, with_uncomputed, mark)
        self.first = first if self.mark else None
        return self.checks

    def computed(self, dumps, types, with_uncomputed, mark):
        """Returns the checks, and the mark by which they hold; without an answer none."""
        try:
            return self.answered(dumps, types, with_uncomputed), mark
        except Fault as fault:
            known = {name: it for name, it in self.checks.items() if name != health.PROGRAM}
            return {**known, **health.failed(str(fault))}, None

    def answered(self, dumps, types, with_uncomputed):
        if not types:
            return {}
        with Folder(self.folder) as folder:
            dumps.write(folder)
            each = [f"--each={it}" for it in types]
            said = json.loads(self.asked(["metrics", "--json", *each, str(folder)]))
        return health.checks_of(said, with_uncomputed)
