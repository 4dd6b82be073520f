"""A real cluster whose manager has the module crushplan, and what is asked of both: the module, and
crushplan on the dumps that it fetches itself."""
import base64
import json
import pathlib
import re
import subprocess
import sys
import time

HERE = pathlib.Path(__file__).resolve().parent
TOP = HERE.parent.parent
sys.path.insert(0, str(HERE.parent / "cluster"))
import real  # noqa: E402
import steps  # noqa: E402

CRUSHPLAN, MODULE = TOP / "tools" / "crushplan", TOP / "tools" / "mgr" / "crushplan"
# those that are always on aren't there: the manager says so, and starts in a quarter of the time
OTHERS = ["prometheus"]
# what that imports in later releases
LATER = ("object_format.py", "cherrypy_mgr.py", "orchestrator")
OTHERS += [it for it in LATER if (real.MODULES / LATER[0]).exists() and (real.MODULES / it).exists()]
HOSTS, OF_HOST = 4, 2
SECONDS = 300
INTERVAL = 2  # seconds between two looks of the module
# of a line of a check: a bucket that can't fail, with its numbers
HARM = re.compile(
    r"(?P<type>\w+) (?P<name>\S+): "
    r"(?:(?P<stops>[\d,]+) groups? would stop while it is down)?(?:; )?"
    r"(?:(?P<missing>[\d,]+) (?:copy|copies) would have no device once it is out)?(?:; )?"
    r"(?:(?P<full>[\d,]+) devices? would be past backfill-full once it is out, "
    r"the fullest (?P<fullest>\S+) at (?P<used>[\d.]+)%)?"
)


class Wrong(Exception):
    """Says what isn't as it has to be."""


def equals(what, here, wanted):
    if here != wanted:
        raise Wrong(f"{what}: {str(here)[:600]}, wanted {str(wanted)[:600]}")


def number(text):
    return int((text or "0").replace(",", ""))


def parts_of(check):
    summary, lines = check["summary"], [it["message"] for it in check["detail"]]
    return summary["count"], summary["message"], lines, check["muted"]


class Managed:
    """The cluster with its module. `program` is the crushcalc that both ask."""

    def __init__(self, cluster, program, folder):
        self.cluster, self.program, self.folder, self.count = cluster, program, folder, 0

    def prepare(self):
        """Gives the cluster hosts, pools and objects, and enables the module."""
        told = self.cluster.told
        for device in range(HOSTS * OF_HOST):
            place = ["root=default", f"host=host{device // OF_HOST}"]
            told("osd crush create-or-move", id=device, weight=1.0, args=place)
        told("osd crush rule create-replicated", name="hosts", root="default", type="host")
        self.make_pool("photos", 64, 3)
        self.cluster.settled()
        self.cluster.write("photos", [(f"photo-{it}", 400_000) for it in range(120)])
        self.cluster.settled()
        self.enable("crushplan")
        for name, value in (("program", self.program), ("interval", INTERVAL), ("watch_seconds", 120)):
            self.set(name, value)

    def make_pool(self, name, groups, size):
        told = self.cluster.told
        numbers = {"pg_num": groups, "pgp_num": groups, "size": size}
        told("osd pool create", pool=name, pool_type="replicated", rule="hosts", **numbers)
        told("osd pool application enable", pool=name, app="test", yes_i_really_mean_it=True)

    def remove_pool(self, name):
        self.cluster.told("osd pool delete", pool=name, pool2=name, yes_i_really_really_mean_it=True)

    def set(self, name, value):
        """Sets an option of the module."""
        self.cluster.told("config set", who="mgr", name=f"mgr/crushplan/{name}", value=str(value))

    def enable(self, module):
        """Enables a module, and waits until the manager that starts again has it."""
        self.cluster.told("mgr module enable", module=module)
        self.await_active()

    def await_active(self):
        def active():
            try:
                said = self.cluster.asked("mgr dump")
                return said["available"] and self.ask("check")[0] == 0
            except real.Failed:
                return False

        real.awaited(active, "the manager with its module")

    # ---- commands

    def ask(self, command, given=b"", **words):
        """Returns the status of a command of the module, and what it says."""
        request = {"to": "mgr", "command": {"prefix": f"crushplan {command}", **words}}
        said = self.cluster.answer({**request, "input": base64.b64encode(given).decode()})
        return said["status"], base64.b64decode(said["out"]).decode() or said["said"]

    def fetch(self):
        """Returns a folder with the dumps that crushplan fetches, by the same commands of `ceph`,
        and quicker."""
        self.count += 1
        folder = self.folder / f"fetched-{self.count}"
        folder.mkdir()
        for name, (to, prefix, more) in steps.DUMPS.items():
            (folder / name).write_text(self.cluster.told(prefix, to, format="json", **more))
        return folder

    def fetch_by_crushplan(self):
        """Returns a folder with dumps that crushplan itself fetched."""
        self.count += 1
        folder = self.folder / f"fetched-{self.count}"
        status, _, err = self.run("fetch", folder, "--ceph", f"ceph -c {self.cluster.conf}")
        if status:
            raise real.Failed(f"crushplan fetch: {err}")
        (folder / "map.txt").unlink()
        return folder

    def run(self, *words, program=None, given=None):
        """Returns the status, standard output and standard error of crushplan itself."""
        name, *rest = map(str, words)
        own = [] if name == "fetch" else ["--program", str(program or self.program)]
        how = {"stdout": subprocess.PIPE, "stderr": subprocess.PIPE, "timeout": SECONDS}
        ran = subprocess.run([str(CRUSHPLAN), name, *rest, *own], input=given, **how)
        return ran.returncode, ran.stdout.decode(), ran.stderr.decode()

    # ---- health

    def checks(self):
        """Returns the module's own health checks, by name: count, summary and lines."""
        said = self.cluster.asked("health", detail="detail")["checks"]
        own = {name.removeprefix("CRUSHPLAN_"): it for name, it in said.items() if name.startswith("CRUSHPLAN_")}
        return {name: parts_of(it) for name, it in own.items()}

    def await_check(self, name, wanted):
        """Waits until a check is as wanted, by a function that takes it, or None where it isn't
        there; returns it."""

        def found():
            it = self.checks().get(name)
            return (it,) if wanted(it) else None

        try:
            return real.awaited(found, f"CRUSHPLAN_{name} as wanted")[0]
        except real.Failed:
            raise Wrong(f"CRUSHPLAN_{name} is {self.checks().get(name)}") from None

    def foretold(self):
        """Returns the failures that do harm by crushplan on fetched dumps, the worst first: the
        host, groups that stop, copies without a device, devices that are too full."""
        status, out, err = self.run("fail", self.fetch(), "--each", "host", "--json")
        said = json.loads(out)
        rows = [it for it in said["each"] if it["status"] == 1]
        return [(it["name"], it["below_min_size"], it["missing_copies"], it["too_full"]) for it in rows]

    def said(self):
        """Returns the same by the check CRUSHPLAN_CANT_FAIL; its count has to be their number."""
        it = self.checks().get("CANT_FAIL")
        if it is None:
            return []
        found = [HARM.fullmatch(line) for line in it[2]]
        equals("the count, and lines that are understood", (it[0], all(found)), (len(it[2]), True))
        return [(of["name"], *(number(of[name]) for name in ("stops", "missing", "full"))) for of in found]

    def await_foretold(self, are_some):
        """Waits until the check says what crushplan foretells, which are some failures, or none."""
        end = time.monotonic() + real.PATIENCE
        while True:
            wanted, here = self.foretold(), self.said()
            if bool(wanted) == are_some and wanted == here:
                return wanted
            if time.monotonic() > end:
                raise Wrong(f"the check says {here}, and crushplan {wanted}")
            time.sleep(1)

    # ---- processes

    def processes_of(self, program):
        """Returns the processes that name a program of the test's folder."""
        found, word = [], str(self.folder / program).encode()
        for it in pathlib.Path("/proc").glob("[0-9]*/cmdline"):
            try:
                found += [it] if word in it.read_bytes() else []
            except OSError:
                continue  # it has ended
        return found
