"""`ceph crushplan ..` answers as crushplan does, from what the manager knows of its cluster, and
health checks say which failures that wouldn't bear.

Nothing is computed in the manager: crushplan runs beside it, as a process of its own at a low
priority, and ends with this module.
"""
import errno
import itertools
import pathlib
import shutil
import sys
import threading

import mgr_module
from mgr_module import HandleCommandResult, MgrModule, Option

HERE = pathlib.Path(__file__).resolve().parent
# where crushplan and its parts are: in a checkout, by a package, and by 'make install'
PLACES = [(HERE.parent.parent / "crushplan", HERE.parent.parent)]
PLACES += [(pathlib.Path(it, "bin/crushplan"), pathlib.Path(it, "share/crushcalc")) for it in ("/usr", "/usr/local")]
CRUSHPLAN, PARTS = next((it for it in PLACES if (it[1] / "crushplan_parts").is_dir()), PLACES[1])
sys.path.append(str(PARTS))

from crushplan_parts import arguments, health  # noqa: E402
from crushplan_parts.faults import Fault, NoAnswer  # noqa: E402
from crushplan_parts.from_manager import Dumps  # noqa: E402
from crushplan_parts.runs import Runs  # noqa: E402
from crushplan_parts.watch import Folder, Watch  # noqa: E402

MANY = ",n=N"
# the priorities of what an operator waits for, and of what nobody does
SOON, LATER = 5, 19
FORMS = {"plain": [], "json": ["--json"], "json-pretty": ["--json"]}


class Command:
    """A command of crushplan as one of `ceph`: words that stand by themselves, options that have a
    value, and flags. `reads` is whether it takes a file, by `-i FILE`; `own` are options that it
    always has."""

    def __init__(self, name, words=(), options=(), flags=(), reads=False, own=()):
        self.name, self.words, self.options, self.flags, self.reads = name, words, options, flags, reads
        self.own = own

    def declared(self):
        """Returns the command as the manager declares it."""
        parts = [f"name={it},type=CephString,req=false" for it in (*self.words, *self.options)]
        parts += [f"name={it},type=CephBool,req=false" for it in self.flags]
        return {"cmd": " ".join([f"crushplan {self.name}", *parts]), "desc": self.help(), "perm": "r"}

    def help(self):
        what = arguments.COMMANDS[self.name][0]
        return f"{what}{' (-i FILE)' if self.reads else ''}"

    def asked(self, given, folder):
        """Returns crushplan's words. None that is given can become another option: each is a value,
        or stands behind all options."""
        options = [f"--{dashed(name)}={it}" for name, it in values_of(given, self.options)]
        flags = [f"--{dashed(name)}" for name in map(plain, self.flags) if given.get(name)]
        words = [it for _, it in values_of(given, self.words)] + ["-"] * self.reads
        return [self.name, *self.own, *options, *flags, str(folder), "--", *words]


def plain(name):
    """Returns the name of a word or option that may stand several times."""
    return name.partition(",")[0]


def dashed(name):
    """Returns an option of crushplan by its name in commands of the manager, which have no dash."""
    return name.replace("_", "-")


def values_of(given, names):
    """Yields the values that names have, each with its name."""
    for name in map(plain, names):
        value = given.get(name)
        for it in value if isinstance(value, list) else [] if value is None else [value]:
            yield name, str(it)


COMMANDS = (
    Command("check"),
    Command("drain", ["names" + MANY], ["class", "by"], ["groups"]),
    Command("fail", ["names" + MANY], ["class", "each", "by"], ["groups"]),
    Command("usage", [], ["pool" + MANY, "by"], ["groups"]),
    Command("locate", ["pool", "objects" + MANY], ["group" + MANY]),
    Command("upmap", reads=True),
    Command("plan", [], ["rate"], ["orders", "groups"], reads=True, own=["--no-files"]),
    Command("balance", ["names" + MANY], ["class", "deviation", "moves", "until_fill", "for_bytes"], ["primaries"]),
)


def option(name, default, kind, desc, **bounds):
    """Returns an option that may change while the module runs. The parameters of Option have other
    places from release to release: each is named."""
    return Option(name=name, default=default, type=kind, desc=desc, runtime=True, **bounds)


class Module(MgrModule):
    COMMANDS = [it.declared() for it in COMMANDS]
    if hasattr(mgr_module, "CLICommandBase"):  # from release 20 on a module has to have its own, which is empty here
        CLICommand = mgr_module.CLICommandBase.make_registry_subtype("CrushplanCommand")
    NOTIFY_TYPES = []  # it asks by itself
    MODULE_OPTIONS = [
        option("program", "", "str", "the crushcalc to ask; by itself that beside crushplan or on PATH"),
        option("service", "", "str", "a server of crushcalc in its place, as http://HOST:PORT"),
        option("types", "host", "str", "of which types each bucket's failure is watched, as host,rack"),
        option("interval", 60, "uint", "how many seconds lie between two looks at the cluster", min=1),
        option("seconds", 60, "uint", "how many seconds a command may take", min=1),
        option("watch_seconds", 900, "uint", "how many seconds a look may take", min=1),
        option("processes", 1, "uint", "how many programs run side by side", min=1, max=4),
        option("uncomputed", False, "bool", "whether pools that aren't computed are a health check"),
    ]

    def __init__(self, *args, **kwargs):
        super().__init__(*args, **kwargs)
        self.ended, self.runs, self.numbers = threading.Event(), Runs(CRUSHPLAN), itertools.count()
        self.folder = pathlib.Path(str(self.get_ceph_option("mgr_data"))) / "crushplan"
        shutil.rmtree(self.folder, ignore_errors=True)  # a manager that was killed leaves it
        self.watch = Watch(lambda words: self.run(words, "watch_seconds", LATER), self.folder / "watch")

    # ---- commands

    def handle_command(self, inbuf, cmd):
        command = next(it for it in COMMANDS if cmd["prefix"] == f"crushplan {it.name}")
        try:
            return HandleCommandResult(0, self.answer(command, cmd, inbuf), "")
        except NoAnswer as fault:
            return HandleCommandResult(-errno.EIO, "", str(fault))
        except Fault as fault:
            return HandleCommandResult(-errno.EINVAL, "", f"refused: {fault}")
        except Exception as error:  # as a disk that is full
            self.log.exception("a command failed")
            return HandleCommandResult(-errno.EIO, "", f"unknown: {type(error).__name__}: {error}")

    def answer(self, command, given, inbuf):
        """Returns what crushplan answers to a command."""
        form = given.get("format") or "plain"
        if form not in FORMS:
            raise Fault(f"crushplan answers plain or json, and not {form}")
        if command.reads and not inbuf:
            raise Fault(f"ceph crushplan {command.name} wants a file, by -i FILE")
        with Folder(self.folder / f"command-{next(self.numbers)}") as folder:
            Dumps(self).write(folder)
            name, *words = command.asked(given, folder)
            out = self.run([name, *FORMS[form], *words], "seconds", SOON, inbuf or "")
        return out.replace("\n\n", "\n \n")  # the manager leaves out empty lines

    def run(self, words, limit, nice, given=""):
        """Returns what crushplan writes, within the seconds of an option."""
        name, *rest = words
        own = [f"--{it}={self.get_module_option(it)}" for it in ("program", "service") if self.get_module_option(it)]
        seconds, processes = (self.get_module_option(it) for it in (limit, "processes"))
        return self.runs.run([name, *own, *rest], seconds, processes, nice, given)

    # ---- health checks

    def serve(self):
        while not self.ended.is_set():
            checks = self.looked()
            if not self.ended.is_set():
                self.set_health_checks(checks)
            self.ended.wait(self.get_module_option("interval"))

    def looked(self):
        """Returns the health checks; whatever goes wrong in a look is one too."""
        types = [it.strip() for it in self.get_module_option("types").split(",") if it.strip()]
        own = [self.get_module_option(it) for it in ("program", "service")]
        try:
            return self.watch.look(self, types, own, self.get_module_option("uncomputed"))
        except Exception as error:
            self.log.exception("a look at the cluster failed")
            return health.failed(f"{type(error).__name__}: {error}")

    def shutdown(self):
        self.ended.set()
        self.runs.end()
