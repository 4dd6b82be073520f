"""What a line of a runbook does: a command of Ceph takes the maps that the monitors hold and gives
others, or is refused with Ceph's reason. Each was tried on a real cluster of release 16; the rules
are those of OSDMonitor.cc, which hands the CRUSH map to CrushWrapper.cc (wrapper.py)."""
import re

from .faults import Fault, nearest
from .wrapper import Refused, Unforetold

ID = re.compile(r"(?:osd\.)?(\d{1,9})")
NAME = re.compile(r"[A-Za-z0-9_.-]+")
# options of the command 'ceph' that a value follows, and words that mean that one is sure
VALUED = (
    "-c",
    "--conf",
    "-k",
    "--keyring",
    "-n",
    "--name",
    "--id",
    "--user",
    "--cluster",
    "--connect-timeout",
    "-f",
    "--format",
    "-m",
)
SURE = ("--yes-i-really-mean-it", "--force", "--yes-i-really-really-mean-it")
DEPENDS = "what it does depends on how the cluster is loaded, which no dump says"
# commands that are known, and why what they do isn't foretold
UNFORETOLD = {
    ("osd", "reweight-by-utilization"): DEPENDS,
    ("osd", "reweight-by-pg"): DEPENDS,
    ("osd", "test-reweight-by-utilization"): DEPENDS,
    ("osd", "crush", "weight-set", "ls"): "it shows something, and changes nothing",
    ("balancer",): DEPENDS,
    ("osd", "reweightn"): "it takes many reweights as one text: write 'ceph osd reweight' lines",
    ("osd", "crush", "tree"): "it shows something, and changes nothing",
    ("osd", "pool", "create"): "which id a new pool gets isn't known, and by it its groups are placed",
    ("osd", "pool", "rm"): "pools that end aren't foretold",
    ("osd", "pool", "delete"): "pools that end aren't foretold",
    (
        "osd",
        "erasure-code-profile",
    ): "profiles aren't foretold: what 'crush rule create-erasure' makes of one that is there is",
    ("osd", "crush", "class"): "classes without devices aren't foretold: 'crush set-device-class' makes one",
    ("osd", "crush", "rule", "rename"): "names of rules place nothing",
    ("osd", "tier"): "cache tiers aren't foretold",
    ("mgr",): "what the manager does isn't foretold",
    ("config",): "options aren't foretold",
    ("orch",): "what the orchestrator does, and when, isn't foretold",
    ("pg",): "what single groups do isn't foretold",
}


class Words:
    """The words of a command: the part that names it, arguments and options."""

    def __init__(self, name, arguments, options, file=None):
        self.name, self.arguments, self.options, self.file = name, arguments, options, file

    def is_sure(self):
        return any(it in SURE for it in self.options)

    def take(self, least, most, form):
        """Returns the arguments, of which the client of Ceph takes so many; where there are fewer
        than the most, None stands for them."""
        count = len(self.arguments)
        if count < least or most is not None and count > most:
            raise Refused("EINVAL", f"Invalid command: it is 'ceph {' '.join(self.name)} {form}'")
        return self.arguments if most is None else [*self.arguments, *[None] * (most - count)]


def table():
    """Returns the function of each command, by the words that name it."""
    from . import commands_crush, commands_osd, commands_pool, commands_rule, commands_set

    return {
        **commands_osd.COMMANDS,
        **commands_crush.COMMANDS,
        **commands_rule.COMMANDS,
        **commands_set.COMMANDS,
        **commands_pool.COMMANDS,
    }


def read_words(words, where):
    """Returns a command of a line: `words` as the shell has them. A Fault where it isn't one of
    'ceph' that is known."""
    own, options, file = list(words), [], None
    while own and own[0] in ("sudo", "-E"):
        own.pop(0)
    if own[:1] and own[0].rsplit("/", 1)[-1] == "systemctl":
        return read_systemctl(own[1:], where)
    if not own or own.pop(0).rsplit("/", 1)[-1] != "ceph":
        raise Fault(f"{where}: {' '.join(words)[:60]!r} is no command of 'ceph'")
    found, left = [], iter(own)
    for it in left:
        if it in ("-i", "--in-file"):
            file = next(left, None)
        elif it in VALUED:
            next(left, None)
        elif it.startswith("-") and not re.fullmatch(r"-\d.*", it):
            options.append(it)
        else:
            found.append(it)
    known = [*table(), *UNFORETOLD]
    name = next((tuple(found[:size]) for size in range(len(found), 0, -1) if tuple(found[:size]) in known), None)
    if name is None:
        said = " ".join(found)
        raise Fault(
            f"{where}: there is no command 'ceph {said[:60]}' here{nearest(said, [' '.join(it) for it in known])}"
        )
    odd = [it for it in options if it not in SURE and name not in UNFORETOLD]
    if odd:
        raise Fault(f"{where}: the option {odd[0]} of 'ceph {' '.join(name)}' isn't known here")
    return Words(name, found[len(name) :], options, file)


def read_systemctl(words, where):
    """Returns the start or the stop of OSDs' own processes."""
    units = [re.fullmatch(r"ceph-osd@(\d{1,9})(?:\.service)?", it) for it in words[1:]]
    if words[:1] not in (["stop"], ["start"]) or not units or None in units:
        raise Fault(
            f"{where}: 'systemctl {' '.join(words)[:50]}' isn't 'systemctl stop ceph-osd@N', nor 'systemctl start ..'"
        )
    return Words(("systemctl", words[0]), [it[1] for it in units], [])


def after(maps, words):
    """Returns the maps after a command, and what is to be said of it; Refused where Ceph refuses
    it, Unforetold where what it does isn't known."""
    if words.name in UNFORETOLD:
        raise Unforetold(UNFORETOLD[words.name])
    found = maps.copied()
    try:
        remarks = table()[words.name](found, words)
    except Refused as refused:
        refused.maps = found if refused.keeps else maps
        raise
    return found, [it for it in remarks or () if it]


def id_in(text):
    """Returns the id of an OSD, as 3 or osd.3, or None."""
    found = ID.fullmatch(text)
    return int(found[1]) if found else None


def osd_in(text):
    """Returns the id of an OSD; the client refuses what is none."""
    id_ = id_in(text)
    if id_ is None:
        raise Refused("EINVAL", f"Invalid command: {text} isn't the id of an OSD, as 3 or osd.3")
    return id_


def number_in(text, least=None, most=None):
    """Returns a number that the client takes."""
    try:
        found = float(text)
    except ValueError:
        raise Refused("EINVAL", f"Invalid command: {text} isn't a number") from None
    if found != found or least is not None and found < least or most is not None and found > most:
        raise Refused("EINVAL", f"Invalid command: {text} isn't in the range {least}..{'' if most is None else most}")
    return found


def counted_in(text):
    """Returns a whole number that the client takes."""
    if not re.fullmatch(r"\d{1,9}", text):
        raise Refused("EINVAL", f"error parsing integer value '{text}'")
    return int(text)
